"""The questions that are asked about altered responses, and the slips that document 01 asks for."""

import calendar
import time

from pieces import Key, Response, read

TOLERANCE = 300


class Rows:
    """The rows of the table, put together one by one from the base response in a folder."""

    def __init__(self, folder):
        def octets(name):
            with open(f"{folder}/{name}", "rb") as file:
                return file.read()

        self.folder = folder
        self.base = Response(octets("base.der"))
        self.key, self.helper_key = Key(octets("delegate.rsa")), Key(octets("helper.rsa"))
        (self.helper,) = read(octets("helper.der"))
        self.now = int(time.time())
        self.section = ""
        self.lines, self.stream = [], []

    def card(self):
        serial = self.base.serial.inside
        hashes = self.base.name_hash.inside + self.base.key_hash.inside
        return hashes + bytes([len(serial)]) + serial.ljust(20, b"\0")

    def question(self, verdict, marks, key, name):
        """The signer is a delegate with this key and this Name."""
        numbers = number(self.now, 8) + number(TOLERANCE, 2) + bytes([verdict, 2, marks])
        return b"\x51" + self.card() + numbers + key.hash + number(len(name), 2) + name.ljust(256, b"\0")

    def slip(self, answer, response):
        """The slip of an answer: a refusal's number, ("status", N), or a kind and what goes with it."""
        if isinstance(answer, int):
            return bytes([4, answer, 0])
        kind, *rest = answer
        if kind == "status":
            return bytes([4, 4, *rest])
        slip = bytes([("good", "revoked", "unknown").index(kind) + 1]) + self.card()
        slip += number(seconds(response.this), 8) + number(seconds(response.next), 8)
        return slip + number(rest[0], 8) + bytes([rest[1]]) if rest else slip

    def put(self, group, answer, response, octets=None, verdict=1, marks=7, key=None, name=None):
        """A row: a response as it is, or other octets in its place."""
        octets = response.octets() if octets is None else octets
        name = (name or self.base.name).octets()
        body = self.question(verdict, marks, key or self.key, name) + octets
        self.stream += [b"\x01", number(len(body), 4), body]
        self.lines.append(f"{self.section}\t{group}\t{self.slip(answer, response).hex()}\n")

    def alter(self, group, answer, *changes, on_the_way=False, **words):
        """A row: the base response after these changes.

        It is signed as it then stands, or, changed on its way to the desk, as it stood before.
        """
        response = self.base.copy()
        for change in changes:
            change(response)
        signed = self.base.signed if on_the_way else response.signed
        response.sign(words.get("key", self.key), signed.octets())
        self.put(group, answer, response, **words)

    def write(self):
        with open(f"{self.folder}/stream.bin", "wb") as file:
            file.write(b"".join(self.stream))
        with open(f"{self.folder}/rows.tsv", "w", encoding="ascii") as file:
            file.writelines(self.lines)


def number(value, size):
    return value.to_bytes(size, "big")


def seconds(piece):
    return calendar.timegm(time.strptime(piece.inside.decode(), "%Y%m%d%H%M%SZ"))
