"""A response as a tree of named pieces that can be altered, written and signed.

Pieces are written in DER unless one says otherwise (`form`), and the lengths around an altered piece
are made anew. Nothing here knows what the library takes or refuses.
"""

import copy
import hashlib


class Piece:
    """An element: its tag, and its octets or the pieces in it."""

    def __init__(self, tag, inside=b"", form="shortest"):
        self.tag = tag  # octets, or a number for a tag of one octet
        self.inside = inside
        self.form = form  # how its length is written: shortest, longer or indefinite

    def content(self):
        if isinstance(self.inside, bytes):
            return self.inside
        return b"".join(piece.octets() for piece in self.inside)

    def octets(self):
        content = self.content()
        tag = self.tag if isinstance(self.tag, bytes) else bytes([self.tag])
        if self.form == "indefinite":
            return tag + b"\x80" + content + b"\0\0"
        return tag + length(len(content), self.form == "longer") + content

    def add(self, piece):
        self.inside = self.inside + [piece]
        return self


class Raw:
    """Octets that are written as they are."""

    def __init__(self, octets):
        self.raw = octets

    def octets(self):
        return self.raw


def length(n, longer=False):
    """The length octets of n; `longer` takes one octet more than is needed."""
    if n < 128 and not longer:
        return bytes([n])
    count = (n.bit_length() + 7) // 8
    if longer and n >= 128:
        count += 1
    count = max(count, 1)
    return bytes([0x80 + count]) + n.to_bytes(count, "big")


def read(octets):
    """The pieces of a run of DER elements."""
    pieces = []
    while octets:
        tag, n, head = octets[0], octets[1], 2
        if n >= 128:
            head = 2 + n - 128
            n = int.from_bytes(octets[2:head], "big")
        inside, octets = octets[head : head + n], octets[head + n :]
        pieces.append(Piece(tag, read(inside) if tag & 0x20 else inside))
    return pieces


def seq(*pieces):
    return Piece(0x30, list(pieces))


class Response:
    """A basic response with one entry and one certificate, its pieces under their names."""

    # The pieces in document 01's layout: a name, then the names of what it holds.
    LAYOUT = (
        ("envelope", "status", "a0"),
        ("a0", "typed"),
        ("typed", "type", "string"),
        ("string", "basic"),
        ("basic", "signed", "algorithm", "signature", "certs0"),
        ("algorithm", "algorithm_oid", "algorithm_null"),
        ("certs0", "certs"),
        ("certs", "cert"),
        ("signed", "responder", "produced", "entries"),
        ("responder", "name"),
        ("entries", "entry"),
        ("entry", "certid", "standing", "this", "next0"),
        ("next0", "next"),
        ("certid", "hash_algorithm", "name_hash", "key_hash", "serial"),
        ("hash_algorithm", "hash_oid", "hash_null"),
    )

    def __init__(self, octets):
        (self.envelope,) = read(octets)
        self.after = b""
        for name, *held in self.LAYOUT:
            holder = getattr(self, name)
            if name == "string":
                holder.inside = read(holder.inside)
            if len(holder.inside) != len(held):
                raise SystemExit(f"strict: the base response has another layout at its {name}")
            for inner, piece in zip(held, holder.inside):
                setattr(self, inner, piece)

    def names(self):
        """The names of all pieces, outermost first."""
        return ["envelope"] + [inner for _, *held in self.LAYOUT for inner in held]

    def holders(self):
        """The names of the pieces that hold pieces of the layout."""
        return [name for name, *_ in self.LAYOUT]

    def constructed(self):
        """The names of the pieces whose tag says that they hold others."""
        return [name for name in self.names() if getattr(self, name).tag & 0x20]

    def holder(self, name):
        """The piece that holds this one, and the place in it."""
        for outer, *held in self.LAYOUT:
            if name in held:
                return getattr(self, outer), held.index(name)
        raise KeyError(name)

    def is_signed(self, name):
        """Whether this piece is the signed part or in it."""
        for outer, *held in self.LAYOUT:
            if name in held:
                return name == "signed" or self.is_signed(outer)
        return False

    def copy(self):
        return copy.deepcopy(self)

    def sign(self, key, octets):
        """Puts a signature over these octets in."""
        self.signature.inside = b"\0" + key.sign(octets)

    def octets(self):
        return self.envelope.octets() + self.after


class Key:
    """An RSA key from its PKCS #1 form; it signs with SHA-256."""

    DIGEST_INFO = bytes.fromhex("3031300d060960864801650304020105000420")

    def __init__(self, octets):
        (whole,) = read(octets)
        self.hash = hashlib.sha1(seq(whole.inside[1], whole.inside[2]).octets()).digest()
        numbers = [int.from_bytes(piece.inside, "big") for piece in whole.inside]
        self.made = {}
        self.n, self.p, self.q, self.dp, self.dq, self.qinv = (numbers[i] for i in (1, 4, 5, 6, 7, 8))

    def sign(self, octets):
        if octets not in self.made:
            self.made[octets] = self.signature(octets)
        return self.made[octets]

    def signature(self, octets):
        size = (self.n.bit_length() + 7) // 8
        told = self.DIGEST_INFO + hashlib.sha256(octets).digest()
        padded = b"\0\1" + b"\xff" * (size - len(told) - 3) + b"\0" + told
        m = int.from_bytes(padded, "big")
        by_p, by_q = pow(m, self.dp, self.p), pow(m, self.dq, self.q)
        return (by_q + self.q * ((self.qinv * (by_p - by_q)) % self.p)).to_bytes(size, "big")
