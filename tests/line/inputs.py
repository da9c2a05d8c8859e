"""Inputs for the program `room`, each with the line and the cache that it has to answer."""
import os
import subprocess
import sys

top = sys.argv[1]
SIZE, PLACES = 87, 64
EMPTY = bytes(SIZE * PLACES)


def card(name, serial):
    """A card: both hashes of one octet each, the serial's length, the serial and its fill."""
    return bytes([name]) * 20 + bytes([0x22]) * 20 + bytes([len(serial)]) + serial + bytes(20 - len(serial))


def slip(kind, about, this, until, more=b""):
    return bytes([kind]) + about + this.to_bytes(8, "big") + until.to_bytes(8, "big") + more


def cache(*places):
    """The places given, each filled up with zeros, and then empty ones."""
    filled = b"".join(p + bytes(SIZE - len(p)) for p in places)
    return filled + bytes(len(EMPTY) - len(filled))


def asked(operation, paper, octets, now=150, tolerance=0):
    header = bytes([operation]) + now.to_bytes(8, "big") + tolerance.to_bytes(8, "big")
    return header + bytes([len(paper)]) + paper + octets


ADA, BEN = card(0x11, b"\x05"), card(0x33, b"\x05")
good, later, older = slip(1, ADA, 100, 200), slip(1, ADA, 101, 300), slip(1, ADA, 99, 300)
revoked = slip(2, BEN, 100, 200, (90).to_bytes(8, "big") + b"\xff")
one = cache(good)
full = cache(*(slip(1, card(n + 1, b"\x05"), 100, 200) for n in range(PLACES)))
last = 253402300799

tries = [
    # a new cache
    ("new", b"\x00", "0000", EMPTY),
    ("new, and an octet behind it", b"\x00\x00", "0001", b""),
    # inputs that have not the form
    ("nothing", b"", "0001", b""),
    ("another operation", asked(4, b"", EMPTY), "0001", b""),
    ("another operation, no cache", asked(255, b"", b""), "0001", b""),
    ("a paper that is cut", asked(1, good, b"")[:-1], "0001", b""),
    # filing
    ("filed", asked(1, good, EMPTY), "000001", one),
    ("another card, same serial", asked(1, revoked, one), "000002", cache(good, revoked)),
    ("later", asked(1, later, one), "000001", cache(later)),
    ("a tie", asked(1, slip(3, ADA, 100, 300), one), "000001", cache(slip(3, ADA, 100, 300))),
    ("shorter over longer", asked(1, slip(1, BEN, 100, 300), cache(revoked)), "000001", cache(slip(1, BEN, 100, 300))),
    ("older", asked(1, older, one), "000001", one),
    ("a place at its last second", asked(1, revoked, one, 200), "000002", cache(good, revoked)),
    ("a stale place before an empty one", asked(1, revoked, one, 201), "000001", cache(revoked)),
    ("tolerated", asked(1, revoked, one, 201, 1), "000002", cache(good, revoked)),
    ("full", asked(1, slip(1, card(0xEE, b"\x05"), 100, 200), full, 200), "0014", b""),
    ("full, and stale", asked(1, slip(1, card(0xEE, b"\x05"), 100, 300), full, 201), "000040",
     slip(1, card(0xEE, b"\x05"), 100, 300) + bytes(9) + full[SIZE:]),
    ("a refusal's slip", asked(1, b"\x04\x04\x06", EMPTY), "0011", b""),
    ("no slip", asked(1, b"", EMPTY), "0011", b""),
    ("a slip and an octet", asked(1, good + b"\x00", EMPTY), "0011", b""),
    ("a bad serial in a slip", asked(1, slip(1, card(0x11, b"\x00\x05"), 100, 200), EMPTY), "0011", b""),
    ("the last second, the longest tolerance", asked(1, good, EMPTY, last, 3600), "000001", one),
    ("1 before 17: the time", asked(1, b"\x04\x04\x06", EMPTY, last + 1), "0001", b""),
    ("1 before 17: the tolerance", asked(1, b"", EMPTY, 150, 3601), "0001", b""),
    ("19 before 1", asked(1, good, EMPTY[1:], 150, 3601), "0013", b""),
    # asking
    ("held", asked(2, ADA, one), "0000" + good.hex(), b""),
    ("held in the last place", asked(2, card(64, b"\x05"), full), "0000" + full[63 * SIZE:63 * SIZE + 78].hex(), b""),
    ("revoked", asked(2, BEN, cache(good, revoked)), "0000" + revoked.hex(), b""),
    ("not held, same serial", asked(2, BEN, one), "0100", b""),
    ("early", asked(2, ADA, one, 99, 3600), "000f", b""),
    ("its last second", asked(2, ADA, one, 260, 60), "0000" + good.hex(), b""),
    ("late", asked(2, ADA, one, 261, 60), "0010", b""),
    ("a card of 60 octets", asked(2, ADA[:-1], one), "0001", b""),
    ("a card of 62 octets", asked(2, ADA + b"\x00", one), "0001", b""),
    ("a fill that is not zeros", asked(2, ADA[:-1] + b"\x01", one), "0001", b""),
    ("a time out of range", asked(2, BEN, one, last + 1), "0001", b""),
    ("a tolerance out of range", asked(2, BEN, one, 150, 1 << 63), "0001", b""),
    ("a card of 60 octets, no cache", asked(2, ADA[:-1], one[:-1]), "0013", b""),
    # the list
    ("marks", asked(3, b"", cache(good, b"", slip(3, BEN, 151, 200), slip(1, card(0x44, b"\x05"), 1, 149))),
     "0000" + "01000f10" + "00" * 60, b""),
    ("a paper for a list", asked(3, b"\x00", one), "0001", b""),
    ("a list out of range", asked(3, b"", one, 150, 3601), "0001", b""),
]
tries += [("a header of %d octets" % n, asked(op, b"", b"")[:n], "0001", b"") for op in (1, 2, 3) for n in range(1, 18)]
# no caches, to each operation
broken = {
    "no octet": b"",
    "an octet too few": one[:-1],
    "an octet too many": one + b"\x00",
    "many octets too many": one + bytes(70000),
    "a refusal's slip in a place": cache(b"\x04\x04\x06"),
    "kind 05": cache(b"\x05" + good[1:]),
    "a slip that breaks the rules": cache(slip(1, ADA, 200, 100)),
    "an octet behind a slip": cache(good + b"\x00" * 8 + b"\x01"),
    "an octet in an empty place": one[:-1] + b"\x01",
    "a card twice": cache(good, b"", later),
    "a card twice, first and last": one[:63 * SIZE] + later + bytes(9),
}
for name, octets in broken.items():
    for operation, paper in ((1, good), (2, BEN), (3, b"")):
        tries.append(("%s, operation %d" % (name, operation), asked(operation, paper, octets), "0013", b""))

failed = 0
for name, given, line, follows in tries:
    ran = subprocess.run([top + "/run", "room"], input=given, capture_output=True)
    wanted = line.encode() + b"\n" + follows
    if ran.returncode or ran.stdout != wanted or ran.stderr:
        failed = 1
        print("line: %s: status %d, given, then wanted:\n%s\n%s" % (name, ran.returncode, ran.stdout[:200], wanted[:200]))

# a read that fails, as of a folder: told on standard error, and the line of an input without a header
folder = os.open(top, os.O_RDONLY)
ran = subprocess.run([top + "/run", "room"], stdin=folder, capture_output=True)
os.close(folder)
if ran.stdout != b"0001\n" or not ran.stderr:
    failed = 1
    print("line: a read that fails: given %s and %s" % (ran.stdout[:200], ran.stderr[:200]))

print("line: %d inputs, %s" % (len(tries), "not each answered as it should be" if failed else "each answered as it should be"))
sys.exit(failed)
