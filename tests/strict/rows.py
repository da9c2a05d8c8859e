"""The rows of the table: what is changed in a real responder's answer, and what document 01 says then,
document 02's C-12 (a written version) included.

    rows.py FOLDER

FOLDER has base.der, the answer; delegate.rsa and helper.rsa, the keys of the delegate that signed it
and of one without OCSPSigning (PKCS #1); and helper.der, that one's certificate. Writes there
stream.bin, a desk case for each row in the form of tests/README.md, and rows.tsv, a line for each: its
section, its group, and the slip that document 01 asks for.
"""

import sys
import time

from asked import Rows
from pieces import Piece, Raw, seq

OCSP = bytes.fromhex("2b06010505073001")
NONCE, ARCHIVE_CUTOFF, EXTENDED_REVOKE = OCSP + b"\x02", OCSP + b"\x06", OCSP + b"\x09"
NOBODYS = bytes.fromhex("2b060104018f651f")  # an OID that means nothing to anybody
SHA_1, SHA_256 = bytes.fromhex("2b0e03021a"), bytes.fromhex("608648016503040201")
NULL, TRUE, FALSE = Piece(0x05), Piece(0x01, b"\xff"), Piece(0x01, b"\0")
REASON = Piece(0x0A, b"\x01")


def at(seconds, form="%Y%m%d%H%M%SZ"):
    return Piece(0x18, time.strftime(form, time.gmtime(seconds)).encode())


def extension(oid, *critical):
    return seq(Piece(0x06, oid), *critical, Piece(0x04, b"\x05\x00"))


def listed(*extensions):
    return Piece(0xA1, [seq(*extensions)])


def many(count):
    return [extension(NOBODYS + bytes([i])) for i in range(count)]


def version(number, *more):
    return Piece(0xA0, [Piece(0x02, number), *more])


def revoked(since, *reason):
    return Piece(0xA1, [at(since), *(Piece(0xA0, [piece]) for piece in reason)])


# Changes: functions of a response.


def form(name, how):
    return lambda r: setattr(getattr(r, name), "form", how)


def content(name, inside):
    return lambda r: setattr(getattr(r, name), "inside", inside)


def tag(name, octets):
    return lambda r: setattr(getattr(r, name), "tag", octets)


def add(name, *pieces):
    return lambda r: getattr(r, name).inside.extend(pieces)


def before(name, *pieces):
    def change(r):
        holder, place = r.holder(name)
        holder.inside[place:place] = pieces

    return change


def time_at(name, seconds, form="%Y%m%d%H%M%SZ"):
    return content(name, at(seconds, form).inside)


def in_place(name, piece):
    def change(r):
        holder, place = r.holder(name)
        holder.inside[place] = piece

    return change


def without(name):
    def change(r):
        holder, place = r.holder(name)
        del holder.inside[place]

    return change


def by_key(key_hash):
    return in_place("responder", Piece(0xA2, [Piece(0x04, key_hash)]))


def other_card(r):
    """An entry for another card of the same issuer."""
    entry = r.copy().entry
    entry.inside[0].inside[3].inside = b"\x01\x02\x03"
    return entry


# Groups.


def taken(rows):
    since = rows.now - 7200
    rows.alter("as the responder made it", ["good"])
    group = "revoked, with a reason and without"
    rows.alter(group, ["revoked", since, 1], in_place("standing", revoked(since, REASON)))
    rows.alter(group, ["revoked", since, 255], in_place("standing", revoked(since)))
    rows.alter("unknown", ["unknown"], in_place("standing", Piece(0x82)))
    rows.alter("SHA-1 without parameters", ["good"], without("hash_null"))
    rows.alter("the responder told by its key", ["good"], by_key(rows.key.hash))
    rows.alter("the version written, 0", ["good"], before("responder", version(b"\0")))
    group = "critical extensions that are understood"
    understood = listed(extension(NONCE, TRUE), extension(EXTENDED_REVOKE, TRUE))
    rows.alter(group, ["good"], add("signed", understood))
    rows.alter(group, ["good"], add("entry", listed(extension(ARCHIVE_CUTOFF, TRUE))))
    group = "unknown extensions that are not critical"
    rows.alter(group, ["good"], add("signed", listed(extension(NOBODYS))))
    rows.alter(group, ["good"], add("entry", listed(extension(NOBODYS))))
    group = "past nextUpdate, within tolerance"
    rows.alter(group, ["good"], time_at("this", rows.now - 9999), time_at("next", rows.now - 100))


def lengths(rows):
    base = rows.base
    for how, what, names in (
        ("longer", "a length in one octet more than it needs", base.names()),
        ("indefinite", "an indefinite length", base.constructed()),
    ):
        inside = [name for name in names if base.is_signed(name)]
        for name in inside:
            rows.alter(f"{what}, in the signed part", 3, form(name, how))
        group = f"{what}, in the signed part, put in on the way"
        for name in inside:
            rows.alter(group, 3, form(name, how), on_the_way=True)
        for name in names:
            if name not in inside:
                rows.alter(f"{what}, outside the signed part", 3, form(name, how))


def left_over(rows):
    base = rows.base
    rows.alter("left-over octets after the response", 3, lambda r: setattr(r, "after", NULL.octets()))
    for name in base.holders():
        where = "in the signed part" if base.is_signed(name) else "outside the signed part"
        rows.alter(f"left-over octets at the end of a holder {where}", 3, add(name, NULL))
    group = "left-over octets at the end of a holder in the signed part"
    rows.alter(group, 3, in_place("standing", revoked(rows.now).add(NULL)))
    rows.alter(group, 3, in_place("standing", revoked(rows.now, Raw(REASON.octets() + NULL.octets()))))
    for name in ("signed", "entry"):
        one = extension(NOBODYS)
        rows.alter(group, 3, add(name, listed(one).add(NULL)))
        rows.alter(group, 3, add(name, listed(one, NULL)))
        rows.alter(group, 3, add(name, listed(extension(NOBODYS).add(NULL))))


def defaults(rows):
    group = "another version, or one in another form"
    zero = version(b"\0")
    others = [version(b"\1"), version(b"\0\0"), version(b""), version(b"\0", NULL)]
    others += [Piece(0xA0, []), Piece(0xA0, [Piece(0x0A, b"\0")])]
    others += [Piece(0xA0, zero.inside, "longer"), Piece(0xA1, zero.inside)]
    for other in others:
        rows.alter(group, 3, before("responder", other))
    rows.alter(group, 3, before("responder", zero, zero))
    rows.alter(group, 3, before("produced", zero))
    for name in ("signed", "entry"):
        rows.alter("critical FALSE written", 3, add(name, listed(extension(NOBODYS, FALSE))))
    for name in ("signed", "entry"):
        other_true = extension(NOBODYS, Piece(0x01, b"\1"))
        rows.alter("critical TRUE written as 01", 3, add(name, listed(other_true)))


def extension_lists(rows):
    for name in ("signed", "entry"):
        rows.alter("an OID twice in a list of extensions", 3, add(name, listed(*[extension(NONCE)] * 2)))
        rows.alter("an empty list of extensions", 3, add(name, listed()))
    group = "a critical extension of the response that is not understood"
    rows.alter(group, 9, add("signed", listed(extension(NOBODYS, TRUE))))
    rows.alter(group, 9, add("signed", listed(extension(ARCHIVE_CUTOFF, TRUE))))
    group = "a critical extension of the entry that is not understood"
    rows.alter(group, 12, add("entry", listed(extension(NOBODYS, TRUE))))
    rows.alter(group, 12, add("entry", listed(extension(NONCE, TRUE))))


def entries(rows):
    def another(*changes):
        r = rows.base.copy()
        for change in changes:
            change(r)
        return add("entries", r.entry)

    bad = in_place("standing", revoked(rows.now - 60, REASON))
    rows.alter("two entries for the card: good, then revoked", 11, another(bad))
    rows.alter("two entries for the card: revoked, then good", 11, bad, another())
    group = "two entries for the card: SHA-1 with 05 00, then without"
    rows.alter(group, 11, another(bad, without("hash_null")))
    wrong = bytes(20)
    group = "the same serial under another issuer"
    rows.alter(group, 10, content("name_hash", wrong))
    rows.alter(group, 10, content("key_hash", wrong))
    rows.alter(group, 10, content("name_hash", wrong), content("key_hash", wrong))
    group = "the same issuer with another serial"
    serial = rows.base.serial.inside
    rows.alter(group, 10, content("serial", serial[:-1] + bytes([serial[-1] ^ 1])))
    rows.alter(group, 10, content("serial", serial[:-1]))
    rows.alter(group, 10, content("serial", serial + b"\0"))
    rows.alter("no entry at all", 10, content("entries", []))
    rows.alter("a CertID with SHA-256 and the same octets", 10, content("hash_oid", SHA_256))


def times(rows):
    now = rows.now
    rows.alter("no nextUpdate", 13, without("next0"))
    rows.alter("nextUpdate before thisUpdate", 14, time_at("next", now - 9999))
    rows.alter("thisUpdate after now, by less than the tolerance", 15, time_at("this", now + 200))
    rows.alter("thisUpdate after now", 15, time_at("this", now + 7200))
    group = "past nextUpdate plus tolerance"
    rows.alter(group, 16, time_at("this", now - 9999), time_at("next", now - 900))
    group = "a time that is not YYYYMMDDHHMMSSZ of a real date"
    day = "%Y%m%d"
    for other in ("%H%M%S.5Z", "%H%M%S+0000", "%H%MZ", "%H%M%S", "%H%M%Sz", "%H%M60Z", "240000Z"):
        rows.alter(group, 3, time_at("next", now + 3600, day + other))
    rows.alter(group, 3, time_at("next", now + 3600, "%Y0230%H%M%SZ"))
    rows.alter("a UTCTime", 3, time_at("next", now + 3600, "%y%m%d%H%M%SZ"), tag("next", 0x17))


def contents(rows):
    group = "good or unknown that is not 80 00 or 82 00"
    for piece in (Piece(0x80, b"\0"), Piece(0xA0, []), Piece(0x82, b"\0"), Piece(0xA2, [])):
        rows.alter(group, 3, in_place("standing", piece))
    group = "a reason that is none: 7, 11, two octets"
    for inside in (b"\x07", b"\x0b", b"\0\x01"):
        rows.alter(group, 3, in_place("standing", revoked(rows.now, Piece(0x0A, inside))))
    group = "a serial that is negative, not minimal, empty or of 21 octets"
    for inside in (b"\x85", b"\0" + rows.base.serial.inside, b"", b"\x01" * 21):
        rows.alter(group, 3, content("serial", inside))
    group = "an OID that is empty, begins a part with 80, or ends within a part"
    for name in ("hash_oid", "algorithm_oid", "type"):
        whole = getattr(rows.base, name).inside
        for inside in (b"", whole[:-1] + b"\x80" + whole[-1:], whole + b"\x81"):
            rows.alter(group, 3, content(name, inside))
    group = "a signature with unused bits, or empty"
    for inside in (b"\x01" + rows.base.signature.inside[1:], b"\0", b""):
        response = rows.base.copy()
        response.signature.inside = inside
        rows.put(group, 3, response)


def tags(rows):
    rows.alter("a tag in the form of several octets", 3, tag("entry", b"\x3f\x10"))
    rows.alter("a tag in the form of several octets", 3, tag("basic", b"\x3f\x10"))
    for name in ("string", "name_hash"):
        inside = lambda r: [Piece(0x04, getattr(r, name).content())]
        rows.alter("a string in pieces", 3, lambda r: in_place(name, Piece(0x24, inside(r)))(r))
        rows.alter("a string in pieces", 3, lambda r: in_place(name, Piece(0x24, inside(r), "indefinite"))(r))


def envelopes(rows):
    for status in (1, 2, 3, 5, 6):
        rows.put("an error status", ["status", status], rows.base, seq(Piece(0x0A, bytes([status]))).octets())
    for status in (4, 7):
        rows.put("a status that is none: 4, 7", 3, rows.base, seq(Piece(0x0A, bytes([status]))).octets())
    rows.alter("an error status, then a good answer", 3, content("status", b"\x06"))
    rows.put("status 0 and no answer", 3, rows.base, seq(Piece(0x0A, b"\0")).octets())
    rows.alter("a response type that is not the basic one", 5, content("type", OCSP + b"\x03"))


def cut_off(rows):
    whole = rows.base.octets()
    for end in range(len(whole)):
        rows.put("cut off, after each of its octets", 3, rows.base, whole[:end])


def signers(rows):
    response = rows.base.copy()
    signature = response.signature.inside
    response.signature.inside = signature[:-1] + bytes([signature[-1] ^ 1])
    rows.put("a signature that is not valid", 6, response, verdict=2)
    rows.alter("another responder's name than the signer's", 7, lambda r: r.name.inside.pop())
    rows.alter("another responder's key than the signer's", 7, by_key(rows.helper_key.hash))
    subject = rows.helper.inside[0].inside[5]
    helper = (in_place("cert", rows.helper), in_place("name", subject))
    words = {"key": rows.helper_key, "name": subject, "marks": 5}
    rows.alter("a delegate without OCSPSigning", 8, *helper, **words)


def limits(rows):
    def deep(levels):
        piece = Piece(0x30, [])
        for _ in range(levels - 1):
            piece = seq(piece)

        def change(r):
            entry = other_card(r)
            entry.inside[0].inside[0].inside[1] = piece
            r.entries.inside.append(entry)

        return change

    def others(count):
        return lambda r: r.entries.inside.extend([other_card(r)] * count)

    def sized(total):
        """Pads the response to so many octets."""

        def change(r):
            filler = Piece(0x04, b"")
            r.signed.inside.append(listed(seq(Piece(0x06, NOBODYS), filler)))
            filler.inside = bytes(total - len(r.octets()) - 40)
            while len(r.octets()) < total:
                filler.inside += b"\0"

        return change

    def certificates(count):
        return lambda r: r.certs.inside.extend([r.cert] * (count - 1))

    at_limit = "at a limit: 64 entries, 8 certificates, 16 extensions, 16 deep, 16,384 octets"
    past = "past a limit: 65 entries, 9 certificates, 17 extensions, 17 deep"
    for group, answer, more in ((at_limit, ["good"], 0), (past, 3, 1)):
        rows.alter(group, answer, others(63 + more))
        rows.alter(group, answer, certificates(8 + more))
        rows.alter(group, answer, add("signed", listed(*many(16 + more))))
        rows.alter(group, answer, deep(16 + more))
    rows.alter(at_limit, ["good"], sized(16384))
    rows.alter("16,385 octets", 2, sized(16385))


SECTIONS = {
    "Answers": (taken,),
    "Octets": (lengths, left_over, defaults, contents, tags),
    "What the response says": (extension_lists, entries, times, envelopes, signers),
    "Cut off": (cut_off,),
    "Limits of this library": (limits,),
}


def main():
    rows = Rows(sys.argv[1])
    for rows.section, groups in SECTIONS.items():
        for group in groups:
            group(rows)
    rows.write()


main()
