# Headers of elements: the tag, the length, and in words what keeps one from being read.

import collections

# A header that can be read: where the contents begin and end. One that cannot: the place that
# counts as refused, and what stands there, in words.
Header = collections.namedtuple('Header', 'tag body end')
Flaw = collections.namedtuple('Flaw', 'place words')

UNIVERSAL = {1: 'BOOLEAN', 2: 'INTEGER', 3: 'BIT STRING', 4: 'OCTET STRING', 5: 'NULL',
             6: 'OBJECT IDENTIFIER', 10: 'ENUMERATED', 12: 'UTF8String', 16: 'SEQUENCE', 17: 'SET',
             19: 'PrintableString', 20: 'TeletexString', 22: 'IA5String', 23: 'UTCTime',
             24: 'GeneralizedTime', 30: 'BMPString'}
CONSTRUCTED = 0x20


def count(number, name):
    return f'{number} {name}' if number == 1 else f'{number} {name}s'


def tag_name(tag):
    """What a tag octet says, as ASN.1 writes it."""
    form = ', constructed' if tag & CONSTRUCTED else ', primitive'
    number = tag % 32
    if tag < 0x40:
        usual = number in (16, 17)
        return UNIVERSAL.get(number, f'[UNIVERSAL {number}]') + (
            '' if usual == bool(tag & CONSTRUCTED) else form)
    kind = ('APPLICATION ', '', 'PRIVATE ')[tag // 64 - 1]
    return f'[{kind}{number}]' + ('' if tag & CONSTRUCTED else form)


def tag_words(tag):
    return f'tag {tag:02x} ({tag_name(tag)})'


def tag_flaw(tag):
    """Why no element of a response may have this tag, in words, or nothing."""
    if tag % 32 == 31:
        return f'tag {tag:02x}, of number 31, which goes on in the next octet'
    if tag in (0x00, 0x20):
        return f'tag {tag:02x}, which no element has'
    return None


def header_at(octets, at, end, holder):
    """The header at an octet of a holder with this end and name, or what is wrong with it. Its
    octets count as they are met."""
    tag = octets[at]
    words = tag_words(tag)
    if tag_flaw(tag):
        return Flaw(at, tag_flaw(tag))
    if at + 1 == end:
        return Flaw(end, f'{words} at octet {at}, and no length behind it')
    length, body = octets[at + 1], at + 2
    if length >= 0x80:
        size = length - 0x80
        body += size
        if size == 0:
            return Flaw(at, f'{words} with length 80, the indefinite form')
        if size > 8:
            return Flaw(at, f'{words} with length {length:02x}: more than 8 length octets')
        if body > end:
            return Flaw(end, f'{words} at octet {at}, and its length cut off: '
                             f'{end - at - 2} of {count(size, "octet")} behind {length:02x}')
        written = octets[at + 1:body].hex(' ')
        length = int.from_bytes(octets[at + 2:body], 'big')
        if length < 0x80 or octets[at + 2] == 0:
            return Flaw(at, f'{words} with length {written}, not the shortest form of {length}')
    if length > end - body:
        return Flaw(at, f'{words} with a length of {count(length, "octet")}, '
                        f'where {holder} has only {end - body} left')
    return Header(tag, body, body + length)
