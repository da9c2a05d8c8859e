# The layout of an OCSP response as data: the names of RFC 6960, the tag octets, and in words the
# contents that go with them. It says what is expected at an octet; whether a response fits is for
# the proved programs to say, and nothing here tests contents.

import collections

# A part of the layout: its name, the tag octets that it may have (none told: any), its contents in
# words, what it holds (nothing told: octets of its own), and whether it may be left out.
Part = collections.namedtuple('Part', 'name tags words holds optional',
                              defaults=['', None, False])
# What a part may hold: parts one after the other; items of one kind, so many of them; one of
# several parts in its stead; the basic response, where the type before it is the basic one; or
# any elements at all.
Fields = collections.namedtuple('Fields', 'parts')
Items = collections.namedtuple('Items', 'part least most')
Choice = collections.namedtuple('Choice', 'parts')
Basic = collections.namedtuple('Basic', 'part')
FREE = 'free'

# The longest response, and how many free elements lie one inside the other.
LONGEST, DEPTH = 16384, 16
BASIC_TYPE = bytes.fromhex('2b0601050507300101')
# Contents of responseStatus with which nothing follows it.
ERRORS = tuple(bytes([status]) for status in (1, 2, 3, 5, 6))

OID = ('contents of an OID, which is not empty, has no number that begins with 80, and ends with an '
       'octet below 80')
TIME = 'contents YYYYMMDDHHMMSSZ, a real time of the years 1970 to 9999'
HASH = '1 to 64 octets of contents'


def holder(name, tag, *parts, words='', optional=False):
    return Part(name, (tag,), words, Fields(parts), optional)


def choice(name, *parts):
    """One of several parts. A choice has no octets of its own: its name goes with the part's."""
    return Part(name, tuple(tag for part in parts for tag in part.tags), '',
                Choice([part._replace(name=f'{name}: {part.name}') for part in parts]))


def algorithm(name):
    return holder(name, 0x30, Part('algorithm', (0x06,), OID),
                  Part('parameters', (), '', FREE, True))


def extensions(name):
    return holder(name, 0xA1, Part('Extensions', (0x30,), '', Items(
        holder('Extension', 0x30,
               Part('extnID', (0x06,), OID + '; no OID twice in one list'),
               Part('critical', (0x01,), 'contents ff; FALSE is left out', None, True),
               Part('extnValue', (0x04,))), 1, 16)), optional=True)


CERT_ID = holder('certID', 0x30,
                 algorithm('hashAlgorithm'),
                 Part('issuerNameHash', (0x04,), HASH),
                 Part('issuerKeyHash', (0x04,), HASH),
                 Part('serialNumber', (0x02,),
                      '1 to 20 octets of contents, a number not below 0 in the shortest form'))
CERT_STATUS = choice('certStatus',
                     Part('good', (0x80,), 'no contents'),
                     holder('revoked', 0xA1,
                            Part('revocationTime', (0x18,), TIME),
                            holder('revocationReason', 0xA0,
                                   Part('CRLReason', (0x0A,), 'contents 00 to 0a, but not 07'),
                                   optional=True)),
                     Part('unknown', (0x82,), 'no contents'))
SINGLE_RESPONSE = holder('SingleResponse', 0x30,
                         CERT_ID,
                         CERT_STATUS,
                         Part('thisUpdate', (0x18,), TIME),
                         holder('nextUpdate', 0xA0, Part('GeneralizedTime', (0x18,), TIME),
                                optional=True),
                         extensions('singleExtensions'))
RESPONSE_DATA = holder('tbsResponseData', 0x30,
                       holder('version', 0xA0, Part('Version', (0x02,), 'contents 00, v1'),
                              optional=True),
                       choice('responderID',
                              holder('byName', 0xA1, Part('Name', (0x30,), '', FREE)),
                              holder('byKey', 0xA2,
                                     Part('KeyHash', (0x04,), '20 octets of contents'))),
                       Part('producedAt', (0x18,), TIME),
                       Part('responses', (0x30,), '', Items(SINGLE_RESPONSE, 0, 64)),
                       extensions('responseExtensions'))
BASIC_RESPONSE = holder('BasicOCSPResponse', 0x30,
                        RESPONSE_DATA,
                        algorithm('signatureAlgorithm'),
                        Part('signature', (0x03,), 'contents 00 and at least one octet more'),
                        holder('certs', 0xA0,
                               Part('SEQUENCE OF Certificate', (0x30,), '', Items(
                                   Part('Certificate', (0x30,), '', FREE), 0, 8)),
                               optional=True))
RESPONSE = holder('OCSPResponse', 0x30,
                  Part('responseStatus', (0x0A,), 'contents 00, 01, 02, 03, 05 or 06'),
                  holder('responseBytes', 0xA0, holder(
                      'ResponseBytes', 0x30,
                      Part('responseType', (0x06,), OID),
                      Part('response', (0x04,), '', Basic(BASIC_RESPONSE))),
                      words='which follows status 00'))
