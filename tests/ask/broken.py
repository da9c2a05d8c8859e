#!/usr/bin/env python3
# broken.py FOLDER: writes responses that are refused with number 3 to FOLDER, each as NAME.der with
# its place in NAME.place. The places are written by hand, by document 02 and the readings of it in
# docs/DECISIONS.md; tests/ask/run holds the proved program to them too, where it is built.
#
# Each case has the end of the path, what is expected and what is found, as ./ask says them.

import collections
import os
import sys

PUBLISHED = os.path.join(os.path.dirname(os.path.realpath(__file__)), '..', 'published')
Case = collections.namedtuple('Case', 'octets place path expected found')


def published(name):
    with open(os.path.join(PUBLISHED, name), 'rb') as file:
        return file.read()


def changed(name, at, octet):
    octets = published(name)
    return octets[:at] + bytes([octet]) + octets[at + 1:]


def element(tag, *parts):
    """An element in DER."""
    contents = b''.join(parts)
    size = len(contents)
    length = size.to_bytes(1 + (size > 255), 'big')
    if size > 127:
        length = bytes([0x80 + len(length)]) + length
    return bytes([tag]) + length + contents


TIME = element(0x18, b'20050501010000Z')
SHA_1 = bytes.fromhex('06052b0e03021a')
HASH = element(0x04, b'\x11' * 20)
GOOD = bytes.fromhex('8000')
NULL = bytes.fromhex('0500')
KEY = element(0xA2, HASH)
SIGNATURE = bytes.fromhex('300d06092a864886f70d01010b05000303000102')


def entry(parameters=NULL, status=GOOD, more=b''):
    return element(0x30, element(0x30, element(0x30, SHA_1, parameters), HASH, HASH,
                                 bytes.fromhex('020105')), status, TIME, more)


def extension(oid, *more):
    return element(0x30, element(0x06, bytes.fromhex(oid)), *(more or [bytes.fromhex('0400')]))


def extensions(*items):
    return element(0xA1, element(0x30, *items))


def envelope(kind, inner):
    return element(0x30, bytes.fromhex('0a0100'),
                   element(0xA0, element(0x30, element(0x06, bytes.fromhex(kind)),
                                         element(0x04, inner))))


def basic(head=KEY, entries=(), more=b'', behind=b'', time=TIME):
    signed = element(0x30, head, time, element(0x30, *entries), more)
    return envelope('2b0601050507300101', element(0x30, signed, SIGNATURE, behind))


def at(octets, mark, path, expected, found, behind=False):
    """A case whose place is that of some octets that stand there once, or their end."""
    mark = bytes.fromhex(mark) if isinstance(mark, str) else mark
    assert octets.count(mark) == 1
    return Case(octets, octets.index(mark) + (len(mark) if behind else 0), path, expected, found)


def plain(octets, place, path, expected, found):
    return Case(bytes.fromhex(octets), place, path, expected, found)


ARMY = 'cryptography-vectors-ocsp-army.deps.mil-resp.der'
WHOLE, STATUS = 'OCSPResponse: tag 30 (SEQUENCE)', 'OCSPResponse > responseStatus'
WANTED = 'responseStatus: tag 0a (ENUMERATED), contents 00, 01, 02, 03, 05 or 06'
AN_OID = ('tag 06 (OBJECT IDENTIFIER), contents of an OID, which is not empty, has no number that '
          'begins with 80, and ends with an octet below 80')
A_TIME = 'tag 18 (GeneralizedTime), contents YYYYMMDDHHMMSSZ, a real time of the years 1970 to 9999'
ANY = 'any element, with a tag of one octet and a length in the shortest form'
NESTED = element(0x30)
for _ in range(16):
    NESTED = element(0x30, NESTED)
MARKUP = element(0x18, b'<a b=\'&\'>"]]>--')
BEHIND_BASIC = envelope('2b0601050507300101', b'\x30')

CASES = {
    # The envelope.
    'empty': plain('', 0, 'OCSPResponse', WHOLE, 'nothing: the whole response ends here'),
    'status': Case(published('cryptography-vectors-resp-unknown-response-status.der'), 2, STATUS,
                   WANTED, 'tag 0a (ENUMERATED), 1 octet of contents: 07'),
    'missing': Case(published('cryptography-vectors-resp-successful-no-response-bytes.der'), 5,
                    'OCSPResponse > responseBytes',
                    'responseBytes: tag a0 ([0]), which follows status 00',
                    'nothing: OCSPResponse ends here'),
    'other-tag': plain('3003020106', 2, STATUS, WANTED,
                       'tag 02 (INTEGER), 1 octet of contents: 06'),
    'left-inside': plain('30050a01060500', 5, 'OCSPResponse > left-over octets',
                         'the end of OCSPResponse: nothing follows status 06',
                         '2 octets left over behind responseStatus'),
    'left-behind': plain('30030a010605', 5, 'left-over octets', 'the end of the whole response',
                         '1 octet left over behind OCSPResponse'),
    'type': at(envelope('2b80', b''), '06022b80', 'ResponseBytes > responseType',
               f'responseType: {AN_OID}',
               'tag 06 (OBJECT IDENTIFIER), 2 octets of contents: 2b 80'),
    'no-basic': Case(envelope('2b0601050507300101', b''), 22, 'response > BasicOCSPResponse',
                     'BasicOCSPResponse: tag 30 (SEQUENCE)', 'nothing: response ends here'),
    # The basic response is cut off, and octets are left over behind the envelope: at one octet.
    'envelope-first': Case(BEHIND_BASIC + b'\x05', 23, 'left-over octets',
                           'the end of the whole response',
                           '1 octet left over behind OCSPResponse'),
    # Headers.
    'tag-31': plain('1f', 0, 'OCSPResponse', WHOLE,
                    'tag 1f, of number 31, which goes on in the next octet'),
    'tag-0': plain('20030a0106', 0, 'OCSPResponse', WHOLE, 'tag 20, which no element has'),
    'no-length': plain('30010a', 3, STATUS, WANTED,
                       'tag 0a (ENUMERATED) at octet 2, and no length behind it'),
    'length-cut': plain('308201', 3, 'OCSPResponse', WHOLE,
                        'tag 30 (SEQUENCE) at octet 0, and its length cut off: '
                        '1 of 2 octets behind 82'),
    'indefinite': plain('30800a01060000', 0, 'OCSPResponse', WHOLE,
                        'tag 30 (SEQUENCE) with length 80, the indefinite form'),
    'long-length': plain('3089', 0, 'OCSPResponse', WHOLE,
                         'tag 30 (SEQUENCE) with length 89: more than 8 length octets'),
    'not-shortest': plain('3081030a0106', 0, 'OCSPResponse', WHOLE,
                          'tag 30 (SEQUENCE) with length 81 03, not the shortest form of 3'),
    'overrun': plain('30030a0206', 2, STATUS, WANTED,
                     'tag 0a (ENUMERATED) with a length of 2 octets, where OCSPResponse has only '
                     '1 left'),
    # The signed part.
    'version': at(basic(bytes.fromhex('a003020101') + KEY), '020101',
                  'tbsResponseData > version > Version',
                  'Version: tag 02 (INTEGER), contents 00, v1',
                  'tag 02 (INTEGER), 1 octet of contents: 01'),
    'responder': at(basic(element(0xA3, HASH)), element(0xA3, HASH),
                    'tbsResponseData > responderID',
                    'version: tag a0 ([0]), or responderID: tag a1 ([1]) or tag a2 ([2])',
                    'tag a3 ([3]), 22 octets of contents'),
    'day': Case(changed(ARMY, 616, 0x33), 608, 'SingleResponse 5 > thisUpdate',
                f'thisUpdate: {A_TIME}',
                'tag 18 (GeneralizedTime), 15 octets of contents: 20200232000000Z'),
    'utc-time': Case(published('cfssl-response.der'), 139, 'tbsResponseData > producedAt',
                     f'producedAt: {A_TIME}',
                     'tag 17 (UTCTime), 17 octets of contents: 150422192500-0400'),
    'markup': at(basic(time=MARKUP), MARKUP, 'tbsResponseData > producedAt',
                 f'producedAt: {A_TIME}',
                 'tag 18 (GeneralizedTime), 15 octets of contents: <a b=\'&\'>"]]>--'),
    'parameters': at(basic(entries=[entry(), entry(), entry(b'\x9f')]), '9f',
                     'SingleResponse 3 > certID > hashAlgorithm > parameters', f'parameters: {ANY}',
                     'tag 9f, of number 31, which goes on in the next octet'),
    'left-in-entry': at(basic(entries=[entry(more=bytes.fromhex('13024e4f'))]), '13024e4f',
                        'SingleResponse 1 > left-over octets',
                        'nextUpdate: tag a0 ([0]), or singleExtensions: tag a1 ([1]), '
                        'or the end of SingleResponse 1',
                        '4 octets left over behind thisUpdate'),
    'reason': at(basic(entries=[entry(status=element(0xA1, TIME, bytes.fromhex('a0030a0107')))]),
                 '0a0107', 'certStatus: revoked > revocationReason > CRLReason',
                 'CRLReason: tag 0a (ENUMERATED), contents 00 to 0a, but not 07',
                 'tag 0a (ENUMERATED), 1 octet of contents: 07'),
    'no-extension': at(basic(more=extensions()), 'a1023000',
                       'responseExtensions > Extensions > Extension 1',
                       'Extension 1: tag 30 (SEQUENCE)', 'nothing: Extensions ends here', True),
    'repeated': at(basic(more=extensions(extension('2a03'), extension('2a04'),
                                         extension('2a03', b'\x05'))),
                   '06022a0305', 'Extension 3 > extnID', f'extnID: {AN_OID}; no OID twice in one list',
                   'tag 06 (OBJECT IDENTIFIER), 2 octets of contents: 2a 03, as in Extension 1'),
    'false': at(basic(more=extensions(extension('2a03', bytes.fromhex('0101000400')))), '010100',
                'Extension 1 > critical',
                'critical: tag 01 (BOOLEAN), contents ff; FALSE is left out',
                'tag 01 (BOOLEAN), 1 octet of contents: 00'),
    # Limits of number and depth.
    'entry-65': at(basic(entries=[entry()] * 64 + [b'\x1f']), '1f', 'responses > SingleResponse 65',
                   'the end of responses: it has at most 64 items',
                   'tag 1f ([UNIVERSAL 31]), one too many'),
    'deep': at(basic(element(0xA1, NESTED)), '3000180f',
               'Name' + ' > element 1' * 16,
               'nothing: at most 16 elements lie one inside the other',
               'tag 30 (SEQUENCE), one too many'),
    # A free element.
    'certificate': Case(changed('openssl-D1.der', 675, 0x1F), 675,
                        'Certificate 1 > element 1 > element 6 > element 2 > element 1 > element 2',
                        f'element 2: {ANY}',
                        'tag 1f, of number 31, which goes on in the next octet'),
    'certificate-cut': at(basic(behind=element(0xA0, element(0x30, element(0x30, b'\x04\x82\x01')))),
                          '048201', 'Certificate 1 > element 1', f'element 1: {ANY}',
                          'tag 04 (OCTET STRING) at octet 95, and its length cut off: '
                          '1 of 2 octets behind 82', True),
}


def main(folder):
    for name, case in CASES.items():
        with open(os.path.join(folder, f'{name}.der'), 'wb') as file:
            file.write(case.octets)
        with open(os.path.join(folder, f'{name}.place'), 'w', encoding='ascii') as file:
            file.write(f'{case.place}\n')


if __name__ == '__main__':
    main(sys.argv[1])
