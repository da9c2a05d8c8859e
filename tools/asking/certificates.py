# Certificates: the little of their DER that a question needs.

import base64
import collections
import hashlib
import re

from .values import BadUse, file_octets

Certificate = collections.namedtuple('Certificate', 'serial issuer subject key_hash')


def elements(octets):
    """The DER elements in a row: tag, content, and the whole with its header."""
    found = []
    at = 0
    while at < len(octets):
        start = at + 2
        length = octets[at + 1]
        if length == 0x80:
            raise ValueError
        if length > 0x80:
            start += length - 0x80
            length = int.from_bytes(octets[at + 2:start], 'big')
        end = start + length
        if end > len(octets):
            raise ValueError
        found.append((octets[at], octets[start:end], octets[at:end]))
        at = end
    return found


def certificate(option, path):
    """What a question takes from a certificate in PEM or DER: of several in a file, the first."""
    octets = file_octets(path)
    pem = re.search(b'-----BEGIN CERTIFICATE-----(.*?)-----END CERTIFICATE-----', octets, re.S)
    try:
        if pem:
            octets = base64.b64decode(pem.group(1))
        (_, outer, _), = elements(octets)
        fields = elements(elements(outer)[0][1])
        if fields[0][0] == 0xA0:
            del fields[0]
        serial, _, issuer, _, subject, key = fields[:6]
        _, bits = elements(key[1])
        if (serial[0], issuer[0], subject[0], bits[0]) != (0x02, 0x30, 0x30, 0x03):
            raise ValueError
    except (IndexError, ValueError):
        raise BadUse(f'{option}: {path} holds no certificate in PEM or DER') from None
    return Certificate(serial[1], issuer[2], subject[2], hashlib.sha1(bits[1][1:]).digest())
