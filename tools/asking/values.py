# The values of options: hex, numbers, names, marks, times and files; what is told of a bad one.

import contextlib
import datetime
import re
import sys
import time

from .words import MARKS


class BadUse(Exception):
    """A value that no field can hold, or a use that makes no sense."""


def complain(words):
    print(f'ask: {words}', file=sys.stderr)


def hex_octets(option, word):
    digits = re.sub(r'[\s:]', '', word)
    if re.search('[^0-9a-fA-F]', digits):
        raise BadUse(f'{option}: {word!r} is not hex; allowed are 0-9, a-f, colons and spaces')
    if len(digits) % 2:
        raise BadUse(f'{option}: {word!r} has an odd number of hex digits; each octet takes two, '
                     'so five is 05')
    return bytes.fromhex(digits)


def sized(option, octets, least, most):
    """The octets, where a field holds so many."""
    if not least <= len(octets) <= most:
        allowed = 'exactly' if least == most else 'at most'
        raise BadUse(f'{option}: the field holds {allowed} {most} octets, as {2 * most} hex digits; '
                     f'given are {len(octets)} octets')
    return octets


def hash_octets(option, word):
    return sized(option, hex_octets(option, word), 20, 20)


def number(option, word, most, also=''):
    if not re.fullmatch('[0-9]{1,20}', word) or int(word) > most:
        raise BadUse(f'{option}: {word!r} is not allowed; '
                     f'allowed is {also}a number from 0 to {most}')
    return int(word)


def named(option, word, names):
    """A value of one octet, by its name or as a number."""
    if word in names:
        return names[word]
    return number(option, word, 255, ', '.join(names) + ' or ')


def marks_value(word):
    if word in ('all', 'none'):
        return 7 if word == 'all' else 0
    parts = word.split(',')
    if all(part in MARKS for part in parts):
        return sum(MARKS[part] for part in set(parts))
    return number('--marks', word, 255,
                  'a list such as issued,usage,current, or all, or none, or ')


def seconds_value(word):
    if word == 'now':
        return int(time.time())
    if re.fullmatch('[0-9]+', word):
        return number('--now', word, 2**64 - 1)
    two = '([0-9]{2})'
    found = (re.fullmatch(f'([0-9]{{4}})-{two}-{two}T{two}:{two}:{two}Z', word)
             or re.fullmatch(f'([0-9]{{4}}){two * 5}Z', word))
    try:
        when = datetime.datetime(*map(int, found.groups()))
    except (AttributeError, ValueError):
        raise BadUse(f'--now: {word!r} is no time; write a UTC time as 2005-05-01T01:00:00Z, '
                     'or seconds since 1970, or now') from None
    if when.year < 1970:
        raise BadUse(f'--now: {word!r} is before 1970; the field holds no such time')
    return int((when - datetime.datetime(1970, 1, 1)).total_seconds())


@contextlib.contextmanager
def told(words):
    """Tells a file's error after these words."""
    try:
        yield
    except OSError as error:
        raise BadUse(f'{words}: {error.strerror}') from None


def file_octets(path):
    with told(f'cannot read {path}'):
        if path == '-':
            return sys.stdin.buffer.read()
        with open(path, 'rb') as file:
            return file.read()
