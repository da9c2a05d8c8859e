# The words for what the programs say: refusals, statuses, reasons, roles and marks; times and rows.

import datetime

# What each refusal means. {status} stands where the response's own status goes, {entry} where it is
# told what has the times: the response's entry for the card, or the slip in a cache.
REFUSALS = {
    1: 'the question is out of range',
    2: 'the response is longer than 16,384 octets',
    3: "the response's octets do not fit the layout of an OCSP response",
    4: 'the responder sent an error and no answer: {status}',
    5: 'the response is of another type than the basic one',
    6: "the response's signature is not known to be valid",
    7: 'the response names another signer than the question does',
    8: 'a delegate signed, and one of its three marks is missing',
    9: 'the response has a critical extension that is not understood',
    10: 'no entry of the response is for this card',
    11: 'two or more entries of the response are for this card',
    12: "this card's entry has a critical extension that is not understood",
    13: "this card's entry does not say until when it counts: it has no nextUpdate",
    14: "this card's entry has its nextUpdate before its thisUpdate",
    15: "this card's {entry} does not count yet: its thisUpdate is after now",
    16: "this card's {entry} is out of date: now is after its nextUpdate plus the tolerance",
    17: 'the slip, or the answer to be written as one, breaks the slip rules',
    18: 'a buffer to be written is too short',
    19: "the octets are not a room's cache",
    20: "no place of the room's cache is free for this card: none is empty or stale",
}
CACHE_REFUSALS = """\
A room's cache gives 1 for a card, a time or a tolerance out of range; 15 and 16 by the slip that it
holds for the card; 17 also for a slip of kind 04, a refusal; 19 before all others."""
CLOSED = 'The desk has no answer about this card. The folio stays closed.'

STATUSES = {1: 'malformed request', 2: 'internal error', 3: 'try later', 5: 'signature required',
            6: 'unauthorized'}
REASONS = {0: 'unspecified', 1: 'key compromise', 2: 'CA compromise', 3: 'affiliation changed',
           4: 'superseded', 5: 'cessation of operation', 6: 'certificate hold',
           8: 'remove from CRL', 9: 'privilege withdrawn', 10: 'AA compromise'}
NO_REASON = 0xFF

VERDICTS = {'untried': 0, 'valid': 1, 'invalid': 2}
CA, DELEGATE, LOCAL = 1, 2, 3
ROLES = {'ca': CA, 'delegate': DELEGATE, 'local': LOCAL}
MARKS = {'issued': 1, 'usage': 2, 'current': 4}

VERDICT_WORDS = {0: 'not tried', 1: 'valid, as the asker says', 2: 'not valid, as the asker says'}
ROLE_WORDS = {CA: 'the issuing CA', DELEGATE: 'a delegate of the CA', LOCAL: 'trusted locally'}

# 9999-12-31T23:59:59Z, the last time that a question or a slip may have.
LAST_TIME = 253402300799


def utc(seconds):
    """Seconds since 1970 as a UTC time; seconds past the last time stay a number."""
    if seconds > LAST_TIME:
        return f'{seconds} seconds since 1970'
    start = datetime.datetime(1970, 1, 1)
    return (start + datetime.timedelta(seconds=seconds)).isoformat() + 'Z'


def row(name, words):
    return f'  {name:<12}{words}'


def wrapped(pieces, width):
    """Pieces in lines with a space between, broken between two pieces alone."""
    lines = ['']
    for piece in pieces:
        if lines[-1] and len(lines[-1]) + 1 + len(piece) > width:
            lines.append(piece)
        else:
            lines[-1] = f'{lines[-1]} {piece}'.lstrip()
    return lines


def rows(name, lines):
    """A row of several lines."""
    return [row('' if number else name, line).rstrip() for number, line in enumerate(lines)]


def below(words):
    """Words as lines below another."""
    return ['  ' + line for line in words]


def refusal_words(refusal, status=0, entry='entry'):
    words = f'status {status}, {STATUSES[status]}' if status else 'its status says which'
    return REFUSALS[refusal].format(status=words, entry=entry)


def refused(refusal, *more):
    """The first line of a refusal."""
    return f'refused, number {refusal}: {refusal_words(refusal, *more)}'
