# Slips: the rules that their octets keep, and what they say in words.

import collections

from .questions import Card, card_rows, serial_fault
from .words import CLOSED, LAST_TIME, NO_REASON, REASONS, STATUSES, refused, row, utc

GOOD, REVOKED, UNKNOWN, REFUSED = 1, 2, 3, 4
LENGTHS = {GOOD: 78, REVOKED: 87, UNKNOWN: 78, REFUSED: 3}
KINDS = {GOOD: ('good', 'the responder says that this card is good'),
         REVOKED: ('revoked', 'the responder says that this card is revoked'),
         UNKNOWN: ('unknown', 'the responder does not know this card')}
Slip = collections.namedtuple('Slip', 'kind card this next revoked reason number status',
                              defaults=[None] * 7)


class Broken(Exception):
    """Octets that break the slip rules, with the rule in words."""


def keep(holds, words):
    if not holds:
        raise Broken(words)


def slip_of(octets):
    """The slip that the octets are, held to every slip rule."""
    keep(octets, 'it is empty')
    kind = octets[0]
    keep(kind in LENGTHS, f'there is no kind {kind:02x}')
    keep(len(octets) == LENGTHS[kind],
         f'a slip of kind {kind:02x} has {LENGTHS[kind]} octets, this one {len(octets)}')
    if kind == REFUSED:
        refusal, status = octets[1], octets[2]
        keep(1 <= refusal <= 16, f'a slip has no refusal {refusal}')
        keep(status in STATUSES if refusal == 4 else status == 0,
             f'refusal {refusal} does not go with status {status}')
        return Slip(kind, number=refusal, status=status)
    size = octets[41]
    card = Card(octets[1:21], octets[21:41], octets[42:62][:size])
    fault = 'the serial has not 1 to 20 octets' if size > 20 else serial_fault(card.serial)
    keep(not fault, fault)
    keep(not any(octets[42 + size:62]), "the serial's fill is not zeros")
    times = [int.from_bytes(octets[at:at + 8], 'big') for at in (62, 70, 78)]
    this, following, revoked = times if kind == REVOKED else times[:2] + [0]
    keep(max(this, following, revoked) <= LAST_TIME, 'a time is after 9999-12-31T23:59:59Z')
    keep(this <= following, 'thisUpdate is after nextUpdate')
    if kind != REVOKED:
        return Slip(kind, card, this, following)
    reason = octets[86]
    keep(reason in REASONS or reason == NO_REASON, f'there is no reason {reason}')
    return Slip(kind, card, this, following, revoked, reason)


def slip_rows(slip):
    """What an answer says of its card, in rows."""
    lines = card_rows(slip.card)
    if slip.kind == REVOKED:
        reason = 'no reason given'
        if slip.reason != NO_REASON:
            reason = f'{REASONS[slip.reason]} ({slip.reason})'
        lines += [row('revoked at', utc(slip.revoked)), row('reason', reason)]
    return lines + [row('thisUpdate', utc(slip.this)), row('nextUpdate', utc(slip.next))]


def slip_words(slip):
    """The lines that say what a slip says."""
    if slip.kind == REFUSED:
        return [refused(slip.number, slip.status), f'  {CLOSED}']
    closed = [] if slip.kind == GOOD else ['  The folio stays closed.']
    return [': '.join(KINDS[slip.kind])] + closed + slip_rows(slip)


def status_of(slip):
    """The exit status that goes with a slip."""
    return 0 if slip.kind == GOOD else 1
