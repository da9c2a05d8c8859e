# Places of a cache: the rules that its octets keep.

from .slips import KINDS, LENGTHS, Broken, keep, slip_of

PLACES, PLACE = 64, 87
CACHE = PLACES * PLACE
# What the program `room` says of a place that holds a slip, at a time, and the words for it.
STANDINGS = {0x01: '', 0x0F: ', from the future', 0x10: ', stale'}


def place_of(octets):
    """The slip that a place holds; nothing for an empty place."""
    if not any(octets):
        return None
    keep(octets[0] in KINDS, f'no slip of kind {octets[0]:02x} belongs in a cache')
    end = LENGTHS[octets[0]]
    keep(not any(octets[end:]), 'the octets behind its slip are not zeros')
    return slip_of(octets[:end])


def places_of(cache):
    """The slips of a cache by their places, counted from 1, held to every rule of a cache."""
    size = f'{len(cache):,}' if len(cache) <= CACHE else f'more than {CACHE:,}'
    keep(len(cache) == CACHE, f'it has {size} octets; a cache has {CACHE:,}')
    found, cards = {}, {}
    for position in range(1, PLACES + 1):
        try:
            slip = place_of(cache[PLACE * (position - 1):PLACE * position])
        except Broken as broken:
            raise Broken(f'place {position}: {broken}') from None
        if slip:
            first = cards.setdefault(slip.card, position)
            keep(first == position, f'places {first} and {position} hold the same card')
            found[position] = slip
    return found


def not_a_cache(cache):
    """Why octets are not a cache, and what becomes of their file, in words."""
    why = []
    try:
        places_of(cache)
    except Broken as broken:
        why = [str(broken)]
    return why + ['the file is kept as it is']


def filled(count):
    return f'{count} of {PLACES} places filled'
