# A room's cache and its file: made, listed, asked, and filed in.

import fcntl
import os

from .answers import check
from .files import real, replace
from .places import CACHE, PLACES, STANDINGS, filled, not_a_cache, places_of
from .programs import ASK, FILE, LIST, NEW, NOT_HELD, room, written_by
from .questions import ask_faults, card_octets, card_rows, clock_faults, clock_rows
from .slips import KINDS, REFUSED, keep, slip_of, slip_rows, slip_words, status_of
from .values import BadUse, complain, file_octets, told
from .words import CLOSED, below, refusal_words, refused, row


def room_octets(path):
    """A room's cache as its file has it; of a longer file, enough to be refused."""
    with told(f'cannot read {path}'):
        try:
            with open(path, 'rb') as file:
                return file.read(CACHE + 1)
        except FileNotFoundError:
            raise BadUse(f"there is no {path}; './ask room {path} --new' makes it") from None


def lock(path):
    """The lock file beside a room's file, held until it is closed. Every writer takes it first."""
    with told(f'cannot lock {path}.lock'):
        held = open(path + '.lock', 'ab')
        fcntl.flock(held, fcntl.LOCK_EX)
    return held


def new_room(path):
    """room --new: makes a room where no file is."""
    path = real(path)

    def absent():
        if os.path.lexists(path):
            raise BadUse(f'there is a file {path} already; it is kept as it is')

    absent()
    _, _, octets = room(NEW)
    with lock(path):
        absent()
        replace(path, octets)
    print(f'made {path}: {filled(0)}')
    return 0


def file_slip(path, clock, slip):
    """Files a slip in a room, and says in words how that went."""
    path = real(path)
    with lock(path):
        cache = room_octets(path)
        refusal, said, after = room(FILE, clock, slip, cache)
        with written_by('room', 'count'):
            keep(refusal or len(said) == 1, f'{len(said)} octets')
        if refusal == 0 and after != cache:
            replace(path, after)
    if refusal:
        return f'not filed, number {refusal}: {refusal_words(refusal)}'
    if after == cache:
        return f'as before: it holds this slip already, or a later one; {filled(said[0])}'
    return f'filed; {filled(said[0])}'


def list_room(path, clock):
    """room: the places of a room in words."""
    cache = room_octets(path)
    refusal, said, _ = room(LIST, clock, cache=cache)
    if refusal:
        why = clock_faults(clock) if refusal == 1 else not_a_cache(cache)
        print(refused(refusal), '  Nothing is listed. The folio stays closed.', *below(why),
              sep='\n')
        return 1
    with written_by('room', 'list'):
        places = places_of(cache)
        stands = {position: mark for position, mark in enumerate(said, 1) if mark}
        keep(len(said) == PLACES and stands.keys() == places.keys()
             and set(stands.values()) <= STANDINGS.keys(), 'it does not fit the file')
    print(filled(len(places)), *clock_rows(clock), sep='\n')
    for position, slip in places.items():
        print(f'place {position}: {KINDS[slip.kind][0]}{STANDINGS[stands[position]]}',
              *slip_rows(slip), sep='\n')
    return 0


def unanswered(refusal):
    """Why a room's cache has no answer about the card asked, in words."""
    if refusal == NOT_HELD:
        return "not held: no place of the room's cache has this card"
    return refused(refusal, 0, 'slip')


def source(words):
    """Where an answer of a room's cache is from, in words."""
    unseen = '' if words.response is None else '; the response was not looked at'
    return f"from the room's cache {words.room}{unseen}"


def say_held(words, question, octets):
    """Says the answer that a room's cache holds."""
    with written_by('room', 'answer'):
        slip = slip_of(octets)
        keep(slip.card == question.card, 'its slip is not for this card')
    lines = slip_words(slip) + [source(words), 'asked with'] + clock_rows(question)
    if words.hex:
        lines.append('slip ' + octets.hex())
    print(*lines, sep='\n')
    return status_of(slip)


def say_unanswered(words, question, cache, refusal):
    """Says that a room's cache has no answer, where there is no response to look at."""
    why = {1: ask_faults(question), 19: not_a_cache(cache)}.get(refusal, [])
    print(unanswered(refusal), f'  {CLOSED}', *below(why), source(words), 'asked with',
          *card_rows(question.card), *clock_rows(question), sep='\n')
    return 1


def ask_room(words, question):
    """--room: the cache is asked first. Where it has no answer, that of the response is filed."""
    cache = room_octets(words.room)
    refusal, said, _ = room(ASK, question, card_octets(question.card), cache)
    if refusal == 0:
        return say_held(words, question, said)
    if words.response is None:
        return say_unanswered(words, question, cache, refusal)
    response = file_octets(words.response)
    if refusal == 19:
        complain('; '.join([f'{words.room}: {refused(19)}'] + not_a_cache(cache)))
    octets, slip = check(question, response, words.hex)
    if refusal not in (1, 19):
        print(f"the room's cache {words.room}", row('before', unanswered(refusal)), sep='\n',
              flush=True)
        try:
            after = ('as before: a refusal is not filed' if slip.kind == REFUSED
                     else file_slip(words.room, question, octets))
            print(row('after', after))
        except BadUse as bad:
            complain(f'the answer stands, and is not filed: {bad}')
    return status_of(slip)
