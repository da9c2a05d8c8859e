# The uses of ./ask, by its arguments, and its exit status.

from .answers import check, word_slip
from .files import picture_path
from .given import clock_of, question_of
from .options import ask_parser, room_parser
from .questions import question_octets
from .rooms import ask_room, list_room, new_room
from .slips import status_of
from .values import BadUse, complain, file_octets
from .words import CACHE_REFUSALS, REFUSALS, refusal_words


def room_main(arguments):
    """./ask room: makes or lists a room."""
    words = room_parser().parse_args(arguments)
    if words.new:
        return new_room(words.file)
    return list_room(words.file, clock_of(words))


def alone(words):
    """Refuses --picture beside a use that looks at no response, or maybe at none."""
    others = [('--refusals', words.refusals), ('--slip', words.slip is not None),
              ('--octets', words.octets), ('--room', words.room is not None)]
    for option, given in others:
        if words.picture is not None and given:
            raise BadUse('--picture draws a response that desk is asked about; '
                         f'leave {option} away')


def ask_main(arguments):
    """./ask with options: lists the refusals, words a slip, shows the octets, or asks."""
    words = ask_parser().parse_args(arguments)
    alone(words)
    if words.refusals:
        print(*(f'{refusal:>2}  {refusal_words(refusal)}' for refusal in REFUSALS),
              CACHE_REFUSALS, sep='\n')
        return 0
    if words.slip is not None:
        if words.response is not None or words.room is not None:
            raise BadUse('--slip asks nothing; leave RESPONSE.der and --room away')
        return word_slip(words.slip)
    if words.octets and words.room is not None:
        raise BadUse('--octets asks nothing; leave --room away')
    if words.response is None and words.room is None and not words.octets:
        raise BadUse("no RESPONSE.der ('./ask --help' tells the use)")
    question = question_of(words)
    if words.room is not None:
        return ask_room(words, question)
    response = file_octets(words.response) if words.response is not None else b''
    if words.octets:
        print((question_octets(question) + response).hex())
        return 0
    picture = None if words.picture is None else picture_path(words.picture)
    _, slip = check(question, response, words.hex, picture)
    return status_of(slip)


def main(arguments):
    """The exit status of ./ask; bad use is told on standard error."""
    try:
        if arguments[:1] == ['room'] and '--help' not in arguments:
            return room_main(arguments[1:])
        return ask_main(arguments)
    except BadUse as bad:
        complain(bad)
        return 2
