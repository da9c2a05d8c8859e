# Answers: a slip in words, and what the program desk says to a question and a response.

from .misfits import misfit_lines
from .pictures import draw
from .programs import desk, misfit_place
from .questions import card_rows, question_faults, question_octets, question_rows
from .slips import REFUSED, Broken, slip_of, slip_words, status_of
from .values import BadUse, complain, hex_octets
from .walk import Walk
from .words import CLOSED, below, refused, row


def word_slip(word):
    """--slip: what these octets say, or refusal 17 with the rule that they break."""
    try:
        slip = slip_of(hex_octets('--slip', word))
    except Broken as broken:
        print(refused(17), f'  {broken}', f'  {CLOSED}', sep='\n')
        return 1
    print(*slip_words(slip), sep='\n')
    return status_of(slip)


def why(question, slip):
    """What more there is to say of a refusal, as lines below it."""
    if slip.number == 1:
        return below(question_faults(question))
    if slip.number == 6 and question.verdict == 0:
        return ['  No one said that it was checked; where it was, --verdict valid says so.']
    return []


def walked(question, response, slip):
    """The walk through a response, to where it breaks if it is refused with number 3."""
    place = None
    if slip.number == 3:
        try:
            place = misfit_place(question_octets(question) + response, len(response))
        except BadUse as bad:
            complain(f'the answer stands, and where the response breaks is not known: {bad}')
    return Walk(response, place)


def draw_answer(picture, walk, slip):
    """Draws the picture, and says so."""
    try:
        draw(picture, walk, slip.number)
    except BadUse as bad:
        complain(f'the answer stands, and is not drawn: {bad}')
        return
    print(f'drawn in {picture}' + ('' if walk.misfit else ', without a box marked as refused'))


def check(question, response, with_hex, picture=None):
    """Asks the program `desk`, and says its answer: the slip's octets, and the slip."""
    octets, slip = desk(question_octets(question) + response)
    print(*slip_words(slip), *why(question, slip), sep='\n', flush=True)
    walk = walked(question, response, slip)
    lines = (misfit_lines(walk) if walk.misfit else []) + ['asked with']
    if slip.kind == REFUSED:
        lines += card_rows(question.card)
    lines += question_rows(question)
    if slip.number == 7:
        lines += [row('signer key', question.signer.key_hash.hex()),
                  row('signer Name', question.signer.name.hex() or 'empty')]
    if with_hex:
        lines.append('slip ' + octets.hex())
    print(*lines, sep='\n', flush=True)
    if picture is not None:
        draw_answer(picture, walk, slip)
    return octets, slip
