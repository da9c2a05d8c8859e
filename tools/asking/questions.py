# The question: its octets, its values out of range, and its rows.

import collections

from .words import DELEGATE, LAST_TIME, MARKS, ROLE_WORDS, VERDICT_WORDS, row, utc

Card = collections.namedtuple('Card', 'name_hash key_hash serial')
Signer = collections.namedtuple('Signer', 'key_hash name')
Question = collections.namedtuple('Question', 'card now tolerance verdict role marks signer')
Clock = collections.namedtuple('Clock', 'now tolerance')


def card_octets(card):
    return (card.name_hash + card.key_hash
            + bytes([len(card.serial)]) + card.serial.ljust(20, b'\0'))


def question_octets(question):
    signer = question.signer
    return b''.join([
        b'\x51', card_octets(question.card),
        question.now.to_bytes(8, 'big'), question.tolerance.to_bytes(2, 'big'),
        bytes([question.verdict, question.role, question.marks]),
        signer.key_hash, len(signer.name).to_bytes(2, 'big'), signer.name.ljust(256, b'\0')])


def serial_fault(serial):
    """What is wrong with a serial, in words, or nothing."""
    if not 1 <= len(serial) <= 20:
        return 'the serial has not 1 to 20 octets'
    if serial[0] >= 0x80:
        return 'the first bit of the serial is set; a positive serial has 00 in front here'
    if len(serial) > 1 and serial[0] == 0 and serial[1] < 0x80:
        return 'the serial has a 00 in front that it does not need'
    return None


def clock_faults(clock):
    """Which of now and the tolerance are out of range, in words."""
    tests = [(clock.now > LAST_TIME, 'now is after 9999-12-31T23:59:59Z'),
             (clock.tolerance > 3600, 'the tolerance is above 3,600 seconds')]
    return [words for broken, words in tests if broken]


def ask_faults(question):
    """The same, and the serial: what a room's cache is asked with."""
    serial = serial_fault(question.card.serial)
    return ([serial] if serial else []) + clock_faults(question)


def question_faults(question):
    """Which values of a question are out of range, in words."""
    tests = [(question.verdict > 2, 'the verdict is above 2'),
             (not 1 <= question.role <= 3, 'the role is not 1 to 3'),
             (question.marks > 7, 'the marks are above 7')]
    return ask_faults(question) + [words for broken, words in tests if broken]


def card_rows(card):
    return [row('serial', card.serial.hex() or 'empty'), row('name hash', card.name_hash.hex()),
            row('key hash', card.key_hash.hex())]


def clock_rows(clock):
    return [row('now', utc(clock.now)), row('tolerance', f'{clock.tolerance} seconds')]


def question_rows(question):
    lines = clock_rows(question) + [
        row('signature', VERDICT_WORDS.get(question.verdict, f'verdict {question.verdict}')),
        row('signer', ROLE_WORDS.get(question.role, f'role {question.role}'))]
    if question.role == DELEGATE:
        held = [name for name, bit in MARKS.items() if question.marks & bit]
        lines.append(row('its marks', ', '.join(held) or 'none'))
    return lines
