# What the options give: the card, the signer, the time and the tolerance, the question.

import hashlib

from .certificates import certificate
from .questions import Card, Clock, Question, Signer
from .values import (BadUse, file_octets, hash_octets, hex_octets, marks_value, named, number,
                     seconds_value, sized)
from .words import CA, DELEGATE, LOCAL, ROLES, VERDICTS


def once(words, first, second):
    """Refuses two options that tell the same thing."""
    told = vars(words)
    if told[first] is not None and told[second] is not None:
        names = ['--' + name.replace('_', '-') for name in (first, second)]
        raise BadUse(f'{names[0]} and {names[1]} tell the same thing; give one of them')


def card_of(words, card, issuer):
    for first, second in (('card', 'serial'), ('issuer', 'name_hash'), ('issuer', 'key_hash')):
        once(words, first, second)
    if not card and words.serial is None:
        raise BadUse('no serial; give --serial HEX or --card CERT')
    for option, value in (('--name-hash', words.name_hash), ('--key-hash', words.key_hash)):
        if not issuer and value is None:
            raise BadUse(f'no hash of the issuer; give {option} HEX or --issuer CERT')
    if card and issuer and card.issuer != issuer.subject:
        raise BadUse(f'{words.card} is not issued by {words.issuer}: it names another issuer')
    serial = (sized('--card (its serial)', card.serial, 0, 20) if card
              else sized('--serial', hex_octets('--serial', words.serial), 0, 20))
    if issuer:
        return Card(hashlib.sha1(issuer.subject).digest(), issuer.key_hash, serial)
    return Card(hash_octets('--name-hash', words.name_hash),
                hash_octets('--key-hash', words.key_hash), serial)


def signer_of(words, role, card, issuer):
    once(words, 'signer', 'signer_key')
    once(words, 'signer', 'signer_name')
    if words.signer is not None:
        signer = certificate('--signer', words.signer)
        return Signer(signer.key_hash, sized('--signer (its Name)', signer.subject, 0, 256))
    key_hash = card.key_hash if role == CA else bytes(20)
    name = b''
    if words.signer_key is None and words.signer_name is None:
        if role in (DELEGATE, LOCAL):
            raise BadUse('who signed? with this --role give --signer CERT, --signer-key HEX '
                         'or --signer-name HEX')
        if issuer:
            name = sized('--issuer (its Name)', issuer.subject, 0, 256)
    if words.signer_key is not None:
        key_hash = hash_octets('--signer-key', words.signer_key)
    if words.signer_name is not None:
        given = words.signer_name
        octets = (file_octets(given[1:]) if given.startswith('@')
                  else hex_octets('--signer-name', given))
        name = sized('--signer-name', octets, 0, 256)
    return Signer(key_hash, name)


def clock_of(words):
    return Clock(seconds_value(words.now), number('--tolerance', words.tolerance, 65535))


def question_of(words):
    card_file = certificate('--card', words.card) if words.card is not None else None
    issuer = certificate('--issuer', words.issuer) if words.issuer is not None else None
    card = card_of(words, card_file, issuer)
    role = named('--role', words.role, ROLES)
    return Question(card, *clock_of(words),
                    named('--verdict', words.verdict, VERDICTS), role, marks_value(words.marks),
                    signer_of(words, role, card, issuer))
