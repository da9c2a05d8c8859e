# The options: their parsers, and the text of --help.

import argparse

from .values import BadUse

USAGE = '''\
./ask RESPONSE.der --card CERT --issuer CERT [OPTION...]
       ./ask RESPONSE.der --serial HEX --name-hash HEX --key-hash HEX [OPTION...]
       ./ask --room FILE [RESPONSE.der] --card CERT --issuer CERT [OPTION...]
       ./ask room FILE [--now TIME] [--tolerance SECONDS]
       ./ask room FILE --new
       ./ask --octets | --slip HEX | --refusals | --help'''
ABOUT = '''\
Asks the proved program desk what an OCSP response says for one card at one time, and says the
answer in words: good, revoked, unknown, or refused with its number. RESPONSE.der may be - for
standard input. Hex may have colons and spaces.'''
MORE = '''\
Numbers out of range, as --tolerance 3601, go to the program, which refuses them with number 1.
With the role ca, the signer is the issuer unless told otherwise: its key hash and, with --issuer,
its Name. A delegate or a local signer has to be told by --signer, or by --signer-key, or by
--signer-name, or by the last two together; a key hash that is not told is then zeros.

With number 3 it says where the response breaks, as the proved program trial tells it: the first
octet that does not fit, counted from 0 in the response; the path of elements that leads there, by
their names in RFC 6960, items counted from 1; what is expected and what is found there; and lines
of hex with a mark under the octet, to be sent to the issuer. --picture draws the response as nested
boxes, the refused one in red. Where trial cannot be run, the answer is said without the place.

A room's cache is a file of 64 places, each for one card's answer. --room asks it first, by the
proved program room. Where it has no answer that counts now, RESPONSE.der is checked, and its answer
is filed unless it is a refusal; without RESPONSE.der only the cache is asked. './ask room FILE'
lists the places, and --new makes a new room where no file is. A file that is not a cache gives 19
and is kept as it is; the response's answer is said all the same. Writers hold the lock FILE.lock,
write FILE.new and rename it. A response in a file named room is told as ./room.

Exit status: 0 good, 1 any other answer, 2 no answer because of bad use or a program that does not
run. An answer that could not be filed or drawn keeps its status. './ask room' ends with 0 where it
lists or makes a room, with 1 where it is refused. --octets, --refusals and --help end with 0.

  ./ask answer.der --card reader.pem --issuer ca.pem --verdict valid
  ./ask answer.der --card reader.pem --issuer ca.pem --verdict valid \\
        --role delegate --marks all --signer responder.pem
  ./ask --room desks.room answer.der --card reader.pem --issuer ca.pem --verdict valid
  ./ask answer.der --card reader.pem --issuer ca.pem --picture answer.svg
  ./ask --slip 040406'''

# Each option that takes a value: its name, what it takes, its value if not given, its words.
TIME = ('the time', [
    ('--now', 'TIME', 'now',
     'UTC as 2005-05-01T01:00:00Z, or seconds since 1970, or now (the default)'),
    ('--tolerance', 'SECONDS', '0',
     'seconds past nextUpdate that still count, 0 (the default) to 3600'),
])
OPTIONS = [
    ('the card', [
        ('--card', 'CERT', None, "the card's certificate, PEM or DER: its serial"),
        ('--issuer', 'CERT', None, "the issuer's certificate: both hashes"),
        ('--serial', 'HEX', None, "the serial's content octets, as 05 or 00:80"),
        ('--name-hash', 'HEX', None, "SHA-1 of the issuer's Name, 20 octets"),
        ('--key-hash', 'HEX', None, "SHA-1 of the issuer's key, 20 octets"),
    ]),
    TIME,
    ('what the asker knows of the signature and the signer', [
        ('--verdict', 'WORD', 'untried',
         'what checking the signature gave: valid, invalid or untried (the default)'),
        ('--role', 'WORD', 'ca',
         'who signed: ca (the default), delegate, or local (trusted locally)'),
        ('--marks', 'LIST', 'none',
         'what holds of a delegate, with commas between: issued (directly by that CA), usage '
         '(OCSPSigning), current (its certificate is valid now); or all, or none (the default)'),
        ('--signer', 'CERT', None, "the signer's certificate: its key hash and its Name"),
        ('--signer-key', 'HEX', None, "SHA-1 of the signer's key, 20 octets"),
        ('--signer-name', 'HEX', None,
         "the signer's Name in DER, at most 256 octets; @FILE takes it from a file"),
    ]),
    ('the picture', [
        ('--picture', 'FILE.svg', None,
         'draw the response as nested boxes, an element each, and mark the one that is refused '
         'with number 3; not together with --room'),
    ]),
    ("the room's cache", [
        ('--room', 'FILE', None, 'ask this cache first, and file there what was checked'),
    ]),
]
FLAGS = [
    ('--octets', "write the program's input as hex, and ask nothing; without RESPONSE.der these "
                 'are the 353 octets of the question'),
    ('--hex', 'show the slip as hex too'),
    ('--refusals', 'list the refusals and what they mean'),
]


class Parser(argparse.ArgumentParser):
    def error(self, message):
        raise BadUse(message + " ('./ask --help' tells the use)")


def parser(name, options, **words):
    """A parser with these options, in groups, and without abbreviations."""
    made = Parser(prog=name, allow_abbrev=False, add_help=False, **words,
                  formatter_class=lambda prog: argparse.RawDescriptionHelpFormatter(
                      prog, max_help_position=26, width=100))
    for heading, group_options in options:
        group = made.add_argument_group(heading)
        for option, metavar, default, help_words in group_options:
            group.add_argument(option, metavar=metavar, default=default, help=help_words)
    return made


def ask_parser():
    made = parser('ask', OPTIONS, usage=USAGE, description=ABOUT, epilog=MORE)
    made.add_argument('response', metavar='RESPONSE.der', nargs='?', help=argparse.SUPPRESS)
    other = made.add_argument_group('other uses')
    other.add_argument('--slip', metavar='HEX', help='word this slip, and ask nothing')
    for option, words in FLAGS:
        other.add_argument(option, action='store_true', help=words)
    other.add_argument('--help', action='help', help='show this text')
    return made


def room_parser():
    made = parser('ask room', [TIME])
    made.add_argument('file', metavar='FILE', help=argparse.SUPPRESS)
    made.add_argument('--new', action='store_true')
    return made
