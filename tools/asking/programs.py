# The programs desk, room and trial: built where they are missing, run, and held to what they may
# write.

import contextlib
import os
import re
import shutil
import subprocess
import sys

from .places import CACHE
from .slips import Broken, keep, slip_of
from .values import BadUse, complain

# The folder of ./ask, which has ./run and crates too: that above tools.
TOP = os.path.dirname(os.path.dirname(os.path.dirname(os.path.abspath(__file__))))

# What it means that a program runs and gives nothing.
SILENT = {'desk': 'there is no answer', 'room': 'the cache gives no answer',
          'trial': 'there is no place'}


def build(program):
    """Builds a program where it is missing."""
    folder = os.path.join(TOP, 'crates', program)
    if os.path.exists(os.path.join(folder, 'out', program)):
        return
    if not shutil.which('rt'):
        raise BadUse(f"the program {program} is not built, and the Rattle kit's command rt, "
                     'which builds it, is not on the PATH')
    complain(f"the program {program} is not built: running 'rt run' in crates/{program}, "
             'which may take minutes')
    # The program runs too then, and is given nothing.
    done = subprocess.run(['rt', 'run'], cwd=folder, stdin=subprocess.DEVNULL,
                          stdout=subprocess.PIPE, stderr=subprocess.STDOUT)
    if done.returncode:
        sys.stderr.buffer.write(done.stdout)
        raise BadUse(f"'rt run' in crates/{program} failed, so nothing was asked")


def output_of(program, octets):
    """What a program writes for its input."""
    build(program)
    try:
        done = subprocess.run([os.path.join(TOP, 'run'), program], input=octets,
                              stdout=subprocess.PIPE)
    except OSError as error:
        raise BadUse(f"'./run {program}' could not be started: {error.strerror}") from None
    if done.returncode:
        raise BadUse(f"'./run {program}' failed with status {done.returncode}, "
                     f'so {SILENT[program]}')
    return done.stdout


@contextlib.contextmanager
def written_by(program, what):
    """Tells that a program's output is not what it should be."""
    try:
        yield
    except Broken as broken:
        raise BadUse(f"'./run {program}' wrote no {what}: {broken}; {SILENT[program]}") from None


def line_octets(line):
    keep(re.fullmatch(b'([0-9a-f]{2})+\n', line), 'it is not one line of hex')
    return bytes.fromhex(line.decode())


def desk(octets):
    """The slip that the program `desk` writes for its input."""
    written = output_of('desk', octets)
    with written_by('desk', 'slip'):
        octets = line_octets(written)
        return octets, slip_of(octets)


# The operation of the program `trial` that tells where an input of `desk` breaks.
PLACE_OF = 0x0A


def misfit_place(octets, size):
    """The place that the program `trial` gives for an input of `desk` that is refused with number
    3, in a response of this size."""
    written = output_of('trial', bytes([PLACE_OF]) + len(octets).to_bytes(4, 'big') + octets)
    with written_by('trial', 'place'):
        keep(re.fullmatch(b'(0|[1-9][0-9]{0,4})\n', written), 'it is not one line with a number')
        keep(int(written) <= size, f'the response has no octet {int(written)}')
    return int(written)


# The operations of the program `room`, each with the numbers other than 0 that it may give.
NEW, FILE, ASK, LIST = range(4)
NOT_HELD = 0x100
NUMBERS = {NEW: (), FILE: (1, 17, 19, 20), ASK: (1, 15, 16, 19, NOT_HELD), LIST: (1, 19)}


def room(operation, clock=None, paper=b'', cache=b''):
    """What the program `room` gives: a number, what its line says then, and the cache it writes."""
    octets = bytes([operation])
    if operation != NEW:
        octets += (clock.now.to_bytes(8, 'big') + clock.tolerance.to_bytes(8, 'big')
                   + bytes([len(paper)]) + paper + cache)
    line, feed, after = output_of('room', octets).partition(b'\n')
    with written_by('room', 'answer'):
        octets = line_octets(line + feed)
        refusal, said = int.from_bytes(octets[:2], 'big'), octets[2:]
        keep(len(octets) >= 2 and refusal in (0, *NUMBERS[operation]),
             f'its line begins with {octets[:2].hex()}')
        keep(refusal == 0 or not said, 'its line says more than a number')
        writes = refusal == 0 and operation in (NEW, FILE)
        keep(len(after) == (CACHE if writes else 0), f'behind its line are {len(after)} octets')
    return refusal, said, after
