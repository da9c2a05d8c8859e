#!/usr/bin/env python3
# walks.py TOOLS [RUN]: the walk of ./ask (the modules below TOOLS) through responses that break, in
# words and as pictures.
#
# The cases of broken.py, each with its words. Then, from a fixed seed, published responses with
# octets damaged, and octets at random, each with a place at random, also one that no program would
# give: the tool always has words and a picture for it, and the picture is well made.
#
# With RUN, the file ./run, the places are those of the proved program trial: it has that of each case,
# and for each damaged response that it refuses with 3 the tool tells what is expected and found there.

import os
import random
import subprocess
import sys
import xml.etree.ElementTree

sys.dont_write_bytecode = True
sys.path.insert(0, sys.argv[1])

import broken
from asking import cells
from asking.misfits import misfit_lines
from asking.pictures import WIDE, picture
from asking.walk import Walk

SEED, DAMAGED, RANDOM = 16, 2000, 500
SVG = '{http://www.w3.org/2000/svg}'
faults = []


def hold(holds, name, *words):
    if not holds:
        faults.append(' '.join(map(str, [f'ask: {name}:', *words])))


def hold_lines(name, walk):
    """The lines are no longer than a screen's, and the mark stands below the octet."""
    lines = misfit_lines(walk)
    hold(max(map(len, lines)) <= 100, name, 'a line is too long')
    mark = next(number for number, line in enumerate(lines) if line.strip() == '^^')
    column = lines[mark].index('^^')
    place = walk.place
    hold(lines[mark - 1][column:column + 2] == walk.octets[place:place + 1].hex(), name, 'the mark')
    hold(int(lines[mark - 1][14:18], 16) + (column - 20) // 3 == place, name, 'the number of a line')
    hold(f'{place} of {len(walk.octets)}, counted from 0 (hex {place:04x})' in lines[1], name, 'octet')


def hold_cells(name, held, width, height):
    """Cells lie in what holds them, none upon another, and their labels fit."""
    for number, cell in enumerate(held):
        hold(min(cell.x, cell.y) >= 0 and cell.x + cell.width <= width + 0.1
             and cell.y + cell.height <= height + 0.1, name, 'a cell leaves its holder')
        text = max(len(' '.join(filter(None, line))) for line in cell.label)
        hold(text * cells.LETTER + 2 * cells.PAD <= cell.width + 0.1, name, 'a label is too wide')
        hold(all(other.x >= cell.x + cell.width or other.y >= cell.y + cell.height
                 for other in held[number + 1:]), name, 'a cell lies upon another')
        hold_cells(name, cell.cells, cell.width, cell.height)


def hold_picture(name, walk):
    """The picture is XML with one refused box, says so in words, and is not too large."""
    text = picture(walk, 3)
    hold(text == picture(walk, 3), name, 'two pictures of one response')
    root = xml.etree.ElementTree.fromstring(text)
    hold([root[0].tag, root[1].tag] == [f'{SVG}title', f'{SVG}desc'], name, 'no title and desc')
    refused = [box for box in root.iter(f'{SVG}rect') if box.get('class') == 'refused']
    words = [''.join(line.itertext()) for line in root.iter(f'{SVG}text')]
    marked = [line for line in words if line == f'refused: octet {walk.place}']
    hold(len(refused) == len(marked) == 1, name, len(refused), 'refused,', len(marked), 'marked')
    hold(float(root.get('width')) <= WIDE and float(root.get('height')) <= 6000, name, 'too large')
    drawn = cells.cells_of(walk)
    hold_cells(name, drawn, *cells.arrange(drawn, 0, 0, WIDE))


def hold_case(name, case):
    walk = Walk(case.octets, case.place)
    path = ' > '.join(walk.misfit.box.path())
    hold(path.endswith(case.path), name, 'the path is', path)
    hold(walk.misfit.expected == case.expected, name, 'expected is', walk.misfit.expected)
    hold(walk.misfit.found == case.found, name, 'found is', walk.misfit.found)
    hold_lines(name, walk)
    hold_picture(name, walk)


def damaged(chance, octets):
    """The octets with up to three of them changed, taken out or put in, or cut short."""
    octets = bytearray(octets)
    for _ in range(chance.randint(1, 3)):
        at = chance.randrange(len(octets) + 1)
        what = chance.randrange(4)
        if what == 0:
            octets[at:at + 1] = bytes([chance.choice((0x1F, 0x30, 0x80, 0x82, 0xA0, 0xFF, 0x05))])
        elif what == 1:
            octets[at:at + chance.randint(1, 9)] = b''
        elif what == 2:
            octets[at:at] = chance.randbytes(chance.randint(1, 9))
        elif chance.random() < 0.2:
            del octets[at:]
    return bytes(octets)


def at_random(chance):
    """Octets at random: tags and short lengths mostly, so that they nest."""
    size = chance.choice((0, 1, 2, 3, 17, 200, 3000))
    tags = chance.choice((b'\x30\x82\x00\x05', b'\x30\x80', b'\x05\x00', bytes(range(256))))
    return bytes(chance.choice(tags) for _ in range(size))


def nested(tag, depth):
    """Elements one inside the other, as deep as the longest response can have them."""
    octets = b''
    for _ in range(depth):
        octets = broken.element(tag, octets)
    return octets


def odd_ones():
    """Responses that are large, deep or wide."""
    return [broken.basic(broken.element(0xA1, nested(0x30, 3000))),
            broken.basic(broken.element(0xA1, broken.element(0x30, broken.NULL * 7000))),
            broken.basic(entries=[broken.entry()] * 170),
            broken.basic(more=broken.extensions(*[broken.extension('2a03')] * 1500)),
            broken.basic(behind=broken.element(0xA0, broken.element(0x30, b'\x30\x00' * 8000))),
            nested(0x30, 5000), b'\x30' * 16384, b'\x05\x00' * 8192]


def tries(chance):
    files = sorted(name for name in os.listdir(broken.PUBLISHED) if name.endswith('.der'))
    found = [damaged(chance, broken.published(chance.choice(files))) for _ in range(DAMAGED)]
    found += [at_random(chance) for _ in range(RANDOM)] + odd_ones() * 10
    return [octets[:16384] for octets in found]


def anywhere(chance):
    """Any place of any response."""
    for number, octets in enumerate(tries(chance)):
        walk = Walk(octets, chance.choice((0, len(octets), chance.randint(0, len(octets)))))
        hold_lines(f'try {number}', walk)
        hold_picture(f'try {number}', walk)


def places(run, responses):
    """The places that the program trial gives for responses, under a question in range."""
    question = bytes.fromhex('51' + '11' * 20 + '22' * 20 + '0105' + '00' * 19 + '0000000042742a10'
                             + '0000' + '010100' + '33' * 20 + '0000' + '00' * 256)
    records = [b'\x0a' + (len(question) + len(octets)).to_bytes(4, 'big') + question + octets
               for octets in responses]
    written = subprocess.run([run, 'trial'], input=b''.join(records), stdout=subprocess.PIPE,
                             check=True).stdout.decode('ascii').splitlines()
    hold(len(written) == len(responses), 'trial', len(written), 'lines')
    return [None if line == '-' else int(line) for line in written]


def proved(run, chance):
    """The places of the proved program."""
    cases = broken.CASES
    for name, place in zip(cases, places(run, [case.octets for case in cases.values()])):
        hold(place == cases[name].place, name, 'the place is', place)
    responses = tries(chance)
    for number, (octets, place) in enumerate(zip(responses, places(run, responses))):
        if place is not None:
            hold(Walk(octets, place).misfit.expected, f'try {number}', 'no words for', place)


def main():
    for name, case in broken.CASES.items():
        hold_case(name, case)
    chance = random.Random(SEED)
    if sys.argv[2:]:
        proved(sys.argv[2], chance)
    else:
        anywhere(chance)
    print(*faults[:20], sep='\n', end='\n' if faults else '')
    return 1 if faults else 0


sys.exit(main())
