# Boxes: octets of a response with a name. What is expected and what is found at one, in words.

import collections

from .headers import CONSTRUCTED, count, tag_words

# What is refused: its box, what is expected and what is found there, in words, and whether the
# place is the end of what holds the box. Without words, where nothing can be told.
Misfit = collections.namedtuple('Misfit', 'box expected found end', defaults=[None, None, False])

# How many octets of contents are shown, and the tags whose contents are shown as text.
SHOWN, TIMES = 24, (0x17, 0x18)
# What is expected where the layout asks for no tag.
ANYTHING = 'any element, with a tag of one octet and a length in the shortest form'


class Box:
    """An element, or octets that are not read as one: its holder, and the boxes that it holds."""

    def __init__(self, name, holder, start, end, tag=None, body=None, number=None):
        self.kind, self.number = name, number
        self.holder, self.start, self.end, self.tag = holder, start, end, tag
        self.body, self.read = body, body is not None
        self.depth, self.holds = 0, []
        if holder:
            holder.holds.append(self)

    @property
    def name(self):
        return self.kind if self.number is None else f'{self.kind} {self.number}'

    def path(self):
        """The names from the outside in."""
        return self.holder.path() + [self.name] if self.holder else []


def part_words(part, number=None, full=True):
    """What is expected of a part, in words: in full, or its tags alone."""
    name = part.name if number is None else f'{part.name} {number}'
    tags = ' or '.join(map(tag_words, part.tags)) or ANYTHING
    return f'{name}: {tags}' + (f', {part.words}' if full and part.words else '')


def parts_words(parts, *others):
    """The same of several parts that may stand at one octet, and of what else may."""
    return ', or '.join([part_words(part, full=False) for part in parts] + list(others))


def contents_words(octets, tag):
    """The contents of a primitive element, as far as they are shown."""
    if tag in TIMES and all(0x20 <= octet < 0x7F for octet in octets[:SHOWN]):
        shown = octets[:SHOWN].decode('ascii')
    else:
        shown = octets[:SHOWN].hex(' ')
    return shown + (' ...' if len(octets) > SHOWN else '')


def found_words(octets, box):
    """What an element with a header that can be read is, in words."""
    contents = octets[box.body:box.end]
    words = f'{tag_words(box.tag)}, '
    if not contents:
        return words + 'no contents'
    words += f'{count(len(contents), "octet")} of contents'
    if box.tag & CONSTRUCTED:
        return words
    return f'{words}: {contents_words(contents, box.tag)}' + repeated(octets, box)


def repeated(octets, box):
    """Where the OID of an Extension stands before, in words, or nothing."""
    if box.kind != 'extnID':
        return ''
    extension = box.holder
    for earlier in extension.holder.holds:
        if earlier is extension:
            return ''
        first = earlier.holds[0] if earlier.holds else earlier
        if octets[first.start:first.end] == octets[box.start:box.end]:
            return f', as in {earlier.name}'
