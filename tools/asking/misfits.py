# Where a response that is refused with number 3 breaks, in words and in lines of hex: the octet,
# the path of elements that leads to it, what is expected and what is found there.

from .words import rows, wrapped

# The longest line, without the name of its row; octets in a line of hex, and lines around it.
WIDTH, LINE, AROUND = 84, 16, 2


def octet_words(walk):
    """The place in words: its number, and whether it is the end of something."""
    size, box = len(walk.octets), walk.misfit.box
    words = f'{walk.place} of {size}, counted from 0 (hex {walk.place:04x})'
    if walk.place == size:
        return words + ': the end of the response'
    if walk.misfit.end:
        return f'{words}: the end of {box.holder.name}'
    return words if walk.misfit.expected else f'{words}: inside {box.name}'


def path_pieces(box):
    """The path of elements from the outside in, as pieces that stay whole."""
    names = box.path() or [box.name]
    return [name + ' >' for name in names[:-1]] + names[-1:]


def misfit_rows(walk, width):
    """What is said of a misfit, as names of rows and their lines."""
    misfit = walk.misfit
    pieces = [('octet', octet_words(walk).split()), ('path', path_pieces(misfit.box))]
    pieces += [(name, words.split()) for name, words in (('expected', misfit.expected),
                                                         ('found', misfit.found)) if words]
    return [(name, wrapped(words, width)) for name, words in pieces]


def octet_lines(octets, place):
    """Lines of hex around a place, each with the number of its first octet, and a mark below it."""
    marked = place // LINE
    last = max(marked, (len(octets) - 1) // LINE)
    lines = []
    for number in range(max(0, marked - AROUND), min(marked + AROUND, last) + 1):
        start = number * LINE
        lines.append(f'{start:04x}  {octets[start:start + LINE].hex(" ")}')
        if number == marked:
            lines.append(' ' * (6 + 3 * (place % LINE)) + '^^')
    return lines


def misfit_lines(walk):
    """The lines below a refusal with number 3 that say where the response breaks."""
    lines = ['where it breaks']
    for name, words in misfit_rows(walk, WIDTH):
        lines += rows(name, words)
    return lines + rows('octets', octet_lines(walk.octets, walk.place))
