# Cells: the boxes of a response as a picture shows them, with their labels, sizes and places.
# Letters are all of one width, so that a label fits its cell.

from .headers import tag_name

# Sizes in pixels: of a letter and a line of a label, and of the space in and between cells.
LETTER, LETTERS = 6.7, 14
PAD, GAP = 6, 5
# A cell that is no higher than this stands in a row with others; a higher one has its own row.
LOW = 2 * PAD + LETTERS + 4 + 2 * PAD + 2 * LETTERS
# Elements of a free element in a run, none of them refused, that are still shown one by one.
FEW = 4


class Cell:
    """A cell of the picture: the lines of its label, each bold words and plain ones; how it looks;
    and the cells in it, with their places counted from its corner."""

    def __init__(self, label, look, cells=()):
        self.label, self.look, self.cells = label, look, cells
        self.x = self.y = 0
        self.width = 2 * PAD + LETTER * max(len(' '.join(filter(None, line))) for line in label)
        self.height = 2 * PAD + LETTERS * len(label)


def octets_words(start, end):
    return f'octet {start}' if end == start + 1 else f'octets {start}-{end - 1}'


def box_words(box):
    """The tag and the octets of a box, in words."""
    if box.start == box.end:
        return 'missing'
    words = octets_words(box.start, box.end)
    if box.tag is None:
        return words
    # A free element has no name in RFC 6960, so its tag is told in words too.
    name = f' {tag_name(box.tag)}' if box.kind == 'element' else ''
    return f'tag {box.tag:02x}{name}, {words}'


def cell_of(box, walk, path):
    """The cell of a box, with what it holds."""
    inner = cells_in(box, walk, path)
    words, look = box_words(box), 'box' if box.read else 'unread'
    refused = path and box is path[0]
    if refused and walk.misfit.end and box.start < box.end:
        words += ', cut off'
    label = [(box.name, words)] if inner else [(box.name, ''), ('', words)]
    if refused:
        label, look = label + [(f'refused: octet {walk.place}', '')], 'refused'
    elif box in path:
        look = 'way'
    return Cell(label, look, inner)


def cells_in(box, walk, path):
    """The cells in a box. Of items in a run, those on the way to the refused one are shown, or else
    the first; the others stand together in one cell."""
    shown = [held for held in box.holds if held.number is None or held in path]
    if not shown and box.depth == 0:
        shown = box.holds[:1]
    cells, run = [], []
    for held in box.holds:
        if held in shown:
            cells += run_cells(run, walk, path) + [cell_of(held, walk, path)]
            run = []
        else:
            run.append(held)
    return cells + run_cells(run, walk, path)


def run_cells(run, walk, path):
    """The cells of items that follow each other, none of them on the way to the refused one."""
    if len(run) <= (FEW if run and run[0].kind == 'element' else 1):
        return [cell_of(box, walk, path) for box in run]
    first, last = run[0], run[-1]
    return [Cell([(f'{first.kind} {first.number} to {last.number}', ''),
                  ('', f'{len(run)} of them, {octets_words(first.start, last.end)}')], 'run')]


def cells_of(walk):
    """The cells of a whole response. The path leads from the refused box outwards."""
    path, box = [], walk.misfit and walk.misfit.box
    while box:
        path.append(box)
        box = box.holder
    if not walk.whole.holds or path[:1] == [walk.whole]:
        return [cell_of(walk.whole, walk, path)]
    return cells_in(walk.whole, walk, path)


def arrange(cells, left, top, most):
    """Sets cells into rows from a corner, none wider than so much: the width and the height."""
    x, y, width, row = left, top, 0, []
    for cell in cells:
        if cell.cells:
            under = PAD + LETTERS * len(cell.label) + 4
            wide, high = arrange(cell.cells, PAD, under, most - 2 * PAD)
            cell.width = max(cell.width, wide + 2 * PAD)
            cell.height = under + high + PAD
        if row and (x + cell.width > left + most or max(cell.height, row[-1].height) > LOW):
            x, y, row = left, y + level(row) + GAP, []
        cell.x, cell.y = x, y
        row.append(cell)
        x += cell.width + GAP
        width = max(width, x - GAP - left)
    return width, y + level(row) - top


def level(row):
    """Makes the cells of a row equally high: their height."""
    height = max((cell.height for cell in row), default=0)
    for cell in row:
        cell.height = height
    return height
