# The picture of a response: nested boxes in SVG, the refused one in colour and told in words.

from html import escape

from .cells import LETTER, LETTERS, PAD, arrange, cells_of
from .files import replace
from .headers import count
from .layout import LONGEST
from .misfits import misfit_rows

# The widest picture, the space around it, and in letters a line of the legend and its first column.
WIDE, MARGIN, LEGEND, COLUMN = 960, 12, 138, 10
FONT = "ui-monospace, 'DejaVu Sans Mono', Menlo, Consolas, monospace"
STYLE = ('text{fill:#1c2733}.name{font-weight:bold}rect{stroke:#8896a5}'
         '.paper{fill:#ffffff;stroke:none}.even{fill:#ffffff}.odd{fill:#f1f4f7}'
         '.way{stroke:#3b4754;stroke-width:1.6}.run,.unread{fill:#e6ebf0;stroke-dasharray:4 3}'
         '.refused{fill:#ffd3c9;stroke:#b3261e;stroke-width:3}.refused-text{fill:#8c1d18}')


def heading(walk, refusal):
    """What is drawn, and whether a box of it is refused: the first lines of the legend."""
    lines = [f'An OCSP response of {count(len(walk.octets), "octet")}: each box is an element, '
             'with its tag and its octets, counted from 0']
    if walk.misfit:
        lines.append('refused with number 3: the box in red, marked "refused"')
    elif refusal == 3:
        lines.append('refused with number 3; where it breaks is not known, so no box is marked')
    else:
        lines.append('no box is marked as refused: the answer is not refusal 3')
    if len(walk.octets) > LONGEST:
        lines.append(f'longer than {LONGEST:,} octets, so not drawn in boxes')
    return lines


def legend(walk, refusal):
    """The lines above the boxes: the name of a row, if the line belongs to one, and its words."""
    lines = [(None, line) for line in heading(walk, refusal)]
    if walk.misfit:
        for name, words in misfit_rows(walk, LEGEND - COLUMN):
            lines += [('' if number else name, line) for number, line in enumerate(words)]
    return lines


def text(x, y, bold, plain, look=''):
    """One line of text, its first words bold."""
    words = f'<tspan class="name">{escape(bold)}</tspan>' if bold else ''
    words += escape(f' {plain}' if bold and plain else plain)
    return f'<text x="{x:.1f}" y="{y:.1f}"{look}>{words}</text>'


def legend_text(lines):
    """The legend as lines of SVG, and its width."""
    drawn, width = [], 0
    for number, (name, words) in enumerate(lines):
        x, y = 0 if name is None else LETTER * COLUMN, MARGIN + LETTERS * number + 10
        if name:
            drawn.append(text(MARGIN, y, name, ''))
        drawn.append(text(MARGIN + x, y, '', words))
        width = max(width, x + LETTER * len(words))
    return drawn, width


def cell_text(cell, left, top, depth):
    """A cell as lines of SVG, in a holder with this corner."""
    x, y = left + cell.x, top + cell.y
    look = ('even', 'odd')[depth % 2] if cell.look in ('box', 'way') else cell.look
    look += ' way' if cell.look == 'way' else ''
    told = ' class="refused-text"' if look == 'refused' else ''
    lines = [f'<rect class="{look}" x="{x:.1f}" y="{y:.1f}" width="{cell.width:.1f}" '
             f'height="{cell.height:.1f}" rx="3"/>']
    for number, (bold, plain) in enumerate(cell.label):
        lines.append(text(x + PAD, y + PAD + LETTERS * number + 10, bold, plain, told))
    for inner in cell.cells:
        lines += cell_text(inner, x, y, depth + 1)
    return lines


def picture(walk, refusal):
    """The picture of a response that is refused with this number, if any."""
    told = legend(walk, refusal)
    above, above_width = legend_text(told)
    cells = cells_of(walk)
    wide, high = arrange(cells, 0, 0, WIDE - 2 * MARGIN)
    top = MARGIN + LETTERS * len(told) + 8
    size = f'{2 * MARGIN + max(wide, above_width):.0f}', f'{top + high + MARGIN:.0f}'
    described = ' '.join(' '.join(filter(None, line)) for line in told[1:])
    lines = [f'<svg xmlns="http://www.w3.org/2000/svg" viewBox="0 0 {size[0]} {size[1]}" '
             f'width="{size[0]}" height="{size[1]}" role="img" font-family="{FONT}" '
             'font-size="11">',
             f'<title>{escape(told[0][1])}</title>',
             f'<desc>{escape(described)}</desc>',
             f'<style>{STYLE}</style>',
             f'<rect class="paper" width="{size[0]}" height="{size[1]}"/>']
    for cell in cells:
        lines += cell_text(cell, MARGIN, top, 0)
    return '\n'.join(lines + above + ['</svg>', ''])


def draw(path, walk, refusal):
    """Writes the picture."""
    replace(path, picture(walk, refusal).encode('utf-8'))
