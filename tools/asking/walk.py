# The walk through a response by the layout, header by header: the boxes that its octets make, with
# their names, and the one that is refused at the place that the proved program gives. It tells what
# stands at that place, and finds no place of its own. Of contents it looks at two, which decide what
# follows them: the status and the type.

from .boxes import Box, Misfit, found_words, part_words, parts_words
from .headers import CONSTRUCTED, Flaw, count, header_at, tag_name, tag_words
from .layout import (BASIC_TYPE, DEPTH, ERRORS, FREE, LONGEST, RESPONSE, Basic, Choice, Fields,
                     Items, Part)

ANY = Part('element', (), '', FREE)
# The names of octets that are not read, behind what is refused or refused themselves.
MORE, LEFT = 'more octets', 'left-over octets'


class Walk:
    """The boxes of a response, and what is refused at a place, where one is given."""

    def __init__(self, octets, place=None):
        self.octets, self.place, self.misfit, self.later = octets, place, None, []
        self.whole = Box('the whole response', None, 0, len(octets), None, 0)
        if len(octets) > LONGEST:
            return
        self.fields(self.whole, [RESPONSE])
        # The envelope comes before the basic response, also where both break at one octet.
        for box, part in self.later:
            self.fields(box, [part])
        if place is not None and not self.misfit:
            self.misfit = Misfit(self.innermost(self.whole))

    def innermost(self, box):
        """The smallest box that has the place in it."""
        for held in box.holds:
            if held.start <= self.place < held.end:
                return self.innermost(held)
        return box

    def met(self, place):
        """Whether what is met now is what the place means: the first of all that is met there."""
        return place == self.place and not self.misfit

    def fields(self, holder, parts):
        """Parts one after the other. An optional one is known by its tag octet alone."""
        at, wanted, ending = holder.body, [], f'the end of {holder.name}'
        for part in parts:
            wanted.append(part)
            here = at < holder.end and (not part.tags or self.octets[at] in part.tags)
            if part.optional and not here:
                continue
            box = self.element(holder, at, wanted)
            if not box:
                return
            at, wanted = box.end, []
            if part.name == 'responseStatus' and self.octets[box.body:at] in ERRORS:
                ending += f': nothing follows status {self.octets[box.body:at].hex()}'
                break
        if at < holder.end:
            self.rest(holder, at, parts_words(wanted, ending))

    def items(self, holder, rule):
        """Items of one kind, with their numbers from 1."""
        at, number = holder.body, 1
        while at < holder.end or number <= rule.least:
            if number > rule.most:
                self.beyond(holder, at, rule.part, number,
                            f'the end of {holder.name}: it has at most {rule.most} items')
                return
            box = self.element(holder, at, [rule.part], number)
            if not box:
                return
            at, number = box.end, number + 1

    def free(self, holder):
        """The elements in a free one, looked at only where the place may be inside."""
        if (self.place is None or self.misfit or not holder.tag & CONSTRUCTED
                or not holder.start < self.place <= holder.end):
            return
        at, number = holder.body, 1
        while at < holder.end:
            if holder.depth == DEPTH:
                self.beyond(holder, at, ANY, number,
                            f'nothing: at most {DEPTH} elements lie one inside the other')
                break
            box = self.element(holder, at, [ANY], number)
            if not box:
                break
            at, number = box.end, number + 1
        if not self.misfit:
            holder.holds = []

    def element(self, holder, at, wanted, number=None):
        """The element at an octet, which should be the last of the wanted parts: its box, or
        nothing where no header is to be read."""
        part = wanted[-1]
        if at == holder.end:
            self.missing(holder, part, number)
            return None
        tag = self.octets[at]
        fits = not part.tags or tag in part.tags
        if fits and isinstance(part.holds, Choice):
            part = next(one for one in part.holds.parts if tag in one.tags)
        expected = part_words(part, number) if fits or len(wanted) == 1 else parts_words(wanted)
        header = header_at(self.octets, at, holder.end, holder.name)
        if isinstance(header, Flaw):
            self.unread(holder, at, part, number, expected, header)
            return None
        box = Box(part.name, holder, at, header.end, tag, header.body, number)
        if self.met(at):
            self.misfit = Misfit(box, expected, found_words(self.octets, box))
        elif fits:
            self.inside(box, part.holds)
        else:
            box.kind, box.number = tag_name(tag), None
        return box

    def missing(self, holder, part, number):
        """A part that should stand where its holder ends."""
        if self.met(holder.end):
            box = Box(part.name, holder, holder.end, holder.end, number=number)
            self.misfit = Misfit(box, part_words(part, number),
                                 f'nothing: {holder.name} ends here', True)

    def unread(self, holder, at, part, number, expected, flaw):
        """An element whose header cannot be read, and with it nothing more of its holder."""
        if self.met(flaw.place):
            box = Box(part.name, holder, at, holder.end, self.octets[at], number=number)
            self.misfit = Misfit(box, expected, flaw.words, flaw.place == holder.end)
        else:
            Box(MORE, holder, at, holder.end)

    def inside(self, box, holds):
        """What an element of the layout holds."""
        if isinstance(holds, Fields):
            self.fields(box, holds.parts)
        elif isinstance(holds, Items):
            self.items(box, holds)
        elif isinstance(holds, Basic):
            kind = box.holder.holds[0]
            if self.octets[kind.body:kind.end] == BASIC_TYPE:
                self.later.append((box, holds.part))
        elif holds == FREE:
            box.depth = box.holder.depth + 1
            self.free(box)

    def rest(self, holder, at, expected):
        """Octets behind all that a holder should have."""
        box = Box(MORE, holder, at, holder.end)
        if self.met(at):
            box.kind = LEFT
            over = count(holder.end - at, 'octet')
            before = holder.holds[-2].name
            self.misfit = Misfit(box, expected, f'{over} left over behind {before}')

    def beyond(self, holder, at, part, number, expected):
        """Items beyond a limit of number or depth."""
        box = Box(part.name, holder, at, holder.end, number=number)
        if self.met(at):
            self.misfit = Misfit(box, expected, f'{tag_words(self.octets[at])}, one too many')
