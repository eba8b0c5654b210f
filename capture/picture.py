"""The picture of a report: for each sender a panel of its counters over time, as inline SVG.

All panels have the same time axis, from which long silences are cut out. A counter axis goes by the
frames whose tags fitted, so that a forged frame can't squash the others: what is far off stands in
a band at the edge.
"""

from bisect import bisect_right
from dataclasses import dataclass
from html import escape
from itertools import pairwise

from .files import SECOND
from .words import CLASSES, in_words, seconds

WIDTH = 940                        # pixels of a panel, where it is shown in its own size
LEFT, RIGHT, TOP, BOTTOM = 104, 26, 24, 44
CAPTION = 42                       # with the frame around both
EDGE, BAND = 12, 20                # between the axes and the marks; the bands above and below
HEIGHTS = ((12, 190, 110), (60, 120, 90), (None, 84, 84))  # up to so many panels: high, and low
FEW = 8                            # marks, up to which a panel is a low one
CUT, MOST_CUTS = 66, 6             # how wide a silence is that was cut out, and how many there are
DIGIT, APART, LABEL = 7, 22, 22    # pixels of a digit, between labels in a line, and under another
LEAST_REACH = 4                    # counters so far out of range that are still drawn to scale
DENSE = 80                         # marks of a class in a panel, above which they are small

# The marks in the order in which they are drawn, the rare ones last: each a path behind its centre.
SHAPES = {
    "opened": "m-4.2 0a4.2 4.2 0 1 0 8.4 0a4.2 4.2 0 1 0-8.4 0z",
    "nokey": "m-4-4h8v8h-8z",
    "refused": "m-3.8 0a3.8 3.8 0 1 0 7.6 0a3.8 3.8 0 1 0-7.6 0z",
    "genuine": "m0-5.8l6.4 11.6h-12.8z",
    "altered": "m0-7l6 7l-6 7l-6-7z",
    "forged": "m0-2.1l3.5-3.5l2.1 2.1l-3.5 3.5l3.5 3.5l-2.1 2.1l-3.5-3.5l-3.5 3.5l-2.1-2.1l3.5-3.5"
              "l-3.5-3.5l2.1-2.1z",
}
SMALL = {
    "opened": "m-2.6 0a2.6 2.6 0 1 0 5.2 0a2.6 2.6 0 1 0-5.2 0z",
    "nokey": "m-2.7-2.7h5.4v5.4h-5.4z",
    "refused": "m-2.7 0a2.7 2.7 0 1 0 5.4 0a2.7 2.7 0 1 0-5.4 0z",
    "genuine": "m0-3.6l4 7.2h-8z",
    "altered": "m0-4.4l3.8 4.4l-3.8 4.4l-3.8-4.4z",
    "forged": "m0-1.4l2.2-2.2l1.4 1.4l-2.2 2.2l2.2 2.2l-1.4 1.4l-2.2-2.2l-2.2 2.2l-1.4-1.4l2.2-2.2"
              "l-2.2-2.2l1.4-1.4z",
}
WRONG = ("genuine", "altered", "forged")
FITTED = ("opened", "8 stale genuine", "10 full")  # verdicts on frames whose tags fitted


@dataclass(slots=True)
class Mark:
    """A frame that is drawn."""
    number: int
    time: int
    counter: int
    name: str        # its class
    words: str       # its verdict
    opened: bool     # by the network layer, which raises the floor
    fitted: bool


class Picture:
    """The marks of all senders, to be drawn when all are there."""

    def __init__(self):
        self.senders = {}

    def add(self, heard, name):
        """Adds the mark of a frame; whether it has one."""
        if heard.counter is None or heard.sender in ("-", "", None):
            return False
        marks = self.senders.setdefault((heard.pan, heard.sender), [])
        marks.append(Mark(heard.number, heard.time, heard.counter,
                          name if name in SHAPES else "refused", in_words(heard),
                          heard.network == "opened", heard.network in FITTED))
        return True

    def panels(self):
        """The panels: first those with a frame that somebody sent again, altered or forged, then
        those of the other senders that were opened, each in the order heard."""
        if not self.senders:
            return
        times = TimeAxis(sorted({mark.time for marks in self.senders.values() for mark in marks}))
        high, low = next((high, low) for most, high, low in HEIGHTS
                         if most is None or len(self.senders) <= most)
        for (pan, sender), marks in sorted(self.senders.items(), key=lambda one: told_last(one[1])):
            yield figure(pan, sender, Panel(times, marks, low if len(marks) <= FEW else high))


def told_last(marks):
    """What panels are sorted by: whether nothing in one is wrong, and nothing was opened."""
    return not any(mark.name in WRONG for mark in marks), not any(mark.opened for mark in marks)


# ---- axes --------------------------------------------------------------------------------------

def round_step(least):
    """The next number from 1, 2, 5, 10, 20, 50 and so on."""
    power = 10 ** (len(str(int(least))) - 1)
    return next(factor * power for factor in (1, 2, 5, 10) if factor * power >= least)


def multiples(step, low, high):
    """The multiples of a step from low to high."""
    return range(-(-low // step) * step, high + 1, step)


def silences(times):
    """Where the silences start that are cut out: the longest gaps, as long as those that are much
    longer than any other left make up more than four fifths of what is left."""
    gaps = sorted(((after - before, before) for before, after in pairwise(times)), reverse=True)
    left, alike, cut = times[-1] - times[0], 0, 0
    for place in range(min(MOST_CUTS, len(gaps) - 1)):
        alike += gaps[place][0]
        if gaps[place][0] > 3 * gaps[place + 1][0]:
            if 5 * alike <= 4 * left:
                break
            left, alike, cut = left - alike, 0, place + 1
    return {before for _, before in gaps[:cut]}


class TimeAxis:
    """Where times stand from left to right."""

    def __init__(self, times):
        silent = silences(times)
        edges = [(before, after) for before, after in pairwise(times) if before in silent]
        self.starts = [times[0], *(after for _, after in edges)]
        self.ends = [*(before for before, _ in edges), times[-1]]
        self.gaps = [after - before for before, after in edges]
        shown = sum(self.ends) - sum(self.starts)
        room = WIDTH - LEFT - RIGHT - 2 * EDGE - CUT * len(edges)
        self.scale, left = (room / shown, LEFT + EDGE) if shown else (0, LEFT + EDGE + room / 2)
        self.lefts = []
        for start, end in zip(self.starts, self.ends):
            self.lefts.append(left)
            left += (end - start) * self.scale + CUT

    def x(self, time):
        """Where a time stands."""
        place = bisect_right(self.starts, time) - 1
        return self.lefts[place] + (time - self.starts[place]) * self.scale

    def step(self):
        """Nanoseconds from tick to tick, and decimals of a label: as many ticks as have room."""
        step = round_step(80 / self.scale) if self.scale else SECOND
        while True:
            decimals = next(d for d in range(10) if step % 10 ** (9 - d) == 0)
            widest = max(len(label(time, decimals)) for time in (self.starts[0], self.ends[-1]))
            if not self.scale or step * self.scale >= widest * DIGIT + APART:
                return step, decimals
            step = round_step(step + 1)

    def ticks(self):
        """The ticks and their labels; a part that has no round time gets one where it starts."""
        step, decimals = self.step()
        clear = LEFT - APART
        for start, end in zip(self.starts, self.ends):
            marked = ([(time, label(time, decimals)) for time in multiples(step, start, end)]
                      or [(start, label(start, min(decimals + 1, 9)))])
            for time, text in marked:
                half = len(text) * DIGIT / 2
                if self.x(time) - half >= clear + APART / 2:
                    clear = self.x(time) + half
                    yield self.x(time), min(self.x(time), WIDTH - half), text


def label(time, decimals):
    """A time of the axis in seconds."""
    return f"{time / SECOND:.{decimals}f}"


def length(gap):
    """How long a silence is, in few digits."""
    if gap >= 10**6 * SECOND:
        return f"{gap / SECOND / 86400:.0f} days"
    if gap >= 100 * SECOND:
        return f"{gap / SECOND:.0f} s"
    return f"{gap / SECOND:.3g} s" if gap >= SECOND / 10 else f"{gap * 1000 / SECOND:.3g} ms"


def span(marks):
    """The least and the highest counter that are drawn to scale: of the frames whose tags fitted,
    or of the middle half of all where none did, and of the others that are not far from these."""
    counters = sorted(mark.counter for mark in marks)
    fitted = [mark.counter for mark in marks if mark.fitted]
    if fitted:
        low, high = min(fitted), max(fitted) + 1  # the floor is one above
        reach = max((high - low) // 2, LEAST_REACH)
    else:
        low, high = (counters[part * (len(counters) - 1) // 4] for part in (1, 3))
        reach = max((high - low) * 2, LEAST_REACH)
    near = [counter for counter in counters if low - reach <= counter <= high + reach]
    return min(low, near[0]), max(high, near[-1], low + 1)


# ---- a panel -----------------------------------------------------------------------------------

class Panel:
    """The panel of a sender: the axes, the floor and the marks."""

    def __init__(self, times, marks, height):
        self.times, self.marks, self.height = times, marks, height
        self.low, self.high = span(marks)
        self.above, self.below = TOP + BAND, TOP + height - BAND  # where these two stand

    def y(self, counter):
        """Where a counter stands; one out of range, in the band at that edge."""
        if counter > self.high:
            return self.above - BAND / 2
        if counter < self.low:
            return self.below + BAND / 2
        part = (counter - self.low) / (self.high - self.low)
        return self.below - part * (self.below - self.above)

    def draw(self):
        """All of it, what is drawn over something else behind it."""
        return "".join((*self.bands(), *self.counter_axis(), *self.floor(), *self.time_axis(),
                        *self.drawn_marks()))

    def bands(self):
        """The bands that have marks in them."""
        counters = [mark.counter for mark in self.marks]
        for far, top, base, word in ((max(counters) > self.high, TOP, 9, "higher"),
                                     (min(counters) < self.low, self.below, BAND - 1, "lower")):
            if far:
                yield (f'<rect class="band" x="{LEFT}" y="{top}" width="{WIDTH - LEFT - RIGHT}" '
                       f'height="{BAND}"/><text class="far" x="{LEFT - 8}" y="{top + base}">{word}'
                       '</text>')

    def counter_axis(self):
        """Lines at round counters, each with its label."""
        step = round_step((self.high - self.low) * LABEL / (self.below - self.above))
        yield f'<text class="name" x="{LEFT - 8}" y="14" text-anchor="end">counter</text>'
        for counter in multiples(step, self.low, self.high) or (self.low, self.high):
            text = f"{counter:,}" if counter >= 10000 else counter
            yield (f'<path class="grid" d="M{LEFT} {self.y(counter):.1f}H{WIDTH - RIGHT}"/>'
                   f'<text x="{LEFT - 8}" y="{self.y(counter) + 4:.1f}" text-anchor="end">{text}'
                   '</text>')

    def time_axis(self):
        """The axis, with the silences that are cut out."""
        bottom, ends = TOP + self.height, [self.times.x(end) for end in self.times.ends]
        parts = zip([LEFT, *self.times.lefts[1:]], [*ends[:-1], WIDTH - RIGHT])
        line = "".join(f"M{left:.1f} {bottom}H{right:.1f}" for left, right in parts)
        yield f'<path class="axis" d="M{LEFT} {TOP}V{bottom}{line}"/>'
        for x, middle, text in self.times.ticks():
            yield (f'<path class="axis" d="M{x:.1f} {bottom}v5"/>'
                   f'<text x="{middle:.1f}" y="{bottom + 18}" text-anchor="middle">{text}</text>')
        for end, gap in zip(ends, self.times.gaps):
            x = end + CUT / 2
            yield (f'<path class="cut" d="M{x:.1f} {TOP - 4}V{bottom + 5}"/>'
                   f'<text x="{x:.1f}" y="14" text-anchor="middle">{length(gap)}</text>')
        yield (f'<text class="name" x="{WIDTH - RIGHT}" y="{bottom + 37}" text-anchor="end">'
               'time in seconds</text>')

    def floor(self):
        """The floor as steps: from each opened frame on, one above its counter."""
        steps, first, latest = "", None, 0
        for mark in self.marks:
            if mark.opened:
                latest = max(latest, self.times.x(mark.time))  # also where times go back
                level = self.y(mark.counter + 1)
                steps += f"H{latest:.1f}V{level:.1f}" if steps else f"M{latest:.1f} {level:.1f}"
                first = latest if first is None else first
        if steps:
            steps += f"H{WIDTH - RIGHT}"
            yield f'<path class="under" d="{steps}V{TOP + self.height}H{first:.1f}z"/>'
            yield f'<path class="floor" d="{steps}"/>'

    def drawn_marks(self):
        """The marks by class, each with a link to the line of its frame."""
        for name in SHAPES:
            marks = [mark for mark in self.marks if mark.name == name]
            shape, small = (SMALL[name], " small") if len(marks) > DENSE else (SHAPES[name], "")
            drawn = "".join(
                f'<a id="m{mark.number}" href="#f{mark.number}">'
                f'<path d="M{self.times.x(mark.time):.1f} {self.y(mark.counter):.1f}{shape}">'
                f'<title>{escape(self.said(mark))}</title></path></a>' for mark in marks)
            if drawn:
                yield f'<g class="{name}{small}">{drawn}</g>'

    def said(self, mark):
        """What is said of a frame where the pointer stands on its mark."""
        far = (", higher than is drawn" if mark.counter > self.high
               else ", lower than is drawn" if mark.counter < self.low else "")
        return (f"frame {mark.number}: {mark.words}\n"
                f"counter {mark.counter}{far}, at {seconds(mark.time)} s")


def figure(pan, sender, panel):
    """A panel under the name of its sender, with the counts of its marks."""
    where = "no PAN" if pan is None else f"PAN 0x{pan:04x}"
    names = [mark.name for mark in panel.marks]
    counts = ", ".join(f"{names.count(name)} {words}" for name, words in CLASSES.items()
                       if name in names)
    high = TOP + panel.height + BOTTOM
    return (f'<figure class="panel" style="contain-intrinsic-size: auto {high + CAPTION}px">'
            f'<figcaption><h3>Sender <code>{escape(sender)}</code>, {where}'
            f'</h3> <span>{counts}</span></figcaption><div class="box">'
            f'<svg role="img" viewBox="0 0 {WIDTH} {high}" '
            f'aria-label="Counters of {escape(sender)} over time: {counts}">'
            f'{panel.draw()}</svg></div></figure>\n')
