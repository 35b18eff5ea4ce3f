"""A run as a picture: plain SVG, in black and grey, told apart by dashes and hatching and not by colour."""

from html import escape

from reader.listing import DAY, clock, counted, day, elapsed
from reader.timeline import CONTROL, TANK

LEFT, PLOT, RIGHT = 170, 710, 120  # names, the run, levels; longer names make more room
LETTER = 7.5  # the room for a letter of a name
TOP = 64
PANEL, PANEL_GAP = 90, 20  # a tank
ROW, BAR = 20, 10  # a link
LABEL = 12  # the least distance of two labels

HOUR = 3600
TICKS = [1, 5, 10, 30, 60, 300, 600, 900, 1800, HOUR, 2 * HOUR, 3 * HOUR, 6 * HOUR, 12 * HOUR]
TICKS += [days * DAY for days in (1, 2, 7, 30, 90, 365)]
MOST_TICKS = 12

STYLE = """\
<style>
text { font: 11px sans-serif; fill: black }
.title { font-size: 15px; font-weight: bold }
.right { text-anchor: end }
.middle { text-anchor: middle }
.grid { stroke: #ddd }
.frame { stroke: #888 }
.level { stroke: black; stroke-width: 1.6; fill: none }
.limit { stroke: black; stroke-dasharray: 7 3 }
.target { stroke: #555; stroke-dasharray: 1.5 3 }
.step { stroke: #555; stroke-width: 0.7 }
.open { fill: #333 }
.active { fill: url(#hatch); stroke: #333; stroke-width: 0.5 }
.closed { stroke: #888 }
.cross { stroke: black; stroke-width: 1.6; fill: none }
.refused { stroke: black; stroke-width: 2; stroke-dasharray: 2 2 }
</style>
<defs>
<pattern id="hatch" width="5" height="5" patternUnits="userSpaceOnUse" patternTransform="rotate(45)">
<rect width="5" height="5" fill="white"/>
<rect width="2" height="5" fill="#333"/>
</pattern>
</defs>"""


def line(kind, x1, y1, x2, y2):
    return f'<line class="{kind}" x1="{x1:.1f}" y1="{y1:.1f}" x2="{x2:.1f}" y2="{y2:.1f}"/>'


def text(words, x, y, kind=""):
    named = f' class="{kind}"' if kind else ""
    return f'<text{named} x="{x:.1f}" y="{y:.1f}">{escape(words, quote=False)}</text>'


def box(kind, x, y, width, height):
    return f'<rect class="{kind}" x="{x:.1f}" y="{y:.1f}" width="{width:.1f}" height="{height:.1f}"/>'


def triangle(x, y):
    """A control's mark: its tip points down to the bar."""
    return f'<path d="M {x - 4:.1f} {y - 7:.1f} h 8 l -4 7 z"/>'


def cross(x, y):
    """A closing's mark."""
    return f'<path class="cross" d="M {x - 3:.1f} {y - 6:.1f} l 6 6 m 0 -6 l -6 6"/>'


MARKS = {CONTROL: triangle, TANK: cross}


def spread(places):
    """Places of labels from above to below, moved down where two would stand too close."""
    moved = []
    for place in places:
        moved.append(max(place, moved[-1] + LABEL) if moved else place)
    return moved


class Picture:
    def __init__(self, title, timeline):
        self.title, self.timeline, self.network = title, timeline, timeline.network
        names = [*map(self.network.node_name, self.network.tanks), *map(self.network.link_name, timeline.links())]
        self.left = max(LEFT, round(20 + LETTER * max(map(len, names), default=0)))
        self.width = self.left + PLOT + RIGHT
        self.parts, self.y = [], TOP

    def x(self, instant):
        return self.left + PLOT * instant / max(self.network.duration, 1)

    def drawn(self):
        for tank in self.network.tanks:
            self.draw_tank(tank)
        for link in self.timeline.links():
            self.draw_link(link)
        self.draw_steps()
        self.draw_refusal()
        grid = self.draw_axis()
        self.draw_legend()
        size = f'width="{self.width}" height="{self.y}"'
        lines = [f'<svg xmlns="http://www.w3.org/2000/svg" {size} viewBox="0 0 {self.width} {self.y}">']
        lines += [f"<title>{escape(self.title, quote=False)}</title>", STYLE, f'<rect {size} fill="white"/>']
        return "\n".join([*lines, *self.heading(), *grid, *self.parts, "</svg>", ""])

    def name(self, words, y):
        """What stands at the left of a row."""
        self.parts.append(text(words, self.left - 10, y, "right"))

    def heading(self):
        start = self.network.start_clock
        told = f"{elapsed(self.network.duration)} from {clock(start)}, {counted(len(self.timeline.steps))}"
        if self.timeline.refused:
            told += f", refused {self.timeline.refused[0]} at {elapsed(self.timeline.refused[1])}"
        return [text(self.title, 16, 26, "title"), text(told, 16, 44)]

    # --- tanks ---

    def draw_tank(self, tank):
        top, levels = self.y + 4, self.timeline.levels[tank]
        limits = self.network.limits(tank)
        feet = [level for _, level in levels] + list(limits.values())
        low, high = min(feet), max(feet)

        def y(level):
            return top + PANEL * ((high - level) / (high - low) if high > low else 0.5)

        left, right = self.left, self.left + PLOT
        self.name(self.network.node_name(tank), top + PANEL / 2)
        self.name("level, ft", top + PANEL / 2 + 14)
        self.parts += [line("frame", x, top, x, top + PANEL) for x in (left, right)]
        marks = self.level_marks(tank, low, high)
        places = spread([y(level) + 4 for _, level, _ in marks])
        for (words, level, kind), place in zip(marks, places):
            self.parts.append(line(kind, left, y(level), right, y(level)))
            self.parts.append(text(words, right + 6, place))
        points = " ".join(f"{self.x(instant):.1f},{y(level):.1f}" for instant, level in levels)
        self.parts.append(f'<polyline class="level" points="{points}"/>')
        self.y += PANEL + PANEL_GAP

    def level_marks(self, tank, low, high):
        """The limits and the levels of controls that lie within, from above to below."""
        marks = [(f"{level:.2f} {limit}", level, "limit") for limit, level in self.network.limits(tank).items()]
        for number, control in self.network.level_controls(tank):
            if low <= control["target"] <= high:
                marks.append((f"{control['target']:.2f} control {number}", control["target"], "target"))
        return sorted(marks, key=lambda mark: -mark[1])

    # --- links ---

    def draw_link(self, link):
        top = self.y + ROW - BAR
        self.name(self.network.link_name(link), top + BAR - 1)
        for stretch in self.timeline.stretches[link]:
            begin, end = self.x(stretch.begin), self.x(stretch.end)
            if stretch.how == "closed":
                self.parts.append(line("closed", begin, top + BAR / 2, end, top + BAR / 2))
            else:
                self.parts.append(box(stretch.how, begin, top, end - begin, BAR))
        for instant, what in self.timeline.changes[link]:
            self.parts.append(MARKS[what](self.x(instant), top - 1))
        self.y += ROW

    # --- steps, axis, legend ---

    def draw_steps(self):
        top = self.y + ROW - BAR
        self.name("steps", top + BAR - 1)
        for x in map(self.x, self.timeline.steps):
            self.parts.append(line("step", x, top, x, top + BAR))
        self.y += ROW + 6

    def draw_refusal(self):
        if self.timeline.refused:
            number, instant = self.timeline.refused
            self.parts.append(line("refused", self.x(instant), TOP, self.x(instant), self.y))
            self.parts.append(text(f"refused {number}", self.x(instant), TOP - 4, "middle"))

    def draw_axis(self):
        """The times below; answers the lines of the grid, which stand behind everything."""
        duration, start = self.network.duration, self.network.start_clock
        tick = next((tick for tick in TICKS if duration <= MOST_TICKS * tick), TICKS[-1])
        dated = start or duration > DAY
        bottom, last = self.y, None
        self.parts.append(text("time of the run", self.left - 30, bottom + 14, "right"))
        if dated:
            self.parts.append(text("time of day", self.left - 30, bottom + 28, "right"))
        for instant in range(0, duration + 1, tick):
            x, now = self.x(instant), start + instant
            self.parts.append(text(elapsed(instant) if tick < 60 else elapsed(instant)[:-3], x, bottom + 14, "middle"))
            if dated:
                self.parts.append(text(clock(now)[:5], x, bottom + 28, "middle"))
                if day(now) != last:
                    self.parts.append(text(f"day {day(now)}", x, bottom + 42, "middle"))
                last = day(now)
        self.y += 50 if dated else 22
        return [line("grid", self.x(at), TOP, self.x(at), bottom) for at in range(0, duration + 1, tick)]

    def draw_legend(self):
        y = self.y + 16
        entries = [
            (box("open", 0, y - 9, 24, BAR), "open"),
            (box("active", 0, y - 9, 24, BAR), "active"),
            (line("closed", 0, y - 4, 24, y - 4), "closed"),
            (triangle(12, y), "a control acts"),
            (cross(12, y), "a tank closes"),
            (line("limit", 0, y - 4, 24, y - 4), "full, empty"),
            (line("target", 0, y - 4, 24, y - 4), "a control's level"),
        ]
        for place, (sample, words) in enumerate(entries):
            x = 16 + place * (self.width - 16) / len(entries)
            self.parts.append(f'<g transform="translate({x:.1f} 0)">{sample}{text(words, 30, y)}</g>')
        self.y += 32


def drawn(title, timeline):
    """The picture of a run as the text of an SVG file."""
    return Picture(title, timeline).drawn()
