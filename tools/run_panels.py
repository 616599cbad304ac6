"""The panels of tools/run_chart.py, as SVG."""
from xml.sax.saxutils import escape

WIDTH, LEFT, RIGHT = 960, 92, 150
INNER = WIDTH - LEFT - RIGHT
STEP = 3  # pixels a bar
INK, PALE = "#222222", "#d9d9d9"
LOAD, BUDGET, FETCH, EVICT = "#0072b2", "#444444", "#009e73", "#d55e00"
SESSIONS = ["#0072b2", "#d55e00", "#009e73", "#9a4f96", "#8a6d00", "#3b8fc4", "#a6403d", "#5b5b5b"]


def short(value, unit=""):
    """A number in a few letters: 1.5 M."""
    for size, letter in ((1e9, "G"), (1e6, "M"), (1e3, "k")):
        if value >= size:
            return f"{value / size:.3g} {letter}{unit}"
    return f"{value:.3g} {unit}".strip()


def ticks(most, wished):
    """Round numbers from 0 to `most`, whole ones."""
    step = 1
    while most / step > wished:
        step *= 2 if str(step)[0] in "15" else 5 / 2
    return [int(step * i) for i in range(int(most / step) + 1)]


class Panel:
    """A box with axes; x goes from 0 to `across`, y from 0 to `most`, or from `-below` where something goes down."""

    def __init__(self, top, height, across, most, title, unit="", below=0):
        self.top, self.height = top, height
        self.across, self.most, self.below = max(across, 1), max(most, 1), below
        self.parts = [f'<text x="{LEFT}" y="{top - 8}" font-weight="bold">{escape(title)}</text>']
        levels = ticks(self.most, max(1, int(height * self.most / (self.most + below)) // 26))
        for value in levels if len(levels) > 1 else [0, self.most]:
            self.level(value, short(value, unit))
        if below:
            self.level(-below, short(below, unit))

    def level(self, value, label):
        y = self.y(value)
        self.parts.append(f'<line x1="{LEFT}" x2="{LEFT + INNER}" y1="{y:.1f}" y2="{y:.1f}" stroke="{PALE}"/>'
                          f'<text x="{LEFT - 8}" y="{y + 4:.1f}" text-anchor="end">{escape(label)}</text>')

    def x(self, value):
        return LEFT + INNER * value / self.across

    def y(self, value):
        return self.top + self.height * (self.most - value) / (self.most + self.below)

    def across_labels(self, name):
        y = self.top + self.height + 18
        for value in ticks(self.across, 8):
            self.parts.append(f'<text x="{self.x(value):.1f}" y="{y}" text-anchor="middle">{short(value)}</text>')
        self.parts.append(f'<text x="{LEFT + INNER + 10}" y="{y}">{escape(name)}</text>')

    def line(self, places, colour, dashed=False, dots=False):
        points = " ".join(f"{self.x(x):.1f},{self.y(y):.1f}" for x, y in places)
        style = ' stroke-dasharray="6 4"' if dashed else ""
        self.parts.append(f'<polyline points="{points}" fill="none" stroke="{colour}" stroke-width="1.6"{style}/>')
        if dots:
            dot = '<circle cx="{:.1f}" cy="{:.1f}" r="2.6" fill="{}"/>'
            self.parts += [dot.format(self.x(x), self.y(y), colour) for x, y in places]

    def bar(self, left, width, value, colour):
        low, high = sorted((self.y(0), self.y(value)))
        self.parts.append(f'<rect x="{left:.1f}" y="{low:.1f}" width="{width:.1f}" height="{high - low:.1f}" '
                          f'fill="{colour}"/>')

    def name(self, value, text, colour):
        self.label(self.y(value), text, colour)

    def label(self, y, text, colour):
        self.parts.append(f'<text x="{LEFT + INNER + 10}" y="{y + 4:.1f}" fill="{colour}">{escape(text)}</text>')


def thinned(values):
    """Steps of a line with at most four places a pixel: the first, least, greatest and last of what falls into each."""
    if len(values) <= 2 * INNER:
        places = [(0, values[0])]
        for at in range(1, len(values)):
            places += [(at, values[at - 1]), (at, values[at])]
        return places
    places = []
    for pixel in range(INNER):
        first, end = pixel * len(values) // INNER, (pixel + 1) * len(values) // INNER
        part = values[first:end]
        places += [(first, part[0]), (first, min(part)), (first, max(part)), (end - 1, part[-1])]
    return places


def counted(turns, across):
    """How many turns fall into each bar."""
    bars = min(max(across, 1), INNER // STEP)
    counts = [0] * bars
    for turn in turns:
        counts[min(bars - 1, (turn - 1) * bars // max(across, 1))] += 1
    return counts


def tier_panels(number, tier, top):
    across = len(tier.loads) - 1
    load = Panel(top, 110, across, max([tier.budget, *tier.loads]) * 1.05, f"Tier {number}: load", "B")
    load.line([(0, tier.budget), (load.across, tier.budget)], BUDGET, dashed=True)
    load.line(thinned(tier.loads), LOAD)
    load.name(tier.budget, f"budget {short(tier.budget, 'B')}", BUDGET)
    if abs(load.y(tier.loads[-1]) - load.y(tier.budget)) > 13:
        load.name(tier.loads[-1], f"load {short(tier.loads[-1], 'B')}", LOAD)
    else:
        load.label(load.y(tier.budget) + 14, f"load {short(tier.loads[-1], 'B')}", LOAD)
    fetched, evicted = counted(tier.fetches, across), counted(tier.evictions, across)
    flow = Panel(top + 140, 60, across, max(fetched), f"Tier {number}: patches fetched, and evicted (downwards)",
                 below=max(evicted))
    wide = INNER / len(fetched)
    for at, (up, down) in enumerate(zip(fetched, evicted)):
        if up:
            flow.bar(LEFT + at * wide, max(1, min(wide - 0.5, 14)), up, FETCH)
        if down:
            flow.bar(LEFT + at * wide, max(1, min(wide - 0.5, 14)), -down, EVICT)
    flow.name(flow.most, f"{len(tier.fetches)} fetched", FETCH)
    flow.name(-flow.below if flow.below else 0, f"{len(tier.evictions)} evicted", EVICT)
    flow.across_labels("turns")
    return load.parts + flow.parts, top + 140 + 60 + 54


def apart(heights, gap=13):
    """The same heights in the same order, moved down where two are closer than a line of text."""
    moved, last = {}, float("-inf")
    for key, height in sorted(heights.items(), key=lambda item: item[1]):
        last = moved[key] = max(height, last + gap)
    return moved


def frame_panels(frames, top):
    across = max(map(len, frames.values()))
    shapes = Panel(top, 150, across, max(t for it in frames.values() for t, _ in it) * 1.05, "Frames: triangles")
    tries = Panel(top + 185, 60, across, max(r for it in frames.values() for _, r in it), "Frames: refused tries")
    few = len(frames) <= 8
    labels = apart({session: shapes.y(it[-1][0]) for session, it in frames.items()}) if few else {}
    for place, (session, it) in enumerate(sorted(frames.items())):
        colour = SESSIONS[place % len(SESSIONS)]
        for panel, part in ((shapes, 0), (tries, 1)):
            panel.line([(at + 1, frame[part]) for at, frame in enumerate(it)], colour, dots=across <= 60)
        if few:
            shapes.label(labels[session], f"session {session}", colour)
    if not few:
        shapes.name(shapes.most, f"{len(frames)} sessions", INK)
    tries.across_labels("frames")
    return shapes.parts + tries.parts, top + 185 + 60 + 40


def drawing(run, title):
    """The whole chart."""
    parts, top = [], 70
    for number, tier in enumerate(run.tiers):
        more, top = tier_panels(number, tier, top)
        parts += more
    if run.frames:
        more, top = frame_panels(run.frames, top)
        parts += more
    head = (f'<svg xmlns="http://www.w3.org/2000/svg" width="{WIDTH}" height="{top}" viewBox="0 0 {WIDTH} {top}" '
            f'font-family="sans-serif" font-size="12" fill="{INK}" role="img">')
    page = f'<rect width="{WIDTH}" height="{top}" fill="#ffffff"/>'
    name = f'<text x="{LEFT}" y="28" font-size="16">{escape(title)}</text>'
    return "\n".join([head, f"<title>{escape(title)}</title>", page, name, *parts, "</svg>"])
