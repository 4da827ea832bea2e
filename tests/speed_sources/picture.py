"""The picture of what tests/speed measures: bars for the comparison and for a Shard, and a panel for each size that a host grows by."""
from math import log10
from statistics import median

WIDE, HIGH = 430, 250  # a panel, with its labels
LEFT, TOP, RIGHT, BELOW = 62, 40, 14, 42  # the space around what it shows
COLOURS = {"proved": "#0072b2", "plain": "#e69f00", "bare": "#999999"}
NAMES = {"proved": "proved", "plain": "plain Rust", "bare": "bare hash table"}
CHANGES = "Set that adds, Set that deletes"
STEPS = ("receive the Shard", "process the Shard", "receive the Delegate", "process the Delegate")
LINES = (
    ("by entries", "entries", ("Get", "Set"), True),
    ("by entries: Sets that add and delete", "entries", (CHANGES,), True),
    ("by bounds of the map", "bounds", ("Get", "Set"), False),
    ("by peers", "peers", ("Get", "Set"), False),
    ("by waiting messages, with memory for 257", "waiting", ("Get", "Set"), False),
    ("by memory for waiting messages, none waits", "places", ("Get", "Set"), False),
)


def nice(most):
    """The distance between two lines of the grid, so that there are a few of them."""
    step = 10 ** int(log10(most))
    return next(step * part for part in (0.1, 0.2, 0.5, 1, 2, 5) if most / (step * part) <= 5)


class Panel:
    def __init__(self, place, title, unit, most):
        self.x, self.y = WIDE * (place % 2), 60 + HIGH * (place // 2)
        self.most = most * 1.05
        self.parts = []
        self.text(WIDE / 2, 24, title, "middle", 'font-weight="bold"')
        self.text(LEFT, TOP - 4, unit, "end")
        step, line = nice(most), 0
        while line <= self.most:
            self.line(LEFT, self.up(line), WIDE - RIGHT, self.up(line), 'stroke="#dddddd"')
            self.text(LEFT - 6, self.up(line) + 4, f"{line:,.10g}", "end")
            line += step

    def up(self, value):
        return HIGH - BELOW - value / self.most * (HIGH - TOP - BELOW)

    def text(self, x, y, words, anchor="middle", more=""):
        self.parts.append(f'<text x="{self.x + x:.1f}" y="{self.y + y:.1f}" text-anchor="{anchor}" {more}>{words}</text>')

    def line(self, x1, y1, x2, y2, more):
        self.parts.append(f'<line x1="{self.x + x1:.1f}" y1="{self.y + y1:.1f}" x2="{self.x + x2:.1f}" y2="{self.y + y2:.1f}" {more}/>')

    def spread(self, x, runs):
        """From the least to the most of the runs, as far as the panel goes."""
        self.line(x, self.up(min(runs)), x, self.up(min(max(runs), self.most)), 'stroke="#333333"')

    def bars(self, groups):
        """Groups of bars beside each other, each group with its label, line by line."""
        each = (WIDE - LEFT - RIGHT) / len(groups)
        for i, (label, bars) in enumerate(groups):
            wide = each * 0.8 / len(bars)
            for row, words in enumerate(label):
                self.text(LEFT + each * (i + 0.5), HIGH - BELOW + 16 + 14 * row, words)
            for j, (side, runs) in enumerate(bars):
                x, y = LEFT + each * (i + 0.1) + wide * j, self.up(median(runs))
                size = f'width="{wide:.1f}" height="{HIGH - BELOW - y:.1f}"'
                self.parts.append(f'<rect x="{self.x + x:.1f}" y="{self.y + y:.1f}" {size} fill="{COLOURS[side]}"/>')
                self.spread(x + wide / 2, runs)

    def ticks(self, places):
        """The sizes below the panel, but for those that would stand on another."""
        last = -99
        for size, x in places.items():
            self.line(x, HIGH - BELOW, x, HIGH - BELOW + 4, 'stroke="#333333"')
            if x - last > 26:
                self.text(x, HIGH - BELOW + 18, f"{size:,}")
                last = x

    def curve(self, side, dashed, points, places):
        where = [(places[size], self.up(median(runs))) for size, runs in points]
        path = " ".join(f"{self.x + x:.1f},{self.y + y:.1f}" for x, y in where)
        style = f'stroke="{COLOURS[side]}" stroke-width="2"' + (' stroke-dasharray="5 4"' if dashed else "")
        self.parts.append(f'<polyline points="{path}" fill="none" {style}/>')
        for size, runs in points:
            self.spread(places[size], runs)
        for x, y in where:
            self.parts.append(f'<circle cx="{self.x + x:.1f}" cy="{self.y + y:.1f}" r="3" fill="{COLOURS[side]}"/>')


def placed(sizes, logarithmic):
    """Where each size stands, from left to right."""
    scale = log10 if logarithmic else float
    low, high = scale(sizes[0]), scale(sizes[-1])
    return {size: LEFT + 12 + (scale(size) - low) / (high - low) * (WIDE - LEFT - RIGHT - 36) for size in sizes}


def most_of(runs):
    """The top of a panel. A run far above the others does not press them down: its line ends where the panel does."""
    return max(median(run) for run in runs) * 1.1


def lines(times, place, title, name, mixes, logarithmic):
    chosen = {key: runs for key, runs in times.items() if key[0] in {f"{name}: {mix}" for mix in mixes}}
    panel = Panel(place, title, "ns", most_of(chosen.values()))
    places = placed(sorted({size for _, _, size in chosen}), logarithmic)
    panel.ticks(places)
    for side in ("proved", "plain"):
        for mix in mixes:
            points = sorted((size, runs) for (what, where, size), runs in chosen.items() if (what, where) == (f"{name}: {mix}", side))
            panel.curve(side, mix == "Set", points, places)
    return panel


def comparison(times):
    groups = []
    for mix in ("Get", "Set"):
        for peers in (4, 64):
            bars = [(side, times[mix, side, peers]) for side in ("proved", "plain")]
            groups.append(((mix, f"{peers} peers"), [*bars, ("bare", times[mix, "bare", 0])]))
    panel = Panel(0, "a request, 3,000 records", "ns", most_of(runs for _, bars in groups for _, runs in bars))
    panel.bars(groups)
    return panel


def transfers(times):
    groups = []
    for step in STEPS:
        found = {side: [time / 1000 for time in runs] for (what, side, _), runs in times.items() if what == step}
        groups.append((step.split(" the "), [(side, found[side]) for side in ("proved", "plain")]))
    panel = Panel(7, "a Shard of 61 entries, 3,000 records", "µs", most_of(runs for _, bars in groups for _, runs in bars))
    panel.bars(groups)
    return panel


def legend():
    parts = []
    for i, side in enumerate(("proved", "plain", "bare")):
        x = LEFT + 120 * i
        parts.append(f'<rect x="{x}" y="36" width="14" height="14" fill="{COLOURS[side]}"/><text x="{x + 20}" y="48">{NAMES[side]}</text>')
    words = "dashed: Sets; thin upright lines: least to most of the runs"
    return [*parts, f'<text x="{LEFT + 400}" y="48">{words}</text>']


def drawn(times):
    panels = [comparison(times), *(lines(times, 1 + i, *line) for i, line in enumerate(LINES)), transfers(times)]
    wide, high = 2 * WIDE, 60 + 4 * HIGH
    parts = [
        f'<svg xmlns="http://www.w3.org/2000/svg" viewBox="0 0 {wide} {high}" width="{wide}" height="{high}" font-family="sans-serif" font-size="12">',
        f'<rect width="{wide}" height="{high}" fill="white"/>',
        f'<text x="{LEFT}" y="24" font-size="16">How long the host takes: medians of five runs</text>',
        *legend(),
        *(part for panel in panels for part in panel.parts),
        "</svg>",
    ]
    return "\n".join(parts) + "\n"
