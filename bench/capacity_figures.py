# The figures of docs/CAPACITY.md as SVG: lines differ in dashes and marks, areas in hatching, so that grey print will do.

import math
from typing import NamedTuple

FONT = "DejaVu Sans, Helvetica, Arial, sans-serif"
INK = "#222222"
PALE = "#dddddd"


class Style(NamedTuple):
    colour: str
    dash: str
    mark: str


SIZE_STYLES = (
    Style("#d07000", "1.5 3", "circle"),
    Style("#1878b8", "7 3", "square"),
    Style("#107050", "9 3 2 3", "triangle"),
    Style("#301060", "", "diamond"),
)
IDEAL = Style("#a8a8a8", "", "")


class Axes(NamedTuple):
    """A plot's frame on the page, and the values at its edges."""
    left: float
    top: float
    width: float
    height: float
    x_range: tuple
    y_range: tuple
    is_log: bool = False

    def part(self, value, limits):
        low, high = limits
        if self.is_log:
            low, high, value = math.log(low), math.log(high), math.log(value)
        return (value - low) / (high - low)

    def x(self, value):
        return self.left + self.width * self.part(value, self.x_range)

    def y(self, value):
        return self.top + self.height * (1 - self.part(value, self.y_range))


# Pieces of a page.

def text(x, y, words, size=12, anchor="middle", more=""):
    return f'<text x="{x:.1f}" y="{y:.1f}" font-size="{size}" text-anchor="{anchor}" fill="{INK}" {more}>{words}</text>'


def upright(x, y, words, size=12):
    return text(x, y, words, size, more=f'transform="rotate(-90 {x:.1f} {y:.1f})"')


def grid_line(x1, y1, x2, y2):
    return f'<line x1="{x1:.1f}" y1="{y1:.1f}" x2="{x2:.1f}" y2="{y2:.1f}" stroke="{PALE}" stroke-width="0.7"/>'


def frame(axes, x_ticks, y_ticks, x_words=str, y_words=str):
    drawn = []
    for value in x_ticks:
        x, bottom = axes.x(value), axes.top + axes.height
        drawn.append(grid_line(x, axes.top, x, bottom))
        drawn.append(text(x, bottom + 14, x_words(value), 10))
    for value in y_ticks:
        y = axes.y(value)
        drawn.append(grid_line(axes.left, y, axes.left + axes.width, y))
        drawn.append(text(axes.left - 5, y + 3.5, y_words(value), 10, "end"))
    drawn.append(f'<rect x="{axes.left}" y="{axes.top}" width="{axes.width}" height="{axes.height}"'
                 f' fill="none" stroke="{INK}"/>')
    return drawn


def mark(x, y, style):
    looks = f'fill="white" stroke="{style.colour}" stroke-width="1.3"'
    if style.mark == "circle":
        return f'<circle cx="{x:.1f}" cy="{y:.1f}" r="2.8" {looks}/>'
    if style.mark == "square":
        return f'<rect x="{x - 2.5:.1f}" y="{y - 2.5:.1f}" width="5" height="5" {looks}/>'
    corners = {"triangle": ((0, -3.4), (3.2, 2.4), (-3.2, 2.4)), "diamond": ((0, -3.6), (3.6, 0), (0, 3.6), (-3.6, 0))}
    points = " ".join(f"{x + dx:.1f},{y + dy:.1f}" for dx, dy in corners[style.mark])
    return f'<polygon points="{points}" {looks}/>'


def polyline(places, style, width=1.5):
    points = " ".join(f"{x:.1f},{y:.1f}" for x, y in places)
    dashes = f' stroke-dasharray="{style.dash}"' if style.dash else ""
    return f'<polyline points="{points}" fill="none" stroke="{style.colour}" stroke-width="{width}"{dashes}/>'


def curve(axes, points, style, width=1.5):
    places = [(axes.x(x), axes.y(y)) for x, y in points]
    return [polyline(places, style, width)] + [mark(x, y, style) for x, y in places if style.mark]


def legend_line(x, y, style, words, width=1.5):
    sample = [polyline([(x, y), (x + 34, y)], style, width)]
    if style.mark:
        sample.append(mark(x + 17, y, style))
    return sample + [text(x + 40, y + 4, words, 12, "start")]


def write(path, width, height, drawn, title):
    """A page on white, so that it can be read on a dark screen too."""
    page = [f'<svg xmlns="http://www.w3.org/2000/svg" width="{width}" height="{height}" viewBox="0 0 {width} {height}"'
            f' font-family="{FONT}" role="img">',
            f"<title>{title}</title>", f'<rect width="{width}" height="{height}" fill="white"/>', *drawn, "</svg>", ""]
    path.write_text("\n".join(page))


def percent_words(value):
    return f"{100 * value:.0f} %"


# The share of clean walks by load: a row of plots for each d, a column for each kind of losses.

COLUMNS = (((1, 1), "all flows lose the same"), ((1, 10), "1 to 10 packets a flow"), ((1, 64), "1 to 64 packets a flow"))
CELL_WIDTH, CELL_HEIGHT = 262, 200


def clean_cell(axes, tallies, sizes):
    drawn = frame(axes, (0.2, 0.4, 0.6, 0.8, 1.0), (0, 0.25, 0.5, 0.75, 1), y_words=percent_words)
    ideal = [(one.load, one.told_apart / one.seeds) for one in tallies if one.buckets == sizes[-1]]
    drawn += curve(axes, ideal, IDEAL, 4)
    for size, style in zip(sizes, SIZE_STYLES):
        drawn += curve(axes, [(one.load, one.clean / one.seeds) for one in tallies if one.buckets == size], style)
    return drawn


def cells():
    """A row of plots for each d, a column for each kind of losses: the words beside and above each plot, its axes, d and the losses."""
    for row, d in enumerate((2, 3, 4)):
        top = 66 + row * CELL_HEIGHT
        for column, (losses, words) in enumerate(COLUMNS):
            axes = Axes(72 + column * CELL_WIDTH, top, 215, 150, (0.05, 1.05), (-0.04, 1.04))
            beside = [upright(18, top + 75, f"d = {d}", 13)] if column == 0 else []
            above = [text(axes.left + 107, top - 12, words, 13)] if row == 0 else []
            yield beside + above, axes, d, losses


def draw_clean(path, tallies, sizes):
    drawn = [text(435, 22, "Share of walks that end clean", 15, more='font-weight="bold"')]
    for words, axes, d, losses in cells():
        drawn += words + clean_cell(axes, [one for one in tallies if one.d == d and one.losses == losses], sizes)
    bottom = 66 + 3 * CELL_HEIGHT
    drawn.append(text(435, bottom - 10, "load: lost flows a bucket", 13))
    for place, (size, style) in enumerate(zip(sizes, SIZE_STYLES)):
        drawn += legend_line(60 + 150 * place, bottom + 18, style, f"{size:,} buckets")
    drawn += legend_line(60 + 150 * len(sizes), bottom + 18, IDEAL, f"a perfect test, {sizes[-1]:,}", 4)
    write(path, 870, bottom + 36, drawn, "Share of walks that end clean, by load, arrays, losses and size")


# The same walks in both profiles: a row of plots for each d, a column for each kind of losses.

PROFILE_STYLES = (
    (Style("#d07000", "1.5 3", "circle"), Style("#9a5400", "6 3", "square")),
    (Style("#1878b8", "", "triangle"), Style("#301060", "", "diamond")),
)
PROFILE_WORDS = ("plain", "fingerprints")


def profiles_cell(axes, grids, sizes):
    drawn = frame(axes, (0.2, 0.4, 0.6, 0.8, 1.0), (0, 0.25, 0.5, 0.75, 1), y_words=percent_words)
    ideal = [(one.load, one.told_apart / one.seeds) for one in grids[-1] if one.buckets == sizes[-1]]
    drawn += curve(axes, ideal, IDEAL, 4)
    for tallies, styles in zip(grids, PROFILE_STYLES):
        for size, style in zip(sizes, styles):
            drawn += curve(axes, [(one.load, one.clean / one.seeds) for one in tallies if one.buckets == size], style)
    return drawn


def draw_profiles(path, plain, with_fingerprints, sizes):
    drawn = [text(435, 22, "Share of walks that end clean, plain and with fingerprints", 15, more='font-weight="bold"')]
    for words, axes, d, losses in cells():
        grids = [[one for one in grid if one.d == d and one.losses == losses] for grid in (plain, with_fingerprints)]
        drawn += words + profiles_cell(axes, grids, sizes)
    bottom = 66 + 3 * CELL_HEIGHT
    drawn.append(text(435, bottom - 10, "load: lost flows a bucket", 13))
    for line, (styles, words) in enumerate(zip(PROFILE_STYLES, PROFILE_WORDS)):
        for place, (size, style) in enumerate(zip(sizes, styles)):
            drawn += legend_line(60 + 240 * place, bottom + 18 + 22 * line, style, f"{words}, {size:,} buckets")
    drawn += legend_line(560, bottom + 18, IDEAL, f"a perfect test, {sizes[-1]:,} buckets", 4)
    write(path, 870, bottom + 58, drawn, "Share of walks that end clean in both profiles, by load, arrays, losses and size")


# The endings by load, stacked.

ENDINGS = ("clean", "stuck", "spent", "full")
FILLS = {"clean": "white", "stuck": "url(#dots)", "spent": "url(#lines)", "full": INK}
PATTERNS = """<defs>
<pattern id="lines" width="7" height="7" patternUnits="userSpaceOnUse" patternTransform="rotate(45)">
<rect width="7" height="7" fill="#f3e2cc"/><rect width="1.6" height="7" fill="#9a5400"/></pattern>
<pattern id="dots" width="6" height="6" patternUnits="userSpaceOnUse">
<rect width="6" height="6" fill="#c9dcea"/><circle cx="3" cy="3" r="1.4" fill="#104870"/></pattern>
</defs>"""


def stacked(axes, tallies):
    """Areas one on the other, the first at the bottom."""
    drawn = []
    below = [0.0] * len(tallies)
    for name in ENDINGS:
        above = [low + getattr(one, name) / one.seeds for low, one in zip(below, tallies)]
        edge = [(axes.x(one.load), axes.y(share)) for one, share in zip(tallies, above)]
        base = [(axes.x(one.load), axes.y(share)) for one, share in zip(tallies, below)]
        points = " ".join(f"{x:.1f},{y:.1f}" for x, y in edge + base[::-1])
        drawn.append(f'<polygon points="{points}" fill="{FILLS[name]}" stroke="{INK}" stroke-width="0.6"/>')
        below = above
    return drawn


def draw_endings(path, tallies):
    drawn = [PATTERNS, text(435, 22, "How walks end: shares of all walks, 384 buckets", 15, more='font-weight="bold"')]
    for row, (losses, words) in enumerate((COLUMNS[0], COLUMNS[2])):
        top = 66 + row * CELL_HEIGHT
        drawn.append(upright(18, top + 75, words, 11))
        for column, d in enumerate((2, 3, 4)):
            axes = Axes(72 + column * CELL_WIDTH, top, 215, 150, (0.1, 1.0), (0, 1))
            if row == 0:
                drawn.append(text(axes.left + 107, top - 12, f"d = {d}", 13))
            chosen = [one for one in tallies if one.d == d and one.losses == losses and one.buckets == 384]
            drawn += frame(axes, (0.2, 0.4, 0.6, 0.8, 1.0), (0, 0.25, 0.5, 0.75, 1), y_words=percent_words)
            drawn += stacked(axes, chosen)
    bottom = 66 + 2 * CELL_HEIGHT
    drawn.append(text(435, bottom - 10, "load: lost flows a bucket", 13))
    for place, name in enumerate(ENDINGS):
        x = 230 + 110 * place
        drawn.append(f'<rect x="{x}" y="{bottom + 8}" width="28" height="16" fill="{FILLS[name]}" stroke="{INK}"/>')
        drawn.append(text(x + 34, bottom + 20, name, 12, "start"))
    write(path, 870, bottom + 36, drawn, "How walks end, by load, arrays and losses")


# The chance that a crowded bucket passes the purity test.

CHANCE_STYLES = {
    ("plain", 32): Style("#d07000", "1.5 3", "circle"),
    ("plain", 512): Style("#9a5400", "7 3", "square"),
    ("fingerprints", 32): Style("#1878b8", "9 3 2 3", "triangle"),
    ("fingerprints", 512): Style("#301060", "", "diamond"),
}
CHANCE_PLACES = [2, 3, 4, 5, 6, 7, 8, 10, 12, 16, 20, 24, 32, 64, 128, 256, 512, 2000, 10000]


def derived(profile, m, q):
    """What the page derives; between q and the next multiples of m the true chance wavers a little."""
    print_share = 1 if profile == "plain" else 1 / q**3 + (1 - 1 / q**2) / 256
    return print_share / min(q, m)


def draw_chance(path, crowds):
    axes = Axes(92, 50, 560, 380, (1.6, 12000), (0.000003, 0.8), is_log=True)
    drawn = [text(372, 24, "How often a bucket of several flows passes as one", 15, more='font-weight="bold"')]
    drawn += frame(axes, (2, 4, 10, 32, 100, 512, 2000, 8000), (0.5, 0.1, 0.01, 0.001, 0.0001, 0.00001),
                   x_words=lambda q: f"{q:,}", y_words=lambda share: f"1/{1 / share:,.0f}")
    for (profile, m), style in CHANCE_STYLES.items():
        bend = [(axes.x(q), axes.y(derived(profile, m, q))) for q in CHANCE_PLACES]
        drawn.append(polyline(bend, style))
        drawn += [mark(axes.x(crowd.reduced), axes.y(crowd.measured), style) for crowd in crowds
                  if (crowd.profile, crowd.m) == (profile, m) and crowd.passed]
    for place, ((profile, m), style) in enumerate(CHANCE_STYLES.items()):
        drawn += legend_line(102, 342 + 20 * place, style, f"{profile}, m = {m}")
    drawn.append(text(102, 424, "lines: derived; marks: measured", 12, "start"))
    drawn.append(text(372, 468, "q: the packets of all its flows, divided by their greatest common divisor", 13))
    drawn.append(upright(22, 240, "share of buckets that pass", 13))
    write(path, 672, 484, drawn, "How often a bucket of several flows passes the purity test")


# How likely it is that each lost flow has a bucket of its own in array 1, beside how often the walk is clean.

def draw_own(path, own, sizes, chance):
    axes = Axes(92, 50, 560, 300, (math.log(1.7), math.log(140)), (0, 1.04))
    drawn = [text(372, 24, "Few lost flows, d = 4, equal losses: surely right, and right", 15, more='font-weight="bold"')]
    drawn += frame(axes, [math.log(n) for n in (2, 5, 10, 20, 50, 100)], (0, 0.25, 0.5, 0.75, 1),
                   x_words=lambda place: f"{math.exp(place):.0f}", y_words=percent_words)
    for size, style in zip(sizes, SIZE_STYLES):
        chosen = [one for one in own if one.buckets == size]
        m = chosen[0].m
        bend = [(axes.x(math.log(n)), axes.y(chance(m, n))) for n in range(2, 131)]
        drawn.append(polyline(bend, style))
        drawn += [mark(axes.x(math.log(one.flows)), axes.y(one.own / one.seeds), style) for one in chosen]
        clean = [(axes.x(math.log(one.flows)), axes.y(one.clean / one.seeds)) for one in chosen]
        drawn.append(polyline(clean, style, 0.8))
    for place, (size, style) in enumerate(zip(sizes, SIZE_STYLES)):
        drawn += legend_line(102, 262 + 20 * place, style, f"{size:,} buckets")
    drawn.append(text(372, 390, "lost flows", 13))
    drawn.append(text(372, 412, "bold lines: a bucket of its own for each flow, derived; marks: measured; thin lines: clean and right, measured", 11))
    drawn.append(upright(22, 200, "share of walks", 13))
    write(path, 672, 426, drawn, "Share of walks in which each lost flow has a bucket of its own in array 1, and of clean walks")
