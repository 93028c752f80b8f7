"""Draws curves as SVG text: panels with axes, in a grid, with a legend above them. It needs Python 3 alone.

A figure is as wide as a page, and has its own ground, light or dark as the reader's system asks for. A curve has a colour, a dash and a mark of its own,
so that it can be told from the others without colours.
"""
import math
from html import escape

WIDTH, GAP, TOP = 900, 26, 12
LIGHT = ("#005fa3", "#b34700", "#00735a", "#a3296e", "#6b5200", "#5b3fb5", "#2f6f9f", "#8a1c1c", "#4a4a4a")
DARK = ("#62b5f5", "#ff9a52", "#3fd0a8", "#f07fbf", "#e3c04a", "#b3a0ff", "#8fc7e8", "#ff8080", "#c8c8c8")
DASHES = ("", "6 3", "2 3", "9 3 2 3", "", "6 3", "2 3", "9 3 2 3", "")
MARKS = ("circle", "square", "triangle", "diamond", "cross", "plus", "hollow circle", "hollow square", "hollow diamond")


class Axis:
    """What an axis shows: its label with the unit, its two ends, and whether equal steps are equal factors."""

    def __init__(self, label, low, high, is_log=False):
        self.label, self.low, self.high, self.is_log = label, low, high, is_log

    def part(self, value):
        """Where a value is, from 0 to 1."""
        if self.is_log:
            return (math.log2(value) - math.log2(self.low)) / (math.log2(self.high) - math.log2(self.low))
        return (value - self.low) / (self.high - self.low)

    def ticks(self, most):
        """At most so many values with a number on the axis."""
        if self.is_log:
            powers = [2**i for i in range(math.ceil(math.log2(self.low)), math.floor(math.log2(self.high)) + 1)]
            return powers[:: max(1, -(-len(powers) // most))]
        step = next(s * 10**e for e in range(9) for s in (1, 2, 5) if (self.high - self.low) / (s * 10**e) <= most - 1)
        return list(range(math.ceil(self.low / step) * step, math.floor(self.high) + 1, step))


def reaching(label, values, is_log=False, low=None):
    """An axis that has all these values, and ends at a round number."""
    top = max(values)
    if is_log:
        return Axis(label, low or 2 ** math.floor(math.log2(min(values))), 2 ** math.ceil(math.log2(top)), True)
    step = 10 ** max(0, math.floor(math.log10(max(top, 1)))) / 4
    return Axis(label, low or 0, max(math.ceil(top / step) * step, 1))


class Panel:
    """Curves over one pair of axes. A curve is (style, points) or, of steps that are filled, (style, heights of the steps, width of a step)."""

    def __init__(self, title, across, up, curves, steps=(), guide=None):
        self.title, self.across, self.up, self.curves, self.steps, self.guide = title, across, up, curves, steps, guide


def number(value):
    text = f"{value:.1f}"
    return text[:-2] if text.endswith(".0") else text


def mark(kind, x, y):
    """A mark of a curve."""
    hollow = ' class="h"' if kind.startswith("hollow") else ""
    shape = kind.rsplit(" ", 1)[-1]
    if shape == "circle":
        return f'<circle{hollow} cx="{number(x)}" cy="{number(y)}" r="3.4"/>'
    drawn = {"square": "m-3-3h6v6h-6z", "triangle": "m0-4l4 7h-8z", "diamond": "m0-4.5l4.5 4.5-4.5 4.5-4.5-4.5z", "cross": "m-3-3l6 6m0-6l-6 6", "plus": "m-4 0h8m-4-4v8"}[shape]
    return f'<path{hollow} d="M{number(x)} {number(y)}{drawn}"/>'


def drawn(panel, left, top, width, height):
    """A panel, whose axes are in this rectangle."""
    x = lambda value: left + width * panel.across.part(value)
    y = lambda value: top + height * (1 - panel.up.part(value))
    out = [f'<text class="b" x="{left}" y="{top - 24}">{escape(panel.title)}</text>', f'<text class="l" x="{left}" y="{top - 9}">{escape(panel.up.label)}</text>']
    for tick in panel.up.ticks(6):
        out.append(f'<path class="g" d="M{left} {number(y(tick))}h{width}"/><text class="l" text-anchor="end" x="{left - 8}" y="{number(y(tick) + 4)}">{tick:,}</text>')
    for tick in panel.across.ticks(max(4, width // 48)):
        out.append(f'<path class="a" d="M{number(x(tick))} {top + height}v4"/><text class="l" text-anchor="middle" x="{number(x(tick))}" y="{top + height + 17}">{tick:,}</text>')
    out.append(f'<text class="l" text-anchor="end" x="{left + width}" y="{top + height + 32}">{escape(panel.across.label)}</text>')
    if panel.guide:
        (x1, y1), (x2, y2) = panel.guide
        out.append(f'<path class="a" stroke-dasharray="3 3" d="M{number(x(x1))} {number(y(y1))}L{number(x(x2))} {number(y(y2))}"/>')
    for style, heights, span in panel.steps:
        path, before = [f"M{number(x(panel.across.low))} {number(y(0))}"], None
        for i, value in enumerate(heights):
            if value != before:
                path.append(f"V{number(y(value))}")
            path.append(f"H{number(x(min(panel.across.low + (i + 1) * span, panel.across.high)))}")
            before = value
        out.append(f'<path class="f c{style}" d="{"".join(path)}V{number(y(0))}"/>')
    for style, points, *is_marked in panel.curves:
        line = " ".join(f"{number(x(a))},{number(y(b))}" for a, b in points)
        dash = f' stroke-dasharray="{DASHES[style]}"' if DASHES[style] else ""
        out.append(f'<g class="c{style}"><polyline{dash} points="{line}"/>')
        out.extend([] if is_marked == [False] else [mark(MARKS[style], x(a), y(b)) for a, b in points])
        out.append("</g>")
    out.append(f'<path class="a" d="M{left} {top}v{height}h{width}"/>')
    return "".join(out)


def legend(entries):
    """The legend, in rows, and its height."""
    out, x, y = [], 12, TOP + 10
    for style, name, *is_marked in entries:
        wide = 44 + 7 * len(name)
        if x + wide > WIDTH - 8:
            x, y = 12, y + 20
        dash = f' stroke-dasharray="{DASHES[style]}"' if DASHES[style] else ""
        sign = "" if is_marked == [False] else mark(MARKS[style], x + 14, y)
        out.append(f'<g class="c{style}"><path{dash} d="M{x} {y}h28"/>{sign}</g><text class="l" x="{x + 34}" y="{y + 4}">{escape(name)}</text>')
        x += wide
    return "".join(out), (y - TOP + 14 if entries else 0)


def figure(title, said, panels, columns, entries=(), height=150):
    """The text of a figure: its title and what it shows, for readers who do not see it; its panels in so many columns; (style, name) of the legend."""
    signs, above = legend(entries)
    each = WIDTH // columns
    rows = -(-len(panels) // columns)
    tall = height + 92
    whole = TOP + above + rows * tall
    parts = [drawn(panel, i % columns * each + 50, TOP + above + i // columns * tall + 40, each - 50 - GAP, height) for i, panel in enumerate(panels)]
    colours = lambda of: "".join(f".c{i}{{stroke:{c};fill:{c}}}" for i, c in enumerate(of))
    style = (
        "text{font:12px sans-serif;fill:#1c1c1c;stroke:none}.b{font-weight:bold}.l{font-size:11px;fill:#444}.k{fill:#fff}"
        ".a{stroke:#777;fill:none}.g{stroke:#ddd;fill:none}" + colours(LIGHT) + "polyline,g path{stroke-width:1.6}polyline{fill:none}.f{fill-opacity:.25;stroke-width:1}.h{fill:#fff}"
        "@media(prefers-color-scheme:dark){text{fill:#eee}.l{fill:#bbb}.k{fill:#14171c}.a{stroke:#999}.g{stroke:#363b44}" + colours(DARK) + "polyline{fill:none}.h{fill:#14171c}}"
    )
    return (
        f'<svg xmlns="http://www.w3.org/2000/svg" viewBox="0 0 {WIDTH} {whole}" width="{WIDTH}" height="{whole}" role="img">\n<title>{escape(title)}</title>\n<desc>{escape(said)}</desc>\n'
        f'<style>{style}</style>\n<rect class="k" width="{WIDTH}" height="{whole}"/>\n{signs}\n' + "\n".join(parts) + "\n</svg>\n"
    )
