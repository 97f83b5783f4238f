#!/usr/bin/env python3
"""Draws time against the number of nodes: plot.py SWEEP.csv OUT.svg. Standard library only."""
import csv
import math
import sys
from html import escape

WIDTH, HEIGHT = 960, 600
LEFT, RIGHT, TOP, BOTTOM = 104, 704, 84, 520
FONT = "font-family=\"system-ui, 'Segoe UI', Helvetica, Arial, sans-serif\""
INK, FAINT, GRID = "#1f2328", "#59636e", "#e4e7eb"

# side, what it is called, colour (told apart by people who do not see red and green alike), mark, columns of the table, summed
SIDES = [
    ("plain", "plain check", "#7b3fb5", "triangle", ["plain"]),
    ("indexed", "indexed check", "#0b62c4", "circle", ["indexed"]),
    ("rust", "Rust checker", "#d9480f", "square", ["rust"]),
    ("cpp", "parse + onnx::checker", "#1a7f4b", "diamond", ["parse", "checker"]),
]
UNITS = [(1e-6, "µs"), (1e-3, "ms"), (1.0, "s")]


def read(path):
    """For each side and style the points (nodes, seconds). What was not run or not installed has none."""
    lines = {}
    with open(path, newline="") as file:
        for row in csv.DictReader(file):
            for side, *_, columns in SIDES:
                if all(row[column] for column in columns):
                    point = (int(row["nodes"]), sum(float(row[column]) for column in columns))
                    lines.setdefault((side, row["named"] == "1"), []).append(point)
    return lines


class Axes:
    """Both axes logarithmic; time from a whole power of ten to another."""

    def __init__(self, lines):
        points = [point for line in lines.values() for point in line]
        self.nodes = sorted({nodes for nodes, _ in points})
        self.low = math.floor(math.log10(min(seconds for _, seconds in points)))
        self.high = math.ceil(math.log10(max(seconds for _, seconds in points)))

    def x(self, nodes):
        first, last = math.log10(self.nodes[0]), math.log10(self.nodes[-1])
        return LEFT + (math.log10(nodes) - first) / (last - first) * (RIGHT - LEFT)

    def y(self, seconds):
        return BOTTOM - (math.log10(seconds) - self.low) / (self.high - self.low) * (BOTTOM - TOP)


def text(x, y, words, size=14, anchor="start", color=INK, extra=""):
    return f'<text x="{x:.1f}" y="{y:.1f}" font-size="{size}" text-anchor="{anchor}" fill="{color}" {FONT} {extra}>{escape(words)}</text>'


def segment(x1, y1, x2, y2, color, width=1.0):
    return f'<line x1="{x1:.1f}" y1="{y1:.1f}" x2="{x2:.1f}" y2="{y2:.1f}" stroke="{color}" stroke-width="{width}"/>'


def duration(power):
    """A power of ten of seconds as people write it."""
    seconds = 10.0**power
    scale, unit = [pair for pair in UNITS if seconds >= pair[0] * 0.999][-1]
    return f"{round(seconds / scale):d} {unit}"


def grid(axes):
    out = []
    for power in range(axes.low, axes.high + 1):
        y = axes.y(10.0**power)
        out.append(segment(LEFT, y, RIGHT, y, GRID))
        out.append(text(LEFT - 10, y + 5, duration(power), anchor="end", color=FAINT))
    for nodes in axes.nodes:
        x = axes.x(nodes)
        out.append(segment(x, TOP, x, BOTTOM, GRID))
        out.append(text(x, BOTTOM + 22, f"{nodes:,}", anchor="middle", color=FAINT))
    out.append(segment(LEFT, BOTTOM, RIGHT, BOTTOM, INK, 1.5))
    out.append(segment(LEFT, TOP, LEFT, BOTTOM, INK, 1.5))
    out.append(text((LEFT + RIGHT) / 2, BOTTOM + 50, "nodes in the chain", anchor="middle"))
    middle = (TOP + BOTTOM) / 2
    out.append(text(24, middle, "time for one model, best run", anchor="middle", extra=f'transform="rotate(-90 24 {middle:.1f})"'))
    return out


def mark(shape, x, y, color, hollow):
    fill = "#ffffff" if hollow else color
    style = f'fill="{fill}" stroke="{color}" stroke-width="1.8"'
    if shape == "circle":
        return f'<circle cx="{x:.1f}" cy="{y:.1f}" r="4.2" {style}/>'
    corners = {
        "square": [(-3.8, -3.8), (3.8, -3.8), (3.8, 3.8), (-3.8, 3.8)],
        "triangle": [(0, -4.8), (4.6, 3.6), (-4.6, 3.6)],
        "diamond": [(0, -5.2), (5.2, 0), (0, 5.2), (-5.2, 0)],
    }[shape]
    points = " ".join(f"{x + dx:.1f},{y + dy:.1f}" for dx, dy in corners)
    return f'<polygon points="{points}" {style}/>'


def stroke(points, color, named):
    dashes = ' stroke-dasharray="7 5"' if named else ""
    path = " ".join(f"{x:.1f},{y:.1f}" for x, y in points)
    return f'<polyline points="{path}" fill="none" stroke="{color}" stroke-width="2.2"{dashes}/>'


def curve(axes, line, color, shape, named):
    points = [(axes.x(nodes), axes.y(seconds)) for nodes, seconds in line]
    return [stroke(points, color, named)] + [mark(shape, x, y, color, named) for x, y in points]


def legend(lines):
    """Beside the plot: each side with its two lines."""
    out, x, y = [], RIGHT + 28, TOP + 14
    for side, name, color, shape, _ in SIDES:
        if (side, False) not in lines:
            out.append(text(x, y, f"{name}: not installed", color=FAINT))
            y += 40
            continue
        out.append(text(x, y, name, size=15, color=color, extra='font-weight="600"'))
        for named, words in ((False, "unnamed nodes"), (True, "named nodes")):
            y += 24
            out.append(stroke([(x, y - 5), (x + 44, y - 5)], color, named))
            out.append(mark(shape, x + 22, y - 5, color, named))
            out.append(text(x + 56, y, words, color=FAINT))
        y += 40
    return out


def draw(lines):
    axes = Axes(lines)
    out = [
        f'<svg xmlns="http://www.w3.org/2000/svg" width="{WIDTH}" height="{HEIGHT}" viewBox="0 0 {WIDTH} {HEIGHT}" role="img">',
        "<title>Time of the two proved checks, a Rust checker, and the Protocol Buffers parse with onnx::checker against the number of nodes</title>",
        f'<rect width="{WIDTH}" height="{HEIGHT}" fill="#ffffff"/>',
        text(LEFT, 36, "Time against the number of nodes", size=20, extra='font-weight="600"'),
        text(LEFT, 60, "A chain of Relu nodes, each reading the one before. Both axes logarithmic.", color=FAINT),
    ]
    out += grid(axes)
    for side, _, color, shape, _ in reversed(SIDES):
        for named in (False, True):
            if (side, named) in lines:
                out += curve(axes, lines[side, named], color, shape, named)
    return "\n".join(out + legend(lines) + ["</svg>", ""])


def main():
    if len(sys.argv) != 3:
        sys.exit("usage: plot.py SWEEP.csv OUT.svg")
    picture = draw(read(sys.argv[1]))
    with open(sys.argv[2], "w", encoding="utf-8") as file:
        file.write(picture)


if __name__ == "__main__":
    main()
