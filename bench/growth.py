#!/usr/bin/env python3
"""Draws docs/performance/growth.csv as docs/performance/growth.svg: one panel for each thing that grows.

Usage: growth.py CSV SVG (standard library only).
"""
import csv
import sys
from xml.sax.saxutils import escape

WIDTH, HEIGHT = 330, 300
LEFT, RIGHT, TOP, BOTTOM = 58, 14, 44, 50
SERIES = [("proved", "#1b6ca8", "proved archive"), ("rust", "#d1661c", "Rust engine")]


def read_panels(path):
    """The rows of the file, by what grows, in its order."""
    panels = {}
    with open(path, newline="") as file:
        for row in csv.DictReader(file):
            point = (int(row["amount"]), {name: float(row[name]) / 1000 for name, _, _ in SERIES})
            panels.setdefault(row["what"], []).append(point)
    return panels


def round_step(largest, count=5):
    """A step of 1, 2, 2.5 or 5 times a power of ten that divides up to `largest` in about `count` parts."""
    power = 1.0
    while power * 10 * count <= largest:
        power *= 10
    while power * count > largest:
        power /= 10
    return next(power * part for part in (1, 2, 2.5, 5, 10) if power * part * count >= largest)


def ticks(largest):
    step = round_step(largest)
    return [step * index for index in range(int(largest / step + 1e-9) + 1)]


def number(value):
    return f"{value:g}"


def panel(what, points, shift):
    """One panel's elements, its left edge at `shift`."""
    most = max(amount for amount, _ in points)
    highest = max(value for _, values in points for value in values.values()) * 1.05
    inner_width, inner_height = WIDTH - LEFT - RIGHT, HEIGHT - TOP - BOTTOM

    def x(amount):
        return shift + LEFT + inner_width * amount / most

    def y(value):
        return TOP + inner_height * (1 - value / highest)

    yield f'<text x="{shift + LEFT}" y="{TOP - 24}" class="title">{escape(what)}</text>'
    for value in ticks(highest):
        yield f'<line x1="{x(0):.1f}" y1="{y(value):.1f}" x2="{x(most):.1f}" y2="{y(value):.1f}" class="grid"/>'
        yield f'<text x="{x(0) - 6:.1f}" y="{y(value) + 4:.1f}" class="right">{number(value)}</text>'
    for amount in ticks(most):
        yield f'<text x="{x(amount):.1f}" y="{TOP + inner_height + 18}" class="middle">{number(amount)}</text>'
    yield f'<line x1="{x(0):.1f}" y1="{TOP}" x2="{x(0):.1f}" y2="{TOP + inner_height}" class="axis"/>'
    yield f'<line x1="{x(0):.1f}" y1="{TOP + inner_height}" x2="{x(most):.1f}" y2="{TOP + inner_height}" class="axis"/>'
    for name, colour, _ in SERIES:
        line = " ".join(f"{x(amount):.1f},{y(values[name]):.1f}" for amount, values in points)
        yield f'<polyline points="{line}" fill="none" stroke="{colour}" stroke-width="1.8"/>'


def picture(panels):
    width = WIDTH * len(panels)
    yield (
        f'<svg xmlns="http://www.w3.org/2000/svg" width="{width}" height="{HEIGHT}" viewBox="0 0 {width} {HEIGHT}" '
        'font-family="sans-serif" font-size="11">'
    )
    yield (
        "<style>.title{font-size:12px;font-weight:bold}.grid{stroke:#ddd}.axis{stroke:#444}"
        ".right{text-anchor:end}.middle{text-anchor:middle}</style>"
    )
    yield f'<rect width="{width}" height="{HEIGHT}" fill="white"/>'
    for place, (what, points) in enumerate(panels.items()):
        yield from panel(what, points, place * WIDTH)
    for place, (_, colour, label) in enumerate(SERIES):
        start = LEFT + 150 * place
        yield f'<line x1="{start}" y1="{HEIGHT - 12}" x2="{start + 22}" y2="{HEIGHT - 12}" stroke="{colour}" stroke-width="2"/>'
        yield f'<text x="{start + 28}" y="{HEIGHT - 8}">{label}</text>'
    yield f'<text x="{LEFT + 310}" y="{HEIGHT - 8}">microseconds for one call, caches warm</text>'
    yield "</svg>"


def main(arguments):
    if len(arguments) != 2:
        sys.exit(__doc__)
    source, target = arguments
    with open(target, "w") as file:
        file.write("\n".join(picture(read_panels(source))) + "\n")


if __name__ == "__main__":
    main(sys.argv[1:])
