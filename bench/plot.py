#!/usr/bin/env python3
"""Draws how time grows with the nodes, as an SVG on standard output. Usage: plot.py books|tiles FILE"""

import math
import sys

FAMILIES = {"books": ["jobs", "chains"], "tiles": ["noise", "text", "lines", "spiral"]}
COLOURS = ["#1b6ca8", "#c0392b", "#1e8449", "#7d3c98"]
WIDTH, HEIGHT, LEFT, BOTTOM, TOP, RIGHT = 720, 460, 70, 50, 30, 150


def read(path, families):
    lines = {family: [] for family in families}
    with open(path, encoding="ascii") as file:
        for line in file:
            family, nodes, ours, theirs = line.split()
            if family in lines:
                lines[family].append((int(nodes), float(ours), float(theirs)))
    return lines


def scale(low, high, start, end):
    """From a range of amounts, told by their logarithms, to places on the picture."""
    return lambda x: start + (math.log(x) - math.log(low)) / (math.log(high) - math.log(low)) * (end - start)


def draw(kind, lines):
    amounts = [y for line in lines.values() for (_, ours, theirs) in line for y in (ours, theirs)]
    low, high = 10 ** math.floor(math.log10(min(amounts))), 10 ** math.ceil(math.log10(max(amounts)))
    x = scale(48, 5000, LEFT, WIDTH - RIGHT)
    y = scale(low, high, HEIGHT - BOTTOM, TOP)
    out = [f'<svg xmlns="http://www.w3.org/2000/svg" width="{WIDTH}" height="{HEIGHT}" font-family="sans-serif" font-size="12">']
    out.append(f'<rect width="{WIDTH}" height="{HEIGHT}" fill="white"/>')
    for nodes in (64, 128, 256, 512, 1024, 2048, 4096):
        out.append(f'<line x1="{x(nodes):.1f}" y1="{TOP}" x2="{x(nodes):.1f}" y2="{HEIGHT - BOTTOM}" stroke="#ddd"/>')
        out.append(f'<text x="{x(nodes):.1f}" y="{HEIGHT - BOTTOM + 18}" text-anchor="middle">{nodes}</text>')
    amount = low
    while amount <= high:
        out.append(f'<line x1="{LEFT}" y1="{y(amount):.1f}" x2="{WIDTH - RIGHT}" y2="{y(amount):.1f}" stroke="#ddd"/>')
        out.append(f'<text x="{LEFT - 8}" y="{y(amount) + 4:.1f}" text-anchor="end">{amount:g}</text>')
        amount *= 10
    out.append(f'<text x="{(LEFT + WIDTH - RIGHT) / 2:.0f}" y="{HEIGHT - 12}" text-anchor="middle">nodes</text>')
    out.append(f'<text x="{LEFT}" y="{TOP - 12}">microseconds for one of the {kind} (solid: this library, dashed: libmaxflow)</text>')
    for place, (family, line) in enumerate(lines.items()):
        colour = COLOURS[place]
        for column, dashes in ((1, ""), (2, ' stroke-dasharray="5 4"')):
            points = " ".join(f"{x(row[0]):.1f},{y(row[column]):.1f}" for row in line)
            out.append(f'<polyline points="{points}" fill="none" stroke="{colour}" stroke-width="2"{dashes}/>')
        out.append(f'<text x="{WIDTH - RIGHT + 12}" y="{TOP + 20 + 20 * place}" fill="{colour}">{family}</text>')
    out.append("</svg>")
    return "\n".join(out)


if __name__ == "__main__":
    kind = sys.argv[1]
    print(draw(kind, read(sys.argv[2], FAMILIES[kind])))
