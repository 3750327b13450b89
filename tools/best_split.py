#!/usr/bin/env python3
"""Splits a page into lines and tones, by the rules alone: a reference to compare the program `split` with.

usage: python3 tools/best_split.py <examples/page.pgm >examples/page.pbm

It follows docs/RULES.md and shares neither code nor method with the crates; what tools/cases.py knows of tiles and of cheapest cuts serves
here too.
"""

import re
import sys

import cases

SIDE = 64


def read_page(data):
    """The width of a page, and its greys row by row."""
    header = re.match(rb"(P[25])" + 3 * rb"((?:\s|#[^\r\n]*[\r\n])+)(\d+)", data)
    form, numbers = header[1], [int(header[at]) for at in (3, 5, 7)]
    width, height, largest = numbers
    if form == b"P5":
        values = data[header.end() + 1 :]
    else:
        values = [int(word) for word in re.sub(rb"#[^\r\n]*", b"", data[header.end() :]).split()]
    return width, [value * 255 // largest for value in values[: width * height]]


def costs(rows):
    """Four bytes for each pixel of an area, which is told by the greys of its rows."""
    for y, row in enumerate(rows):
        for x, grey in enumerate(row):
            right = row[x + 1 : x + 2]
            below = rows[y + 1][x : x + 1] if y + 1 < len(rows) else []
            yield from (grey, 255 - grey)
            yield from ((255 - abs(grey - other[0])) // 4 if other else 0 for other in (right, below))


def split_area(rows):
    """The least energy of an area, and which of its pixels are lines."""
    width = len(rows[0])
    tile = cases.Tile(SIDE * SIDE)
    tile.lay(width, len(rows), bytes(costs(rows)))
    energy, marks = cases.cheapest_cut(tile.network)
    lines = ["1" if said == "in" else "0" for said in marks]
    return energy, [lines[at : at + width] for at in range(0, len(lines), width)]


def main():
    width, greys = read_page(sys.stdin.buffer.read())
    page = [greys[at : at + width] for at in range(0, len(greys), width)]
    tiles, total, split = 0, 0, [[] for _ in page]
    for top in range(0, len(page), SIDE):
        for left in range(0, width, SIDE):
            energy, lines = split_area([row[left : left + SIDE] for row in page[top : top + SIDE]])
            tiles, total = tiles + 1, total + energy
            for row, more in zip(split[top:], lines):
                row += more
    print(f"P1\n# {tiles} tiles, energy {total}\n{width} {len(page)}")
    for row in split:
        for at in range(0, width, SIDE):
            print("".join(row[at : at + SIDE]))


main()
