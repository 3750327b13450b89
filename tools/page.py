#!/usr/bin/env python3
"""Prints a made-up page as a plain PGM file: lines of letters and a grey wedge, on paper with specks.

usage: python3 tools/page.py WIDTH HEIGHT SEED >examples/page.pgm
"""

import random
import sys


def letters(page, width, height, noise):
    """Dark strokes in rows of letters, in the upper part of the page."""
    for top in range(4, height * 2 // 3 - 8, 12):
        left = 4
        while left + 6 < width - 4:
            if noise.random() < 0.8:
                strokes = noise.sample([(0, 0, 1, 8), (5, 0, 1, 8), (0, 0, 6, 1), (0, 4, 6, 1), (0, 7, 6, 1)], 3)
                for x, y, across, down in strokes:
                    for v in range(y, y + down):
                        for u in range(x, x + across):
                            page[top + v][left + u] = noise.randint(10, 70)
            left += 9


def wedge(page, width, height):
    """A strip that runs from black to white, at the foot of the page."""
    for y in range(height * 2 // 3, height - 4):
        for x in range(4, width - 4):
            page[y][x] = 255 * (x - 4) // (width - 9)


def specks(page, width, height, noise):
    """Single pixels that are darker or lighter than those around them."""
    for _ in range(width * height // 60):
        x, y = noise.randrange(width), noise.randrange(height)
        page[y][x] = (page[y][x] + noise.randint(110, 150)) % 256


def main():
    width, height, seed = map(int, sys.argv[1:])
    noise = random.Random(seed)
    page = [[noise.randint(215, 250) for _ in range(width)] for _ in range(height)]
    letters(page, width, height, noise)
    wedge(page, width, height)
    specks(page, width, height, noise)
    print(f"P2\n# a made-up page\n{width} {height}\n255")
    for row in page:
        for left in range(0, width, 16):
            print(*row[left : left + 16])


main()
