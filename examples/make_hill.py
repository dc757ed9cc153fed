#!/usr/bin/env python3
"""Writes hill.asc beside this file: hills about a lake with an island, as an ESRI ASCII grid.

    python3 examples/make_hill.py
    ./draw examples/hill.asc 200 300 400 500 600 700 --levels --svg > examples/hill.svg

Heights are in metres. The lake has no data. The same file comes out each time.
"""

import math
import pathlib
import random

SIDE = 200
CELL = 25
CORNER = (612000, 5184000)
NODATA = -9999

# Column and row of a top, its height above the plain, and how far it reaches along and across its ridge, which is
# turned by so many degrees.
HILLS = [
    (62, 70, 360, 52, 34, -40),
    (98, 94, 170, 40, 34, 0),
    (132, 112, 380, 54, 36, 30),
    (152, 38, 300, 32, 20, 60),
    (36, 158, 300, 32, 18, -15),
    (184, 168, 300, 24, 18, 0),
    (104, 186, 260, 26, 12, 10),
]
LAKE = (98, 92, 23, 14, 30)
ISLAND = (103, 95, 6, 4, 30)


def lattice(random_numbers, points):
    """Noise between -1 and 1 that bends smoothly between so many random points a side."""
    heights = [[random_numbers.uniform(-1, 1) for _ in range(points + 2)] for _ in range(points + 2)]

    def at(x, y):
        column, row = x * points / SIDE, y * points / SIDE
        i, j = int(column), int(row)
        u, v = column - i, row - j
        u, v = u * u * (3 - 2 * u), v * v * (3 - 2 * v)
        upper = heights[j][i] * (1 - u) + heights[j][i + 1] * u
        lower = heights[j + 1][i] * (1 - u) + heights[j + 1][i + 1] * u
        return upper * (1 - v) + lower * v

    return at


def far(x, y, column, row, along, across, degrees):
    """How far a point is from the middle of an ellipse, whose edge is at 1."""
    turn = math.radians(degrees)
    u = (x - column) * math.cos(turn) + (y - row) * math.sin(turn)
    v = (y - row) * math.cos(turn) - (x - column) * math.sin(turn)
    return math.hypot(u / along, v / across)


def heights():
    random_numbers = random.Random(500)
    noise = [(lattice(random_numbers, 6 * 2**k), 120 / 2**k) for k in range(6)]
    shore = lattice(random_numbers, 24)

    def height(x, y):
        ground = 255 + 18 * math.sin(x / 41) + 14 * math.cos(y / 33)
        for column, row, top, along, across, degrees in HILLS:
            ground += top * math.exp(-far(x, y, column, row, along, across, degrees) ** 2)
        ground += sum(size * at(x, y) for at, size in noise)
        wet = far(x, y, *LAKE) + 0.3 * shore(x, y) < 1
        dry = far(x, y, *ISLAND) + 0.3 * shore(y, x) < 1
        if dry:
            return max(ground, 530)
        return None if wet else ground

    return [[height(x + 0.5, y + 0.5) for x in range(SIDE)] for y in range(SIDE)]


def main():
    lines = [
        f"ncols {SIDE}",
        f"nrows {SIDE}",
        f"xllcorner {CORNER[0]}",
        f"yllcorner {CORNER[1]}",
        f"cellsize {CELL}",
        f"NODATA_value {NODATA}",
    ]
    for row in heights():
        lines.append(" ".join(str(NODATA) if height is None else f"{height:.1f}" for height in row))
    file = pathlib.Path(__file__).with_name("hill.asc")
    file.write_text("\n".join(lines) + "\n", encoding="ascii")


if __name__ == "__main__":
    main()
