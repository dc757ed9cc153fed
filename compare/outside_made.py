"""Makes ring sets as a caller may, which ./draw does not give, and has GDAL and shapely look at every ring of the text
that the library writes of each. Part of compare/outside.

    outside_made.py DRAW FOLDER PROGRAM...

PROGRAM is compare/c/sets.c, which reads the sets and writes the library's texts. DRAW gives the rings of some terrains,
and FOLDER takes files. The last line is 'N ring sets looked at by GDAL and shapely, M differ'.

The sets are contours and bands of random terrains, classed and owned as document 01 says, as they are and with some
rings reversed; and sets put together from rings that cross themselves or do not, of any direction, first point, class
and owner, that lie on each other, enclose nothing or run round several times.
"""

import collections
import json
import pathlib
import random
import subprocess
import sys

from draw_why import area, decision
from outside_rings import as_feature, as_geometry, encloses, wrong_rings
from outside_tools import Differs, expect, no_number, run

TERRAINS, PUT_TOGETHER = 100, 400
POLYGON, HOLE, NO_OWNER = 0, 1, 4294967295
# The largest coordinate.
LIMIT = 8192

# A ring's points in doubled coordinates, its class and its owner.
Record = collections.namedtuple("Record", "ring kind owner")


def owner(rings, polygons, number):
    """The first of these polygons, by number, that answers other than -1 for a ring."""
    return next((k for k in polygons if decision(rings[k], rings[number])[0] != -1), NO_OWNER)


def owned(rings, polygons):
    """The records of rings of which these are polygons."""
    return [
        Record(ring, POLYGON, k) if k in polygons else Record(ring, HOLE, owner(rings, polygons, k))
        for k, ring in enumerate(rings)
    ]


def contour(rings):
    return owned(rings, [k for k, ring in enumerate(rings) if area(ring) > 0])


def band(lower, upper):
    """By size; a polygon lies in an even number of the other rings."""
    rings = sorted(lower + upper, key=lambda ring: abs(area(ring)) // 4)
    others = [[outer for n, outer in enumerate(rings) if n != k] for k in range(len(rings))]
    around = [sum(decision(outer, ring)[0] != -1 for outer in outers) for ring, outers in zip(rings, others)]
    return owned(rings, [k for k, count in enumerate(around) if count % 2 == 0])


def of_terrains(draw, folder, numbers):
    """Contours and bands, as they are and with rings reversed."""
    for number in range(TERRAINS):
        dx, dy = numbers.randint(1, 9), numbers.randint(1, 9)
        file = folder / f"made-{number}.txt"
        rows = [" ".join(str(numbers.randint(0, 3)) for _ in range(dx)) for _ in range(dy)]
        file.write_text("\n".join(rows) + "\n", encoding="ascii")
        rings = {1: [], 2: []}
        for feature in map(json.loads, run(draw, file, 1, 2, "--levels", "--stream").splitlines()):
            points = [(int(2 * x), int(2 * y)) for x, y in feature["geometry"]["coordinates"]]
            rings[feature["properties"]["value"]].append(points)
        for records in [contour(rings[1]), band(rings[1], rings[2])]:
            yield records
            yield [record._replace(ring=record.ring[:: numbers.choice([1, -1])]) for record in records]


def skyline(numbers, side):
    """A ring that does not cross itself, about columns that stand side by side."""
    across = sorted(numbers.sample(range(side + 1), numbers.randint(2, min(9, side + 1))))
    base = numbers.randrange(side)
    points = [(across[0], base)]
    for left, right in zip(across, across[1:]):
        height = numbers.randint(base + 1, side)
        points += [(left, height), (right, height)]
    return points + [(across[-1], base)]


def walk(numbers, side):
    """A ring that may cross itself, touch itself, stand still and enclose nothing."""
    return [(numbers.randint(0, side), numbers.randint(0, side)) for _ in range(numbers.randint(3, 20))]


def there_and_back(numbers, side):
    points = walk(numbers, side)
    return points + points[-2:0:-1]


def rounds(numbers, side):
    """About a square several times. The area of the largest, 2 ** 27 for each round, then does not fit in 32 bits."""
    corners = [(0, 0), (side, 0), (side, side), (0, side)]
    return corners * numbers.choice([2, 15, 16, 17, 31, 32, 33, 64])


def some_ring(numbers):
    """From any of its points on, either way, and closed."""
    make = numbers.choice([skyline, skyline, skyline, walk, there_and_back, rounds])
    points = make(numbers, numbers.choice([1, 2, 8, 100, LIMIT]))
    begin = numbers.randrange(len(points))
    points = points[begin:] + points[:begin]
    return (points + points[:1])[:: numbers.choice([1, -1])]


def put_together(numbers):
    """Polygons and holes in any order; some holes are like a polygon, or like it reversed."""
    polygons = [some_ring(numbers) for _ in range(numbers.randint(0, 3))]
    holes = [some_ring(numbers) for _ in range(numbers.randint(0, 4))]
    holes += [numbers.choice(polygons)[:: numbers.choice([1, -1])] for _ in range(numbers.randint(0, 2)) if polygons]
    numbers.shuffle(holes)
    kinds = [POLYGON] * len(polygons) + [HOLE] * len(holes)
    numbers.shuffle(kinds)
    owners = [k for k, kind in enumerate(kinds) if kind == POLYGON] + [NO_OWNER]
    rings = {POLYGON: iter(polygons), HOLE: iter(holes)}
    return [
        Record(next(rings[kind]), kind, k if kind == POLYGON else numbers.choice(owners))
        for k, kind in enumerate(kinds)
    ]


def words(records, numbers):
    """A set as PROGRAM reads it. Points stand in any order of their rings, and equal rings share theirs."""
    first, points = {}, []
    for record in numbers.sample(records, len(records)):
        if tuple(record.ring) not in first:
            first[tuple(record.ring)] = len(points)
            points += record.ring
    directory = [(first[tuple(ring)], len(ring), *of_ring) for ring, *of_ring in records]
    flat = [len(points), *sum(points, ()), len(directory), *sum(directory, ())]
    return " ".join(map(str, flat))


def in_order(records):
    """The rings of each polygon: polygons by number, each followed by its holes by number; dropped holes are left
    out."""
    for k, record in enumerate(records):
        if record.kind == POLYGON:
            yield [record.ring] + [other.ring for other in records if (other.kind, other.owner) == (HOLE, k)]


def half(doubled):
    return doubled // 2 if doubled % 2 == 0 else doubled / 2


def look_at(records, line):
    """The polygons of a text. Each of their rings is the set's or its reverse, so that both have the same first point,
    and one that encloses nothing is the set's."""
    found = json.loads(line, parse_constant=no_number)["coordinates"]
    stored = [[[[half(x), half(y)] for x, y in ring] for ring in rings] for rings in in_order(records)]
    expect("rings of each polygon", list(map(len, found)), list(map(len, stored)))
    written = [
        [ours[::-1] if theirs == ours[::-1] and encloses(ours) else ours for ours, theirs in zip(*pair)]
        for pair in zip(stored, found)
    ]
    expect("text", line, json.dumps(as_geometry(written), separators=(",", ":")))
    return written


def look_at_all(sets, lines, folder):
    """What is wrong with texts, by number of the set. Both readers look at the texts that have the set's rings."""
    wrong, figures = {}, {}
    for number, (records, line) in enumerate(zip(sets, lines)):
        try:
            figures[number] = look_at(records, line)
        except (Differs, ValueError, KeyError, TypeError) as why:
            wrong[number] = str(why)[:1000]
    figures = {number: polygons for number, polygons in figures.items() if polygons}
    features = [as_feature(lines[number]) for number in figures]
    for number, (count, says) in zip(figures, wrong_rings(features, list(figures.values()), folder / "made.geojsonl")):
        if count > 0:
            wrong[number] = says
    return wrong


def counts(sets):
    """How many exteriors, holes and dropped holes there are of each sign of area, none of which is missing."""
    signs = collections.Counter()
    for records in sets:
        for record in records:
            size = area(record.ring)
            sort = "exteriors" if record.kind == POLYGON else "dropped" if record.owner == NO_OWNER else "holes"
            signs[f"{sort} {'above' if size > 0 else 'below' if size < 0 else 'at'} 0"] += 1
    expect("sorts of rings", len(signs), 9)
    return ", ".join(f"{sort} {count}" for sort, count in sorted(signs.items()))


def main(draw, folder, *program):
    folder, numbers = pathlib.Path(folder), random.Random(5)
    sets = [*of_terrains(draw, folder, numbers), *(put_together(numbers) for _ in range(PUT_TOGETHER))]
    asked = "\n".join(words(records, numbers) for records in sets)
    done = subprocess.run(program, input=asked, stdout=subprocess.PIPE, text=True, check=True)
    lines = done.stdout.splitlines()
    expect("texts", len(lines), len(sets))
    wrong = look_at_all(sets, lines, folder)
    for number, why in sorted(wrong.items()):
        print(f"set {number}: differs: {why}")
    print(counts(sets))
    print(f"{len(sets)} ring sets looked at by GDAL and shapely, {len(wrong)} differ")
    return 0 if not wrong else 1


if __name__ == "__main__":
    sys.exit(main(*sys.argv[1:]))
