"""Has random grids and the hill drawn, and shapely look at every polygon of every contour and band: whether it is
valid, whether each sample lies where it should, and what the areas come to. Part of compare/outside.

    outside_valid.py DRAW EXAMPLES FOLDER

The last line is 'N contours and bands looked at by shapely, M differ'.
"""

import json
import math
import pathlib
import random
import sys

from outside_terrains import NAN, Stored, Terrain
from outside_tools import Differs, area, expect, no_number, run
from shapely.geometry import Point, Polygon, shape
from shapely.ops import unary_union
from shapely.prepared import prep

GRIDS = 1000


def random_terrain(number, numbers):
    """Steps, noise, waves or speckles, of which some samples may be no numbers, in grid units or on a map."""
    dx, dy = (numbers.choice([1, 2, 3, numbers.randint(1, 16), numbers.randint(1, 30)]) for _ in "xy")
    kind = numbers.randrange(4)
    far = numbers.uniform(1, 6)
    holes = numbers.choice([0, 0, 0.1, 0.4])

    def sample(x, y):
        if numbers.random() < holes:
            return NAN
        steps = numbers.randrange(6)
        waves = round(3 + 3 * math.sin(x / far) * math.cos(y / far), 3)
        return [steps, round(numbers.uniform(0, 6), 3), waves, numbers.choice([0, 0, 0, 5])][kind]

    rows = [[sample(x, y) for x in range(dx)] for y in range(dy)]
    levels = sorted(numbers.sample([0, 0.5, 1, 2, 2.5, 3, 4, 5, 5.5], numbers.randint(2, 5)))
    cell = numbers.choice([None, 0.25, 1, 12.5])
    height = None if cell is None else numbers.choice([cell, 2 * cell])
    terrain = Terrain(f"random-{number}", rows, levels, cell, center=numbers.random() < 0.5)
    terrain.height = height
    if cell is None and numbers.random() < 0.5:
        terrain.step = (numbers.choice([-2, 0.5, 3]), numbers.choice([-3, 0.25, 2]))
    return terrain


def terrains(examples):
    numbers = random.Random(7)
    for number in range(GRIDS):
        yield random_terrain(number, numbers)
    yield Stored("hill", examples / "hill.asc", [150, 200, 300, 400, 500, 600, 700])


def slices(terrain, option):
    """What a sample has to be at least, and below what, for each feature."""
    levels = terrain.levels
    return list(zip(levels, levels[1:])) if option == "--bands" else [(level, math.inf) for level in levels]


def look_at(terrain, feature, low, high):
    """One feature: valid polygons, exactly the samples of the slice, and the area that these come to."""
    figure = shape(feature["geometry"])
    polygons = list(figure.geoms)
    expect("valid polygons", [polygon.is_valid for polygon in polygons], [True] * len(polygons))
    expect("valid as a whole", figure.is_valid, True)
    expect("polygons", feature["properties"]["polygons"], len(polygons))
    samples = [[1 if low <= sample < high else 0 for sample in row] for row in terrain.rows]
    inside, outside = prep(figure), []
    for y, row in enumerate(samples):
        for x, above in enumerate(row):
            point = Point(terrain.place(x, y))
            if inside.contains(point) != (above == 1) or inside.intersects(point) != (above == 1):
                outside.append((x, y))
    expect("samples that lie elsewhere", outside, [])
    expected = area(samples) * terrain.cell_area()
    for what, found in [("area by shapely", figure.area), ("area", feature["properties"]["area"])]:
        expect(what + " as expected", math.isclose(found, expected, rel_tol=1e-9), True)
    return figure


def look_at_all(terrain, draw, option, folder):
    """All features of one run. Bands lie beside each other, and levels inside each other."""
    step = [] if terrain.step is None else ["--step={},{}".format(*terrain.step)]
    text = run(draw, terrain.write(folder), *terrain.levels, option, *step)
    (folder / f"{terrain.name}{option}.json").write_text(text, encoding="ascii")
    read = json.loads(text, parse_constant=no_number)
    wanted = slices(terrain, option)
    expect("features", len(read["features"]), len(wanted))
    figures = []
    for feature, (low, high) in zip(read["features"], wanted):
        names = {"low": low, "high": high} if option == "--bands" else {"value": low}
        expect("heights", {name: feature["properties"].get(name) for name in names}, names)
        figures.append(look_at(terrain, feature, low, high))
    together = sum(figure.area for figure in figures) if option == "--bands" else figures[0].area
    union = unary_union(figures).area
    expect("areas that add up", math.isclose(union, together, rel_tol=1e-9, abs_tol=1e-12), True)
    return len(figures), sum(len(figure.geoms) for figure in figures)


def main(draw, examples, folder):
    examples, folder = pathlib.Path(examples), pathlib.Path(folder)
    expect("shapely finds a bow tie valid", Polygon([(0, 0), (1, 1), (1, 0), (0, 1)]).is_valid, False)
    looked_at, polygons, differ = 0, 0, 0
    for terrain in terrains(examples):
        for option in ["--levels", "--bands"]:
            try:
                figures, parts = look_at_all(terrain, draw, option, folder)
                looked_at, polygons = looked_at + figures, polygons + parts
            except (Differs, ValueError, KeyError) as why:
                looked_at, differ = looked_at + 1, differ + 1
                print(f"{terrain.name} {option}: differs: {str(why)[:1000]}", flush=True)
    print(f"{GRIDS} random grids and the hill have {polygons} polygons")
    print(f"{looked_at} contours and bands looked at by shapely, {differ} differ")
    return 0 if looked_at > 0 and differ == 0 else 1


if __name__ == "__main__":
    sys.exit(main(*sys.argv[1:]))
