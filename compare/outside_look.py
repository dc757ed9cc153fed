"""Has terrains drawn, and GDAL and other readers look at the drawings. Part of compare/outside.

    outside_look.py DRAW EXAMPLES FOLDER

DRAW is the program, EXAMPLES the folder with the hill, FOLDER takes all files. The last line is
'N drawings looked at by GDAL, M differ'.
"""

import collections
import json
import math
import os
import pathlib
import re
import sys
import xml.etree.ElementTree

from outside_terrains import terrains
from outside_tools import Differs, area, expect, no_number, run

# Samples as GDAL reads them from a grid are doubles.
os.environ["AAIGRID_DATATYPE"] = "Float64"


class Drawing:
    """One drawing of a terrain: a region at a level or between two, or its lines."""

    def __init__(self, terrain, file, level, options, folder):
        self.terrain = terrain
        self.file = file
        self.levels = level if isinstance(level, tuple) else (level,)
        self.options = options
        self.title = " ".join([terrain.name, *map(str, self.levels), *options])
        self.json = folder / (self.title.replace(" ", "_") + ".json")

    def draw(self, draw, *options):
        return run(draw, self.file, *self.levels, *self.options, *options)

    def counts(self, draw):
        """The counts from the library's tables."""
        lines = self.draw(draw, "--counts").splitlines()
        return {name: int(count) for name, count in map(str.split, lines)}


def read_json(drawing, text, kind):
    """The coordinates of a text that is one JSON object on one line."""
    expect("newlines", (text.count("\n"), text[-1:]), (1, "\n"))
    read = json.loads(text, parse_constant=no_number)
    expect("members", sorted(read), ["coordinates", "type"])
    expect("type", read["type"], kind)
    drawing.json.write_text(text, encoding="ascii")
    return read["coordinates"]


def only_feature(drawing):
    """The kind and the coordinates of the only feature that GDAL finds."""
    found = run("ogrinfo", "-ro", "-al", "-so", drawing.json)
    expect("features", re.findall(r"^Feature Count: (.*)$", found, re.MULTILINE), ["1"])
    found = run("ogrinfo", "-ro", "-al", "-q", drawing.json)
    geometry = re.search(r"^  (MULTI\w+) (.*)$", found, re.MULTILINE)
    expect("a geometry that GDAL reads", geometry is not None, True)
    kind, coordinates = geometry.groups()
    if coordinates == "EMPTY":
        return kind, []
    # Well-known text with brackets is JSON.
    points = re.sub(r"([^\s,()]+) ([^\s,()]+)", r"[\1,\2]", coordinates)
    return kind, json.loads(points.replace("(", "[").replace(")", "]"))


def check_closed(rings):
    for ring in rings:
        expect("points of a ring, at least four", len(ring) >= 4, True)
        expect("closing vertex", ring[-1], ring[0])


def query(drawing, columns):
    """What GDAL's SQLite answers about the only feature."""
    select = f'select {columns} from "{drawing.json.stem}"'
    found = run("ogrinfo", "-ro", "-q", "-dialect", "SQLite", "-sql", select, drawing.json)
    return {name: float(value) for name, value in re.findall(r"^  (\w+) \(.*?\) = (.*)$", found, re.MULTILINE)}


def sheets(drawing):
    """Rows of samples, 1 where one is above: one sheet of a region or a band, or for each level one of lines and of
    the library's band."""
    rows, levels = drawing.terrain.rows, drawing.levels
    if len(levels) == 1 or {"--lines", "--isobands"} & set(drawing.options):
        return [[[int(sample >= level) for sample in row] for row in rows] for level in levels]
    low, high = levels
    return [[[int(low <= sample < high) for sample in row] for row in rows]]


def midways(drawing):
    """The points midway between neighbours of which one is above and one is not, for each sheet. Nothing is above
    outside."""
    points = collections.Counter()
    for samples in sheets(drawing):
        for y, row in enumerate(samples):
            beside = zip([0, *row], [*row, 0])
            points.update((x, y + 0.5) for x, (one, other) in enumerate(beside) if one != other)
        for x, column in enumerate(zip(*samples)):
            beside = zip([0, *column], [*column, 0])
            points.update((x + 0.5, y) for y, (one, other) in enumerate(beside) if one != other)
    return points


def look_at_vertices(drawing, rings):
    """All rings together have a vertex for each point midway, and no other."""
    vertices = collections.Counter(tuple(point) for ring in rings for point in ring[1:])
    expected = midways(drawing)
    expect("vertices that are not midway", list(vertices - expected), [])
    expect("points midway that are no vertex", list(expected - vertices), [])


def dropped_rings(drawing, draw, rings):
    """The lines about the region that are no ring of its polygons. Each ring is a line, or one backwards from the same
    first point; a band that is not the library's has rings of its own."""
    if len(drawing.levels) > 1 and "--isobands" not in drawing.options:
        return []
    left = collections.Counter(str(min(ring, ring[::-1])) for ring in rings)
    dropped = []
    lines = run(draw, drawing.file, *drawing.levels, "--lines", "--grid")
    for line in json.loads(lines)["coordinates"]:
        key = str(min(line, line[::-1]))
        if left[key] > 0:
            left[key] -= 1
        else:
            dropped.append(line)
    expect("rings that are no line", sum(left.values()), 0)
    return dropped


def filled(file, options, dx, dy):
    """The samples that GDAL fills for a file, one pixel a sample, its rows upward."""
    tif, xyz = file.with_suffix(".tif"), file.with_suffix(".xyz")
    size = ["-te", 0, 0, dx, dy, "-ts", dx, dy]
    run("gdal_rasterize", "-q", *options, "-burn", 1, "-init", 0, "-ot", "Byte", *size, file, tif)
    run("gdal_translate", "-q", "-of", "XYZ", tif, xyz)
    samples = [[0] * dx for _ in range(dy)]
    for line in xyz.read_text(encoding="ascii").splitlines():
        x, y, value = map(float, line.split())
        samples[int(y)][int(x)] = int(value)
    return samples


def look_at_filling(drawing, polygons, dropped):
    """GDAL fills each polygon by the even-odd rule. Rings of the library's band may share edges; document 01 then
    gives a hole to a polygon that it is not in, or drops rings. So of such a band all rings are filled together."""
    found_in = sheets(drawing)
    samples = [[sum(above) % 2 for above in zip(*rows)] for rows in zip(*found_in)]
    dx, dy = len(samples[0]), len(samples)
    file, options = drawing.json, []
    if "--isobands" in drawing.options:
        file, options = file.with_suffix(".all.geojson"), ["-add"]
        together = polygons + [[ring] for ring in dropped]
        file.write_text(json.dumps({"type": "MultiPolygon", "coordinates": together}), encoding="ascii")
    found = filled(file, options, dx, dy)
    differ = [(x, y) for y in range(dy) for x in range(dx) if found[y][x] != samples[y][x]]
    expect("samples that GDAL fills otherwise", differ, [])


def look_at_region(drawing, draw):
    text = drawing.draw(draw)
    polygons = read_json(drawing, text, "MultiPolygon")
    expect("text", text, json.dumps({"type": "MultiPolygon", "coordinates": polygons}, separators=(",", ":")) + "\n")
    expect("GDAL's reading", only_feature(drawing), ("MULTIPOLYGON", polygons))
    rings = [ring for polygon in polygons for ring in polygon]
    check_closed(rings)
    dropped = dropped_rings(drawing, draw, rings)
    holes, vertices = len(rings) - len(polygons), sum(map(len, rings))
    counts = {"polygons": len(polygons), "holes": holes, "dropped": len(dropped), "vertices": vertices}
    expect("counts", counts, drawing.counts(draw))
    look_at_vertices(drawing, rings + dropped)
    look_at_filling(drawing, polygons, dropped)
    if polygons:
        look_at_measures(drawing, counts)
    look_at_picture(drawing, draw, len(rings))
    return ", ".join(f"{name} {count}" for name, count in counts.items())


def look_at_measures(drawing, counts):
    found = query(
        drawing,
        "ST_NumGeometries(geometry) polygons, ST_NRings(geometry) rings, ST_NPoints(geometry) vertices,"
        " ST_IsValid(geometry) valid, ST_Area(geometry) area",
    )
    expect("polygons", found["polygons"], counts["polygons"])
    expect("rings", found["rings"], counts["polygons"] + counts["holes"])
    expect("vertices", found["vertices"], counts["vertices"])
    # Rings of the library's band may share edges, which is no valid polygon to GDAL.
    if "--isobands" not in drawing.options:
        expect("valid", found["valid"], 1)
        expect("area", found["area"], area(sheets(drawing)[0]))


def look_at_picture(drawing, draw, rings):
    """A picture is XML; on its map each ring ends with z, beside those about samples that are no numbers."""
    svg = "{http://www.w3.org/2000/svg}"
    picture = xml.etree.ElementTree.fromstring(drawing.draw(draw, "--svg").encode())
    expect("picture", picture.tag, svg + "svg")
    drawn = picture.findall(f"./{svg}g[@clip-path]/{svg}g/{svg}path")
    expect("rings", sum(path.get("d").count("z") for path in drawn if "url" not in path.get("fill")), rings)


def look_at_lines(drawing, draw):
    lines = read_json(drawing, drawing.draw(draw), "MultiLineString")
    kind, found = only_feature(drawing)
    expect("GDAL's reading", (kind, len(found)), ("MULTILINESTRING", len(lines)))
    for ours, theirs in zip(lines, found):
        close = all(math.dist(*pair) <= 1e-9 * math.hypot(*pair[0]) for pair in zip(ours, theirs))
        expect("GDAL's reading of a line", (len(theirs), close), (len(ours), True))
    check_closed(lines)
    vertices = sum(map(len, lines))
    expect("counts", {"lines": len(lines), "vertices": vertices}, drawing.counts(draw))
    if "--smooth" not in drawing.options and drawing.terrain.cell is None:
        look_at_vertices(drawing, lines)
    if "--smooth" in drawing.options and drawing.terrain.stands_free(drawing.levels):
        look_at_contour(drawing, lines)
    look_at_picture(drawing, draw, len(lines))
    return f"lines {len(lines)}, vertices {vertices}"


def look_at_contour(drawing, lines):
    """Smoothed and placed lines stand where gdal_contour draws them on the map: they have the same vertices."""
    file = drawing.json.with_suffix(".contour.geojson")
    levels = [word for level in drawing.levels for word in ("-fl", level)]
    run("gdal_contour", "-q", *levels, "-f", "GeoJSON", drawing.file, file)
    features = json.loads(file.read_text(encoding="ascii"))["features"]
    theirs = [point for feature in features for point in feature["geometry"]["coordinates"]]
    ours = [point for line in lines for point in line]
    near = drawing.terrain.cell / 1000
    expect("vertices that are not gdal_contour's", apart(ours, theirs, near), [])
    expect("vertices of gdal_contour that are not ours", apart(theirs, ours, near), [])


def apart(points, others, near):
    """The points that are near none of the others."""
    places = {(round(x / near) + i, round(y / near) + j) for x, y in others for i in (-1, 0, 1) for j in (-1, 0, 1)}
    return [(x, y) for x, y in points if (round(x / near), round(y / near)) not in places]


def drawings(folder, examples):
    """Regions at every level, and lines at the first."""
    for terrain in terrains(examples):
        file = terrain.write(folder)
        for level in terrain.levels:
            yield look_at_region, Drawing(terrain, file, level, ("--grid",), folder)
            if isinstance(level, tuple):
                yield look_at_region, Drawing(terrain, file, level, ("--grid", "--isobands"), folder)
        for options in [("--lines",), ("--lines", "--smooth")]:
            yield look_at_lines, Drawing(terrain, file, terrain.levels[0], options, folder)


def main(draw, examples, folder):
    examples, folder = pathlib.Path(examples), pathlib.Path(folder)
    looked_at, differ = 0, 0
    for look_at, drawing in drawings(folder, examples):
        looked_at += 1
        try:
            said = look_at(drawing, draw)
        except (Differs, ValueError, xml.etree.ElementTree.ParseError) as why:
            differ += 1
            said = f"differs: {str(why)[:1000]}"
        print(f"{drawing.title}: {said}", flush=True)
    print(f"{looked_at} drawings looked at by GDAL, {differ} differ")
    return 0 if looked_at > 0 and differ == 0 else 1


if __name__ == "__main__":
    sys.exit(main(*sys.argv[1:]))
