"""Holds rings to the right-hand rule of RFC 7946 (3.1.6): exteriors run counterclockwise and holes clockwise, y
upward. GDAL and shapely look at every ring of every polygon that ./draw has written. Part of compare/outside.

    outside_rings.py FOLDER

FOLDER has what ./draw wrote, in files *.json. The last line is 'N rings held to RFC 7946 by GDAL and shapely, M
differ'.

GDAL writes the figures again in its RFC 7946 mode, in which it turns about each ring that runs the wrong way, and has
to leave each as it is. It is also given each figure with all rings reversed, and has to turn these about: so there is
no ring that it would let pass either way.
"""

import json
import math
import pathlib
import sys

from outside_tools import expect, no_number, run
from shapely.algorithms.cga import signed_area
from shapely.geometry import LinearRing, Polygon

# In this mode GDAL takes coordinates for degrees. So it is told to shrink them to at most so many, x and y by the same
# factor, which turns no ring about. It rounds them to 15 digits; a step of a ring is far more than what is near.
DEGREES = 64
RFC7946 = ["-lco", "RFC7946=YES", "-lco", "COORDINATE_PRECISION=15"]
NEAR = 1e-10


def rings(polygons):
    """Each ring of a figure, and whether it is an exterior."""
    return [(ring, k == 0) for polygon in polygons for k, ring in enumerate(polygon)]


def reversed_rings(polygons):
    return [[ring[::-1] for ring in polygon] for polygon in polygons]


def encloses(ring):
    """Whether a ring has an area that is not 0. No rule says which way another runs."""
    return Polygon(ring).area != 0


def counterclockwise(ring):
    """By shapely, which says so of a ring that does not cross itself; of any other its area has a sign."""
    ring = LinearRing(ring)
    return ring.is_ccw if ring.is_simple else signed_area(ring) > 0


def right_by_shapely(polygons):
    """Of each ring whether it runs the right way, and its reverse does not."""
    return [
        not encloses(ring) or (counterclockwise(ring), counterclockwise(ring[::-1])) == (exterior, not exterior)
        for ring, exterior in rings(polygons)
    ]


def same_run(ours, theirs):
    """Whether two closed rings have the same points in the same order, wherever they begin."""
    ours, theirs = ours[:-1], theirs[:-1]
    begins = [k for k, point in enumerate(theirs) if math.dist(ours[0], point) < NEAR]
    return len(ours) == len(theirs) and any(
        all(math.dist(*pair) < NEAR for pair in zip(ours, theirs[k:] + theirs[:k])) for k in begins)


def written_by_gdal(features, factor, file):
    """The polygons of each feature as GDAL writes them in its RFC 7946 mode, in which one alone is no MultiPolygon."""
    written = file.with_suffix(".geojson")
    file.write_text("\n".join(features) + "\n", encoding="ascii")
    shrink = f"+proj=affine +s11={factor!r} +s22={factor!r}"
    run("ogr2ogr", "-f", "GeoJSON", *RFC7946, "-ct", shrink, written, f"GeoJSONSeq:{file}")
    found = [feature["geometry"] for feature in json.loads(written.read_text(encoding="ascii"))["features"]]
    expect("features that GDAL writes", len(found), len(features))
    return [[at["coordinates"]] if at["type"] == "Polygon" else at["coordinates"] for at in found]


def right_by_gdal(features, figures, file):
    """Of each ring of each figure whether GDAL leaves it, and turns its reverse about. A feature is the text of one
    figure. Only rings that enclose something and do not cross themselves are looked at."""
    points = [point for polygons in figures for ring, _ in rings(polygons) for point in ring]
    factor = DEGREES / max(abs(at) for point in points for at in point)
    reversed_features = [as_feature(json.dumps(as_geometry(reversed_rings(polygons)))) for polygons in figures]
    written = written_by_gdal([*features, *reversed_features], factor, file)
    for polygons, *both in zip(figures, written, written[len(figures):]):
        expect("rings that GDAL writes", [list(map(len, found)) for found in both], [list(map(len, polygons))] * 2)
        yield [
            not encloses(ring) or not LinearRing(ring).is_simple
            or all(same_run([[x * factor, y * factor] for x, y in ring], theirs) for theirs, _ in found)
            for (ring, _), *found in zip(rings(polygons), *map(rings, both))
        ]


def wrong_rings(features, figures, file):
    """Of each figure how many rings run the wrong way, and who says so."""
    for polygons, by_gdal in zip(figures, right_by_gdal(features, figures, file)):
        by_shapely = right_by_shapely(polygons)
        wrong = len(by_gdal) - sum(map(all, zip(by_gdal, by_shapely)))
        yield wrong, (f"{wrong} of {len(by_gdal)} rings run the wrong way: {by_gdal.count(False)} by GDAL,"
                      f" {by_shapely.count(False)} by shapely")


def as_geometry(polygons):
    return {"type": "MultiPolygon", "coordinates": polygons}


def as_feature(geometry):
    return f'{{"type":"Feature","properties":{{}},"geometry":{geometry}}}'


def drawn(folder):
    """The title, the text and the polygons of each feature that was drawn. A collection has a feature a line."""
    for file in sorted(folder.glob("*.json")):
        text = file.read_text(encoding="ascii").strip()
        lines = text.splitlines()[1:-1] if text.startswith('{"type":"FeatureCollection"') else [as_feature(text)]
        for number, line in enumerate(lines):
            feature = line.rstrip(",")
            geometry = json.loads(feature, parse_constant=no_number)["geometry"]
            if geometry["type"] == "MultiPolygon" and geometry["coordinates"]:
                yield f"{file.stem}, feature {number}", feature, geometry["coordinates"]


def main(folder):
    folder = pathlib.Path(folder)
    titles, features, figures = zip(*drawn(folder))
    looked_at, differ = sum(len(rings(polygons)) for polygons in figures), 0
    for title, (wrong, says) in zip(titles, wrong_rings(features, figures, folder / "drawn.geojsonl")):
        differ += wrong
        if wrong > 0:
            print(f"{title}: {says}", flush=True)
    print(f"{looked_at} rings held to RFC 7946 by GDAL and shapely, {differ} differ")
    return 0 if looked_at > 0 and differ == 0 else 1


if __name__ == "__main__":
    sys.exit(main(*sys.argv[1:]))
