"""What compare/draw_tests asks of ./draw, and what it should answer: small terrains, faulty files and faulty
commands. What is expected follows from documents 01 and 02, RFC 7946 and the header's formula, worked out by hand."""

HEADER = "ncols 2\nnrows 3\nxllcorner 100\nyllcorner 200\ncellsize 10\n"
ROWS = "1 0\n0 0\n0 0\n"
PLATE = "ncols 3\nnrows 3\nxllcorner 0\nyllcorner 0\ncellsize 2\n1 1 1\n1 0 1\n1 1 1\n"
PEAK = "ncols 3\nnrows 3\nxllcorner 0\nyllcorner 0\ncellsize 2\n1 1 1\n1 2 1\n1 1 1\n"
ONE = '{"type":"MultiPolygon","coordinates":[[[[1,0.5],[0.5,1],[0,0.5],[0.5,0],[1,0.5]]]]}\n'
NONE = '{"type":"MultiPolygon","coordinates":[]}\n'
DIAMOND = "polygons 1\nholes 0\ndropped 0\nvertices 5\n"
# A terrain whose band from 4 to 6 the library gives without the 5.
JUMPS = "3 6 8 7 1\n7 7 2 9 6\n8 9 6 8 2\n9 5 8 3 9\n8 9 2 6 4\n"
BIG = "3.4028234663852886e+38"
# 1e-200 and its half.
TINY, HALF = f"0.{'0' * 199}1", f"0.{'0' * 200}5"


def header(old, new):
    assert old in HEADER
    return HEADER.replace(old, new)


def sides(dx, dy):
    return f"the terrain has {dx} columns and {dy} rows, and a side is 1 to 4,096"


X_CENTER = header("xllcorner", "XLLCENTER")
Y_CENTER = header("yllcorner", "yllcenter")
ANY_ORDER = "NODATA_value 7\nCELLSIZE 1\nYllCorner 0\nnCols 1\nxllcorner 0\nNROWS 2\n"
HIGH = header("cellsize 10", "dx 10\nDY 20")
ONE_LINE = (HEADER + ROWS).replace("\n", " ")


def ring(*points):
    return "[" + ",".join(f"[{x},{y}]" for x, y in points) + "]"


def line(*points):
    """One line as GeoJSON."""
    return f'{{"type":"MultiLineString","coordinates":[{ring(*points)}]}}\n'


def polygon(*rings):
    """One polygon as GeoJSON."""
    text = ",".join(ring(*points) for points in rings)
    return f'{{"type":"MultiPolygon","coordinates":[[{text}]]}}\n'


def feature(properties, geometry):
    return f'{{"type":"Feature","properties":{{{properties}}},"geometry":{geometry.strip()}}}'


def collection(*features):
    return '{"type":"FeatureCollection","features":[\n' + ",\n".join(features) + "\n]}\n"


def closed(heights, number, area, points):
    """One ring of a stream, on its line."""
    text = f'{{"type":"LineString","coordinates":{ring(*points)}}}'
    return feature(f'{heights},"ring":{number},"area":{area}', text) + "\n"


def back(points):
    """A ring from the same first point, backwards."""
    return points[::-1]


ON_MAP = [(110, 225), (105, 230), (100, 225), (105, 220), (110, 225)]
# Rings about the first sample of a row, about both and about the second, as they are drawn: clockwise, y taken upward.
UPPER_LEFT = [(1, 0.5), (0.5, 0), (0, 0.5), (0.5, 1), (1, 0.5)]
BOTH = [(2, 0.5), (1.5, 0), (0.5, 0), (0, 0.5), (0.5, 1), (1.5, 1), (2, 0.5)]
SECOND = [(2, 0.5), (1.5, 0), (1, 0.5), (1.5, 1), (2, 0.5)]
# The plate at cells of 2 by 2, y up: the outer ring counterclockwise, the hole clockwise.
PLATE_OUT = [
    (6, 1), (6, 3), (6, 5), (5, 6), (3, 6), (1, 6), (0, 5), (0, 3), (0, 1), (1, 0), (3, 0), (5, 0), (6, 1),
]
PLATE_HOLE = [(3, 2), (2, 3), (3, 4), (4, 3), (3, 2)]
# The ring about the sample in its middle, counterclockwise; it begins where the ring about any sample does.
MIDDLE = [(4, 3), (3, 4), (2, 3), (3, 2), (4, 3)]
# These three in grid units, y taken upward.
GRID_OUT = [
    (3, 2.5), (2.5, 3), (1.5, 3), (0.5, 3), (0, 2.5), (0, 1.5), (0, 0.5), (0.5, 0), (1.5, 0), (2.5, 0), (3, 0.5),
    (3, 1.5), (3, 2.5),
]
GRID_HOLE = [(1.5, 2), (2, 1.5), (1.5, 1), (1, 1.5), (1.5, 2)]
GRID_MIDDLE = [(2, 1.5), (1.5, 2), (1, 1.5), (1.5, 1), (2, 1.5)]


# Grids that GDAL reads too, each drawn at 1.
GRIDS = [
    HEADER + ROWS,
    X_CENTER.replace("yllcorner", "yllcenter") + ROWS,
    HIGH + ROWS,
    HIGH + "1 0 0\n0\n0 0.5\n",
    HEADER + "1\t0 0  0 1\t 0.25 \n",
    (HEADER + "1 0 0 0 1 2\n").replace("\n", "\r\n"),
    "ncols 4 nrows 2 dx 0.5 dy 0.25 xllcorner -3 yllcorner 7.5 NODATA_value 9\n1 9 1 9\n9 1 9 2.5\n",
    "NCOLS 2\nNROWS 2\nCELLSIZE 3\nnodata_value -1\n1 2\n-1 3.5\n",
]

# What stands for no data, and samples of which GDAL says how many are numbers.
NO_DATA = [
    ("-9999", ["-9999", "-9999.0", "-9999.0001", "-9998.999", "-9999.5", "0.5"]),
    ("3.4028235e+38", [BIG, "3.4028235e+38", "3.40282346638529e+38", "3.4028e+38", "1.5"]),
    (BIG, [BIG, "3.4028235e+38", "3.40282346638529e+38", "1.5"]),
    ("-3.4028235e+38", ["-" + BIG, "-3.4028235e+38", BIG, "1.5"]),
    ("0", ["0", "0.0", "-0.0", "1e-30", "1.5"]),
    ("1.1", ["1.1", "1.10000002384185791", "1.1001", "1.5"]),
]


# Rings of streams: about the first and about the third sample of the first row.
CORNER = closed('"value":1', 0, 0.5, UPPER_LEFT)
THIRD = closed('"value":1', 1, 0.5, [(3, 0.5), (2.5, 0), (2, 0.5), (2.5, 1), (3, 0.5)])


def turned(points):
    """The plate's ring upside down, so that it is read backwards to run as before."""
    return [(x, 6 - y) for x, y in reversed(points)]


# Frames about one another: the dot in the middle closes first, then the hole about it, then the outermost ring.
FRAMES = "1 1 1 1 1\n1 0 0 0 1\n1 0 1 0 1\n1 0 0 0 1\n1 1 1 1 1\n"


def dots(count):
    """So many dots in a row, which close first, and two rows below them a frame, whose hole closes next."""
    width = max(3, 2 * count - 1)
    rows = [["0"] * width for _ in range(5)]
    rows[0][: 2 * count : 2] = ["1"] * count
    for row, begins in zip(rows[2:], ["111", "101", "111"]):
        row[:3] = begins
    return "\n".join(" ".join(row) for row in rows)


def is_polygon(number, area):
    return f"ring {number} is a polygon: its area is {area}, which is above 0\n"


def is_hole(number, owner, area, at, others):
    """What is said of a hole: of its first point, of other polygons, and its area."""
    return f"ring {number} is a hole of polygon {owner}: its vertex 0 at {at} lies inside; {others}; its area is {area}\n"


def below_dots(count, named, more=""):
    """What is said of the hole below dots: it begins two rows below that of document 01."""
    do_not_hold = f"polygons {named} do not hold it: vertex 0 lies outside each"
    return is_hole(count, count + 1, -0.5, "(1.5, 4)", do_not_hold + more)


def frame(side):
    """A square of ones about a square of zeros, which is two samples shorter."""
    whole, open_row = " ".join("1" * side), " ".join("1" + "0" * (side - 2) + "1")
    return "\n".join([whole, *[open_row] * (side - 2), whole])


TABLE_HEAD = "  ring  class     owner  points    area\n"
# Document 01's areas -4 and 68 are eighths.
PLATE_TABLE = TABLE_HEAD + "     0  hole          1       5    -0.5\n     1  polygon       1      13     8.5\n"
# A ring about a square of n by n samples has 4n + 1 points and encloses n * n squares, less an eighth at each corner.
FRAME_TABLE = (
    "  ring  class     owner  points     area\n"
    "     0  hole          1     153  -1443.5\n"
    "     1  polygon       1     161   1599.5\n")
TWENTY = "0, 1, 2, 3, 4, 5, 6, 7, 8, 9, 10, 11, 12, 13, 14, 15, 16, 17, 18 and 19"

# What is read from standard input, the words behind the file '-', and what is printed.
DRAWN = [
    ("5\n", "5", ONE),
    ("5", "-1.5", ONE),
    ("5", "-- -1", ONE),
    ("5", "0 9", ONE),
    ("5", "9", NONE),
    ("5", "inf", NONE),
    ("5", "-inf inf", ONE),
    ("5", "5 6", ONE),
    ("5", "4 5", NONE),
    ("1 1 1\n1 0 1\n1 1 1", "1 --counts", "polygons 1\nholes 1\ndropped 0\nvertices 18\n"),
    ("1 1 1\n1 0 1\n1 1 1", "--counts 1 --lines", "lines 2\nvertices 18\n"),
    ("2 2 2\n2 1 2\n2 2 0", "1 2 --counts", DIAMOND),
    ("2 2 2\n2 1 2\n2 2 0", "1 2 --counts --isobands", "polygons 0\nholes 0\ndropped 2\nvertices 0\n"),
    (JUMPS, "5 6", polygon([(2, 3.5), (1.5, 4), (1, 3.5), (1.5, 3), (2, 3.5)])),
    # White space, commas, comments and line ends.
    ("\n1\t2 \v 3\r\n\r\n4\f5 6\r\n", "2 --counts", "polygons 1\nholes 0\ndropped 0\nvertices 11\n"),
    ("1,2 , 3\n4 5 6", "2 --counts", "polygons 1\nholes 0\ndropped 0\nvertices 11\n"),
    ("5 0\r5 0\r", "5 --counts", "polygons 1\nholes 0\ndropped 0\nvertices 7\n"),
    ("\ufeff5", "5", ONE),
    ("# made by hand\n  # twice\n\n5\n", "5", ONE),
    ("nan inf -INF\n", "0 --counts", DIAMOND),
    # Lines.
    ("nan inf 3\n", "4 --lines --smooth", line(*SECOND)),
    ("0 4", "1 --lines", line(*SECOND)),
    ("0 4", "1 --lines --smooth", line((2, 0.5), (1.5, 0), (0.75, 0.5), (1.5, 1), (2, 0.5))),
    ("0 4", "1 --lines --smooth --step 4,2", line((8, 1), (6, 0), (3, 1), (6, 2), (8, 1))),
    ("5", "5 --lines --origin=-1,2 --step 2,-3", line((1, 0.5), (0, 2), (-1, 0.5), (0, -1), (1, 0.5))),
    ("5", "5 6 --lines", line(*UPPER_LEFT)),
    ("5", "6 --lines", '{"type":"MultiLineString","coordinates":[]}\n'),
    # On the map, and in grid units.
    (HEADER + ROWS, "1 --grid", ONE),
    (HEADER + ROWS, "1", polygon(ON_MAP)),
    (HEADER + ROWS, "1 --lines", line(*ON_MAP)),
    (HEADER + ROWS, "1 --lines --grid", line(*UPPER_LEFT)),
    (HEADER + ROWS, "1 --lines --step 2,2", line((102, 231), (101, 230), (100, 231), (101, 232), (102, 231))),
    (HEADER + ROWS, "1 --step 2,2", polygon([(102, 231), (101, 232), (100, 231), (101, 230), (102, 231)])),
    (HEADER + ROWS, "1 --origin 0,0", polygon([(10, -5), (5, 0), (0, -5), (5, -10), (10, -5)])),
    ("1", "1 --step 2,2", polygon([(2, 1), (1, 2), (0, 1), (1, 0), (2, 1)])),
    (X_CENTER + ROWS, "1", polygon([(105, 225), (100, 230), (95, 225), (100, 220), (105, 225)])),
    (Y_CENTER + ROWS, "1", polygon([(110, 220), (105, 225), (100, 220), (105, 215), (110, 220)])),
    (HIGH + ROWS, "1", polygon([(110, 250), (105, 260), (100, 250), (105, 240), (110, 250)])),
    ("ncols 1 nrows 1 cellsize 2 5", "5", polygon([(2, -1), (1, 0), (0, -1), (1, -2), (2, -1)])),
    # A map may be turned over, by steps however small, or turned about.
    ("1", "1 --step 2,-2", polygon([(2, -1), (1, 0), (0, -1), (1, -2), (2, -1)])),
    ("1", "1 --step=-2,2", polygon([(-2, 1), (-1, 0), (0, 1), (-1, 2), (-2, 1)])),
    ("1", "1 --step=-2,-2", polygon([(-2, -1), (-1, -2), (0, -1), (-1, 0), (-2, -1)])),
    ("1", "1 --step 1e-200,-1e-200", polygon(
        [(TINY, "-" + HALF), (HALF, 0), (0, "-" + HALF), (HALF, "-" + TINY), (TINY, "-" + HALF)])),
    # Grids however they are written.
    (ONE_LINE, "1", polygon(ON_MAP)),
    (HEADER + "1 0 0\n0\n0 0\n", "1", polygon(ON_MAP)),
    (HEADER + "1\n0\n0\n0\n0\n0", "1", polygon(ON_MAP)),
    (HEADER + "1,0\n0,0,0,0\n", "1", polygon(ON_MAP)),
    ("# a grid\n" + HEADER.replace("\n", " # as it is\n") + ROWS, "1", polygon(ON_MAP)),
    ((HEADER + ROWS).replace("\n", "\r"), "1", polygon(ON_MAP)),
    # What stands for no data.
    (ANY_ORDER + "7.0\n8\n", "5 --counts", DIAMOND),
    (ANY_ORDER + "7.0000001\n8\n", "5 --counts", DIAMOND),
    (ANY_ORDER + "7.00001\n8\n", "5 --counts", "polygons 1\nholes 0\ndropped 0\nvertices 7\n"),
    (ANY_ORDER.replace("7", "3.4028235e+38") + f"{BIG}\n8\n", "5 --counts", DIAMOND),
    (ANY_ORDER.replace("7", BIG) + "3.4028235e+38\n8\n", "5 --counts", DIAMOND),
    (ANY_ORDER.replace("7", "1e300") + "2e300\n1e300\n", "5 --counts", DIAMOND),
    (ANY_ORDER.replace("7", "nan") + "nan\n8\n", "5 --counts", DIAMOND),
    # Several at once.
    ("1 2", "2 9 --levels", collection(
        feature('"value":2,"area":0.5,"polygons":1', polygon(back(SECOND))),
        feature('"value":9,"area":0,"polygons":0', NONE))),
    ("1 2", "0 2 inf --bands", collection(
        feature('"low":0,"high":2,"area":0.5,"polygons":1', polygon(back(UPPER_LEFT))),
        feature('"low":2,"high":null,"area":0.5,"polygons":1', polygon(back(SECOND))))),
    ("1 2", "--interval 1", collection(feature('"value":2,"area":0.5,"polygons":1', polygon(back(SECOND))))),
    ("1 2", "--interval 1 --lines", collection(feature('"value":2,"lines":1', line(*SECOND)))),
    ("0.1 0.3", "--interval 0.1 --counts", f"value 0.2\n{DIAMOND}value 0.3\n{DIAMOND}"),
    ("0.1 0.3", "--interval 0.2 --bands --counts", f"low 0\nhigh 0.2\n{DIAMOND}low 0.2\nhigh 0.4\n{DIAMOND}"),
    ("nan inf", "--interval 1", '{"type":"FeatureCollection","features":[\n]}\n'),
    (PLATE, "1 --levels", collection(
        feature('"value":1,"area":32,"polygons":1', polygon(PLATE_OUT, PLATE_HOLE)))),
    (PLATE, "1 --origin 0,0 --step 2,2", polygon(turned(PLATE_OUT), turned(PLATE_HOLE))),
    # Exteriors counterclockwise and holes clockwise, on the map and in grid units: levels and bands with holes.
    (PLATE, "1", polygon(PLATE_OUT, PLATE_HOLE)),
    (PLATE, "1 --grid", polygon(GRID_OUT, GRID_HOLE)),
    (PLATE, "0 1 --levels", collection(
        feature('"value":0,"area":34,"polygons":1', polygon(PLATE_OUT)),
        feature('"value":1,"area":32,"polygons":1', polygon(PLATE_OUT, PLATE_HOLE)))),
    (PLATE, "0 1 --levels --grid", collection(
        feature('"value":0,"area":8.5,"polygons":1', polygon(GRID_OUT)),
        feature('"value":1,"area":8,"polygons":1', polygon(GRID_OUT, GRID_HOLE)))),
    (PLATE, "0 1 2 --bands", collection(
        feature('"low":0,"high":1,"area":2,"polygons":1', polygon(MIDDLE)),
        feature('"low":1,"high":2,"area":32,"polygons":1', polygon(PLATE_OUT, PLATE_HOLE)))),
    (PLATE, "0 1 2 --bands --grid", collection(
        feature('"low":0,"high":1,"area":0.5,"polygons":1', polygon(GRID_MIDDLE)),
        feature('"low":1,"high":2,"area":8,"polygons":1', polygon(GRID_OUT, GRID_HOLE)))),
    # The library's band has the ring about the peak for a hole, which has an area above 0.
    (PEAK, "1 2 --isobands", polygon(PLATE_OUT, back(MIDDLE))),
    (PEAK, "1 2 --isobands --grid", polygon(GRID_OUT, back(GRID_MIDDLE))),
    (PEAK, "1 2 --bands --isobands", collection(
        feature('"low":1,"high":2,"area":32,"polygons":1', polygon(PLATE_OUT, back(MIDDLE))))),
    (PEAK, "1 2 --bands --isobands --grid", collection(
        feature('"low":1,"high":2,"area":8,"polygons":1', polygon(GRID_OUT, back(GRID_MIDDLE))))),
    (PEAK, "1 2", polygon(PLATE_OUT, PLATE_HOLE)),
    (PEAK, "1 2 --grid", polygon(GRID_OUT, GRID_HOLE)),
    # Strictly above: a sample that equals a threshold is in no region of it, and one that equals HIGH is in the band.
    ("5", "5 --above", NONE),
    ("5", "--above 4", ONE),
    ("5", "4 5 --above", ONE),
    ("5", "5 6 --above", NONE),
    ("inf", "inf --above", NONE),
    ("inf", "-inf inf --above", ONE),
    ("-inf", "-inf inf --above", NONE),
    ("-inf", "-inf --above", NONE),
    ("-0.0 0", "0 --above", NONE),
    ("0 -0.0", "-0.0 --above", NONE),
    ("nan 5 nan", "-inf --above --counts", DIAMOND),
    ("nan 5 nan", "-inf inf --above --counts", DIAMOND),
    (HEADER + ROWS, "0 --above", polygon(ON_MAP)),
    (HEADER + ROWS, "0 1 --above --grid", ONE),
    ("1 4", "1 --lines --above", line(*SECOND)),
    ("1 4", "1 --lines --smooth --above", line((2, 0.5), (1.5, 0), (0.5, 0.5), (1.5, 1), (2, 0.5))),
    ("1 1 1\n1 2 1\n1 1 1", "0 1 --isobands --above --counts", "polygons 1\nholes 1\ndropped 0\nvertices 18\n"),
    ("1", "0 1 --isobands --above", ONE),
    ("1", "0 1 --isobands --above --counts", DIAMOND),
    ("1 2", "1 2 --levels --above", collection(
        feature('"value":1,"rule":">","area":0.5,"polygons":1', polygon(back(SECOND))),
        feature('"value":2,"rule":">","area":0,"polygons":0', NONE))),
    ("1 2", "0 1 inf --bands --above", collection(
        feature('"low":0,"high":1,"rule":">","area":0.5,"polygons":1', polygon(back(UPPER_LEFT))),
        feature('"low":1,"high":null,"rule":">","area":0.5,"polygons":1', polygon(back(SECOND))))),
    ("1 2", "--interval 1 --above", collection(
        feature('"value":1,"rule":">","area":0.5,"polygons":1', polygon(back(SECOND))))),
    ("1 2", "--interval 1 --lines --above", collection(feature('"value":1,"rule":">","lines":1', line(*SECOND)))),
    ("0.1 0.3", "--interval 0.1 --above --counts", f"value 0.1\n{DIAMOND}value 0.2\n{DIAMOND}"),
    ("1 2", "--interval 1 --bands --above --counts", f"low 0\nhigh 1\n{DIAMOND}low 1\nhigh 2\n{DIAMOND}"),
    ("5", "--interval 5 --bands --above --counts", f"low 0\nhigh 5\n{DIAMOND}"),
    ("5", "--interval 5 --above", '{"type":"FeatureCollection","features":[\n]}\n'),
    ("5", "5 --above --stream", ""),
    ("1 2", "1 --above --stream", closed('"value":1,"rule":">"', 0, 0.5, SECOND)),
    ("5", "4 5 --above --stream", closed('"low":4,"high":5,"rule":">"', 0, 0.5, UPPER_LEFT)),
    ("5", "5 6 --above --stream", ""),
    ("1 2", "0 1 --levels --above --stream", closed('"value":0,"rule":">"', 0, 1.5, BOTH) + closed(
        '"value":1,"rule":">"', 0, 0.5, SECOND)),
    (PLATE, "0 --above --why", PLATE_TABLE),
    (PLATE, "--above 0 --why 1", is_polygon(1, 8.5)),
    ("5", "5 --above --why", TABLE_HEAD),
    # As they close: the plate's hole first, of an area below 0; all rings run as the library gives them.
    ("1", "1 --stream", CORNER),
    ("1", "9 --stream", ""),
    ("\ufeff1 0 1\r\n0 0 0\r", "1 --stream", CORNER + THIRD),
    ("1 0 1\r0 0 0", "1 --stream", CORNER + THIRD),
    ("1,0,1\n" + "0,0,0\n" * 4095, "1 --stream", CORNER + THIRD),
    (HEADER + ROWS, "1 --stream", closed('"value":1', 0, 50, ON_MAP)),
    (ONE_LINE, "1 --stream", closed('"value":1', 0, 50, ON_MAP)),
    (HEADER + "1 0 0\n0\n0 0\n", "1 --stream", closed('"value":1', 0, 50, ON_MAP)),
    (HEADER + ROWS, "1 --stream --grid", CORNER),
    ("1", "1 --stream --step 2,-2", closed('"value":1', 0, 2, [(2, -1), (1, 0), (0, -1), (1, -2), (2, -1)])),
    (ANY_ORDER + "7.0\n8\n", "5 --stream --grid", closed(
        '"value":5', 0, 0.5, [(1, 1.5), (0.5, 1), (0, 1.5), (0.5, 2), (1, 1.5)])),
    (PLATE, "1 --stream", closed('"value":1', 0, -2, PLATE_HOLE) + closed('"value":1', 1, 34, PLATE_OUT)),
    ("5", "5 6 --stream", closed('"low":5,"high":6', 0, 0.5, UPPER_LEFT)),
    ("5", "4 5 --stream", ""),
    ("1 2", "1 2 --levels --stream", closed('"value":1', 0, 1.5, BOTH) + closed('"value":2', 0, 0.5, SECOND)),
    ("1 2", "0 2 inf --bands --stream", closed('"low":0,"high":2', 0, 0.5, UPPER_LEFT) + closed(
        '"low":2,"high":null', 0, 0.5, SECOND)),
    # What became of rings, by document 01's areas and owners; in grid units, where there is a header too.
    (PLATE, "1 --why", PLATE_TABLE),
    (PLATE, "1 --why 0", is_hole(0, 1, -0.5, "(1.5, 2)", "no polygon has a lower number")),
    (PLATE, "1 --why 1", is_polygon(1, 8.5)),
    (frame(40), "1 --why", FRAME_TABLE),
    (frame(40), "1 --why 0", is_hole(0, 1, -1443.5, "(38.5, 39)", "no polygon has a lower number")),
    (PLATE, "1 --why 01 --grid", is_polygon(1, 8.5)),
    (header("cellsize 10", "cellsize 1e308") + ROWS, "1 --why=0", is_polygon(0, 0.5)),
    ("5", "9 --why", TABLE_HEAD),
    (FRAMES, "1 --why 0", is_polygon(0, 0.5)),
    (FRAMES, "1 --why 1", is_hole(1, 2, -8.5, "(3.5, 4)", "polygon 0 does not hold it: vertex 0 lies outside")),
    (FRAMES, "1 --why 2", is_polygon(2, 24.5)),
    (dots(2), "1 --why 2", below_dots(2, "0 and 1")),
    (dots(3), "1 --why 3", below_dots(3, "0, 1 and 2")),
    (dots(20), "1 --why 20", below_dots(20, TWENTY)),
    (dots(21), "1 --why 21", below_dots(21, TWENTY, "; nor does 1 more")),
    (dots(30), "1 --why 30", below_dots(30, TWENTY, "; nor do 10 more")),
]

# Words that ask for ring 1 of the plate, and words that ask for all rings.
ASKING_FOR_ONE = ["- 1 --why 1", "- 1 --why=1", "--why 1 - 1", "- --why 1 1", "--why=1 -- - 1", "- 1 --why 7 --why 1"]
ASKING_FOR_ALL = ["- 1 --why", "--why - 1", "- --why -- 1", "--why --grid - 1"]

# Thresholds, and options with which they are drawn.
FORMS = [
    ([2], ""),
    ([2], "--step 2,-2"),
    ([2], "--counts"),
    ([2], "--lines"),
    ([2], "--stream"),
    ([2], "--why"),
    ([1, 3], ""),
    ([1, 3], "--step 2,-2"),
    ([1, 3], "--isobands"),
    ([1, 3], "--lines"),
    ([1, 3], "--stream"),
    ([0, 2, 3], "--levels"),
    ([0, 2, 3], "--levels --lines"),
    ([0, 2, 3], "--levels --stream"),
    ([0, 2, 3], "--bands"),
    ([0, 2, 3], "--bands --isobands"),
    ([0, 2, 3], "--bands --stream"),
]

# What of a stream is printed before a fault is met, and what the message says.
BROKEN_OFF = [
    ("1 0 1\n0 0 0\n1 0\n", "1", CORNER + THIRD, "line 3, column 4: the row ends after 2 of 3 numbers"),
    ("1 0 1\n0 0 0\n1 2 x\n", "1", CORNER + THIRD, "line 3, column 5: 'x' is not a number"),
    ("1 0 1\n" + "0 0 0\n" * 4096, "1", CORNER + THIRD, "there are more than 4,096 rows"),
    (b"1 0 1\n0 0 0\n\xff", "1", CORNER + THIRD, "line 3, column 1: this is not text; --stream reads text alone"),
    (HEADER + "1 0\n0 0\n0", "1 --grid", CORNER, "line 8, column 2: the file ends after 5 of 6 numbers"),
    (HEADER + ROWS + "9", "1 --grid", CORNER, "line 9, column 1: there are more numbers than 2 columns by 3 rows"),
    ("1\n0\n" + "0 " * 600000, "1", CORNER, "line 3 has more than 1048576 bytes, and --stream holds a line"),
]

# What is read from standard input, the words behind the file, and what the message says. The exit status is 1.
FAILING = [
    ("", "1", "line 1, column 1: the file has no numbers"),
    (" \n\n", "1", "line 3, column 1: the file has no numbers"),
    ("hello\n", "1", "line 1, column 1: 'hello' is neither a number nor a header word of an ESRI ASCII grid"),
    ('{"type":1}\n', "1", "line 1, column 1: '{\"type\":1}' is neither"),
    ("1 2\n3\n", "1", "line 2, column 2: the row ends after 1 of 2 numbers"),
    ("1 2\n3 4 5\n", "1", "line 2, column 5: the row has more numbers than 2"),
    ("1 2\n3 x\n", "1", "line 2, column 3: 'x' is not a number"),
    ("1 2\n3 \x1b[31m\n", "1", "line 2, column 3: '?[31m' is not a number"),
    ("1 2\n# no comment\n", "1", "line 2, column 1: '#' is not a number"),
    ("1;2\n", "1", "line 1, column 1: '1;2' is neither"),
    ("1,,2\n", "1", "line 1, column 3: a number is missing"),
    ("1,2 ,\n", "1", "line 1, column 6: a number is missing"),
    (",1\n", "1", "line 1, column 1: a number is missing"),
    ("1,2 3\n", "1", "line 1, column 5: commas and blanks both separate the numbers of this row"),
    ("335,4 336,1\n", "1", "line 1, column 7: commas and blanks both separate the numbers of this row"),
    (HEADER + "1 0\n0 0, 0 0\n", "1", "line 7, column 6: commas and blanks both"),
    (b"1 2\n3 \x80\n", "1", "line 2, column 3: this is not text"),
    (b"II*\0\x08\0\x80\0", "1", "line 1, column 7: this is not text; what GDAL reads is given by its name"),
    (" ".join(["1"] * 4097), "1", sides(4097, 1)),
    ("1\n" * 4097, "1", sides(1, 4097)),
    (header("nrows 3", "nrows 4097") + ROWS, "1", sides(2, 4097)),
    (header("nrows 3", "nrows 0"), "1", sides(2, 0)),
    (header("ncols 2", "ncols 99999999999999999999") + ROWS, "1", "the terrain has 18446744073709551615 columns"),
    (HEADER + "1 0\n0 0\n", "1", "line 8, column 1: the file ends after 4 of 6 numbers"),
    (HEADER, "1", "line 6, column 1: the file ends after 0 of 6 numbers"),
    (HEADER + ROWS + "\n1 2\n", "1", "line 10, column 1: there are more numbers than 2 columns by 3 rows"),
    (HEADER + "1 0\n0 z\n0 0\n", "1", "line 7, column 3: 'z' is not a number"),
    ((HEADER + "1 0\n0 z\n0 0\n").replace("\n", "\r\n"), "1", "line 7, column 3: 'z' is not a number"),
    ((HEADER + "1 0\n0 0\n").replace("\n", "\r"), "1", "line 7, column 4: the file ends after 4 of 6 numbers"),
    (HEADER + "rows 1\n" + ROWS, "1", "line 6, column 1: 'rows' is neither"),
    (HEADER + "ncols 2\n" + ROWS, "1", "line 6, column 1: ncols is given a second time"),
    (HEADER + "xllcenter 2\n" + ROWS, "1", "line 6, column 1: xllcenter is given a second time"),
    (HEADER + "NODATA_value x\n" + ROWS, "1", "line 6, column 14: 'x' is not a number"),
    (HEADER + "NODATA_value", "1", "line 6, column 13: NODATA_value has no value"),
    (header("cellsize 10\n", "") + ROWS, "1", "line 5, column 1: the header before this line has no cellsize"),
    (header("cellsize 10", "dx 10") + ROWS, "1", "line 6, column 1: the header before this line has no dy"),
    (header("cellsize 10", "cellsize 10,5") + ROWS, "1", "line 5, column 10: '10,5' is not a number"),
    (header("xllcorner 100\n", "") + ROWS, "1", "line 5, column 1: the header before this line has no xllcorner"),
    (header("nrows 3", "nrows 2.5") + ROWS, "1", "line 2, column 7: '2.5' is not a whole number"),
    (header("nrows 3", "nrows -3") + ROWS, "1", "line 2, column 7: '-3' is not a whole number"),
    (header("cellsize 10", "cellsize 0") + ROWS, "1", "line 5, column 10: '0' is not above 0"),
    (header("yllcorner 200", "yllcorner inf") + ROWS, "1", "line 4, column 11: 'inf' is not a finite number"),
    ("5", "5 --step 1e308,1 --origin 1.7e308,0", "a coordinate is too large for its origin and step"),
    ("5", "5 --lines --step 1e308,1 --origin 1.7e308,0", "a coordinate is too large for its origin and step"),
    ("0 1000", "--interval 0.01", "an interval of 0.01 gives more than 10000 levels from 0 to 1000"),
    ("5", "5 --svg --width 100", "the picture is too small for a map beside its axes and its legend"),
    (PLATE, "1 --why 2", "there is no ring 2: the contour has the rings 0 to 1\n"),
    ("5", "5 --why 1", "there is no ring 1: the contour has ring 0 alone\n"),
    ("5", "9 --why 0", "there is no ring 0: the contour has none\n"),
    ("5", "5 --above --why 0", "there is no ring 0: the contour has none\n"),
    ("5", "5 --why 4294967296", "there is no ring 4294967296: the contour has ring 0 alone\n"),
    ("5", "5 --why 99999999999999999999", "there is no ring 18446744073709551615: the contour has ring 0 alone\n"),
    ("1 2\n3\n", "1 --why 0", "line 2, column 2: the row ends after 1 of 2 numbers"),
]

# Where a stream says of these files something else: it knows neither how many rows there will be, nor GDAL.
STREAM_SAYS = {
    sides(4097, 1): "a row has 4097 numbers, and a side is 1 to 4,096",
    sides(1, 4097): "there are more than 4,096 rows",
    "line 1, column 7: this is not text; what GDAL reads is given by its name": (
        "line 1, column 7: this is not text; --stream reads text alone, and what GDAL reads is drawn without it"),
}

# All words, and what the message says. The exit status is 2.
MISUSED = [
    ("", "FILE and THRESHOLD are missing"),
    ("-", "THRESHOLD is missing"),
    ("- five", "THRESHOLD is not a number: 'five'"),
    ("- nan", "THRESHOLD is not a number: 'nan'"),
    ("- 1 x", "HIGH is not a number: 'x'"),
    ("- x 1", "LOW is not a number: 'x'"),
    ("- nan 1", "LOW is not a number: 'nan'"),
    ("- 2 1", "LOW is not below HIGH: 2 and 1"),
    ("- 5 5", "LOW is not below HIGH: 5 and 5"),
    ("- 1 2 3", "there are 3 thresholds: --levels draws each of them, --bands what lies between them"),
    ("- 1 3 2 --levels", "thresholds ascend, and 2 follows 3"),
    ("- 1 1 --bands", "thresholds ascend, and 1 follows 1"),
    ("- 1 --bands", "--bands wants two thresholds or more"),
    ("- --levels", "THRESHOLD is missing"),
    ("- 1 2 --levels --bands", "--levels and --bands exclude each other"),
    ("- 1 --interval 2", "--interval takes the place of thresholds"),
    ("- --interval 0", "--interval wants a number above 0, not '0'"),
    ("- --interval inf", "--interval wants a number, not 'inf'"),
    ("- --interval", "--interval wants N"),
    ("--above", "FILE and THRESHOLD are missing"),
    ("- --above", "THRESHOLD is missing"),
    ("- 1 --above=2", "--above takes no value"),
    ("- 5 5 --above", "LOW is not below HIGH: 5 and 5"),
    ("- 1 --isobands", "--isobands goes with LOW and HIGH, or --bands"),
    ("- 1 2 --isobands --lines", "--isobands and --lines exclude each other"),
    ("- 1 --colour", "there is no option --colour"),
    ("- 1 -s", "there is no option -s"),
    ("- 1 --svg=yes", "--svg takes no value"),
    ("- 1 --svg --counts", "--svg and --counts exclude each other"),
    ("- 1 --svg --png", "--svg and --png exclude each other"),
    ("- 1 --smooth", "--smooth goes with --lines"),
    ("- 1 --width 300", "--width goes with --svg or --png"),
    ("- 1 --svg --height 9", "--height wants 100 to 20,000 pixels, not 9"),
    ("- 1 --grid --origin 1,2", "--grid and --origin exclude each other"),
    ("- 1 --origin", "--origin wants X,Y"),
    ("- 1 --origin 1", "--origin wants two numbers X,Y, not '1'"),
    ("- 1 --step=1,b", "--step wants two numbers X,Y, not '1,b'"),
    ("- 1 --step inf,1", "--step wants finite numbers, not 'inf,1'"),
    ("- 1 --step 1,0", "a step of 0 leaves nothing to draw"),
    ("- 1 --stream --svg", "--svg and --stream exclude each other"),
    ("- 1 --stream --counts", "--counts and --stream exclude each other"),
    ("- 1 --stream --lines", "--stream and --lines exclude each other"),
    ("- 1 --stream --smooth", "--stream and --smooth exclude each other"),
    ("- 1 2 --stream --isobands", "--stream and --isobands exclude each other"),
    ("- --interval 1 --stream", "--stream and --interval exclude each other"),
    ("- 1 2 3 --stream", "there are 3 thresholds"),
    ("--why", "FILE and THRESHOLD are missing"),
    ("--why 1", "FILE and THRESHOLD are missing"),
    ("- --why", "THRESHOLD is missing\n"),
    ("- --why 1", "THRESHOLD is missing: 1 is the N of --why"),
    ("- 1 2 --why", "--why goes with one THRESHOLD, and there are 2; its N is a whole number"),
    ("- 1 2 3 --why 0", "--why goes with one THRESHOLD, and there are 3; its N is a whole number"),
    ("- 1 --why x", "--why goes with one THRESHOLD, and there are 2; its N is a whole number"),
    ("- 1 --why -1", "--why goes with one THRESHOLD, and there are 2; its N is a whole number"),
    ("- 1 --why 1.5", "--why goes with one THRESHOLD, and there are 2; its N is a whole number"),
    ("- 1 --why=x", "--why wants a whole number, not 'x'"),
    ("- 1 --why=-1", "--why wants a whole number, not '-1'"),
    ("- 1 --why=+1", "--why wants a whole number, not '+1'"),
    ("- 1 --why=1.5", "--why wants a whole number, not '1.5'"),
    ("- 1 --why=", "--why wants a whole number, not ''"),
    ("- 1 --why --svg", "--svg and --why exclude each other"),
    ("- 1 --why 0 --png", "--png and --why exclude each other"),
    ("- 1 --why --counts", "--counts and --why exclude each other"),
    ("- 1 --why=0 --stream", "--stream and --why exclude each other"),
    ("- 1 --why --levels", "--why and --levels exclude each other"),
    ("- 1 2 --why --bands", "--why and --bands exclude each other"),
    ("- --interval 1 --why", "--why and --interval exclude each other"),
    ("- 1 --why --lines", "--why and --lines exclude each other"),
    ("- 1 --why --lines --smooth", "--why and --lines exclude each other"),
    ("- 1 --why --smooth", "--why and --smooth exclude each other"),
    ("- 1 --why --isobands", "--why and --isobands exclude each other"),
    ("- 1 --why --origin 1,2", "--why and --origin exclude each other"),
    ("- 1 --why --step 1,2", "--why and --step exclude each other"),
    ("- 1 --why --width 300", "--width goes with --svg or --png"),
    ("- 1 --why --title it", "--title goes with --svg or --png"),
]
