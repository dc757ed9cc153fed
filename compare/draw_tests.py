"""Tries ./draw on small terrains, faulty files and faulty commands, on what GDAL reads, and looks at its pictures.
Part of compare/draw_tests.

    draw_tests.py DRAW ROOT FOLDER

DRAW is the program, ROOT the top of the repository, FOLDER takes files. The last line is 'N looked at, M differ'.
"""

import json
import math
import os
import pathlib
import random
import re
import select
import subprocess
import sys
import xml.etree.ElementTree

import draw_why
from draw_cases import ASKING_FOR_ALL, ASKING_FOR_ONE, BROKEN_OFF, DRAWN, FAILING, FORMS, FRAMES, GRIDS, MISUSED
from draw_cases import NO_DATA, PLATE, STREAM_SAYS

SVG = "{http://www.w3.org/2000/svg}"
# What GDAL and the converters are called, which are left out of the path at times.
OTHERS = ["gdal_translate", "rsvg-convert", "inkscape", "magick"]
# The heights of a feature, and their rule.
HEIGHTS = re.compile(rb'"(value|low|high|rule)":[^,]*,')


class Tests:
    def __init__(self, draw, root, folder):
        self.draw = draw
        self.root = pathlib.Path(root)
        self.folder = pathlib.Path(folder)
        self.hill = self.root / "examples/hill.asc"

    def run(self, words, given=b"", **variables):
        """What the program prints: its exit status, its output, and its messages without the program's name."""
        given = given if isinstance(given, bytes) else given.encode()
        words = words.split() if isinstance(words, str) else list(map(str, words))
        variables = {**os.environ, **variables}
        done = subprocess.run([self.draw, *words], input=given, capture_output=True, env=variables, check=False)
        return done.returncode, done.stdout, done.stderr.decode().partition(": ")[2]

    def answers(self):
        for given, words, printed in DRAWN:
            yield words, self.run(f"- {words}", given) == (0, printed.encode(), "")
        for given, words, says in FAILING:
            status, out, said = self.run(f"- {words}", given)
            yield says, (status, out) == (1, b"") and said.startswith(f"standard input: {says}")
        for words, says in MISUSED:
            status, out, said = self.run(words)
            yield says, (status, out) == (2, b"") and said.startswith(says)
        help_text = (self.root / "tools/draw/help.txt").read_bytes()
        for words in ["--help", "-h", "- 1 --help"]:
            yield words, self.run(words) == (0, help_text, "")
        for file in ["/nowhere/at.all", "/"]:
            status, out, said = self.run(f"{file} 1")
            yield file, (status, out) == (1, b"") and said.startswith(f"{file}: ")

    def streams(self):
        """Rings as they close are the lines of the whole terrain, in their order, and their areas add up to that of
        its polygons. What is faulty in a file is said of it as a whole and as a stream."""
        for given, words, printed, says in BROKEN_OFF:
            status, out, said = self.run(f"- {words} --stream", given)
            yield f"a stream: {says}", (status, out) == (1, printed.encode()) and said.startswith(
                f"standard input: {says}")
        for given, words, says in FAILING:
            if words == "1":
                status, _, said = self.run("- 1 --stream", given)
                expected = STREAM_SAYS.get(says, says)
                yield f"a stream: {expected}", status == 1 and said.startswith(f"standard input: {expected}")
        levels = [200, 350, 500, 650]
        yield "the hill as a stream", self.same_in_a_stream([self.hill], levels)
        yield "the hill as a stream, in grid units", self.same_in_a_stream([self.hill, "--grid"], levels)
        numbers = random.Random(1)
        for k in range(40):
            dx, dy = numbers.randint(1, 30), numbers.randint(1, 30)
            rows = [" ".join(str(numbers.randint(0, 4)) for _ in range(dx)) for _ in range(dy)]
            head = f"ncols {dx}\nnrows {dy}\nxllcorner 7\nyllcorner -3\ncellsize 0.5\n" if k % 2 else ""
            file = self.folder / f"stream-{k}.txt"
            file.write_text(head + "\n".join(rows) + "\n", encoding="ascii")
            yield f"{file.name} as a stream", self.same_in_a_stream([file], [1, 3])
        for file in ["/nowhere/at.all", "/"]:
            status, out, said = self.run(f"{file} 1 --stream")
            yield f"{file} as a stream", (status, out) == (1, b"") and said.startswith(f"{file}: ")

    def same_in_a_stream(self, words, levels):
        asked = [*words, *levels, "--levels"]
        runs = [self.run([*asked, *more]) for more in (["--stream"], [], ["--lines"])]
        if any(status != 0 for status, _, _ in runs):
            return False
        stream, whole, lines = (out for _, out, _ in runs)
        rings = {level: [] for level in levels}
        for feature in map(json.loads, stream.splitlines()):
            rings[feature["properties"]["value"]].append(feature)
        whole, lines = json.loads(whole)["features"], json.loads(lines)["features"]
        same = sum(map(len, rings.values())) > 0
        for level, polygons, line in zip(levels, whole, lines):
            drawn = rings[level]
            same &= [ring["geometry"]["coordinates"] for ring in drawn] == line["geometry"]["coordinates"]
            same &= [ring["properties"]["ring"] for ring in drawn] == list(range(len(drawn)))
            same &= sum(ring["properties"]["area"] for ring in drawn) == polygons["properties"]["area"]
        return same

    def strictly_above(self):
        """A sample is more than a threshold exactly when it is at least the next larger float, so --above draws what
        is drawn there without it, in pictures too."""
        numbers = random.Random(4)
        for k in range(8):
            dx, dy = numbers.randint(2, 12), numbers.randint(2, 12)
            given = "\n".join(" ".join(str(numbers.randint(0, 4)) for _ in range(dx)) for _ in range(dy))
            for levels, options in FORMS:
                both = self.above_and_next(levels, options)
                above, plain = (self.run(words, given) for words in both)
                same = above[0] == plain[0] == 0 and HEIGHTS.sub(b"", above[1]) == HEIGHTS.sub(b"", plain[1])
                yield f"terrain {k}, {levels} {options} --above", same
            for options in ["--levels --svg", "--bands --svg", "--levels --lines --svg"]:
                both = self.above_and_next([0, 2, 3], options)
                above, plain = ([path.attrib for path in self.picture(words, given)[2]] for words in both)
                yield f"terrain {k}, {options} --above", above == plain != []

    def above_and_next(self, levels, options):
        """The words that draw strictly above some levels, and those that draw at the next larger floats."""
        larger = [repr(math.nextafter(level, math.inf)) for level in levels]
        return ["-", *levels, *options.split(), "--above"], ["-", *larger, *options.split()]

    def as_the_library_writes(self):
        """In grid units a feature, which ./draw writes, has the geometry that the library writes of a figure alone."""
        numbers = random.Random(3)
        for k in range(8):
            dx, dy = numbers.randint(2, 12), numbers.randint(2, 12)
            given = "\n".join(" ".join(str(numbers.randint(0, 3)) for _ in range(dx)) for _ in range(dy))
            for words, collected in [("2", "--levels"), ("1 3", "--bands"), ("1 3 --isobands", "--bands")]:
                alone, feature = self.run(f"- {words}", given), self.run(f"- {words} {collected}", given)
                same = alone[0] == feature[0] == 0 and b'"geometry":' + alone[1].strip() + b"}" in feature[1]
                yield f"terrain {k}, {words} as a feature", same

    def whys(self):
        """However it is asked, what became of a ring is what document 01 makes of the rings, which --stream gives."""
        for asking in [ASKING_FOR_ONE, ASKING_FOR_ALL]:
            said = [self.run(words, PLATE) for words in asking]
            for words, answer in zip(asking, said):
                yield words, answer[0] == 0 and answer == said[0]
        yield "all and one", self.run(ASKING_FOR_ONE[0], PLATE) != self.run(ASKING_FOR_ALL[0], PLATE)
        numbers = random.Random(2)
        yield "frames, each ring explained", self.explained(FRAMES, range(3))
        for k in range(30):
            dx, dy = numbers.randint(3, 40), numbers.randint(3, 40)
            share = numbers.uniform(0.5, 0.9)
            rows = [" ".join(str(int(numbers.random() < share)) for _ in range(dx)) for _ in range(dy)]
            yield f"terrain {k}, some rings explained", self.explained("\n".join(rows), [0, 1, 5, -1, -2])

    def explained(self, given, some):
        """Whether the table and the sentences on some rings are as they should be."""
        status, stream, _ = self.run("- 1 --stream", given)
        features = [json.loads(line) for line in stream.splitlines()]
        rings = [[(int(2 * x), int(2 * y)) for x, y in ring["geometry"]["coordinates"]] for ring in features]
        same = status == 0 and self.run("- 1 --why", given) == (0, draw_why.table(rings).encode(), "")
        for number in {k % len(rings) for k in some}:
            expected = draw_why.sentence(rings, number).encode()
            same &= self.run(f"- 1 --why {number}", given) == (0, expected, "")
        return same

    def at_once(self):
        """A ring is there before the file has ended; and a terrain of 32 MB is not held."""
        with subprocess.Popen([self.draw, "-", "1", "--stream"], stdin=subprocess.PIPE, stdout=subprocess.PIPE) as run:
            run.stdin.write(b"1 0\n0 0\n")
            run.stdin.flush()
            there, _, _ = select.select([run.stdout], [], [], 60)
            yield "a ring before the end", there != [] and run.stdout.readline().startswith(b'{"type":"Feature"')
            run.stdin.close()
            yield "nothing behind it", run.stdout.read() == b"" and run.wait() == 0
        rings = self.folder / "rings.txt"
        with rings.open("wb") as out:
            asked = [self.draw, "-", "1", "--stream"]
            with subprocess.Popen(asked, stdin=subprocess.PIPE, stdout=out) as run:
                for _ in range(512):
                    run.stdin.write(b"0 " * 4095 + b"1\n" + b"0 " * 4096 + b"\n")
                run.stdin.close()
                _, status, used = os.wait4(run.pid, 0)
                run.returncode = os.waitstatus_to_exitcode(status)
        drawn = (run.returncode, rings.read_bytes().count(b"\n"))
        yield "a stream is not held", drawn == (0, 512) and used.ru_maxrss < 24 * 1024

    def handed_through_gdal(self):
        """A GeoTIFF of the hill with a map projection is drawn as the hill is; without gdal_translate a sentence
        says what is missing."""
        tif, text = self.folder / "hill.tif", self.folder / "hello.txt"
        as_doubles = {**os.environ, "AAIGRID_DATATYPE": "Float64"}
        asked = ["gdal_translate", "-q", "-a_srs", "EPSG:32632", self.hill, tif]
        subprocess.run(asked, env=as_doubles, check=True)
        text.write_text("hello\n", encoding="ascii")
        expected = self.run([self.hill, 300, 500, "--levels"])
        yield "a GeoTIFF", expected[0] == 0 and self.run([tif, 300, 500, "--levels"]) == expected
        wide = self.folder / "wide.tif"
        subprocess.run(["gdal_translate", "-q", "-outsize", "5000", "100", self.hill, wide], check=True)
        says = f"{wide}: the terrain has 5000 columns and 100 rows, and a side is 1 to 4,096\n"
        yield "a wide GeoTIFF", self.run([wide, 300]) == (1, b"", says)
        status, out, said = self.run([text, 300])
        told = "line 1, column 1: 'hello' is neither" in said and "gdal_translate: ERROR 4: " in said
        yield "what GDAL does not read", told and (status, out) == (1, b"")
        status, out, said = self.run([tif, 300], PATH=self.path_without_others())
        yield "a GeoTIFF without GDAL", "gdal_translate" in said and "is not installed" in said and status == 1

    def read_as_gdal_reads(self):
        """ESRI ASCII grids are drawn as GDAL hands them on, and have as many samples as GDAL counts."""
        variables = {**os.environ, "AAIGRID_DATATYPE": "Float64"}
        for k, text in enumerate(GRIDS):
            grid, tif = self.folder / f"grid-{k}.asc", self.folder / f"grid-{k}.tif"
            grid.write_text(text, encoding="ascii", newline="")
            subprocess.run(["gdal_translate", "-q", grid, tif], env=variables, check=True)
            ours = self.run([grid, 1, "--levels"])
            yield f"grid {k}", ours[0] == 0 and ours == self.run([tif, 1, "--levels"])
        for k, (nodata, samples) in enumerate(NO_DATA):
            grid = self.folder / f"no-data-{k}.asc"
            # Between any two samples there is one without data, so each has a polygon of its own.
            row = f" {nodata} ".join(samples)
            head = f"ncols {2 * len(samples) - 1}\nnrows 1\nxllcorner 0\nyllcorner 0\ncellsize 1\n"
            grid.write_text(f"{head}NODATA_value {nodata}\n{row}\n", encoding="ascii")
            asked = ["gdalinfo", "-stats", "--config", "GDAL_PAM_ENABLED", "NO", grid]
            found = subprocess.run(asked, capture_output=True, text=True, check=True).stdout
            share = float(found.partition("STATISTICS_VALID_PERCENT=")[2].split()[0])
            count = round(share / 100 * (2 * len(samples) - 1))
            printed = self.run([grid, "-inf", "inf", "--counts"])[1].decode()
            yield f"no data {nodata}", printed.startswith(f"polygons {count}\n")

    def path_without_others(self):
        """A folder of links to all programs on the path but those of others."""
        folder = self.folder / "bin"
        folder.mkdir(exist_ok=True)
        for place in filter(None, os.environ["PATH"].split(":")):
            for program in pathlib.Path(place).glob("*"):
                link = folder / program.name
                if program.name not in OTHERS and not link.is_symlink():
                    link.symlink_to(program)
        return str(folder)

    def picture(self, words, given=b""):
        status, out, _ = self.run(words, given)
        assert status == 0, words
        picture = xml.etree.ElementTree.fromstring(out)
        texts = [text.text for text in picture.iter(f"{SVG}text")]
        drawn = picture.findall(f"./{SVG}g[@clip-path]/{SVG}g/{SVG}path")
        return picture, texts, drawn

    def pictures(self):
        hill = f"{self.hill} 200 300 400 500 600 700 --levels --svg"
        picture, texts, drawn = self.picture(hill)
        yield "a title", texts[0] == "hill.asc, 6 levels from 200 to 700"
        yield "numbers on the axes", {"612000", "617000", "5184000", "5189000"} <= set(texts)
        yield "a scale", "1000 map units" in texts
        legend = ["700 and above", "600 to 700", "500 to 600", "400 to 500", "300 to 400", "200 to 300", "below 200"]
        yield "a legend", [text for text in texts if text in legend] == legend and "no data" in texts
        fills = [path.get("fill") for path in drawn if "url" not in path.get("fill")]
        patches = [patch.get("fill") for patch in picture.findall(f"./{SVG}rect")]
        yield "a colour for each level", len(set(fills)) == 6 and set(fills) <= set(patches)
        yield "darker is higher", [light(fill) for fill in fills] == sorted(map(light, fills), reverse=True)
        _, texts, _ = self.picture(f"{self.hill} 500 --svg --grid --title <&>")
        yield "a given title", texts[0] == "<&>" and {"0", "200", "50 cells"} <= set(texts)
        _, texts, _ = self.picture(f"{self.hill} 200 300 --levels --svg --above")
        legend = ["above 300", "above 200 to 300", "200 and below"]
        yield "a legend of what is above", [text for text in texts if text in legend] == legend
        _, texts, _ = self.picture(f"{self.hill} 500 --svg --above")
        yield "a title of what is above", texts[0] == "hill.asc, above 500"
        _, texts, _ = self.picture(f"{self.hill} 200 300 --svg --above")
        yield "a title of a band above", texts[0] == "hill.asc, above 200 to 300"
        for width, height in [(400, 300), (1000, 2000)]:
            picture, *_ = self.picture(f"{self.hill} 500 --svg --width {width} --height {height}")
            yield "a size", (picture.get("width"), picture.get("height")) == (str(width), str(height))
        kept = (self.root / "examples/hill.svg").read_bytes()
        yield "examples/hill.svg", self.run(hill)[1] == kept

    def odd_pictures(self):
        tall = "\n".join(" ".join(str((7 * x + y) % 100) for x in range(4)) for y in range(4096))
        for given in [tall, "\n".join(line.split()[0] for line in tall.split("\n"))]:
            picture, texts, drawn = self.picture("- 50 --svg", given)
            columns = len(given.split("\n", maxsplit=1)[0].split())
            yield "a scale of its own", {"1 cell across", "1000 cells down"} <= set(texts)
            width, height = float(picture.get("width")), float(picture.get("height"))
            yield "a picture of any terrain", 300 < width < 1000 and 300 < height < 1000
            # Strokes are in hundredths of a pixel; a row is less than a fifth of one.
            strokes = [float(path.get("stroke-width")) for path in drawn]
            yield "strokes below a cell", max(strokes) < 0.2 * 100 and columns in (1, 4)
        _, texts, drawn = self.picture("- 900 --svg", "1 2\n3 4")
        yield "no region", drawn == [] and "no such sample" in texts
        _, texts, drawn = self.picture("- 5 --svg --above", "5")
        yield "no region above", drawn == [] and "no such sample" in texts
        _, _, drawn = self.picture("- 5 --svg", "5")
        yield "one sample", [path.get("d").count("z") for path in drawn] == [1]
        _, _, drawn = self.picture("- 1 2 --svg --isobands", "2 2 2\n2 0 2\n1 2 2")
        yield "no line where no region ends", all(path.get("stroke") is None for path in drawn)

    def png(self):
        status, out, _ = self.run([self.hill, 500, "--png", "--width", 400, "--height", 300])
        size = tuple(int.from_bytes(out[k : k + 4], "big") for k in (16, 20))
        yield "a PNG", (status, out[:8], size) == (0, b"\x89PNG\r\n\x1a\n", (400, 300))
        status, out, said = self.run([self.hill, 500, "--png"], PATH=self.path_without_others())
        yield "no converter", (status, out) == (1, b"") and "none is installed: rsvg-convert, inkscape, magick" in said

    def all(self):
        parts = [self.answers, self.streams, self.at_once, self.strictly_above, self.as_the_library_writes, self.whys]
        parts += [self.handed_through_gdal, self.read_as_gdal_reads, self.pictures, self.odd_pictures, self.png]
        for part in parts:
            yield from part()


def light(colour):
    """How light a colour is, about."""
    red, green, blue = (int(colour[k : k + 2], 16) for k in (1, 3, 5))
    return 0.2126 * red**2.2 + 0.7152 * green**2.2 + 0.0722 * blue**2.2


def main(draw, root, folder):
    looked_at, differ = 0, 0
    for what, right in Tests(draw, root, folder).all():
        looked_at += 1
        if not right:
            differ += 1
            print(f"differs: {what}")
    print(f"{looked_at} looked at, {differ} differ")
    return 0 if looked_at > 0 and differ == 0 else 1


if __name__ == "__main__":
    sys.exit(main(*sys.argv[1:]))
