"""The terrains that compare/outside has drawn, and at which levels."""

import math
import pathlib
import random

NAN = math.nan
INFINITE = math.inf


class Terrain:
    """Rows of samples in a file, and what is drawn of them: contours at each single level, bands at each pair."""

    def __init__(self, name, rows, levels, cell=None, center=False, separator=" "):
        self.name = name
        self.rows = rows
        self.levels = levels
        # A cell size makes it an ESRI ASCII grid, placed by its corner or by the centre of a cell. The cell may
        # have another height.
        self.cell = cell
        self.height = cell
        self.center = center
        self.separator = separator
        self.corner = (1000, -250.5)
        # Without a header, a step from sample to sample may be asked for.
        self.step = None

    def write(self, folder):
        """Writes the terrain to a file in the folder and returns the file's path."""
        lines = []
        if self.cell is not None:
            place = "center" if self.center else "corner"
            lines = [
                f"nrows {len(self.rows)}",
                f"NCOLS {len(self.rows[0])}",
                *([f"cellsize {self.cell}"] if self.cell == self.height else [f"DX {self.cell}", f"dy {self.height}"]),
                f"xll{place} {self.corner[0]}",
                f"yll{place} {self.corner[1]}",
            ]
        lines += [self.separator.join(repr(sample) for sample in row) for row in self.rows]
        path = folder / f"{self.name}.{'txt' if self.cell is None else 'asc'}"
        path.write_text("\n".join(lines) + "\n", encoding="ascii")
        return path

    def place(self, x, y):
        """Where a sample stands: the middle of its cell, on the map the rows from the north to the south."""
        if self.cell is None:
            across, down = self.step or (1, 1)
            return (x + 0.5) * across, (y + 0.5) * down
        west, south = self.corner
        half = 0 if self.center else 0.5
        return west + (x + half) * self.cell, south + (len(self.rows) - 1 - y + half) * self.height

    def cell_area(self):
        across, down = self.step or (self.cell or 1, self.height or 1)
        return abs(across * down)

    def stands_free(self, levels):
        """Whether it is a grid on a map that is below the levels at its sides, and all numbers."""
        upright = list(zip(*self.rows))
        sides = [*self.rows[0], *self.rows[-1], *upright[0], *upright[-1]]
        return (
            self.cell is not None
            and all(sample < level for sample in sides for level in levels)
            and not any(math.isnan(sample) for row in self.rows for sample in row)
        )


class Stored(Terrain):
    """An ESRI ASCII grid that is there already."""

    def __init__(self, name, path, levels):
        words = [line.split() for line in pathlib.Path(path).read_text(encoding="ascii").splitlines()]
        header = {line[0].lower(): float(line[1]) for line in words if line[0][0].isalpha()}
        rows = [[float(word) for word in line] for line in words if not line[0][0].isalpha()]
        nodata = header.get("nodata_value")
        rows = [[NAN if sample == nodata else sample for sample in row] for row in rows]
        super().__init__(name, rows, levels, cell=header["cellsize"])
        self.corner = (header["xllcorner"], header["yllcorner"])
        self.path = path

    def write(self, folder):
        return self.path


def drawn(picture):
    """A terrain as text: a digit is a sample, a dot is 0."""
    return [[0 if letter == "." else int(letter) for letter in line] for line in picture.split()]


def grid(dx, dy, sample):
    return [[sample(x, y) for x in range(dx)] for y in range(dy)]


def mountains(side, numbers):
    """Tops that all end before the sides."""
    tops = [[numbers.uniform(0.25, 0.75) * side for _ in "xy"] + [numbers.uniform(0.08, 0.16) * side] for _ in range(5)]

    def sample(x, y):
        height = sum(100 * math.exp(-math.hypot(x - column, y - row) ** 2 / reach**2) for column, row, reach in tops)
        edge = min(x, y, side - 1 - x, side - 1 - y)
        return round(min(1, edge / 6) * (height + numbers.uniform(0, 8)), 4)

    return grid(side, side, sample)


def terrains(examples):
    """All of them. The folder with the examples has the hill."""
    numbers = random.Random(1)
    islands = """
        111111111
        1.......1
        1.11111.1
        1.1...1.1
        1.1.2.1.1
        1.1...1.1
        1.11111.1
        1.......1
        111111111
    """
    spiral = """
        11111111111
        ..........1
        111111111.1
        1.......1.1
        1.11111.1.1
        1.1...1.1.1
        1.1.111.1.1
        1.1.....1.1
        1.1111111.1
        1.........1
        11111111111
    """
    plate = """
        11111.2
        1.121.1
        11111..
    """
    odd = [1.0, 0.0, 2.0, NAN, INFINITE, -INFINITE, -0.0, 0.5]
    return [
        Terrain("one-sample", [[5]], [5, (5, 6), (1, 9)]),
        Terrain("nothing-above", grid(4, 3, lambda x, y: 0), [1, (1, 2)]),
        Terrain("all-above", grid(20, 10, lambda x, y: 7), [7, (1, 8), (8, 9)]),
        Terrain("hole", drawn("111 1.1 111"), [1]),
        Terrain("saddle", drawn(".1 1."), [1]),
        Terrain("plate", drawn(plate), [1, 2, (1, 2)]),
        # Of a band whose rings share edges, the library drops these two.
        Terrain("shared-edges", drawn("222 212 22."), [(1, 2), 1]),
        Terrain("islands", drawn(islands), [1, 2, (1, 2), (0, 1)]),
        Terrain("spiral", drawn(spiral), [1]),
        Terrain("chessboard", grid(16, 16, lambda x, y: (x + y) % 2), [1]),
        Terrain("column", grid(1, 60, lambda x, y: numbers.randrange(3)), [1, (1, 2)]),
        Terrain("wide", grid(4096, 2, lambda x, y: numbers.randrange(3)), [1, (1, 2)]),
        Terrain("odd-values", grid(30, 24, lambda x, y: numbers.choice(odd)), [0, 0.5, INFINITE, (0, 1)]),
        Terrain("steps", grid(40, 33, lambda x, y: (x * x + y * y) // 90 % 9), [3, 8, (2, 5), (5, 8)], separator=", "),
        Terrain("noise", grid(150, 120, lambda x, y: numbers.random()), [0.5, 0.8, (0.3, 0.6)], separator="\t"),
        Terrain("mountains", mountains(90, numbers), [(30.00005, 60.00005), 50, (20, 50)], cell=12.5),
        Terrain("mountains-by-centre", mountains(60, numbers), [45.00005], cell=0.25, center=True),
        Stored("hill", examples / "hill.asc", [500, 400, 600.05, (400, 500), (300, 700)]),
    ]
