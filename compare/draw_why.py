"""What ./draw --why has to say of the rings of a contour, by document 01's words for area, containment and owners. A
ring is its points in doubled coordinates. Part of compare/draw_tests and of compare/outside."""

from decimal import Decimal
from fractions import Fraction

# So many polygons are named; tools/draw/help.txt says so.
NAMED = 20


def pairs(ring):
    """Each point behind the one before it; before the first stands the last."""
    return zip([ring[-1], *ring], ring)


def area(ring):
    return sum(y0 * x1 - x0 * y1 for (x0, y0), (x1, y1) in pairs(ring))


def squares(ring):
    """What a ring encloses, signed, in squares of one step from sample to sample, written exactly. The sum is twice
    what it encloses in doubled coordinates, in which such a square is 4."""
    return str(Decimal(area(ring)) / 8)


def place(ring, x, y):
    """What a ring answers for a point."""
    sign = -1
    for (x0, y0), (x1, y1) in pairs(ring):
        one, at, other = (y0, y, y1) if x0 == x1 else (x0, x, x1)
        if (x1 - x0) * (y - y0) == (x - x0) * (y1 - y0) and min(one, other) <= at <= max(one, other):
            return 0
        if (y0 > y) != (y1 > y) and x < x0 + Fraction((x1 - x0) * (y - y0), y1 - y0):
            sign = -sign
    return sign


def decision(outer, ring):
    """What a ring answers for another, and the vertex that decides."""
    for vertex, (x, y) in enumerate(ring):
        answer = place(outer, x, y)
        if answer != 0:
            return answer, vertex
    return 0, None


def fate(rings, number):
    """The owner of a ring, if it has one, what decided, and the polygons before it with the vertices that did."""
    before = []
    for k, outer in enumerate(rings):
        if area(outer) > 0:
            answer, vertex = decision(outer, rings[number])
            if answer != -1:
                return k, vertex, before
            before.append((k, vertex))
    return None, None, before


def table(rings):
    """The table of all rings."""
    cells = [("ring", "class", "owner", "points", "area")]
    for number, ring in enumerate(rings):
        polygon = area(ring) > 0
        owner = number if polygon else fate(rings, number)[0]
        cells.append((str(number), "polygon" if polygon else "hole", str(owner), str(len(ring)), squares(ring)))
    wide = max(6, *(len(size) for *_, size in cells))
    return "".join(
        f"{number:>6}  {kind:7}  {owner:>6}  {count:>6}  {size:>{wide}}\n"
        for number, kind, owner, count, size in cells)


def sentence(rings, number):
    """The sentence on one ring, which vertex 0 decides everywhere, as it does in a contour."""
    size = squares(rings[number])
    if area(rings[number]) > 0:
        return f"ring {number} is a polygon: its area is {size}, which is above 0\n"
    owner, vertex, before = fate(rings, number)
    assert vertex == 0 and all(decided == 0 for _, decided in before)
    x, y = rings[number][0]
    text = f"ring {number} is a hole of polygon {owner}: its vertex 0 at ({x / 2:g}, {y / 2:g}) lies inside"
    named = [str(polygon) for polygon, _ in before[:NAMED]]
    more = len(before) - len(named)
    if not named:
        text += "; no polygon has a lower number"
    elif len(named) == 1:
        text += f"; polygon {named[0]} does not hold it: vertex 0 lies outside"
    else:
        listed = ", ".join(named[:-1]) + " and " + named[-1]
        text += f"; polygons {listed} do not hold it: vertex 0 lies outside each"
    if more:
        text += f"; nor {'does' if more == 1 else 'do'} {more} more"
    return f"{text}; its area is {size}\n"
