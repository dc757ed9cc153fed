#!/usr/bin/env python3
"""Draws the crates as crates.txt lists them, in its groups, as docs/house.svg.

    tools/house/house.py           writes docs/house.svg
    tools/house/house.py --check   writes nothing; exit status 1 where docs/house.svg is not what would be written

A comment in crates.txt begins a group. Within a group a crate stands right of those that it builds on. An arrow leads from a
crate to one that builds on it, where no longer way of arrows says so already; the first group, which nearly every crate builds
on, has none. A crate without code is drawn with a broken line, a program with round ends.
"""

import re
import sys
from pathlib import Path

ROOT = Path(__file__).resolve().parents[2]
PICTURE = ROOT / "docs" / "house.svg"

MARGIN, TITLE, WIDE, HIGH = 16, 165, 118, 26
ACROSS, DOWN, BETWEEN, EDGE = 34, 12, 40, 9
COLOURS = ["#e8e8e8", "#d5e8f7", "#d3efe4", "#e3edc9", "#fbe7c8", "#f9d9d2", "#ecdcf2", "#dadff5", "#e5e0d5"]


def read_groups(text):
    """The groups of crates.txt: a title each, and its crates with what they build on."""
    groups = []
    for line in text.splitlines():
        if line.startswith("#"):
            groups.append((line.lstrip("# ").strip(), {}))
        elif ":" in line:
            name, uses = line.split(":")
            groups[-1][1][name.split()[0]] = uses.split()
    return groups


def all_below(name, uses, known):
    """Every crate that this one builds on, directly or not."""
    if name not in known:
        known[name] = set(uses[name]).union(*(all_below(other, uses, known) for other in uses[name]))
    return known[name]


def arrows_of(groups):
    """The pairs (crate, crate that builds on it) that no longer way says already, the first group's left out."""
    listed = {name for _, crates in groups for name in crates}
    uses = {name: [u for u in below if u in listed] for _, crates in groups for name, below in crates.items()}
    known = {}
    pairs = []
    for name, below in uses.items():
        for other in below:
            longer = any(other in all_below(between, uses, known) for between in below if between != other)
            if not longer and other not in groups[0][1]:
                pairs.append((other, name))
    return pairs


def column_of(name, crates):
    """How many crates of its own group stand before this one."""
    return max((column_of(other, crates) + 1 for other in crates[name] if other in crates), default=0)


def places_of(groups):
    """Where each crate stands, and where each group begins and ends."""
    places, bands, top = {}, [], MARGIN
    for _, crates in groups:
        rows = {}
        for name in crates:
            column = column_of(name, crates)
            row = rows.setdefault(column, 0)
            rows[column] += 1
            places[name] = (MARGIN + TITLE + column * (WIDE + ACROSS), top + DOWN + row * (HIGH + DOWN))
        bottom = top + DOWN + max(rows.values()) * (HIGH + DOWN)
        bands.append((top, bottom))
        top = bottom + BETWEEN
    return places, bands


def arrow(places, source, target, inside):
    """The line of one arrow: to the right within a group, downwards between groups."""
    (x, y), (u, v) = places[source], places[target]
    if inside:
        x, y, v = x + WIDE, y + HIGH // 2, v + HIGH // 2
        bend = f"C{x + ACROSS // 2},{y} {u - ACROSS // 2},{v} {u},{v}"
    else:
        x, y, u = x + WIDE - EDGE, y + HIGH, u + EDGE
        bend = f"C{x},{y + BETWEEN} {u},{v - BETWEEN} {u},{v}"
    return f'<path d="M{x},{y} {bend}" class="way" marker-end="url(#tip)"/>'


def box(name, place, colour):
    """One crate: its frame and its name."""
    x, y = place
    sources = "".join(file.read_text() for file in (ROOT / "crates" / name / "src").glob("*.rt"))
    program = (ROOT / "crates" / name / "src" / "main.rt").exists()
    broken = "" if re.search(r"\b(fn|const) ", sources) else ' stroke-dasharray="4 3"'
    corner = HIGH // 2 if program else 4
    return (
        f'<rect x="{x}" y="{y}" width="{WIDE}" height="{HIGH}" rx="{corner}" fill="{colour}" stroke="#555"{broken}/>'
        f'<text x="{x + WIDE // 2}" y="{y + 17}" text-anchor="middle">{name}</text>'
    )


def picture(groups):
    """The whole picture as text."""
    places, bands = places_of(groups)
    group_of = {name: k for k, (_, crates) in enumerate(groups) for name in crates}
    width = max(x for x, _ in places.values()) + WIDE + MARGIN
    height = bands[-1][1] + MARGIN
    parts = [
        f'<svg xmlns="http://www.w3.org/2000/svg" viewBox="0 0 {width} {height}" width="{width}" height="{height}" font-family="sans-serif" font-size="13">',
        "<title>The crates in the order of the data's way</title>",
        '<defs><marker id="tip" viewBox="0 0 8 8" refX="8" refY="4" markerWidth="7" markerHeight="7" orient="auto"><path d="M0,0 L8,4 L0,8 z" fill="#777"/></marker></defs>',
        "<style>.way { fill: none; stroke: #777; stroke-width: 1; stroke-opacity: 0.8 }</style>",
        f'<rect width="{width}" height="{height}" fill="white"/>',
    ]
    for k, ((title, _), (top, bottom)) in enumerate(zip(groups, bands)):
        parts.append(f'<rect x="{MARGIN // 2}" y="{top}" width="{width - MARGIN}" height="{bottom - top}" rx="6" fill="{COLOURS[k % len(COLOURS)]}" fill-opacity="0.35"/>')
        parts.append(f'<text x="{MARGIN}" y="{top + DOWN + 17}" font-weight="bold">{title}</text>')
    parts += [arrow(places, a, b, group_of[a] == group_of[b]) for a, b in arrows_of(groups)]
    parts += [box(name, place, COLOURS[group_of[name] % len(COLOURS)]) for name, place in places.items()]
    return "\n".join(parts) + "\n</svg>\n"


def main():
    drawn = picture(read_groups((ROOT / "crates.txt").read_text()))
    if sys.argv[1:] == ["--check"]:
        if not PICTURE.exists() or PICTURE.read_text() != drawn:
            sys.exit("docs/house.svg is not what crates.txt says: run tools/house/house.py")
    else:
        PICTURE.write_text(drawn)


main()
