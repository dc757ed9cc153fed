"""What the programs of compare/outside share: running ./draw and others, and noting what differs."""

import subprocess


class Differs(Exception):
    """What is not as it should be."""


def expect(what, found, expected):
    if found != expected:
        raise Differs(f"{what}: {found}, expected {expected}")


def run(*words):
    words = [str(word) for word in words]
    done = subprocess.run(words, stdout=subprocess.PIPE, stderr=subprocess.PIPE, text=True, check=False)
    if done.returncode != 0:
        raise Differs(f"{' '.join(words)}: exit status {done.returncode}: {done.stderr.strip()}")
    return done.stdout


def no_number(word):
    raise Differs(f"{word} is no number in JSON")


# What a cell encloses in eighths of a square, by the number of corners that are above. Two that are opposite: 2.
EIGHTHS = [0, 1, 4, 7, 8]


def area(samples):
    """The area of a region by its cells, from the samples alone, which are 1 inside and 0 outside."""
    empty = [[0] * (len(samples[0]) + 2)]
    rows = empty + [[0, *row, 0] for row in samples] + empty
    total = 0
    for upper, lower in zip(rows, rows[1:]):
        for a, b, c, d in zip(upper, upper[1:], lower, lower[1:]):
            total += 2 if a == d != b == c else EIGHTHS[a + b + c + d]
    return total / 8
