#!/usr/bin/env python3
"""Turns the repository's own definitions and lemmas from camelCase to snake_case, where port.py leaves them.

usage: python3 tools/respell.py [--dry]     at the top of the repository, once, after port.py

Every word of crates/*/specs, crates/*/proofs, crates/*/src and crates/*/must-fail that begins small and has a capital after a small letter or a digit is
turned, part by part between hyphens: aboveAt is above_at, length-withLink is length-with_link. Strings, names that begin with a capital, single capitals
between hyphens, and names of the library that have an underscore before a capital (bool_Lawful) stay. Names that would fall together with another name of
the same file are printed, and nothing is written."""
import glob
import re
import sys

STRING = r'"(?:[^"\\\n]|\\.)*"'
WORD = re.compile(r"[^\W\d][\w'\-]*")
STRING_OR_WORD = re.compile(STRING + r"|[^\W\d][\w'\-]*")
# Definitions whose plain spelling is that of a parameter beside which they are cited.
BESIDE = {"xKind": "x_kind_of", "xFraction": "x_fraction_of", "yKind": "y_kind_of", "yFraction": "y_fraction_of"}
# Lemmas to which port.py gave the spelling that a definition now takes: they get back the hyphen that they had.
APART = {"contourbuilder": ["ring_in"], "giving": ["ring_out"], "ordering": ["pairs_of"], "reading": ["goes_on"], "rows": ["open_after", "no_words"], "smoothing": ["moved_by"]}
# Bound names that port.py gave a capital, as their words are a library's.
ALSO = {"same_Class": "same_class"}


def part(p):
    if not re.match(r"[a-z_]", p) or re.search(r"_[A-Z]", p) or not re.search(r"[a-z0-9][A-Z]", p):
        return p
    return re.sub(r"(?<=[a-z0-9])([A-Z]+)", lambda m: "_" + m.group(1).lower(), p)


def turned(word):
    return ALSO.get(word) or BESIDE.get(word) or "-".join(part(p) for p in word.split("-"))


def files():
    for pattern in ("crates/*/specs/**/*.antt", "crates/*/proofs/**/*.antt", "crates/*/src/**/*.rt", "crates/*/must-fail/*.edit"):
        for f in sorted(glob.glob(pattern, recursive=True)):
            yield f


def main():
    written, fall, new_of = [], [], {}
    for f in files():
        with open(f, encoding="utf-8") as it:
            text = before = it.read()
        if "/proofs/" in f:
            for w in APART.get(f.split("/")[1], []):
                text = re.sub(rf"(?<![.:`\w'\-]){w}(?![`\w'\-])", w.replace("_", "-"), text)
        pattern = STRING_OR_WORD if f.endswith(".rt") else WORD
        words = {w for w in pattern.findall(text) if not w.startswith('"')}
        for w in sorted(words):
            t = turned(w)
            if t != w:
                new_of.setdefault(t, set()).add(w)
                if t in words:
                    fall.append(f"{f}: {w} and {t}")

        out = pattern.sub(lambda m: m.group(0) if m.group(0).startswith('"') else turned(m.group(0)), text)
        if out != before:
            written.append((f, out))
    for t, ws in new_of.items():
        if len(ws) > 1:
            fall.append(f"{' and '.join(sorted(ws))} are both {t}")
    print("\n".join(fall))
    print(f"{len(new_of)} names, {len(written)} files, {len(fall)} fall together")
    if "--dry" not in sys.argv:
        for f, out in written:
            with open(f, "w", encoding="utf-8") as it:
                it.write(out)


if __name__ == "__main__":
    main()
