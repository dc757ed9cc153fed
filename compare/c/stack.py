#!/usr/bin/env python3
"""How much stack the calls of the library take, read off its code. It is an upper bound: of each function everything
that it pushes and subtracts from the stack pointer, anywhere, and what follows it along the longest path of calls.

    python3 compare/c/stack.py LIBRARY HEADER

The last line is 'N tried, 0 differ': each entry has to stay below the header's CONTOUR_STACK_BYTES.
"""

import pathlib
import re
import subprocess
import sys

OBJDUMP = ["objdump", "--disassemble", "--reloc", "--no-show-raw-insn"]
# The return address; and what a function may use below the stack pointer without moving it.
RETURN, RED_ZONE = 8, 128
# What a function of the C library may take. The library calls memset alone.
C_LIBRARY = 1024


def read(library):
    """For each function its own bytes, and the functions that it calls."""
    code = subprocess.run(OBJDUMP + [library], check=True, capture_output=True, text=True).stdout
    own, calls, name = {}, {}, None
    for line in code.splitlines():
        if begins := re.match(r"[0-9a-f]+ <(.*)>:$", line):
            name = begins[1]
            own[name], calls[name] = 0, set()
        elif name is None:
            continue
        elif re.search(r"\tpush\b", line):
            own[name] += 8
        elif taken := re.search(r"\tsub +\$0x([0-9a-f]+),%rsp", line):
            own[name] += int(taken[1], 16)
        elif re.search(r"\t(and|lea|mov|sub|enter)\b.*,%rsp$", line):
            raise SystemExit(f"{name} moves the stack pointer in a way that is not read here: {line}")
        elif re.search(r"\tcall +\*", line):
            raise SystemExit(f"{name} calls by a pointer: {line}")
        elif called := re.search(r"R_X86_64_PLT32\s+(\S+)-0x4", line):
            calls[name].add(called[1].removeprefix(".text."))
    return own, calls


def taken(name, own, calls, above=()):
    if name in above:
        raise SystemExit(f"{name} calls itself")
    if name not in own:
        return C_LIBRARY
    below = [taken(called, own, calls, above + (name,)) for called in calls[name]]
    return RETURN + own[name] + max(below, default=RED_ZONE)


def main():
    library, header = sys.argv[1:]
    bound = re.search(r"CONTOUR_STACK_BYTES (\d+)u", pathlib.Path(header).read_text())
    own, calls = read(library)
    entries = sorted(name for name in own if name.startswith("contour_"))
    depths = {name: taken(name, own, calls) for name in entries}
    frame = max(own, key=own.get)
    deepest = max(depths, key=depths.get)
    over = [name for name in entries if depths[name] >= int(bound[1])]
    for name in over:
        print(f"differs: {name} takes up to {depths[name]} bytes")
    print(f"the largest frame is that of {frame}, {own[frame]} bytes")
    print(f"{deepest} takes the most stack, up to {depths[deepest]} bytes")
    print(f"stack: {len(entries)} tried, {len(over)} differ")
    sys.exit(bool(over) or not entries)


main()
