#!/usr/bin/env python3
"""The cases of reference/vectors.py at the present stage, through the Python module, and with it through the C library.

    (cd crates/planes && rt run < stdin) && (cd crates/test_planes && rt run < stdin)      # proves and builds the two programs
    tools/build_library.sh && tools/test_vectors.py SEED [COUNT]                           # COUNT (200) cases of each kind

Compared are the number of each call and every lent sample afterwards; where the call is refused the case has them as they were
before. The small programs' cases (P, N) are handed to crates/planes/out/planes and crates/test_planes/out/test_planes. Prints how many cases of each
kind were tried, how many of them were refused, and those that differ; the exit status is 1 if one does. A kind, or a name in a case,
that this file does not know is an error."""
import array
import collections
import os
import subprocess
import sys

from stage import ROOT, STAGE
sys.path.insert(0, os.path.join(ROOT, "python"))
import rokzimp
import vectors

NOT_TRIED = {"F": "the module has no fusion by itself"}


def samples(numbers):
    return array.array("H", numbers)


def number_of(call, *arguments):
    """The number of a call: 0, or its refusal."""
    try:
        call(*arguments)
        return 0
    except rokzimp.Refused as refused:
        return refused.number


def strip(case):
    entry, width, height, layout, choice, method, first, rows, bands = case.ns(9)
    if entry not in (0, 1) or (method, bands) != (0, -1):
        sys.exit("a case names an entry, a method or bands that the module does not offer")
    piece, *planes = [samples(case.l()) for _ in range(4)]
    lent = piece[:]
    number = number_of(rokzimp.strip, width, height, layout, first, rows, lent, *planes, None if choice < 0 else choice, entry == 1)
    if lent != piece:
        return ["the piece was written"]
    return [number] + [n for plane in planes for n in vectors.lst(plane)]


def mosaic_back(case):
    width, height, layout, first, rows = case.ns(5)
    *planes, mosaic = [samples(case.l()) for _ in range(4)]
    lent = [plane[:] for plane in planes]
    number = number_of(rokzimp.mosaic_back, width, height, layout, first, rows, *lent, mosaic)
    if lent != planes:
        return ["a plane was written"]
    return [number] + vectors.lst(mosaic)


def jump(case):
    return [rokzimp.jump(*case.ns(2))]


def test_frame(case):
    named, frame = case.ns(3), samples(case.l())
    return [number_of(rokzimp.test_frame, *named, frame)] + vectors.lst(frame)


def test_row(case):
    named, row = case.ns(4), samples(case.l())
    return [number_of(rokzimp.test_row, *named, row)] + vectors.lst(row)


def place(view, plane):
    """Where the view starts in the plane, which holds 0 only, and how long it is: what is written through the view shows there."""
    view[-1] = 2
    view[0] = 1
    start = plane.index(1)
    return [start, plane.index(2, start) + 1 - start]


def row_view(case):
    width, row, length = case.ns(3)
    plane = samples([0] * length)
    try:
        return [0] + place(rokzimp.row_view(plane, width, row), plane)
    except rokzimp.Refused as refused:
        return [refused.number, 0, 0]


def partner_view(case):
    width, height, layout, row, *lengths = case.ns(6)
    red, blue = [samples([0] * length) for length in lengths]
    try:
        view = rokzimp.partner_view(red, blue, width, height, layout, row)
    except rokzimp.Refused as refused:
        return [refused.number, 0, 0, 0]
    view[0] = 1
    which = 0 if 1 in red else 2
    return [0, which] + place(view, red if which == 0 else blue)


def program(name):
    def tried(case):
        ran = subprocess.run([os.path.join(ROOT, "crates", name, "out", name)], input=bytes(case.l()), capture_output=True)
        return vectors.lst(ran.stdout)
    return tried


TRIED = {"S": strip, "V": row_view, "Q": partner_view, "P": program("planes"), "M": mosaic_back, "J": jump,
         "W": test_frame, "L": test_row, "N": program("test_planes")}


def refused(kind, answer):
    if kind == "J":  # a state, and no number
        return False
    return bytes(answer[1:]).startswith(b"refused") if kind in "PN" else answer[0] != 0


def main(seed, count="200"):
    made = subprocess.run([sys.executable, os.path.join(ROOT, "reference", "vectors.py"), STAGE, count, seed],
                          capture_output=True, text=True, check=True).stdout
    seen, refusals, mismatches = collections.Counter(), collections.Counter(), 0
    for line in made.splitlines():
        kind = line[0]
        if kind == "#":
            continue
        if kind not in TRIED and kind not in NOT_TRIED:
            sys.exit("cases of kind %s are not known here" % kind)
        seen[kind] += 1
        if kind in TRIED:
            case = vectors.Reader(line)
            got, wanted = TRIED[kind](case), case.rest()
            refusals[kind] += refused(kind, wanted)
            if got != wanted:
                mismatches += 1
                print("MISMATCH: %s ..\n  got    %s\n  wanted %s" % (line[:100], str(got)[:100], str(wanted)[:100]))
    print("stage %s, seed %s" % (STAGE, seed))
    for kind, number in seen.items():
        print("%s  %d cases, %s" % (kind, number, "%d of them refused" % refusals[kind] if kind in TRIED else "not tried: " + NOT_TRIED[kind]))
    print("mismatches %d" % mismatches)
    return mismatches != 0


if __name__ == "__main__":
    if len(sys.argv) not in (2, 3):
        sys.exit(__doc__)
    sys.exit(main(*sys.argv[1:]))
