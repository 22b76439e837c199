#!/usr/bin/env python3
"""Turns the three planes that tools/frame_to_png.py wrote back into the frame file.

    tools/planes_to_frame.py WIDTH HEIGHT LAYOUT NAME FRAME

Reads NAME.red, NAME.green and NAME.blue, 16-bit samples, big-endian, row by row, of the whole frame, and writes FRAME, a file of
document 01's format. Only the samples of each pixel's own colour count. A refusal prints one line, as the small program does, and
nothing is written. A file that ends within a sample counts as an empty one, which is a plane misfit."""
import sys

from frame_to_png import frame_file, from_big_endian  # to import it puts python/ on the path too
import rokzimp


def read_plane(name):
    with open(name, "rb") as file:
        data = file.read()
    return from_big_endian(data if len(data) % 2 == 0 else b"")


def main(words):
    try:
        *numbers, name, frame = words
        width, height, layout = (int(number) for number in numbers)
    except ValueError:
        print(__doc__, file=sys.stderr)
        return 2
    planes = [read_plane(name + "." + colour) for colour in ("red", "green", "blue")]
    try:
        readings = rokzimp.mosaic_back(width, height, layout, 0, height, *planes)
    except rokzimp.Refused as refused:
        print("refused %d" % refused.number)
        return 1
    with open(frame, "wb") as out:
        out.write(frame_file(width, height, layout, readings))
    return 0


if __name__ == "__main__":
    sys.exit(main(sys.argv[1:]))
