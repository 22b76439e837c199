#!/usr/bin/env python3
"""Writes a test frame as a frame file.

    tools/seed_to_frame.py SEED WIDTH HEIGHT LAYOUT FRAME

FRAME is then a file of document 01's format with the readings of the test frame of that seed, so that others who name the same
numbers have the same file. (The small program takes a file of at most 4096 readings.) A refusal, 1 or 2, prints one line, as the
small program does, and nothing is written."""
import sys

from frame_to_png import frame_file  # to import it puts python/ on the path too
import rokzimp


def main(words):
    try:
        *numbers, frame = words
        seed, width, height, layout = (int(number) for number in numbers)
        readings = rokzimp.test_frame(seed, width, height)
        if not 0 <= layout <= 3:
            raise rokzimp.Refused(2)
    except rokzimp.Refused as refused:
        print("refused %d" % refused.number)
        return 1
    except ValueError:
        print(__doc__, file=sys.stderr)
        return 2
    with open(frame, "wb") as out:
        out.write(frame_file(width, height, layout, readings))
    return 0


if __name__ == "__main__":
    sys.exit(main(sys.argv[1:]))
