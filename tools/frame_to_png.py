#!/usr/bin/env python3
"""Turns a frame file into its three planes and a picture.

    tools/frame_to_png.py [--smoothing N] FRAME OUT [ROWS]

FRAME is a file of document 01's format, of any size that the format allows, '-' for standard input. Writes OUT.red, OUT.green and
OUT.blue, 16-bit samples, big-endian, row by row; and OUT.png, 8 bits for each colour, the samples' upper bytes. The frame is worked
out in strips of ROWS rows (default 64). N is the smoothing: 0 is the small program's; where none is named it is 1. A refusal prints
one line, as the small program does, and nothing is written."""
import argparse
import array
import os
import struct
import sys
import zlib

sys.path.insert(0, os.path.join(os.path.dirname(os.path.abspath(__file__)), "..", "python"))
import rokzimp

HEAD = struct.Struct(">BIHHB")  # version, length of the rest, width, height, layout


def read_frame(data):
    """Width, height, layout and readings of a frame file. Refusal 8 as the small program has it, but for its limit of 8202 bytes."""
    if len(data) < 10:
        raise rokzimp.Refused(8)
    version, length, width, height, layout = HEAD.unpack(data[:10])
    if version != 1 or length != len(data) - 5 or length != 5 + 2 * width * height:
        raise rokzimp.Refused(8)
    return width, height, layout, from_big_endian(data[10:])


def frame_file(width, height, layout, readings):
    """The bytes of a frame file."""
    return HEAD.pack(1, 5 + 2 * len(readings), width, height, layout) + big_endian(readings)


def from_big_endian(data):
    samples = array.array("H", data)
    if sys.byteorder == "little":
        samples.byteswap()
    return samples


def big_endian(plane):
    if sys.byteorder == "little":
        plane = plane[:]
        plane.byteswap()
    return plane.tobytes()


def png(width, height, red, green, blue):
    """A PNG of three planes of bytes."""
    pixels = bytearray(3 * width * height)
    pixels[0::3], pixels[1::3], pixels[2::3] = red, green, blue
    lines = b"".join(b"\0" + pixels[i:i + 3 * width] for i in range(0, len(pixels), 3 * width))

    def chunk(name, body):
        return struct.pack(">I", len(body)) + name + body + struct.pack(">I", zlib.crc32(name + body))

    return (b"\x89PNG\r\n\x1a\n" + chunk(b"IHDR", struct.pack(">IIBBBBB", width, height, 8, 2, 0, 0, 0))
            + chunk(b"IDAT", zlib.compress(lines, 6)) + chunk(b"IEND", b""))


def main(words):
    parser = argparse.ArgumentParser(description=__doc__, formatter_class=argparse.RawDescriptionHelpFormatter)
    parser.add_argument("--smoothing", type=int, metavar="N", help="0: even weights; 1 (the default): weights that fall with distance")
    parser.add_argument("frame", help="a frame file, or - for standard input")
    parser.add_argument("out", help="what the names of the files begin with")
    parser.add_argument("rows", type=int, nargs="?", default=64, help="of a strip")
    asked = parser.parse_args(words)
    data = sys.stdin.buffer.read() if asked.frame == "-" else open(asked.frame, "rb").read()
    try:
        width, height, layout, readings = read_frame(data)
        planes = rokzimp.whole_frame(width, height, layout, readings, strip_height=asked.rows, smoothing=asked.smoothing)
    except rokzimp.Refused as refused:
        print("refused %d" % refused.number)
        return 1
    samples = [big_endian(plane) for plane in planes]
    for name, body in zip(("red", "green", "blue"), samples):
        with open(asked.out + "." + name, "wb") as out:
            out.write(body)
    with open(asked.out + ".png", "wb") as out:
        out.write(png(width, height, *(body[0::2] for body in samples)))
    return 0


if __name__ == "__main__":
    sys.exit(main(sys.argv[1:]))
