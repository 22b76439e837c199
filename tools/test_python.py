#!/usr/bin/env python3
"""Tests of python/rokzimp.py, tools/frame_to_png.py, tools/planes_to_frame.py and tools/seed_to_frame.py, and with them of the C
library: document 01's examples, each refusal, that nothing is copied, that any cutting into strips and any number of threads give
the same planes, the preview, that the mosaic comes back from them, test frames, and frames compared with reference/reference.py.
That of test_quotes.py runs with them.

    tools/build_library.sh && tools/test_python.py"""
import array
import ctypes
import os
import random
import re
import struct
import subprocess
import sys
import tempfile
import threading
import tracemalloc
import unittest
import unittest.mock
import zlib

from stage import ROOT, RULES
from test_quotes import Quotes, SamePrograms, SameSignatures, Wraps  # noqa: F401, so that its tests run too
sys.path.insert(0, os.path.join(ROOT, "python"))
import reference
import rokzimp
from rokzimp import Refused, jump, mosaic_back, partner_view, piece_rows, piece_start, row_view, strip, test_frame, test_row, whole_frame


def samples(numbers):
    return array.array("H", numbers)


def planes(count, value=7):
    return [samples([value] * count) for _ in range(3)]


def random_mosaic(rng, count):
    kind = rng.randrange(4)
    if kind == 0:
        return samples(rng.randrange(4096) for _ in range(count))
    if kind == 1:
        return samples(rng.choice((0, 4095)) for _ in range(count))
    if kind == 2:
        return samples(rng.randrange(2000, 2016) for _ in range(count))
    return samples(k * 37 % 4096 for k in range(count))


def piece_of(mosaic, width, height, first, rows):
    start = piece_start(first) * width
    return memoryview(mosaic)[start:start + piece_rows(height, first, rows) * width]


def camera_planes(rng, width, layout, first, lengths):
    """Planes of rows from `first` on: a multiple of 16 where the sample is observed, elsewhere anything."""
    return [samples(16 * rng.randrange(4096) if reference.colour(layout, first + k // width, k % width) == colour else rng.randrange(65536)
                    for k in range(length)) for colour, length in enumerate(lengths)]


class Test(unittest.TestCase):
    def refused(self, number, call, *arguments, **named):
        with self.assertRaises(Refused) as caught:
            call(*arguments, **named)
        self.assertEqual(caught.exception.number, number)
        self.assertIn(rokzimp.WORDS[number][0], str(caught.exception))

    # document 01's examples

    def test_pieces(self):
        self.assertEqual((piece_start(9), piece_rows(20, 9, 2)), (2, 16))
        self.assertEqual((piece_start(0), piece_rows(20, 0, 1)), (0, 8))
        self.assertEqual((piece_start(19), piece_rows(20, 19, 1)), (12, 8))

    def test_flat(self):
        for plane in whole_frame(8, 8, 0, samples([100] * 64)):
            self.assertEqual(plane, samples([1600] * 64))

    def test_colours(self):
        for values, wanted in (((400, 200, 100), (6400, 3200, 1600)), ((4095, 0, 0), (65520, 0, 0))):
            mosaic = samples(values[reference.colour(0, k // 8, k % 8)] for k in range(64))
            for plane, value in zip(whole_frame(8, 8, 0, mosaic), wanted):
                self.assertEqual(plane, samples([value] * 64))

    # refusals

    def test_words(self):
        """The header has the module's numbers and words, but for 8, which is the programs'."""
        with open(os.path.join(ROOT, "include", "rokzimp.h")) as file:
            named = re.findall(r'ROKZIMP_(\w+) = (\d+),? +/\* "([^"]+)"', file.read())
        self.assertEqual({int(number): word for _, number, word in named}, {n: word for n, (word, _) in rokzimp.WORDS.items() if n != 8})
        self.assertEqual([name.lower().replace("_", " ") for name, _, _ in named], [word for _, _, word in named])

    def test_refusals(self):
        mosaic, (red, green, blue) = samples([100] * 64), planes(64)
        whole = (0, 8, mosaic, red, green, blue)
        self.refused(1, strip, 1, 8, 0, *whole)
        self.refused(1, strip, 8, 1, 0, *whole)
        self.refused(1, strip, 8, 4097, 0, *whole)
        self.refused(1, strip, -8, 8, 0, *whole)
        self.refused(1, strip, 2 ** 64 + 8, 8, 0, *whole)
        self.refused(2, strip, 8, 8, 4, *whole)
        self.refused(2, strip, 8, 8, 256, *whole)
        self.refused(2, strip, 8, 8, -1, *whole)
        self.refused(3, strip, 8, 8, 0, 0, 0, mosaic, red, green, blue)
        self.refused(3, strip, 8, 8, 0, 1, 8, mosaic, red, green, blue)
        self.refused(3, strip, 8, 8, 0, 1, 2 ** 64 - 1, mosaic, red, green, blue)
        self.refused(3, strip, 8, 8, 0, 2 ** 64 + 1, 7, mosaic, red, green, blue)
        self.refused(4, strip, 8, 8, 0, 0, 8, mosaic[:63], red, green, blue)
        self.refused(4, strip, 8, 8, 0, 0, 8, b"", red, green, blue)
        for k in range(3):
            lent = [red, green, blue]
            lent[k] = samples([7] * 63)
            self.refused(5, strip, 8, 8, 0, 0, 8, mosaic, *lent)
        for k in (0, 17, 63):
            high = mosaic[:]
            high[k] = 4096
            self.refused(6, strip, 8, 8, 0, 0, 8, high, red, green, blue)
        self.assertEqual([red, green, blue], planes(64))
        mosaic[5] = 4095
        strip(8, 8, 0, 0, 8, mosaic, red, green, blue)

    def test_sizes(self):
        for width, height in ((2, 4096), (4096, 2), (2, 2)):
            for plane in whole_frame(width, height, 3, samples([9] * (width * height))):
                self.assertEqual(plane, samples([144] * (width * height)))
        for width, height in ((2, 4097), (4097, 2), (1, 2), (2, 1), (1, 4096), (4096, 1), (0, 0)):
            self.refused(1, whole_frame, width, height, 3, samples([9] * (width * height)))

    def test_whole_frame_refused_before_it_starts(self):
        mosaic = samples([100] * 800)
        mosaic[799] = 4096
        lent = planes(800)
        self.refused(6, whole_frame, 8, 100, 0, mosaic, *lent, 1)
        self.assertEqual(lent, planes(800))
        self.refused(4, whole_frame, 8, 100, 0, mosaic[:799], *lent, 1)
        self.refused(5, whole_frame, 8, 100, 0, samples([1] * 800), lent[0], lent[1], samples([]))
        for threads in (2, 200):
            self.refused(6, whole_frame, 8, 100, 0, mosaic, *lent, 1, threads)
            self.refused(4, whole_frame, 8, 100, 0, mosaic[:799], *lent, 1, threads)
            self.refused(1, whole_frame, 1, 100, 0, mosaic, *lent, 1, threads)
        mosaic[799] = 100
        for wrong in (dict(threads=0), dict(threads=-1), dict(strip_height=0), dict(strip_height=0, threads=2)):
            with self.assertRaises(ValueError) as caught:
                whole_frame(8, 100, 0, mosaic, *lent, **wrong)
            self.assertNotIsInstance(caught.exception, Refused)
        self.assertEqual(lent, planes(800))

    def test_smoothing_refused(self):
        mosaic, lent = samples([100] * 64), planes(64)
        for smoothing in (2, 3, 128, 255, 256, 257, -1, 2 ** 64):
            self.refused(10, strip, 8, 8, 0, 0, 8, mosaic, *lent, smoothing=smoothing)
            self.refused(10, whole_frame, 8, 8, 0, mosaic, *lent, smoothing=smoothing, threads=2)
            # after 1 and 2, before all others
            self.refused(1, strip, 1, 8, 0, 0, 8, mosaic, *lent, smoothing=smoothing)
            self.refused(2, strip, 8, 8, 4, 0, 8, mosaic, *lent, smoothing=smoothing)
            self.refused(10, strip, 8, 8, 0, 0, 0, samples([4096]), *planes(1), smoothing=smoothing)
            self.refused(10, strip, 8, 8, 0, 2 ** 64 - 1, 2, mosaic, *lent, smoothing=smoothing)
            self.refused(10, whole_frame, 8, 8, 0, mosaic[:63], *lent, smoothing=smoothing)
        self.assertEqual(lent, planes(64))
        with self.assertRaises(TypeError):
            strip(8, 8, 0, 0, 8, mosaic, *lent, smoothing="1")
        for smoothing in (0, 1):
            strip(8, 8, 0, 0, 8, mosaic, *lent, smoothing=smoothing)

    def test_views_refused(self):
        plane, other = samples(range(80)), samples(range(80, 152))
        self.refused(1, row_view, plane, 1, 0)
        self.refused(1, row_view, plane, 4097, 0)
        self.refused(7, row_view, plane, 8, 10)
        self.refused(7, row_view, plane, 8, -1)
        self.refused(7, row_view, plane, 8, 2 ** 61)
        self.refused(7, row_view, b"", 8, 0)
        self.refused(1, partner_view, plane, other, 8, 1, 0, 0)
        self.refused(1, partner_view, plane, other, 8, 4097, 0, 0)
        self.refused(2, partner_view, plane, other, 8, 8, 4, 0)
        self.refused(7, partner_view, plane, other, 8, 8, 0, 8)
        self.refused(7, partner_view, plane, other, 8, 10, 0, 9)
        self.refused(7, partner_view, other, plane, 8, 10, 0, 9)

    # what may be lent

    def test_any_buffer(self):
        rng = random.Random(1)
        mosaic = random_mosaic(rng, 9 * 10)
        wanted = whole_frame(9, 10, 2, mosaic)
        raw = mosaic.tobytes()
        lent = [raw, bytearray(raw), memoryview(raw), memoryview(mosaic), (ctypes.c_uint16 * 90)(*mosaic),
                memoryview(raw).cast("H", (10, 9)), memoryview(b"ab" + raw)[2:]]
        for buffer in lent:
            self.assertEqual(whole_frame(9, 10, 2, buffer), wanted)
        for made in (lambda: bytearray(180), lambda: memoryview(bytearray(180)).cast("H", (10, 9)), lambda: (ctypes.c_uint16 * 90)()):
            got = [made() for _ in range(3)]
            strip(9, 10, 2, 0, 10, mosaic, *got)
            self.assertEqual([bytes(p) for p in got], [p.tobytes() for p in wanted])

    def test_not_lent(self):
        mosaic, (red, green, blue) = samples([1] * 64), planes(64)
        for wrong, error in ((array.array("h", [1] * 64), TypeError), (array.array("I", [1] * 64), TypeError), ([1] * 64, TypeError),
                             (bytes(127), BufferError), (memoryview(bytes(129))[1:], BufferError), (memoryview(bytes(256))[::2], BufferError)):
            with self.assertRaises(error):
                strip(8, 8, 0, 0, 8, wrong, red, green, blue)
        with self.assertRaises(BufferError):
            strip(8, 8, 0, 0, 8, mosaic, red, bytes(128), blue)
        for lent in ((mosaic, red, red, blue), (red, red, green, blue)):
            with self.assertRaises(ValueError) as caught:
                strip(8, 8, 0, 0, 8, *lent)
            self.assertNotIsInstance(caught.exception, Refused)
        self.assertEqual([red, green, blue], planes(64))

    def test_numpy(self):
        try:
            import numpy
        except ImportError:
            self.skipTest("numpy is not installed")
        mosaic = numpy.arange(80, dtype=numpy.uint16).reshape(10, 8)
        got = [numpy.zeros((10, 8), numpy.uint16) for _ in range(3)]
        mosaic.flags.writeable = False
        whole_frame(8, 10, 1, mosaic, *got, 3)
        wanted = whole_frame(8, 10, 1, samples(range(80)))
        self.assertEqual([p.tobytes() for p in got], [p.tobytes() for p in wanted])
        self.assertTrue(numpy.shares_memory(numpy.asarray(row_view(got[0], 8, 4)), got[0]))
        with self.assertRaises(BufferError):
            whole_frame(8, 10, 1, got[0][:, ::2], *got)
        back = numpy.zeros((10, 8), numpy.uint16)
        self.assertIs(mosaic_back(8, 10, 1, 0, 10, *got, back), back)
        self.assertTrue((back == mosaic).all())

    def test_nothing_is_copied(self):
        mosaic, *lent, back = bytes(2 * 1024 * 64), *(bytearray(2 * 1024 * 64) for _ in range(4))
        whole_frame(1024, 64, 0, mosaic, *lent)
        tracemalloc.start()
        try:
            whole_frame(1024, 64, 0, mosaic, *lent, 16)
            whole_frame(1024, 64, 0, mosaic, *lent, preview=True)
            row_view(lent[0], 1024, 3)
            partner_view(lent[0], lent[2], 1024, 64, 0, 3)
            mosaic_back(1024, 64, 0, 0, 64, *lent, back)
            test_frame(5, 1024, 64, back)
            test_row(5, 1024, 64, 63, memoryview(back)[:2048])
            self.assertLess(tracemalloc.get_traced_memory()[1], 20000)
        finally:
            tracemalloc.stop()

    def test_views_are_parts(self):
        red, blue = samples(range(80)), samples(range(100, 180))
        view = row_view(red, 8, 9)
        self.assertEqual((view.format, view.tolist()), ("H", list(range(72, 80))))
        red[72], view[1] = 500, 600
        self.assertEqual((view[0], red[73]), (500, 600))
        for layout in range(4):
            for row in range(10):
                plane = blue if reference.row_partner(layout, row) == reference.B else red
                view = partner_view(red, blue, 8, 10, layout, row)
                plane[8 * row] = 1000 + row
                self.assertEqual(view.tolist(), plane[8 * row:8 * row + 8].tolist())
        self.assertTrue(row_view(bytes(16), 8, 0).readonly)
        self.assertEqual((row_view(blue, 2, 39).tolist(), partner_view(red, blue, 2, 2, 0, 1).tolist()), (blue[78:].tolist(), blue[2:4].tolist()))

    # strips

    def test_any_height_of_strips(self):
        rng = random.Random(2)
        for width, height in ((8, 8), (13, 31), (20, 24), (2, 2), (3, 5)):
            mosaic, layout = random_mosaic(rng, width * height), rng.randrange(4)
            wanted = whole_frame(width, height, layout, mosaic, strip_height=height)
            even = whole_frame(width, height, layout, mosaic, strip_height=height, smoothing=0)
            for rows in range(1, height + 3):
                self.assertEqual(whole_frame(width, height, layout, mosaic, strip_height=rows), wanted)
                self.assertEqual(whole_frame(width, height, layout, mosaic, strip_height=rows, smoothing=0, threads=2), even)

    def test_any_number_of_threads(self):
        rng = random.Random(6)
        before = threading.stack_size()
        for width, height in ((8, 8), (13, 31), (70, 200)):
            mosaic, layout = random_mosaic(rng, width * height), rng.randrange(4)
            wanted = whole_frame(width, height, layout, mosaic, strip_height=height)
            for rows in (1, 3, 64, height):
                for threads in (2, 3, 8, 300):
                    lent = planes(width * height)
                    self.assertEqual(whole_frame(width, height, layout, mosaic, *lent, rows, threads), wanted)
                    self.assertEqual(tuple(lent), wanted)
        self.assertEqual(threading.stack_size(), before)

    def test_threads_where_stacks_are_small(self):
        """A thread would start with half the stack that a strip takes, of a wide frame and of a narrow one."""
        for width in (64, 4096):
            script = ("import sys; sys.path.insert(0, 'python'); import rokzimp; from array import array\n"
                      f"print({{*rokzimp.whole_frame({width}, 64, 0, array('H', [100] * {64 * width}), strip_height=8, threads=2)[1]}})")
            ran = subprocess.run(["sh", "-c", 'ulimit -s 400 && exec "$0" -c "$1"', sys.executable, script], capture_output=True, cwd=ROOT)
            self.assertEqual((ran.returncode, ran.stdout), (0, b"{1600}\n"), ran.stderr)

    def test_raised_in_a_thread(self):
        def refuses_row_16(width, height, layout, first, *others):
            return 6 if first == 16 else 0

        with unittest.mock.patch.object(rokzimp._library, "rokzimp_strip", refuses_row_16):
            for threads in (1, 2, 9):
                self.refused(6, whole_frame, 8, 64, 0, samples([1] * 512), *planes(512), 8, threads)

    def test_strips_in_threads(self):
        width, height, mosaic = 64, 96, random_mosaic(random.Random(3), 64 * 96)
        wanted, lent = whole_frame(width, height, 1, mosaic), planes(64 * 96)

        def work(first):
            part = slice(first * width, (first + 8) * width)
            strip(width, height, 1, first, 8, piece_of(mosaic, width, height, first, 8), *(memoryview(p)[part] for p in lent))

        threads = [threading.Thread(target=work, args=(first,)) for first in range(0, height, 8)]
        for thread in threads:
            thread.start()
        for thread in threads:
            thread.join()
        self.assertEqual(tuple(lent), wanted)

    # the preview

    def test_preview_fills_as_a_strip(self):
        rng = random.Random(18)
        for width, height, first, rows in ((2, 2, 0, 2), (8, 8, 3, 1), (13, 31, 9, 20), (1023, 9, 0, 2), (1024, 12, 5, 3), (3, 70, 0, 63),
                                           (3, 70, 6, 64), (1024, 80, 8, 64)):
            piece = piece_of(random_mosaic(rng, width * height), width, height, first, rows)
            for smoothing in (None, 0, 1):
                layout, full, small = rng.randrange(4), planes(rows * width), planes(rows * width, 8)
                strip(width, height, layout, first, rows, piece, *full, smoothing=smoothing)
                strip(width, height, layout, first, rows, piece, *small, smoothing=smoothing, preview=True)
                self.assertEqual(full, small)

    def test_preview_sizes(self):
        for width, height, rows in ((1024, 2, 2), (2, 64, 64), (2, 4096, 64), (1024, 64, 64)):
            piece, lent = samples([100] * (piece_rows(height, 0, rows) * width)), planes(rows * width)
            strip(width, height, 0, 0, rows, piece, *lent, preview=True)
            self.assertEqual(lent, planes(rows * width, 1600))

    def test_over_preview_size(self):
        """The preview refuses and writes nothing; the full-size entry fills."""
        for width, height, rows in ((1025, 2, 1), (4096, 2, 2), (2, 65, 65), (2, 4096, 4096), (1025, 64, 64), (1024, 65, 65), (1025, 65, 65)):
            piece, lent = samples([100] * (piece_rows(height, 0, rows) * width)), planes(rows * width)
            self.refused(11, strip, width, height, 0, 0, rows, piece, *lent, preview=True)
            self.assertEqual(lent, planes(rows * width))
            strip(width, height, 0, 0, rows, piece, *lent)
            self.assertEqual(lent, planes(rows * width, 1600))

    def test_preview_order(self):
        """Everything wrong, then one thing less each time. Where the preview refuses with 11, the full-size entry goes on to 4."""
        piece, (red, green, blue) = samples([100] * (66 * 1024)), planes(64 * 1024)
        asked = dict(width=4097, height=66, layout=4, first_row=2, rows=65, piece=samples([4096]),
                     red=red[:1], green=green[:1], blue=blue[:1], smoothing=2)
        for number, name, better in ((1, "width", 1025), (2, "layout", 0), (10, "smoothing", 1), (3, "first_row", 1), (11, "width", 1024),
                                     (11, "rows", 64), (4, "piece", piece[:-1] + samples([4096])), (5, "red", red), (5, "green", green),
                                     (5, "blue", blue), (6, "piece", piece)):
            self.refused(number, strip, **asked, preview=True)
            self.refused(4 if number == 11 else number, strip, **asked)
            asked[name] = better
        self.assertEqual([red, green, blue], planes(64 * 1024))
        strip(**asked, preview=True)
        self.assertEqual([red, green, blue], planes(64 * 1024, 1600))

    def test_whole_frame_by_preview(self):
        rng = random.Random(19)
        for width, height in ((1024, 130), (2, 4096), (13, 65), (8, 8)):
            mosaic, layout = random_mosaic(rng, width * height), rng.randrange(4)
            for smoothing in (None, 0):
                wanted = whole_frame(width, height, layout, mosaic, smoothing=smoothing)
                for rows, threads in ((64, 1), (7, 1), (height, 1), (64, 2), (5, 3), (height, 300)):
                    lent = planes(width * height)
                    self.assertEqual(whole_frame(width, height, layout, mosaic, *lent, rows, threads, smoothing, preview=True), wanted)
                    self.assertEqual(tuple(lent), wanted)

    def test_whole_frame_calls_the_preview(self):
        for smoothing, name, place in ((None, "rokzimp_preview", 4), (0, "rokzimp_preview_smoothed", 5)):
            for strip_height, cut in ((64, [64, 64, 2]), (65, [64, 64, 2]), (4096, [64, 64, 2]), (50, [50, 50, 30])):
                with unittest.mock.patch.object(rokzimp._library, name, return_value=0) as called:
                    whole_frame(2, 130, 0, samples([100] * 260), strip_height=strip_height, smoothing=smoothing, preview=True)
                self.assertEqual([call.args[place] for call in called.call_args_list], cut)

    def test_whole_frame_by_preview_refused(self):
        """Everything wrong, then one thing less each time; the last reading alone is over range, and nothing is written."""
        mosaic, (red, green, blue) = samples([100] * (130 * 1024)), planes(130 * 1024)
        asked = dict(width=5000, height=130, layout=4, mosaic=samples([4096]), red=red[:1], green=green[:1], blue=blue[:1], smoothing=2)
        for number, name, better in ((1, "width", 2000), (2, "layout", 0), (10, "smoothing", 1), (11, "width", 1025), (11, "width", 1024),
                                     (4, "mosaic", mosaic[:-1] + samples([4096])), (5, "red", red), (5, "green", green), (5, "blue", blue),
                                     (6, "mosaic", mosaic)):
            for threads in (1, 2):
                self.refused(number, whole_frame, **asked, threads=threads, preview=True)
            self.refused(4 if number == 11 else number, whole_frame, **asked)
            asked[name] = better
        self.assertEqual([red, green, blue], planes(130 * 1024))
        whole_frame(**asked, preview=True)
        self.assertEqual([red, green, blue], planes(130 * 1024, 1600))

    def test_strips_and_previews_mixed(self):
        rng = random.Random(20)
        for width, height, most in ((1024, 70, 20), (9, 300, 64), (2, 9, 2)):
            mosaic, layout, smoothing = random_mosaic(rng, width * height), rng.randrange(4), rng.choice((None, 0))
            lent, first, preview = planes(width * height), 0, False
            while first < height:
                rows = min(rng.randrange(1, most + 1), height - first)
                part = slice(first * width, (first + rows) * width)
                strip(width, height, layout, first, rows, piece_of(mosaic, width, height, first, rows),
                      *(memoryview(p)[part] for p in lent), smoothing=smoothing, preview=preview)
                first, preview = first + rows, not preview
            self.assertEqual(tuple(lent), whole_frame(width, height, layout, mosaic, strip_height=height, smoothing=smoothing))

    def test_preview_in_a_small_stack(self):
        """The header's 256 KB are enough, in which a strip of 4096 columns would not run."""
        script = ("import sys, threading; sys.path.insert(0, 'python'); import rokzimp; from array import array\n"
                  "lent = [array('H', [100] * 65536) for _ in range(4)]\n"
                  "threading.stack_size(2 ** 18)\n"
                  "thread = threading.Thread(target=rokzimp.strip, args=(1024, 64, 0, 0, 64, *lent), kwargs={'preview': True})\n"
                  "thread.start(); thread.join(); print({*lent[1]})")
        ran = subprocess.run([sys.executable, "-c", script], capture_output=True, cwd=ROOT)
        self.assertEqual((ran.returncode, ran.stdout), (0, b"{1600}\n"), ran.stderr)

    # the mosaic back

    def test_there_and_back(self):
        rng = random.Random(7)
        for width, height in ((8, 8), (2, 2), (3, 5), (9, 8), (8, 15), (13, 31)):
            for layout in range(4):
                mosaic = random_mosaic(rng, width * height)
                back = mosaic_back(width, height, layout, 0, height, *whole_frame(width, height, layout, mosaic))
                self.assertIsInstance(back, array.array)
                self.assertEqual(back, mosaic)
                for first in range(height):
                    rows = rng.randrange(1, height - first + 1)
                    lent = planes(rows * width)
                    strip(width, height, layout, first, rows, piece_of(mosaic, width, height, first, rows), *lent)
                    self.assertEqual(mosaic_back(width, height, layout, first, rows, *lent), mosaic[first * width:(first + rows) * width])

    def test_mosaic_back_refusals(self):
        (red, green, blue), mosaic = planes(64, 1600), samples([7] * 64)
        whole = (0, 8, red, green, blue, mosaic)
        self.refused(1, mosaic_back, 1, 8, 0, *whole)
        self.refused(1, mosaic_back, 8, 4097, 0, *whole)
        self.refused(1, mosaic_back, 8, -8, 0, *whole)
        self.refused(1, mosaic_back, 2 ** 64 + 8, 8, 0, *whole)
        self.refused(2, mosaic_back, 8, 8, 4, *whole)
        self.refused(2, mosaic_back, 8, 8, 256, *whole)
        self.refused(2, mosaic_back, 8, 8, -1, *whole)
        for first, rows in ((0, 0), (8, 0), (1, 8), (9, 1), (1, 2 ** 64 - 1), (2 ** 64 - 1, 1), (2 ** 64 - 8, 8), (2 ** 64, 8)):
            self.refused(3, mosaic_back, 8, 8, 0, first, rows, red, green, blue, mosaic)
        for k in range(4):
            for length in (0, 56, 63, 65, 72, 128):
                lent = [red, green, blue, mosaic]
                lent[k] = samples([1600] * length)
                self.refused(5, mosaic_back, 8, 8, 0, 0, 8, *lent)
                self.assertEqual(lent[k], samples([1600] * length))
                self.assertEqual((red, green, blue, mosaic), (*planes(64, 1600), samples([7] * 64)))
        self.refused(5, mosaic_back, 8, 8, 0, 0, 7, red, green, blue, mosaic)
        # without a mosaic, and with sizes for which none is made
        for number, words in ((1, (4097, 8, 0, 0, 8)), (1, (2 ** 63, 8, 0, 0, 2 ** 63)), (1, (8, 4097, 0, 0, 4097)), (2, (8, 8, 4, 0, 8)),
                              (3, (8, 8, 0, 0, 2 ** 64 - 1)), (3, (8, 8, 0, 0, -1)), (3, (8, 8, 0, 0, 0)), (5, (8, 8, 0, 0, 7)),
                              (5, (9, 8, 0, 0, 8))):
            self.refused(number, mosaic_back, *words, red, green, blue)
        self.assertEqual(mosaic_back(8, 8, 0, 0, 8, red, green, blue), samples([100] * 64))

    def test_mosaic_back_order(self):
        """Everything wrong, then one thing less each time."""
        right, wrong, short = samples([1600] * 64), samples([17] * 64), samples([7] * 63)
        words, lent = [1, 8, 4, 1, 8], [wrong, wrong, wrong[:63], short]
        for number, into, k, better in ((1, words, 0, 8), (2, words, 2, 0), (3, words, 3, 0), (5, lent, 2, wrong),
                                        (5, lent, 3, samples([7] * 64)), (9, lent, 0, right), (9, lent, 1, right), (9, lent, 2, right)):
            self.refused(number, mosaic_back, *words, *lent)
            self.assertEqual(lent[3], samples([7] * len(lent[3])))
            into[k] = better
        self.assertEqual(mosaic_back(*words, *lent), samples([100] * 64))

    def test_not_camera_planes(self):
        """A wrong sample at every place of each plane: refused where it is observed, and only there."""
        rng = random.Random(9)
        width, first, rows = 9, 3, 4
        count = rows * width
        for layout in range(4):
            right = camera_planes(rng, width, layout, first, [count] * 3)
            wanted = mosaic_back(width, 8, layout, first, rows, *right)
            for k in range(count):
                own = reference.colour(layout, first + k // width, k % width)
                self.assertEqual(wanted[k], right[own][k] // 16)
                for colour in range(3):
                    sixteens = 16 * rng.randrange(1, 4096)
                    for value in (1, 8, 17, 65519, 65521, 65535, sixteens - 1, sixteens + 1):
                        lent, mosaic = [plane[:] for plane in right], samples(range(count))
                        lent[colour][k] = value
                        if colour == own:
                            self.refused(9, mosaic_back, width, 8, layout, first, rows, *lent, mosaic)
                            self.assertEqual(mosaic, samples(range(count)))
                        else:
                            self.assertEqual(mosaic_back(width, 8, layout, first, rows, *lent, mosaic), wanted)
                lent = [plane[:] for plane in right]
                for value in (0, 16, 65504, 65520):
                    lent[own][k] = value
                    self.assertEqual(mosaic_back(width, 8, layout, first, rows, *lent)[k], value // 16)

    def test_edited_samples_do_not_come_back(self):
        rng = random.Random(10)
        for layout in range(4):
            mosaic = random_mosaic(rng, 90)
            right = whole_frame(9, 10, layout, mosaic)
            edited = [samples(value if reference.colour(layout, k // 9, k % 9) == colour else 65535 for k, value in enumerate(plane))
                      for colour, plane in enumerate(right)]
            back = mosaic_back(9, 10, layout, 0, 10, *edited)
            self.assertEqual(back, mosaic)
            self.assertEqual(whole_frame(9, 10, layout, back), right)
            for plane, other in zip(right, edited):
                self.assertNotEqual(plane, other)

    def test_mosaic_back_of_any_buffer(self):
        mosaic = random_mosaic(random.Random(11), 90)
        lent = [plane.tobytes() for plane in whole_frame(9, 10, 2, mosaic)]
        for made in (bytearray(180), memoryview(bytearray(180)).cast("H", (10, 9)), (ctypes.c_uint16 * 90)(),
                     memoryview(bytearray(184))[2:182]):
            self.assertIs(mosaic_back(9, 10, 2, 0, 10, *lent, made), made)
            self.assertEqual(bytes(made), mosaic.tobytes())
        plane = samples([1600] * 64)
        self.assertEqual(mosaic_back(8, 8, 0, 0, 8, plane, plane, plane), samples([100] * 64))

    def test_mosaic_back_not_lent(self):
        lent, mosaic = planes(64, 1600), samples([7] * 64)
        with self.assertRaises(BufferError):
            mosaic_back(8, 8, 0, 0, 8, *lent, bytes(128))
        for wrong, error in ((array.array("h", [16] * 64), TypeError), ([16] * 64, TypeError), (bytes(127), BufferError)):
            for k in range(4):
                with self.assertRaises(error):
                    mosaic_back(8, 8, 0, 0, 8, *(wrong if c == k else buffer for c, buffer in enumerate((*lent, mosaic))))
        long = samples([1600] * 127)
        first, last = memoryview(long)[:64], memoryview(long)[63:]
        for overlapping in ((*lent, lent[0]), (*lent, lent[1]), (*lent, lent[2]), (first, *lent[1:], last), (*lent[1:], last, first)):
            with self.assertRaises(ValueError) as caught:
                mosaic_back(8, 8, 0, 0, 8, *overlapping)
            self.assertNotIsInstance(caught.exception, Refused)
        self.assertEqual((lent, mosaic, long), (planes(64, 1600), samples([7] * 64), samples([1600] * 127)))

    # test frames

    def test_test_frames(self):
        self.assertEqual(test_frame(0, 8, 8)[0], 966)
        rng = random.Random(14)
        for width, height in ((8, 8), (2, 2), (3, 2), (9, 13), (30, 8), (2, 4096), (4096, 2)):
            seed = rng.choice((0, 2 ** 32 - 1, rng.randrange(2 ** 32)))
            frame = test_frame(seed, width, height)
            self.assertIsInstance(frame, array.array)
            wanted, state = [], seed
            for _ in range(width * height):
                state = (1664525 * state + 1013904223) % 2 ** 32
                wanted.append(state // 2 ** 20)
            self.assertEqual(frame.tolist(), wanted)
            for row in {0, 1, height // 2, height - 1}:
                made = test_row(seed, width, height, row)
                self.assertIsInstance(made, array.array)
                self.assertEqual(made, frame[row * width:(row + 1) * width])
            whole_frame(width, height, 0, frame)  # no reading is over range
        for lent in (bytearray(128), memoryview(bytearray(128)).cast("H", (8, 8)), (ctypes.c_uint16 * 64)()):
            self.assertIs(test_frame(3, 8, 8, lent), lent)
            self.assertEqual(bytes(lent), test_frame(3, 8, 8).tobytes())
        row = bytearray(16)
        self.assertIs(test_row(3, 8, 8, 7, row), row)
        self.assertEqual(bytes(row), test_frame(3, 8, 8).tobytes()[-16:])

    def test_test_frames_refused(self):
        frame, row = samples([7] * 64), samples([7] * 8)
        for width, height in ((1, 8), (8, 1), (4097, 8), (8, 4097), (0, 0), (-8, 8), (8, 2 ** 64 + 8)):
            self.refused(1, test_frame, 0, width, height, frame)
            self.refused(1, test_frame, 0, width, height)
            self.refused(1, test_row, 0, width, height, 8, row[:7])
            self.refused(1, test_row, 0, width, height, 0)
        for length in (0, 8, 63, 65, 128):
            self.refused(5, test_frame, 0, 8, 8, samples([7] * length))
        for last in (8, 9, -1, 2 ** 61, 2 ** 64 - 1, 2 ** 64):
            self.refused(3, test_row, 0, 8, 8, last, row)
            self.refused(3, test_row, 0, 8, 8, last, row[:7])
            self.refused(3, test_row, 0, 8, 8, last)
        for length in (0, 7, 9, 64):
            self.refused(5, test_row, 0, 8, 8, 7, samples([7] * length))
        for seed in (-1, 2 ** 32):
            for call in (lambda: test_frame(seed, 8, 8, frame), lambda: test_row(seed, 8, 8, 0, row), lambda: jump(seed, 1)):
                with self.assertRaises(ValueError) as caught:
                    call()
                self.assertNotIsInstance(caught.exception, Refused)
        for steps in (-1, 2 ** 64):
            with self.assertRaises(ValueError):
                jump(0, steps)
        with self.assertRaises(BufferError):
            test_frame(0, 8, 8, bytes(128))
        with self.assertRaises(TypeError):
            test_row(0, 8, 8, 0, array.array("h", [7] * 8))
        self.assertEqual((frame, row), (samples([7] * 64), samples([7] * 8)))

    def test_jumps(self):
        rng = random.Random(15)
        for seed in (0, 1, 2 ** 32 - 1, rng.randrange(2 ** 32)):
            state = seed
            for steps in range(300):
                self.assertEqual(jump(seed, steps), state)
                state = (1664525 * state + 1013904223) % 2 ** 32
            for steps in [2 ** b + d for b in range(9, 65) for d in (-1, 0, 1) if 2 ** b + d < 2 ** 64] + [rng.randrange(2 ** 64) for _ in range(50)]:
                self.assertEqual(jump(seed, steps), reference.jump(seed, steps))

    # the other implementation

    def test_reference_frames(self):
        rng = random.Random(4)
        for k in range(24):
            width, height, layout = rng.randrange(8, 20), rng.randrange(8, 20), k % 4
            mosaic, got = random_mosaic(rng, width * height), []
            for smoothing in (0, 1, None):
                wanted = reference.whole(RULES, reference.Frame(width, height, layout, smoothing), mosaic)
                got.append([p.tolist() for p in whole_frame(width, height, layout, mosaic, strip_height=rng.randrange(1, 20), smoothing=smoothing)])
                self.assertEqual(got[-1], wanted)
            self.assertEqual(got[2], got[1])
            self.assertNotEqual(got[0], got[1])

    def test_reference_small_frames(self):
        rng = random.Random(17)
        for width in range(2, 10):
            for height in range(2, 10):
                for layout in range(4):
                    mosaic, smoothing = random_mosaic(rng, width * height), rng.choice((0, 1, None))
                    wanted = reference.whole(RULES, reference.Frame(width, height, layout, smoothing), mosaic)
                    for rows in range(1, height + 1):
                        got = whole_frame(width, height, layout, mosaic, strip_height=rows, smoothing=smoothing)
                        self.assertEqual([p.tolist() for p in got], wanted)
                    self.assertEqual(mosaic_back(width, height, layout, 0, height, *got), mosaic)

    def test_reference_strips(self):
        rng, seen = random.Random(5), set()
        for k in range(600):
            width, height, layout = rng.randrange(1, 14), rng.randrange(1, 30), rng.randrange(5)
            first, rows, preview = rng.randrange(height + 2), rng.randrange(5), rng.randrange(2) == 1
            if k % 60 == 0:  # about the preview's limits
                width = rng.choice((1024, 1025))
            if k % 60 == 30:
                height, first, rows = 70, rng.randrange(8), rng.choice((64, 65))
            lengths = [max(0, rows * width + rng.choice((0, 0, 0, 0, 0, 0, 0, 1, -1))) for _ in range(3)]
            count = max(0, piece_rows(height, first, rows) * width + rng.choice((0, 0, 0, 0, 0, 0, 0, 0, 1, -1)))
            piece = random_mosaic(rng, count)
            if count and rng.randrange(4) == 0:
                piece[rng.randrange(count)] = 4096
            wanted, smoothing = [[5] * length for length in lengths], rng.choice((None, 0, 0, 1, 1, 1, 2, 255))
            frame = reference.Frame(width, height, layout, smoothing)
            number = reference.strip_call(RULES, frame, first, rows, piece.tolist(), wanted, preview=preview)
            got = [samples([5] * length) for length in lengths]
            try:
                strip(width, height, layout, first, rows, piece, *got, smoothing=smoothing, preview=preview)
                self.assertEqual(number, 0)
            except Refused as refused:
                self.assertEqual(number, refused.number)
            self.assertEqual([p.tolist() for p in got], wanted)
            seen.add(number)
        self.assertEqual(seen, {0, 1, 2, 3, 4, 5, 6, 10, 11})

    def test_reference_mosaic_back(self):
        rng, seen = random.Random(12), set()
        for k in range(600):
            width, height, layout = rng.randrange(1, 16), rng.randrange(1, 30), rng.choice((0, 1, 2, 3, 0, 1, 2, 3, 4))
            first = rng.randrange(height + 1)
            rows = rng.randrange(min(5, height - first + 2))
            *lengths, count = [max(0, rows * width + rng.choice((0,) * 20 + (1, -1, width, -width))) for _ in range(4)]
            lent = camera_planes(rng, width, layout % 4, first, lengths)
            for colour in rng.choices(range(3), k=rng.randrange(3)):
                if lengths[colour]:
                    lent[colour][rng.randrange(lengths[colour])] = rng.choice((1, 17, 32, 65519, 65520, 65521, 65535, rng.randrange(65536)))
            wanted, got, before = [5] * count, samples([5] * count), [plane[:] for plane in lent]
            number = reference.mosaic_back(RULES, reference.Frame(width, height, layout), first, rows, lent, wanted)
            try:
                self.assertIs(mosaic_back(width, height, layout, first, rows, *lent, got), got)
                self.assertEqual(number, 0)
            except Refused as refused:
                self.assertEqual(number, refused.number)
            self.assertEqual((got.tolist(), lent), (wanted, before))
            seen.add(number)
        self.assertEqual(seen, {0, 1, 2, 3, 5, 9})

    def test_reference_test_frames(self):
        rng, seen = random.Random(16), set()
        for k in range(600):
            seed, width, height = rng.randrange(2 ** 32), rng.randrange(1, 16), rng.randrange(1, 16)
            row = rng.randrange(height + 2)
            for call, by_rule, named, length in ((test_frame, reference.walk, (seed, width, height), width * height),
                                                 (test_row, reference.row_direct, (seed, width, height, row), width)):
                length += rng.choice((0,) * 6 + (1, -1, width))
                wanted, got = [5] * length, samples([5] * length)
                number = by_rule(RULES, *named, wanted)
                try:
                    self.assertIs(call(*named, got), got)
                    self.assertEqual(number, 0)
                except Refused as refused:
                    self.assertEqual(number, refused.number)
                self.assertEqual(got.tolist(), wanted)
                seen.add((call, number))
        self.assertEqual(seen, {(test_frame, n) for n in (0, 1, 5)} | {(test_row, n) for n in (0, 1, 3, 5)})

    # pictures

    def run_tool(self, data, *words):
        with tempfile.TemporaryDirectory() as folder:
            name, out = os.path.join(folder, "frame"), os.path.join(folder, "out")
            with open(name, "wb") as file:
                file.write(data)
            run = subprocess.run([sys.executable, os.path.join(ROOT, "tools", "frame_to_png.py"), name, out, *words], stdout=subprocess.PIPE)
            files = {}
            for end in ("red", "green", "blue", "png"):
                if os.path.exists(out + "." + end):
                    with open(out + "." + end, "rb") as file:
                        files[end] = file.read()
            return run.returncode, run.stdout, files

    def test_picture(self):
        width, height = 80, 60
        mosaic = random_mosaic(random.Random(6), width * height)
        data = struct.pack(">BIHHB", 1, 5 + 2 * len(mosaic), width, height, 3) + struct.pack(">%dH" % len(mosaic), *mosaic)
        self.assertGreater(len(data), 8202)
        for words, smoothing in (("7", "--smoothing", "0"), 0), (("--smoothing=1",), 1), (("7",), None):
            code, said, files = self.run_tool(data, *words)
            self.assertEqual((code, said), (0, b""))
            wanted = whole_frame(width, height, 3, mosaic, smoothing=smoothing)
            for name, plane in zip(("red", "green", "blue"), wanted):
                self.assertEqual(files[name], struct.pack(">%dH" % len(plane), *plane))
        self.assertEqual(self.run_tool(data, "--smoothing", "2"), (1, b"refused 10\n", {}))
        png, at, body = files["png"], 8, b""
        self.assertEqual(png[:8], b"\x89PNG\r\n\x1a\n")
        while at < len(png):
            length, name = struct.unpack(">I4s", png[at:at + 8])
            self.assertEqual(struct.unpack(">I", png[at + 8 + length:at + 12 + length])[0], zlib.crc32(png[at + 4:at + 8 + length]))
            if name == b"IHDR":
                self.assertEqual(png[at + 8:at + 8 + length], struct.pack(">IIBBBBB", width, height, 8, 2, 0, 0, 0))
            body += png[at + 8:at + 8 + length] if name == b"IDAT" else b""
            at += 12 + length
        lines = zlib.decompress(body)
        for i, j in ((0, 0), (59, 79), (30, 41)):
            pixel = lines[i * (3 * width + 1) + 1 + 3 * j:][:3]
            self.assertEqual(list(pixel), [plane[i * width + j] // 256 for plane in wanted])

    def run_back(self, files, *words):
        """The tool on files of these contents: its exit status, what it printed, and the frame file, None where there is none."""
        with tempfile.TemporaryDirectory() as folder:
            name, out = os.path.join(folder, "planes"), os.path.join(folder, "frame")
            for end in ("red", "green", "blue"):
                with open(name + "." + end, "wb") as file:
                    file.write(files[end])
            tool = os.path.join(ROOT, "tools", "planes_to_frame.py")
            run = subprocess.run([sys.executable, tool, *map(str, words), name, out], stdout=subprocess.PIPE, stderr=subprocess.DEVNULL)
            if not os.path.exists(out):
                return run.returncode, run.stdout, None
            with open(out, "rb") as file:
                return run.returncode, run.stdout, file.read()

    def test_planes_to_frame(self):
        width, height = 80, 61
        for layout in range(4):
            mosaic = random_mosaic(random.Random(13 + layout), width * height)
            data = struct.pack(">BIHHB", 1, 5 + 2 * len(mosaic), width, height, layout) + struct.pack(">%dH" % len(mosaic), *mosaic)
            code, said, back = self.run_back(self.run_tool(data)[2], width, height, layout)
            self.assertEqual((code, said), (0, b""))
            self.assertEqual(back, data)

    def test_planes_to_frame_refused(self):
        flat = struct.pack(">64H", *[1600] * 64)
        files = dict(red=flat, green=flat, blue=flat)
        for number, words in ((1, (1, 8, 0)), (1, (8, 70000, 0)), (1, (-8, 8, 0)), (2, (8, 8, 4)), (2, (8, 8, 256)), (5, (8, 9, 0))):
            self.assertEqual(self.run_back(files, *words), (1, b"refused %d\n" % number, None))
        for end in files:
            for plane in (b"", flat[:-2], flat + b"\0\0", flat[:-1], flat + b"\0"):
                self.assertEqual(self.run_back({**files, end: plane}, 8, 8, 0), (1, b"refused 5\n", None))
            self.assertEqual(self.run_back({**files, end: flat[:-1]}, 8, 8, 4), (1, b"refused 2\n", None))
            for plane in (struct.pack(">64H", *[1601] * 64), struct.pack(">64H", *[65535] * 64), struct.pack("<64H", *[1600] * 64)):
                self.assertEqual(self.run_back({**files, end: plane}, 8, 8, 0), (1, b"refused 9\n", None))
        self.assertEqual(self.run_back(files, 8, 8, 0), (0, b"", struct.pack(">BIHHB64H", 1, 133, 8, 8, 0, *[100] * 64)))
        for words in ((8, "x", 0), (8, 8)):
            self.assertEqual(self.run_back(files, *words), (2, b"", None))

    def run_seed(self, *words):
        """tools/seed_to_frame.py: its exit status, what it printed, and the frame file, None where there is none."""
        with tempfile.TemporaryDirectory() as folder:
            out = os.path.join(folder, "frame")
            tool = os.path.join(ROOT, "tools", "seed_to_frame.py")
            run = subprocess.run([sys.executable, tool, *map(str, words), out], stdout=subprocess.PIPE, stderr=subprocess.DEVNULL)
            if not os.path.exists(out):
                return run.returncode, run.stdout, None
            with open(out, "rb") as file:
                return run.returncode, run.stdout, file.read()

    def test_seed_to_frame(self):
        for seed, width, height, layout in ((0, 8, 8, 0), (2 ** 32 - 1, 80, 61, 3)):
            readings = [5] * (width * height)
            self.assertEqual(reference.walk(RULES, seed, width, height, readings), 0)
            data = struct.pack(">BIHHB%dH" % len(readings), 1, 5 + 2 * len(readings), width, height, layout, *readings)
            self.assertEqual(self.run_seed(seed, width, height, layout), (0, b"", data))
            self.assertEqual(self.run_tool(data)[0], 0)
        for number, words in ((1, (0, 1, 8, 0)), (1, (0, 8, 70000, 9)), (1, (0, -8, 8, 0)), (2, (0, 8, 8, 4)), (2, (0, 8, 8, -1))):
            self.assertEqual(self.run_seed(*words), (1, b"refused %d\n" % number, None))
        for words in ((2 ** 32, 8, 8, 0), (-1, 8, 8, 0), (0, 8, "x", 0), (0, 8, 8), ("", 8, 8, 0)):
            self.assertEqual(self.run_seed(*words), (2, b"", None))

    def example(self):
        """What the README's C example prints, by reference.py: a test frame, one strip of it with no smoothing named, evenly smoothed and by
        the preview, a width that the preview refuses, the strip's first reading, which comes back, and a frame of 2 by 2."""
        mosaic, planes = [0] * 320, [[0] * 32 for _ in range(3)]
        first, last = reference.strip_rows(20, 9, 2)
        self.assertEqual(reference.walk(RULES, 0, 16, 20, mosaic), 0)
        filled = []
        for smoothing, preview in ((None, False), (0, False), (None, True)):
            frame, piece = reference.Frame(16, 20, 0, smoothing), mosaic[16 * first:16 * last]
            self.assertEqual(reference.strip_call(RULES, frame, 9, 2, piece, planes, preview=preview), 0)
            filled.append("0 %d %d %d" % tuple(plane[0] for plane in planes))
        small, frame = [0] * 4, reference.Frame(2, 2, 0)
        self.assertEqual(reference.walk(RULES, 0, 2, 2, small), 0)
        smallest = [plane[0] for plane in reference.whole(RULES, frame, small)]
        over = reference.strip_number(RULES, reference.Frame(1025, 20, 0), 9, 2, [], [[]] * 3, preview=True)
        return ["0 %d" % mosaic[0], *filled, "%d" % over, "0 %d %d" % (mosaic[144], mosaic[144]), "0 %d %d %d" % tuple(smallest)]

    def test_readme(self):
        """The README's C, Python, picture and frame file examples do what it says, and its printed lines are the committed ones."""
        with open(os.path.join(ROOT, "README.md")) as file:
            lines = [line[4:] for line in file if line.startswith("    ") or line == "\n"]
        printed = self.example()
        self.assertTrue(any(line.endswith("# %s\n" % ", then ".join(printed)) for line in lines))
        for crate in "planes", "test_planes":
            with open(os.path.join(ROOT, "crates", crate, "stdout")) as file:
                self.assertIn(file.read(), "".join(lines))
        first = lines.index("#include <stdio.h>\n")
        program = "".join(lines[first:lines.index("}\n", first) + 1])
        first = next(k for k, line in enumerate(lines) if line.startswith("import sys"))
        last = next(k for k, line in enumerate(lines) if "no such row" in line)
        script = "".join(lines[first:last + 1])
        with tempfile.TemporaryDirectory() as folder:
            source, binary, out = (os.path.join(folder, name) for name in ("strip.c", "strip", "out"))
            with open(source, "w") as file:
                file.write(program)
            library = os.path.join(ROOT, "target", "lib", "librokzimp.a")
            subprocess.run(["gcc", "-I", os.path.join(ROOT, "include"), "-o", binary, source, library], check=True)
            self.assertEqual(subprocess.run([binary], capture_output=True, check=True).stdout.decode().splitlines(), printed)
            ran = subprocess.run([sys.executable, "-c", script], capture_output=True, check=True, cwd=ROOT)
            self.assertEqual(ran.stdout, b"966 True\n7682 9032\nTrue\nTrue\n[35976, 18256, 53696, 35976]\n7 no such row\n")
            frame = os.path.join(ROOT, "crates", "planes", "stdin")
            subprocess.run([os.path.join(ROOT, "tools", "frame_to_png.py"), frame, out], check=True)
            with open(out + ".red", "rb") as file:
                self.assertEqual(file.read(), struct.pack(">64H", *[1600] * 64))
            with open(out + ".png", "rb") as file:
                self.assertEqual(file.read(8), b"\x89PNG\r\n\x1a\n")
            subprocess.run([os.path.join(ROOT, "tools", "planes_to_frame.py"), "8", "8", "0", out, out + ".frame"], check=True)
            with open(out + ".frame", "rb") as file, open(frame, "rb") as before:
                self.assertEqual(file.read(), before.read())
            subprocess.run([os.path.join(ROOT, "tools", "seed_to_frame.py"), "0", "8", "8", "0", out + ".frame"], check=True)
            with open(out + ".frame", "rb") as file:
                self.assertEqual(file.read()[:12].hex(), "0100000085000800080003c6")

    def test_archive(self):
        """What the archive for C asks of the program that it is linked into."""
        library = os.path.join(ROOT, "target", "lib", "librokzimp.a")
        asked = subprocess.run(["nm", "-u", library], capture_output=True, check=True).stdout.decode()
        self.assertEqual({"memset"}, set(re.findall(r"^ +U (\w+)$", asked, re.MULTILINE)))

    def test_files_refused(self):
        flat = struct.pack(">BIHHB64H", 1, 133, 8, 8, 0, *[100] * 64)
        self.assertEqual(flat[:10].hex(), "01000000850008000800")
        for data, number in ((b"", 8), (flat[:9], 8), (flat[:-1], 8), (flat + b"\0", 8), (b"\2" + flat[1:], 8),
                             (struct.pack(">BIHHB", 1, 5, 0, 0, 9), 1), (struct.pack(">BIHHB8H", 1, 21, 1, 8, 0, *[1] * 8), 1),
                             (flat[:9] + b"\4" + flat[10:], 2), (flat[:-2] + b"\x10\0", 6)):
            self.assertEqual(self.run_tool(data), (1, b"refused %d\n" % number, {}))
        self.assertEqual(self.run_tool(flat)[0], 0)


if __name__ == "__main__":
    unittest.main()
