"""Red, green and blue planes from a Bayer mosaic, the mosaic back from them, and test frames from a seed: the library's calls for
Python.

Needs CPython and target/lib/librokzimp.so, which tools/build_library.sh builds; ROKZIMP_LIBRARY may name it elsewhere.

Mosaics and planes are lent as they are, and nothing is copied: a numpy array of uint16, array('H'), or a bytes-like object
(bytes, bytearray, mmap, memoryview) whose bytes are 16-bit samples in the machine's order. They may have several dimensions,
stored row by row without gaps. What is written has to be writable; what is only read need not be.

A refusal is raised as Refused, with the papers' number and word, and no lent sample is changed. A number too large for the
library, or below 0, is refused as the largest number would be; where there is no refusal (a seed, a state, a number of steps, the rows
of a piece) it raises ValueError. So do strip_height and threads of whole_frame below 1, and a buffer to be written that overlaps
another of the call. Calls let other Python threads run; see include/rokzimp.h for what threads may do at the same time.
"""
import array
import concurrent.futures
import ctypes
import operator
import os
import sys
import threading

WORDS = {
    1: ("off size", "width or height outside 2 to 4096"),
    2: ("unknown layout", "layout above 3"),
    3: ("off the frame", "no rows, or a row past the frame"),
    4: ("short halo", "the piece of the mosaic has not the exact length"),
    5: ("plane misfit", "one of the planes, or the mosaic to be written, is not rows * width long; or a test frame is not "
                        "width * height long, or its row not width"),
    6: ("over range", "some reading of the piece is above 4095"),
    7: ("no such row", "a plane lacks the row, or the row is past the frame"),
    8: ("torn file", "the file is not what its first ten bytes say"),
    9: ("not camera planes", "an observed sample is not a multiple of 16, or is above 65520"),
    10: ("unknown smoothing", "smoothing above 1"),
    11: ("over preview size", "by the preview, width above 1024 or more than 64 rows"),
}


class Refused(ValueError):
    """A refusal: its number, the papers' word for it, and what the word means."""

    def __init__(self, number):
        self.number = number
        self.word, self.meaning = WORDS[number]
        super().__init__("refused %d, %s: %s" % (number, self.word, self.meaning))

    def __reduce__(self):
        return Refused, (self.number,)


def _load():
    here = os.path.dirname(os.path.abspath(__file__))
    path = os.environ.get("ROKZIMP_LIBRARY") or os.path.join(here, "..", "target", "lib", "librokzimp.so")
    if not os.path.exists(path):
        raise OSError("%s is not there: build it by tools/build_library.sh" % os.path.normpath(path))
    library = ctypes.CDLL(path)
    size, word, byte = ctypes.c_size_t, ctypes.c_uint32, ctypes.c_uint8
    samples = [ctypes.c_void_p, size]
    frame = [size, size, byte]
    strips = [(entry + smoothed + check, word, frame + named + [size, size] + samples + planes)
              for entry in ("strip", "preview") for smoothed, named in (("", []), ("_smoothed", [byte]))
              for check, planes in (("", samples * 3), ("_check", [size] * 3))]
    for name, result, arguments in (
        *strips,
        ("piece_start", size, [size]),
        ("piece_rows", size, [size] * 3),
        ("mosaic_back", word, frame + [size, size] + samples * 4),
        ("test_frame", word, [word, size, size] + samples),
        ("test_row", word, [word, size, size, size] + samples),
        ("jump", word, [word, ctypes.c_uint64]),
        ("row_view_check", word, samples + [size, size]),
        ("row_view_start", size, samples + [size, size]),
        ("row_view_length", size, samples + [size, size]),
        ("partner_view_check", word, samples * 2 + frame + [size]),
        ("partner_view_plane", word, [byte, size]),
        ("partner_view_start", size, samples * 2 + frame + [size]),
        ("partner_view_length", size, samples * 2 + frame + [size]),
    ):
        function = getattr(library, "rokzimp_" + name)
        function.restype, function.argtypes = result, arguments
    return library


_library = _load()
_TOP = 2 ** (8 * ctypes.sizeof(ctypes.c_size_t)) - 1


def _size(number):
    number = operator.index(number)
    return number if 0 <= number <= _TOP else _TOP


def _exact(number, bits=8 * ctypes.sizeof(ctypes.c_size_t)):
    number = operator.index(number)
    if not 0 <= number < 2 ** bits:
        raise ValueError("%d is no number of %d bits" % (number, bits))
    return number


def _byte(number):
    number = operator.index(number)
    return number if 0 <= number <= 255 else 255


class _PyBuffer(ctypes.Structure):
    """CPython's Py_buffer."""

    _fields_ = [("buf", ctypes.c_void_p), ("obj", ctypes.c_void_p), ("len", ctypes.c_ssize_t), ("itemsize", ctypes.c_ssize_t),
                ("readonly", ctypes.c_int), ("ndim", ctypes.c_int), ("format", ctypes.c_char_p), ("shape", ctypes.c_void_p),
                ("strides", ctypes.c_void_p), ("suboffsets", ctypes.c_void_p), ("internal", ctypes.c_void_p)]


_get_buffer = ctypes.pythonapi.PyObject_GetBuffer
_get_buffer.argtypes = [ctypes.py_object, ctypes.POINTER(_PyBuffer), ctypes.c_int]
_get_buffer.restype = ctypes.c_int
_release_buffer = ctypes.pythonapi.PyBuffer_Release
_release_buffer.argtypes = [ctypes.POINTER(_PyBuffer)]
_release_buffer.restype = None
_WRITABLE = 1
_nothing = (ctypes.c_uint16 * 1)()


def _view(lent):
    """A memoryview of what is lent, if that is 16-bit samples or bytes."""
    view = memoryview(lent)
    form = view.format.lstrip("@=<" if sys.byteorder == "little" else "@=>")
    if form == "H" or form in ("B", "b", "c"):
        if not view.c_contiguous:
            raise BufferError("the samples have gaps between them: lend a contiguous buffer")
        if view.nbytes % 2:
            raise BufferError("an odd number of bytes is no run of 16-bit samples")
        return view
    raise TypeError("samples are unsigned 16-bit numbers in the machine's order, not of format %r" % view.format)


class _Lent:
    """The address and the count of what is lent, held in place from `with` to its end."""

    def __init__(self, lent, write=False):
        self.view, self.write = _view(lent), write

    def __enter__(self):
        self.buffer = _PyBuffer()
        _get_buffer(self.view, self.buffer, _WRITABLE if self.write else 0)
        self.count = self.buffer.len // 2
        self.address = self.buffer.buf if self.count else ctypes.addressof(_nothing)
        if self.address % 2:
            _release_buffer(self.buffer)
            raise BufferError("the samples start at an odd address")
        return self

    def __exit__(self, *why):
        _release_buffer(self.buffer)


def _apart(written, read):
    """Refuses runs that overlap where one of them is written: the library's contract is for runs that do not."""
    for k, p in enumerate(written):
        for q in written[k + 1:] + read:
            if p.count and q.count and p.address < q.address + 2 * q.count and q.address < p.address + 2 * p.count:
                raise ValueError("a buffer to be written overlaps another of the call")


def _made(width, rows):
    """Room for so many rows; none where the sizes are too large, as the library then refuses the call."""
    return array.array("H", bytes(2 * width * rows if width <= 4096 and rows <= 4096 else 0))


def _raise(number):
    if number:
        raise Refused(number)


def piece_start(first_row):
    """The first row of the mosaic that a strip from first_row on is lent."""
    return _library.rokzimp_piece_start(_exact(first_row))


def piece_rows(height, first_row, rows):
    """How many rows of the mosaic it is lent."""
    return _library.rokzimp_piece_rows(_exact(height), _exact(first_row), _exact(rows))


def _calls(smoothing, preview):
    """The strip call, its check, and what stands behind the layout in both."""
    name = "rokzimp_" + ("preview" if preview else "strip") + ("" if smoothing is None else "_smoothed")
    return getattr(_library, name), getattr(_library, name + "_check"), () if smoothing is None else (_byte(smoothing),)


def strip(width, height, layout, first_row, rows, piece, red, green, blue, smoothing=None, preview=False):
    """Fills rows first_row to first_row + rows - 1 of three planes of rows * width samples, from the rows of the mosaic that
    piece_start and piece_rows name. Smoothing 0 weights the five differences of a direction evenly, 1 by 26, 24, 21, 17 and 12
    hundredths from the pixel outward; where none is named it is 1. The preview takes at most 1024 columns and 64 rows, and refuses
    more with 11; what it takes it fills as the full-size entry does."""
    call, _, named = _calls(smoothing, preview)
    with _Lent(piece) as p, _Lent(red, True) as r, _Lent(green, True) as g, _Lent(blue, True) as b:
        _apart([r, g, b], [p])
        _raise(call(_size(width), _size(height), _byte(layout), *named, _size(first_row), _size(rows), p.address, p.count,
                    r.address, r.count, g.address, g.count, b.address, b.count))


_STACK = 2 ** 22  # bytes for a thread that fills strips: a strip takes less than 2 ** 20, and some systems give a thread less by default
_starting = threading.Lock()


def _in_threads(work, items, threads):
    """Does the work for each item, in up to that many threads, and returns when all have ended. What one of them raised is raised."""
    with concurrent.futures.ThreadPoolExecutor(threads) as pool:
        with _starting:  # the stack of new threads is one setting for the whole program
            before = threading.stack_size()
            threading.stack_size(max(before, _STACK))
            try:
                begun = [pool.submit(work, item) for item in items]
            finally:
                threading.stack_size(before)
    for each in begun:
        each.result()


_PREVIEW_ROWS = 64  # of a strip by the preview, at the most


def _whole_number(frame, rows, mosaic, planes, smoothing, preview):
    """The refusal of a frame that is filled in strips of so many rows, or 0: that of one strip of all rows, and by the preview 11."""
    if preview:
        _, check, named = _calls(smoothing, True)
        # a strip that is lent no piece is refused with 4, unless by a test before 4: 11 is one of them
        number = check(*frame, *named, 0, min(rows, frame[1]), mosaic.address, 0, 0, 0, 0)
        if number != 4:
            return number
    _, check, named = _calls(smoothing, False)
    return check(*frame, *named, 0, frame[1], mosaic.address, mosaic.count, *(plane.count for plane in planes))


def whole_frame(width, height, layout, mosaic, red=None, green=None, blue=None, strip_height=64, threads=1, smoothing=None, preview=False):
    """Fills three planes of height * width samples from the whole mosaic, in strips of strip_height rows (the last may be lower), all
    by one smoothing, as in `strip`; 1 where none is named. By the preview a strip has at most 64 rows, also where strip_height is more.
    Planes that are not lent are made, as array('H'). Returns the three. Everything is tested before the first strip is filled: a
    refusal is that of one strip of all rows; by the preview the rows are never too many, and a width above 1024 is refused with 11,
    after 1, 2 and 10, before 4, 5 and 6. With more than one thread the strips are filled side by side, and the planes are the same;
    with one, in the thread that calls."""
    call, _, named = _calls(smoothing, preview)
    frame = width, height, _ = _size(width), _size(height), _byte(layout)
    strip_height, threads = operator.index(strip_height), operator.index(threads)
    if strip_height < 1:
        raise ValueError("strip_height is below 1")
    if threads < 1:
        raise ValueError("threads is below 1")
    if preview:
        strip_height = min(strip_height, _PREVIEW_ROWS)
    with _Lent(mosaic) as m:
        planes = [_made(width, height) if plane is None else plane for plane in (red, green, blue)]
        with _Lent(planes[0], True) as r, _Lent(planes[1], True) as g, _Lent(planes[2], True) as b:
            _apart([r, g, b], [m])
            _raise(_whole_number(frame, strip_height, m, (r, g, b), smoothing, preview))

            def fill(first):
                rows = min(strip_height, height - first)
                start, at = piece_start(first), 2 * first * width
                _raise(call(*frame, *named, first, rows, m.address + 2 * start * width, piece_rows(height, first, rows) * width,
                            r.address + at, rows * width, g.address + at, rows * width, b.address + at, rows * width))

            firsts = range(0, height, strip_height)
            if threads == 1:
                for first in firsts:
                    fill(first)
            else:
                _in_threads(fill, firsts, threads)
    return tuple(planes)


def mosaic_back(width, height, layout, first_row, rows, red, green, blue, mosaic=None):
    """Writes the readings of rows first_row to first_row + rows - 1 into a mosaic of rows * width readings, from the three planes of
    these rows: each is the sample of its own colour's plane, divided by 16. The other samples may hold anything. A mosaic that is
    not lent is made, as array('H'). Returns the mosaic."""
    width, rows = _size(width), _size(rows)
    if mosaic is None:
        mosaic = _made(width, rows)
    with _Lent(red) as r, _Lent(green) as g, _Lent(blue) as b, _Lent(mosaic, True) as m:
        _apart([m], [r, g, b])
        _raise(_library.rokzimp_mosaic_back(width, _size(height), _byte(layout), _size(first_row), rows, r.address, r.count,
                                            g.address, g.count, b.address, b.count, m.address, m.count))
    return mosaic


def test_frame(seed, width, height, frame=None):
    """Writes the readings of the test frame of a 32-bit seed into a frame of height * width readings, row by row. One that is not lent
    is made, as array('H'). Returns the frame. A seed that has not 32 bits raises ValueError."""
    seed, width, height = _exact(seed, 32), _size(width), _size(height)
    if frame is None:
        frame = _made(width, height)
    with _Lent(frame, True) as f:
        _raise(_library.rokzimp_test_frame(seed, width, height, f.address, f.count))
    return frame


def test_row(seed, width, height, row, out=None):
    """Writes row `row` of that frame, width readings, without making the others. One that is not lent is made, as array('H').
    Returns the row. A seed that has not 32 bits raises ValueError."""
    seed, width = _exact(seed, 32), _size(width)
    if out is None:
        out = _made(width, 1)
    with _Lent(out, True) as o:
        _raise(_library.rokzimp_test_row(seed, width, _size(height), _size(row), o.address, o.count))
    return out


test_frame.__test__ = test_row.__test__ = False  # by their names a test runner would take them for tests


def jump(state, steps):
    """The generator's state after so many steps from a 32-bit state, any 64-bit number of them; other numbers raise ValueError. A
    reading is a new state // 2 ** 20."""
    return _library.rokzimp_jump(_exact(state, 32), _exact(steps, 64))


def _samples(lent):
    """A memoryview of format 'H' and one dimension, of the same memory."""
    view = _view(lent)
    if not view.nbytes:
        return memoryview(array.array("H"))
    try:
        return view.cast("B").cast("H")
    except ValueError:
        raise TypeError("no view of a buffer of format %r: lend array('H'), numpy's uint16 or bytes" % view.format) from None


def row_view(plane, width, row):
    """Row `row` of a plane, as a memoryview of the part of it, width samples long."""
    samples, width, row = _samples(plane), _size(width), _size(row)
    with _Lent(samples) as p:
        _raise(_library.rokzimp_row_view_check(p.address, p.count, width, row))
        start = _library.rokzimp_row_view_start(p.address, p.count, width, row)
        return samples[start:start + _library.rokzimp_row_view_length(p.address, p.count, width, row)]


def partner_view(red, blue, width, height, layout, row):
    """Row `row` of the red or of the blue plane, whichever shares that sensor row with green, as a memoryview of the part of it.
    Both planes start at row 0 of the frame."""
    both, frame = (_samples(red), _samples(blue)), (_size(width), _size(height), _byte(layout), _size(row))
    with _Lent(both[0]) as r, _Lent(both[1]) as b:
        arguments = (r.address, r.count, b.address, b.count) + frame
        _raise(_library.rokzimp_partner_view_check(*arguments))
        start = _library.rokzimp_partner_view_start(*arguments)
        samples = both[0] if _library.rokzimp_partner_view_plane(frame[2], frame[3]) == 0 else both[1]
        return samples[start:start + _library.rokzimp_partner_view_length(*arguments)]
