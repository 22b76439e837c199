#!/usr/bin/env python3
"""planes_cases.py SEED [DIRECTORY]: writes crates/planes_cases/stdin (SEED 1), inputs of the two small programs, each behind a byte
that says of which (0: frame files, 1: test frames) and a two-byte length, and crates/planes_cases/stdout, what the same
program of reference/reference.py prints for each. Without a DIRECTORY it also writes stdin and stdout of crates/planes_longest,
planes_long and planes_short, the longest file, one that is a byte too long and one that is a byte too short, and of crates/test_planes,
test_planes_long and test_planes_short, seed 0, 8 by 8, layout 0, the same and a tenth byte, and the same without the last."""
import os
import random
import sys

from stage import ROOT, RULES
import reference


def frame_file(w, h, layout, readings, version=1, length=None):
    body = w.to_bytes(2, 'big') + h.to_bytes(2, 'big') + bytes([layout]) + b''.join(x.to_bytes(2, 'big') for x in readings)
    length = len(body) if length is None else length
    return bytes([version]) + length.to_bytes(4, 'big') + body


LEAST = RULES.min_size               # of width and height


def some(rnd, n):
    return [rnd.randint(0, 4095) for _ in range(n)]


def accepted_files(rnd, flat):
    # 01's example; accepted frames of each layout, odd and even sizes, small ones, extreme readings, and the largest files
    yield flat
    for layout in range(4):
        yield frame_file(8, 8, layout, some(rnd, 64))
        yield frame_file(9, 11, layout, some(rnd, 99))
        yield frame_file(LEAST, LEAST, layout, some(rnd, LEAST * LEAST))
        yield frame_file(LEAST, LEAST + 1, layout, some(rnd, LEAST * (LEAST + 1)))
        yield frame_file(7, 4, layout, some(rnd, 28))
        yield frame_file(10, 8, layout, [rnd.choice([0, 4095]) for _ in range(80)])
    yield frame_file(8, 8, 0, [4095] * 64)
    yield frame_file(64, 64, 1, some(rnd, 4096))
    yield frame_file(LEAST, 4096 // LEAST, 2, some(rnd, 4096))
    yield frame_file(4096 // LEAST, LEAST, 3, some(rnd, 4096))


def refused_files(rnd, flat):
    off = LEAST - 1
    # 8
    yield b''
    yield flat[:9]
    yield flat[:10]
    yield flat[:137]
    yield flat + b'\0'
    yield frame_file(64, 64, 0, some(rnd, 4096)) + b'\0'
    yield frame_file(8, 8, 0, [100] * 64, version=0)
    yield frame_file(8, 8, 0, [100] * 64, version=2)
    yield frame_file(8, 8, 0, [100] * 64, length=132)
    yield frame_file(8, 8, 0, [100] * 64, length=2 ** 31 + 133)
    yield flat[:1] + (133).to_bytes(4, 'little') + flat[5:]
    yield frame_file(8, 9, 0, [100] * 64)
    yield frame_file(off, 8, 4, [5000] * (8 * off - 1))
    yield frame_file(32768, 65535, 0, [])
    yield frame_file(65535, 65535, 0, [])
    # 5 + 2 W H is the length of the rest, but for 2^32
    yield frame_file(46317, 46365, 0, [100] * 4057)
    # 1, also before 2 and 6
    yield frame_file(off, 8, 0, some(rnd, 8 * off))
    yield frame_file(8, off, 4, [5000] * (8 * off))
    yield frame_file(0, 8, 0, [])
    yield frame_file(8, 0, 0, [])
    yield frame_file(0, 4097, 9, [])
    yield frame_file(1, 4096, 0, some(rnd, 4096))
    # 2, also before 6
    yield frame_file(8, 8, 4, some(rnd, 64))
    yield frame_file(8, 8, 255, [4096] * 64)
    # 6
    yield frame_file(8, 8, 0, [100] * 63 + [4096])
    yield frame_file(8, 8, 0, [65535] + [100] * 63)
    # 4095 is none
    yield frame_file(8, 8, 0, [100] * 63 + [4095])


def files():
    rnd, flat = random.Random(int(sys.argv[1])), frame_file(8, 8, 0, [100] * 64)
    yield from accepted_files(rnd, flat)
    yield from refused_files(rnd, flat)


def name(seed, w, h, layout):
    """The nine bytes that name a test frame."""
    return seed.to_bytes(4, 'big') + w.to_bytes(2, 'big') + h.to_bytes(2, 'big') + bytes([layout])


def names():
    rnd = random.Random('test frames %s' % sys.argv[1])

    def seed():
        return rnd.randrange(2 ** 32)

    # the README's example; each layout, odd and even sizes, the ends of the seeds, and the largest frames
    yield name(0, 8, 8, 0)
    for layout in range(4):
        yield name(seed(), 8, 8, layout)
        yield name(seed(), 9, 11, layout)
        yield name(seed(), LEAST, 4096 // LEAST, layout)
        yield name(seed(), LEAST, LEAST, layout)
        yield name(seed(), 7, LEAST + 1, layout)
    for s in (1, 255, 256, 65536, 2 ** 24, 2 ** 31, 2 ** 32 - 1):
        yield name(s, 10, 9, 1)
    yield name(seed(), 64, 64, 3)
    yield name(seed(), 4096 // LEAST, LEAST, 2)
    yield name(seed(), 63, 65, 0)
    # 8: not nine bytes
    good = name(seed(), 8, 8, 0)
    for n in range(9):
        yield good[:n]
    yield good + b'\0'
    yield good + good
    # 8 before 1 and 2
    yield name(0, 0, 0, 9)[:8]
    yield name(0, 0, 0, 9) + b'\0'
    # 1, also before 2 and before W x H
    for w, h in ((0, 8), (8, 0), (LEAST - 1, 8), (8, LEAST - 1), (4097, 8), (8, 4097), (65535, 65535), (1, 4096), (0, 0)):
        yield name(seed(), w, h, 0)
        yield name(seed(), w, h, 4)
    # 2, also before W x H
    for layout in (4, 9, 255):
        yield name(seed(), 8, 8, layout)
        yield name(seed(), 4096, 8, layout)
    # 8: W x H above 4096
    for w, h in ((64, 65), (17, 241), (4096, 4096), (4096, 8), (LEAST, 4096 // LEAST + 1)):
        yield name(seed(), w, h, 3)


def longest():
    rnd = random.Random(int(sys.argv[1]))
    data = frame_file(64, 64, 2, some(rnd, 4096))
    assert len(data) == 8202 and 'refused' not in reference.program(RULES, data)
    return data


def write(where, stdin, printed):
    os.makedirs(where, exist_ok=True)
    with open(os.path.join(where, 'stdin'), 'wb') as file:
        file.write(stdin)
    with open(os.path.join(where, 'stdout'), 'w') as file:
        file.write(printed)


def one(crate, program, data):
    write(os.path.join(ROOT, 'crates', crate), data, program(RULES, data))


def main():
    made = [(0, data) for data in files()] + [(1, data) for data in names()]
    among = b''.join(bytes([kind]) + len(data).to_bytes(2, 'big') + data for kind, data in made)
    assert len(among) <= 65536, 'stdin is longer than the program reads'
    printed = [(reference.program, reference.generator_program)[kind](RULES, data) for kind, data in made]
    write(sys.argv[2] if len(sys.argv) > 2 else os.path.join(ROOT, 'crates', 'planes_cases'), among, ''.join(printed))
    if len(sys.argv) == 2:
        one('planes_longest', reference.program, longest())
        one('planes_long', reference.program, longest() + b'\0')
        one('planes_short', reference.program, frame_file(8, 8, 0, [100] * 64)[:-1])
        one('test_planes', reference.generator_program, name(0, 8, 8, 0))
        one('test_planes_long', reference.generator_program, name(0, 8, 8, 0) + b'\0')
        one('test_planes_short', reference.generator_program, name(0, 8, 8, 0)[:-1])
    print('%d files, %d of test frames' % tuple(sum(kind == k for kind, _ in made) for k in (0, 1)))


main()
