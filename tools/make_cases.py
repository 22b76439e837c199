#!/usr/bin/env python3
"""Writes crates/cases/stdin and crates/cases/stdout: cases, and what the program `cases` must answer.

    python3 tools/make_cases.py SEED [DIRECTORY]       the committed files: SEED 1

The answers come from reference/ and from nothing else. Each case is a line of stdin and a line of stdout.
A line is a letter and then whole numbers, single spaces between them; a '#' line is a comment and has no answer.

S W H layout  entry choice method  a n  P R G B  width seed base down across oddrow oddcol checker from step kind amount shape at value at value first
  nb given advance {first count method smoothing}*given
    A strip call. P, R, G, B are the lengths of the piece and of the planes that are lent; from width to first it is the recipe of their contents.
    entry is 0 for the full-size entry (rokzimp_strip and so on) and 1 for the preview (rokzimp_preview and so on). choice is the smoothing: up to
    255 it is named, by rokzimp_strip_smoothed or rokzimp_preview_smoothed and its check; 256: none is, by rokzimp_strip or rokzimp_preview and its check.
    method and the bands have their places for requests of document 02 that have not landed. A case names none of them, which is 256 and at the
    end 255 0 0, and the program does not read them. Where a table is lent it will have nb bands: band t is number t % given of those given, 6 at
    the most, with advance (t / given) added to its first row.
    Answer: the number of the call, that of the check, and for each plane sum, checksum, first and last sample.
C ..
    Every strip of a frame of at most 9 rows and columns: with the same numbers as by S, of which a, n, P, R, G, B are not read, width is W and first 0. All
    pieces are of one mosaic, W H readings by the recipe. The strips stand one after the other in the planes, by first row and then by count.
    Answer: the length of the planes, and for each plane sum, checksum, first and last sample.
M W H layout a n  R G B M  width seed round  plane at value  plane at value
    The mosaic back from planes. R, G, B and M are the lengths of the planes and of the mosaic that are lent. In plane c (0 red, 1 green, 2 blue) a sample
    whose row and column, by width, have parities p and q is rounded down to a multiple of 16 if bit 4c + 2p + q of round is set; then two samples are set.
    Answer: the number of rokzimp_mosaic_back, that of rokzimp_mosaic_back_check, and of the mosaic sum, checksum, first and last reading.
B ..
    A strip call as by S with the same numbers, and then the mosaic back, R long, from the planes that it has left. Answer: as by M.
J state r
    A jump. Answer: the state of rokzimp_jump.
W seed W H length held
    A test frame, in one of this length that is lent. Answer: the number of rokzimp_test_frame, and of the lent frame sum, checksum, first and last reading.
L seed W H row length held
    One row of it. Answer: the same of rokzimp_test_row and the lent row.
V W row length
    A row view; sample t of the plane is t. Answer: number, start, length and checksum of what is shown.
Q W H layout row red blue
    A partner view of planes of these lengths; sample t of red is t, of blue 32768 + t.
    Answer: number, 0 for red or 2 for blue, start, length and checksum of what is shown; 0 0 0 0 if nothing is.
R H a n
    The rows that a strip is lent of the mosaic. Answer: rokzimp_piece_start and rokzimp_piece_rows.
F choice c s s s s A A A A
    Green of reading c by fusion of east, west, north, south, with the weights of smoothing choice: direction sums, and five-sums plus 16380 T, of
    which T is the weights' total.
    Answer: green in units.

A line has 63 numbers at the most, and stdin no more bytes than the program has room for.

Recipe. A number named in it counts modulo 65536, but for width, seed and at. The generator steps x to 1664525 x + 1013904223 modulo 2^32.
Reading t of the piece is at row i = t / width + first and column j = t % width, of the frame; x is the generator after t + 1 steps from seed. With
    noise = kind 0: (x / 2^20) amount / 4096;  kind 1: (x / 2^31) amount;  kind 3: ((i / 4 + j / 3) % 7) amount, which is no noise but steps;
            else: (x / 2^20 % 4) amount, only where x < 2^28
    v = base + down i + across j + oddrow (i % 2) + oddcol (j % 2) + checker ((i + j) % 2) + (step, only where i + j >= from) + noise
the reading is, by shape, 0: min(v, 4095); 1: v % 4096; else: 4095 - min(v, 4095). Then the readings at the two `at` (if there are such) are set.
Planes and mosaics hold, before the call, x / 2^16 with the generator from seed + 1 (red), seed + 2 (green), seed + 3 (blue), seed + 4 (mosaic), and test
frames and rows from held.
Checksum: from 0, for each sample y in order, h becomes 1664525 h + y + 1 modulo 2^32. 1664525 is odd, so one wrong sample always changes it.
"""
import os
import random
import re
import sys
import unittest.mock

from make_figures import edge_repeated, reflected_once
from stage import ROOT, RULES, STAGE
import reference as r
import vectors

M16, M32 = 2 ** 16, 2 ** 32
NONE = 2 ** 63                       # a position that no piece has
BIG = [2 ** 12 + 1, 2 ** 16, 2 ** 32 - 1, 2 ** 32, 2 ** 63, 2 ** 64 - 8, 2 ** 64 - 2, 2 ** 64 - 1]
MOST_PIECE, MOST_PLANE = 4096 * 22, 4096 * 8 + 8
LEAST = RULES.min_size               # of width and height
UNNAMED = 256                        # a smoothing, or a method, that is not named
NO_BANDS = [255, 0, 0]
FULL_SIZE, PREVIEW = 0, 1            # entries
MOST_SUM = 884520


def step(x):
    return (1664525 * x + 1013904223) % M32


# ------------------------------------------------------------ both sides expand a recipe
class Recipe:
    FIELDS = 'base down across oddrow oddcol checker from_ step kind amount shape'.split()

    def __init__(self, **given):
        self.v = {f: 0 for f in self.FIELDS}
        self.v.update(given)

    def numbers(self):
        return [self.v[f] for f in self.FIELDS]


def reading(p, x, i, j):
    base, down, across, oddrow, oddcol, checker, from_, stp, kind, amount, shape = [n % M16 for n in p]
    i, j = i % M16, j % M16
    noise = (x >> 20) * amount // 4096 if kind == 0 else (x >> 31) * amount if kind == 1 else \
        (i // 4 + j // 3) % 7 * amount if kind == 3 else (x >> 20) % 4 * amount if x < 2 ** 28 else 0
    v = base + down * i + across * j + oddrow * (i % 2) + oddcol * (j % 2) + checker * ((i + j) % 2)
    v += (stp if i + j >= from_ else 0) + noise
    return min(v, 4095) if shape == 0 else v % 4096 if shape == 1 else 4095 - min(v, 4095)


def expand_piece(length, width, seed, p, puts, first):
    out, x = [], seed % M32
    for t in range(length):
        x = step(x)
        out.append(reading(p, x, t // width + first, t % width))
    for at, value in puts:
        if at < length:
            out[at] = value % M16
    return out


def expand_plane(length, seed):
    out, x = [], seed % M32
    for _ in range(length):
        x = step(x)
        out.append(x >> 16)
    return out


def checksum(samples):
    h = 0
    for y in samples:
        h = (1664525 * h + y + 1) % M32
    return h


# ------------------------------------------------------------ answers, by the reference
def shown(q):
    return [sum(q), checksum(q), q[0] if q else 0, q[-1] if q else 0]


def planes_of(seed, *lengths):
    return [expand_plane(length, seed + k) for k, length in enumerate(lengths, 1)]


def strip_of(v):
    """The numbers of the strip call and of its check, and the planes that it leaves."""
    (W, H, layout), (a, n, P, R, G, B, width, seed) = v[:3], v[6:14]
    p, puts, first = v[14:25], [(v[25], v[26]), (v[27], v[28])], v[29]
    assert v[3] in (FULL_SIZE, PREVIEW) and v[5] == UNNAMED and v[30:] == NO_BANDS, v
    piece = expand_piece(P, max(width, 1), seed, p, puts, first)
    planes = planes_of(seed, R, G, B)
    f, preview = r.Frame(W, H, layout, None if v[4] == UNNAMED else v[4]), v[3] == PREVIEW
    num = r.strip_number(RULES, f, a, n, piece, planes, preview=preview)
    return r.strip_call(RULES, f, a, n, piece, planes, preview=preview), num, planes


def answer_S(v):
    got, num, planes = strip_of(v)
    return [got, num] + [n for q in planes for n in shown(q)]


def answer_C(v):
    (W, H, layout), seed = v[:3], v[13]
    mosaic = expand_piece(W * H, W, seed, v[14:25], [(v[25], v[26]), (v[27], v[28])], 0)
    f = r.Frame(W, H, layout, None if v[4] == UNNAMED else v[4])
    out = [[], [], []]
    for a in range(H):
        for n in range(1, H - a + 1):
            lo, hi = r.strip_rows(H, a, n)
            planes = [[0] * (n * W) for _ in range(3)]
            assert r.strip_call(RULES, f, a, n, mosaic[lo * W:hi * W], planes, preview=v[3] == PREVIEW) == 0
            for strips, plane in zip(out, planes):
                strips += plane
    return [len(out[0])] + [n for q in out for n in shown(q)]


def back(W, H, layout, a, n, planes, mosaic):
    got = r.mosaic_back(RULES, r.Frame(W, H, layout), a, n, planes, mosaic)
    return [got, got] + shown(mosaic)


def answer_M(v):
    width, seed, bits = v[9:12]
    *planes, mosaic = planes_of(seed, *v[5:9])
    for c, q in enumerate(planes):
        for t in range(len(q)):
            if bits >> 4 * c + 2 * (t // width % 2) + t % width % 2 & 1:
                q[t] -= q[t] % 16
    for plane, at, value in (v[12:15], v[15:18]):
        if at < len(planes[plane]):
            planes[plane][at] = value
    return back(*v[:5], planes, mosaic)


def answer_B(v):
    planes, R, seed = strip_of(v)[2], v[9], v[13]
    return back(*v[:3], *v[6:8], planes, expand_plane(R, seed + 4))


def answer_J(v):
    return [r.jump(*v)]


def answer_W(v):
    *named, length, held = v
    lent = expand_plane(length, held)
    return [r.walk(RULES, *named, lent)] + shown(lent)


def answer_L(v):
    *named, length, held = v
    lent = expand_plane(length, held)
    return [r.row_direct(RULES, *named, lent)] + shown(lent)


def answer_V(v):
    W, row, length = v
    num = r.row_view_check(RULES, length, W, row)
    start, shown = r.row_view(RULES, length, W, row)
    return [num, start, shown, checksum(range(start, start + shown))]


def answer_Q(v):
    W, H, layout, row, red, blue = v
    num = r.partner_view_check(RULES, red, blue, W, H, layout, row)
    which, start, shown = r.partner_view(RULES, red, blue, W, H, layout, row)
    at = start + (32768 if which == r.B else 0)
    return [num, which or 0, start, shown, checksum(range(at, at + shown))]


def answer_R(v):
    lo, hi = r.strip_rows(*v)
    return [lo, max(0, hi - lo)]


def most_five(choice):
    return 16380 * sum(r.WEIGHTS[choice])


def added(choice, qs, As):
    return r.fusion(qs, As, sum(r.WEIGHTS[choice]))


def shares(sums):
    return r.shares([r.guard(s) for s in sums], RULES.scale)


def middle_reading(add):
    """A reading whose green, with this added, is about the middle."""
    return min(max((r.TOP // 2 - add) // 16, 0), 4095)


def answer_F(v):
    choice, c, sums, As = v[0], v[1], v[2:6], [A - most_five(v[0]) for A in v[6:]]
    return [r.stop(16 * c + added(choice, shares(sums), As))]


ANSWER = {'S': answer_S, 'C': answer_C, 'M': answer_M, 'B': answer_B, 'J': answer_J, 'W': answer_W, 'L': answer_L, 'V': answer_V, 'Q': answer_Q, 'R': answer_R, 'F': answer_F}


def inward(direction):
    """Five-sums of which one direction (0 to 3) has its weights in the other order."""
    right = r.Work.five_sums

    def wrong(self, i, j, choice):
        out = list(right(self, i, j, choice))
        with unittest.mock.patch.dict(r.WEIGHTS, {choice: r.WEIGHTS[choice][::-1]}):
            out[direction] = right(self, i, j, choice)[direction]
        return out
    return unittest.mock.patch.object(r.Work, 'five_sums', wrong)


# ------------------------------------------------------------ cases
class Maker:
    def __init__(self, seed):
        self.g = random.Random('cases/%d' % seed)
        self.seed = seed
        self.lines, self.answers, self.count = [], [], {}
        self.turn = 0

    def add(self, kind, *numbers):
        v = list(numbers)
        assert len(v) < 64 and all(0 <= n < 2 ** 64 for n in v), v
        ans = ANSWER[kind](v)
        self.lines.append(' '.join(map(str, [kind] + v)))
        self.answers.append(' '.join(map(str, ans)))
        preview = 'p' if kind in 'SBC' and v[3] == PREVIEW else ''         # counted apart
        key = kind + preview + (str(ans[0]) if kind in 'SMBWLVQ' else '')
        self.count[key] = self.count.get(key, 0) + 1
        return ans

    def note(self, text):
        self.lines.append('# ' + text)

    # -------------------------------------------------------- contents
    def recipe(self, W, H):
        g = self.g
        k = g.randrange(16)
        if k < 4: return Recipe(amount=4096)
        if k == 4: return Recipe(kind=1, amount=4095)
        if k == 5: return Recipe(base=g.choice((0, 1, 4095, g.randrange(4096))))
        if k == 6: return Recipe(checker=4095, shape=g.choice((0, 2)))
        if k == 7: return Recipe(**{g.choice(('oddrow', 'oddcol')): 4095, 'shape': g.choice((0, 2))})
        if k == 8: return Recipe(down=g.randrange(120), across=g.randrange(120), base=g.randrange(300), shape=g.randrange(3))
        if k == 9: return Recipe(down=g.randrange(4096), across=g.randrange(4096), base=g.randrange(4096), shape=1)
        if k == 10: return Recipe(base=g.randrange(300, 3700), amount=g.choice((2, 6, 60, 300)))
        if k == 11:
            return Recipe(base=g.randrange(600), oddrow=g.randrange(900), oddcol=g.randrange(900), kind=2, amount=g.choice((0, 1, 2, 5)))
        if k == 12:
            return Recipe(kind=2, amount=g.choice((1, 30, 700)), shape=g.choice((0, 2)), **{g.choice(('oddrow', 'oddcol', 'checker')): 4095})
        if k == 13: return Recipe(base=g.randrange(4096), from_=g.randrange(W + H), step=g.randrange(4096), shape=1)
        if k == 14:
            return Recipe(base=g.choice((0, 4095)), from_=g.randrange(W + H), step=4095, checker=g.randrange(4096), shape=1)
        return Recipe(checker=g.randrange(4096), oddrow=g.randrange(4096), oddcol=g.randrange(4096), amount=g.randrange(50), shape=1)

    def textured(self):
        """Noise everywhere, and few samples stopped."""
        g = self.g
        return Recipe(base=g.randrange(500, 1500), oddrow=g.randrange(400), oddcol=g.randrange(400), amount=g.randrange(200, 1500), shape=g.choice((0, 2)))

    def impulses(self, length):
        g, out = self.g, []
        for _ in range(2):
            out.append((g.randrange(max(length, 1)), g.choice((0, 1, 2000, 4095))) if g.random() < .25 else (NONE, 0))
        return out

    # -------------------------------------------------------- a strip call
    def strip(self, W, H, layout, a, n, recipe=None, puts=None, seed=None, P=None, planes=None, true=None, kind='S', choice=None, entry=FULL_SIZE):
        """The lengths are the right ones of the call `true` (W, H, a, n), or of this one, unless they are given. The smoothing is 0, 1 or not named, in turn,
        unless it is given."""
        w, h, b, m = true or (W, H, a, n)
        lo, hi = r.strip_rows(h, b, m)
        P = (hi - lo) * w if P is None else P
        planes = [m * w] * 3 if planes is None else planes
        assert P <= MOST_PIECE and max(planes) <= MOST_PLANE, (W, H, a, n, P, planes)
        recipe = recipe or self.recipe(w, h)
        puts = self.impulses(P) if puts is None else puts + [(NONE, 0)] * (2 - len(puts))
        seed = r.jump(self.g.randrange(M32) if seed is None else seed, lo * w)
        if choice is None:
            choice, self.turn = (0, 1, UNNAMED)[self.turn % 3], self.turn + 1
        return self.add(kind, W, H, layout, entry, choice, UNNAMED, a, n, P, *planes, w, seed, *recipe.numbers(),
                        *[n for put in puts for n in put], lo, *NO_BANDS)

    def cut(self, H):
        g = self.g
        k = g.randrange(7)
        if k == 0: return 0, H
        if k == 1: return H - 1, 1
        if k == 2: return 0, 1
        if k == 3: return g.randrange(H), 1
        a = g.randrange(H)
        return a, g.randrange(1, H - a + 1)

    def size(self, top=40):
        g = self.g
        return g.choice((g.randrange(LEAST, 8), 8, 9, g.randrange(8, 20), g.randrange(8, top + 1)))

    def accepted(self, count):
        self.note('strips of frames of %d to 40 rows and columns, cut anywhere, by either entry' % LEAST)
        for k in range(count):
            W, H = self.size(), self.size()
            a, n = self.cut(H)
            assert self.strip(W, H, k % 4, a, n, entry=k // 4 % 2)[0] == 0

    def cuts(self):
        self.note('one frame in every cut of 1 row and of several, and whole; the entries in turn')
        for W, H, layout, choice in ((11, 19, 0, 0), (8, 16, 1, 1), (9, 23, 2, UNNAMED), (12, 17, 3, 0)):
            seed, rec = self.g.randrange(M32), self.recipe(W, H)
            for n in (1, self.g.randrange(2, 6), H):
                for a in range(0, H, n):
                    assert self.strip(W, H, layout, a, min(n, H - a), rec, [], seed, choice=choice, entry=a // n % 2)[0] == 0

    def small(self):
        self.note('every strip of frames of %d to 9 rows and columns, of each size by either entry' % LEAST)
        for W in range(LEAST, 10):
            for H in range(LEAST, 10):
                # the rules read at most 6 outside, so of 7 and more one reflection is enough
                wrongs = (edge_repeated, reflected_once) if min(W, H) < 7 else (edge_repeated,)
                for layout in range(4):
                    right = self.strip(W, H, layout, 0, H, self.textured(), [], kind='C', entry=(W + H + layout) % 2)
                    line = list(map(int, self.lines[-1].split()[1:]))
                    for wrong in wrongs:
                        with unittest.mock.patch.object(r, 'mirror', wrong):
                            assert answer_C(line) != right, (W, H, layout, wrong)

    def smoothings(self, count):
        g = self.g
        self.note('strips that name either smoothing or none, and 2 and 255; an edge across, so that no direction is like another')
        told = [0] * 5                   # how many cases would show each direction's weights in the other order, and even weights
        for k in range(count):
            W, H = g.randrange(8, 25), g.randrange(8, 25)
            rec = Recipe(base=g.randrange(500), down=g.randrange(1, 60), across=g.randrange(1, 60), from_=g.randrange(4, W + H - 4), step=g.randrange(800, 3000),
                         amount=g.randrange(2, 400), shape=g.choice((0, 2)))
            seed, (a, n) = g.randrange(M32), (0, H) if k % 2 else self.cut(H)

            def call(choice):
                return self.strip(W, H, k % 4, a, n, rec, [], seed, choice=choice, entry=k // 4 % 2)
            even, tapered, unnamed = call(0), call(1), call(UNNAMED)
            assert even[0] == tapered[0] == 0 and unnamed == tapered
            for d in range(4):
                with inward(d):
                    told[d] += ANSWER['S'](list(map(int, self.lines[-1].split()[1:]))) != tapered
            told[4] += even != tapered
            for choice in (2, 255):
                assert call(choice)[0] == 10
        assert min(told) > count / 2, told

    def steps(self):
        """Few grey levels: what fusion adds is often a half, exactly, with smoothing 1 (random readings hardly give one)."""
        for k in range(16):
            amount = (25, 25, 25, 100, 1, 7, 585, 25)[k % 8]
            got = self.strip(20 + 3 * k % 11, 19 + 5 * k % 13, k % 4, 0, 19 + 5 * k % 13, Recipe(kind=3, amount=amount), [], choice=(1, 1, 0)[k % 3], entry=k % 2)
            assert got[0] == 0

    def room_by_width(self):
        """A call's room goes by the width: up to 128 columns, up to 1024, more."""
        self.note('widths 127, 128, 129, 1023, 1024, 1025 by either entry; tall frames in previews')
        for W, H, a, n in ((127, 9, 2, 7), (128, 9, 0, 9), (128, 40, 20, 1), (129, 9, 0, 9), (129, 40, 39, 1), (1023, 9, 3, 4), (1024, 8, 0, 8), (1025, 8, 0, 8),
                           (LEAST, 4096, 4032, 64), (8, 4096, 0, 64), (9, 4096, 4095, 1), (4096, LEAST, 0, 1), (4097, LEAST, 0, 1), (LEAST, 4097, 0, 1)):
            for entry in (FULL_SIZE, PREVIEW):
                for choice in (0, 1):
                    number = 1 if 4097 in (W, H) else 11 if entry == PREVIEW and W > 1024 else 0
                    assert self.strip(W, H, self.g.randrange(4), a, n, choice=choice, entry=entry)[0] == number

    def wide_and_tall(self):
        g = self.g
        self.note('wide and tall frames; sizes %d and 4096' % LEAST)
        for W, H, a, n in ((4096, LEAST, 0, LEAST), (4096, LEAST, LEAST - 1, 1), (4096, 8, 0, 8), (4096, 9, 3, 2), (4095, 22, 7, 2), (4096, 30, 11, 8), (4096, 4096, 2000, 1),
                           (4096, 4096, 4095, 1), (4096, 4096, 0, 2), (1025, 13, 5, 4), (2047, 8, 2, 3),
                           (LEAST, 4096, 0, 4096), (LEAST, 4096, 4095, 1), (LEAST, 4096, 4000, 96), (8, 4096, 0, 4096), (9, 4096, 1234, 30), (8, 4095, 4090, 5), (33, 901, 450, 20)):
            assert self.strip(W, H, g.randrange(4), a, n)[0] == 0

    def limits(self):
        off, least = LEAST - 1, LEAST
        self.note('sizes %d, %d, 4096, 4097: strips, mosaics back, views, test frames and rows' % (off, least))
        for W, H in ((off, least), (least, off), (4097, least), (least, 4097), (off, 4097), (least, least), (least, 4096), (4096, least)):
            number = int(off in (W, H) or 4097 in (W, H))
            for L in range(4):
                assert self.strip(W, H, L, 0, 1)[0] == number
                assert self.mosaic(W, H, L, 0, 1)[0] == number
                assert self.add('Q', W, H, L, 0, W, W)[0] == number
            assert self.add('V', W, 0, W)[0] == (W in (off, 4097))
            assert self.frame(self.g.randrange(M32), W, H, W * H)[0] == number
            assert self.row(self.g.randrange(M32), W, H, 0, W)[0] == number

    def figures(self):
        self.note('readings 4095 and 4096')
        for v, num in ((4095, 0), (4096, 6), (65535, 6)):
            for at in (0, 8 * 8 - 1, 8 * 4 + 3):
                assert self.strip(8, 8, self.g.randrange(4), 0, 8, puts=[(at, v)])[0] == num
            assert self.strip(LEAST, LEAST, self.g.randrange(4), 0, LEAST, puts=[(LEAST * LEAST - 1, v)])[0] == num
        self.note('the three strips of the rule, and off by one row or one reading')
        for a, n, rows in ((9, 2, 16), (0, 1, 8), (19, 1, 8)):
            for W in (8, 13):
                for d, num in ((0, 0), (W, 4), (-W, 4), (1, 4), (-1, 4)):
                    assert self.strip(W, 20, self.g.randrange(4), a, n, P=rows * W + d)[0] == num
        self.note('8 by 8, layout 0: red 400, green 200, blue 100; red 4095, others 0')
        for recipe, planes in ((Recipe(base=400, oddrow=4096 - 150, oddcol=4096 - 150, checker=4096 - 50, shape=1), (6400, 3200, 1600)),
                               (Recipe(oddrow=4095, oddcol=4095, shape=2), (65520, 0, 0))):
            got = self.strip(8, 8, 0, 0, 8, recipe, [])
            assert got[2::4] == [64 * p for p in planes] and got[4::4] == list(planes)

    def over_range(self, count):
        self.note('one reading above 4095, anywhere in the piece')
        for k in range(count):
            W, H = self.size(24), self.size(30)
            a, n = self.cut(H)
            lo, hi = r.strip_rows(H, a, n)
            P = (hi - lo) * W
            at = self.g.choice((0, P - 1, self.g.randrange(P), self.g.randrange(P)))
            assert self.strip(W, H, self.g.randrange(4), a, n, puts=[(at, self.g.choice((4096, 4096, 65535)))], entry=k % 2)[0] == 6

    def lengths(self, count):
        g = self.g
        self.note('piece, or a plane, one too long or too short, or empty')
        for k in range(count):
            W, H = self.size(24), self.size(30)
            a, n = self.cut(H)
            lo, hi = r.strip_rows(H, a, n)
            P = (hi - lo) * W
            d = g.choice((1, -1))
            if k % 4 == 0:
                assert self.strip(W, H, g.randrange(4), a, n, P=g.choice((P + d, P + d * W, 0)), entry=k // 4 % 2)[0] == 4
            else:
                planes = [n * W] * 3
                planes[k % 4 - 1] = g.choice((n * W + d, n * W + d, 0))
                assert self.strip(W, H, g.randrange(4), a, n, planes=planes, entry=k // 4 % 2)[0] == 5

    def names(self, count):
        g = self.g
        self.note('layouts 4 and 255, sizes off, smoothings 2 to 255, rows off the frame, huge a and n')
        for k in range(count):
            W, H, L, choice = self.size(20), self.size(20), g.randrange(4), None
            a, n = self.cut(H)
            true = (W, H, a, n)
            t = k % 7
            if t == 0: L = g.choice((4, 5, 255))
            if t == 1: W = g.choice([0, LEAST - 1, 4097] + BIG)
            if t == 2: H = g.choice([0, LEAST - 1, 4097] + BIG)
            if t == 3: n = g.choice([0, H - a + 1] + BIG)
            if t == 4: a = g.choice([H - n + 1, H] + BIG)
            if t == 5: a, n = g.choice(((2 ** 64 - 1, 1), (2 ** 64 - 1, 2), (2 ** 64 - n, n), (1, 2 ** 64 - 1), (a, 2 ** 64 - max(a, 1)),
                                        (2 ** 63, 2 ** 63), (2 ** 64 - 1, 2 ** 64 - 1), (H, 0), (H + 1, 0)))
            if t == 6: choice = g.choice((2, 3, 128, 255))
            assert self.strip(W, H, L, a, n, true=true, choice=choice, entry=k // 7 % 2)[0] in (1, 2, 3, 10)

    def mixed(self, count):
        g = self.g
        self.note('several faults at once: the first in the order 1 2 10 3 4 5 6 counts, and in the preview 11 after 3')
        for k in range(count):
            W, H, L, choice = self.size(20), self.size(20), g.randrange(4), None
            a, n = self.cut(H)
            true = (W, H, a, n)
            lo, hi = r.strip_rows(H, a, n)
            P, planes, puts = (hi - lo) * W, [n * W] * 3, []
            for t in g.sample(range(9), g.choice((2, 2, 3, 4))):
                if t == 0: W = g.choice([0, LEAST - 1, 4097] + BIG)
                if t == 1: H = g.choice([0, LEAST - 1, 4097] + BIG)
                if t == 2: L = g.choice((4, 255))
                if t == 3: n = g.choice([0] + BIG)
                if t == 4: P += g.choice((1, -1))
                if t == 5: planes[g.randrange(3)] += g.choice((1, -1))
                if t == 6: puts = [(g.randrange(P), 4096)]
                if t == 7: choice = g.choice((2, 255))
                if t == 8: W = 1025
            self.strip(W, H, L, a, n, puts=puts, P=P, planes=planes, true=true, choice=choice, entry=k % 2)

    # -------------------------------------------------------- the preview's limits
    def both_entries(self, number, preview_number, *call, **named):
        """The same call by the full-size entry and by the preview, and what they answer. Where the numbers are the same, so are the samples."""
        named = {'recipe': self.textured(), 'seed': self.g.randrange(M32), 'choice': self.g.choice((0, 1, UNNAMED)), 'puts': [], **named}
        full, preview = (self.strip(*call, entry=entry, **named) for entry in (FULL_SIZE, PREVIEW))
        assert (full[0], preview[0]) == (number, preview_number), (call, full, preview)
        assert number != preview_number or full == preview

    def preview_limits(self):
        g = self.g
        self.note('1023, 1024 and 1025 columns; 63, 64 and 65 rows; each call by both entries')
        for W in (1023, 1024, 1025):
            for H, a, n in ((LEAST, 0, 2), (9, 6, 1)):
                self.both_entries(0, 11 if W > 1024 else 0, W, H, g.randrange(4), a, n)
        for n in (63, 64, 65):
            for W, H, a in ((LEAST, 66, 0), (3, n, 0), (8, 70, g.randrange(71 - n))):
                self.both_entries(0, 11 if n > 64 else 0, W, H, g.randrange(4), a, n)
        for H, a, n in ((64, 0, 65), (65, 1, 65), (70, 6, 65), (70, 7, 64), (70, 2 ** 64 - 1, 65), (70, 0, 2 ** 64 - 1)):
            self.both_entries(3, 3, LEAST, H, g.randrange(4), a, n, true=(LEAST, 70, 0, 64))
        self.note('as large as there is room for')
        for W, H, a, n in ((1024, 64, 13, 32), (512, 78, 7, 64)):
            assert self.strip(W, H, g.randrange(4), a, n, entry=PREVIEW)[0] == 0

    def preview_damaged(self):
        g = self.g
        self.note('at and over the limits with one fault more, by both entries: 1, 2, 10 and 3 come before 11, and 4, 5 and 6 after it')
        for W, H, a, n in ((1024, LEAST, 0, 1), (1025, LEAST, 0, 1), (3, 70, 3, 64), (3, 70, 3, 65)):
            L, over, (lo, hi) = g.randrange(4), W > 1024 or n > 64, r.strip_rows(H, a, n)
            for number, call in ((1, (4097, H, L, a, n)), (1, (W, LEAST - 1, L, a, n)), (2, (W, H, 4, a, n)), (3, (W, H, L, H - n + 1, n))):
                self.both_entries(number, number, *call, true=(W, H, a, n))
            self.both_entries(10, 10, W, H, L, a, n, choice=2)
            later = [(4, {'P': (hi - lo) * W + g.choice((1, -1))}), (6, {'puts': [(g.randrange((hi - lo) * W), 4096)]})]
            later += [(5, {'planes': [n * W + (k == c) for k in range(3)]}) for c in range(3)]
            for number, fault in later:
                self.both_entries(number, 11 if over else number, W, H, L, a, n, **fault)
        self.note('both limits passed at once, nothing lent')
        self.both_entries(4, 11, 1025, 70, g.randrange(4), 3, 65, P=0, planes=[0] * 3)

    def pairs(self, count):
        self.note('the same accepted call by both entries')
        for k in range(count):
            W, H = self.size(), self.size()
            a, n = self.cut(H)
            self.both_entries(0, 0, W, H, k % 4, a, n, recipe=self.recipe(W, H))

    # -------------------------------------------------------- the mosaic back
    def mosaic(self, W, H, layout, a, n, puts=(), lengths=None, true=None, bits=0):
        """The observed samples are multiples of 16, and those of which a bit is given. The lengths are the right ones of the call `true`
        (W, H, layout, a, n), or of this one, unless they are given."""
        w, h, true_layout, b, m = true or (W, H, layout, a, n)
        for c in range(3):
            for p in range(2):
                for q in range(2):
                    bits |= (r.colour(true_layout, b + p, q) == c) << 4 * c + 2 * p + q
        lengths = [m * w] * 4 if lengths is None else lengths
        assert max(lengths) <= MOST_PLANE
        puts = list(puts) + [(0, NONE, 0)] * (2 - len(puts))
        return self.add('M', W, H, layout, a, n, *lengths, w, self.g.randrange(M32), bits, *[x for put in puts for x in put])

    def place(self, W, layout, a, n):
        """A place of a strip, and the plane that is observed there."""
        t = self.g.choice((0, n * W - 1, self.g.randrange(n * W), self.g.randrange(n * W)))
        return t, r.colour(layout, a + t // W, t % W)

    def mosaics(self, count):
        g = self.g
        self.note('mosaics back, of strips cut anywhere; samples that are not observed hold anything')
        for k in range(count):
            W, H = self.size(), self.size()
            a, n = self.cut(H)
            assert self.mosaic(W, H, k % 4, a, n, bits=g.choice((0, 0, 4095)))[0] == 0
        for W, H, a, n in ((4096, LEAST, 0, LEAST), (4096, 8, 0, 8), (4096, 4096, 4095, 1), (4096, 30, 11, 8), (LEAST, 4096, 0, 4096), (LEAST, 4096, 1, 4095),
                           (8, 4096, 0, 4096), (4095, 9, 3, 2)):
            assert self.mosaic(W, H, g.randrange(4), a, n)[0] == 0
        self.note('and of planes that strip calls left')
        for k in range(40):
            W, H = self.size(), self.size()
            a, n = self.cut(H)
            assert self.strip(W, H, k % 4, a, n, kind='B', entry=k // 4 % 2)[0] == 0

    def off_camera(self, count):
        g = self.g
        self.note('one sample set: observed and a multiple of 16, observed and not, not observed')
        for k in range(count):
            W, H, L = self.size(20), self.size(20), k % 4
            a, n = self.cut(H)
            t, c = self.place(W, L, a, n)
            good = g.choice((0, 16, 65520, 16 * g.randrange(4096)))
            bad = g.choice((1, 8, 15, 17, 65519, 65521, 65528, 65535, 16 * g.randrange(1, 4096) + 1, 16 * g.randrange(1, 4096) - 1))
            other = (c + g.randrange(1, 3)) % 3
            for puts, num in (([(c, t, good)], 0), ([(c, t, bad)], 9), ([(other, t, bad)], 0), ([(other, t, 65535), (c, t, bad)], 9)):
                assert self.mosaic(W, H, L, a, n, puts)[0] == num

    def mosaics_refused(self, count):
        g = self.g
        self.note('planes or a mosaic one too long or too short, or empty')
        for k in range(count):
            W, H, L = self.size(20), self.size(20), g.randrange(4)
            a, n = self.cut(H)
            lengths = [n * W] * 4
            lengths[k % 4] = g.choice((n * W + 1, n * W - 1, (n - 1) * W, n * W + W, 0))
            assert self.mosaic(W, H, L, a, n, lengths=lengths)[0] == 5
        self.note('sizes, layouts and rows off, one by one; 3 and 9, 5 and 9 together')
        true = W, H, L, a, n = LEAST + 1, LEAST + 5, 2, 3, 4
        for changed, num in [((w, H, L, a, n), 1) for w in (0, LEAST - 1, 4097)] + [((W, h, L, a, n), 1) for h in (0, LEAST - 1, 4097)] + \
                [((W, H, l, a, n), 2) for l in (4, 255)] + [((W, H, L, b, m), 3) for b, m in ((a, 0), (H - n + 1, n), (2 ** 64 - n, n), (a, 2 ** 64 - a))]:
            for puts in ([], [(r.colour(L, a, 0), 0, 17)]):
                assert self.mosaic(*changed, puts, true=true)[0] == num
        for k in range(4):
            for d in (1, -1):
                assert self.mosaic(W, H, L, a, n, [(r.colour(L, a, 0), 0, 17)], [n * W + d * (c == k) for c in range(4)])[0] == 5
        self.note('several faults at once: the first in the order 1 2 3 5 9 counts')
        for k in range(count):
            W, H, L = self.size(20), self.size(20), g.randrange(4)
            a, n = self.cut(H)
            true, lengths = (W, H, L, a, n), [n * W] * 4
            t, c = self.place(W, L, a, n)
            puts = []
            for fault in g.sample(range(7), g.choice((1, 2, 3))):
                if fault == 0: W = g.choice([0, LEAST - 1, 4097] + BIG)
                if fault == 1: H = g.choice([0, LEAST - 1, 4097] + BIG)
                if fault == 2: L = g.choice((4, 5, 255))
                if fault == 3: n = g.choice([0, true[1] - true[3] + 1] + BIG)
                if fault == 4: a = g.choice([true[1], 2 ** 64 - true[4]] + BIG)
                if fault == 5: lengths[g.randrange(4)] += g.choice((1, -1))
                if fault == 6: puts = [(c, t, g.choice((17, 65521, 65535)))]
            assert self.mosaic(W, H, L, a, n, puts, lengths, true)[0] != 0

    # -------------------------------------------------------- test frames
    def jumps(self, count):
        g = self.g
        self.note('jumps: few steps, powers of two and next to them, all 64 bits, any number')
        for state in (0, 1, M32 - 1):
            for k in range(5):
                self.add('J', state, k)
        for b in range(64):
            for d in (-1, 0, 1):
                self.add('J', g.randrange(M32), 2 ** b + d)
        self.add('J', g.randrange(M32), 2 ** 64 - 1)
        for _ in range(count):
            self.add('J', g.randrange(M32), g.randrange(2 ** g.randrange(1, 65)))

    def frame(self, seed, W, H, length):
        return self.add('W', seed, W, H, length, self.g.randrange(M32))

    def row(self, seed, W, H, row, length):
        return self.add('L', seed, W, H, row, length, self.g.randrange(M32))

    def test_frames(self, count):
        g = self.g
        self.note('test frames; from seed 0 the first reading is 966')
        assert self.frame(0, 8, 8, 64)[3] == 966
        for W, H in ((LEAST, LEAST), (4096, LEAST), (LEAST, 4096), (4096, 8), (8, 4096), (63, 65)):
            for seed in (0, M32 - 1, g.randrange(M32)):
                assert self.frame(seed, W, H, W * H)[0] == 0
        for _ in range(count):
            W, H = self.size(), self.size()
            assert self.frame(g.randrange(M32), W, H, W * H)[0] == 0
            assert self.frame(g.randrange(M32), W, H, g.choice((W * H + 1, W * H - 1, W * H + W, W * (H - 1), 0)))[0] == 5
            off = g.choice([0, LEAST - 1, 4097] + BIG)
            assert self.frame(g.randrange(M32), *g.choice(((off, H), (W, off), (off, off))), g.choice((W * H, 0)))[0] == 1

    def test_rows(self, count):
        g = self.g
        self.note('each row of a frame, then the frame; the ends of large ones')
        for W, H in ((8, 8), (13, 9)):
            seed = g.randrange(M32)
            for row in range(H):
                assert self.row(seed, W, H, row, W)[0] == 0
            assert self.frame(seed, W, H, W * H)[0] == 0
        for W, H in ((4096, 4096), (LEAST, 4096), (4095, LEAST)):
            for row in (0, 1, H // 2, H - 1):
                assert self.row(g.randrange(M32), W, H, row, W)[0] == 0
        self.note('3 from row H on, 5, and several faults at once: the first in the order 1 3 5 counts')
        for _ in range(count):
            W, H = self.size(), g.choice((self.size(), 4096))
            inside, outside = g.randrange(H), g.choice([H, H + 1] + BIG)
            other = g.choice((W + 1, W - 1, 2 * W, 0))
            off = g.choice([0, LEAST - 1, 4097] + BIG)
            assert self.row(g.randrange(M32), W, H, inside, W)[0] == 0
            assert self.row(g.randrange(M32), W, H, outside, g.choice((W, other)))[0] == 3
            assert self.row(g.randrange(M32), W, H, inside, other)[0] == 5
            assert self.row(g.randrange(M32), *g.choice(((off, H), (W, off), (off, off))), g.choice((inside, outside)), g.choice((W, other)))[0] == 1

    # -------------------------------------------------------- views
    def row_views(self, count):
        g = self.g
        self.note('row views')
        for W in (LEAST - 1, LEAST, 4096, 4097):
            for row in (0, 1, 7):
                for d in (0, -1, 1):
                    self.add('V', W, row, min(max((row + 1) * W + d, 0), MOST_PLANE))
        for _ in range(count):
            W = g.choice((self.size(), self.size(), g.randrange(LEAST, 4097), 4096, g.choice([0, LEAST - 1, 4097] + BIG)))
            row = g.choice((0, 1, g.randrange(20), g.randrange(20), 2 ** 64 // max(W, 1), 2 ** 64 // max(W, 1) - 1, g.choice(BIG))) % 2 ** 64
            need = min((row + 1) * W, MOST_PLANE)
            self.add('V', W, row, g.choice((need, need, max(0, need - 1), min(need + 1, MOST_PLANE), 0, g.randrange(MOST_PLANE))))

    def partner_views(self, count):
        g = self.g
        self.note('partner views')
        for L in (0, 1, 2, 3, 4, 255):
            for row in (0, 1, 6, 7, 8):
                self.add('Q', 8, 8, L, row, 80, 72)
        for k in range(count):
            W, H, L = self.size(), self.size(), k % 4
            row = g.choice((0, H - 1, g.randrange(H)))
            if k % 2:
                t = g.randrange(5)
                if t == 0: W = g.choice([0, LEAST - 1, 4096, 4097] + BIG)
                if t == 1: H = g.choice([0, LEAST - 1, 4096, 4097] + BIG)
                if t == 2: L = g.choice((4, 255))
                if t > 2: row = g.choice([H, 2 ** 64 // W - 1, 2 ** 64 // W] + BIG)
            need = min((row + 1) * W, 32768)
            more = [g.choice((0, 0, 1, W % M16, -1 if k % 3 == 0 else 0)) for _ in range(2)]
            self.add('Q', W, H, L, row, *[min(max(0, need + d), 32768) for d in more])

    # -------------------------------------------------------- pieces
    def pieces(self, count):
        g = self.g
        self.note('rows of the mosaic that a strip is lent')
        for a, n in ((9, 2), (0, 1), (19, 1)):
            self.add('R', 20, a, n)
        for k in range(count):
            H = g.choice((self.size(), 4096))
            v = [H, *self.cut(H)]
            for t in g.sample(range(3), k % 3):
                v[t] = g.choice([0, 1, 7, 8, 4097, 2 ** 64 - 7] + BIG)
            self.add('R', *v)

    # -------------------------------------------------------- shares and fusion
    def fusion(self, choice, c, sums, As):
        self.add('F', choice, c, *sums, *[A + most_five(choice) for A in As])

    def fusions(self, count):
        g = self.g
        self.note('shares and fusion; exact halves')
        for choice, halves in ((0, (3, 2, -2, -3)), (1, (50, 49, -50, -51))):
            for A in halves:
                self.fusion(choice, 2000, [4] * 4, [A, 0, 0, 0])
        mk = vectors.Maker(STAGE, self.seed)
        for _ in range(count):
            choice, *v = mk.F()[1:]
            ss = [g.randrange(5) if t == 4 else t for t in v[:4]]
            add = added(choice, shares(ss), v[4:])
            c = middle_reading(add) if g.random() < .8 else g.choice((0, 4095, g.randrange(4096)))
            self.fusion(choice, c, ss, v[4:])

    def shares_below(self):
        """Shares so little below a whole number that a quotient of floats is that number; the green is another if the share is."""
        self.note('shares that a quotient of floats, rounded down, gives one too large')
        for m, t, q in ((240232, 397651, 6123185), (370117, 415319, 13323991), (233903, 388675, 6076006)):
            for choice in range(2):
                for k in range(4):
                    self.share_below(choice, k, m, t, q)

    def share_below(self, choice, k, m, t, q):
        sums, most = [MOST_SUM] * 4, most_five(choice)
        sums[k], sums[k - 1] = t, m
        right = shares(sums)
        wrong = right[:k] + [q + 1] + right[k + 1:]
        assert right[k] == q and int(float(m * m) * RULES.scale / float(t * t)) == q + 1
        As = [0] * 4
        As[k], As[k - 1] = most, -most
        while added(choice, right, As) == added(choice, wrong, As):
            As[k - 1] += 1
        self.fusion(choice, middle_reading(added(choice, right, As)), sums, As)

    def halves(self, count):
        """Exact halves, of large direction sums: 8N = T S (2h + 1), for h odd and even."""
        self.note('exact halves of large direction sums')
        g = random.Random(self.seed)
        for choice in range(2):
            T, most, found = sum(r.WEIGHTS[choice]), most_five(choice), 0
            while found < count:
                sums = [g.randrange(MOST_SUM // 9, MOST_SUM + 1) for _ in range(4)]
                qs, h = shares(sums), 2 * g.randrange(-5000, 5000) + found % 2
                i, j = qs.index(RULES.scale), g.randrange(4)
                if i == j or qs[j] % 2 == 0 or T * sum(qs) % 8: continue
                As = [0 if k in (i, j) else g.randrange(-most, most + 1) for k in range(4)]
                rest = T * sum(qs) // 8 * (2 * h + 1) - sum(q * A for q, A in zip(qs, As))
                As[j] = (rest * pow(qs[j], -1, RULES.scale) + RULES.scale // 2) % RULES.scale - RULES.scale // 2
                As[i] = (rest - qs[j] * As[j]) // RULES.scale
                if max(abs(As[i]), abs(As[j])) > most: continue
                assert added(choice, qs, As) == h + 1
                self.fusion(choice, middle_reading(h + 1), sums, As)
                found += 1


def room():
    """How many bytes the program reads, where it has a buffer for them all: what stands behind them in stdin it would not see."""
    with open(os.path.join(ROOT, 'crates', 'cases', 'src', 'main.rt')) as code:
        buffer = re.search(r'let mut bytes = \[0u8; (\d+)\];', code.read())
    return int(buffer[1]) if buffer else float('inf')


def main():
    seed = int(sys.argv[1])
    where = sys.argv[2] if len(sys.argv) > 2 else os.path.join(ROOT, 'crates', 'cases')
    m = Maker(seed)
    m.note('made by tools/make_cases.py %d, which says what each line means' % seed)
    m.limits()
    m.figures()
    m.accepted(500)
    m.small()
    m.cuts()
    m.smoothings(24)
    m.wide_and_tall()
    m.over_range(60)
    m.lengths(96)
    m.names(140)
    m.mixed(120)
    m.preview_limits()
    m.preview_damaged()
    m.pairs(20)
    m.row_views(200)
    m.partner_views(240)
    m.fusions(600)
    m.shares_below()
    m.halves(8)
    m.pieces(120)
    m.mosaics(200)
    m.off_camera(60)
    m.mosaics_refused(80)
    m.jumps(60)
    m.test_frames(40)
    m.test_rows(40)
    m.steps()
    m.room_by_width()
    assert len('\n'.join(m.lines)) < room(), 'stdin is longer than the program reads'
    os.makedirs(where, exist_ok=True)
    for name, lines in (('stdin', m.lines), ('stdout', m.answers)):
        with open(os.path.join(where, name), 'w') as out:
            out.write('\n'.join(lines) + '\n')
    print('%d cases' % len(m.answers), ' '.join('%s:%d' % kv for kv in sorted(m.count.items())))


if __name__ == "__main__":
    main()
