#!/usr/bin/env python3
"""Writes crates/worked_planes/specs/WorkedPlanes.antt and crates/worked_exact/specs/WorkedExact.antt: tables of what the written rules must give.

    python3 tools/make_figures.py SEED [DIRECTORY]     the committed files: SEED 38

The values come from reference/ and from nothing else; the stage is tools/stage.py's. Each layout has a frame. A part of it is quiet, so that
direction sums lie about the guard, a part is mild, and a part is wild, so that samples are stopped. Two of them are smoothed evenly,
one names smoothing 1 and one none. A seed is taken only if the exact table has every kind of place, exact greens at red and at blue
pixels for either smoothing among them, and if a guard one less or one more would change some green.
Four more frames are small: 2 by 2, 2 by 3 and 3 by 2, of which an exact value of each plane is in the table, and 5 by 4. They are taken only if each
would have another sample with mirrors that repeat an edge, and with mirrors that reflect once only.
"""
import os
import random
import sys
import unittest.mock

from stage import ROOT, RULES, STAGE
import reference as r

PLANES = 'Red', 'Green', 'Blue'
LAST = '₀₁₂₃₄₅₆₇'
# by layout: width, height, how far a pixel lies from the quiet side, and where the mild and the wild part start
FRAMES = (
    (9, 8, lambda i, j: j, 5, 7),
    (8, 9, lambda i, j: i, 5, 7),
    (9, 9, lambda i, j: (i + j) // 2, 4, 6),
    (8, 8, lambda i, j: 7 - j, 4, 6),
)
SMOOTHING = None, 0, 1, 0            # by layout; None: the frame names none
SMALL = (2, 2, 0, None), (2, 3, 3, 0), (3, 2, 1, 1), (5, 4, 2, 1)      # width, height, layout, smoothing
LONGEST = 120                        # digits of a fraction
# what the exact table has to have, by what a value is worked out from and its plane, or by where it was stopped
KINDS = {(s, k) for s in ('in its row', 'in its column', 'diagonal') for k in (r.R, r.B)} | {('Red', r.G), ('Blue', r.G), ('corner', 0), ('observed', 0)}
KINDS |= {(s, x) for s in ('stopped', 'stopped green') for x in (0, r.TOP)}


def readings(g, layout):
    """Of the frame of a layout, a quiet, a mild and a wild part."""
    width, height, far, mild, wild = FRAMES[layout]
    base = [g.randrange(200, 400) for _ in range(3)]

    def reading(i, j):
        z, quiet = far(i, j), base[r.colour(layout, i, j)]
        if z < mild:
            return quiet + (g.random() < 0.1)
        if z < wild:
            return quiet + g.randrange(12)
        return g.choice((0, 4095, g.randrange(4096)))
    return [reading(i, j) for i in range(height) for j in range(width)]


# ------------------------------------------------------------ the places of the exact table
def site(f, k, i, j):
    """What plane k is worked out from at row i and column j."""
    at = r.colour(f.layout, i, j)
    if at == k:
        return 'observed'
    if k == r.G:
        return PLANES[at]
    if at != r.G:
        return 'diagonal'
    return 'in its row' if r.colour(f.layout, i, j + 1) == k else 'in its column'


def edges(f, i, j):
    return (i in (0, f.H - 1)) + (j in (0, f.W - 1))


def digits(x):
    return len(str(x.numerator) + str(x.denominator))


def places(g, f, exact):
    """For each plane and site a place whose value is no whole number and has few digits, where there is one at an edge for layouts 0 and 2 and
    inside for 1 and 3; a corner; green stopped at 0 and at the top, and so red or blue; and an observed place. By kind."""
    found = {}
    for k in range(3):
        for i in range(f.H):
            for j in range(f.W):
                x, s, e = exact[k][i * f.W + j], site(f, k, i, j), edges(f, i, j)
                if s == 'observed':
                    kind = s, 0
                elif x in (0, r.TOP):
                    kind = 'stopped green' if k == r.G else 'stopped', int(x)
                elif x.denominator > 1 and digits(x) <= LONGEST:
                    kind = ('corner', 0) if e == 2 else (s, k)
                else:
                    continue
                found.setdefault(kind, []).append((k, i, j))
    best = {kind: [p for p in found[kind] if edges(f, p[1], p[2]) == (f.layout + 1) % 2] or found[kind] for kind in found}
    return {kind: g.choice(best[kind]) for kind in sorted(best)}


def last_places(f):
    """The last of each plane that is not observed."""
    return [max((k, i, j) for i in range(f.H) for j in range(f.W) if site(f, k, i, j) != 'observed') for k in range(3)]


# ------------------------------------------------------------ the files
def head(what, seed):
    return ['-- %s Made by tools/make_figures.py %d from reference/, stage %s, and from nothing else. Assumes nothing.' % (what, seed, STAGE)]


def lines(parts):
    """A list of these parts, each on a line of its own."""
    return ['    ' + ('∷ ' if n else '') + p for n, p in enumerate(parts)] + ['    ∷ []']


def cells(f, name, plane):
    return ['', 'abbrev pub %s : List ℕ' % name, '%s =' % name] + lines(' ∷ '.join(map(str, plane[i * f.W:(i + 1) * f.W])) for i in range(f.H))


def claim(name, kind, value):
    return ['', 'abbrev pub %s : %s' % (name, kind), '%s = %s' % (name, value)]


def described(g, seed):
    """The frame descriptions and readings, by their place in the tables."""
    frames = [(r.Frame(*FRAMES[layout][:2], layout, SMOOTHING[layout]), readings(g, layout)) for layout in range(4)]
    small_g = random.Random('small/%d' % seed)
    return frames + [(r.Frame(*small), [small_g.randrange(1000, 3000) for _ in range(small[0] * small[1])]) for small in SMALL]


def shows(what, wrong, f, frame):
    """Whether the planes of a frame would be others with something wrong in its place."""
    right = r.whole(RULES, f, frame)
    with unittest.mock.patch.object(r, what, wrong):
        return r.whole(RULES, f, frame) != right


# mirrors that are nearly right
def edge_repeated(p, size):
    return edge_repeated(-p - 1, size) if p < 0 else edge_repeated(2 * size - 1 - p, size) if p >= size else p


def reflected_once(p, size):
    p = -p if p < 0 else 2 * (size - 1) - p if p >= size else p
    return min(max(p, 0), size - 1)


def fitting(frames):
    """Asserts that the tables would show a wrong guard and wrong mirrors."""
    for value in 3, 5:
        assert any(shows('guard', lambda s: max(s, value), *frame) for frame in frames), 'no sample of this seed tells a guard of 4 from one of %d' % value
    for frame in frames[len(FRAMES):]:
        for wrong in edge_repeated, reflected_once:
            assert shows('mirror', wrong, *frame), 'no sample of a small frame tells %s' % wrong.__name__


def named(f):
    return 'frame %d %d %d' % (f.W, f.H, f.layout) if f.choice is None else 'smoothed %d %d %d %d' % (f.W, f.H, f.layout, f.choice)


def heads(seed):
    """The first lines of both tables."""
    planes = head('Frames, one of each layout and four small ones, and their planes by the whole-number rules. proofs/PlaneTable.antt has the theorem.', seed) + [
        'use Rattle.std.specs.Prelude.{ℕ, List, [], ◌∷◌}',
        'use Rattle.bayer.specs.declared.frame.Frame.{Frame}',
        'use Rattle.bayer.specs.Frame.{frame, smoothed}',
        'use Rattle.worked_planes.specs.PlanesClaim.{PlanesClaim, gives_planes}',
    ]
    exact = head('Values of the exact reconstruction of the frames of worked_planes/specs/WorkedPlanes. proofs/ExactTable.antt has the theorem.', seed) + [
        'use Rattle.std.specs.Prelude.{List, [], ◌∷◌}',
        'use Rattle.bayer.specs.declared.colour.Colour.TheVariants.{Red, Green, Blue}',
        'use Rattle.worked_exact.specs.ExactClaim.{Value, exactly, ExactClaim, gives_exact}',
        'use Rattle.worked_planes.specs.WorkedPlanes.{%s}' % ', '.join('frame%s, readings%s' % (n, n) for n in LAST),
    ]
    return planes, exact


def make(seed, directory):
    g = random.Random(seed)
    frames = described(g, seed)          # before the places, so that no stage changes them
    fitting(frames)
    planes, exact = heads(seed)
    kinds, greens = set(), set()
    for n, (f, frame) in zip(LAST, frames):
        planes += claim('frame' + n, 'Frame', named(f))
        planes += cells(f, 'readings' + n, frame)
        for name, plane in zip(PLANES, r.whole(RULES, f, frame)):
            planes += cells(f, name.lower() + n, plane)
        planes += claim('planes' + n, 'PlanesClaim', 'gives_planes frame%s readings%s red%s green%s blue%s' % (n, n, n, n, n))
        values = r.exact_planes(RULES, f, frame)
        by_kind = places(g, f, values) if f.W * f.H > 6 else {}         # not of the three smallest
        if f.W >= 8:                                                    # the four of FRAMES
            kinds.update(by_kind)
            greens.update((f.choice == 0, kind) for kind in by_kind if kind in (('Red', r.G), ('Blue', r.G)))
        chosen = by_kind.values() or last_places(f)
        exact += ['', 'abbrev pub values%s : List Value' % n, 'values%s =' % n] + lines(
            'exactly %s %d %d %d %d' % (PLANES[k], i, j, x.numerator, x.denominator) for k, i, j in sorted(chosen) for x in [values[k][i * f.W + j]])
        exact += claim('exact' + n, 'ExactClaim', 'gives_exact frame%s readings%s values%s' % (n, n, n))
    assert kinds == KINDS, 'the frames of this seed lack %s' % (KINDS - kinds)
    assert len(greens) == 4, 'the frames of this seed lack an exact green of some smoothing'
    planes += claim('worked_planes', 'List PlanesClaim', ' ∷ '.join('planes' + n for n in LAST) + ' ∷ []')
    exact += claim('worked_exact', 'List ExactClaim', ' ∷ '.join('exact' + n for n in LAST) + ' ∷ []')
    for crate, name, text in (('worked_planes', 'WorkedPlanes', planes), ('worked_exact', 'WorkedExact', exact)):
        with open(os.path.join(directory or os.path.join(ROOT, 'crates', crate, 'specs'), name + '.antt'), 'w', encoding='utf-8') as out:
            out.write('\n'.join(text) + '\n')


if __name__ == '__main__':
    make(int(sys.argv[1]), sys.argv[2] if len(sys.argv) > 2 else None)
