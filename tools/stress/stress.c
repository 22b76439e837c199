/* Random calls of the library, whole and damaged, compared with strip_general of reference/demosaic.c at the same stage.
 *
 *   stress [cases [seed]]    default 100000 cases, seed 1
 *
 * Each case is a strip call by the full-size entry or by the preview, a mosaic back, a test frame, a row of one, a jump, a row view and
 * a partner view. What the preview accepts is handed to the full-size entry too, which has to leave the same. Every buffer but a view's
 * ends at a protected page, so a touch past its end stops the program; every second case runs again with buffers that start just
 * after a protected page. What is lent to be read is mapped read-only, so a write to it stops the program too. What is written is
 * compared whole, with up to 8 KB on each side of it. All but strip calls are compared with their rules below, worked out in 128 bits
 * where a sum or a product could wrap. */
#define _GNU_SOURCE
#include <signal.h>
#include <stdint.h>
#include <stdio.h>
#include <stdlib.h>
#include <string.h>
#include <sys/mman.h>
#include <unistd.h>
#include "../strip_general.h"
#include "rokzimp.h"

StripGeneral strip_general;

typedef unsigned __int128 wide;

static uint64_t state, the_case, the_seed;
static uint64_t rnd(void) { /* xorshift64* */
    state ^= state >> 12;
    state ^= state << 25;
    state ^= state >> 27;
    return state * 2685821657736338717u;
}
static uint64_t below(uint64_t n) { return n ? (rnd() >> 11) % n : 0; }
static int one_in(uint64_t n) { return below(n) == 0; }

/* room for samples with a protected page at each end; `lent` is the same memory, read-only where it is to be read only */
enum { ROOM = 1 << 18 }; /* samples; a whole number of pages */
typedef struct { uint16_t *fill, *lent; } Room;

static Room room(int read_only) {
    size_t page = (size_t)sysconf(_SC_PAGESIZE), bytes = (size_t)ROOM * 2;
    int fd = memfd_create("room", 0);
    if (fd < 0 || ftruncate(fd, (off_t)bytes)) { perror("memfd"); exit(2); }
    Room r;
    r.fill = mmap(0, bytes, PROT_READ | PROT_WRITE, MAP_SHARED, fd, 0);
    char *around = mmap(0, bytes + 2 * page, PROT_NONE, MAP_PRIVATE | MAP_ANONYMOUS, -1, 0);
    if (r.fill == MAP_FAILED || around == MAP_FAILED) { perror("mmap"); exit(2); }
    r.lent = mmap(around + page, bytes, read_only ? PROT_READ : PROT_READ | PROT_WRITE, MAP_SHARED | MAP_FIXED, fd, 0);
    if (r.lent == MAP_FAILED) { perror("mmap"); exit(2); }
    close(fd);
    return r;
}
/* where a buffer of so many samples starts in a room: at its start, or so that it ends at its end */
static size_t place(int at_start, size_t samples) { return at_start ? 0 : ROOM - samples; }

static void stopped(int sig) {
    char text[200];
    int n = snprintf(text, sizeof text, "STOPPED by signal %d (a touch outside a lent buffer, or a write to one lent to be read) in case %llu, seed %llu\n",
                     sig, (unsigned long long)the_case, (unsigned long long)the_seed);
    if (write(1, text, (size_t)n) < 0) {}
    _exit(3);
}

static uint64_t mismatches;
static void mismatch(const char *what, uint64_t got, uint64_t asked) {
    if (mismatches++ < 20)
        printf("MISMATCH in case %llu: %s is %llu, asked %llu\n", (unsigned long long)the_case, what, (unsigned long long)got, (unsigned long long)asked);
}
static void differs(const char *what, uint32_t number) {
    if (mismatches++ < 20) printf("MISMATCH in case %llu, number %u: %s\n", (unsigned long long)the_case, number, what);
}
static void same(const char *what, uint64_t got, uint64_t asked) {
    if (got != asked) mismatch(what, got, asked);
}

/* a size: mostly small, sometimes at or beyond the limits */
static uint64_t size(void) {
    static const uint64_t edge[] = {LEAST - 1, LEAST, LEAST + 1, 8, 9, 10, 11, 14, 15, 16, 17, 63, 64, 65, 4095, 4096};
    if (one_in(3)) return edge[below(sizeof edge / sizeof *edge)];
    if (one_in(8)) return 1023 + below(3); /* about the preview's limit */
    if (one_in(6)) return LEAST + below(8);
    if (one_in(8)) return LEAST + below(4097 - LEAST);
    return LEAST + below(60);
}
static uint64_t odd_number(void) { /* any number, with those near the limits and near wrapping more often */
    static const uint64_t edge[] = {0, 1, 2, 7, 8, 64, 65, 1024, 1025, 4096, 4097, 65535, 65536, 1u << 31, UINT32_MAX,
                                    (uint64_t)UINT32_MAX + 1, (uint64_t)1 << 52, (uint64_t)1 << 63, UINT64_MAX - 7, UINT64_MAX - 1, UINT64_MAX};
    if (one_in(4)) return rnd() >> below(64);
    return edge[below(sizeof edge / sizeof *edge)] + (one_in(4) ? below(9) : 0);
}
static size_t other_length(size_t len, uint64_t w) { /* a length that is mostly not len */
    size_t l;
    switch (below(7)) {
    case 0: l = len + 1; break;
    case 1: l = len - 1; break;
    case 2: l = len + (size_t)w; break;
    case 3: l = len - (size_t)w; break;
    case 4: l = 0; break;
    case 5: l = 2 * len; break;
    default: l = (size_t)below(ROOM + 1); break;
    }
    return l > ROOM ? ROOM : l;
}

static void readings(uint16_t *p, size_t len) {
    uint64_t kind = below(7), v = below(4096), step = below(4096), g = rnd();
    for (size_t k = 0; k < len; k++) {
        g = g * 6364136223846793005u + 1442695040888963407u;
        uint64_t x = g >> 33;
        p[k] = (uint16_t)(kind == 0 ? x % 4096 : kind == 1 ? (x % 2) * 4095 : kind == 2 ? v : kind == 3 ? (v + step * k) % 4096
                          : kind == 4 ? (v + x % 8) % 4096 : kind == 5 ? (x % 16 ? 0 : 4095) : (k / 7 % 2 ? 4095 - x % 3 : x % 3));
    }
}

/* what a buffer holds before it is written: it, and up to 4096 samples of the room on each side, are compared afterwards */
static size_t around_from(size_t at) { return at < 4096 ? 0 : at - 4096; }
static size_t around_to(size_t at, size_t len) { return at + len + 4096 > ROOM ? ROOM : at + len + 4096; }
static void before(uint16_t *fill, uint16_t *expected, size_t at, size_t len, uint64_t g) {
    for (size_t k = around_from(at); k < around_to(at, len); k++) {
        g = g * 6364136223846793005u + 1442695040888963407u;
        fill[k] = expected[k] = (uint16_t)(g >> 40);
    }
}
static int after(const uint16_t *fill, const uint16_t *expected, size_t at, size_t len) { /* whether it is what is expected */
    size_t from = around_from(at);
    return memcmp(fill + from, expected + from, (around_to(at, len) - from) * 2) == 0;
}

enum { NUMBERS = 12 }; /* 0 and the refusals */
static Room piece, seen[3], plane[3];
static uint16_t *expected[3];
static uint64_t strips[2][NUMBERS], backs[NUMBERS], frames[NUMBERS], rows_made[NUMBERS], rows_seen[NUMBERS], partners[NUMBERS];
static uint64_t calls, back_calls, frame_calls;

typedef struct { uint64_t W, H, layout, a, n; int smoothing, preview; } Call; /* smoothing -1: none is named; preview 0: full-size */

static uint64_t count(uint64_t most) { /* of rows: about the preview's limit, 1, all, or a few */
    if (most > 64 && one_in(3)) return 63 + below(3);
    if (one_in(3)) return 1;
    if (one_in(3)) return most;
    return 1 + below(most < 40 ? most : 40);
}
static size_t piece_samples(Call c) {
    uint64_t lo = c.a < 7 ? 0 : c.a - 7, hi = c.a + c.n + 7 < c.H ? c.a + c.n + 7 : c.H;
    return (size_t)((hi - lo) * c.W);
}
static Call whole_call(void) {
    Call c;
    c.layout = below(4);
    c.smoothing = (int)below(3) - 1;
    c.preview = (int)below(2);
    if (one_in(100)) { /* about as large as the preview takes */
        c.W = 1023 + below(3);
        c.n = 63 + below(3);
        c.a = below(20);
        c.H = c.a + c.n + below(20);
        return c;
    }
    for (;;) {
        c.W = size();
        c.H = size();
        c.a = one_in(4) ? below(20) : one_in(3) ? c.H - 1 - below(c.H < 20 ? c.H : 20) : below(c.H);
        if (c.a >= c.H) c.a = c.H - 1;
        c.n = count(c.H - c.a);
        if (piece_samples(c) <= (one_in(15) ? ROOM : 12000)) return c;
    }
}
static void damage(Call *c, uint64_t which) { /* one of the five numbers, mostly to a wrong one */
    switch (which) {
    case 0: c->W = one_in(2) ? odd_number() : c->W + 1 - 2 * below(2); break;
    case 1: c->H = one_in(2) ? odd_number() : c->H + 1 - 2 * below(2); break;
    case 2: c->layout = one_in(2) ? 4 : below(256); break;
    case 3: c->a = one_in(2) ? odd_number() : c->H - c->n + 1; break;
    default: c->n = one_in(3) ? 0 : one_in(2) ? odd_number() : one_in(2) ? c->H - c->a + 1 : (uint64_t)0 - c->a; break;
    }
}

/* the functions of the full-size entry and of the preview */
typedef struct {
    __typeof__(rokzimp_strip) *call;
    __typeof__(rokzimp_strip_check) *check;
    __typeof__(rokzimp_strip_smoothed) *smoothed;
    __typeof__(rokzimp_strip_smoothed_check) *smoothed_check;
} Entry;
static const Entry entries[2] = {{rokzimp_strip, rokzimp_strip_check, rokzimp_strip_smoothed, rokzimp_strip_smoothed_check},
                                 {rokzimp_preview, rokzimp_preview_check, rokzimp_preview_smoothed, rokzimp_preview_smoothed_check}};

/* the call and the check that name the smoothing, or none */
static uint32_t strip_call(Call c, const uint16_t *p, size_t len, uint16_t *const q[3], const size_t lens[3]) {
    const Entry *e = &entries[c.preview];
    if (c.smoothing < 0) return e->call(c.W, c.H, (uint8_t)c.layout, c.a, c.n, p, len, q[0], lens[0], q[1], lens[1], q[2], lens[2]);
    return e->smoothed(c.W, c.H, (uint8_t)c.layout, (uint8_t)c.smoothing, c.a, c.n, p, len, q[0], lens[0], q[1], lens[1], q[2], lens[2]);
}
static uint32_t strip_check(Call c, const uint16_t *p, size_t len, const size_t lens[3]) {
    const Entry *e = &entries[c.preview];
    if (c.smoothing < 0) return e->check(c.W, c.H, (uint8_t)c.layout, c.a, c.n, p, len, lens[0], lens[1], lens[2]);
    return e->smoothed_check(c.W, c.H, (uint8_t)c.layout, (uint8_t)c.smoothing, c.a, c.n, p, len, lens[0], lens[1], lens[2]);
}

/* a strip call, the lengths of the piece and of the planes, and whether a reading is over range */
typedef struct { Call call; size_t len, lens[3]; int over; } Strip;

static void damage_strip(Strip *s, uint64_t which) {
    int c = (int)below(3);
    if (which < 5) damage(&s->call, which);
    else if (which == 5) s->len = other_length(s->len, s->call.W);
    else if (which == 6) s->lens[c] = other_length(s->lens[c], s->call.W);
    else if (which == 7) s->call.smoothing = (int)(one_in(2) ? 2 : one_in(2) ? 255 : below(256));
    else s->over = 1;
}
/* a whole call, but for a size that may be one less than the least, or more than the preview takes; then the damage */
static Strip any_strip(void) {
    Strip s = {.call = whole_call()};
    s.len = piece_samples(s.call);
    for (int c = 0; c < 3; c++) s.lens[c] = (size_t)(s.call.n * s.call.W);
    if (!one_in(3))
        for (uint64_t k = 1 + below(2); k > 0; k--) damage_strip(&s, below(10));
    return s;
}
static const uint16_t *lend_piece(const Strip *s, int round) { /* a second round has the readings of the first */
    size_t len = s->len, from = place(round, len);
    if (round == 0) {
        readings(piece.fill + from, len);
        size_t high = one_in(3) ? 0 : one_in(2) ? len - 1 : (size_t)below(len);
        if (s->over && len) piece.fill[from + high] = one_in(2) ? 4096 : (uint16_t)(4096 + below(61440));
    } else
        memmove(piece.fill + from, piece.fill + place(0, len), len * 2);
    return piece.lent + from;
}
static void compare_planes(const size_t at[3], const size_t lens[3], uint32_t number) {
    static const char *const names[3] = {"the red plane", "the green plane", "the blue plane"};
    for (int c = 0; c < 3; c++)
        if (!after(plane[c].fill, expected[c], at[c], lens[c])) differs(names[c], number);
}

static void strip_round(const Strip *s, int round, uint64_t start) {
    Call c = s->call;
    const size_t *lens = s->lens;
    const uint16_t *p = lend_piece(s, round);
    size_t at[3];
    uint16_t *lent[3];
    for (int k = 0; k < 3; k++) {
        at[k] = place(round, lens[k]);
        lent[k] = plane[k].lent + at[k];
        before(plane[k].fill, expected[k], at[k], lens[k], start + (uint64_t)k);
    }
    int asked = strip_general(c.W, c.H, (int)c.layout, c.smoothing, -1, c.a, c.n, 0, -1, c.preview, p, s->len, expected[0] + at[0], lens[0],
                              expected[1] + at[1], lens[1], expected[2] + at[2], lens[2]);
    uint32_t got = strip_call(c, p, s->len, lent, lens);
    calls++;
    same("the number of the check", strip_check(c, p, s->len, lens), (uint64_t)asked);
    same("the strip's number", got, (uint64_t)asked);
    strips[c.preview][got < NUMBERS ? got : 0]++;
    compare_planes(at, lens, got);
    if (c.preview && got == 0) { /* the full-size entry accepts it too, and leaves the same */
        c.preview = 0;
        for (int k = 0; k < 3; k++) memset(lent[k], 0xa5, lens[k] * 2);
        same("the full-size entry's number", strip_call(c, p, s->len, lent, lens), 0);
        compare_planes(at, lens, got);
    }
}

/* the rows of the piece, for any numbers */
static void piece_case(Call c) {
    uint64_t h = one_in(2) ? c.H : odd_number(), b = one_in(2) ? c.a : odd_number(), m = one_in(2) ? c.n : odd_number();
    wide last = (wide)b + m + 7 < h ? (wide)b + m + 7 : h, first = b < 7 ? 0 : b - 7;
    same("the piece's start", rokzimp_piece_start(b), (uint64_t)first);
    same("the piece's rows", rokzimp_piece_rows(h, b, m), last < first ? 0 : (uint64_t)(last - first));
}

static void strip_case(int twice) {
    Strip s = any_strip();
    uint64_t start = rnd();
    for (int round = 0; round <= twice; round++) strip_round(&s, round, start);
    piece_case(s.call);
}

static int off(uint64_t n) { return n < LEAST || n > 4096; }

/* The mosaic back as the papers have it. 0 is red, 1 green, 2 blue: by layout, row and column. */
static const int colours[4][2][2] = {{{0, 1}, {1, 2}}, {{1, 0}, {2, 1}}, {{1, 2}, {0, 1}}, {{2, 1}, {1, 0}}};

static uint32_t back_rule(Call c, const uint16_t *const planes[3], const size_t lens[3], uint16_t *mosaic, size_t len) {
    if (off(c.W) || off(c.H)) return 1;
    if (c.layout > 3) return 2;
    if (c.n == 0 || (wide)c.a + c.n > c.H) return 3;
    wide asked = (wide)c.n * c.W;
    if (lens[0] != asked || lens[1] != asked || lens[2] != asked || len != asked) return 5;
    for (int write = 0; write <= 1; write++)
        for (size_t i = 0; i < c.n; i++)
            for (size_t j = 0; j < c.W; j++) {
                uint16_t sample = planes[colours[c.layout][(c.a + i) % 2][j % 2]][i * c.W + j];
                if (sample % 16 != 0 || sample > 65520) return 9;
                if (write) mosaic[i * c.W + j] = sample / 16;
            }
    return 0;
}

/* a plane of rows from row a on: readings times 16 where its samples are observed, elsewhere anything, of a few kinds */
static void camera_plane(uint16_t *p, size_t len, int colour, uint64_t W, uint64_t layout, uint64_t a) {
    uint64_t kind = below(4), g = rnd();
    readings(p, len);
    for (size_t at = 0; at < len; at += (size_t)W, a++)
        for (size_t j = 0; j < W && at + j < len; j++) {
            g = g * 6364136223846793005u + 1442695040888963407u;
            uint64_t x = g >> 40;
            p[at + j] = (uint16_t)(colours[layout][a % 2][j % 2] == colour || kind == 0 ? 16 * p[at + j]
                                   : kind == 1 ? 65535 : kind == 2 ? 16 * (x % 4096) + 1 : x);
        }
}

static void back_case(int twice) {
    Call call = whole_call();
    uint64_t W = call.W; /* by which the planes are filled, whatever width the call then names */
    size_t len = (size_t)(call.n * W), lens[3], at_wrong[3];
    int wrong[3] = {0, 0, 0};
    for (int c = 0; c < 3; c++) lens[c] = len;
    if (one_in(2))
        for (uint64_t k = 1 + below(2); k > 0; k--) {
            uint64_t which = below(12);
            if (which < 5) damage(&call, which);
            else if (which == 5) len = other_length(len, W);
            else if (which == 6) { int c = (int)below(3); lens[c] = other_length(lens[c], W); }
            else wrong[below(3)] = 1;
        }
    /* a wrong sample stands mostly where it is observed */
    for (int c = 0; c < 3; c++) {
        wrong[c] = wrong[c] && lens[c];
        size_t k = one_in(3) ? 0 : one_in(2) ? lens[c] - 1 : (size_t)below(lens[c]);
        for (int tries = 0; wrong[c] && tries < 8 && colours[call.layout % 4][(call.a + k / W) % 2][k % W % 2] != c; tries++)
            k = (size_t)below(lens[c]);
        at_wrong[c] = k;
    }
    uint64_t start = rnd();

    for (int round = 0; round <= twice; round++) {
        size_t from[3], at = place(round, len);
        for (int c = 0; c < 3; c++) {
            from[c] = place(round, lens[c]);
            uint16_t *p = seen[c].fill + from[c];
            if (round == 0) {
                camera_plane(p, lens[c], c, W, call.layout % 4, call.a);
                if (wrong[c]) p[at_wrong[c]] = one_in(4) ? 65535 : one_in(3) ? 65521 : (uint16_t)(16 * below(4096) + 1 + below(15));
            } else
                memmove(p, seen[c].fill + place(0, lens[c]), lens[c] * 2);
        }
        before(plane[0].fill, expected[0], at, len, start);
        const uint16_t *const lent[3] = {seen[0].lent + from[0], seen[1].lent + from[1], seen[2].lent + from[2]};
        uint32_t asked = back_rule(call, lent, lens, expected[0] + at, len);
        uint32_t check = rokzimp_mosaic_back_check(call.W, call.H, (uint8_t)call.layout, call.a, call.n, lent[0], lens[0], lent[1], lens[1],
                                                   lent[2], lens[2], len);
        uint32_t got = rokzimp_mosaic_back(call.W, call.H, (uint8_t)call.layout, call.a, call.n, lent[0], lens[0], lent[1], lens[1],
                                           lent[2], lens[2], plane[0].lent + at, len);
        back_calls++;
        same("the number of the mosaic back's check", check, asked);
        same("the mosaic back's number", got, asked);
        backs[got < NUMBERS ? got : 0]++;
        if (!after(plane[0].fill, expected[0], at, len)) differs("the mosaic", got);
    }
}

/* Test frames as the papers have them. A jump is single steps where they are few, and otherwise the map that so many steps make. */
static uint32_t next_state(uint32_t s) { return s * 1664525u + 1013904223u; }
static uint32_t jump_rule(uint32_t s, uint64_t r) {
    if (r < 300) {
        while (r--) s = next_state(s);
        return s;
    }
    uint32_t mul = 1, add = 0, m = 1664525u, c = 1013904223u;
    for (; r; r >>= 1, c = m * c + c, m = m * m)
        if (r & 1) {
            mul = m * mul;
            add = m * add + c;
        }
    return mul * s + add;
}
static void walk_rule(uint32_t s, uint16_t *out, size_t len) {
    for (size_t k = 0; k < len; k++) {
        s = next_state(s);
        out[k] = (uint16_t)(s >> 20);
    }
}
static uint32_t frame_rule(uint32_t seed, uint64_t W, uint64_t H, uint16_t *out, size_t len) {
    if (off(W) || off(H)) return 1;
    if (len != (wide)W * H) return 5;
    walk_rule(seed, out, len);
    return 0;
}
static uint32_t row_rule(uint32_t seed, uint64_t W, uint64_t H, uint64_t row, uint16_t *out, size_t len) {
    if (off(W) || off(H)) return 1;
    if (row >= H) return 3;
    if (len != W) return 5;
    walk_rule(jump_rule(seed, row * W), out, len);
    return 0;
}

static void frame_case(int twice) {
    uint32_t seed = one_in(8) ? 0 : (uint32_t)rnd();
    uint64_t W = size(), H = size();
    while (W * H > (one_in(15) ? ROOM : 12000)) W = size(), H = size();
    size_t len = (size_t)(W * H), row_len = (size_t)W;
    if (one_in(8)) H = 4096; /* more rows than the lent frame has, mostly: the row is made, and the frame misfits */
    uint64_t row = one_in(3) ? H - 1 : below(H);
    if (one_in(2))
        for (uint64_t k = 1 + below(2); k > 0; k--)
            switch (below(5)) {
            case 0: W = one_in(2) ? odd_number() : W + 1 - 2 * below(2); break;
            case 1: H = one_in(2) ? odd_number() : H + 1 - 2 * below(2); break;
            case 2: row = one_in(2) ? odd_number() : H; break;
            case 3: len = other_length(len, W); break;
            default: row_len = other_length(row_len, W); break;
            }
    uint64_t start = rnd();
    for (int round = 0; round <= twice; round++) {
        size_t at = place(round, len), row_at = place(round, row_len);
        before(plane[0].fill, expected[0], at, len, start);
        before(plane[1].fill, expected[1], row_at, row_len, start + 1);
        uint32_t asked = frame_rule(seed, W, H, expected[0] + at, len), row_asked = row_rule(seed, W, H, row, expected[1] + row_at, row_len);
        uint32_t got = rokzimp_test_frame(seed, W, H, plane[0].lent + at, len);
        uint32_t row_got = rokzimp_test_row(seed, W, H, row, plane[1].lent + row_at, row_len);
        frame_calls++;
        same("the test frame's number", got, asked);
        same("the test row's number", row_got, row_asked);
        frames[got < NUMBERS ? got : 0]++;
        rows_made[row_got < NUMBERS ? row_got : 0]++;
        if (!after(plane[0].fill, expected[0], at, len)) differs("the test frame", got);
        if (!after(plane[1].fill, expected[1], row_at, row_len)) differs("the test row", row_got);
    }
    uint64_t steps = one_in(2) ? odd_number() : rnd() >> below(64);
    same("the jump", rokzimp_jump(seed, steps), jump_rule(seed, steps));
}

static int lacks(size_t len, uint64_t W, uint64_t row) { return (wide)len < ((wide)row + 1) * W; }

static void view_cases(int at_start) {
    uint64_t W = one_in(4) ? odd_number() : size(), H = one_in(6) ? odd_number() : size(), layout = one_in(8) ? below(256) : below(4);
    uint64_t row = one_in(4) ? odd_number() : below(one_in(2) ? 20 : 4200);
    wide want = ((wide)row + 1) * W;
    size_t fits = want <= ROOM ? (size_t)want : (size_t)below(ROOM + 1), lens[2];
    for (int c = 0; c < 2; c++) {
        lens[c] = one_in(2) ? fits : one_in(2) ? other_length(fits, W) : fits + (size_t)below(1000);
        if (lens[c] > ROOM) lens[c] = ROOM;
    }
    /* the planes of a view are lent to be read only */
    const uint16_t *p = piece.lent + place(at_start, lens[0]), *q = piece.lent + place(at_start, lens[1]);
    uint32_t number = off(W) ? 1 : lacks(lens[0], W, row) ? 7 : 0;
    same("the row view's number", rokzimp_row_view_check(p, lens[0], W, row), number);
    same("the row view's start", rokzimp_row_view_start(p, lens[0], W, row), number ? 0 : row * W);
    same("the row view's length", rokzimp_row_view_length(p, lens[0], W, row), number ? 0 : W);
    rows_seen[number]++;
    number = off(W) || off(H) ? 1 : layout > 3 ? 2 : row >= H || lacks(lens[0], W, row) || lacks(lens[1], W, row) ? 7 : 0;
    same("the partner view's number", rokzimp_partner_view_check(p, lens[0], q, lens[1], W, H, (uint8_t)layout, row), number);
    same("the partner view's start", rokzimp_partner_view_start(p, lens[0], q, lens[1], W, H, (uint8_t)layout, row), number ? 0 : row * W);
    same("the partner view's length", rokzimp_partner_view_length(p, lens[0], q, lens[1], W, H, (uint8_t)layout, row), number ? 0 : W);
    static const uint32_t partner[4][2] = {{0, 2}, {0, 2}, {2, 0}, {2, 0}};
    same("the partner view's plane", rokzimp_partner_view_plane((uint8_t)layout, row), layout > 3 ? 0 : partner[layout][row % 2]);
    partners[number]++;
}

static void show(const char *what, const uint64_t *counts) {
    static const char *const words[NUMBERS] = {"accepted", "off size", "unknown layout", "off the frame", "short halo", "plane misfit",
                                               "over range", "no such row", "torn file", "not camera planes", "unknown smoothing",
                                               "over preview size"};
    printf("%s:", what);
    for (int k = 0; k < NUMBERS; k++)
        if (counts[k]) printf("  %s %llu", words[k], (unsigned long long)counts[k]);
    printf("\n");
}

int main(int argc, char **argv) {
    uint64_t cases = argc > 1 ? strtoull(argv[1], 0, 10) : 100000;
    the_seed = argc > 2 ? strtoull(argv[2], 0, 10) : 1;
    state = the_seed * 0x9e3779b97f4a7c15u + 1;
    signal(SIGSEGV, stopped);
    signal(SIGBUS, stopped);
    signal(SIGFPE, stopped);
    signal(SIGILL, stopped);
    piece = room(1);
    for (int c = 0; c < 3; c++) {
        seen[c] = room(1);
        plane[c] = room(0);
        expected[c] = malloc((size_t)ROOM * 2);
    }
    for (the_case = 0; the_case < cases; the_case++) {
        strip_case((int)(the_case % 2));
        back_case((int)(the_case % 2));
        frame_case((int)(the_case % 2));
        view_cases((int)(the_case % 2));
    }
    printf("%llu cases, seed %llu; %llu strips and previews, %llu mosaics back, %llu test frames and as many rows of such, %llu jumps, row views and partner views\n",
           (unsigned long long)cases, (unsigned long long)the_seed, (unsigned long long)calls, (unsigned long long)back_calls,
           (unsigned long long)frame_calls, (unsigned long long)cases);
    show("strips", strips[0]);
    show("previews", strips[1]);
    show("mosaics back", backs);
    show("test frames", frames);
    show("test rows", rows_made);
    show("row views", rows_seen);
    show("partner views", partners);
    printf("mismatches %llu\n", (unsigned long long)mismatches);
    return mismatches != 0;
}
