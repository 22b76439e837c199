/* Megapixels per second of one thread on a frame of 4096 rows and 4096 columns: the proved library beside strip_general of
 * reference/demosaic.c in its two builds, in whole numbers and with quotients guessed in floating point and put right (-DFPDIV); in
 * strips of 1, 16, 64 and 4096 rows of random readings, whole for other readings; of 64 columns, whole and in strips of 16 rows; of
 * 1024 columns in strips of 16 and 64 rows by the full-size entry and by the preview; each by either smoothing; the mosaic back of the
 * whole frame, a test frame, and the same by single rows, each beside a plain function below; and the memory that each uses beside the
 * mosaic and the planes.
 *
 *   bench [seconds]    time spent at the least on each figure (default 2)
 *
 * Times are processor time of this thread, so a shared machine disturbs them less. Those of a figure are timed in turn, and the best
 * turn of each counts. Their planes, or mosaics, are compared after each figure. */
#define _GNU_SOURCE
#include <pthread.h>
#include <stdint.h>
#include <stdio.h>
#include <stdlib.h>
#include <string.h>
#include <sys/mman.h>
#include <sys/resource.h>
#include <time.h>
#include "../strip_general.h"
#include "rokzimp.h"

StripGeneral strip_general_whole, strip_general_fp;

/* demosaic.c is compiled to take its memory here, so that it can be counted. That the library calls no allocator is tested by the
 * script `run`. */
static size_t heap, heap_most;
void *counted_calloc(size_t n, size_t size) {
    size_t *p = calloc(1, n * size + 64);
    if (!p) abort();
    p[0] = n * size;
    heap += n * size;
    if (heap > heap_most) heap_most = heap;
    return (char *)p + 64;
}
void counted_free(void *q) {
    size_t *p = (size_t *)((char *)q - 64);
    heap -= p[0];
    free(p);
}

enum { SIZE = 4096 };
enum { LIBRARY, WHOLE, FP, EACH };
static const char *const names[EACH] = {"library", "demosaic.c", "-DFPDIV"};
static uint16_t *mosaic, *planes[EACH][3], *back[2];

static double now(void) {
    struct timespec t;
    clock_gettime(CLOCK_THREAD_CPUTIME_ID, &t);
    return (double)t.tv_sec + 1e-9 * (double)t.tv_nsec;
}

static const char *const contents[] = {"random", "0 or 4095", "smooth"};
static void fill(int kind) {
    uint32_t s = 12345;
    for (size_t i = 0; i < SIZE; i++)
        for (size_t j = 0; j < SIZE; j++) {
            s = s * 1664525u + 1013904223u;
            mosaic[i * SIZE + j] = (uint16_t)(kind == 0 ? s >> 20 : kind == 1 ? (s >> 31) * 4095 : (i / 3 + j / 2 + (s >> 29)) % 4096);
        }
}

/* one strip of the frame of so many columns, by the preview or by the full-size entry */
static void strip(int who, int preview, size_t W, size_t a, size_t n, int smoothing) {
    __typeof__(rokzimp_strip_smoothed) *library = preview ? rokzimp_preview_smoothed : rokzimp_strip_smoothed;
    StripGeneral *general = who == WHOLE ? strip_general_whole : strip_general_fp;
    const uint16_t *piece = mosaic + rokzimp_piece_start(a) * W;
    size_t piece_len = rokzimp_piece_rows(SIZE, a, n) * W, len = n * W;
    uint16_t *red = planes[who][0] + a * W, *green = planes[who][1] + a * W, *blue = planes[who][2] + a * W;
    uint32_t r = who == LIBRARY
                     ? library(W, SIZE, 0, (uint8_t)smoothing, a, n, piece, piece_len, red, len, green, len, blue, len)
                     : (uint32_t)general(W, SIZE, 0, smoothing, -1, a, n, 0, -1, preview, piece, piece_len, red, len, green, len, blue, len);
    if (r) { printf("refused %u\n", r); exit(1); }
}

/* the whole frame, in strips of so many rows */
static void frame(int who, int preview, size_t W, size_t rows, int smoothing) {
    for (size_t a = 0; a < SIZE; a += rows) strip(who, preview, W, a, a + rows <= SIZE ? rows : SIZE - a, smoothing);
}

/* The mosaic back, written plainly: it too tests all before it writes. In 16 bits no multiple of 16 is above 65520. With noipa it is
 * compiled for any call, as the library is. */
__attribute__((noipa)) static uint32_t
plain_back(size_t W, size_t H, uint8_t layout, size_t a, size_t n, const uint16_t *red, size_t red_count, const uint16_t *green,
           size_t green_count, const uint16_t *blue, size_t blue_count, uint16_t *restrict out, size_t out_count) {
    static const uint8_t colours[4][2][2] = {{{0, 1}, {1, 2}}, {{1, 0}, {2, 1}}, {{1, 2}, {0, 1}}, {{2, 1}, {1, 0}}};
    const uint16_t *const plane[3] = {red, green, blue};
    if (W < LEAST || W > 4096 || H < LEAST || H > 4096) return 1;
    if (layout > 3) return 2;
    if (n == 0 || a > H || n > H - a) return 3;
    if (red_count != n * W || green_count != n * W || blue_count != n * W || out_count != n * W) return 5;
    for (int write = 0; write <= 1; write++)
        for (size_t i = 0; i < n; i++) {
            const uint8_t *colour = colours[layout][(a + i) % 2];
            const uint16_t *even = plane[colour[0]] + i * W, *odd = plane[colour[1]] + i * W;
            if (write) {
                uint16_t *row = out + i * W;
                for (size_t j = 0; j + 1 < W; j += 2) {
                    row[j] = even[j] / 16;
                    row[j + 1] = odd[j + 1] / 16;
                }
                if (W % 2) row[W - 1] = even[W - 1] / 16;
            } else {
                uint16_t bits = W % 2 ? even[W - 1] : 0;
                for (size_t j = 0; j + 1 < W; j += 2) bits |= even[j] | odd[j + 1];
                if (bits % 16) return 9;
            }
        }
    return 0;
}

/* the whole mosaic back, from the planes that the library made */
static void mosaic_back(int plain) {
    size_t samples = (size_t)SIZE * SIZE;
    uint16_t **p = planes[LIBRARY];
    uint32_t r = (plain ? plain_back : rokzimp_mosaic_back)(SIZE, SIZE, 0, 0, SIZE, p[0], samples, p[1], samples, p[2], samples,
                                                            back[plain], samples);
    if (r) { printf("refused %u\n", r); exit(1); }
}

/* Test frames, written plainly. */
__attribute__((noipa)) static uint32_t plain_walk(uint32_t s, size_t W, size_t H, uint16_t *out, size_t out_count) {
    if (W < LEAST || W > 4096 || H < LEAST || H > 4096) return 1;
    if (out_count != W * H) return 5;
    for (size_t k = 0; k < out_count; k++) {
        s = s * 1664525u + 1013904223u;
        out[k] = (uint16_t)(s >> 20);
    }
    return 0;
}
__attribute__((noipa)) static uint32_t plain_row(uint32_t s, size_t W, size_t H, size_t row, uint16_t *out, size_t out_count) {
    if (W < LEAST || W > 4096 || H < LEAST || H > 4096) return 1;
    if (row >= H) return 3;
    if (out_count != W) return 5;
    uint32_t m = 1664525u, c = 1013904223u;
    for (uint64_t r = (uint64_t)row * W; r; r >>= 1, c = m * c + c, m = m * m)
        if (r & 1) s = m * s + c;
    for (size_t k = 0; k < W; k++) {
        s = s * 1664525u + 1013904223u;
        out[k] = (uint16_t)(s >> 20);
    }
    return 0;
}
static void test_frame(int plain) {
    size_t samples = (size_t)SIZE * SIZE;
    uint32_t r = (plain ? plain_walk : rokzimp_test_frame)(7, SIZE, SIZE, back[plain], samples);
    if (r) { printf("refused %u\n", r); exit(1); }
}
static void test_rows(int plain) {
    for (size_t row = 0; row < SIZE; row++) {
        uint32_t r = (plain ? plain_row : rokzimp_test_row)(8, SIZE, SIZE, row, back[plain] + row * SIZE, SIZE);
        if (r) { printf("refused %u\n", r); exit(1); }
    }
}

/* the library's function and a plain one that write the same, in turn; whether what they wrote differs */
static int beside(const char *what, void (*run)(int plain), double seconds) {
    size_t samples = (size_t)SIZE * SIZE;
    double best[2] = {1e9, 1e9}, spent = 0;
    for (int turn = 0; turn < 2 || spent < 2 * seconds; turn++)
        for (int plain = 0; plain < 2; plain++) {
            double t = now();
            run(plain);
            t = now() - t;
            spent += t;
            if (t < best[plain]) best[plain] = t;
        }
    int differ = memcmp(back[0], back[1], samples * 2) != 0;
    printf("%s: library %.1f, a plain C function %.1f, ratio %.2f%s\n", what, (double)samples / best[0] * 1e-6,
           (double)samples / best[1] * 1e-6, best[1] / best[0], differ ? "  THEY DIFFER" : "");
    fflush(stdout);
    return differ;
}

/* the stack that one call takes: run on a stack of a known pattern, and see how deep it was overwritten */
static void *one_strip(void *who) {
    strip(*(int *)who, 0, SIZE, 0, SIZE, 1);
    return 0;
}
static void *one_narrow_strip(void *who) {
    strip(*(int *)who, 0, 1024, 0, 64, 1);
    return 0;
}
static void *one_preview(void *who) {
    strip(*(int *)who, 1, 1024, 0, 64, 1);
    return 0;
}
static void *one_back(void *plain) {
    mosaic_back(*(int *)plain);
    return 0;
}

static size_t stack_used(void *(*call)(void *), int who) {
    size_t size = 4 << 20;
    unsigned char *s = mmap(0, size, PROT_READ | PROT_WRITE, MAP_PRIVATE | MAP_ANONYMOUS | MAP_STACK, -1, 0);
    if (s == MAP_FAILED) abort();
    memset(s, 0xa5, size);
    pthread_attr_t attr;
    pthread_attr_init(&attr);
    pthread_attr_setstack(&attr, s, size);
    pthread_t t;
    if (pthread_create(&t, &attr, call, &who)) abort();
    pthread_join(t, 0);
    size_t k = 0;
    while (k < size && s[k] == 0xa5) k++;
    munmap(s, size);
    return size - k;
}

typedef struct { int contents; size_t columns, rows; int preview; } Figure;

/* the best time of each; whether some planes differ */
static int timed(Figure f, int smoothing, double seconds, double best[EACH]) {
    double spent = 0;
    for (int turn = 0; turn < 2 || spent < EACH * seconds; turn++)
        for (int who = 0; who < EACH; who++) {
            double t = now();
            frame(who, f.preview, f.columns, f.rows, smoothing);
            t = now() - t;
            spent += t;
            if (turn == 0 || t < best[who]) best[who] = t;
        }
    int differ = 0;
    for (int c = 0; c < 3; c++)
        for (int who = WHOLE; who < EACH; who++) differ |= memcmp(planes[LIBRARY][c], planes[who][c], f.columns * SIZE * 2) != 0;
    return differ;
}

/* The table of strips, each figure by either smoothing; whether some planes differ. The last figure leaves the planes of a whole frame. */
static int strips(double seconds) {
    static const Figure figures[] = {{0, 64, 16, 0}, {0, 64, 4096, 0}, {0, 1024, 16, 0}, {0, 1024, 16, 1}, {0, 1024, 64, 0}, {0, 1024, 64, 1},
                                     {0, SIZE, 1, 0}, {0, SIZE, 16, 0}, {0, SIZE, 64, 0},
                                     {0, SIZE, 4096, 0}, {1, SIZE, 4096, 0}, {2, SIZE, 4096, 0}};
    enum { FIGURES = 2 * sizeof figures / sizeof *figures };
    int bad = 0;
    printf("4096 rows, one thread; megapixels per second; ratios of the library to each build of demosaic.c\n");
    printf("%-10s %7s %13s %-9s %9s", "readings", "columns", "rows in strip", "entry", "smoothing");
    for (int who = 0; who < EACH; who++) printf(" %12s", names[who]);
    printf("    ratios\n");
    for (int each = 0; each < FIGURES; each++) {
        Figure f = figures[each / 2];
        int smoothing = each % 2;
        double best[EACH];
        fill(f.contents);
        int differ = timed(f, smoothing, seconds, best);
        bad |= differ;
        printf("%-10s %7zu %13zu %-9s %9d", contents[f.contents], f.columns, f.rows, f.preview ? "preview" : "full-size", smoothing);
        for (int who = 0; who < EACH; who++) printf(" %12.1f", (double)(f.columns * SIZE) / best[who] * 1e-6);
        printf(" %6.2f %6.2f%s\n", best[WHOLE] / best[LIBRARY], best[FP] / best[LIBRARY], differ ? "  PLANES DIFFER" : "");
        fflush(stdout);
    }
    return bad;
}

int main(int argc, char **argv) {
    double seconds = argc > 1 ? atof(argv[1]) : 2;
    size_t samples = (size_t)SIZE * SIZE;
    mosaic = malloc(samples * 2);
    for (int who = 0; who < EACH; who++)
        for (int c = 0; c < 3; c++) {
            planes[who][c] = malloc(samples * 2);
            memset(planes[who][c], who, samples * 2); /* not the same before */
        }
    for (int plain = 0; plain < 2; plain++) {
        back[plain] = malloc(samples * 2);
        memset(back[plain], 0xf0 + plain, samples * 2);
    }
    int bad = strips(seconds);
    bad |= beside("the mosaic back, the whole frame", mosaic_back, seconds);
    if (memcmp(back[0], mosaic, samples * 2)) {
        printf("THE MOSAIC DIFFERS\n");
        bad = 1;
    }
    bad |= beside("a test frame", test_frame, seconds);
    bad |= beside("a test frame by single rows", test_rows, seconds);
    printf("memory beside the mosaic and the planes, the thread's own few thousand bytes of stack included:\n");
    /* the mosaic back takes the strip's planes, so the others come after it */
    size_t in_strip = stack_used(one_strip, LIBRARY), in_back = stack_used(one_back, 0);
    size_t in_narrow = stack_used(one_narrow_strip, LIBRARY), in_preview = stack_used(one_preview, LIBRARY);
    printf("  %-10s %8zu bytes of stack, %zu in a strip of 1024 columns, %zu in a preview of them, %zu for the mosaic back, no heap\n",
           names[LIBRARY], in_strip, in_narrow, in_preview, in_back);
    for (int who = WHOLE; who < EACH; who++) {
        heap_most = 0;
        size_t stack = stack_used(one_strip, who);
        printf("  %-10s %8zu bytes of stack, %zu of heap\n", names[who], stack, heap_most);
    }
    struct rusage u;
    getrusage(RUSAGE_SELF, &u);
    printf("largest resident set of this program: %ld KiB, of which mosaics and planes %zu KiB\n", u.ru_maxrss,
           (3 + 3 * EACH) * samples * 2 / 1024);
    return bad;
}
