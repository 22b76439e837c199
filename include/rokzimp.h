/* rokzimp.h - red, green and blue planes from a Bayer mosaic: strip calls, by the full-size entry and by the preview, views of the
 * planes, and the mosaic back from them; and test frames that anyone can make from a seed.
 *
 * Each function below is proved to return, to answer and to write what is said of it, for every value of its arguments
 * (crates/capi_c/src has the contracts). What is said of stack, heap and locks was measured and seen in the code, not proved;
 * the figures of stack were measured with the older kit, by which the library was built before.
 * The proof relies on the caller for this:
 *
 *   - A pointer and the count after it are one run of that many 16-bit samples, at an even address, which the call may read and, where the pointer
 *     is not to const, write. With a count of 0 the pointer is not used, and must still not be NULL.
 *   - A run that is written (red, green, blue of a strip or a preview; the mosaic that is given back; a test frame or its row)
 *     overlaps no other run of the same call. Runs that are only read may overlap each other.
 *   - No other thread writes a run of the call while it runs, nor reads one that it writes.
 *   - In the calling thread floats are rounded to the nearest, halves to even, and no floating-point exception traps; both are so unless
 *     a program sets it otherwise (fesetround, feenableexcept). A strip or a preview works green out in floats: rounded another way its
 *     samples would be off by a unit or so. Whether subnormal numbers are flushed to 0 does not matter. A call may set the inexact flag.
 *
 * The library keeps no memory between calls, takes no lock and no heap, and prints nothing. Calls in several threads are
 * independent; strips and previews of one frame may run at the same time, each into its own rows. A strip takes about 770 KB of
 * stack, about 970 KB if the frame has 1024 columns or fewer: a thread that calls it needs a stack of 1 MB at the least. A preview
 * takes about 200 KB: a thread that calls no strip needs 256 KB at the least. The others take next to none.
 *
 * A frame has `width` columns and `height` rows, each 2 to 4096. Rows and columns count from 0. Readings are 0 to 4095. The
 * layout gives the colours of an even and of an odd row: 0 = RG GB, 1 = GR BG, 2 = GB RG, 3 = BG GR. It is a byte here: C
 * cuts a wider number to its low byte without a word, so test a wider one before the call. The smoothing is a byte too: it says
 * how a strip or a preview weights the five differences of a direction, from the pixel outward: 0 = evenly, 1 = 26, 24, 21, 17 and
 * 12 hundredths. Samples are in sixteenths of a reading, 0 to 65520. The observed sample of a pixel is the one in the plane of its
 * filter's colour. Mosaics and planes are stored row by row, without gaps.
 *
 * What a strip, a preview, a mosaic back, a test frame, its row and the checks return is 0, or the number of a refusal. Of several
 * that hold, the one that is tested first is returned. A refused call changes no sample. */
#ifndef ROKZIMP_H
#define ROKZIMP_H

#include <stddef.h>
#include <stdint.h>

#ifdef __cplusplus
extern "C" {
#endif

enum {
    ROKZIMP_OK = 0,
    ROKZIMP_OFF_SIZE = 1,       /* "off size": width or height outside 2 to 4096 */
    ROKZIMP_UNKNOWN_LAYOUT = 2, /* "unknown layout": layout above 3 */
    ROKZIMP_OFF_THE_FRAME = 3,  /* "off the frame": rows is 0, or first_row + rows, not wrapped, is above height; test row:
                                   row >= height */
    ROKZIMP_SHORT_HALO = 4,     /* "short halo": the piece of the mosaic has not the exact length */
    ROKZIMP_PLANE_MISFIT = 5,   /* "plane misfit": one of the planes, or the mosaic to be written, is not rows * width long; a
                                   test frame is not width * height long, or its row not width */
    ROKZIMP_OVER_RANGE = 6,     /* "over range": some reading of the piece is above 4095 */
    ROKZIMP_NO_SUCH_ROW = 7,    /* "no such row": a plane is shorter than (row + 1) * width, not wrapped; partner view: or row >= height */
    /* 8 is for what the two programs read, which no function here does */
    ROKZIMP_NOT_CAMERA_PLANES = 9,  /* "not camera planes": an observed sample is not a multiple of 16, or is above 65520 */
    ROKZIMP_UNKNOWN_SMOOTHING = 10, /* "unknown smoothing": smoothing above 1; strips and previews only */
    ROKZIMP_OVER_PREVIEW_SIZE = 11  /* "over preview size": width above 1024, or rows above 64; previews only */
};

/* The rows of the mosaic that a strip or a preview of `rows` rows from `first_row` on is lent: rokzimp_piece_rows rows from row
 * rokzimp_piece_start on. That is from max(0, first_row - 7) to min(height, first_row + rows + 7) - 1, nothing wrapped; no rows
 * where that is none. For a strip of a frame of at most 8 rows it is the whole frame. */
size_t rokzimp_piece_start(size_t first_row);
size_t rokzimp_piece_rows(size_t height, size_t first_row, size_t rows);

/* A strip, by the full-size entry: fills rows first_row to first_row + rows - 1 of the three planes. `piece` is the rows of the
 * mosaic named above, all columns; its count and those of the planes are of samples. Tests 1, 2, 10, 3, 4, 5 and 6, in that order.
 * Returns 0 and every sample of the three planes is written; or the refusal, and none is. The piece is only read. Every sample of
 * green then lies within 0.53 units, and every one of red and blue within 1.55, of the exact reconstruction of the whole frame,
 * which is the same rules with the same smoothing and nothing rounded (docs/PROVED.md, demand 3); a unit is a sixteenth of a
 * reading. The same holds of a whole plane if all its strips and previews are of one smoothing. The observed sample is 16 times the
 * reading. */
uint32_t rokzimp_strip_smoothed(size_t width, size_t height, uint8_t layout, uint8_t smoothing, size_t first_row, size_t rows,
                                const uint16_t *piece, size_t piece_count,
                                uint16_t *red, size_t red_count,
                                uint16_t *green, size_t green_count,
                                uint16_t *blue, size_t blue_count);

/* The number that rokzimp_strip_smoothed returns for such a call, and nothing else done. */
uint32_t rokzimp_strip_smoothed_check(size_t width, size_t height, uint8_t layout, uint8_t smoothing, size_t first_row, size_t rows,
                                      const uint16_t *piece, size_t piece_count,
                                      size_t red_count, size_t green_count, size_t blue_count);

/* The same with no smoothing named, which is 1; so these never return 10. CHANGED: rokzimp_strip delivers other samples than before
 * smoothing could be named, when the weights were even. To keep the old ones, call rokzimp_strip_smoothed with smoothing 0. */
uint32_t rokzimp_strip(size_t width, size_t height, uint8_t layout, size_t first_row, size_t rows,
                       const uint16_t *piece, size_t piece_count,
                       uint16_t *red, size_t red_count,
                       uint16_t *green, size_t green_count,
                       uint16_t *blue, size_t blue_count);

/* The number that rokzimp_strip returns for such a call, and nothing else done. */
uint32_t rokzimp_strip_check(size_t width, size_t height, uint8_t layout, size_t first_row, size_t rows,
                             const uint16_t *piece, size_t piece_count,
                             size_t red_count, size_t green_count, size_t blue_count);

/* A preview: a strip for the unit beside the chair, which shows at most 1024 columns and takes at most 64 rows in a strip. Arguments,
 * what is written and what is returned are as for rokzimp_strip_smoothed; it takes about a fifth of the stack. Tests 1, 2, 10, 3,
 * 11, 4, 5 and 6, in that order. What it accepts rokzimp_strip_smoothed accepts too, and both leave the same samples. So strips and
 * previews of one frame may be mixed freely: if they are of one smoothing there are no seams, and the error above holds. */
uint32_t rokzimp_preview_smoothed(size_t width, size_t height, uint8_t layout, uint8_t smoothing, size_t first_row, size_t rows,
                                  const uint16_t *piece, size_t piece_count,
                                  uint16_t *red, size_t red_count,
                                  uint16_t *green, size_t green_count,
                                  uint16_t *blue, size_t blue_count);

/* The number that rokzimp_preview_smoothed returns for such a call, and nothing else done. */
uint32_t rokzimp_preview_smoothed_check(size_t width, size_t height, uint8_t layout, uint8_t smoothing, size_t first_row, size_t rows,
                                        const uint16_t *piece, size_t piece_count,
                                        size_t red_count, size_t green_count, size_t blue_count);

/* The same with no smoothing named, which is 1; so these never return 10. */
uint32_t rokzimp_preview(size_t width, size_t height, uint8_t layout, size_t first_row, size_t rows,
                         const uint16_t *piece, size_t piece_count,
                         uint16_t *red, size_t red_count,
                         uint16_t *green, size_t green_count,
                         uint16_t *blue, size_t blue_count);

/* The number that rokzimp_preview returns for such a call, and nothing else done. */
uint32_t rokzimp_preview_check(size_t width, size_t height, uint8_t layout, size_t first_row, size_t rows,
                               const uint16_t *piece, size_t piece_count,
                               size_t red_count, size_t green_count, size_t blue_count);

/* The mosaic back: writes the readings of rows first_row to first_row + rows - 1 of the frame into `mosaic`, from the three planes
 * of the same rows. A reading is the observed sample of its pixel, divided by 16; what the other samples hold does not matter.
 * Tests 1, 2, 3, 5 and 9, in that order; 5 on the three planes and the mosaic. Returns 0 and every reading of the mosaic is
 * written; or the refusal, and none is. The planes are only read. */
uint32_t rokzimp_mosaic_back(size_t width, size_t height, uint8_t layout, size_t first_row, size_t rows,
                             const uint16_t *red, size_t red_count,
                             const uint16_t *green, size_t green_count,
                             const uint16_t *blue, size_t blue_count,
                             uint16_t *mosaic, size_t mosaic_count);

/* The number that rokzimp_mosaic_back returns for such a call, and nothing else done. */
uint32_t rokzimp_mosaic_back_check(size_t width, size_t height, uint8_t layout, size_t first_row, size_t rows,
                                   const uint16_t *red, size_t red_count,
                                   const uint16_t *green, size_t green_count,
                                   const uint16_t *blue, size_t blue_count,
                                   size_t mosaic_count);

/* Test frames: two who name the same seed, width and height have the same readings, 0 to 4095. A state is a 32-bit number; the next
 * one is (1664525 * state + 1013904223) modulo 2^32, and a reading is the new state divided by 2^20, rounded down. Readings run row by
 * row from the seed, which gives none itself: from seed 0 the first is 966. */

/* The whole frame of a seed. Tests 1, then 5 on the frame, which is width * height long. Returns 0 and every reading is written; or
 * the refusal, and none is. */
uint32_t rokzimp_test_frame(uint32_t seed, size_t width, size_t height, uint16_t *frame, size_t frame_count);

/* Row `row` of that frame, made directly, by a jump to where it begins. Tests 1, then 3 on the row, then 5 on `out`, which is width
 * long. Returns 0 and every reading of the row is written; or the refusal, and none is. */
uint32_t rokzimp_test_row(uint32_t seed, size_t width, size_t height, size_t row, uint16_t *out, size_t out_count);

/* The state after so many steps, any 64-bit number of them. (It takes at most 64 doublings: that is in the proof that its loop ends,
 * not in its contract.) */
uint32_t rokzimp_jump(uint32_t state, uint64_t steps);

/* A row view: row `row` of a plane, as the part of it that starts at sample rokzimp_row_view_start and is
 * rokzimp_row_view_length long. The check returns the number: it tests 1 (on the width), then 7. A refused view starts at 0 and
 * is 0 long; one that is not is width long. These read and write no sample. */
uint32_t rokzimp_row_view_check(const uint16_t *plane, size_t count, size_t width, size_t row);
size_t rokzimp_row_view_start(const uint16_t *plane, size_t count, size_t width, size_t row);
size_t rokzimp_row_view_length(const uint16_t *plane, size_t count, size_t width, size_t row);

/* A partner view: row `row` of the red or of the blue plane, whichever shares that sensor row with green. Both planes start at
 * row 0 of the frame. rokzimp_partner_view_plane says which: 0 for red, 2 for blue (0 for a layout above 3). The others
 * are as for a row view; the check tests 1, 2, then 7, in both planes and against the height. */
uint32_t rokzimp_partner_view_check(const uint16_t *red, size_t red_count, const uint16_t *blue, size_t blue_count,
                                    size_t width, size_t height, uint8_t layout, size_t row);
uint32_t rokzimp_partner_view_plane(uint8_t layout, size_t row);
size_t rokzimp_partner_view_start(const uint16_t *red, size_t red_count, const uint16_t *blue, size_t blue_count,
                                  size_t width, size_t height, uint8_t layout, size_t row);
size_t rokzimp_partner_view_length(const uint16_t *red, size_t red_count, const uint16_t *blue, size_t blue_count,
                                   size_t width, size_t height, uint8_t layout, size_t row);

#ifdef __cplusplus
}
#endif

#endif
