/* The strip call of reference/demosaic.c, for the stress test and the benchmark; the latter compiles it twice, under names of its
 * own. choice -1, method -1 and nb -1: the call names none of them. preview 0 is the full-size entry, 1 the preview. */
#ifndef STRIP_GENERAL_H
#define STRIP_GENERAL_H

#include <stddef.h>
#include <stdint.h>

typedef int StripGeneral(size_t W, size_t H, int layout, int choice, int method, size_t a, size_t n, const void *bands, long nb, int preview,
                         const uint16_t *piece, size_t len, uint16_t *R, size_t rlen, uint16_t *G, size_t glen, uint16_t *B, size_t blen);

#endif
