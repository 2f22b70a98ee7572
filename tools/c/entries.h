/* The C entries of both widths, told apart by the bytes of a fingerprint, 1 or 2. Fingerprints are lent as bytes of memory,
 * aligned for their width. */
#ifndef ENTRIES_H
#define ENTRIES_H

#include "paper.h"

uint32_t call_contains(size_t width, const uint8_t *descriptor, size_t descriptor_length, const uint8_t *fingerprints,
                       size_t fingerprints_length, uint64_t key);

/* Each buffer in its place, with its length in elements. */
uint32_t call_build(size_t width, const uint64_t *keys, size_t n, uint32_t limit, uint8_t *const lent[BUFFERS],
                    const size_t length[BUFFERS]);

#endif
