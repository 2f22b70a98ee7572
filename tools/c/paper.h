/* docs/SPECIFICATION.md in plain C, as far as the random test needs it: lengths, refusals, query and flush key; the limit on keys is
 * the header's. A width is the bytes of a fingerprint, 1 or 2. */
#ifndef PAPER_H
#define PAPER_H

#include <stddef.h>
#include <stdint.h>

/* What the build is lent beside the keys, in the order of its parameters. */
enum buffer { FINGERPRINTS, LONE, COUNTS, SUMS, POSITIONS, ORDER, STARTS, DESCRIPTOR, BUFFERS };

/* Bytes in an element of a buffer. */
size_t element_size(int buffer, size_t width);

/* The lengths that a build of n keys needs, in elements. */
void paper_needed(size_t n, size_t length[BUFFERS]);

/* The refusal that lengths and limit alone give, 7 and then 1 to 4, or 0. */
uint32_t paper_refused_at_once(size_t n, uint32_t limit, const size_t length[BUFFERS]);

/* Are two keys equal? */
int paper_repeated(const uint64_t *keys, size_t n);

/* The descriptor that attempt number `attempt` gives to n keys. */
void paper_descriptor(size_t n, uint32_t attempt, uint8_t descriptor[20]);

/* The answers that are due from the C entries. */
uint32_t paper_contains(size_t width, const uint8_t *descriptor, size_t descriptor_length, const uint8_t *fingerprints,
                        size_t fingerprints_length, uint64_t key);
uint32_t paper_flush_key(uint16_t unit, uint8_t valve, int64_t seconds, uint64_t *key);

/* Checks 7 to 10: 0, or the number of the refusal; *slots is how many fingerprints an accepted descriptor speaks of. */
uint32_t paper_read(const uint8_t *descriptor, size_t descriptor_length, uint64_t *slots);

uint64_t paper_mix64(uint64_t key);

#endif
