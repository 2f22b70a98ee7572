/* Through void pointers each argument takes the type of its parameter, so the calls of the two widths read the same. */
#include "entries.h"

#include "gillpocketry.h"

uint32_t call_contains(size_t width, const uint8_t *descriptor, size_t descriptor_length, const uint8_t *fingerprints,
                       size_t fingerprints_length, uint64_t key) {
    const void *list = fingerprints;
    return width == 1 ? gp_fuse8_contains(descriptor, descriptor_length, list, fingerprints_length, key)
                      : gp_fuse16_contains(descriptor, descriptor_length, list, fingerprints_length, key);
}

#define CALL(entry)                                                                                                             \
    entry(keys, n, limit, fingerprints, length[FINGERPRINTS], lone, length[LONE], counts, length[COUNTS], sums, length[SUMS],   \
          positions, length[POSITIONS], order, length[ORDER], starts, length[STARTS], descriptor, length[DESCRIPTOR])

uint32_t call_build(size_t width, const uint64_t *keys, size_t n, uint32_t limit, uint8_t *const lent[BUFFERS],
                    const size_t length[BUFFERS]) {
    void *fingerprints = lent[FINGERPRINTS], *lone = lent[LONE], *counts = lent[COUNTS], *sums = lent[SUMS];
    void *positions = lent[POSITIONS], *order = lent[ORDER], *starts = lent[STARTS], *descriptor = lent[DESCRIPTOR];
    return width == 1 ? CALL(gp_fuse8_build) : CALL(gp_fuse16_build);
}
