/* The query on random, damaged and good descriptors, over fingerprints that begin or end where the readable memory does. */
#include "entries.h"
#include "gillpocketry.h"
#include "lent.h"
#include "paper.h"
#include "test.h"

#include <inttypes.h>
#include <string.h>

/* The most fingerprints that are lent. */
enum { POOL = 1 << 18 };

static void put_word(uint8_t *bytes, uint32_t word) {
    for (int i = 0; i < 4; i++) {
        bytes[i] = (uint8_t)(word >> 8 * i);
    }
}

static uint32_t near_a_border(void) {
    static const uint32_t borders[] = {0, 4, 256, 1 << 18, 1 << 19, INT32_MAX, UINT32_MAX};
    size_t which = below(sizeof borders / sizeof *borders);
    return borders[which] + (uint32_t)below(5) - 2;
}

/* A descriptor that is good for at most POOL fingerprints, and then perhaps is damaged. */
static void random_descriptor(uint8_t *bytes) {
    uint32_t length = UINT32_C(4) << below(15), segments = (uint32_t)(1 + any_scale(POOL / length - 3));
    for (int i = 0; i < 24; i++) {
        bytes[i] = (uint8_t)any();
    }
    if (one_in(8)) {
        return;
    }
    put_word(bytes + 8, one_in(8) ? near_a_border() : length);
    put_word(bytes + 12, one_in(8) ? near_a_border() : length - 1);
    put_word(bytes + 16, one_in(8) ? near_a_border() : segments * length);
    if (one_in(16)) { /* the largest good count length, or one segment more */
        put_word(bytes + 16, (INT32_MAX / length - 2 + (uint32_t)below(2)) * length);
    }
    for (size_t flips = one_in(2) ? 0 : below(4); flips > 0; flips--) {
        size_t bit = below(160);
        bytes[bit / 8] ^= (uint8_t)(1 << bit % 8);
    }
}

/* How many fingerprints to give: those that the descriptor speaks of, if there are so many, or one off, or bytes mistaken for
 * elements, or any number. */
static size_t random_length(const uint8_t *descriptor, size_t descriptor_length) {
    uint64_t slots = 0;
    paper_read(descriptor, descriptor_length, &slots);
    if (slots >= POOL || one_in(8)) {
        return below(POOL);
    }
    if (slots > 0 && one_in(8)) {
        return (size_t)slots - 1;
    }
    if (slots <= POOL / 2 && one_in(8)) {
        return one_in(2) ? 2 * (size_t)slots : (size_t)slots / 2;
    }
    return (size_t)slots + (size_t)one_in(8);
}

void test_queries(size_t width, unsigned long rounds) {
    struct arena descriptors, fingerprints;
    arena_open(&descriptors, 24);
    arena_open(&fingerprints, POOL * width);
    for (uint8_t *place = fingerprints.begin; place < fingerprints.end; place++) {
        *place = (uint8_t)any();
    }
    arena_shut(&fingerprints);
    while (rounds-- > 0) {
        uint8_t bytes[24];
        size_t length = one_in(8) ? below(25) : 20, slots;
        uint64_t key = any();
        uint32_t answer, due;
        const uint8_t *descriptor, *list;
        random_descriptor(bytes);
        descriptor = memcpy(arena_lend(&descriptors, length, 0, random_border()), bytes, length);
        arena_remember(&descriptors);
        slots = random_length(descriptor, length);
        list = arena_lend(&fingerprints, slots * width, 0, random_border());
        due = paper_contains(width, descriptor, length, list, slots, key);
        answer = call_contains(width, length ? descriptor : NULL, length, slots ? list : NULL, slots, key);
        calls++;
        if (answer != due || !arena_as_due(&descriptors)) {
            wrong("query of key %" PRIu64 ", descriptor length %zu, %zu fingerprints of %zu bytes: %" PRIu32 ", due %" PRIu32,
                  key, length, slots, width, answer, due);
        }
        if (due >= GP_REFUSED) {
            refused[due - GP_REFUSED]++;
        }
    }
    arena_close(&descriptors);
    arena_close(&fingerprints);
}
