/* The build on random keys, repeated keys and keys that stick, in rooms that are long enough or too short: its answer, the memory
 * that it is lent, and what lies around that memory. */
#include "entries.h"
#include "gillpocketry.h"
#include "lent.h"
#include "paper.h"
#include "test.h"

#include <inttypes.h>
#include <string.h>

static struct arena keys_arena, arenas[BUFFERS];
static size_t width; /* bytes of a fingerprint of the lists that are being built */

/* Short lists with the number of attempts that stick. */
static const struct {
    uint64_t keys[5];
    size_t n;
    uint32_t sticks;
} stuck[] = {
    {{2, 4}, 2, 1},
    {{26, 76}, 2, 2},
    {{327, 461}, 2, 3},
    {{2002, 2074}, 2, 4},
    {{11039, 22808}, 2, 5},
    {{7, 13, 0}, 3, 1},
    {{51, 559, 0}, 3, 2},
    {{7, 13, 0, 1, 2}, 5, 1},
    {{18, 413, 0, 1, 2}, 5, 2},
    {{11173, 11237, 0, 1, 2}, 5, 3},
};

/* Calls ours with buffers that hold a pattern and lie at, or near, a page that may not be touched. */
static uint32_t build(const uint64_t *keys, size_t n, uint32_t limit, const size_t length[BUFFERS]) {
    uint8_t *lent[BUFFERS];
    for (int i = 0; i < BUFFERS; i++) {
        size_t size = element_size(i, width);
        lent[i] = arena_lend(&arenas[i], length[i] * size, below(3) * size, random_border());
        arena_fill(&arenas[i]);
        arena_remember(&arenas[i]);
        if (length[i] == 0 && one_in(2)) {
            lent[i] = NULL;
        }
    }
    arena_remember(&keys_arena);
    calls++;
    return call_build(width, n == 0 && one_in(2) ? NULL : keys, n, limit, lent, length);
}

/* What a call leaves by the table: refusal 0 is a success, whose fingerprints are those that stand there. */
static void hold_memory(const uint64_t *keys, size_t n, uint32_t refusal, uint32_t attempt) {
    size_t needed[BUFFERS];
    uint8_t descriptor[20];
    if (refusal == 0 || refusal == 5 || refusal == 6) {
        paper_needed(n, needed);
        for (int i = LONE; i <= STARTS; i++) {
            arena_due_zero(&arenas[i], needed[i] * element_size(i, width));
        }
    }
    if (refusal == 6) {
        arena_due_zero(&arenas[FINGERPRINTS], needed[FINGERPRINTS] * width);
    }
    if (refusal == 0) {
        paper_descriptor(n, attempt, descriptor);
        arena_due(&arenas[DESCRIPTOR], descriptor, 20);
        arena_due(&arenas[FINGERPRINTS], arenas[FINGERPRINTS].lent, needed[FINGERPRINTS] * width);
        for (size_t i = 0; i < n; i++) {
            if (call_contains(width, descriptor, 20, arenas[FINGERPRINTS].lent, GP_SLOTS_OF(descriptor), keys[i]) != GP_YES) {
                wrong("key %" PRIu64 " of %zu is listed and answered with no", keys[i], n);
            }
        }
    }
    for (int i = 0; i < BUFFERS; i++) {
        if (!arena_as_due(&arenas[i])) {
            wrong("%zu keys, refusal %" PRIu32 ": buffer %d is not left as the table says", n, refusal, i);
        }
    }
    if (!arena_as_due(&keys_arena)) {
        wrong("%zu keys, refusal %" PRIu32 ": the keys were changed", n, refusal);
    }
}

/* One build, its answer and its memory. Whether random keys stick is not computed here; `must_stick` is -1 where that is open. */
static uint32_t hold_build(const uint64_t *keys, size_t n, uint32_t limit, const size_t length[BUFFERS], int must_stick) {
    uint32_t answer = build(keys, n, limit, length);
    uint32_t refusal = paper_refused_at_once(n, limit, length);
    if (refusal == 0 && paper_repeated(keys, n)) {
        refusal = 5;
    }
    if (refusal == 0 && (must_stick == 1 || (must_stick == -1 && answer == GP_BUILD_REFUSED + 6))) {
        refusal = 6;
    }
    if (refusal != 0 ? answer != GP_BUILD_REFUSED + refusal : answer < 1 || answer > limit) {
        wrong("%zu keys, limit %" PRIu32 ": answer %" PRIu32 ", refusal due %" PRIu32, n, limit, answer, refusal);
    }
    refused[refusal]++;
    hold_memory(keys, n, refusal, answer);
    return answer;
}

static void random_lengths(size_t n, size_t length[BUFFERS]) {
    paper_needed(n > GP_MAX_KEYS ? GP_MAX_KEYS : n, length);
    for (int i = 0; i < BUFFERS; i++) {
        if (one_in(24)) {
            length[i] = below(length[i] + 1);
        } else if (one_in(2)) {
            length[i] += below(4);
        }
    }
}

static uint64_t *lend_keys(size_t n) { return (uint64_t *)(void *)arena_lend(&keys_arena, n * 8, 0, random_border()); }

static void test_random_list(void) {
    size_t length[BUFFERS], n = one_in(100) ? GP_MAX_KEYS + 1 - below(3) : any_scale(GP_MAX_KEYS);
    uint64_t *keys = lend_keys(n), base = any();
    uint32_t answer, limit = one_in(8) ? (uint32_t)below(1003) : one_in(64) ? UINT32_MAX : 1 + (uint32_t)below(3);
    for (size_t i = 0; i < n; i++) {
        keys[i] = base % 3 == 0 ? base + i : base % 3 == 1 ? any() : any() % GP_MAX_KEYS;
    }
    random_lengths(n, length);
    answer = hold_build(keys, n, limit, length, -1);
    if (answer > 1 && answer < GP_BUILD_REFUSED) {
        hold_build(keys, n, answer - 1, length, 1);
        if (hold_build(keys, n, answer, length, 0) != answer) {
            wrong("%zu keys: attempt %" PRIu32 " ends the search, but not where it is the limit", n, answer);
        }
    }
    if (answer == GP_BUILD_REFUSED + 6 && hold_build(keys, n, GP_MAX_ATTEMPTS, length, -1) <= limit) {
        wrong("%zu keys: refused with 6 at limit %" PRIu32 ", built within it later", n, limit);
    }
}

static void test_stuck_list(void) {
    size_t length[BUFFERS], which = below(sizeof stuck / sizeof *stuck), n = stuck[which].n;
    uint32_t limit = 1 + (uint32_t)below(8);
    uint64_t *keys = lend_keys(n);
    int sticks = limit <= stuck[which].sticks;
    uint32_t answer;
    memcpy(keys, stuck[which].keys, n * 8);
    random_lengths(n, length);
    answer = hold_build(keys, n, limit, length, sticks);
    if (answer < GP_BUILD_REFUSED && answer != stuck[which].sticks + 1) {
        wrong("stuck list %zu: attempt %" PRIu32 " ends the search", which, answer);
    }
}

void test_builds(size_t width_of_lists, unsigned long rounds) {
    size_t most[BUFFERS] = {GP_MAX_SLOTS,    GP_MAX_SLOTS,    GP_MAX_SLOTS,  GP_MAX_SLOTS,
                            GP_MAX_KEYS + 1, GP_MAX_KEYS + 2, GP_MAX_STARTS, GP_DESCRIPTOR_BYTES};
    width = width_of_lists;
    arena_open(&keys_arena, (GP_MAX_KEYS + 1) * 8);
    for (int i = 0; i < BUFFERS; i++) {
        arena_open(&arenas[i], (most[i] + 8) * element_size(i, width));
    }
    while (rounds-- > 0) {
        if (one_in(4)) {
            test_stuck_list();
        } else {
            test_random_list();
        }
    }
    arena_close(&keys_arena);
    for (int i = 0; i < BUFFERS; i++) {
        arena_close(&arenas[i]);
    }
}
