/* A list in which one bit is flipped, each bit in turn: the numbers that the header gives under SAFETY. They are no promise,
 * only what is so of this list; they are held here so that the header gives those of a run. */
#include "entries.h"
#include "gillpocketry.h"
#include "paper.h"
#include "test.h"

#include <inttypes.h>
#include <stdio.h>

enum { KEYS = 100, SLOTS = GP_SLOTS_UP_TO(KEYS), STARTS_LENGTH = GP_STARTS_UP_TO(KEYS) };
enum { BITS = 1696, REFUSED_BITS = 96, DENYING_BITS = 1264 }; /* as the header says */

static uint64_t keys[KEYS];
static uint8_t descriptor[GP_DESCRIPTOR_BYTES], fingerprints[SLOTS];

static void build_list(void) {
    static uint64_t sums[SLOTS], order[KEYS + 1];
    static uint32_t lone[SLOTS], starts[STARTS_LENGTH];
    static uint16_t counts[SLOTS];
    static uint8_t positions[KEYS];
    for (size_t i = 0; i < KEYS; i++) {
        keys[i] = paper_mix64(i + 1);
    }
    if (gp_fuse8_build(keys, KEYS, GP_MAX_ATTEMPTS, fingerprints, SLOTS, lone, SLOTS, counts, SLOTS, sums, SLOTS, positions,
                       KEYS, order, KEYS + 1, starts, STARTS_LENGTH, descriptor, sizeof descriptor) > GP_MAX_ATTEMPTS) {
        wrong("%d keys are not built", (int)KEYS);
    }
}

/* How many of the keys the list denies, or -1 where it is refused: for whatever key, if for one. */
static int denied(size_t slots) {
    int denials = 0;
    uint32_t first = gp_fuse8_contains(descriptor, sizeof descriptor, fingerprints, slots, keys[0]);
    for (size_t i = 0; i < KEYS; i++) {
        uint32_t answer = gp_fuse8_contains(descriptor, sizeof descriptor, fingerprints, slots, keys[i]);
        denials += answer == GP_NO;
        if (first >= GP_REFUSED ? answer != first : answer >= GP_REFUSED) {
            wrong("a list of one flipped bit is refused for one key, and not for another");
        }
    }
    return first >= GP_REFUSED ? -1 : denials;
}

void test_damage(void) {
    size_t slots, bit, bits;
    int refusals = 0, denying = 0, most = 0;
    build_list();
    slots = GP_SLOTS_OF(descriptor);
    bits = 8 * (sizeof descriptor + slots);
    if (denied(slots) != 0) {
        wrong("a list of %d keys denies one of them, or is refused", (int)KEYS);
    }
    for (bit = 0; bit < bits; bit++) {
        size_t byte = bit / 8;
        uint8_t *place = byte < sizeof descriptor ? descriptor + byte : fingerprints + (byte - sizeof descriptor);
        int denials;
        *place ^= (uint8_t)(1 << bit % 8);
        denials = denied(slots);
        *place ^= (uint8_t)(1 << bit % 8);
        refusals += denials < 0;
        denying += denials > 0;
        most = denials > most ? denials : most;
    }
    printf("one flipped bit of %zu in a list of %d keys: refused %d, accepted %zu; %d of these deny 1 to %d listed keys\n",
           bits, (int)KEYS, refusals, bits - (size_t)refusals, denying, most);
    if (bits != BITS || refusals != REFUSED_BITS || denying != DENYING_BITS || most != KEYS) {
        wrong("these are not the numbers that the header gives");
    }
}
