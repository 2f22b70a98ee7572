/* What the library takes of memory, as two tables: the buffers of a build with the lengths that the header gives, and the
 * stack. Run by tools/footprint. The stack is that of a call of each entry on memory that was painted before: how far down it
 * has changed, beyond what a call of an empty function changes. */
#include "gillpocketry.h"

#include <stdio.h>
#include <stdlib.h>
#include <string.h>
#include <ucontext.h>

/* ---- Buffers ---- */

struct build_memory {
    uint64_t *keys;
    uint8_t *fingerprints8;
    uint16_t *fingerprints16;
    uint32_t *lone;
    uint16_t *counts;
    uint64_t *sums;
    uint8_t *positions;
    uint64_t *order;
    uint32_t *starts;
    uint8_t *descriptor;
};

#define BYTES(field, length) (sizeof *((struct build_memory *)0)->field * (length))
enum { BUFFERS = 10, EIGHT = 1, SIXTEEN = 2 };
static const char *const names[BUFFERS] = {
    "keys",      "fingerprints, 8 bits", "fingerprints, 16 bits", "lone", "counts", "sums", "positions", "order", "starts",
    "descriptor"};

static void buffer_bytes(size_t n, size_t bytes[BUFFERS]) {
    size_t slots = GP_SLOTS_UP_TO(n), at = 0;
    bytes[at++] = BYTES(keys, n);
    bytes[at++] = BYTES(fingerprints8, slots);
    bytes[at++] = BYTES(fingerprints16, slots);
    bytes[at++] = BYTES(lone, slots);
    bytes[at++] = BYTES(counts, slots);
    bytes[at++] = BYTES(sums, slots);
    bytes[at++] = BYTES(positions, n);
    bytes[at++] = BYTES(order, n + 1);
    bytes[at++] = BYTES(starts, (size_t)GP_STARTS_UP_TO(n));
    bytes[at++] = BYTES(descriptor, (size_t)GP_DESCRIPTOR_BYTES);
}

static void print_buffers(void) {
    static const size_t sizes[] = {100, 1000, GP_MAX_KEYS};
    size_t bytes[3][BUFFERS], all[3] = {0, 0, 0}, size, buffer;
    puts("| bytes of a build's buffers | up to 100 keys | up to 1,000 | up to 8,192 |\n|---|---|---|---|");
    for (size = 0; size < 3; size++) {
        buffer_bytes(sizes[size], bytes[size]);
    }
    for (buffer = 0; buffer < BUFFERS; buffer++) {
        printf("| %s | %zu | %zu | %zu |\n", names[buffer], bytes[0][buffer], bytes[1][buffer], bytes[2][buffer]);
        for (size = 0; size < 3; size++) {
            all[size] += bytes[size][buffer];
        }
    }
    printf("| in all, 8 bits | %zu | %zu | %zu |\n", all[0] - bytes[0][SIXTEEN], all[1] - bytes[1][SIXTEEN],
           all[2] - bytes[2][SIXTEEN]);
    printf("| in all, 16 bits | %zu | %zu | %zu |\n", all[0] - bytes[0][EIGHT], all[1] - bytes[1][EIGHT],
           all[2] - bytes[2][EIGHT]);
}

/* ---- Stack ---- */

enum { MOST = GP_MAX_KEYS, SLOTS = GP_MAX_SLOTS, PAINT = 0xa5 };
static uint64_t keys[MOST], sums[SLOTS], order[MOST + 1], key;
static uint32_t lone[SLOTS], starts[GP_MAX_STARTS], answer;
static uint16_t counts[SLOTS], fingerprints16[SLOTS];
static uint8_t positions[MOST], descriptor[GP_DESCRIPTOR_BYTES], fingerprints8[SLOTS];
static size_t keys_length;

#define BUILD(entry, fingerprints) \
    entry(keys, keys_length, GP_MAX_ATTEMPTS, fingerprints, SLOTS, lone, SLOTS, counts, SLOTS, sums, SLOTS, positions, MOST, \
          order, MOST + 1, starts, GP_MAX_STARTS, descriptor, sizeof descriptor)

static void call_nothing(void) {}
static void call_build8(void) { answer = BUILD(gp_fuse8_build, fingerprints8); }
static void call_build16(void) { answer = BUILD(gp_fuse16_build, fingerprints16); }
static void call_query8(void) { answer = gp_fuse8_contains(descriptor, 20, fingerprints8, GP_SLOTS_OF(descriptor), keys[0]); }
static void call_query16(void) {
    answer = gp_fuse16_contains(descriptor, 20, fingerprints16, GP_SLOTS_OF(descriptor), keys[0]);
}
static void call_flush_key(void) { answer = gp_flush_key(1, 2, -1, &key); }

static size_t depth(void (*call)(void)) {
    static uint8_t stack[1 << 18];
    static ucontext_t back, there;
    size_t untouched = 0;
    memset(stack, PAINT, sizeof stack);
    if (getcontext(&there) != 0) {
        perror("a context");
        exit(2);
    }
    there.uc_stack.ss_sp = stack;
    there.uc_stack.ss_size = sizeof stack;
    there.uc_link = &back;
    makecontext(&there, call, 0);
    if (swapcontext(&back, &there) != 0) {
        perror("a context");
        exit(2);
    }
    while (untouched < sizeof stack && stack[untouched] == PAINT) {
        untouched++;
    }
    return sizeof stack - untouched;
}

/* The most that the call took with any of these numbers of keys, each of which was answered as it should be. */
static size_t deepest(void (*call)(void), uint32_t due) {
    static const size_t sizes[] = {0, 100, 1000, MOST};
    size_t most = 0, nothing = depth(call_nothing), size;
    for (size = 0; size < 4; size++) {
        size_t taken;
        keys_length = sizes[size];
        call_build8();
        call_build16();
        taken = depth(call) - nothing;
        most = taken > most ? taken : most;
        if (keys_length > 0 && answer != due) {
            fprintf(stderr, "%zu keys: answer %lu, where %lu is due\n", keys_length, (unsigned long)answer,
                    (unsigned long)due);
            exit(2);
        }
    }
    return most;
}

/* ---- Keys ---- */

static void spread_keys(void) {
    size_t i;
    for (i = 0; i < MOST; i++) {
        keys[i] = i * UINT64_C(0x9e3779b97f4a7c15);
    }
}

/* Two keys equal, in three orders of the keys: scattered, rising but for the last, and up and down. */
static void repeated_keys(size_t n, int order_of) {
    size_t i;
    for (i = 0; i < n; i++) {
        uint64_t x = i * UINT64_C(0x9e3779b97f4a7c15);
        x = (x ^ (x >> 29)) * UINT64_C(0xbf58476d1ce4e5b9);
        keys[i] = order_of == 0 ? x ^ (x >> 32) : order_of == 1 ? i : i < n / 2 ? i : n - i;
    }
    keys[n - 1] = keys[0];
}

/* The most that a build took of such keys, which it refuses with 5 after it has looked for repeated keys. */
static size_t deepest_repeated(void) {
    static const size_t sizes[] = {20, 100, 1000, MOST};
    size_t most = 0, nothing = depth(call_nothing), size;
    int order_of;
    for (size = 0; size < 4; size++) {
        for (order_of = 0; order_of < 3; order_of++) {
            size_t taken;
            keys_length = sizes[size];
            repeated_keys(keys_length, order_of);
            taken = depth(call_build8) - nothing;
            most = taken > most ? taken : most;
            if (answer != GP_BUILD_REFUSED + 5) {
                fprintf(stderr, "%zu keys, two equal: answer %lu\n", keys_length, (unsigned long)answer);
                exit(2);
            }
        }
    }
    return most;
}

int main(void) {
    spread_keys();
    print_buffers();
    puts("\n| stack of a call, as measured | bytes |\n|---|---|");
    printf("| gp_fuse8_build | %zu |\n", deepest(call_build8, 1));
    printf("| gp_fuse16_build | %zu |\n", deepest(call_build16, 1));
    printf("| gp_fuse8_contains | %zu |\n", deepest(call_query8, GP_YES));
    printf("| gp_fuse16_contains | %zu |\n", deepest(call_query16, GP_YES));
    printf("| gp_flush_key | %zu |\n", deepest(call_flush_key, 0));
    printf("| gp_fuse8_build, two keys equal | %zu |\n", deepest_repeated());
    return 0;
}
