/* Our lists beside the Bloom filters of libbloom, on the same random keys, as a table. Run by tools/rivals.
 * Listed keys are mixed even numbers and the others mixed odd ones, so no unlisted key is listed: the mix is one-to-one. */
#define _POSIX_C_SOURCE 199309L /* clock_gettime */
#include "gillpocketry.h"

#include <bloom.h>
#include <stdio.h>
#include <stdlib.h>
#include <time.h>

enum { MOST = GP_MAX_KEYS, SLOTS = GP_MAX_SLOTS, BATCH = 1000000, BATCHES = 10, LEAST_BLOOM = 1000 };

static uint64_t keys[MOST], sums[SLOTS], order[MOST + 1];
static uint32_t lone[SLOTS], starts[GP_MAX_STARTS];
static uint16_t counts[SLOTS], fingerprints16[SLOTS];
static uint8_t positions[MOST], descriptor[GP_DESCRIPTOR_BYTES], fingerprints8[SLOTS];
static struct bloom bloom;
static uint64_t batch[BATCH];

static uint64_t mixed(uint64_t number) {
    number = (number ^ number >> 30) * UINT64_C(0xbf58476d1ce4e5b9);
    number = (number ^ number >> 27) * UINT64_C(0x94d049bb133111eb);
    return number ^ number >> 31;
}

static void no(const char *what) {
    fprintf(stderr, "rivals: %s\n", what);
    exit(2);
}

/* ---- The filters: each is made of the first n keys, gives its bytes, and is then asked for a batch ---- */

#define BUILD(entry, fingerprints) \
    entry(keys, n, GP_MAX_ATTEMPTS, fingerprints, SLOTS, lone, SLOTS, counts, SLOTS, sums, SLOTS, positions, MOST, order, \
          MOST + 1, starts, GP_MAX_STARTS, descriptor, sizeof descriptor)

static size_t make_ours8(size_t n) {
    if (BUILD(gp_fuse8_build, fingerprints8) > GP_BUILD_REFUSED) {
        no("no 8-bit list is built");
    }
    return sizeof descriptor + GP_SLOTS_OF(descriptor);
}

static size_t make_ours16(size_t n) {
    if (BUILD(gp_fuse16_build, fingerprints16) > GP_BUILD_REFUSED) {
        no("no 16-bit list is built");
    }
    return sizeof descriptor + GP_SLOTS_OF(descriptor) * sizeof *fingerprints16;
}

/* libbloom makes no filter for fewer than 1,000 keys. Its bytes are those of its bits alone. */
static size_t make_bloom(size_t n, double rate) {
    size_t i;
    if (bloom_init(&bloom, (int)(n < LEAST_BLOOM ? LEAST_BLOOM : n), rate) != 0) {
        no("libbloom makes no filter");
    }
    for (i = 0; i < n; i++) {
        if (bloom_add(&bloom, &keys[i], sizeof keys[i]) < 0) {
            no("libbloom takes no key");
        }
    }
    return (size_t)bloom.bytes;
}

static size_t make_bloom8(size_t n) { return make_bloom(n, 1.0 / 256); }
static size_t make_bloom16(size_t n) { return make_bloom(n, 1.0 / 65536); }

static size_t ask_ours8(const uint64_t *asked, size_t n) {
    size_t yes = 0, i, slots = GP_SLOTS_OF(descriptor);
    for (i = 0; i < n; i++) {
        yes += gp_fuse8_contains(descriptor, sizeof descriptor, fingerprints8, slots, asked[i]) == GP_YES;
    }
    return yes;
}

static size_t ask_ours16(const uint64_t *asked, size_t n) {
    size_t yes = 0, i, slots = GP_SLOTS_OF(descriptor);
    for (i = 0; i < n; i++) {
        yes += gp_fuse16_contains(descriptor, sizeof descriptor, fingerprints16, slots, asked[i]) == GP_YES;
    }
    return yes;
}

static size_t ask_bloom(const uint64_t *asked, size_t n) {
    size_t yes = 0, i;
    for (i = 0; i < n; i++) {
        yes += bloom_check(&bloom, &asked[i], sizeof asked[i]) == 1;
    }
    return yes;
}

static const struct filter {
    const char *name;
    size_t (*make)(size_t n);
    size_t (*ask)(const uint64_t *asked, size_t n);
    int is_bloom;
} filters[] = {
    {"ours, 8 bits", make_ours8, ask_ours8, 0},
    {"libbloom, asked for 1/256", make_bloom8, ask_bloom, 1},
    {"ours, 16 bits", make_ours16, ask_ours16, 0},
    {"libbloom, asked for 1/65536", make_bloom16, ask_bloom, 1},
};

/* ---- The measures ---- */

/* Asks for the batch; *least becomes the nanoseconds of one query, if they are fewer. */
static size_t timed(const struct filter *filter, double *least) {
    struct timespec from, to;
    size_t yes;
    double each;
    clock_gettime(CLOCK_MONOTONIC, &from);
    yes = filter->ask(batch, BATCH);
    clock_gettime(CLOCK_MONOTONIC, &to);
    each = ((double)(to.tv_sec - from.tv_sec) * 1e9 + (double)(to.tv_nsec - from.tv_nsec)) / BATCH;
    *least = each < *least ? each : *least;
    return yes;
}

static void measure(const struct filter *filter, size_t n) {
    size_t bytes = filter->make(n), false_yes = 0, round, i;
    double unlisted = 1e9, listed = 1e9;
    for (round = 0; round < BATCHES; round++) {
        for (i = 0; i < BATCH; i++) {
            batch[i] = mixed(2 * (round * BATCH + i) + 1);
        }
        false_yes += timed(filter, &unlisted);
    }
    for (i = 0; i < BATCH; i++) {
        batch[i] = keys[i % n];
    }
    for (round = 0; round < BATCHES; round++) {
        if (timed(filter, &listed) != BATCH) {
            no("a listed key is denied");
        }
    }
    printf("| %zu | %s | %zu | %.2f | %zu | ", n, filter->name, bytes, (double)bytes / (double)n, false_yes);
    if (false_yes > 0) {
        printf("%.0f", (double)BATCHES * BATCH / (double)false_yes);
    } else {
        printf("none seen");
    }
    printf(" | %.1f | %.1f |\n", unlisted, listed);
    if (filter->is_bloom) {
        bloom_free(&bloom);
    }
}

int main(void) {
    static const size_t sizes[] = {100, 1000, MOST};
    size_t i, size, which;
    for (i = 0; i < MOST; i++) {
        keys[i] = mixed(2 * i);
    }
    printf("| keys | filter | bytes | bytes a key | false yes of %d | one in | ns, unlisted | ns, listed |\n",
           BATCHES * BATCH);
    puts("|---|---|---|---|---|---|---|---|");
    for (size = 0; size < sizeof sizes / sizeof *sizes; size++) {
        for (which = 0; which < sizeof filters / sizeof *filters; which++) {
            measure(&filters[which], sizes[size]);
        }
    }
    return 0;
}
