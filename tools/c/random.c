/*
 * A bounded random test of the C entries, to be run under AddressSanitizer and UBSan: random and damaged inputs, null with
 * length 0, every refusal at each width, and all lent memory with what lies around it compared after each call.
 *
 * usage: random [SEED [SCALE]]
 */
#include "gillpocketry.h"
#include "paper.h"
#include "test.h"

#include <inttypes.h>
#include <stdarg.h>
#include <stdio.h>
#include <stdlib.h>
#include <string.h>

static uint64_t state;
unsigned long long calls, refused[REFUSALS + 1];

void wrong(const char *format, ...) {
    va_list values;
    va_start(values, format);
    fputs("WRONG: ", stdout);
    vprintf(format, values);
    puts("");
    va_end(values);
    exit(1);
}

uint64_t any(void) { return paper_mix64(state += UINT64_C(0x9e3779b97f4a7c15)); }

size_t below(size_t bound) { return (size_t)(any() % bound); }

int one_in(size_t n) { return below(n) == 0; }

enum border random_border(void) { return one_in(2) ? AFTER : BEFORE; }

/* Every number of binary digits is as likely. */
size_t any_scale(size_t most) {
    size_t digits = 0;
    while (most >> digits > 0) {
        digits++;
    }
    return below((most >> below(digits + 1)) + 1);
}

/* The header's version in words is that in numbers. */
static void test_header_version(void) {
    char version[32];
    snprintf(version, sizeof version, "%d.%d.%d", GP_VERSION_MAJOR, GP_VERSION_MINOR, GP_VERSION_PATCH);
    if (strcmp(version, GP_VERSION) != 0) {
        wrong("the header says version %s and %s", version, GP_VERSION);
    }
}

/* The header's lengths serve every list up to n keys, and at the limit they are not longer than they must be. For more keys they are 0
 * where n is of run time; tools/check-c sees that a constant does not compile. */
static void test_header_lengths(void) {
    size_t needed[BUFFERS], most_slots = 0, most_starts = 0;
    for (size_t n = 0; n <= GP_MAX_KEYS; n++) {
        paper_needed(n, needed);
        most_slots = needed[FINGERPRINTS] > most_slots ? needed[FINGERPRINTS] : most_slots;
        most_starts = needed[STARTS] > most_starts ? needed[STARTS] : most_starts;
        if (GP_SLOTS_UP_TO(n) < most_slots || GP_STARTS_UP_TO(n) < most_starts) {
            wrong("%zu keys need %zu slots and %zu bucket starts, more than the header says", n, most_slots, most_starts);
        }
    }
    for (size_t n = GP_MAX_KEYS + 1; n <= GP_MAX_KEYS + 3; n++) {
        if (GP_SLOTS_UP_TO(n) != 0 || GP_STARTS_UP_TO(n) != 0) {
            wrong("the header gives a length for %zu keys, which no build takes", n);
        }
    }
    if (GP_MAX_SLOTS != most_slots || GP_MAX_STARTS != most_starts) {
        wrong("the longest lengths are %zu slots and %zu bucket starts", most_slots, most_starts);
    }
}

/* A third of any size, a third within a second of a whole hour, a third within an hour and a second of those where the answer changes
 * its form. */
static int64_t any_seconds(void) {
    static const int64_t hours[] = {-(INT64_C(1) << 39), -1, 0, INT64_C(1) << 39};
    int shift = (int)below(63);
    int64_t seconds = (int64_t)any() / ((int64_t)1 << shift);
    int64_t hour = hours[below(4)];
    switch (below(3)) {
    case 0:
        return seconds;
    case 1:
        return seconds / 3600 * 3600 + (int64_t)below(3) - 1;
    default:
        return hour * 3600 + (int64_t)below(2 * 3601 + 1) - 3601;
    }
}

static void test_flush_keys(unsigned long rounds) {
    while (rounds-- > 0) {
        uint64_t ours[3] = {any(), any(), any()}; /* the key's place between two words that no call may change */
        uint64_t due[3] = {ours[0], ours[1], ours[2]};
        uint16_t unit = (uint16_t)any();
        uint8_t valve = (uint8_t)any();
        int64_t seconds = any_seconds();
        uint32_t due_answer = paper_flush_key(unit, valve, seconds, &due[1]);
        uint32_t answer = gp_flush_key(unit, valve, seconds, &ours[1]);
        calls++;
        if (answer != due_answer || ours[1] != due[1]) {
            wrong("flush key of unit %u, valve %u, second %" PRId64 ": %" PRIu32 " and %" PRIu64 ", due %" PRIu32 " and %" PRIu64,
                  (unsigned)unit, (unsigned)valve, seconds, answer, ours[1], due_answer, due[1]);
        }
        if (ours[0] != due[0] || ours[2] != due[2]) {
            wrong("flush key of unit %u, valve %u, second %" PRId64 ": a word beside the key is changed", (unsigned)unit,
                  (unsigned)valve, seconds);
        }
        if (due_answer != 0) {
            refused[due_answer - GP_REFUSED]++;
        }
    }
}

/* Each refusal from the first to the last was due since they were last counted. */
static void count_refusals(int first, int last) {
    printf("  refusals seen:");
    for (int i = first; i <= last; i++) {
        printf(" %d: %llu%s", i, refused[i], i < last ? "," : "\n");
    }
    for (int i = first; i <= last; i++) {
        if (refused[i] == 0) {
            wrong("refusal %d was never due, so it was not tested", i);
        }
        refused[i] = 0;
    }
}

int main(int count, char **words) {
    uint64_t seed = count > 1 ? strtoull(words[1], NULL, 10) : 1;
    unsigned long scale = count > 2 ? strtoul(words[2], NULL, 10) : 1;
    state = seed;
    setvbuf(stdout, NULL, _IOLBF, BUFSIZ);
    test_header_version();
    test_header_lengths();
    test_damage();
    for (size_t width = 1; width <= 2; width++) {
        test_queries(width, 4000000 * scale);
        printf("queries of %zu bits: as the specification says, %llu calls so far\n", 8 * width, calls);
        test_builds(width, 40000 * scale);
        printf("builds of %zu bits: as the specification says, %llu calls so far\n", 8 * width, calls);
        count_refusals(GP_TOO_MANY_KEYS, GP_WRONG_FINGERPRINTS);
    }
    test_flush_keys(1000000 * scale);
    printf("flush keys: as the specification says, %llu calls in all, seed %" PRIu64 ", scale %lu\n", calls, seed, scale);
    count_refusals(GP_BAD_CLOCK, GP_BAD_CLOCK);
    return 0;
}
