/* docs/SPECIFICATION.md in plain C. Written from the paper that it tells in other words (document 01), not from our code or the Rust. */
#include "paper.h"

#include "gillpocketry.h"

#include <math.h>
#include <stdlib.h>
#include <string.h>

size_t element_size(int buffer, size_t width) {
    static const size_t of_scratch[BUFFERS] = {0, 4, 2, 8, 1, 8, 4, 1};
    return buffer == FINGERPRINTS ? width : of_scratch[buffer];
}

/* ---- hash, seeds, slots ---- */

uint64_t paper_mix64(uint64_t key) {
    key ^= key >> 33;
    key *= UINT64_C(0xff51afd7ed558ccd);
    key ^= key >> 33;
    key *= UINT64_C(0xc4ceb9fe1a85ec53);
    return key ^ key >> 33;
}

static uint64_t seed_of(uint32_t attempt) {
    uint64_t z = 1 + attempt * UINT64_C(0x9e3779b97f4a7c15);
    z = (z ^ z >> 30) * UINT64_C(0xbf58476d1ce4e5b9);
    z = (z ^ z >> 27) * UINT64_C(0x94d049bb133111eb);
    return z ^ z >> 31;
}

/* floor(hash * factor / 2^64): the low half's carry is all that it gives to the high half. */
static uint64_t high_product(uint64_t hash, uint32_t factor) {
    uint64_t low = (hash & UINT32_MAX) * factor;
    return ((hash >> 32) * factor + (low >> 32)) >> 32;
}

/* ---- layout ---- */

static uint32_t segment_length(size_t n) {
    static const size_t last_size[] = {2, 8, 27, 91, 303, 1009, 3361, GP_MAX_KEYS};
    uint32_t length = 4;
    for (size_t i = 0; n > last_size[i]; i++) {
        length *= 2;
    }
    return length;
}

/* 8c is the greatest multiple of 8 not above 12n log_n(10) + 7n + 4; that sum is whole at powers of ten only. */
static uint32_t capacity(size_t n) {
    double size = (double)n, scaled;
    if (n < 2) {
        return 0;
    }
    if (n == 10 || n == 100 || n == 1000) {
        scaled = 12 * size / round(log10(size));
    } else {
        scaled = 12 * size * log(10) / log(size);
    }
    return (uint32_t)floor((scaled + 7 * size + 4) / 8);
}

static uint32_t plain_count(size_t n) {
    uint32_t length = segment_length(n);
    uint32_t segments = (capacity(n) + length - 1) / length;
    return segments < 3 ? 1 : segments - 2;
}

void paper_needed(size_t n, size_t length[BUFFERS]) {
    size_t count = plain_count(n), slots = (count + 2) * segment_length(n);
    size_t larger_count = n > 4 ? 2 * count + 2 : count;
    size_t starts = 2;
    while (starts < larger_count) {
        starts *= 2;
    }
    length[FINGERPRINTS] = length[LONE] = length[COUNTS] = length[SUMS] = slots;
    length[POSITIONS] = n;
    length[ORDER] = n + 1;
    length[STARTS] = starts;
    length[DESCRIPTOR] = 20;
}

/* ---- refusals of the build ---- */

uint32_t paper_refused_at_once(size_t n, uint32_t limit, const size_t length[BUFFERS]) {
    size_t needed[BUFFERS];
    if (length[DESCRIPTOR] < 20) {
        return 7;
    }
    if (n > GP_MAX_KEYS) {
        return 1;
    }
    if (limit < 1 || limit > GP_MAX_ATTEMPTS) {
        return 2;
    }
    paper_needed(n, needed);
    if (length[FINGERPRINTS] < needed[FINGERPRINTS]) {
        return 3;
    }
    for (int buffer = LONE; buffer <= STARTS; buffer++) {
        if (length[buffer] < needed[buffer]) {
            return 4;
        }
    }
    return 0;
}

static int by_value(const void *left, const void *right) {
    uint64_t a = *(const uint64_t *)left, b = *(const uint64_t *)right;
    return (a > b) - (a < b);
}

int paper_repeated(const uint64_t *keys, size_t n) {
    static uint64_t sorted[GP_MAX_KEYS];
    if (n == 0) {
        return 0;
    }
    memcpy(sorted, keys, n * sizeof *keys);
    qsort(sorted, n, sizeof *sorted, by_value);
    for (size_t i = 1; i < n; i++) {
        if (sorted[i] == sorted[i - 1]) {
            return 1;
        }
    }
    return 0;
}

/* ---- descriptor and query ---- */

static void put(uint8_t *bytes, uint64_t number, int count) {
    for (int i = 0; i < count; i++) {
        bytes[i] = (uint8_t)(number >> 8 * i);
    }
}

static uint64_t get(const uint8_t *bytes, size_t count) {
    uint64_t number = 0;
    for (size_t i = count; i > 0; i--) {
        number = number << 8 | bytes[i - 1];
    }
    return number;
}

void paper_descriptor(size_t n, uint32_t attempt, uint8_t descriptor[20]) {
    uint32_t length = segment_length(n), count = plain_count(n);
    if (n > 4 && attempt % 4 == 2) {
        length /= 2;
        count = 2 * count + 2;
    }
    put(descriptor, seed_of(attempt), 8);
    put(descriptor + 8, length, 4);
    put(descriptor + 12, length - 1, 4);
    put(descriptor + 16, (uint64_t)count * length, 4);
}

uint32_t paper_read(const uint8_t *descriptor, size_t descriptor_length, uint64_t *slots) {
    uint64_t length, mask, count_length;
    if (descriptor_length < 20) {
        return 7;
    }
    length = get(descriptor + 8, 4);
    mask = get(descriptor + 12, 4);
    count_length = get(descriptor + 16, 4);
    *slots = count_length + 2 * length;
    if (length < 4 || length > 262144 || (length & (length - 1)) != 0) {
        return 8;
    }
    if (mask != length - 1) {
        return 9;
    }
    if (count_length == 0 || count_length % length != 0 || *slots > INT32_MAX) {
        return 10;
    }
    return 0;
}

uint32_t paper_contains(size_t width, const uint8_t *descriptor, size_t descriptor_length, const uint8_t *fingerprints,
                        size_t fingerprints_length, uint64_t key) {
    uint64_t slots, hash, length, first, second, third, left;
    uint32_t refusal = paper_read(descriptor, descriptor_length, &slots);
    if (refusal == 0 && fingerprints_length != slots) {
        refusal = 11;
    }
    if (refusal != 0) {
        return GP_REFUSED + refusal;
    }
    hash = paper_mix64(key + get(descriptor, 8));
    length = get(descriptor + 8, 4);
    first = high_product(hash, (uint32_t)get(descriptor + 16, 4));
    second = (first + length) ^ (hash >> 18 & (length - 1));
    third = (first + 2 * length) ^ (hash & (length - 1));
    left = hash ^ hash >> 32 ^ get(fingerprints + first * width, width) ^ get(fingerprints + second * width, width) ^
           get(fingerprints + third * width, width);
    return left << (64 - 8 * width) == 0;
}

/* ---- flush key ---- */

uint32_t paper_flush_key(uint16_t unit, uint8_t valve, int64_t seconds, uint64_t *key) {
    int64_t first = -(INT64_C(1) << 39), last = (INT64_C(1) << 39) - 1;
    int64_t hour = seconds / 3600;
    if (hour * 3600 > seconds) { /* rounded towards zero, up: the floor is one less */
        hour--;
    }
    if (hour < first || hour > last) {
        return GP_REFUSED + 12;
    }
    *key = ((uint64_t)unit << 48) + ((uint64_t)valve << 40) + ((uint64_t)hour & ((UINT64_C(1) << 40) - 1));
    return 0;
}
