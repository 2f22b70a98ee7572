#define _DEFAULT_SOURCE /* MAP_ANONYMOUS */
#include "lent.h"

#include <stdio.h>
#include <stdlib.h>
#include <string.h>
#include <sys/mman.h>
#include <unistd.h>

/* How much of the arena before and after what was lent is compared. */
enum { AROUND = 64 };

void arena_open(struct arena *arena, size_t bytes) {
    size_t page = (size_t)sysconf(_SC_PAGESIZE);
    size_t inner = (bytes + 2 * AROUND + page - 1) / page * page;
    uint8_t *all = mmap(NULL, inner + 2 * page, PROT_NONE, MAP_PRIVATE | MAP_ANONYMOUS, -1, 0);
    if (all == MAP_FAILED || mprotect(all + page, inner, PROT_READ | PROT_WRITE) != 0) {
        perror("memory to lend");
        exit(2);
    }
    arena->begin = all + page;
    arena->end = all + page + inner;
    arena->copy = malloc(inner);
    if (arena->copy == NULL) {
        perror("memory for a copy");
        exit(2);
    }
    arena_lend(arena, inner, 0, AFTER);
    arena_fill(arena);
}

void arena_close(struct arena *arena) {
    size_t page = (size_t)sysconf(_SC_PAGESIZE);
    munmap(arena->begin - page, (size_t)(arena->end - arena->begin) + 2 * page);
    free(arena->copy);
}

uint8_t *arena_lend(struct arena *arena, size_t bytes, size_t slack, enum border border) {
    arena->lent = border == AFTER ? arena->end - slack - bytes : arena->begin + slack;
    arena->lent_end = arena->lent + bytes;
    return arena->lent;
}

static size_t first_compared(const struct arena *arena) {
    size_t lent_at = (size_t)(arena->lent - arena->begin);
    return lent_at < AROUND ? 0 : lent_at - AROUND;
}

static size_t end_compared(const struct arena *arena) {
    size_t after = (size_t)(arena->end - arena->lent_end);
    return (size_t)(arena->lent_end - arena->begin) + (after < AROUND ? after : AROUND);
}

void arena_fill(struct arena *arena) {
    for (size_t at = (size_t)(arena->lent - arena->begin); at < end_compared(arena); at++) {
        arena->begin[at] = (uint8_t)(1 + at % 251); /* neighbours differ too */
    }
}

void arena_remember(struct arena *arena) {
    size_t first = first_compared(arena);
    memcpy(arena->copy + first, arena->begin + first, end_compared(arena) - first);
}

void arena_due_zero(struct arena *arena, size_t bytes) { memset(arena->copy + (arena->lent - arena->begin), 0, bytes); }

void arena_due(struct arena *arena, const uint8_t *these, size_t bytes) {
    memcpy(arena->copy + (arena->lent - arena->begin), these, bytes);
}

int arena_as_due(const struct arena *arena) {
    size_t first = first_compared(arena);
    return memcmp(arena->copy + first, arena->begin + first, end_compared(arena) - first) == 0;
}

void arena_shut(const struct arena *arena) {
    if (mprotect(arena->begin, (size_t)(arena->end - arena->begin), PROT_READ) != 0) {
        perror("shutting memory");
        exit(2);
    }
}
