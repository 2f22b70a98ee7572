/* Memory to lend to code that no sanitizer sees: any step over an end of it is caught, by a page that may not be touched or by
 * bytes that must still be the same afterwards. */
#ifndef LENT_H
#define LENT_H

#include <stddef.h>
#include <stdint.h>

/* Memory between two pages that may not be touched, and a copy of what it held when it was lent. */
struct arena {
    uint8_t *begin, *end;
    uint8_t *copy;
    uint8_t *lent, *lent_end;
};

/* At least so many bytes to lend. */
void arena_open(struct arena *arena, size_t bytes);
void arena_close(struct arena *arena);

/* Lends so many bytes, with `slack` bytes between them and a page that may not be touched: the one after or the one before. */
enum border { AFTER, BEFORE };
uint8_t *arena_lend(struct arena *arena, size_t bytes, size_t slack, enum border border);

/* Fills what was lent, and what is compared after it, with a pattern that has no zeros. */
void arena_fill(struct arena *arena);

/* Takes the copy: what is due afterwards, unless the next two say otherwise. */
void arena_remember(struct arena *arena);

/* In the copy: the first `bytes` of what was lent are due to be zero, or these. */
void arena_due_zero(struct arena *arena, size_t bytes);
void arena_due(struct arena *arena, const uint8_t *these, size_t bytes);

/* Does the memory hold what is due, in what was lent and around it? */
int arena_as_due(const struct arena *arena);

/* From now on any write into the arena is caught. */
void arena_shut(const struct arena *arena);

#endif
