/* What the parts of the random test share. */
#ifndef TEST_H
#define TEST_H

#include "lent.h"

#include <stddef.h>
#include <stdint.h>

/* How many calls were made, and how often each refusal was due from those that are counted together. */
enum { REFUSALS = 12 };
extern unsigned long long calls, refused[REFUSALS + 1];

/* Says what is wrong and ends the test with status 1. */
void wrong(const char *format, ...);

uint64_t any(void);
size_t below(size_t bound);
int one_in(size_t n);
enum border random_border(void);
/* Up to `most`, as often small as large. */
size_t any_scale(size_t most);

/* Of lists whose fingerprints have `width` bytes, 1 or 2. */
void test_queries(size_t width, unsigned long rounds);
void test_builds(size_t width, unsigned long rounds);

/* Of lists in which one bit is flipped. */
void test_damage(void);

#endif
