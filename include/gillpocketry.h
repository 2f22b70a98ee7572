/*
 * Gillpocketry 0.5.0: a packed list of 64-bit keys that is asked "is this key listed?". For C and C++.
 *
 * SAFETY
 *
 * - A listed key is never denied of the list that was built. A query of the bytes that a build wrote
 *   returns GP_YES for every key of that build.
 * - A list that was changed on its way, in a file or over a radio, may deny keys that were listed. Nothing
 *   here sees that. Refusals 7 to 11 see the lengths and the mask only, not the seed or a fingerprint.
 *   As run by tools/check-c: a list of 100 keys has 1,696 bits. Flipped one at a time, 96 of them were
 *   refused and 1,600 accepted, and 1,264 of the accepted ones denied 1 to 100 of the listed keys.
 * - So the link must carry a checksum or a digest of its own, to be checked before the list is asked.
 *   examples/controller.c shows one. A packed list can also be asked for all its keys before it is sent.
 * - A refusal is neither yes nor no. Never take it for "not listed".
 * - GP_YES also comes for some keys that are not listed: about one in 256 with 8-bit fingerprints, about
 *   one in 65,536 with 16-bit ones (tools/rivals counts them).
 * - The 20 descriptor bytes do not tell the width of the fingerprints. For the same keys and limit they
 *   are the same at 8 bits and at 16. Ask each list with the function of its width. The other one may
 *   accept the list, and then it denies keys that are in it.
 *
 * WHAT IS PROVED
 *
 * For all keys, bytes and buffers that are passed in as this file says, each of the five functions is
 * proved to return and to leave what docs/SPECIFICATION.md says. docs/PROMISES.md has the promises. The
 * functions touch no memory but the buffers passed in and the stack, and keep nothing between calls. The
 * proof is of the source; the compiler's back end is assumed. How often a key that is not listed gets a yes,
 * how many attempts a build takes, bytes of stack and of code: these are not proved but measured.
 *
 * THE ARCHIVE
 *
 *   tools/archive           makes target/archive/x86_64/libgillpocketry.a
 *   tools/archive aarch64   makes target/archive/aarch64/libgillpocketry.a
 *
 * The first is for Linux on x86-64, the second for Linux on 64-bit ARM. The Rattle kit makes both, from the same
 * proved source, the second by another back end of its compiler.
 *
 * There is no archive for controllers of 32 bits yet. Of the C library an archive needs memset alone. It has
 * no data that is written.
 *
 * THE LIST
 *
 * A list is 20 descriptor bytes and A fingerprints of 1 or 2 bytes, one for each slot. The numbers in the
 * descriptor have their low byte first, on every machine:
 *
 *   bytes 0 to 7      the seed
 *   bytes 8 to 11     the segment length, a power of two
 *   bytes 12 to 15    the mask, which is the segment length - 1
 *   bytes 16 to 19    the count length, a multiple of the segment length
 *
 * A, the number of fingerprints, is the count length plus twice the segment length. These are the bytes
 * that xorf 0.13.0 writes with dma_copy_descriptor_to. Its reader BinaryFuse8Ref::from_dma takes a list
 * that tools/flushlist packed, and answers as ours: tools/compare runs it. A 16-bit fingerprint has the
 * byte order of the machine; on both machines above its low byte comes first.
 *
 * MEMORY, as measured by tools/footprint. The buffers of a build, in bytes, with the lengths given below:
 *
 *                              up to 100 keys    up to 1,000    up to 8,192
 *   keys                                  800          8,000         65,536
 *   fingerprints, 8 bits                  448          1,408         10,752
 *   fingerprints, 16 bits                 896          2,816         21,504
 *   lone                                1,792          5,632         43,008
 *   counts                                896          2,816         21,504
 *   sums                                3,584         11,264         86,016
 *   positions                             100          1,000          8,192
 *   order                                 808          8,008         65,544
 *   starts                                 64            128            256
 *   descriptor                             20             20             20
 *   in all, 8 bits                      8,512         38,276        300,828
 *   in all, 16 bits                     8,960         39,684        311,580
 *
 * A query needs the list alone: 20 + A bytes with 8 bits, 20 + 2 A with 16.
 *
 *   stack                          x86-64    aarch64
 *   a build                           672     17,024
 *   a query, or the flush key          32         32
 *
 * CODE AND TABLES, in bytes. An archive has a section for each function, so a program that is linked with
 * -Wl,--gc-sections gets only what it calls. Without that word it gets all five:
 *
 *                                  x86-64    aarch64
 *   the 8-bit query alone             342        328
 *   both queries and the flush key    822        764
 *   all five                       23,465     37,712
 *
 * A build needs a table of 16,384 bytes, which is counted here. Most builds take 600 bytes of stack; one that looks
 * for equal keys, after four attempts that failed or at its end, takes 672, on every order of keys that was tried:
 * no function calls itself. The numbers for aarch64 are of an archive that an older kit made, in which a build copies
 * the table to the stack; they were not measured again.
 *
 * BUFFERS
 *
 * Each buffer is passed in as a pointer and a number of elements (not of bytes). The pointer is aligned for
 * its element. It may be null where the number is 0. A buffer that is written overlaps no other buffer of
 * the same call.
 */
#ifndef GILLPOCKETRY_H
#define GILLPOCKETRY_H

#include <stddef.h>
#include <stdint.h>

#define GP_VERSION_MAJOR 0
#define GP_VERSION_MINOR 5
#define GP_VERSION_PATCH 0
#define GP_VERSION "0.5.0"

#ifdef __cplusplus
extern "C" {
#endif

/* ---- Limits ------------------------------------------------------------------------------------------ */

#define GP_MAX_KEYS 8192
#define GP_MAX_ATTEMPTS 1000
#define GP_DESCRIPTOR_BYTES 20

/* The most fingerprints, and the most bucket starts, of any list up to GP_MAX_KEYS keys. */
#define GP_MAX_SLOTS 10752
#define GP_MAX_STARTS 64

/*
 * Lengths, in elements, that are enough to build any list of up to n keys, n at most GP_MAX_KEYS. They are
 * constants where n is one, so they can size static buffers:
 *
 *   fingerprints, lone, counts, sums   GP_SLOTS_UP_TO(n)
 *   positions                          n
 *   order                              n + 1
 *   starts                             GP_STARTS_UP_TO(n)
 *
 * With these lengths, 20 bytes for the descriptor and a limit of 1 .. GP_MAX_ATTEMPTS, a build of up to n
 * keys is refused with 5 or 6 only. That is proved of the rows in crates/layout/specs/Lengths.antt, by
 * crates/c_api/specs/HeaderRoom.antt. That the macros have these rows is not proved: tools/check-c holds
 * them to the rows by a run.
 *
 * A list of just n keys may need less: GP_SLOTS_OF gives its slots. Of the sizes above 1,009 only 3,347 to
 * 3,361 and those from 6,877 on need 64 bucket starts. A build checks and zeroes the bucket starts, and
 * uses them for nothing else.
 *
 * More than GP_MAX_KEYS is no number of keys that a build takes, so no length is enough for it:
 *   - a constant n does not compile: GNU C (gcc, clang) takes it nowhere, C++11 and later in no array of
 *     static size and no enum;
 *   - an n of run time gives 0. A build with such a length of 0 is refused, and writes nothing. A number that
 *     is not 0 could be passed in as the length of a buffer that is not so long;
 *   - C++98 and other compilers give 0 for a constant too. An array of 0 elements is not standard C or C++.
 */
#define GP_SLOTS_UP_TO(n)                                                                                    \
    ((n) <= 2             ? 12                                                                               \
     : (n) <= 8           ? 24                                                                               \
     : (n) <= 27          ? 64                                                                               \
     : (n) <= 91          ? 160                                                                              \
     : (n) <= 303         ? 448                                                                              \
     : (n) <= 1009        ? 1408                                                                             \
     : (n) <= 3361        ? 4608                                                                             \
     : (n) <= 4096        ? 5632                                                                             \
     : (n) <= GP_MAX_KEYS ? GP_MAX_SLOTS                                                                     \
                          : GP_OVER_MAX_KEYS(n))
#define GP_STARTS_UP_TO(n)                                                                                   \
    ((n) <= 4             ? 2                                                                                \
     : (n) <= 8           ? 4                                                                                \
     : (n) <= 91          ? 8                                                                                \
     : (n) <= 303         ? 16                                                                               \
     : (n) <= 1009        ? 32                                                                               \
     : (n) <= GP_MAX_KEYS ? GP_MAX_STARTS                                                                    \
                          : GP_OVER_MAX_KEYS(n))

/* 0, or what does not compile. In C, an array of -1 where n is a constant: GP_IS_CONSTANT is 1 exactly for
 * constants of C, because only with them the first pointer is a null pointer constant. In C++, a call of a
 * function that is true but not constexpr. */
#if defined(__cplusplus) && __cplusplus >= 201103L
inline bool gp_over_max_keys() { return true; }
#define GP_OVER_MAX_KEYS(n) (gp_over_max_keys() ? 0 : 1)
#elif defined(__GNUC__) && !defined(__cplusplus)
#define GP_IS_CONSTANT(n)                                                                                    \
    __builtin_types_compatible_p(__typeof__(1 ? (void *)((size_t)(n) * 0) : (int *)8), int *)
#define GP_OVER_MAX_KEYS(n)                                                                                  \
    (!sizeof(char[__builtin_choose_expr(GP_IS_CONSTANT(n), (n) <= GP_MAX_KEYS ? 1 : -1, 1)]))
#else
#define GP_OVER_MAX_KEYS(n) 0
#endif

/* ---- Answers ----------------------------------------------------------------------------------------- */

/* Refusals have numbers from 1 on. The query and the flush key return GP_REFUSED plus the number, the build
 * returns GP_BUILD_REFUSED plus the number. So no refusal looks like another answer. */
#define GP_REFUSED 16
#define GP_BUILD_REFUSED 65536

#define GP_TOO_MANY_KEYS 1       /* more than GP_MAX_KEYS keys */
#define GP_BAD_LIMIT 2           /* attempt limit outside 1 .. GP_MAX_ATTEMPTS */
#define GP_SHORT_FINGERPRINTS 3  /* the buffer for the fingerprints is too short */
#define GP_SHORT_SCRATCH 4       /* lone, counts, sums, positions, order or starts is too short */
#define GP_REPEATED_KEY 5        /* two keys are equal */
#define GP_STUCK 6               /* every allowed attempt has a stuck set */
#define GP_SHORT_DESCRIPTOR 7    /* fewer than 20 bytes to read, or to write into */
#define GP_BAD_SEGMENT_LENGTH 8  /* segment length is no power of two in 4 .. 262,144 */
#define GP_BAD_MASK 9            /* mask is not segment length - 1 */
#define GP_BAD_COUNT_LENGTH 10   /* count length is 0 or no multiple of the segment length, or A > 2^31 - 1 */
#define GP_WRONG_FINGERPRINTS 11 /* the fingerprints passed in are not exactly A */
#define GP_BAD_CLOCK 12          /* flush hour outside -2^39 .. 2^39 - 1 */

#define GP_NO 0
#define GP_YES 1

/*
 * A, from the 20 bytes of a descriptor that a build of this program wrote: an array of uint8_t. A query
 * takes just so many fingerprints, even where their buffer is longer.
 *
 * Do not use it on a descriptor from outside (a file, a radio). A changed one would set its own length, so
 * refusal 11 could not come, and the query would read past the fingerprints. There, pass in the number of
 * fingerprints that came.
 */
#define GP_WORD_AT(bytes, at)                                                                                \
    ((uint32_t)(bytes)[(at)] | (uint32_t)(bytes)[(at) + 1] << 8 | (uint32_t)(bytes)[(at) + 2] << 16 |        \
     (uint32_t)(bytes)[(at) + 3] << 24)
#define GP_SLOTS_OF(descriptor) ((size_t)GP_WORD_AT(descriptor, 16) + 2 * (size_t)GP_WORD_AT(descriptor, 8))

/* ---- Functions --------------------------------------------------------------------------------------- */

/*
 * Is the key in the list? Returns GP_YES for every key that the list was built from, otherwise mostly GP_NO.
 * Reads the first 20 bytes of the descriptor. Returns GP_REFUSED plus 7, 8, 9, 10 or 11, checked in this
 * order, where the lengths or the mask are wrong. A list that was changed elsewhere is not refused: see
 * SAFETY above.
 */
uint32_t gp_fuse8_contains(const uint8_t *descriptor, size_t descriptor_length, const uint8_t *fingerprints,
                           size_t fingerprints_length, uint64_t key);
uint32_t gp_fuse16_contains(const uint8_t *descriptor, size_t descriptor_length,
                            const uint16_t *fingerprints, size_t fingerprints_length, uint64_t key);

/*
 * Builds the list of different keys. A build makes attempts, each with a new seed. An attempt fails if its
 * keys have a stuck set: some keys of which each shares all its slots with others of them. The build
 * returns the number of the first attempt without one, 1 .. limit. Then the descriptor's buffer begins with
 * the 20 bytes and the fingerprints' buffer with the A fingerprints. All buffers but the keys may hold
 * anything before the call.
 *
 * Refusals are GP_BUILD_REFUSED plus the number. 7 is checked first, for a descriptor's buffer under 20
 * bytes, then 1 to 6 in order. What each leaves:
 *   7, 1, 2, 3, 4   all buffers unchanged
 *   5               fingerprints and descriptor unchanged, scratch zeroed
 *   6               the A fingerprints zeroed, scratch zeroed, descriptor unchanged
 * A success zeroes the scratch too. Zeroed means the part of each buffer that these keys need. Whatever
 * lies beyond that part, beyond the A fingerprints or beyond the 20 bytes is never changed.
 *
 * Random keys mostly take one or two attempts. GP_MAX_ATTEMPTS is a good limit.
 */
uint32_t gp_fuse8_build(const uint64_t *keys, size_t keys_length, uint32_t limit, uint8_t *fingerprints,
                        size_t fingerprints_length, uint32_t *lone, size_t lone_length, uint16_t *counts,
                        size_t counts_length, uint64_t *sums, size_t sums_length, uint8_t *positions,
                        size_t positions_length, uint64_t *order, size_t order_length, uint32_t *starts,
                        size_t starts_length, uint8_t *descriptor, size_t descriptor_length);
uint32_t gp_fuse16_build(const uint64_t *keys, size_t keys_length, uint32_t limit, uint16_t *fingerprints,
                         size_t fingerprints_length, uint32_t *lone, size_t lone_length, uint16_t *counts,
                         size_t counts_length, uint64_t *sums, size_t sums_length, uint8_t *positions,
                         size_t positions_length, uint64_t *order, size_t order_length, uint32_t *starts,
                         size_t starts_length, uint8_t *descriptor, size_t descriptor_length);

/*
 * Writes the key of one flush: unit * 2^48 + valve * 2^40 + (hour modulo 2^40). Returns 0. The hour is the
 * floor of seconds / 3,600, below zero too: seconds -1 and -3,600 are hour -1, second -3,601 is hour -2.
 * Hours -2^39 .. 2^39 - 1 have a key, so no clock within 60 million years of zero is refused. For any other
 * hour it returns GP_REFUSED + 12 and leaves *key alone. Different units, valves and hours have different
 * keys. The pointer is not null.
 *
 * Any second of an hour gives the hour's key, so pass in the seconds as they are. In C, seconds / 3600
 * rounds towards zero, and below zero that is the hour only at its first second.
 */
uint32_t gp_flush_key(uint16_t unit, uint8_t valve, int64_t seconds, uint64_t *key);

#ifdef __cplusplus
}
#endif

#endif
