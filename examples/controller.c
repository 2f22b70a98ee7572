/*
 * What a valve controller does with a list of due flushes: it holds the list in static memory, and each hour
 * asks it for each of its valves. Its clock wakes at zero after a power loss, and local time is ten hours
 * behind the clock. So the night after one begins at local hour -10, and the list has flushes for it. The
 * list has 8-bit fingerprints; the north island, which pays for water by the litre, gets 16-bit ones.
 *
 * SAFETY. A listed flush is never denied of the list that was built. A list that was changed on its way is
 * another list. It may pass every check of the library and deny flushes that were listed: the library sees
 * lengths and masks only. So the link must carry a checksum or a digest of its own. Here it is a CRC-32,
 * which the sender gives beside the list. The list is not asked before its CRC-32 is found right. The sender
 * has it from this program, from zlib, or by: gzip -c LIST | tail -c 8 | od -An -N4 -tx4
 *
 * usage: controller              builds a small list of its own, and the north island's
 *        controller LIST CRC32   reads a packed list: the 20 descriptor bytes and then the fingerprints. It
 *                                must have this CRC-32, 8 hexadecimal digits
 *        controller LIST         the same with no CRC-32: a list that was changed may be believed
 *        controller --save LIST  builds the small list, writes it too, and prints its CRC-32
 *
 * Ends with 0, with 1 if the list is refused or was changed, or with 2 if a file can't be read or written.
 */
#include "gillpocketry.h"

#include <stdio.h>
#include <stdlib.h>
#include <string.h>

enum { UNIT = 7, VALVES = 4, HOURS = 15, OWN_FLUSHES = 7 };
enum { SECONDS_OF_HOUR = 3600, LOCAL_HOURS = -10, TWENTY_PAST = 20 * 60, HOURS_OF_YEAR = 365 * 24 };

/* The list as it comes from a file; one byte more, to see that a file is too long. */
static uint8_t list[GP_DESCRIPTOR_BYTES + GP_MAX_SLOTS + 1];
static size_t list_length;

/* ---- A list of its own ---- */

/* Lengths and scratch for a build of just these flushes. */
enum { SLOTS = GP_SLOTS_UP_TO(OWN_FLUSHES), STARTS = GP_STARTS_UP_TO(OWN_FLUSHES) };
static uint64_t keys[OWN_FLUSHES], sums[SLOTS], order[OWN_FLUSHES + 1];
static uint32_t lone[SLOTS], starts[STARTS];
static uint16_t counts[SLOTS];
static uint8_t positions[OWN_FLUSHES];

static int build_own_list(void) {
    static const struct {
        uint8_t valve;
        int hour;
    } flushes[OWN_FLUSHES] = {{1, -10}, {3, -10}, {0, -7}, {2, -1}, {0, 0}, {1, 1}, {3, 2}};
    uint8_t *fingerprints = list + GP_DESCRIPTOR_BYTES;
    uint32_t answer;
    size_t i;
    for (i = 0; i < OWN_FLUSHES; i++) {
        answer = gp_flush_key(UNIT, flushes[i].valve, (int64_t)flushes[i].hour * SECONDS_OF_HOUR, &keys[i]);
        if (answer != 0) {
            printf("flush %u has no key: refused with %u\n", (unsigned)i, (unsigned)(answer - GP_REFUSED));
            return 1;
        }
    }
    answer = gp_fuse8_build(keys, OWN_FLUSHES, GP_MAX_ATTEMPTS, fingerprints, SLOTS, lone, SLOTS, counts,
                            SLOTS, sums, SLOTS, positions, OWN_FLUSHES, order, OWN_FLUSHES + 1, starts,
                            STARTS, list, GP_DESCRIPTOR_BYTES);
    if (answer > GP_BUILD_REFUSED) {
        printf("no list is built: refused with %u\n", (unsigned)(answer - GP_BUILD_REFUSED));
        return 1;
    }
    list_length = GP_DESCRIPTOR_BYTES + GP_SLOTS_OF(list);
    printf("built a list of %d flushes in %u bytes, at attempt %u\n", OWN_FLUSHES, (unsigned)list_length,
           (unsigned)answer);
    return 0;
}

/* ---- Files ---- */

/* The CRC-32 of Ethernet and zlib. It sees every change of one bit. Of other changes by chance it misses
 * about one in 4 billion. Who changes a list on purpose can send a CRC-32 that fits: against that it takes a
 * digest with a secret key. */
static uint32_t crc32_of_list(void) {
    uint32_t crc = 0xffffffff;
    size_t i;
    int bit;
    for (i = 0; i < list_length; i++) {
        crc ^= list[i];
        for (bit = 0; bit < 8; bit++) {
            crc = crc >> 1 ^ (crc & 1 ? 0xedb88320 : 0);
        }
    }
    return crc ^ 0xffffffff;
}

static int read_list(const char *name) {
    FILE *file = fopen(name, "rb");
    if (file == NULL) {
        perror(name);
        return 2;
    }
    list_length = fread(list, 1, sizeof list, file);
    if (ferror(file)) {
        perror(name);
        fclose(file);
        return 2;
    }
    fclose(file);
    printf("read a list of %u bytes%s\n", (unsigned)list_length,
           list_length == sizeof list ? " or more" : "");
    return 0;
}

static int save_list(const char *name) {
    FILE *file = fopen(name, "wb");
    size_t written = file == NULL ? 0 : fwrite(list, 1, list_length, file);
    if (file == NULL || fclose(file) != 0 || written != list_length) {
        perror(name);
        return 2;
    }
    printf("saved it, CRC-32 %08lx\n", (unsigned long)crc32_of_list());
    return 0;
}

/* ---- What must be right before the first hour ---- */

/* Reads 8 hexadecimal digits; 0 if the word is anything else. */
static int read_crc32(const char *word, uint32_t *crc) {
    if (strlen(word) != 8 || strspn(word, "0123456789abcdefABCDEF") != 8) {
        return 0;
    }
    *crc = (uint32_t)strtoul(word, NULL, 16);
    return 1;
}

static int hold_to_crc32(uint32_t sent) {
    if (crc32_of_list() != sent) {
        puts("changed on its way: not asked");
        return 1;
    }
    return 0;
}

static uint32_t ask(uint64_t key) {
    size_t descriptor_length = list_length < GP_DESCRIPTOR_BYTES ? list_length : GP_DESCRIPTOR_BYTES;
    return gp_fuse8_contains(list, descriptor_length, list + descriptor_length,
                             list_length - descriptor_length, key);
}

/* Whether a list is refused does not depend on the key, so it is seen before the first hour. That it is not
 * refused says only that its lengths and its mask fit: a list with a changed seed or fingerprint passes, and
 * may deny listed flushes. So this comes after the CRC-32, never in place of it. */
static int accept_list(void) {
    uint32_t answer = ask(0);
    if (answer >= GP_REFUSED) {
        printf("this is no list: refused with %u\n", (unsigned)(answer - GP_REFUSED));
        return 1;
    }
    return 0;
}

/* ---- The hours ---- */

/* A refusal is neither yes nor no: the clock or the list is bad, and nothing is known of this hour. Taken for
 * "not due" it would let membranes rot unseen, so it is a case of its own at every question, although the
 * list was accepted before the first hour. */
static void sound_alarm(uint32_t answer, int any_due) {
    printf("%s ALARM, nothing is known: refused with %u\n", any_due ? ";" : "",
           (unsigned)(answer - GP_REFUSED));
}

/* The clock has shown `hours` whole hours, and twenty minutes. The flushes of the own list are named by the
 * first second of their hour; any other second of it gives the same key, below zero too. */
static void watch_hour(int hours) {
    int64_t clock = (int64_t)hours * SECONDS_OF_HOUR + TWENTY_PAST;
    int64_t local = clock + (int64_t)LOCAL_HOURS * SECONDS_OF_HOUR;
    int any_due = 0;
    unsigned valve;
    printf("local hour %3d:", hours + LOCAL_HOURS);
    for (valve = 0; valve < VALVES; valve++) {
        uint64_t key;
        uint32_t answer = gp_flush_key(UNIT, (uint8_t)valve, local, &key);
        if (answer == 0) {
            answer = ask(key);
        }
        if (answer >= GP_REFUSED) {
            sound_alarm(answer, any_due);
            return;
        }
        if (answer == GP_YES) {
            printf("%s %u", any_due ? "," : " would flush valve", valve);
            any_due = 1;
        }
    }
    puts(any_due ? "" : " nothing due");
}

/* ---- The north island ---- */

/* The same flushes, in twice the memory. The 20 bytes do not tell the width: a list is asked by the function
 * of its own width. */
static uint8_t north_descriptor[GP_DESCRIPTOR_BYTES];
static uint16_t north_fingerprints[SLOTS];

static uint32_t ask_north(uint64_t key) {
    return gp_fuse16_contains(north_descriptor, GP_DESCRIPTOR_BYTES, north_fingerprints,
                              GP_SLOTS_OF(north_descriptor), key);
}

/* How often a list has a valve flushed in a year in which nothing is due. A refusal counts too: to be safe,
 * it would flush. */
static unsigned needless_flushes(uint32_t (*ask_list)(uint64_t key)) {
    unsigned flushes = 0, valve;
    int hour;
    for (hour = HOURS; hour < HOURS + HOURS_OF_YEAR; hour++) {
        for (valve = 0; valve < VALVES; valve++) {
            uint64_t key;
            if (gp_flush_key(UNIT, (uint8_t)valve, (int64_t)hour * SECONDS_OF_HOUR, &key) != 0 ||
                ask_list(key) != GP_NO) {
                flushes++;
            }
        }
    }
    return flushes;
}

static int serve_north_island(void) {
    uint32_t answer = gp_fuse16_build(keys, OWN_FLUSHES, GP_MAX_ATTEMPTS, north_fingerprints, SLOTS, lone,
                                      SLOTS, counts, SLOTS, sums, SLOTS, positions, OWN_FLUSHES, order,
                                      OWN_FLUSHES + 1, starts, STARTS, north_descriptor, GP_DESCRIPTOR_BYTES);
    if (answer > GP_BUILD_REFUSED) {
        printf("no list is built for the north island: refused with %u\n",
               (unsigned)(answer - GP_BUILD_REFUSED));
        return 1;
    }
    printf("built the north island's list in %u bytes, at attempt %u\n",
           (unsigned)(GP_DESCRIPTOR_BYTES + GP_SLOTS_OF(north_descriptor) * sizeof *north_fingerprints),
           (unsigned)answer);
    printf("needless flushes in a year: %u, on the north island %u\n", needless_flushes(ask),
           needless_flushes(ask_north));
    return 0;
}

int main(int count, char **words) {
    int saving = count == 3 && strcmp(words[1], "--save") == 0, checking = count == 3 && !saving;
    int reading = count == 2 || checking, status, hour;
    uint32_t sent = 0;
    if (count > 3 || (checking && !read_crc32(words[2], &sent))) {
        fputs("usage: controller [LIST [CRC32] | --save LIST]   (a CRC32 has 8 hexadecimal digits)\n",
              stderr);
        return 2;
    }
    status = reading ? read_list(words[1]) : build_own_list();
    if (status == 0 && saving) {
        status = save_list(words[2]);
    }
    if (status == 0 && checking) {
        status = hold_to_crc32(sent);
    }
    if (status == 0) {
        status = accept_list();
    }
    for (hour = 0; hour < HOURS && status == 0; hour++) {
        watch_hour(hour);
    }
    if (status == 0 && count == 1) {
        status = serve_north_island();
    }
    return status;
}
