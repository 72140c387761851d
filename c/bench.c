/* bench.c: measures how long the calls take on a day file.
 *
 *   bench DAY          three rounds of: the whole file at once, the time of each message, message by message, all blocks in one call,
 *                      look-ups, all price levels, each message decoded alone, and calls that are refused at once
 *   bench DAY FIRST    three rounds of a joiner: it takes the snapshot of the first FIRST messages of the file, and then the entire file
 *                      as the feed, in order, and in windows of 1,000 messages of which the last comes first */
#define _POSIX_C_SOURCE 199309L
#include "itchsnap.h"

#include <inttypes.h>
#include <stdbool.h>
#include <stdio.h>
#include <stdlib.h>
#include <string.h>
#include <time.h>

enum { REFUSALS = 10000000, LOOKUPS = 2 * 65536, WINDOW = 1000 };

static double now(void) {
    struct timespec moment;
    clock_gettime(CLOCK_MONOTONIC, &moment);
    return (double)moment.tv_sec + (double)moment.tv_nsec * 1e-9;
}

static void report(const char *what, double seconds, uint64_t calls) {
    printf("%-28s %12" PRIu64 " calls %10.3f s %10.1f ns each\n", what, calls, seconds, seconds * 1e9 / (double)(calls > 0 ? calls : 1));
}

/* The payload of the block at a place, and where the next block begins. */
typedef struct {
    const uint8_t *payload;
    size_t size;
    size_t next;
} block;

/* Returns whether there is a block with a payload at this place. */
static bool block_at(const uint8_t *day, size_t len, size_t at, block *found) {
    if (len - at < 2) {
        return false;
    }
    size_t size = (size_t)day[at] << 8 | day[at + 1];
    if (size == 0 || len - at - 2 < size) {
        return false;
    }
    *found = (block){day + at + 2, size, at + 2 + size};
    return true;
}

static uint64_t apply_all(itchsnap_handle *market, const uint8_t *day, size_t len) {
    uint64_t count = 0;
    block it;
    for (size_t at = 0; block_at(day, len, at, &it); at = it.next) {
        itchsnap_answer answer = itchsnap_market_apply(market, it.payload, it.size);
        if (answer.code != ITCHSNAP_OK) {
            printf("message %" PRIu64 ": code %" PRIu32 "\n", count + 1, answer.code);
            break;
        }
        count++;
    }
    return count;
}

/* Returns how many messages can be decoded. */
static uint64_t decode_all(const uint8_t *day, size_t len) {
    uint64_t count = 0;
    block it;
    for (size_t at = 0; block_at(day, len, at, &it); at = it.next) {
        count += itchsnap_decode_fault(it.payload, it.size).code == ITCHSNAP_OK;
    }
    return count;
}

/* Returns how many messages can be written as fields, one by one. */
static uint64_t decode_fields(const uint8_t *day, size_t len) {
    uint64_t count = 0;
    itchsnap_message message;
    block it;
    for (size_t at = 0; block_at(day, len, at, &it); at = it.next) {
        count += itchsnap_decode(it.payload, it.size, &message).code == ITCHSNAP_OK;
    }
    return count;
}

/* Returns how many messages blocks contain, and writes those of some types as rows, many at a time. */
static uint64_t decode_rows(const uint8_t *day, size_t len, const char *types) {
    static itchsnap_row rows[4096];
    static const uint16_t no_locates[1];
    itchsnap_decoded done = {0, 0, 0, 0, ITCHSNAP_NO_ROOM};
    for (size_t at = 0; done.code == ITCHSNAP_NO_ROOM; at += done.len) {
        done = itchsnap_decode_blocks(day + at, len - at, done.count, (const uint8_t *)types, strlen(types), no_locates, 0, rows, 4096);
    }
    return done.count;
}

/* Lists the price levels of all locates in the directory. */
static uint64_t list_levels(itchsnap_handle *market) {
    static uint16_t locates[65536];
    static itchsnap_price_level levels[65536];
    size_t count = itchsnap_locates(market, locates, 65536).len;
    uint64_t found = 0;
    for (size_t k = 0; k < count; k++) {
        found += itchsnap_levels(market, locates[k], true, levels, 65536).len;
        found += itchsnap_levels(market, locates[k], false, levels, 65536).len;
    }
    return found;
}

/* Looks up one order: the first look-up by price after messages sorts the orders. */
static void sort_orders(itchsnap_handle *market) {
    double begun = now();
    itchsnap_best(market, 0, true);
    report("first look-up, which sorts", now() - begun, 1);
}

static void blocks_of(const uint8_t *day, size_t len) {
    itchsnap_handle market = ITCHSNAP_NONE;
    if (itchsnap_market_new(&market).code != ITCHSNAP_OK) {
        exit(1);
    }
    double begun = now();
    itchsnap_applied applied = itchsnap_market_apply_blocks(&market, day, len);
    report("apply_blocks, a message", now() - begun, applied.count);
    sort_orders(&market);
    begun = now();
    uint64_t levels = list_levels(&market);
    report("itchsnap_levels, a level", now() - begun, levels);
    itchsnap_free(&market);
}

static void round_of(const uint8_t *day, size_t len) {
    double begun = now();
    itchsnap_outcome checked = itchsnap_check(day, len);
    report("itchsnap_check, a message", now() - begun, checked.count);

    begun = now();
    itchsnap_count late = itchsnap_first_at(day, len, ITCHSNAP_ALL);
    report("itchsnap_first_at, a message", now() - begun, late.code == ITCHSNAP_ABSENT ? checked.count : 0);

    itchsnap_handle market = ITCHSNAP_NONE;
    if (itchsnap_market_new(&market).code != ITCHSNAP_OK) {
        exit(1);
    }
    begun = now();
    uint64_t count = apply_all(&market, day, len);
    report("itchsnap_market_apply", now() - begun, count);

    begun = now();
    uint64_t decoded = decode_all(day, len);
    report("decode_fault of each", now() - begun, decoded);

    begun = now();
    decoded = decode_fields(day, len);
    report("itchsnap_decode of each", now() - begun, decoded);

    begun = now();
    decoded = decode_rows(day, len, "A");
    report("itchsnap_decode_blocks of A, a message", now() - begun, decoded);

    begun = now();
    decoded = decode_rows(day, len, "");
    report("itchsnap_decode_blocks of none, a message", now() - begun, decoded);

    uint64_t found = 0;
    sort_orders(&market);
    begun = now();
    for (uint32_t locate = 0; locate < 65536; locate++) {
        found += itchsnap_best(&market, (uint16_t)locate, true).code == ITCHSNAP_OK;
        found += itchsnap_best(&market, (uint16_t)locate, false).code == ITCHSNAP_OK;
    }
    report("itchsnap_best", now() - begun, LOOKUPS);

    uint8_t byte = 0;
    uint64_t codes = 0;
    begun = now();
    for (int k = 0; k < REFUSALS; k++) {
        codes += itchsnap_market_apply(&market, &byte, 0).code;
    }
    report("apply of an empty payload", now() - begun, REFUSALS);

    begun = now();
    for (int k = 0; k < REFUSALS; k++) {
        codes += itchsnap_decode_fault(&byte, 0).code;
    }
    report("decode_fault of one", now() - begun, REFUSALS);

    begun = now();
    itchsnap_written written = itchsnap_snapshot(&market, count + 1, &byte, 0);
    report("itchsnap_snapshot, a byte", now() - begun, written.len);
    printf("%" PRIu64 " locates and sides with orders, codes %" PRIu64 "\n", found, codes);
    itchsnap_free(&market);
}

/* Fills a handle with a joiner that has taken the snapshot of the file's first messages. */
static void join(itchsnap_handle *joiner, const uint8_t *day, size_t len, uint64_t first) {
    size_t room = itchsnap_snap(day, len, first, ITCHSNAP_ALL, NULL, 0).len;
    uint8_t *snapshot = malloc(room > 0 ? room : 1);
    if (snapshot == NULL || itchsnap_joiner_new(joiner, WINDOW).code != ITCHSNAP_OK) {
        exit(1);
    }
    itchsnap_snap(day, len, first, ITCHSNAP_ALL, snapshot, room);
    uint32_t code = ITCHSNAP_MORE;
    block it;
    for (size_t at = 0; code == ITCHSNAP_MORE && block_at(snapshot, room, at, &it); at = it.next) {
        code = itchsnap_joiner_snapshot(joiner, it.payload, it.size).code;
    }
    free(snapshot);
    if (code != ITCHSNAP_JOINED) {
        fprintf(stderr, "no snapshot of %" PRIu64 " messages: code %" PRIu32 "\n", first, code);
        exit(1);
    }
}

/* Delivers the file as a feed, in windows of a given number of messages, of which the last comes first. Returns the number of
   messages. */
static uint64_t deliver(itchsnap_handle *joiner, const uint8_t *day, size_t len, size_t window) {
    static block held[WINDOW];
    uint64_t number = 1;
    size_t at = 0, count;
    do {
        for (count = 0; count < window && block_at(day, len, at, &held[count]); count++) {
            at = held[count].next;
        }
        for (size_t k = count; k > 0; k--) {
            itchsnap_joiner_live(joiner, number + k - 1, held[k - 1].payload, held[k - 1].size);
        }
        number += count;
    } while (count == window);
    return number - 1;
}

static void joins_of(const uint8_t *day, size_t len, uint64_t first) {
    static const size_t windows[] = {1, WINDOW};
    static const char *const names[] = {"joiner_live, in order", "joiner_live, reversed"};
    for (int k = 0; k < 2; k++) {
        itchsnap_handle joiner = ITCHSNAP_NONE;
        join(&joiner, day, len, first);
        double begun = now();
        uint64_t count = deliver(&joiner, day, len, windows[k]);
        report(names[k], now() - begun, count);
        if (itchsnap_joiner_next(&joiner).count != count + 1) {
            printf("the feed was not taken to its end\n");
        }
        itchsnap_free(&joiner);
    }
}

int main(int argc, char **argv) {
    FILE *file = argc == 2 || argc == 3 ? fopen(argv[1], "rb") : NULL;
    if (file == NULL || fseek(file, 0, SEEK_END) != 0) {
        fprintf(stderr, "usage: bench DAY [FIRST]\n");
        return 2;
    }
    size_t len = (size_t)ftell(file);
    rewind(file);
    uint8_t *day = malloc(len > 0 ? len : 1);
    if (day == NULL || fread(day, 1, len, file) != len) {
        return 1;
    }
    fclose(file);
    for (int k = 0; k < 3; k++) {
        if (argc == 3) {
            joins_of(day, len, strtoull(argv[2], NULL, 10));
        } else {
            blocks_of(day, len);
            round_of(day, len);
        }
    }
    free(day);
    return 0;
}
