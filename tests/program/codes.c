/* codes.c: for each code of itchsnap.h, a call that returns it, with the details that belong to it.
 *
 *   codes    ends with status 1 at the first call that returns another code
 *
 * memory.c tests OUT_OF_MEMORY and TAKEN_NO_MEMORY. UNREAD and BROKEN_SESSION do not happen. */
#include "itchsnap.h"

#include <stdio.h>
#include <stdlib.h>
#include <string.h>

static const uint64_t most = UINT64_C(9999999999999999999);

/* Ends the program if a condition does not hold. */
static void must(bool holds, const char *what) {
    if (!holds) {
        fprintf(stderr, "codes: %s\n", what);
        exit(1);
    }
}

static void answers(itchsnap_answer answer, uint32_t code, uint64_t detail, const char *what) {
    must(answer.code == code && answer.detail == detail, what);
}

/* The bytes of a payload, a packet or a file. */
typedef struct {
    uint8_t bytes[200];
    size_t len;
} text;

static void put_number(uint8_t *at, size_t width, uint64_t number) {
    for (; width > 0; number >>= 8) {
        at[--width] = (uint8_t)number;
    }
}

static text of_type(char type, uint16_t locate, size_t len) {
    text made = {{0}, len};
    made.bytes[0] = (uint8_t)type;
    put_number(made.bytes + 1, 2, locate);
    return made;
}

static text directory(uint16_t locate, const char *stock) {
    text made = of_type('R', locate, 39);
    memcpy(made.bytes + 11, stock, 8);
    return made;
}

static text order(uint16_t locate, uint64_t reference, char side, uint32_t shares) {
    text made = of_type('A', locate, 36);
    put_number(made.bytes + 11, 8, reference);
    made.bytes[19] = (uint8_t)side;
    put_number(made.bytes + 20, 4, shares);
    memcpy(made.bytes + 24, "AAPL    ", 8);
    put_number(made.bytes + 32, 4, 1500000);
    return made;
}

static text cancel(uint16_t locate, uint64_t reference, uint32_t shares) {
    text made = of_type('X', locate, 23);
    put_number(made.bytes + 11, 8, reference);
    put_number(made.bytes + 19, 4, shares);
    return made;
}

/* The same message at a given time. */
static text at(uint64_t time, text payload) {
    put_number(payload.bytes + 5, 6, time);
    return payload;
}

static text spelled(const char *bytes) {
    text made = {{0}, strlen(bytes)};
    memcpy(made.bytes, bytes, made.len);
    return made;
}

/* An End of Snapshot before the first message. */
static text end(void) { return spelled("G                   1"); }

static void add_block(text *file, text payload) {
    put_number(file->bytes + file->len, 2, payload.len);
    memcpy(file->bytes + file->len + 2, payload.bytes, payload.len);
    file->len += 2 + payload.len;
}

static itchsnap_answer fault(text payload) { return itchsnap_decode_fault(payload.bytes, payload.len); }

static void payloads(void) {
    answers(fault(spelled("")), ITCHSNAP_EMPTY, 0, "EMPTY");
    answers(fault(spelled("S")), ITCHSNAP_WRONG_LENGTH, 12, "WRONG_LENGTH");
    answers(fault(directory(1, "AA\nL    ")), ITCHSNAP_BAD_TEXT, 13, "BAD_TEXT");
    answers(fault(order(1, 1, 'X', 1)), ITCHSNAP_BAD_SIDE, 19, "BAD_SIDE");
    answers(fault(spelled("G                   0")), ITCHSNAP_BAD_NUMBER, 0, "BAD_NUMBER");
}

/* A refused payload leaves the fields unchanged. */
static void fields(void) {
    itchsnap_message message, before;
    text good = at(7, order(3, 9, 'S', 5)), bad = order(1, 1, 'X', 1);
    memset(&message, 0xa5, sizeof message);
    memset(&before, 0xa5, sizeof before);
    answers(itchsnap_decode(good.bytes, 0, &message), ITCHSNAP_EMPTY, 0, "EMPTY of fields");
    answers(itchsnap_decode(good.bytes, 35, &message), ITCHSNAP_WRONG_LENGTH, 36, "WRONG_LENGTH of fields");
    answers(itchsnap_decode(bad.bytes, bad.len, &message), ITCHSNAP_BAD_SIDE, 19, "BAD_SIDE of fields");
    must(memcmp(&message, &before, sizeof message) == 0, "fields that are as they were");
    answers(itchsnap_decode(good.bytes, good.len, &message), ITCHSNAP_OK, 0, "OK of fields");
    must(message.message_type == 'A' && message.stock_locate == 3 && message.timestamp == 7, "the header");
    must(message.order_reference_number == 9 && message.buy_sell_indicator == 'S' && message.shares == 5, "the order");
    must(message.price == 1500000 && memcmp(message.stock, "AAPL    ", 8) == 0 && message.match_number == 0, "its price, and no match number");
    text other = spelled("?!");
    answers(itchsnap_decode(other.bytes, other.len, &message), ITCHSNAP_OK, 0, "a type that is not decoded");
    must(message.message_type == '?' && message.stock_locate == 0 && message.timestamp == 0, "its type alone");
}

static itchsnap_decoded rows_of(text file, const char *types, uint16_t locate, itchsnap_row *rows, size_t room) {
    return itchsnap_decode_blocks(file.bytes, file.len, 0, (const uint8_t *)types, strlen(types), &locate, locate != 0, rows, room);
}

static void decodes(itchsnap_decoded done, uint32_t code, uint64_t detail, uint64_t count, size_t rows, size_t len, const char *what) {
    must(done.code == code && done.detail == detail && done.count == count && done.rows == rows && done.len == len, what);
}

static void rows(void) {
    itchsnap_row out[3], before;
    text file = {{0}, 0};
    add_block(&file, at(7, directory(1, "AAPL    ")));
    add_block(&file, at(8, order(1, 1, 'B', 5)));
    add_block(&file, at(9, cancel(2, 1, 5)));
    add_block(&file, spelled("?"));
    memset(out, 0xa5, sizeof out);
    memset(&before, 0xa5, sizeof before);
    decodes(rows_of(file, "AX", 0, out, 3), ITCHSNAP_OK, 0, 4, 2, file.len, "OK of rows");
    must(out[0].number == 2 && out[0].offset == 43 && out[0].timestamp == 8 && out[0].payload[0] == 'A' && out[0].payload[36] == 0, "a row");
    must(out[1].number == 3 && memcmp(&out[2], &before, sizeof before) == 0, "the last row");
    decodes(rows_of(file, "AX", 2, out, 3), ITCHSNAP_OK, 0, 4, 1, file.len, "the rows of a locate");
    must(out[0].number == 3, "the row of a locate");
    decodes(rows_of(file, "AX?", 3, out, 3), ITCHSNAP_OK, 0, 4, 0, file.len, "the rows of a locate without any");
    decodes(rows_of(file, "?", 0, out, 3), ITCHSNAP_OK, 0, 4, 1, file.len, "a type that is not decoded");
    must(out[0].timestamp == 0 && out[0].payload[0] == '?' && out[0].payload[1] == 0, "its row");
    decodes(rows_of(file, "", 0, out, 0), ITCHSNAP_OK, 0, 4, 0, file.len, "the number of messages");
    decodes(rows_of(file, "AX", 0, out, 1), ITCHSNAP_NO_ROOM, 0, 2, 1, 79, "NO_ROOM for rows");
    decodes(rows_of(file, "R", 0, out, 0), ITCHSNAP_NO_ROOM, 0, 0, 0, 0, "NO_ROOM for any row");
    file.len -= 1;
    decodes(rows_of(file, "", 0, out, 3), ITCHSNAP_TRUNCATED, 2, 3, 0, 104, "TRUNCATED rows");
    file.len = 80;
    decodes(rows_of(file, "X", 0, out, 3), ITCHSNAP_TRUNCATED, 1, 2, 0, 79, "TRUNCATED after a byte");
    const uint8_t type = 'R';
    itchsnap_decoded done = itchsnap_decode_blocks(file.bytes, 79, most - 1, &type, 1, &(uint16_t){0}, 0, out, 3);
    decodes(done, ITCHSNAP_TOO_MANY_MESSAGES, 0, most, 1, 41, "TOO_MANY_MESSAGES of rows");
    must(out[0].number == most, "the greatest number");
    done = itchsnap_decode_blocks(file.bytes, 0, UINT64_MAX, &type, 1, &(uint16_t){0}, 0, out, 3);
    decodes(done, ITCHSNAP_OK, 0, UINT64_MAX, 0, 0, "no blocks");
    file.bytes[41 + 21] = 'X';
    decodes(rows_of(file, "RA", 0, out, 3), ITCHSNAP_BAD_SIDE, 19, 1, 1, 41, "BAD_SIDE of rows");
    decodes(rows_of(file, "RA", 9, out, 3), ITCHSNAP_BAD_SIDE, 19, 1, 0, 41, "BAD_SIDE at another locate");
    file.len = 79;
    decodes(rows_of(file, "R", 0, out, 3), ITCHSNAP_OK, 0, 2, 1, 79, "a fault of another type");
    file.bytes[41] = file.bytes[42] = 0;
    decodes(rows_of(file, "RA", 0, out, 3), ITCHSNAP_OK, 0, 1, 1, 41, "an empty block after rows");
}

static void texts(void) {
    char out[ITCHSNAP_REASON_LEN];
    size_t longest = 0;
    for (uint32_t code = 0; code < 120; code++) {
        memset(out, '#', sizeof out);
        itchsnap_written written = itchsnap_reason_text(code, out, sizeof out);
        if (written.code == ITCHSNAP_ABSENT) {
            must(written.len == 0 && out[0] == '#', "the text of no code");
            continue;
        }
        must(written.code == ITCHSNAP_OK && written.len > 2 && strlen(out) == written.len - 1, "a text and its length");
        longest = written.len > longest ? written.len : longest;
        memset(out, '#', sizeof out);
        itchsnap_written refused = itchsnap_reason_text(code, out, written.len - 1);
        must(refused.code == ITCHSNAP_NO_ROOM && refused.len == written.len && out[0] == '#', "NO_ROOM for a text");
    }
    must(longest > 20 && longest < ITCHSNAP_REASON_LEN, "the longest text");
    must(itchsnap_reason_text(ITCHSNAP_STOCK_MISMATCH, out, sizeof out).len == 15 && strcmp(out, "stock mismatch") == 0, "a text");
    must(itchsnap_reason_text(ITCHSNAP_BROKEN_SESSION, out, sizeof out).code == ITCHSNAP_OK, "the last text");
    must(itchsnap_reason_text(UINT32_MAX, out, sizeof out).code == ITCHSNAP_ABSENT, "ABSENT of a text");
}

static itchsnap_answer apply(itchsnap_handle *market, text payload) {
    return itchsnap_market_apply(market, payload.bytes, payload.len);
}

static void rules(void) {
    itchsnap_handle market = ITCHSNAP_NONE;
    answers(itchsnap_market_new(&market), ITCHSNAP_OK, 0, "OK");
    answers(apply(&market, order(1, 1, 'B', 5)), ITCHSNAP_UNKNOWN_LOCATE, 0, "UNKNOWN_LOCATE");
    answers(apply(&market, directory(1, "AAPL    ")), ITCHSNAP_OK, 0, "a directory entry");
    answers(apply(&market, directory(1, "MSFT    ")), ITCHSNAP_STOCK_MISMATCH, 0, "STOCK_MISMATCH");
    answers(apply(&market, order(1, 1, 'B', 0)), ITCHSNAP_ZERO_SHARES, 0, "ZERO_SHARES");
    answers(apply(&market, order(1, 1, 'B', 5)), ITCHSNAP_OK, 0, "an order");
    answers(apply(&market, order(1, 1, 'B', 5)), ITCHSNAP_DUPLICATE_REFERENCE, 0, "DUPLICATE_REFERENCE");
    answers(apply(&market, cancel(1, 2, 1)), ITCHSNAP_UNKNOWN_REFERENCE, 0, "UNKNOWN_REFERENCE");
    answers(apply(&market, cancel(2, 1, 1)), ITCHSNAP_LOCATE_MISMATCH, 0, "LOCATE_MISMATCH");
    answers(apply(&market, cancel(1, 1, 6)), ITCHSNAP_TOO_MANY_SHARES, 5, "TOO_MANY_SHARES");
    answers(apply(&market, end()), ITCHSNAP_UNEXPECTED_END, 0, "UNEXPECTED_END");
    itchsnap_free(&market);
}

static void files(void) {
    uint8_t out[1];
    text file = {{0}, 0};
    add_block(&file, directory(1, "AAPL    "));
    itchsnap_outcome outcome = itchsnap_check(file.bytes, file.len - 1);
    must(outcome.code == ITCHSNAP_TRUNCATED && outcome.count == 0 && outcome.detail == 40, "TRUNCATED");
    outcome = itchsnap_snap(file.bytes, file.len, 2, ITCHSNAP_ALL, out, 1);
    must(outcome.code == ITCHSNAP_SHORT && outcome.count == 1, "SHORT");
    outcome = itchsnap_snap(file.bytes, file.len, 1, ITCHSNAP_ALL, out, 1);
    must(outcome.code == ITCHSNAP_NO_ROOM && outcome.len == 64, "NO_ROOM");
    add_block(&file, directory(1, "MSFT    "));
    outcome = itchsnap_check(file.bytes, file.len);
    must(outcome.code == ITCHSNAP_STOCK_MISMATCH && outcome.count == 1, "the count of messages before the one that is refused");
    itchsnap_handle market = ITCHSNAP_NONE;
    itchsnap_loaded loaded = itchsnap_market_load(&market, file.bytes, file.len);
    must(loaded.code == ITCHSNAP_STOCK_MISMATCH && loaded.place == 2, "the place of the message that is refused");
    must(itchsnap_market_load(&market, file.bytes, 41).code == ITCHSNAP_NO_END, "NO_END");
    file.len = 0;
    add_block(&file, end());
    add_block(&file, end());
    must(itchsnap_market_load(&market, file.bytes, file.len).code == ITCHSNAP_AFTER_END, "AFTER_END");
    loaded = itchsnap_market_load(&market, file.bytes, file.len / 2);
    must(loaded.code == ITCHSNAP_OK && loaded.next == 1, "a snapshot file");
    must(itchsnap_market_load(&market, file.bytes, file.len).code == ITCHSNAP_IN_USE, "IN_USE of a snapshot file that is refused");
    itchsnap_free(&market);
}

static void times(void) {
    uint8_t out[1];
    text file = {{0}, 0};
    add_block(&file, at(7, directory(1, "AAPL    ")));
    add_block(&file, at(9, order(1, 1, 'B', 5)));
    add_block(&file, at(8, order(1, 2, 'B', 5)));
    itchsnap_outcome outcome = itchsnap_snap(file.bytes, file.len, ITCHSNAP_ALL, 8, out, 1);
    must(outcome.code == ITCHSNAP_NO_ROOM && outcome.count == 1 && outcome.len == 64, "a snapshot until a time");
    must(itchsnap_snap(file.bytes, file.len, ITCHSNAP_ALL, 10, out, 1).count == 3, "a snapshot until a time that none has");
    must(itchsnap_snap(file.bytes, file.len, 2, 9, out, 1).count == 1, "the time comes before the number");
    must(itchsnap_snap(file.bytes, file.len, 2, 10, out, 1).count == 2, "the number comes before the time");
    must(itchsnap_snap(file.bytes, file.len, 4, 9, out, 1).count == 1, "fewer messages than a time leaves");
    must(itchsnap_snap(file.bytes, file.len, 4, 10, out, 1).code == ITCHSNAP_SHORT, "SHORT without a message so late");
    itchsnap_count found = itchsnap_first_at(file.bytes, file.len, 7);
    must(found.code == ITCHSNAP_OK && found.count == 0, "the first message at a time");
    must(itchsnap_first_at(file.bytes, file.len, 8).count == 41, "a time between those of two messages");
    must(itchsnap_first_at(file.bytes + 79, 38, 8).count == 0, "the first message of a piece");
    must(itchsnap_first_at(file.bytes, file.len, 10).code == ITCHSNAP_ABSENT, "ABSENT of a time");
    must(itchsnap_first_at(file.bytes, 78, 8).code == ITCHSNAP_ABSENT, "ABSENT before an unfinished block");
    must(itchsnap_first_at(file.bytes, 0, 0).code == ITCHSNAP_ABSENT, "ABSENT of no bytes");
    file.len = 0;
    add_block(&file, spelled("S"));
    add_block(&file, end());
    add_block(&file, at(9, order(1, 1, 'B', 5)));
    must(itchsnap_first_at(file.bytes, file.len, 9).count == 26, "blocks without a timestamp");
    file.bytes[3] = file.bytes[4] = 0;
    must(itchsnap_first_at(file.bytes, file.len, 9).code == ITCHSNAP_ABSENT, "ABSENT after an empty block");
}

static void blocks(void) {
    itchsnap_handle market = ITCHSNAP_NONE;
    text file = {{0}, 0};
    add_block(&file, directory(1, "AAPL    "));
    add_block(&file, order(1, 1, 'B', 5));
    itchsnap_applied applied = itchsnap_market_apply_blocks(&market, file.bytes, file.len);
    must(applied.code == ITCHSNAP_WRONG_HANDLE && applied.count == 0 && applied.detail == 0, "WRONG_HANDLE of blocks");
    must(itchsnap_market_new(&market).code == ITCHSNAP_OK, "a new market");
    applied = itchsnap_market_apply_blocks(&market, file.bytes, file.len - 1);
    must(applied.code == ITCHSNAP_TRUNCATED && applied.count == 1 && applied.detail == 37, "TRUNCATED blocks");
    applied = itchsnap_market_apply_blocks(&market, file.bytes + 41, 38);
    must(applied.code == ITCHSNAP_OK && applied.count == 1 && applied.detail == 0, "the rest of the blocks");
    applied = itchsnap_market_apply_blocks(&market, file.bytes, file.len);
    must(applied.code == ITCHSNAP_DUPLICATE_REFERENCE && applied.count == 1, "a block that is refused");
    must(itchsnap_order_count(&market).count == 1, "the order before it");
    file.len = 0;
    add_block(&file, cancel(1, 1, 6));
    applied = itchsnap_market_apply_blocks(&market, file.bytes, file.len);
    must(applied.code == ITCHSNAP_TOO_MANY_SHARES && applied.count == 0 && applied.detail == 5, "the detail of a block");
    file.bytes[0] = file.bytes[1] = 0;
    applied = itchsnap_market_apply_blocks(&market, file.bytes, file.len);
    must(applied.code == ITCHSNAP_OK && applied.count == 0, "an empty block");
    applied = itchsnap_market_apply_blocks(&market, file.bytes, 0);
    must(applied.code == ITCHSNAP_OK && applied.count == 0, "no block");
    itchsnap_free(&market);
}

static void lists(void) {
    itchsnap_handle market = ITCHSNAP_NONE;
    uint16_t locates[2] = {7, 7};
    itchsnap_order orders[3];
    itchsnap_price_level levels[2];
    must(itchsnap_locates(&market, locates, 2).code == ITCHSNAP_WRONG_HANDLE, "WRONG_HANDLE of locates");
    must(itchsnap_orders(&market, 1, orders, 3).code == ITCHSNAP_WRONG_HANDLE, "WRONG_HANDLE of orders");
    must(itchsnap_levels(&market, 1, true, levels, 2).code == ITCHSNAP_WRONG_HANDLE, "WRONG_HANDLE of levels");
    must(itchsnap_stock(&market, 1).code == ITCHSNAP_WRONG_HANDLE, "WRONG_HANDLE of a stock");
    must(itchsnap_market_new(&market).code == ITCHSNAP_OK, "a new market");
    must(itchsnap_locates(&market, locates, 0).code == ITCHSNAP_OK && locates[0] == 7, "no locates");
    answers(apply(&market, directory(9, "MSFT    ")), ITCHSNAP_OK, 0, "a directory entry");
    answers(apply(&market, directory(1, "AAPL    ")), ITCHSNAP_OK, 0, "a directory entry");
    answers(apply(&market, order(1, 1, 'S', 5)), ITCHSNAP_OK, 0, "an order");
    answers(apply(&market, order(1, 2, 'B', 6)), ITCHSNAP_OK, 0, "an order");
    answers(apply(&market, order(1, 3, 'B', 7)), ITCHSNAP_OK, 0, "an order");
    itchsnap_written written = itchsnap_locates(&market, locates, 1);
    must(written.code == ITCHSNAP_NO_ROOM && written.len == 2 && locates[0] == 7, "NO_ROOM for locates");
    written = itchsnap_locates(&market, locates, 2);
    must(written.code == ITCHSNAP_OK && written.len == 2 && locates[0] == 1 && locates[1] == 9, "the locates");
    must(itchsnap_stock(&market, 2).code == ITCHSNAP_ABSENT, "ABSENT of a stock");
    must(memcmp(itchsnap_stock(&market, 9).stock, "MSFT    ", 8) == 0, "the stock");
    written = itchsnap_orders(&market, 1, orders, 2);
    must(written.code == ITCHSNAP_NO_ROOM && written.len == 3, "NO_ROOM for orders");
    written = itchsnap_orders(&market, 1, orders, 3);
    must(written.code == ITCHSNAP_OK && written.len == 3, "the orders");
    must(orders[0].reference == 2 && orders[1].reference == 3 && orders[2].reference == 1 && orders[2].code == ITCHSNAP_OK, "their priority");
    must(itchsnap_orders(&market, 9, orders, 3).len == 0, "the orders of a locate without one");
    must(itchsnap_levels(&market, 1, true, levels, 0).code == ITCHSNAP_NO_ROOM, "NO_ROOM for levels");
    written = itchsnap_levels(&market, 1, true, levels, 2);
    must(written.code == ITCHSNAP_OK && written.len == 1, "the levels");
    must(levels[0].price == 1500000 && levels[0].shares_low == 13 && levels[0].shares_high == 0 && levels[0].orders == 2, "a level");
    itchsnap_free(&market);
}

static void handles(void) {
    uint8_t out[1];
    itchsnap_handle market = ITCHSNAP_NONE;
    must(itchsnap_snapshot(&market, 0, out, 0).code == ITCHSNAP_WRONG_HANDLE, "WRONG_HANDLE");
    must(itchsnap_market_new(&market).code == ITCHSNAP_OK, "a new market");
    must(itchsnap_joiner_new(&market, 1).code == ITCHSNAP_IN_USE, "IN_USE");
    must(itchsnap_best(&market, 1, true).code == ITCHSNAP_ABSENT, "ABSENT of a locate");
    must(itchsnap_order_by(&market, 1).code == ITCHSNAP_ABSENT, "ABSENT of a reference");
    must(itchsnap_next_price(&market, 1, true, false, 0).code == ITCHSNAP_ABSENT, "ABSENT of a price");
    must(itchsnap_snapshot(&market, 0, out, 0).code == ITCHSNAP_NO_NUMBER, "NO_NUMBER of 0");
    must(itchsnap_snapshot(&market, most + 2, out, 0).code == ITCHSNAP_NO_NUMBER, "NO_NUMBER above 10^19");
    itchsnap_written written = itchsnap_snapshot(&market, most + 1, out, 0);
    must(written.code == ITCHSNAP_NO_ROOM && written.len == 23, "NO_ROOM");
    itchsnap_free(&market);
}

static void joined(itchsnap_joined answer, uint32_t code, uint64_t number, const char *what) {
    must(answer.code == code && answer.number == number, what);
}

static itchsnap_joined live(itchsnap_handle *joiner, uint64_t number, text payload) {
    return itchsnap_joiner_live(joiner, number, payload.bytes, payload.len);
}

static itchsnap_joined snapshot(itchsnap_handle *joiner, text payload) {
    return itchsnap_joiner_snapshot(joiner, payload.bytes, payload.len);
}

static void joiners(void) {
    itchsnap_handle joiner = ITCHSNAP_NONE;
    must(itchsnap_joiner_new(&joiner, 1).code == ITCHSNAP_OK, "a new joiner");
    must(itchsnap_joiner_next(&joiner).code == ITCHSNAP_NOT_JOINED, "NOT_JOINED");
    joined(live(&joiner, 2, order(1, 1, 'B', 5)), ITCHSNAP_KEPT, 0, "KEPT");
    joined(live(&joiner, 2, order(1, 1, 'B', 6)), ITCHSNAP_CONFLICT, 2, "CONFLICT");
    joined(live(&joiner, 3, order(1, 1, 'B', 5)), ITCHSNAP_FULL, 1, "FULL");
    joined(live(&joiner, 0, end()), ITCHSNAP_BAD_MESSAGE_NUMBER, 0, "BAD_MESSAGE_NUMBER of 0");
    joined(live(&joiner, most + 1, end()), ITCHSNAP_BAD_MESSAGE_NUMBER, 0, "BAD_MESSAGE_NUMBER above 10^19 - 1");
    itchsnap_joined answer = snapshot(&joiner, order(1, 1, 'B', 5));
    joined(answer, ITCHSNAP_BAD_SNAPSHOT, 1, "BAD_SNAPSHOT");
    must(answer.cause == ITCHSNAP_UNKNOWN_LOCATE, "the cause of BAD_SNAPSHOT");
    answers(itchsnap_joiner_restart(&joiner), ITCHSNAP_OK, 0, "a restart");
    joined(snapshot(&joiner, directory(2, "MSFT    ")), ITCHSNAP_MORE, 0, "MORE");
    joined(snapshot(&joiner, end()), ITCHSNAP_JOINED, 1, "JOINED");
    joined(snapshot(&joiner, end()), ITCHSNAP_ALREADY_JOINED, 0, "ALREADY_JOINED");
    joined(live(&joiner, 1, directory(1, "AAPL    ")), ITCHSNAP_APPLIED, 3, "APPLIED");
    joined(live(&joiner, 2, order(1, 1, 'B', 5)), ITCHSNAP_OLD, 0, "OLD");
    answer = live(&joiner, 3, cancel(1, 1, 6));
    joined(answer, ITCHSNAP_HALTED, 3, "HALTED");
    must(answer.cause == ITCHSNAP_TOO_MANY_SHARES && answer.detail == 5, "the cause of HALTED");
    itchsnap_free(&joiner);
}

static void acts(itchsnap_act act, uint32_t code, uint64_t number, uint64_t detail, const char *what) {
    must(act.code == code && act.number == number && act.detail == detail, what);
}

static itchsnap_act client_hears(itchsnap_handle *client, text packet) {
    return itchsnap_client_packet(client, packet.bytes, packet.len, 0);
}

static itchsnap_act server_hears(itchsnap_handle *server, text packet) {
    return itchsnap_server_packet(server, packet.bytes, packet.len, 0);
}

static itchsnap_login login_of(const char *texts) {
    itchsnap_login login;
    memcpy(&login, texts, sizeof login);
    return login;
}

static void new_sessions(void) {
    itchsnap_handle session = ITCHSNAP_NONE;
    itchsnap_login good = login_of("desk  secret              "), bad = login_of("desk\n secret              ");
    answers(itchsnap_client_new(&session, &bad, most + 2, 0), ITCHSNAP_BAD_TEXT, 0, "BAD_TEXT of a client");
    answers(itchsnap_client_new(&session, &good, most + 2, 0), ITCHSNAP_NO_NUMBER, 0, "NO_NUMBER of a client");
    answers(itchsnap_server_new(&session, &bad, most + 1, 0), ITCHSNAP_BAD_TEXT, 0, "BAD_TEXT of a server");
    answers(itchsnap_server_new(&session, &good, most + 1, 0), ITCHSNAP_TOO_MANY_MESSAGES, 0, "TOO_MANY_MESSAGES of a server");
    answers(itchsnap_server_new(&session, &good, most, 0), ITCHSNAP_OK, 0, "a new server");
    answers(itchsnap_server_new(&session, &bad, 1, 0), ITCHSNAP_BAD_TEXT, 0, "BAD_TEXT before IN_USE");
    answers(itchsnap_server_new(&session, &good, 1, 0), ITCHSNAP_IN_USE, 0, "IN_USE of a server");
    must(itchsnap_server_accepted(&session, 0).code == ITCHSNAP_NO_NUMBER, "NO_NUMBER of an acceptance");
    itchsnap_free(&session);
}

static void servers(const itchsnap_login *login) {
    text request = spelled("Ldesk  secret                                 3");
    itchsnap_handle server = ITCHSNAP_NONE;
    must(itchsnap_server_new(&server, login, 5, 0).code == ITCHSNAP_OK, "a new server");
    acts(server_hears(&server, spelled("")), ITCHSNAP_EMPTY, 0, 0, "EMPTY");
    acts(server_hears(&server, spelled("L")), ITCHSNAP_WRONG_LENGTH, 0, 47, "WRONG_LENGTH");
    acts(server_hears(&server, spelled("?")), ITCHSNAP_UNKNOWN_TYPE, 0, '?', "UNKNOWN_TYPE");
    acts(server_hears(&server, spelled("H")), ITCHSNAP_WRONG_SIDE, 0, 'H', "WRONG_SIDE");
    acts(server_hears(&server, request), ITCHSNAP_ACCEPTED, 3, 0, "ACCEPTED");
    answers(itchsnap_session_tick(&server, 2000), ITCHSNAP_HEARTBEAT, 0, "HEARTBEAT");
    acts(server_hears(&server, request), ITCHSNAP_SECOND_LOGIN, 0, 0, "SECOND_LOGIN");
    itchsnap_free(&server);
    must(itchsnap_server_new(&server, login, 5, 0).code == ITCHSNAP_OK, "a new server");
    request.bytes[1] = 'x';
    acts(server_hears(&server, request), ITCHSNAP_REJECTED, 0, 'A', "REJECTED");
    acts(server_hears(&server, spelled("R")), ITCHSNAP_CLOSED, 0, 0, "CLOSED");
    itchsnap_free(&server);
    must(itchsnap_server_new(&server, login, 5, 0).code == ITCHSNAP_OK, "a new server");
    acts(server_hears(&server, spelled("O")), ITCHSNAP_LOGGED_OUT, 0, 0, "LOGGED_OUT");
    itchsnap_free(&server);
}

static void clients(const itchsnap_login *login) {
    itchsnap_handle client = ITCHSNAP_NONE;
    must(itchsnap_client_new(&client, login, 3, 0).code == ITCHSNAP_OK, "a new client");
    acts(client_hears(&client, spelled("Sx")), ITCHSNAP_EARLY, 0, 'S', "EARLY");
    itchsnap_free(&client);
    must(itchsnap_client_new(&client, login, 3, 0).code == ITCHSNAP_OK, "a new client");
    acts(client_hears(&client, spelled("A                             0")), ITCHSNAP_BAD_NUMBER, 0, 11, "BAD_NUMBER of a packet");
    acts(client_hears(&client, spelled("A                             3")), ITCHSNAP_ACCEPTED, 3, 0, "ACCEPTED by a client");
    acts(client_hears(&client, spelled("Sx")), ITCHSNAP_DATA, 3, 0, "DATA");
    acts(client_hears(&client, spelled("Z")), ITCHSNAP_ENDED, 0, 0, "ENDED");
    itchsnap_free(&client);
    must(itchsnap_client_new(&client, login, 3, 0).code == ITCHSNAP_OK, "a new client");
    acts(client_hears(&client, spelled("JS")), ITCHSNAP_REJECTED, 0, 'S', "REJECTED by a server");
    itchsnap_free(&client);
    must(itchsnap_client_new(&client, login, 3, 0).code == ITCHSNAP_OK, "a new client");
    answers(itchsnap_session_tick(&client, 60000), ITCHSNAP_LOST, 0, "LOST");
    itchsnap_free(&client);
}

int main(void) {
    itchsnap_login login = login_of("desk  secret              ");
    payloads();
    fields();
    rows();
    texts();
    rules();
    files();
    times();
    blocks();
    lists();
    handles();
    joiners();
    new_sessions();
    servers(&login);
    clients(&login);
    return 0;
}
