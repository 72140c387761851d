/* demo.c: a day file's messages decoded, and applied one by one to a market, its look-ups, its snapshot, a joiner and a session.
 *
 *   demo DAY SNAPSHOT    writes the snapshot of the day file DAY to SNAPSHOT, and what it finds to standard output
 *
 * It makes each snapshot in every possible way, and ends with status 1 if two of them differ. */
#include "itchsnap.h"

#include <inttypes.h>
#include <stdio.h>
#include <stdlib.h>
#include <string.h>

/* In nanoseconds since midnight. */
#define NOON (UINT64_C(12) * 3600 * 1000000000)

/* A list of no locates. */
static const uint16_t no_locates[1];

/* Ends the program if a condition does not hold. */
static void must(bool holds, const char *what) {
    if (!holds) {
        fprintf(stderr, "demo: %s\n", what);
        exit(1);
    }
}

typedef struct {
    uint8_t *bytes;
    size_t len;
} buffer;

static buffer buffer_of(size_t len) {
    buffer made = {malloc(len > 0 ? len : 1), len};
    must(made.bytes != NULL, "out of memory");
    return made;
}

static buffer read_file(const char *path) {
    FILE *file = fopen(path, "rb");
    must(file != NULL, "cannot open the file");
    must(fseek(file, 0, SEEK_END) == 0, "cannot read the file");
    long len = ftell(file);
    must(len >= 0, "cannot read the file");
    rewind(file);
    buffer day = buffer_of((size_t)len);
    must(fread(day.bytes, 1, day.len, file) == day.len, "cannot read the file");
    fclose(file);
    return day;
}

static void write_file(const char *path, buffer snapshot) {
    FILE *file = fopen(path, "wb");
    must(file != NULL, "cannot open the output");
    must(fwrite(snapshot.bytes, 1, snapshot.len, file) == snapshot.len, "cannot write the output");
    must(fclose(file) == 0, "cannot write the output");
}

/* A payload of a file of blocks, and the number of bytes of its block: none at the end, or before an empty block. */
typedef struct {
    const uint8_t *bytes;
    size_t len;
} payload;

static bool next_payload(buffer file, size_t *at, payload *found) {
    if (file.len - *at < 2) {
        return false;
    }
    size_t len = (size_t)file.bytes[*at] << 8 | file.bytes[*at + 1];
    if (len == 0 || file.len - *at - 2 < len) {
        return false;
    }
    found->bytes = file.bytes + *at + 2;
    found->len = len;
    *at += 2 + len;
    return true;
}

/* Applies all messages of a day file, and returns their number. */
static uint64_t apply_all(itchsnap_handle *market, buffer day) {
    uint64_t count = 0;
    size_t at = 0;
    payload message;
    while (next_payload(day, &at, &message)) {
        must(itchsnap_decode_fault(message.bytes, message.len).code == ITCHSNAP_OK, "a payload is no message");
        itchsnap_answer answer = itchsnap_market_apply(market, message.bytes, message.len);
        if (answer.code != ITCHSNAP_OK) {
            char text[ITCHSNAP_REASON_LEN];
            must(itchsnap_reason_text(answer.code, text, sizeof text).code == ITCHSNAP_OK, "the text of a code");
            printf("message %" PRIu64 ": %s, detail %" PRIu64 "\n", count + 1, text, answer.detail);
            exit(1);
        }
        count++;
    }
    return count;
}

/* Decodes each message of a day file into its fields, and decodes the same messages as rows, three at a time: first all types, then only
   new orders. */
static void decode_all(buffer day, uint64_t count) {
    const uint8_t types[] = "AF";
    uint64_t orders = 0, number = 0;
    itchsnap_row rows[3];
    itchsnap_decoded done = {0, 0, 0, 0, ITCHSNAP_NO_ROOM};
    size_t at = 0, passed = 0;
    payload message;
    while (next_payload(day, &at, &message)) {
        itchsnap_message fields;
        must(itchsnap_decode(message.bytes, message.len, &fields).code == ITCHSNAP_OK, "the fields of a message");
        must(fields.message_type == message.bytes[0], "the type of a message");
        number++;
        if (fields.message_type != 'A' && fields.message_type != 'F') {
            continue;
        }
        if (orders % 3 == 0) {
            must(done.code == ITCHSNAP_NO_ROOM, "rows that are not the last");
            passed += done.len;
            done = itchsnap_decode_blocks(day.bytes + passed, day.len - passed, done.count, types, 2, no_locates, 0, rows, 3);
        }
        const itchsnap_row *row = &rows[orders++ % 3];
        must(row->number == number && row->timestamp == fields.timestamp, "the number and the timestamp of a row");
        must(passed + row->offset + message.len == at, "the place of a row");
        must(memcmp(row->payload, message.bytes, message.len) == 0, "the payload of a row");
    }
    must(done.code == ITCHSNAP_OK || orders == 0, "the last row");
    done = itchsnap_decode_blocks(day.bytes, day.len, 0, types, 0, no_locates, 0, rows, 0);
    must(done.code == ITCHSNAP_OK && done.count == count && done.rows == 0, "the number of messages");
}

/* Returns the snapshot of a handle's market: asks for the length first, and then for the bytes. */
static buffer snapshot_of(itchsnap_handle *handle, uint64_t next) {
    uint8_t none;
    itchsnap_written written = itchsnap_snapshot(handle, next, &none, 0);
    must(written.code == ITCHSNAP_NO_ROOM, "the length of the snapshot");
    buffer made = buffer_of(written.len);
    written = itchsnap_snapshot(handle, next, made.bytes, made.len);
    must(written.code == ITCHSNAP_OK && written.len == made.len, "the snapshot");
    return made;
}

static bool same(buffer one, buffer other) {
    return one.len == other.len && memcmp(one.bytes, other.bytes, one.len) == 0;
}

/* Prints the price levels and the best order of each side of a locate. */
static void print_book(itchsnap_handle *market, uint16_t locate) {
    for (int side = 0; side < 2; side++) {
        bool buy = side == 0;
        itchsnap_price price = itchsnap_next_price(market, locate, buy, false, 0);
        while (price.code == ITCHSNAP_OK) {
            itchsnap_level_total total = itchsnap_level(market, locate, buy, price.price);
            printf("%u %c %" PRIu32 ".%04" PRIu32 " %" PRIu64 " %" PRIu64 "\n", (unsigned)locate, buy ? 'B' : 'S', price.price / 10000,
                   price.price % 10000, total.shares_low, total.orders);
            price = itchsnap_next_price(market, locate, buy, true, price.price);
        }
        itchsnap_order best = itchsnap_best(market, locate, buy);
        if (best.code == ITCHSNAP_OK) {
            itchsnap_order again = itchsnap_order_by(market, best.reference);
            must(again.code == ITCHSNAP_OK && again.price == best.price && again.shares == best.shares, "the order with a reference");
            printf("%u %c best %" PRIu64 "\n", (unsigned)locate, buy ? 'B' : 'S', best.reference);
        }
    }
}

/* Checks that the lists of a locate's levels and orders equal the results of single look-ups. */
static void list(itchsnap_handle *market, uint16_t locate) {
    itchsnap_order none;
    size_t count = itchsnap_orders(market, locate, &none, 0).len, at = 0;
    itchsnap_order *orders = malloc((count + 1) * sizeof *orders);
    must(orders != NULL, "out of memory");
    must(itchsnap_orders(market, locate, orders, count).code == ITCHSNAP_OK, "the orders of a locate");
    for (int side = 0; side < 2; side++) {
        bool buy = side == 0;
        itchsnap_price_level no_level;
        size_t levels = itchsnap_levels(market, locate, buy, &no_level, 0).len;
        itchsnap_price_level *listed = malloc((levels + 1) * sizeof *listed);
        must(listed != NULL, "out of memory");
        must(itchsnap_levels(market, locate, buy, listed, levels).code == ITCHSNAP_OK, "the levels of a side");
        must(at == count || levels == 0 || orders[at].reference == itchsnap_best(market, locate, buy).reference, "the best order");
        itchsnap_price price = itchsnap_next_price(market, locate, buy, false, 0);
        for (size_t k = 0; k < levels; k++) {
            itchsnap_level_total total = itchsnap_level(market, locate, buy, listed[k].price);
            must(price.price == listed[k].price && total.orders == listed[k].orders && total.shares_low == listed[k].shares_low, "a level");
            for (uint64_t left = total.orders; left > 0; left--, at++) {
                must(orders[at].price == price.price && orders[at].buy == buy && orders[at].locate == locate, "an order of a level");
            }
            price = itchsnap_next_price(market, locate, buy, true, price.price);
        }
        must(price.code == ITCHSNAP_ABSENT, "the last level");
        free(listed);
    }
    must(at == count, "the last order");
    free(orders);
}

/* Checks that applying all blocks of a day file at once, in two pieces, gives the same market, whose directory has these locates. */
static void apply_blocks(buffer day, uint64_t count, buffer snapshot) {
    itchsnap_handle market = ITCHSNAP_NONE;
    must(itchsnap_market_new(&market).code == ITCHSNAP_OK, "a new market");
    size_t half = day.len / 2;
    itchsnap_applied first = itchsnap_market_apply_blocks(&market, day.bytes, half);
    must(first.code == ITCHSNAP_OK || first.code == ITCHSNAP_TRUNCATED, "the first blocks");
    size_t taken = half - (size_t)first.detail;
    itchsnap_applied rest = itchsnap_market_apply_blocks(&market, day.bytes + taken, day.len - taken);
    must(rest.code == ITCHSNAP_OK && first.count + rest.count == count, "the other blocks");
    buffer again = snapshot_of(&market, count + 1);
    must(same(again, snapshot), "the snapshot after the blocks");
    free(again.bytes);
    uint16_t none;
    size_t len = itchsnap_locates(&market, &none, 0).len;
    uint16_t *locates = malloc((len + 1) * sizeof *locates);
    must(locates != NULL, "out of memory");
    must(itchsnap_locates(&market, locates, len).code == ITCHSNAP_OK, "the locates");
    for (size_t k = 0; k < len; k++) {
        must(itchsnap_stock(&market, locates[k]).code == ITCHSNAP_OK, "the stock of a locate");
        list(&market, locates[k]);
    }
    free(locates);
    itchsnap_free(&market);
}

/* Passes the entire file at once: the count and the snapshot are the same, and it compares equal to itself. Before a given time, the
   snapshot is that of the part that ends there. */
static void whole_file(buffer day, uint64_t count, buffer snapshot) {
    itchsnap_outcome checked = itchsnap_check(day.bytes, day.len);
    must(checked.code == ITCHSNAP_OK && checked.count == count, "check");
    buffer whole = buffer_of(snapshot.len);
    itchsnap_outcome snapped = itchsnap_snap(day.bytes, day.len, ITCHSNAP_ALL, ITCHSNAP_ALL, whole.bytes, whole.len);
    must(snapped.code == ITCHSNAP_OK && snapped.count == count && snapped.len == snapshot.len, "snap");
    must(same(whole, snapshot), "the snapshot of the whole file");
    must(itchsnap_snap(day.bytes, day.len, count + 1, ITCHSNAP_ALL, whole.bytes, whole.len).code == ITCHSNAP_SHORT, "snap of too many");
    itchsnap_comparison compared = itchsnap_compare(day.bytes, day.len, day.bytes, day.len);
    must(compared.code == ITCHSNAP_OK && compared.place == 0, "compare");
    must(itchsnap_first_at(day.bytes, day.len, ITCHSNAP_ALL).code == ITCHSNAP_ABSENT, "a time that no message has");
    itchsnap_count noon = itchsnap_first_at(day.bytes, day.len, NOON);
    size_t before = noon.code == ITCHSNAP_OK ? (size_t)noon.count : day.len;
    snapped = itchsnap_snap(day.bytes, day.len, ITCHSNAP_ALL, NOON, whole.bytes, whole.len);
    must(snapped.count == itchsnap_check(day.bytes, before).count, "the messages before noon");
    free(whole.bytes);
}

/* Checks that parts by locates, of a market and of a file, are the same bytes. */
static void parts(itchsnap_handle *market, buffer day, uint64_t next, size_t most) {
    uint16_t locates[] = {1, 7};
    buffer one = buffer_of(most);
    buffer other = buffer_of(most);
    itchsnap_written written = itchsnap_snapshot_only(market, next, locates, 2, one.bytes, one.len);
    itchsnap_outcome snapped = itchsnap_snap_only(day.bytes, day.len, ITCHSNAP_ALL, ITCHSNAP_ALL, locates, 2, other.bytes, other.len);
    must(written.code == ITCHSNAP_OK && snapped.code == ITCHSNAP_OK && written.len == snapped.len, "a snapshot of some locates");
    must(memcmp(one.bytes, other.bytes, written.len) == 0, "the bytes of a snapshot of some locates");
    free(one.bytes);
    free(other.bytes);
}

/* Checks that loading a snapshot and writing it again gives the same bytes. */
static void load(buffer snapshot, uint64_t next) {
    itchsnap_handle market = ITCHSNAP_NONE;
    itchsnap_loaded loaded = itchsnap_market_load(&market, snapshot.bytes, snapshot.len);
    must(loaded.code == ITCHSNAP_OK && loaded.next == next, "load");
    buffer again = snapshot_of(&market, next);
    must(same(again, snapshot), "the snapshot of a snapshot");
    free(again.bytes);
    itchsnap_free(&market);
}

/* Checks that a joiner that receives the feed from its last message to its first, and then the snapshot of an empty market, ends in the
 * same market. */
static void join(buffer day, uint64_t count, buffer snapshot) {
    itchsnap_handle empty = ITCHSNAP_NONE;
    itchsnap_handle joiner = ITCHSNAP_NONE;
    must(itchsnap_market_new(&empty).code == ITCHSNAP_OK, "a new market");
    must(itchsnap_joiner_new(&joiner, (size_t)count).code == ITCHSNAP_OK, "a new joiner");
    must(itchsnap_joiner_next(&joiner).code == ITCHSNAP_NOT_JOINED, "a joiner that has not joined");
    payload *feed = malloc((size_t)(count > 0 ? count : 1) * sizeof *feed);
    must(feed != NULL, "out of memory");
    size_t place = 0;
    for (uint64_t k = 0; k < count; k++) {
        must(next_payload(day, &place, &feed[k]), "the message of a number");
    }
    for (uint64_t number = count; number > 0; number--) {
        payload last = feed[number - 1];
        must(itchsnap_joiner_live(&joiner, number, last.bytes, last.len).code == ITCHSNAP_KEPT, "a message that waits");
    }
    free(feed);
    must(itchsnap_joiner_waiting(&joiner).count == count, "the messages that wait");
    buffer start = snapshot_of(&empty, 1);
    size_t at = 0;
    payload message;
    must(next_payload(start, &at, &message), "the End of Snapshot");
    itchsnap_joined joined = itchsnap_joiner_snapshot(&joiner, message.bytes, message.len);
    must(joined.code == ITCHSNAP_JOINED && joined.number == count + 1, "joined");
    must(itchsnap_joiner_resume(&joiner).number == count + 1, "resume");
    must(itchsnap_joiner_restart(&joiner).code == ITCHSNAP_OK, "restart");
    buffer again = snapshot_of(&joiner, count + 1);
    must(same(again, snapshot), "the snapshot of a joiner");
    free(start.bytes);
    free(again.bytes);
    itchsnap_free(&joiner);
    itchsnap_free(&empty);
}

/* Checks that a joiner for some locates that receives the snapshot of an empty market, and then the feed in order, ends in the part of the
   market at them. */
static void join_some(itchsnap_handle *market, buffer day, uint64_t count, size_t most) {
    uint16_t locates[] = {1, 7};
    const uint8_t end[] = "G                   1";
    itchsnap_handle joiner = ITCHSNAP_NONE;
    must(itchsnap_joiner_new_only(&joiner, 0, locates, 2).code == ITCHSNAP_OK, "a new joiner for some locates");
    must(itchsnap_joiner_snapshot(&joiner, end, sizeof end - 1).code == ITCHSNAP_JOINED, "joined for some locates");
    size_t place = 0;
    for (uint64_t number = 1; number <= count; number++) {
        payload message;
        must(next_payload(day, &place, &message), "the next message");
        must(itchsnap_joiner_live(&joiner, number, message.bytes, message.len).code == ITCHSNAP_APPLIED, "a message that is next");
    }
    buffer cut = buffer_of(most);
    itchsnap_written written = itchsnap_snapshot_only(market, count + 1, locates, 2, cut.bytes, cut.len);
    buffer joined = snapshot_of(&joiner, count + 1);
    must(written.code == ITCHSNAP_OK && written.len == joined.len, "the snapshot of a joiner for some locates");
    must(memcmp(cut.bytes, joined.bytes, joined.len) == 0, "the bytes of a joiner's snapshot for some locates");
    free(cut.bytes);
    free(joined.bytes);
    itchsnap_free(&joiner);
}

/* Feeds a client and a server each other's packets, without a socket. */
static void talk(buffer day) {
    itchsnap_login login;
    memcpy(&login, "desk  secret              ", sizeof login);
    itchsnap_handle client = ITCHSNAP_NONE;
    itchsnap_handle server = ITCHSNAP_NONE;
    must(itchsnap_client_new(&client, &login, 1, 0).code == ITCHSNAP_OK, "a new client");
    must(itchsnap_server_new(&server, &login, 1, 0).code == ITCHSNAP_OK, "a new server");
    itchsnap_login_packet request = itchsnap_client_login(&client);
    itchsnap_act act = itchsnap_server_packet(&server, request.bytes, sizeof request.bytes, 10);
    must(request.code == ITCHSNAP_OK && act.code == ITCHSNAP_ACCEPTED && act.number == 1, "a login");
    itchsnap_acceptance_packet accepted = itchsnap_server_accepted(&server, act.number);
    must(itchsnap_session_sent(&server, 10).code == ITCHSNAP_OK, "sent");
    act = itchsnap_client_packet(&client, accepted.bytes, sizeof accepted.bytes, 20);
    must(act.code == ITCHSNAP_ACCEPTED && act.number == 1, "an acceptance");
    size_t at = 0;
    payload message;
    must(next_payload(day, &at, &message), "a message to send");
    buffer data = buffer_of(1 + message.len);
    data.bytes[0] = 'S';
    memcpy(data.bytes + 1, message.bytes, message.len);
    act = itchsnap_client_packet(&client, data.bytes, data.len, 30);
    must(act.code == ITCHSNAP_DATA && act.number == 1, "a message");
    must(itchsnap_session_tick(&server, 500).code == ITCHSNAP_OK, "nothing is due");
    must(itchsnap_session_tick(&server, 2000).code == ITCHSNAP_HEARTBEAT, "a heartbeat");
    must(itchsnap_session_tick(&client, 20000).code == ITCHSNAP_LOST, "a lost server");
    must(itchsnap_client_packet(&client, data.bytes, data.len, 20000).code == ITCHSNAP_CLOSED, "a closed session");
    free(data.bytes);
    itchsnap_free(&client);
    itchsnap_free(&server);
}

/* Checks that calls in the wrong order, and on the wrong handles, are refused. */
static void misuse(void) {
    itchsnap_handle handle = ITCHSNAP_NONE;
    uint8_t byte = 'S';
    itchsnap_free(&handle);
    must(itchsnap_market_apply(&handle, &byte, 1).code == ITCHSNAP_WRONG_HANDLE, "an empty handle");
    must(itchsnap_market_new(&handle).code == ITCHSNAP_OK, "a new market");
    must(itchsnap_market_new(&handle).code == ITCHSNAP_IN_USE, "a market in place of another");
    must(itchsnap_joiner_live(&handle, 1, &byte, 1).code == ITCHSNAP_WRONG_HANDLE, "a market as a joiner");
    must(itchsnap_session_tick(&handle, 0).code == ITCHSNAP_WRONG_HANDLE, "a market as a session");
    itchsnap_free(&handle);
    itchsnap_free(&handle);
    must(itchsnap_order_count(&handle).code == ITCHSNAP_WRONG_HANDLE, "a freed handle");
}

int main(int argc, char **argv) {
    must(argc == 3, "usage: demo DAY SNAPSHOT");
    must(itchsnap_version() == ITCHSNAP_VERSION, "another version of the library");
    buffer day = read_file(argv[1]);
    itchsnap_handle market = ITCHSNAP_NONE;
    must(itchsnap_market_new(&market).code == ITCHSNAP_OK, "a new market");
    uint64_t count = apply_all(&market, day);
    printf("%" PRIu64 " messages, %" PRIu64 " orders\n", count, itchsnap_order_count(&market).count);
    for (uint16_t locate = 0; locate < 100; locate++) {
        print_book(&market, locate);
    }
    decode_all(day, count);
    buffer snapshot = snapshot_of(&market, count + 1);
    apply_blocks(day, count, snapshot);
    whole_file(day, count, snapshot);
    parts(&market, day, count + 1, snapshot.len);
    load(snapshot, count + 1);
    join(day, count, snapshot);
    join_some(&market, day, count, snapshot.len);
    talk(day);
    misuse();
    write_file(argv[2], snapshot);
    itchsnap_free(&market);
    free(snapshot.bytes);
    free(day.bytes);
    return 0;
}
