/* memory.c: the library's calls with each memory request refused in turn, and with none refused.
 *
 *   memory DAY    ends with status 1 at the first call that behaves wrongly
 *
 * It is linked so that the library's calls of malloc, realloc and free are redirected to this file (--wrap). Each scene is played with
 * its first request refused, then with its second, and so on until no request is refused. A call must return out of memory only
 * if a request in it was refused, and otherwise the right result; it must succeed when repeated. After each scene all memory must have been freed. */
#include "itchsnap.h"

#include <inttypes.h>
#include <stdio.h>
#include <stdlib.h>
#include <string.h>

void *__real_malloc(size_t size);
void *__real_realloc(void *block, size_t size);
void __real_free(void *block);

/* The number of requests in a scene so far, the one to refuse (0 for none), and whether it was refused since the last call. */
static uint64_t requests, refused_request;
static bool refused;

/* The number of blocks that the library holds. */
static uint64_t blocks;

static bool refuses(void) {
    requests++;
    refused = refused || requests == refused_request;
    return requests == refused_request;
}

void *__wrap_malloc(size_t size) {
    void *block = refuses() ? NULL : __real_malloc(size);
    blocks += block != NULL;
    return block;
}

void *__wrap_realloc(void *block, size_t size) {
    void *moved = refuses() ? NULL : __real_realloc(block, size);
    blocks += block == NULL && moved != NULL;
    return moved;
}

void __wrap_free(void *block) {
    blocks -= block != NULL;
    __real_free(block);
}

/* Ends the program if a condition does not hold. */
static void must(bool holds, const char *what) {
    if (!holds) {
        fprintf(stderr, "memory: %s, where request %" PRIu64 " of %" PRIu64 " is refused\n", what, refused_request, requests);
        exit(1);
    }
}

/* Whether a call has this code. Otherwise it must have been refused memory, and return that. (A sorted market does without its hints.) */
static bool granted(uint32_t code, uint32_t wanted, const char *what) {
    bool was_refused = refused;
    refused = false;
    must(code == wanted || (was_refused && code == ITCHSNAP_OUT_OF_MEMORY), what);
    return code == wanted;
}

typedef struct {
    uint8_t *bytes;
    size_t len;
} buffer;

static void *own(size_t size) {
    void *block = __real_malloc(size > 0 ? size : 1);
    must(block != NULL, "out of memory");
    return block;
}

/* Memory for a snapshot. */
static buffer unwritten(size_t len) {
    buffer made = {own(len), len};
    memset(made.bytes, 0xa5, len);
    return made;
}

static bool is_unwritten(buffer out) {
    size_t at = 0;
    while (at < out.len && out.bytes[at] == 0xa5) {
        at++;
    }
    return at == out.len;
}

static bool same(buffer one, buffer other) {
    return one.len == other.len && memcmp(one.bytes, other.bytes, one.len) == 0;
}

static buffer read_file(const char *path) {
    FILE *file = fopen(path, "rb");
    must(file != NULL && fseek(file, 0, SEEK_END) == 0, "cannot read the file");
    buffer day = unwritten((size_t)ftell(file));
    rewind(file);
    must(fread(day.bytes, 1, day.len, file) == day.len, "cannot read the file");
    fclose(file);
    return day;
}

/* The locates to keep. */
typedef struct {
    const uint16_t *locates;
    size_t count;
    bool all;
} list;

static bool is_wanted(list wanted, uint16_t locate) {
    for (size_t k = 0; k < wanted.count; k++) {
        if (wanted.locates[k] == locate) {
            return true;
        }
    }
    return wanted.all;
}

/* A file of blocks. Its first k messages end at ends[k], and a call on them makes needs[k] requests. */
typedef struct {
    buffer file;
    uint64_t count;
    size_t *ends;
    uint64_t *needs;
} messages;

static size_t block_len(buffer file, size_t at) {
    return 2 + ((size_t)file.bytes[at] << 8 | file.bytes[at + 1]);
}

static messages messages_of(buffer file) {
    messages found = {file, 0, own((file.len + 1) * sizeof(size_t)), own((file.len + 1) * sizeof(uint64_t))};
    found.ends[0] = 0;
    for (size_t at = 0; at < file.len; at = found.ends[found.count]) {
        found.count++;
        found.ends[found.count] = at + block_len(file, at);
    }
    return found;
}

static buffer payload(const messages *of, uint64_t number) {
    size_t at = of->ends[number - 1] + 2;
    return (buffer){of->file.bytes + at, of->ends[number] - at};
}

static void forget(messages of) {
    __real_free(of.file.bytes);
    __real_free(of.ends);
    __real_free(of.needs);
}

/* Returns how many messages were accepted when a call on all of them was refused this request. */
static uint64_t taken_before(const messages *of, uint64_t request) {
    uint64_t taken = 0;
    while (taken < of->count && of->needs[taken + 1] < request) {
        taken++;
    }
    return taken;
}

/* A day file, the snapshot of no messages, and the snapshot of all. */
typedef struct {
    messages feed;
    buffer start;
    messages end;
} day;

/* Returns the snapshot after a number of messages, with no request refused. */
static buffer snapshot_after(buffer file, uint64_t after) {
    uint8_t none;
    buffer made = unwritten(itchsnap_snap(file.bytes, file.len, after, ITCHSNAP_ALL, &none, 0).len);
    must(itchsnap_snap(file.bytes, file.len, after, ITCHSNAP_ALL, made.bytes, made.len).code == ITCHSNAP_OK, "a snapshot");
    return made;
}

static day day_of(buffer file) {
    day read = {messages_of(file), snapshot_after(file, 0), messages_of(snapshot_after(file, ITCHSNAP_ALL))};
    for (uint64_t k = 0; k <= read.feed.count; k++) {
        requests = 0;
        must(itchsnap_check(file.bytes, read.feed.ends[k]).code == ITCHSNAP_OK, "a day file");
        read.feed.needs[k] = requests;
    }
    for (uint64_t k = 0; k <= read.end.count; k++) {
        itchsnap_handle market = ITCHSNAP_NONE;
        requests = 0;
        uint32_t code = itchsnap_market_load(&market, read.end.file.bytes, read.end.ends[k]).code;
        must(code == (k < read.end.count ? ITCHSNAP_NO_END : ITCHSNAP_OK), "a snapshot file");
        read.end.needs[k] = requests;
        itchsnap_free(&market);
    }
    return read;
}

/* Returns the messages of a snapshot that remain if these locates are kept: those of type S and G, and those at these locates. */
static buffer cut(const messages *whole, list wanted) {
    buffer kept = {own(whole->file.len), 0};
    for (uint64_t number = 1; number <= whole->count; number++) {
        buffer message = payload(whole, number);
        uint16_t locate = (uint16_t)(message.bytes[1] << 8 | message.bytes[2]);
        if (message.bytes[0] == 'S' || message.bytes[0] == 'G' || is_wanted(wanted, locate)) {
            memcpy(kept.bytes + kept.len, message.bytes - 2, message.len + 2);
            kept.len += message.len + 2;
        }
    }
    return kept;
}

static itchsnap_written put(itchsnap_handle *handle, uint64_t next, list wanted, buffer out) {
    return wanted.all ? itchsnap_snapshot(handle, next, out.bytes, out.len)
                      : itchsnap_snapshot_only(handle, next, wanted.locates, wanted.count, out.bytes, out.len);
}

/* Returns the snapshot of a handle's market, reduced to these locates if there are any. */
static void see_snapshot(itchsnap_handle *handle, const day *of, list wanted) {
    buffer kept = cut(&of->end, wanted);
    buffer out = unwritten(kept.len);
    uint64_t next = of->feed.count + 1;
    while (!granted(put(handle, next, wanted, (buffer){out.bytes, 0}).code, ITCHSNAP_NO_ROOM, "the length of a snapshot")) {
    }
    while (!granted(put(handle, next, wanted, out).code, ITCHSNAP_OK, "a snapshot of a market")) {
        must(is_unwritten(out), "a snapshot that was refused");
    }
    must(same(out, kept), "the bytes of a snapshot of a market");
    __real_free(kept.bytes);
    __real_free(out.bytes);
}

static void look_at_prices(itchsnap_handle *handle) {
    for (uint16_t locate = 0; locate < 10; locate++) {
        itchsnap_price best = itchsnap_next_price(handle, locate, true, false, 0);
        itchsnap_order first = itchsnap_best(handle, locate, true);
        must(best.code == first.code && best.price == first.price, "the best price");
        must(itchsnap_level(handle, locate, true, best.price).code == ITCHSNAP_OK, "a level");
        must(itchsnap_order_by(handle, first.reference).code == first.code, "an order");
    }
}

/* The first look-up after many messages may request memory for hints, but must succeed without it. The next ones must not request any. */
static void look_up(itchsnap_handle *handle) {
    look_at_prices(handle);
    refused = false;
    uint64_t before = requests;
    look_at_prices(handle);
    must(itchsnap_order_count(handle).code == ITCHSNAP_OK && requests == before, "a look-up that asks for memory");
}

static void play_market(const day *of, list wanted) {
    itchsnap_handle market = ITCHSNAP_NONE;
    while (!granted(itchsnap_market_new(&market).code, ITCHSNAP_OK, "a new market")) {
    }
    for (uint64_t number = 1; number <= of->feed.count; number++) {
        buffer message = payload(&of->feed, number);
        while (!granted(itchsnap_market_apply(&market, message.bytes, message.len).code, ITCHSNAP_OK, "a message")) {
        }
    }
    look_up(&market);
    see_snapshot(&market, of, wanted);
    itchsnap_free(&market);
}

/* Applies messages and looks at prices in turn. Such a look-up may request memory for an index, but must succeed without it. */
static void play_turns(const day *of, list wanted) {
    itchsnap_handle market = ITCHSNAP_NONE;
    while (!granted(itchsnap_market_new(&market).code, ITCHSNAP_OK, "a new market")) {
    }
    for (uint64_t number = 1; number <= of->feed.count; number++) {
        buffer message = payload(&of->feed, number);
        while (!granted(itchsnap_market_apply(&market, message.bytes, message.len).code, ITCHSNAP_OK, "a message between look-ups")) {
        }
        look_at_prices(&market);
        refused = false;
    }
    see_snapshot(&market, of, wanted);
    itchsnap_free(&market);
}

/* Like `granted`, for a call that frees memory if it can: it must succeed even if that is refused. */
static bool granted_or_kept(uint32_t code, const char *what) {
    bool was_refused = refused;
    refused = false;
    must(code == ITCHSNAP_OK || (was_refused && code == ITCHSNAP_OUT_OF_MEMORY), what);
    return code == ITCHSNAP_OK;
}

/* The lists of a market. */
static void list_all(itchsnap_handle *market, const day *of) {
    uint16_t *locates = own((of->feed.count + 1) * sizeof *locates);
    itchsnap_order *orders = own((of->feed.count + 1) * sizeof *orders);
    itchsnap_price_level *levels = own((of->feed.count + 1) * sizeof *levels);
    size_t room = (size_t)of->feed.count + 1;
    itchsnap_written listed;
    do {
        listed = itchsnap_locates(market, locates, room);
    } while (!granted_or_kept(listed.code, "the locates"));
    uint64_t live = itchsnap_order_count(market).count;
    for (size_t k = 0; k < listed.len; k++) {
        itchsnap_written written, level;
        do {
            written = itchsnap_orders(market, locates[k], orders, room);
        } while (!granted(written.code, ITCHSNAP_OK, "the orders of a locate"));
        do {
            level = itchsnap_levels(market, locates[k], true, levels, room);
        } while (!granted(level.code, ITCHSNAP_OK, "the levels of a side"));
        must(level.len == 0 || levels[0].price == orders[0].price, "the best bid");
        live -= written.len;
    }
    must(live == 0, "the orders of all locates");
    __real_free(locates);
    __real_free(orders);
    __real_free(levels);
}

/* Applies all blocks at once. If memory is refused, the next call continues after the messages that were applied. */
static void play_blocks(const day *of, list wanted) {
    itchsnap_handle market = ITCHSNAP_NONE;
    while (!granted(itchsnap_market_new(&market).code, ITCHSNAP_OK, "a new market")) {
    }
    uint64_t taken = 0;
    itchsnap_applied applied;
    do {
        size_t at = of->feed.ends[taken];
        applied = itchsnap_market_apply_blocks(&market, of->feed.file.bytes + at, of->feed.file.len - at);
        taken += applied.count;
    } while (!granted(applied.code, ITCHSNAP_OK, "blocks"));
    must(taken == of->feed.count, "the count of blocks");
    list_all(&market, of);
    see_snapshot(&market, of, wanted);
    itchsnap_free(&market);
}

/* Loads a snapshot file. If memory is refused, the place is that of the message for which it was. */
static void play_load(const day *of, list wanted) {
    const messages *whole = &of->end;
    itchsnap_handle market = ITCHSNAP_NONE;
    uint64_t before = requests;
    itchsnap_loaded loaded = itchsnap_market_load(&market, whole->file.bytes, whole->file.len);
    if (!granted(loaded.code, ITCHSNAP_OK, "a snapshot file")) {
        uint64_t request = refused_request - before;
        bool at_message = request > whole->needs[0] && request < whole->needs[whole->count];
        must(loaded.place == (at_message ? taken_before(whole, request) + 1 : 0), "the place in a snapshot file");
        loaded = itchsnap_market_load(&market, whole->file.bytes, whole->file.len);
    }
    must(loaded.code == ITCHSNAP_OK && loaded.next == of->feed.count + 1, "a snapshot file");
    see_snapshot(&market, of, wanted);
    itchsnap_free(&market);
}

static itchsnap_outcome snap(buffer file, list wanted, buffer out) {
    return wanted.all ? itchsnap_snap(file.bytes, file.len, ITCHSNAP_ALL, ITCHSNAP_ALL, out.bytes, out.len)
                      : itchsnap_snap_only(file.bytes, file.len, ITCHSNAP_ALL, ITCHSNAP_ALL, wanted.locates, wanted.count, out.bytes, out.len);
}

/* Checks a day file, and writes its snapshot. If memory is refused, the count is that of the accepted messages. */
static void play_file(const day *of, list wanted) {
    buffer file = of->feed.file;
    uint64_t before = requests;
    itchsnap_outcome outcome = itchsnap_check(file.bytes, file.len);
    bool is_whole = granted(outcome.code, ITCHSNAP_OK, "check");
    must(outcome.count == (is_whole ? of->feed.count : taken_before(&of->feed, refused_request - before)), "the count of check");
    buffer kept = cut(&of->end, wanted);
    buffer out = unwritten(kept.len);
    before = requests;
    outcome = snap(file, wanted, out);
    is_whole = granted(outcome.code, ITCHSNAP_OK, "snap");
    must(outcome.count == (is_whole ? of->feed.count : taken_before(&of->feed, refused_request - before)), "the count of snap");
    must(is_whole ? same(out, kept) : is_unwritten(out), "the bytes of snap");
    __real_free(kept.bytes);
    __real_free(out.bytes);
}

/* Finds the beginning of a time that no message has. */
static void play_time(const day *of, list wanted) {
    itchsnap_count found = itchsnap_first_at(of->feed.file.bytes, of->feed.file.len, ITCHSNAP_ALL);
    (void)granted(found.code, ITCHSNAP_ABSENT, "a time");
    (void)wanted;
}

/* Decodes the messages at the locates to keep. If memory for these is refused, no message is consumed. */
static void play_rows(const day *of, list wanted) {
    itchsnap_row row;
    buffer file = of->feed.file;
    const uint8_t type = 'S';
    itchsnap_decoded done = itchsnap_decode_blocks(file.bytes, file.len, 5, &type, 0, wanted.locates, wanted.count, &row, 1);
    bool is_whole = granted(done.code, ITCHSNAP_OK, "rows");
    must(done.count == 5 + (is_whole ? of->feed.count : 0) && done.len == (is_whole ? file.len : 0) && done.rows == 0, "the count of rows");
}

/* Compares two day files. If memory is refused, the answer names the file for which it was. The sorted market of the first file may have requested
 * memory for its hints before the second one is read. */
static void play_compare(const day *of, list wanted) {
    buffer file = of->feed.file;
    uint64_t before = requests, whole = of->feed.needs[of->feed.count];
    itchsnap_comparison compared = itchsnap_compare(file.bytes, file.len, file.bytes, file.len);
    if (granted(compared.code, ITCHSNAP_OK, "compare")) {
        must(compared.place == 0, "the same market");
    } else {
        uint64_t request = refused_request - before;
        bool is_first = request <= whole;
        must(compared.file == (is_first ? 1 : 2), "the file that is refused");
        uint64_t own_request = is_first ? request : request - whole;
        must(compared.count == taken_before(&of->feed, own_request)
                 || (!is_first && compared.count == taken_before(&of->feed, own_request - 1)), "the count of compare");
    }
    (void)wanted;
}

/* A joiner takes a message of the snapshot, if the number is 0, or of the feed, and then applies the waiting messages. */
static void take(itchsnap_handle *joiner, uint64_t number, buffer message, uint32_t wanted) {
    for (;;) {
        itchsnap_joined answer = number == 0 ? itchsnap_joiner_snapshot(joiner, message.bytes, message.len)
                                             : itchsnap_joiner_live(joiner, number, message.bytes, message.len);
        if (refused && answer.code == ITCHSNAP_TAKEN_NO_MEMORY) {
            refused = false;
            must(itchsnap_joiner_resume(joiner).code == ITCHSNAP_APPLIED, "what waits");
            return;
        }
        if (granted(answer.code, wanted, "a message for a joiner")) {
            return;
        }
    }
}

static itchsnap_answer new_joiner(itchsnap_handle *handle, const day *of, list wanted) {
    size_t cap = (size_t)of->feed.count;
    return wanted.all ? itchsnap_joiner_new(handle, cap) : itchsnap_joiner_new_only(handle, cap, wanted.locates, wanted.count);
}

/* A joiner for some locates takes the feed from its last message to its first, the snapshot of no messages, and the feed again. */
static void play_joiner(const day *of, list wanted) {
    itchsnap_handle joiner = ITCHSNAP_NONE;
    while (!granted(new_joiner(&joiner, of, wanted).code, ITCHSNAP_OK, "a new joiner")) {
    }
    uint64_t before = requests;
    must(new_joiner(&joiner, of, wanted).code == ITCHSNAP_IN_USE && requests == before, "a joiner in place of another");
    for (uint64_t number = of->feed.count; number > 1; number--) {
        take(&joiner, number, payload(&of->feed, number), ITCHSNAP_KEPT);
    }
    must(itchsnap_joiner_waiting(&joiner).count == of->feed.count - 1, "the messages that wait");
    take(&joiner, 0, (buffer){of->start.bytes + 2, of->start.len - 2}, ITCHSNAP_JOINED);
    take(&joiner, 1, payload(&of->feed, 1), ITCHSNAP_APPLIED);
    must(itchsnap_joiner_next(&joiner).count == of->feed.count + 1, "the next message");
    take(&joiner, 1, payload(&of->feed, 1), ITCHSNAP_OLD);
    see_snapshot(&joiner, of, wanted);
    itchsnap_free(&joiner);
}

static void play_sessions(const day *of, list wanted) {
    itchsnap_login login;
    memcpy(&login, "desk  secret              ", sizeof login);
    itchsnap_handle client = ITCHSNAP_NONE;
    itchsnap_handle server = ITCHSNAP_NONE;
    while (!granted(itchsnap_client_new(&client, &login, 1, 0).code, ITCHSNAP_OK, "a new client")) {
    }
    while (!granted(itchsnap_server_new(&server, &login, of->feed.count, 0).code, ITCHSNAP_OK, "a new server")) {
    }
    itchsnap_login_packet request = itchsnap_client_login(&client);
    itchsnap_act act = itchsnap_server_packet(&server, request.bytes, sizeof request.bytes, 10);
    must(act.code == ITCHSNAP_ACCEPTED && !refused, "a login");
    itchsnap_free(&client);
    itchsnap_free(&server);
    (void)wanted;
}

/* Plays a scene with each of its requests refused in turn, and then with none refused. */
static void play(void (*scene)(const day *, list), const day *of, list wanted) {
    refused_request = 0;
    do {
        refused_request++;
        requests = 0;
        scene(of, wanted);
        must(!refused, "a refusal that no call says");
        must(blocks == 0, "memory that is not given back");
    } while (refused_request <= requests);
    refused_request = 0;
}

int main(int argc, char **argv) {
    must(argc == 2, "usage: memory DAY");
    day of = day_of(read_file(argv[1]));
    static const uint16_t locates[] = {1, 7};
    list all = {locates, 0, true}, some = {locates, 2, false}, none = {locates, 0, false};
    list lists[] = {all, some, none};
    for (size_t k = 0; k < 3; k++) {
        play(play_market, &of, lists[k]);
        play(play_turns, &of, lists[k]);
        play(play_blocks, &of, lists[k]);
        play(play_load, &of, lists[k]);
        play(play_file, &of, lists[k]);
        play(play_rows, &of, lists[k]);
        play(play_joiner, &of, lists[k]);
    }
    play(play_time, &of, all);
    play(play_compare, &of, all);
    play(play_sessions, &of, all);
    forget(of.feed);
    __real_free(of.start.bytes);
    forget(of.end);
    return 0;
}
