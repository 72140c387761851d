/* itchsnap.h: market snapshots for Nasdaq TotalView-ITCH 5.0, for C99 and C++.
 *
 * Link libitchsnap.a, or libitchsnap.so; README.md next to this file lists the commands. Every function here is proved to return what
 * its comment says, for every input that keeps the promises below. docs/FORMATS.md specifies messages and snapshots byte by byte.
 *
 * The caller promises the following, which is not checked:
 *
 * - The declarations in use are these.
 * - A pointer with a length is readable, or without const writable, for that many elements. It is not null, even for length 0.
 * - Memory that is passed without const does not overlap with another argument of the same call.
 * - A bool is 0 or 1.
 * - A handle is initialised to ITCHSNAP_NONE. Only these functions write it. It may be moved, if the old place is no longer used, but
 *   never copied: freeing two copies is the only misuse of a handle that is not detected.
 * - A handle stays on the thread that filled it.
 * - malloc, realloc and free belong to one allocator, which aligns to 16 bytes. No call is made from a signal handler, or in the
 *   forked child of a process with threads.
 *
 * Calls may be made in any order. A call on a handle that is empty or freed, or holds something else, returns ITCHSNAP_WRONG_HANDLE
 * and changes nothing. */
#ifndef ITCHSNAP_H
#define ITCHSNAP_H

#include <stdbool.h>
#include <stddef.h>
#include <stdint.h>

#ifdef __cplusplus
extern "C" {
#endif

/* The version of this interface. */
#define ITCHSNAP_VERSION 1u

/* The version of the linked library. It should equal ITCHSNAP_VERSION. */
uint32_t itchsnap_version(void);

/* The code of an answer. Every answer has one. Other fields have a meaning only if they are named here. "detail" is 0 unless a comment
 * says otherwise. */
enum itchsnap_code {
    ITCHSNAP_OK = 0,

    /* The payload is not a valid message, or the block is not a valid packet. */
    ITCHSNAP_EMPTY = 1,        /* it has no bytes */
    ITCHSNAP_WRONG_LENGTH = 2, /* detail: the length that its type requires */
    ITCHSNAP_BAD_TEXT = 3,     /* detail: the offset of the byte that is not printable */
    ITCHSNAP_BAD_SIDE = 4,     /* detail: the offset of the byte that is neither B nor S */
    ITCHSNAP_BAD_NUMBER = 5,   /* a field is not a number; detail: its offset in a packet */

    /* An order rule refuses a message. */
    ITCHSNAP_UNKNOWN_LOCATE = 16,
    ITCHSNAP_STOCK_MISMATCH = 17,
    ITCHSNAP_ZERO_SHARES = 18,
    ITCHSNAP_DUPLICATE_REFERENCE = 19,
    ITCHSNAP_UNKNOWN_REFERENCE = 20,
    ITCHSNAP_LOCATE_MISMATCH = 21,
    ITCHSNAP_TOO_MANY_SHARES = 22, /* detail: the shares that remain */
    ITCHSNAP_UNEXPECTED_END = 23,  /* End of Snapshot in a feed */

    /* A file is refused. */
    ITCHSNAP_TRUNCATED = 32, /* an unfinished block; detail: how many of its bytes are present */
    ITCHSNAP_TOO_MANY_MESSAGES = 33,
    ITCHSNAP_UNREAD = 34,    /* a read failed: proved never to happen, since all files are in memory */
    ITCHSNAP_NO_END = 35,    /* a snapshot file without End of Snapshot */
    ITCHSNAP_AFTER_END = 36, /* a message after End of Snapshot */
    ITCHSNAP_SHORT = 37,     /* fewer messages than requested */

    /* A call is refused. */
    ITCHSNAP_OUT_OF_MEMORY = 48,
    ITCHSNAP_NO_ROOM = 49,      /* the caller's memory is too short, and unchanged; len: the length needed. Rows: the memory is full */
    ITCHSNAP_WRONG_HANDLE = 50, /* the handle does not hold the kind of object that the call needs */
    ITCHSNAP_IN_USE = 51,       /* the handle that a call would fill already holds something */
    ITCHSNAP_ABSENT = 52,       /* no such order, price, stock or message */
    ITCHSNAP_NOT_JOINED = 53,   /* the joiner has not joined yet */
    ITCHSNAP_NO_NUMBER = 54,    /* a sequence number that is not from 1 to 10^19 */

    /* What a joiner did. */
    ITCHSNAP_KEPT = 64,    /* the message was kept, and waits */
    ITCHSNAP_APPLIED = 65, /* it was applied, and then the waiting messages up to the one before number */
    ITCHSNAP_OLD = 66,     /* the market already contains it */
    ITCHSNAP_MORE = 67,    /* it was a message of the snapshot, and more follow */
    ITCHSNAP_JOINED = 68,  /* it ended the snapshot, and the waiting messages up to the one before number were applied */

    /* A joiner refuses a message. */
    ITCHSNAP_FULL = 72,               /* no more messages may wait; number: how many are waiting */
    ITCHSNAP_CONFLICT = 73,           /* a message with this number and other bytes is waiting */
    ITCHSNAP_BAD_MESSAGE_NUMBER = 74, /* the number is 0 or above 10^19 - 1 */
    ITCHSNAP_HALTED = 75,             /* the message with this number is refused, and so is every later one: cause and detail say why */
    ITCHSNAP_ALREADY_JOINED = 76,     /* a message of a snapshot after joining */
    ITCHSNAP_TAKEN_NO_MEMORY = 77,    /* out of memory after the message was taken: continue with itchsnap_joiner_resume */
    ITCHSNAP_BAD_SNAPSHOT = 78,       /* the snapshot's message at place number is refused: cause and detail say why */

    /* What happened in a session. */
    ITCHSNAP_ACCEPTED = 80,  /* the login is accepted, and messages follow, starting with number */
    ITCHSNAP_REJECTED = 81,  /* the login is rejected; detail: the code, A or S. The session is closed */
    ITCHSNAP_DATA = 82,      /* a message with this number: the bytes of the packet after its first */
    ITCHSNAP_ENDED = 83,     /* the server has ended the session, which is closed */
    ITCHSNAP_LOGGED_OUT = 84, /* the client has logged out. The session is closed */
    ITCHSNAP_HEARTBEAT = 85, /* a heartbeat must be sent */
    ITCHSNAP_LOST = 86,      /* the other side was silent for too long. The session is closed */

    /* How a session breaks the protocol. */
    ITCHSNAP_UNKNOWN_TYPE = 96, /* detail: the packet's type byte */
    ITCHSNAP_WRONG_SIDE = 97,   /* detail: the packet's type byte */
    ITCHSNAP_SECOND_LOGIN = 98,
    ITCHSNAP_EARLY = 99,        /* detail: the packet's type byte */
    ITCHSNAP_CLOSED = 100,
    ITCHSNAP_BROKEN_SESSION = 101 /* does not happen in these calls */
};

/* The result of a call. */
typedef struct {
    uint64_t detail;
    uint32_t code;
} itchsnap_answer;

/* What was written into the caller's memory. */
typedef struct {
    size_t len; /* OK and NO_ROOM: the bytes of the snapshot or the text, or the items of the list */
    uint32_t code;
} itchsnap_written;

/* Writes the text of a code, such as "stock mismatch", followed by a zero byte, to the front of out; len includes that byte. No text
 * has more than ITCHSNAP_REASON_LEN bytes. Codes: OK, or the first that applies of ABSENT (there is no such code), NO_ROOM. */
itchsnap_written itchsnap_reason_text(uint32_t code, char *out, size_t len);

#define ITCHSNAP_REASON_LEN 32u

/* Messages ------------------------------------------------------------- */

/* Whether a payload is a valid message and, if not, its first fault: codes 0 to 5. */
itchsnap_answer itchsnap_decode_fault(const uint8_t *payload, size_t len);

/* The fields of a message, named as in the standard. Fields that its type does not have are 0. Prices have four implied decimals.
 * Texts are padded with spaces. A code field contains the byte of the message. */
typedef struct {
    uint64_t timestamp; /* in nanoseconds since midnight */
    uint64_t order_reference_number;
    uint64_t original_order_reference_number;
    uint64_t new_order_reference_number;
    uint64_t match_number;
    uint64_t shares;
    uint64_t sequence_number; /* End of Snapshot: the number of the first message that the snapshot does not contain */
    uint32_t executed_shares;
    uint32_t cancelled_shares;
    uint32_t price;
    uint32_t execution_price;
    uint32_t cross_price;
    uint32_t round_lot_size;
    uint32_t etp_leverage_factor;
    uint16_t stock_locate;
    uint16_t tracking_number;
    uint8_t stock[8];
    uint8_t mpid[4];
    uint8_t attribution[4];
    uint8_t reason[4];
    uint8_t issue_sub_type[2];
    uint8_t message_type; /* the first byte of the payload */
    uint8_t buy_sell_indicator;
    uint8_t printable;
    uint8_t cross_type;
    uint8_t event_code;
    uint8_t market_category;
    uint8_t financial_status_indicator;
    uint8_t round_lots_only;
    uint8_t issue_classification;
    uint8_t authenticity;
    uint8_t short_sale_threshold_indicator;
    uint8_t ipo_flag;
    uint8_t luld_reference_price_tier;
    uint8_t etp_flag;
    uint8_t inverse_indicator;
    uint8_t trading_state;
    uint8_t reserved;
    uint8_t reg_sho_action;
    uint8_t market_code;
    uint8_t operational_halt_action;
    uint8_t primary_market_maker;
    uint8_t market_maker_mode;
    uint8_t market_participant_state;
} itchsnap_message;

/* Writes the fields of a payload's message to out; if it is not a valid message, out is unchanged. Types other than S R H Y h L A F E
 * C X D U P Q B and G are not decoded: for such a message only the type is filled in. Codes: 0 to 5. */
itchsnap_answer itchsnap_decode(const uint8_t *payload, size_t len, itchsnap_message *out);

/* A message of blocks. */
typedef struct {
    uint64_t number;    /* its number, counted from 1 */
    uint64_t offset;    /* where its payload begins in the blocks; the two bytes before that contain its length */
    uint64_t timestamp; /* in nanoseconds since midnight; 0 if it has no header, or is not decoded */
    uint8_t payload[48]; /* its first bytes, with zeros after the last; only a message that is not decoded may be longer */
} itchsnap_row;

typedef struct {
    uint64_t count; /* the number of the last message consumed */
    size_t rows;    /* the number of rows written */
    size_t len;     /* the number of bytes of the blocks consumed */
    uint64_t detail;
    uint32_t code;
} itchsnap_decoded;

/* Decodes blocks, in the format of a day file, and writes their messages one after another to the front of out: those of the listed
 * types, such as "AF", and, if locates are listed, only those at one of them. No order rule is applied. before is the number of the
 * last message before the blocks.
 *
 * OK: the bytes end after a block, or at an empty one. NO_ROOM: the next message is selected, but out is full. Call again with the
 * blocks from len on, and with before set to count. TRUNCATED: the bytes end within a block, and detail counts the bytes left
 * over; in a piece of a day file, pass them again at the front of the next piece. 1 to 5: the next message is of a listed type, but
 * not valid. Messages of other types are not examined; if no type is listed, messages are only counted. Codes: 0 to 5, TRUNCATED,
 * TOO_MANY_MESSAGES, NO_ROOM, OUT_OF_MEMORY (nothing was consumed). */
itchsnap_decoded itchsnap_decode_blocks(const uint8_t *blocks, size_t len, uint64_t before, const uint8_t *types, size_t types_len,
                                        const uint16_t *locates, size_t locates_len, itchsnap_row *out, size_t out_len);

/* Handles -------------------------------------------------------------- */

/* What a handle holds: nothing, a market, a joiner, or either end of a session. */
typedef struct {
    void *at;
    bool live;
} itchsnap_handle;

#define ITCHSNAP_NONE {NULL, false}

/* Frees what a handle holds, if it holds anything. The handle is then empty, and may be filled again. */
void itchsnap_free(itchsnap_handle *handle);

/* Markets -------------------------------------------------------------- */

/* Fills a handle with an empty market. Codes: OK, or the first that applies of IN_USE, OUT_OF_MEMORY. */
itchsnap_answer itchsnap_market_new(itchsnap_handle *handle);

typedef struct {
    uint64_t next;  /* OK: the number of the first message that the snapshot does not contain */
    uint64_t place; /* 1 to 5 and 16 to 23: the place of the refused message, counted from 1; OUT_OF_MEMORY: of the message for which
                     * memory ran out, or 0 if that was before the first or after the last */
    uint64_t detail;
    uint32_t code;
} itchsnap_loaded;

/* Fills a handle with the market of a snapshot file, whose messages may be in any order that follows the order rules. Codes:
 * IN_USE, or else 0 to 36, OUT_OF_MEMORY. */
itchsnap_loaded itchsnap_market_load(itchsnap_handle *handle, const uint8_t *snapshot, size_t len);

/* Applies the message of a payload; if it is refused, the market is unchanged. Codes: 0 to 23, OUT_OF_MEMORY. */
itchsnap_answer itchsnap_market_apply(itchsnap_handle *handle, const uint8_t *payload, size_t len);

typedef struct {
    uint64_t count; /* the number of messages applied */
    uint64_t detail;
    uint32_t code;
} itchsnap_applied;

/* Applies the messages of blocks, in the format of a day file, in order, up to the first that cannot be applied; those before it stay
 * applied. OK: the bytes end after a block, or at an empty one, after which nothing is read. TRUNCATED: they end within a block, and
 * detail counts the bytes left over; in a piece of a day file, pass them again at the front of the next piece. Codes: 0 to 33,
 * OUT_OF_MEMORY. */
itchsnap_applied itchsnap_market_apply_blocks(itchsnap_handle *handle, const uint8_t *blocks, size_t len);

/* Look-ups: in a market, or in that of a joiner that has joined; otherwise they return WRONG_HANDLE -------- */

/* itchsnap_best, itchsnap_level, itchsnap_next_price, itchsnap_orders, itchsnap_levels and the snapshots of a handle need the orders by price. The
 * first such call after messages that change orders sorts them, which takes longer the more orders there are. If such calls become frequent,
 * that is, if there were fewer changes since the last one than there are orders, one of them builds an index, and none sorts again; from then
 * on each message takes longer. While the index is built, the orders are in memory twice; without that memory the call sorts them. */

typedef struct {
    uint64_t reference;
    uint32_t price; /* with four implied decimals */
    uint32_t shares;
    uint16_t locate;
    bool buy;
    bool attributed; /* whether it came with a market participant */
    uint8_t mpid[4]; /* padded with spaces; zeros if there is none */
    uint32_t code;
} itchsnap_order;

/* The order that has priority at a locate and side. Codes: OK, ABSENT. */
itchsnap_order itchsnap_best(itchsnap_handle *handle, uint16_t locate, bool buy);

/* The live order with this reference. Codes: OK, ABSENT. */
itchsnap_order itchsnap_order_by(itchsnap_handle *handle, uint64_t reference);

typedef struct {
    uint64_t shares_low; /* the sum of the shares: its lower 64 bits */
    uint64_t shares_high;
    uint64_t orders;
    uint32_t code;
} itchsnap_level_total;

/* The total shares and the number of orders at a price of a locate and side: 0 if no order has that price. Codes: OK. */
itchsnap_level_total itchsnap_level(itchsnap_handle *handle, uint16_t locate, bool buy, uint32_t price);

typedef struct {
    uint32_t price; /* with four implied decimals */
    uint32_t code;
} itchsnap_price;

/* The best price of a locate and side or, if after is true, the best one that is worse than last. Codes: OK, ABSENT. */
itchsnap_price itchsnap_next_price(itchsnap_handle *handle, uint16_t locate, bool buy, bool after, uint32_t last);

typedef struct {
    uint64_t count;
    uint32_t code;
} itchsnap_count;

/* The number of live orders. Codes: OK. */
itchsnap_count itchsnap_order_count(itchsnap_handle *handle);

/* Lists: each is written to the front of out, which has room for len items; call with length 0 to get their number. Codes: OK, or the
 * first that applies of OUT_OF_MEMORY, NO_ROOM. */

/* The locates in the directory, in ascending order. */
itchsnap_written itchsnap_locates(itchsnap_handle *handle, uint16_t *out, size_t len);

/* The live orders of a locate: bids before asks, each side by priority. The code of each is OK. */
itchsnap_written itchsnap_orders(itchsnap_handle *handle, uint16_t locate, itchsnap_order *out, size_t len);

typedef struct {
    uint64_t shares_low; /* the sum of the shares: its lower 64 bits */
    uint64_t shares_high;
    uint64_t orders;
    uint32_t price; /* with four implied decimals */
} itchsnap_price_level;

/* The price levels of a locate and side, the best price first. */
itchsnap_written itchsnap_levels(itchsnap_handle *handle, uint16_t locate, bool buy, itchsnap_price_level *out, size_t len);

typedef struct {
    uint8_t stock[8]; /* padded with spaces */
    uint32_t code;
} itchsnap_stock_name;

/* The stock of a locate in the directory. Codes: OK, ABSENT. */
itchsnap_stock_name itchsnap_stock(itchsnap_handle *handle, uint16_t locate);

/* Writes the canonical snapshot to the front of out, with next as the number of the first message that it does not contain. Call with
 * length 0 to get the length. Codes: OK, or the first that applies of NO_NUMBER, TOO_MANY_MESSAGES, OUT_OF_MEMORY, NO_ROOM. */
itchsnap_written itchsnap_snapshot(itchsnap_handle *handle, uint64_t next, uint8_t *out, size_t len);

/* The same for the part of the market at the listed locates. */
itchsnap_written itchsnap_snapshot_only(itchsnap_handle *handle, uint64_t next, const uint16_t *locates, size_t count,
                                        uint8_t *out, size_t len);

/* Whole files ---------------------------------------------------------- */

typedef struct {
    uint64_t count; /* the number of messages accepted; the place of the refused one, counted from 1, is one more */
    size_t len;     /* snapshots, OK and NO_ROOM: the bytes of the snapshot */
    uint64_t detail;
    uint32_t code;
} itchsnap_outcome;

/* Whether a day file follows the order rules. Codes: 0 to 33, OUT_OF_MEMORY. */
itchsnap_outcome itchsnap_check(const uint8_t *day, size_t len);

/* The number of bytes before the block of the first message whose timestamp is time or later, in nanoseconds since midnight: the
 * length of the part of a day file before that time. Timestamps need not be in order, so every message up to it is examined. A block
 * that is not a valid message, or has no timestamp, is skipped. Codes: OK, ABSENT (the blocks end before such a message, perhaps
 * within a block or at an empty one), OUT_OF_MEMORY. */
itchsnap_count itchsnap_first_at(const uint8_t *blocks, size_t len, uint64_t time);

/* The value of after and until that means all messages to itchsnap_snap. */
#define ITCHSNAP_ALL UINT64_MAX

/* Writes the canonical snapshot of a part of a day file to the front of out: of its first messages, as many as after says, or of the
 * messages before the first whose timestamp is until or later, in nanoseconds since midnight, whichever comes first. Codes: 0 to 33,
 * SHORT (fewer messages than after, and none at until or later), NO_ROOM, OUT_OF_MEMORY. */
itchsnap_outcome itchsnap_snap(const uint8_t *day, size_t len, uint64_t after, uint64_t until, uint8_t *out, size_t out_len);

/* The same for the part of the market at the listed locates. Every message of the part must still follow the order rules. */
itchsnap_outcome itchsnap_snap_only(const uint8_t *day, size_t len, uint64_t after, uint64_t until, const uint16_t *locates,
                                    size_t locates_len, uint8_t *out, size_t out_len);

typedef struct {
    uint64_t place; /* OK: 0 if the markets are the same, otherwise the place, counted from 1, at which their snapshots differ */
    uint64_t count; /* not OK: as in itchsnap_outcome */
    uint64_t detail;
    uint32_t code;
    uint32_t file; /* not OK: the refused file, 1 or 2 */
} itchsnap_comparison;

/* Whether two day files end in the same market. The first is read completely before the second. Codes: 0 to 33, OUT_OF_MEMORY. */
itchsnap_comparison itchsnap_compare(const uint8_t *first, size_t first_len, const uint8_t *second, size_t second_len);

/* Joiners: a snapshot and the live feed, joined into one market ---------- */

/* Fills a handle with a joiner in which at most cap messages may wait. Codes: OK, or the first that applies of IN_USE, OUT_OF_MEMORY. */
itchsnap_answer itchsnap_joiner_new(itchsnap_handle *handle, size_t cap);

/* The same for the listed locates: messages at others are decoded and counted, but change nothing else. */
itchsnap_answer itchsnap_joiner_new_only(itchsnap_handle *handle, size_t cap, const uint16_t *locates, size_t count);

typedef struct {
    uint64_t number;
    uint64_t detail;
    uint32_t code;
    uint32_t cause; /* HALTED and BAD_SNAPSHOT: why the message is refused, 1 to 23 or TOO_MANY_MESSAGES */
} itchsnap_joined;

/* Takes the message with this number of the live feed; messages may come in any order. Codes: KEPT, APPLIED, OLD, OUT_OF_MEMORY
 * (not taken), 72 to 77. */
itchsnap_joined itchsnap_joiner_live(itchsnap_handle *handle, uint64_t number, const uint8_t *payload, size_t len);

/* Takes the next message of the snapshot, the last of which is End of Snapshot. Codes: MORE, JOINED, OUT_OF_MEMORY (not taken), 75 to
 * 78. */
itchsnap_joined itchsnap_joiner_snapshot(itchsnap_handle *handle, const uint8_t *payload, size_t len);

/* Drops an unfinished or broken snapshot, and keeps the waiting messages. Codes: OK. */
itchsnap_answer itchsnap_joiner_restart(itchsnap_handle *handle);

/* Applies the waiting messages, after a lack of memory prevented that. Codes: APPLIED, NOT_JOINED, OUT_OF_MEMORY, HALTED. */
itchsnap_joined itchsnap_joiner_resume(itchsnap_handle *handle);

/* The number of the next message of the feed. Codes: OK, NOT_JOINED. */
itchsnap_count itchsnap_joiner_next(itchsnap_handle *handle);

/* The number of waiting messages. Codes: OK. */
itchsnap_count itchsnap_joiner_waiting(itchsnap_handle *handle);

/* Sessions: the two ends of SoupBinTCP 3.00. Packets are passed and returned without their length. Times are in milliseconds from any
 * fixed point. Some packets are one byte: the client's R (heartbeat) and O (logout), the server's H (heartbeat) and Z (end of
 * session). A rejection is J and its code, a message is S and its bytes ---------- */

/* Texts padded with spaces: the login of a client, or the login that a server accepts and the session that it serves. */
typedef struct {
    uint8_t username[6];
    uint8_t password[10];
    uint8_t session[10];
} itchsnap_login;

typedef struct {
    uint64_t number;
    uint64_t detail;
    uint32_t code;
} itchsnap_act;

typedef struct {
    uint8_t bytes[47];
    uint32_t code;
} itchsnap_login_packet;

typedef struct {
    uint8_t bytes[31];
    uint32_t code;
} itchsnap_acceptance_packet;

/* Fills a handle with a client's session that requests the messages from number from on; 0 requests all. Codes: OK, or the first that
 * applies of BAD_TEXT, NO_NUMBER (from is above 10^19), IN_USE, OUT_OF_MEMORY. */
itchsnap_answer itchsnap_client_new(itchsnap_handle *handle, const itchsnap_login *login, uint64_t from, uint64_t now_ms);

/* The login request to send first. Codes: OK. */
itchsnap_login_packet itchsnap_client_login(itchsnap_handle *handle);

/* What a packet from the server means. A block that is not a server packet leaves the session unchanged. Codes: OK (nothing),
 * ACCEPTED, REJECTED, DATA, ENDED, 1 to 5, TOO_MANY_MESSAGES, 96 to 100. */
itchsnap_act itchsnap_client_packet(itchsnap_handle *handle, const uint8_t *packet, size_t len, uint64_t now_ms);

/* Fills a handle with a server's session of total messages. Codes: OK, or the first that applies of BAD_TEXT, TOO_MANY_MESSAGES (total
 * is above 10^19 - 1), IN_USE, OUT_OF_MEMORY. */
itchsnap_answer itchsnap_server_new(itchsnap_handle *handle, const itchsnap_login *config, uint64_t total, uint64_t now_ms);

/* The packet to send when a login is accepted, with messages from this number on. Codes: OK, NO_NUMBER. */
itchsnap_acceptance_packet itchsnap_server_accepted(itchsnap_handle *handle, uint64_t next);

/* What to do after a packet from the client. A block that is not a client packet leaves the session unchanged. Codes: OK (nothing),
 * ACCEPTED, REJECTED, LOGGED_OUT, 1 to 5, 96 to 100. */
itchsnap_act itchsnap_server_packet(itchsnap_handle *handle, const uint8_t *packet, size_t len, uint64_t now_ms);

/* What either end must do at this time if no packet has arrived. A heartbeat counts as sent. Codes: OK (nothing), HEARTBEAT, LOST. */
itchsnap_answer itchsnap_session_tick(itchsnap_handle *handle, uint64_t now_ms);

/* Records that either end sent something at this time. Codes: OK. */
itchsnap_answer itchsnap_session_sent(itchsnap_handle *handle, uint64_t now_ms);

#ifdef __cplusplus
}
#endif
#endif
