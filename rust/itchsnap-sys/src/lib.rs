//! The functions of `libitchsnap`, declared as in `itchsnap.h`: markets, snapshots, joiners and
//! sessions for Nasdaq TotalView-ITCH 5.0, proved. The crate `itchsnap` provides safe types on top
//! of them.
//!
//! The caller must ensure what the header requires:
//!
//! - A pointer with a length is readable, or writable if it is `*mut`, for that many elements. It
//!   is not null, even for length 0.
//! - Memory that is passed as `*mut` does not overlap with another argument of the same call.
//! - A handle is initialised to [`ITCHSNAP_NONE`]. Only these functions write it. It may be moved,
//!   but never copied: freeing two copies is the only misuse of a handle that is not detected.
//! - A handle stays on the thread that filled it.
//!
//! Calls may be made in any order. A call on a handle that is empty or freed, or holds something
//! else, returns [`ITCHSNAP_WRONG_HANDLE`] and changes nothing.
//!
//! The build looks for the library in the directory that the variable `ITCHSNAP_LIB_DIR` names, in
//! `release/` of the checkout, and through pkg-config.
#![no_std]
#![allow(non_camel_case_types)]

use core::ffi::{c_char, c_void};

/// The version of this interface.
pub const ITCHSNAP_VERSION: u32 = 1;

/// An empty handle.
pub const ITCHSNAP_NONE: itchsnap_handle = itchsnap_handle { at: core::ptr::null_mut(), live: false };

/// The value of `after` and `until` that means all messages to [`itchsnap_snap`].
pub const ITCHSNAP_ALL: u64 = u64::MAX;

/// The maximum length of the text of a code, in bytes.
pub const ITCHSNAP_REASON_LEN: usize = 32;

pub const ITCHSNAP_OK: u32 = 0;

// The payload is not a valid message, or the block is not a valid packet.
/// It has no bytes.
pub const ITCHSNAP_EMPTY: u32 = 1;
/// `detail`: the length that its type requires.
pub const ITCHSNAP_WRONG_LENGTH: u32 = 2;
/// `detail`: the offset of the byte that is not printable.
pub const ITCHSNAP_BAD_TEXT: u32 = 3;
/// `detail`: the offset of the byte that is neither B nor S.
pub const ITCHSNAP_BAD_SIDE: u32 = 4;
/// A field is not a number; detail: its offset in a packet.
pub const ITCHSNAP_BAD_NUMBER: u32 = 5;

// An order rule refuses a message.
pub const ITCHSNAP_UNKNOWN_LOCATE: u32 = 16;
pub const ITCHSNAP_STOCK_MISMATCH: u32 = 17;
pub const ITCHSNAP_ZERO_SHARES: u32 = 18;
pub const ITCHSNAP_DUPLICATE_REFERENCE: u32 = 19;
pub const ITCHSNAP_UNKNOWN_REFERENCE: u32 = 20;
pub const ITCHSNAP_LOCATE_MISMATCH: u32 = 21;
/// `detail`: the shares that remain.
pub const ITCHSNAP_TOO_MANY_SHARES: u32 = 22;
/// End of Snapshot in a feed.
pub const ITCHSNAP_UNEXPECTED_END: u32 = 23;

// A file is refused.
/// An unfinished block; detail: how many of its bytes are present.
pub const ITCHSNAP_TRUNCATED: u32 = 32;
pub const ITCHSNAP_TOO_MANY_MESSAGES: u32 = 33;
/// A read failed: proved never to happen, since all files are in memory.
pub const ITCHSNAP_UNREAD: u32 = 34;
/// A snapshot file without End of Snapshot.
pub const ITCHSNAP_NO_END: u32 = 35;
/// A message after End of Snapshot.
pub const ITCHSNAP_AFTER_END: u32 = 36;
/// Fewer messages than requested.
pub const ITCHSNAP_SHORT: u32 = 37;

// A call is refused.
pub const ITCHSNAP_OUT_OF_MEMORY: u32 = 48;
/// The caller's memory is too short, and unchanged; len: the length needed. Rows: the memory is
/// full.
pub const ITCHSNAP_NO_ROOM: u32 = 49;
/// The handle does not hold the kind of object that the call needs.
pub const ITCHSNAP_WRONG_HANDLE: u32 = 50;
/// The handle that a call would fill already holds something.
pub const ITCHSNAP_IN_USE: u32 = 51;
/// No such order, price, stock or message.
pub const ITCHSNAP_ABSENT: u32 = 52;
/// The joiner has not joined yet.
pub const ITCHSNAP_NOT_JOINED: u32 = 53;
/// A sequence number that is not from 1 to 10^19.
pub const ITCHSNAP_NO_NUMBER: u32 = 54;

// What a joiner did.
/// The message was kept, and waits.
pub const ITCHSNAP_KEPT: u32 = 64;
/// It was applied, and then the waiting messages up to the one before number.
pub const ITCHSNAP_APPLIED: u32 = 65;
/// The market already contains it.
pub const ITCHSNAP_OLD: u32 = 66;
/// It was a message of the snapshot, and more follow.
pub const ITCHSNAP_MORE: u32 = 67;
/// It ended the snapshot, and the waiting messages up to the one before number were applied.
pub const ITCHSNAP_JOINED: u32 = 68;

// A joiner refuses a message.
/// No more messages may wait; number: how many are waiting.
pub const ITCHSNAP_FULL: u32 = 72;
/// A message with this number and other bytes is waiting.
pub const ITCHSNAP_CONFLICT: u32 = 73;
/// The number is 0 or above 10^19 - 1.
pub const ITCHSNAP_BAD_MESSAGE_NUMBER: u32 = 74;
/// The message with this number is refused, and so is every later one: cause and detail say why.
pub const ITCHSNAP_HALTED: u32 = 75;
/// A message of a snapshot after joining.
pub const ITCHSNAP_ALREADY_JOINED: u32 = 76;
/// Out of memory after the message was taken: continue with itchsnap_joiner_resume.
pub const ITCHSNAP_TAKEN_NO_MEMORY: u32 = 77;
/// The snapshot's message at place number is refused: cause and detail say why.
pub const ITCHSNAP_BAD_SNAPSHOT: u32 = 78;

// What happened in a session.
/// The login is accepted, and messages follow, starting with number.
pub const ITCHSNAP_ACCEPTED: u32 = 80;
/// The login is rejected; detail: the code, A or S. The session is closed.
pub const ITCHSNAP_REJECTED: u32 = 81;
/// A message with this number: the bytes of the packet after its first.
pub const ITCHSNAP_DATA: u32 = 82;
/// The server has ended the session, which is closed.
pub const ITCHSNAP_ENDED: u32 = 83;
/// The client has logged out. The session is closed.
pub const ITCHSNAP_LOGGED_OUT: u32 = 84;
/// A heartbeat must be sent.
pub const ITCHSNAP_HEARTBEAT: u32 = 85;
/// The other side was silent for too long. The session is closed.
pub const ITCHSNAP_LOST: u32 = 86;

// How a session breaks the protocol.
/// `detail`: the packet's type byte.
pub const ITCHSNAP_UNKNOWN_TYPE: u32 = 96;
/// `detail`: the packet's type byte.
pub const ITCHSNAP_WRONG_SIDE: u32 = 97;
pub const ITCHSNAP_SECOND_LOGIN: u32 = 98;
/// `detail`: the packet's type byte.
pub const ITCHSNAP_EARLY: u32 = 99;
pub const ITCHSNAP_CLOSED: u32 = 100;
/// Does not happen in these calls.
pub const ITCHSNAP_BROKEN_SESSION: u32 = 101;

/// The result of a call.
#[repr(C)]
#[derive(Clone, Copy, Debug)]
pub struct itchsnap_answer {
    pub detail: u64,
    pub code: u32,
}

/// What was written into the caller's memory.
#[repr(C)]
#[derive(Clone, Copy, Debug)]
pub struct itchsnap_written {
    /// OK and NO_ROOM: the bytes of the snapshot or the text, or the items of the list.
    pub len: usize,
    pub code: u32,
}

/// The fields of a message, named as in the standard. Fields that its type does not have are 0.
/// Prices have four implied decimals. Texts are padded with spaces. A code field contains the byte
/// of the message.
#[repr(C)]
#[derive(Clone, Copy, Debug, Default, PartialEq, Eq)]
pub struct itchsnap_message {
    /// In nanoseconds since midnight.
    pub timestamp: u64,
    pub order_reference_number: u64,
    pub original_order_reference_number: u64,
    pub new_order_reference_number: u64,
    pub match_number: u64,
    pub shares: u64,
    /// End of Snapshot: the number of the first message that the snapshot does not contain.
    pub sequence_number: u64,
    pub executed_shares: u32,
    pub cancelled_shares: u32,
    pub price: u32,
    pub execution_price: u32,
    pub cross_price: u32,
    pub round_lot_size: u32,
    pub etp_leverage_factor: u32,
    pub stock_locate: u16,
    pub tracking_number: u16,
    pub stock: [u8; 8],
    pub mpid: [u8; 4],
    pub attribution: [u8; 4],
    pub reason: [u8; 4],
    pub issue_sub_type: [u8; 2],
    /// The first byte of the payload.
    pub message_type: u8,
    pub buy_sell_indicator: u8,
    pub printable: u8,
    pub cross_type: u8,
    pub event_code: u8,
    pub market_category: u8,
    pub financial_status_indicator: u8,
    pub round_lots_only: u8,
    pub issue_classification: u8,
    pub authenticity: u8,
    pub short_sale_threshold_indicator: u8,
    pub ipo_flag: u8,
    pub luld_reference_price_tier: u8,
    pub etp_flag: u8,
    pub inverse_indicator: u8,
    pub trading_state: u8,
    pub reserved: u8,
    pub reg_sho_action: u8,
    pub market_code: u8,
    pub operational_halt_action: u8,
    pub primary_market_maker: u8,
    pub market_maker_mode: u8,
    pub market_participant_state: u8,
}

/// A message of blocks.
#[repr(C)]
#[derive(Clone, Copy, Debug)]
pub struct itchsnap_row {
    /// Its number, counted from 1.
    pub number: u64,
    /// Where its payload begins in the blocks; the two bytes before that contain its length.
    pub offset: u64,
    /// In nanoseconds since midnight; 0 if it has no header, or is not decoded.
    pub timestamp: u64,
    /// Its first bytes, with zeros after the last; only a message that is not decoded may be longer.
    pub payload: [u8; 48],
}

/// The result of a call.
#[repr(C)]
#[derive(Clone, Copy, Debug)]
pub struct itchsnap_decoded {
    /// The number of the last message consumed.
    pub count: u64,
    /// The number of rows written.
    pub rows: usize,
    /// The number of bytes of the blocks consumed.
    pub len: usize,
    pub detail: u64,
    pub code: u32,
}

/// What a handle holds: nothing, a market, a joiner, or either end of a session.
#[repr(C)]
#[derive(Debug)]
pub struct itchsnap_handle {
    pub at: *mut c_void,
    pub live: bool,
}

/// The result of a call.
#[repr(C)]
#[derive(Clone, Copy, Debug)]
pub struct itchsnap_loaded {
    /// OK: the number of the first message that the snapshot does not contain.
    pub next: u64,
    /// 1 to 5 and 16 to 23: the place of the refused message, counted from 1; OUT_OF_MEMORY: of the
    /// message for which memory ran out, or 0 if that was before the first or after the last.
    pub place: u64,
    pub detail: u64,
    pub code: u32,
}

/// The result of a call.
#[repr(C)]
#[derive(Clone, Copy, Debug)]
pub struct itchsnap_applied {
    /// The number of messages applied.
    pub count: u64,
    pub detail: u64,
    pub code: u32,
}

/// The result of a call.
#[repr(C)]
#[derive(Clone, Copy, Debug)]
pub struct itchsnap_order {
    pub reference: u64,
    /// With four implied decimals.
    pub price: u32,
    pub shares: u32,
    pub locate: u16,
    pub buy: bool,
    /// Whether it came with a market participant.
    pub attributed: bool,
    /// Padded with spaces; zeros if there is none.
    pub mpid: [u8; 4],
    pub code: u32,
}

/// The result of a call.
#[repr(C)]
#[derive(Clone, Copy, Debug)]
pub struct itchsnap_level_total {
    /// The sum of the shares: its lower 64 bits.
    pub shares_low: u64,
    pub shares_high: u64,
    pub orders: u64,
    pub code: u32,
}

/// The result of a call.
#[repr(C)]
#[derive(Clone, Copy, Debug)]
pub struct itchsnap_price {
    /// With four implied decimals.
    pub price: u32,
    pub code: u32,
}

/// The result of a call.
#[repr(C)]
#[derive(Clone, Copy, Debug)]
pub struct itchsnap_count {
    pub count: u64,
    pub code: u32,
}

/// A price level.
#[repr(C)]
#[derive(Clone, Copy, Debug)]
pub struct itchsnap_price_level {
    /// The sum of the shares: its lower 64 bits.
    pub shares_low: u64,
    pub shares_high: u64,
    pub orders: u64,
    /// With four implied decimals.
    pub price: u32,
}

/// The result of a call.
#[repr(C)]
#[derive(Clone, Copy, Debug)]
pub struct itchsnap_stock_name {
    /// Padded with spaces.
    pub stock: [u8; 8],
    pub code: u32,
}

/// The result of a call.
#[repr(C)]
#[derive(Clone, Copy, Debug)]
pub struct itchsnap_outcome {
    /// The number of messages accepted; the place of the refused one, counted from 1, is one more.
    pub count: u64,
    /// Snapshots, OK and NO_ROOM: the bytes of the snapshot.
    pub len: usize,
    pub detail: u64,
    pub code: u32,
}

/// The result of a call.
#[repr(C)]
#[derive(Clone, Copy, Debug)]
pub struct itchsnap_comparison {
    /// OK: 0 if the markets are the same, otherwise the place, counted from 1, at which their
    /// snapshots differ.
    pub place: u64,
    /// Not OK: as in itchsnap_outcome.
    pub count: u64,
    pub detail: u64,
    pub code: u32,
    /// Not OK: the refused file, 1 or 2.
    pub file: u32,
}

/// The result of a call.
#[repr(C)]
#[derive(Clone, Copy, Debug)]
pub struct itchsnap_joined {
    pub number: u64,
    pub detail: u64,
    pub code: u32,
    /// HALTED and BAD_SNAPSHOT: why the message is refused, 1 to 23 or TOO_MANY_MESSAGES.
    pub cause: u32,
}

/// Texts padded with spaces: the login of a client, or the login that a server accepts and the
/// session that it serves.
#[repr(C)]
#[derive(Clone, Copy, Debug)]
pub struct itchsnap_login {
    pub username: [u8; 6],
    pub password: [u8; 10],
    pub session: [u8; 10],
}

/// The result of a call.
#[repr(C)]
#[derive(Clone, Copy, Debug)]
pub struct itchsnap_act {
    pub number: u64,
    pub detail: u64,
    pub code: u32,
}

/// The result of a call.
#[repr(C)]
#[derive(Clone, Copy, Debug)]
pub struct itchsnap_login_packet {
    pub bytes: [u8; 47],
    pub code: u32,
}

/// The result of a call.
#[repr(C)]
#[derive(Clone, Copy, Debug)]
pub struct itchsnap_acceptance_packet {
    pub bytes: [u8; 31],
    pub code: u32,
}

unsafe extern "C" {
    /// The version of the linked library. It should equal ITCHSNAP_VERSION.
    pub fn itchsnap_version() -> u32;

    /// Writes the text of a code, such as "stock mismatch", followed by a zero byte, to the front
    /// of out; len includes that byte. No text has more than ITCHSNAP_REASON_LEN bytes. Codes: OK,
    /// or the first that applies of ABSENT (there is no such code), NO_ROOM.
    pub fn itchsnap_reason_text(code: u32, out: *mut c_char, len: usize) -> itchsnap_written;

    /// Whether a payload is a valid message and, if not, its first fault: codes 0 to 5.
    pub fn itchsnap_decode_fault(payload: *const u8, len: usize) -> itchsnap_answer;

    /// Writes the fields of a payload's message to out; if it is not a valid message, out is
    /// unchanged. Types other than S R H Y h L A F E C X D U P Q B and G are not decoded: for such
    /// a message only the type is filled in. Codes: 0 to 5.
    pub fn itchsnap_decode(payload: *const u8, len: usize, out: *mut itchsnap_message) -> itchsnap_answer;

    /// Decodes blocks, in the format of a day file, and writes their messages one after another to
    /// the front of out: those of the listed types, such as "AF", and, if locates are listed, only
    /// those at one of them. No order rule is applied. before is the number of the last message
    /// before the blocks.
    ///
    /// OK: the bytes end after a block, or at an empty one. NO_ROOM: the next message is selected,
    /// but out is full. Call again with the blocks from len on, and with before set to count.
    /// TRUNCATED: the bytes end within a block, and detail counts the bytes left over; in a piece
    /// of a day file, pass them again at the front of the next piece. 1 to 5: the next message is
    /// of a listed type, but not valid. Messages of other types are not examined; if no type is
    /// listed, messages are only counted. Codes: 0 to 5, TRUNCATED, TOO_MANY_MESSAGES, NO_ROOM,
    /// OUT_OF_MEMORY (nothing was consumed).
    pub fn itchsnap_decode_blocks(
        blocks: *const u8,
        len: usize,
        before: u64,
        types: *const u8,
        types_len: usize,
        locates: *const u16,
        locates_len: usize,
        out: *mut itchsnap_row,
        out_len: usize,
    ) -> itchsnap_decoded;

    /// Frees what a handle holds, if it holds anything. The handle is then empty, and may be filled
    /// again.
    pub fn itchsnap_free(handle: *mut itchsnap_handle);

    /// Fills a handle with an empty market. Codes: OK, or the first that applies of IN_USE,
    /// OUT_OF_MEMORY.
    pub fn itchsnap_market_new(handle: *mut itchsnap_handle) -> itchsnap_answer;

    /// Fills a handle with the market of a snapshot file, whose messages may be in any order that
    /// follows the order rules. Codes: IN_USE, or else 0 to 36, OUT_OF_MEMORY.
    pub fn itchsnap_market_load(handle: *mut itchsnap_handle, snapshot: *const u8, len: usize) -> itchsnap_loaded;

    /// Applies the message of a payload; if it is refused, the market is unchanged. Codes: 0 to 23,
    /// OUT_OF_MEMORY.
    pub fn itchsnap_market_apply(handle: *mut itchsnap_handle, payload: *const u8, len: usize) -> itchsnap_answer;

    /// Applies the messages of blocks, in the format of a day file, in order, up to the first that
    /// cannot be applied; those before it stay applied. OK: the bytes end after a block, or at an
    /// empty one, after which nothing is read. TRUNCATED: they end within a block, and detail
    /// counts the bytes left over; in a piece of a day file, pass them again at the front of the
    /// next piece. Codes: 0 to 33, OUT_OF_MEMORY.
    pub fn itchsnap_market_apply_blocks(handle: *mut itchsnap_handle, blocks: *const u8, len: usize) -> itchsnap_applied;

    /// The order that has priority at a locate and side. Codes: OK, ABSENT.
    pub fn itchsnap_best(handle: *mut itchsnap_handle, locate: u16, buy: bool) -> itchsnap_order;

    /// The live order with this reference. Codes: OK, ABSENT.
    pub fn itchsnap_order_by(handle: *mut itchsnap_handle, reference: u64) -> itchsnap_order;

    /// The total shares and the number of orders at a price of a locate and side: 0 if no order has
    /// that price. Codes: OK.
    pub fn itchsnap_level(handle: *mut itchsnap_handle, locate: u16, buy: bool, price: u32) -> itchsnap_level_total;

    /// The best price of a locate and side or, if after is true, the best one that is worse than
    /// last. Codes: OK, ABSENT.
    pub fn itchsnap_next_price(handle: *mut itchsnap_handle, locate: u16, buy: bool, after: bool, last: u32) -> itchsnap_price;

    /// The number of live orders. Codes: OK.
    pub fn itchsnap_order_count(handle: *mut itchsnap_handle) -> itchsnap_count;

    /// The locates in the directory, in ascending order.
    pub fn itchsnap_locates(handle: *mut itchsnap_handle, out: *mut u16, len: usize) -> itchsnap_written;

    /// The live orders of a locate: bids before asks, each side by priority. The code of each is
    /// OK.
    pub fn itchsnap_orders(handle: *mut itchsnap_handle, locate: u16, out: *mut itchsnap_order, len: usize) -> itchsnap_written;

    /// The price levels of a locate and side, the best price first.
    pub fn itchsnap_levels(
        handle: *mut itchsnap_handle,
        locate: u16,
        buy: bool,
        out: *mut itchsnap_price_level,
        len: usize,
    ) -> itchsnap_written;

    /// The stock of a locate in the directory. Codes: OK, ABSENT.
    pub fn itchsnap_stock(handle: *mut itchsnap_handle, locate: u16) -> itchsnap_stock_name;

    /// Writes the canonical snapshot to the front of out, with next as the number of the first
    /// message that it does not contain. Call with length 0 to get the length. Codes: OK, or the
    /// first that applies of NO_NUMBER, TOO_MANY_MESSAGES, OUT_OF_MEMORY, NO_ROOM.
    pub fn itchsnap_snapshot(handle: *mut itchsnap_handle, next: u64, out: *mut u8, len: usize) -> itchsnap_written;

    /// The same for the part of the market at the listed locates.
    pub fn itchsnap_snapshot_only(
        handle: *mut itchsnap_handle,
        next: u64,
        locates: *const u16,
        count: usize,
        out: *mut u8,
        len: usize,
    ) -> itchsnap_written;

    /// Whether a day file follows the order rules. Codes: 0 to 33, OUT_OF_MEMORY.
    pub fn itchsnap_check(day: *const u8, len: usize) -> itchsnap_outcome;

    /// The number of bytes before the block of the first message whose timestamp is time or later,
    /// in nanoseconds since midnight: the length of the part of a day file before that time.
    /// Timestamps need not be in order, so every message up to it is examined. A block that is not
    /// a valid message, or has no timestamp, is skipped. Codes: OK, ABSENT (the blocks end before
    /// such a message, perhaps within a block or at an empty one), OUT_OF_MEMORY.
    pub fn itchsnap_first_at(blocks: *const u8, len: usize, time: u64) -> itchsnap_count;

    /// Writes the canonical snapshot of a part of a day file to the front of out: of its first
    /// messages, as many as after says, or of the messages before the first whose timestamp is
    /// until or later, in nanoseconds since midnight, whichever comes first. Codes: 0 to 33, SHORT
    /// (fewer messages than after, and none at until or later), NO_ROOM, OUT_OF_MEMORY.
    pub fn itchsnap_snap(day: *const u8, len: usize, after: u64, until: u64, out: *mut u8, out_len: usize) -> itchsnap_outcome;

    /// The same for the part of the market at the listed locates. Every message of the part must
    /// still follow the order rules.
    pub fn itchsnap_snap_only(
        day: *const u8,
        len: usize,
        after: u64,
        until: u64,
        locates: *const u16,
        locates_len: usize,
        out: *mut u8,
        out_len: usize,
    ) -> itchsnap_outcome;

    /// Whether two day files end in the same market. The first is read completely before the
    /// second. Codes: 0 to 33, OUT_OF_MEMORY.
    pub fn itchsnap_compare(first: *const u8, first_len: usize, second: *const u8, second_len: usize) -> itchsnap_comparison;

    /// Fills a handle with a joiner in which at most cap messages may wait. Codes: OK, or the first
    /// that applies of IN_USE, OUT_OF_MEMORY.
    pub fn itchsnap_joiner_new(handle: *mut itchsnap_handle, cap: usize) -> itchsnap_answer;

    /// The same for the listed locates: messages at others are decoded and counted, but change
    /// nothing else.
    pub fn itchsnap_joiner_new_only(handle: *mut itchsnap_handle, cap: usize, locates: *const u16, count: usize) -> itchsnap_answer;

    /// Takes the message with this number of the live feed; messages may come in any order. Codes:
    /// KEPT, APPLIED, OLD, OUT_OF_MEMORY (not taken), 72 to 77.
    pub fn itchsnap_joiner_live(handle: *mut itchsnap_handle, number: u64, payload: *const u8, len: usize) -> itchsnap_joined;

    /// Takes the next message of the snapshot, the last of which is End of Snapshot. Codes: MORE,
    /// JOINED, OUT_OF_MEMORY (not taken), 75 to 78.
    pub fn itchsnap_joiner_snapshot(handle: *mut itchsnap_handle, payload: *const u8, len: usize) -> itchsnap_joined;

    /// Drops an unfinished or broken snapshot, and keeps the waiting messages. Codes: OK.
    pub fn itchsnap_joiner_restart(handle: *mut itchsnap_handle) -> itchsnap_answer;

    /// Applies the waiting messages, after a lack of memory prevented that. Codes: APPLIED,
    /// NOT_JOINED, OUT_OF_MEMORY, HALTED.
    pub fn itchsnap_joiner_resume(handle: *mut itchsnap_handle) -> itchsnap_joined;

    /// The number of the next message of the feed. Codes: OK, NOT_JOINED.
    pub fn itchsnap_joiner_next(handle: *mut itchsnap_handle) -> itchsnap_count;

    /// The number of waiting messages. Codes: OK.
    pub fn itchsnap_joiner_waiting(handle: *mut itchsnap_handle) -> itchsnap_count;

    /// Fills a handle with a client's session that requests the messages from number from on; 0
    /// requests all. Codes: OK, or the first that applies of BAD_TEXT, NO_NUMBER (from is above
    /// 10^19), IN_USE, OUT_OF_MEMORY.
    pub fn itchsnap_client_new(handle: *mut itchsnap_handle, login: *const itchsnap_login, from: u64, now_ms: u64) -> itchsnap_answer;

    /// The login request to send first. Codes: OK.
    pub fn itchsnap_client_login(handle: *mut itchsnap_handle) -> itchsnap_login_packet;

    /// What a packet from the server means. A block that is not a server packet leaves the session
    /// unchanged. Codes: OK (nothing), ACCEPTED, REJECTED, DATA, ENDED, 1 to 5, TOO_MANY_MESSAGES,
    /// 96 to 100.
    pub fn itchsnap_client_packet(handle: *mut itchsnap_handle, packet: *const u8, len: usize, now_ms: u64) -> itchsnap_act;

    /// Fills a handle with a server's session of total messages. Codes: OK, or the first that
    /// applies of BAD_TEXT, TOO_MANY_MESSAGES (total is above 10^19 - 1), IN_USE, OUT_OF_MEMORY.
    pub fn itchsnap_server_new(handle: *mut itchsnap_handle, config: *const itchsnap_login, total: u64, now_ms: u64) -> itchsnap_answer;

    /// The packet to send when a login is accepted, with messages from this number on. Codes: OK,
    /// NO_NUMBER.
    pub fn itchsnap_server_accepted(handle: *mut itchsnap_handle, next: u64) -> itchsnap_acceptance_packet;

    /// What to do after a packet from the client. A block that is not a client packet leaves the
    /// session unchanged. Codes: OK (nothing), ACCEPTED, REJECTED, LOGGED_OUT, 1 to 5, 96 to 100.
    pub fn itchsnap_server_packet(handle: *mut itchsnap_handle, packet: *const u8, len: usize, now_ms: u64) -> itchsnap_act;

    /// What either end must do at this time if no packet has arrived. A heartbeat counts as sent.
    /// Codes: OK (nothing), HEARTBEAT, LOST.
    pub fn itchsnap_session_tick(handle: *mut itchsnap_handle, now_ms: u64) -> itchsnap_answer;

    /// Records that either end sent something at this time. Codes: OK.
    pub fn itchsnap_session_sent(handle: *mut itchsnap_handle, now_ms: u64) -> itchsnap_answer;
}
