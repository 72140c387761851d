//! Calls the library directly through its declarations.

use itchsnap_sys::*;

#[test]
fn the_library_has_the_interface_of_the_declarations() {
    // SAFETY: the call has no arguments.
    assert_eq!(unsafe { itchsnap_version() }, ITCHSNAP_VERSION);
}

#[test]
fn an_empty_handle_is_no_market() {
    let mut handle = ITCHSNAP_NONE;
    // SAFETY: the handle is empty, and nothing else uses it.
    unsafe {
        assert_eq!(itchsnap_order_count(&mut handle).code, ITCHSNAP_WRONG_HANDLE);
        assert_eq!(itchsnap_market_new(&mut handle).code, ITCHSNAP_OK);
        assert_eq!(itchsnap_market_new(&mut handle).code, ITCHSNAP_IN_USE);
        itchsnap_free(&mut handle);
        itchsnap_free(&mut handle);
        assert_eq!(itchsnap_order_count(&mut handle).code, ITCHSNAP_WRONG_HANDLE);
    }
}

/// A text padded with spaces.
fn padded<const N: usize>(text: &str) -> [u8; N] {
    let mut bytes = [b' '; N];
    bytes[..text.len()].copy_from_slice(text.as_bytes());
    bytes
}

#[test]
fn both_ends_of_a_session_agree_on_a_login() {
    let login = itchsnap_login { username: padded("desk"), password: padded("secret"), session: padded("") };
    let config = itchsnap_login { session: padded("DAY"), ..login };
    let (mut client, mut server) = (ITCHSNAP_NONE, ITCHSNAP_NONE);
    // SAFETY: the handles are empty, and nothing else uses them; slices are readable for their lengths.
    unsafe {
        assert_eq!(itchsnap_client_new(&mut client, &login, 1, 0).code, ITCHSNAP_OK);
        assert_eq!(itchsnap_server_new(&mut server, &config, 5, 0).code, ITCHSNAP_OK);
        let request = itchsnap_client_login(&mut client);
        let act = itchsnap_server_packet(&mut server, request.bytes.as_ptr(), request.bytes.len(), 1);
        assert_eq!((act.code, act.number), (ITCHSNAP_ACCEPTED, 1));
        let accepted = itchsnap_server_accepted(&mut server, act.number);
        let act = itchsnap_client_packet(&mut client, accepted.bytes.as_ptr(), accepted.bytes.len(), 1);
        assert_eq!((act.code, act.number), (ITCHSNAP_ACCEPTED, 1));
        assert_eq!(itchsnap_session_tick(&mut client, 1500).code, ITCHSNAP_HEARTBEAT);
        itchsnap_free(&mut client);
        itchsnap_free(&mut server);
    }
}

#[test]
fn messages_are_decoded_alone_and_as_rows() {
    let blocks = *b"\0\x0cS\0\x01\0\0\0\0\0\0\0\x07O\0\x02?!";
    let mut message = itchsnap_message::default();
    let mut rows = [itchsnap_row { number: 0, offset: 0, timestamp: 0, payload: [0; 48] }; 2];
    // SAFETY: slices are readable, and those that are written to writable, for their lengths.
    unsafe {
        assert_eq!(itchsnap_decode(blocks[2..].as_ptr(), 12, &mut message).code, ITCHSNAP_OK);
        let done = itchsnap_decode_blocks(blocks.as_ptr(), blocks.len(), 4, b"?S".as_ptr(), 2, [].as_ptr(), 0, rows.as_mut_ptr(), 2);
        assert_eq!((done.code, done.count, done.rows, done.len), (ITCHSNAP_OK, 6, 2, blocks.len()));
    }
    assert_eq!((message.message_type, message.stock_locate, message.timestamp, message.event_code), (b'S', 1, 7, b'O'));
    assert_eq!((rows[0].number, rows[0].offset, rows[0].timestamp, rows[0].payload[11]), (5, 2, 7, b'O'));
    assert_eq!((rows[1].number, rows[1].offset, rows[1].timestamp, &rows[1].payload[..3]), (6, 16, 0, b"?!\0".as_slice()));
}

#[test]
fn each_code_has_a_text() {
    let mut text = [1; ITCHSNAP_REASON_LEN];
    // SAFETY: the slice is writable for its length.
    let written = unsafe { itchsnap_reason_text(ITCHSNAP_STOCK_MISMATCH, text.as_mut_ptr(), text.len()) };
    assert_eq!((written.code, written.len), (ITCHSNAP_OK, 15));
    assert_eq!(text[..15].iter().map(|it| *it as u8).collect::<Vec<_>>(), b"stock mismatch\0");
}
