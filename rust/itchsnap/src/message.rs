//! Messages, by their fields.

use itchsnap_sys as sys;

use crate::Refused;

/// The fields of a message, named as in the standard. Fields that its type does not have are 0. Prices are in ten-thousandths of a dollar,
/// texts are padded with spaces, and a code is the byte of the message.
pub type Message = sys::itchsnap_message;

/// Returns the fields of a payload's message, or its first fault if it is not a valid message. Types other than S R H Y h L A F E C X D U
/// P Q B and G are not decoded: for such a message only the type is filled in.
///
/// ```
/// use itchsnap::{Day, Reason, decode};
///
/// let day = Day::read("../../examples/book.itch")?;
/// let orders: Vec<_> = day.messages().filter_map(|it| decode(it).ok()).filter(|it| it.message_type == b'A').collect();
/// assert_eq!((orders[0].order_reference_number, orders[0].price, &orders[0].stock), (1, 1_500_000, b"AAPL    "));
/// assert_eq!(decode(b"A").unwrap_err().reason, Reason::WrongLength);
/// # Ok::<(), std::io::Error>(())
/// ```
pub fn decode(payload: &[u8]) -> Result<Message, Refused> {
    let mut message = Message::default();
    // SAFETY: the slice is readable for its length, the message is writable, and no pointer is null.
    let answer = unsafe { sys::itchsnap_decode(payload.as_ptr(), payload.len(), &mut message) };
    match answer.code {
        sys::ITCHSNAP_OK => Ok(message),
        code => Err(Refused::of(code, answer.detail)),
    }
}
