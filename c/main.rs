//! A caller in Rust. README.md contains its command.
//!
//!     main DAY SNAPSHOT    writes the snapshot of the day file DAY to SNAPSHOT

use std::env;
use std::error::Error;
use std::fmt;
use std::fs;

#[repr(C)]
struct Handle {
    at: *mut u8,
    live: bool,
}

#[repr(C)]
struct Answer {
    detail: u64,
    code: u32,
}

#[repr(C)]
struct Written {
    len: usize,
    code: u32,
}

unsafe extern "C" {
    fn itchsnap_market_new(handle: *mut Handle) -> Answer;
    fn itchsnap_free(handle: *mut Handle);
    fn itchsnap_market_apply(handle: *mut Handle, payload: *const u8, len: usize) -> Answer;
    fn itchsnap_snapshot(handle: *mut Handle, next: u64, out: *mut u8, len: usize) -> Written;
}

const OK: u32 = 0;
const NO_ROOM: u32 = 49;

/// The library refused a call with this code of itchsnap.h.
#[derive(Debug)]
struct Refused {
    code: u32,
    detail: u64,
}

impl fmt::Display for Refused {
    fn fmt(&self, f: &mut fmt::Formatter<'_>) -> fmt::Result {
        write!(f, "refused with code {}, detail {}", self.code, self.detail)
    }
}

impl Error for Refused {}

/// A market. It is neither `Send` nor `Copy`, as the library requires of a handle.
struct Market {
    handle: Handle,
}

impl Market {
    fn new() -> Result<Market, Refused> {
        let mut handle = Handle { at: std::ptr::null_mut(), live: false };
        // SAFETY: the handle is empty, and nothing else uses it.
        let Answer { detail, code } = unsafe { itchsnap_market_new(&mut handle) };
        if code == OK { Ok(Market { handle }) } else { Err(Refused { code, detail }) }
    }

    fn apply(&mut self, payload: &[u8]) -> Result<(), Refused> {
        // SAFETY: the slice is readable for its length, and its pointer is not null.
        let Answer { detail, code } = unsafe { itchsnap_market_apply(&mut self.handle, payload.as_ptr(), payload.len()) };
        if code == OK { Ok(()) } else { Err(Refused { code, detail }) }
    }

    fn snapshot(&mut self, next: u64) -> Result<Vec<u8>, Refused> {
        let mut bytes = Vec::new();
        // SAFETY: the vector is writable for its length, and its pointer is not null.
        let mut written = unsafe { itchsnap_snapshot(&mut self.handle, next, bytes.as_mut_ptr(), 0) };
        if written.code == NO_ROOM {
            bytes.resize(written.len, 0);
            // SAFETY: as above.
            written = unsafe { itchsnap_snapshot(&mut self.handle, next, bytes.as_mut_ptr(), bytes.len()) };
        }
        if written.code == OK { Ok(bytes) } else { Err(Refused { code: written.code, detail: 0 }) }
    }
}

impl Drop for Market {
    fn drop(&mut self) {
        // SAFETY: only this market uses the handle.
        unsafe { itchsnap_free(&mut self.handle) }
    }
}

fn main() -> Result<(), Box<dyn Error>> {
    let mut words = env::args().skip(1);
    let (Some(day), Some(out)) = (words.next(), words.next()) else {
        return Err("usage: main DAY SNAPSHOT".into());
    };
    let day = fs::read(day)?;
    let mut market = Market::new()?;
    let mut rest = day.as_slice();
    let mut count = 0;
    while let [high, low, after @ ..] = rest {
        let len = usize::from(u16::from_be_bytes([*high, *low]));
        if len == 0 || after.len() < len {
            break;
        }
        let (payload, more) = after.split_at(len);
        market.apply(payload)?;
        count += 1;
        rest = more;
    }
    println!("{count} messages");
    fs::write(out, market.snapshot(count + 1)?)?;
    Ok(())
}
