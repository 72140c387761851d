//! A handle of the library, which is freed exactly once.

use std::cell::UnsafeCell;
use std::mem::MaybeUninit;

use itchsnap_sys::{
    ITCHSNAP_ABSENT, ITCHSNAP_NO_ROOM, ITCHSNAP_NONE, ITCHSNAP_OK, ITCHSNAP_OUT_OF_MEMORY, itchsnap_free, itchsnap_handle, itchsnap_written,
};

use crate::Refused;

/// A market, a joiner, or nothing. Even look-ups write to the handle, so it is in a cell, which also keeps it on its thread.
#[derive(Debug)]
pub(crate) struct Handle(UnsafeCell<itchsnap_handle>);

impl Handle {
    /// An empty handle.
    pub(crate) fn none() -> Handle {
        Handle(UnsafeCell::new(ITCHSNAP_NONE))
    }

    /// Returns its address, for one call. Calls of this crate never overlap: each ends before the next uses the handle.
    pub(crate) fn at(&self) -> *mut itchsnap_handle {
        self.0.get()
    }
}

impl Drop for Handle {
    fn drop(&mut self) {
        // SAFETY: only the library has written this handle, and nothing else uses it.
        unsafe { itchsnap_free(self.at()) }
    }
}

/// Returns whether a look-up found something. The only other code of a look-up in a market is `ABSENT`.
pub(crate) fn is_found(code: u32) -> bool {
    debug_assert!(code == ITCHSNAP_OK || code == ITCHSNAP_ABSENT, "a look-up returned {code}");
    code == ITCHSNAP_OK
}

/// Allocates room for a number of items, if there is enough memory.
pub(crate) fn room<T>(len: usize) -> Result<Vec<T>, Refused> {
    let mut room = Vec::new();
    match room.try_reserve_exact(len) {
        Ok(()) => Ok(room),
        Err(_) => Err(Refused::of(ITCHSNAP_OUT_OF_MEMORY, 0)),
    }
}

/// Returns the items that a function writes. Calls it first for the length, and then with memory of that length.
pub(crate) fn listed<T: Copy>(mut write: impl FnMut(*mut T, usize) -> itchsnap_written) -> Result<Vec<T>, Refused> {
    let mut nothing = MaybeUninit::<T>::uninit();
    let asked = write(nothing.as_mut_ptr(), 0);
    let wanted = match asked.code {
        ITCHSNAP_OK | ITCHSNAP_NO_ROOM => asked.len,
        code => return Err(Refused::of(code, 0)),
    };
    let mut items = room(wanted)?;
    let written = write(items.as_mut_ptr(), wanted);
    if written.code != ITCHSNAP_OK {
        return Err(Refused::of(written.code, 0));
    }
    // SAFETY: the library has written as many items as it reports, at most as many as there was room for.
    unsafe { items.set_len(written.len) };
    Ok(items)
}
