//! Erasing whatever a function of the key means.

#![deny(unsafe_op_in_unsafe_fn)]

use crate::refused::judged;
use crate::{panics, raw, Key, Refused};
use std::ffi::c_void;
use std::ptr;

/// What a walk asks of each key.
struct Asking<'a> {
    meant: &'a mut dyn FnMut(&Key) -> bool,
    panicked: bool,
}

/// # Safety
/// The context is an [`Asking`] that nobody else uses, and the key is one.
unsafe extern "C" fn is_meant(context: *mut c_void, key: *const Key) -> bool {
    // SAFETY: the caller says so.
    let (asking, key) = unsafe { (&mut *context.cast::<Asking>(), &*key) };
    if asking.panicked {
        return false;
    }
    let mut answer = None;
    panics::caught(|| answer = Some((asking.meant)(key)));
    asking.panicked = answer.is_none();
    answer == Some(true)
}

/// How many entries a call of C's hides, which asks what is meant. Nothing more is, once `meant`
/// panicked; the panic goes on when the walk is over.
pub(crate) fn erased_where(
    meant: &mut dyn FnMut(&Key) -> bool,
    erase: impl FnOnce(raw::Meant, *mut c_void, *mut u64) -> u32,
) -> Result<u64, Refused> {
    let mut asking = Asking {
        meant,
        panicked: false,
    };
    let mut hidden = 0;
    let status = erase(is_meant, ptr::from_mut(&mut asking).cast(), &mut hidden);
    panics::go_on();
    judged(status).map(|()| hidden)
}
