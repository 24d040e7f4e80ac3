//! Panics of objects that C has dropped: each waits until the call of this thread which dropped it
//! is over, as nothing unwinds through C.

use std::any::Any;
use std::cell::Cell;
use std::mem::forget;
use std::panic::{catch_unwind, resume_unwind, AssertUnwindSafe};
use std::thread;

type Panic = Box<dyn Any + Send>;

thread_local! {
    /// Whether one waits: read at the end of each call.
    static WAITS: Cell<bool> = const { Cell::new(false) };
    static FIRST: Cell<Option<Panic>> = const { Cell::new(None) };
}

/// Drops an object in a call from C. Its own calls don't meet what waits already.
pub(crate) fn caught(drops: impl FnOnce()) {
    let before = taken();
    let panic = catch_unwind(AssertUnwindSafe(drops)).err();
    match (before, panic) {
        (Some(first), None) | (None, Some(first)) => keep(first),
        (Some(first), Some(next)) => {
            give_up(next);
            keep(first);
        }
        (None, None) => {}
    }
}

/// At the end of a call: the first panic of an object that it dropped goes on here, unless the
/// thread unwinds already.
#[inline]
pub(crate) fn go_on() {
    if WAITS.with(Cell::get) {
        goes_on();
    }
}

#[cold]
fn goes_on() {
    match taken() {
        Some(panic) if thread::panicking() => give_up(panic),
        Some(panic) => resume_unwind(panic),
        None => {}
    }
}

fn taken() -> Option<Panic> {
    if !WAITS.with(|it| it.replace(false)) {
        return None;
    }
    FIRST.try_with(Cell::take).ok().flatten()
}

/// A thread that ends, and has no place for it any more, gives it up.
fn keep(panic: Panic) {
    let mut panic = Some(panic);
    if FIRST.try_with(|it| it.set(panic.take())).is_ok() {
        WAITS.with(|it| it.set(true));
    }
    if let Some(panic) = panic {
        give_up(panic);
    }
}

/// The panic was told when it began. What it has may panic once more, for good.
fn give_up(panic: Panic) {
    if let Err(again) = catch_unwind(AssertUnwindSafe(|| drop(panic))) {
        forget(again);
    }
}
