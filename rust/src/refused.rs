//! Why a call did nothing.

use crate::raw;
use std::ffi::CStr;
use std::fmt;

/// Why a call did nothing: a status of ferretgold.h. Its text is the library's.
#[derive(Clone, Copy, PartialEq, Eq, Hash)]
pub struct Refused(pub u32);

macro_rules! statuses {
    ($($name:ident = $number:literal: $what:literal;)*) => {
        impl Refused {
            $(#[doc = $what] pub const $name: Refused = Refused($number);)*
        }
    };
}

statuses! {
    NULL = 16: "A pointer is null; no call of this crate is refused so.";
    NO_HANDLE = 17: "The client holds no such handle; no call of this crate is refused so.";
    NO_CHARGE = 18: "The charge is 0.";
    TOO_LONG = 19: "The value has more bytes than a slot has room for.";
    TOO_SHORT = 20: "The buffer has fewer bytes than the value.";
    BAD_PRIORITY = 21: "There is no such priority; no call of this crate is refused so.";
    OUT_OF_RANGE = 22: "There is no such shard, or no such slot.";
    HANDLES_FULL = 23: "The client holds as many handles as it may.";
    SPENT = 24: "The client has used all its serials.";
    TOO_LARGE = 25: "The charge is above the capacity of a shard, which is strict.";
    CAPACITY_FULL = 26: "Strict only: evictions freed too little of the charge.";
    OCCUPANCY_FULL = 27: "Strict only: the shard was full, and evictions freed no slot.";
    OUT_OF_MEMORY = 28: "Memory was refused.";
    BAD_SLOTS = 29: "The configuration's slots are out of range.";
    BAD_ROOM = 30: "The configuration's room is out of range.";
    BAD_CLIENTS = 31: "The configuration's clients are out of range.";
    BAD_HANDLES = 32: "The configuration's handles are out of range.";
    BAD_SHARDS = 33: "The configuration's shards are out of range.";
    BAD_CAPACITY = 34: "The configuration's capacity is out of range.";
    BAD_SERIALS = 35: "The configuration's serials are out of range.";
    NO_CLIENT = 36: "No client of the cache is idle.";
    OTHER_CACHE = 37: "The client is another cache's; no call of this crate is refused so.";
    HANDLES_OUT = 38: "The client holds handles that were forgotten.";
    CLIENTS_OUT = 39: "Clients of the cache were forgotten.";
    BAD_SIZE = 40: "The library is older than this crate.";
    GONE_FULL = 41: "Of objects, from a drop: its client's list is full.";
    TOO_HIGH = 42: "Of objects: the address is 2^48 or above.";
    BAD_GONE = 43: "The configuration's `gone` is out of range.";
    UNTAKEN = 44: "Objects weren't all taken; no call of this crate is refused so.";
    NO_SEED = 45: "The system has no number to draw for a seed yet.";
    SHARED = 46: "Somebody else has the cache; not known to come.";
}

impl fmt::Display for Refused {
    fn fmt(&self, out: &mut fmt::Formatter<'_>) -> fmt::Result {
        let text = unsafe { CStr::from_ptr(raw::ferretgold_status_text(self.0)) };
        out.write_str(text.to_str().unwrap_or("unknown"))
    }
}

impl fmt::Debug for Refused {
    fn fmt(&self, out: &mut fmt::Formatter<'_>) -> fmt::Result {
        write!(out, "Refused({}: {self})", self.0)
    }
}

impl std::error::Error for Refused {}

/// A status as a result.
pub(crate) fn judged(status: u32) -> Result<(), Refused> {
    match status {
        0 => Ok(()),
        why => Err(Refused(why)),
    }
}
