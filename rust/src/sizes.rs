//! What comes of a size, and what to think over in a configuration.

use crate::raw;
use std::ffi::CStr;
use std::fmt;

/// What came of a size: what a configuration takes of the bytes that were asked for, and what fits.
#[repr(C)]
#[derive(Clone, Copy, Debug, Default, PartialEq, Eq)]
pub struct Fit {
    /// The bytes that it takes.
    pub bytes: u64,
    /// Bytes of values that fit, each as long as was asked for.
    pub values: u64,
    /// Entries that fit, as its capacity has it.
    pub entries: u64,
    /// Bytes with which twice as many would fit; 0 if no number of bytes is enough.
    pub more: u64,
    /// Whether it takes at least half of what was asked for.
    pub half: bool,
}

/// What to think over in a configuration: a bit of `ferretgold_advice` of ferretgold.h. Its text is the
/// library's.
#[derive(Clone, Copy, PartialEq, Eq, Hash)]
pub struct Advice(pub u32);

impl Advice {
    /// Held entries may fill a shard.
    pub const MANY_HANDLES: Advice = Advice(1);
    /// Slots are full before charges reach the capacity.
    pub const LARGE_CAPACITY: Advice = Advice(2);
    /// The capacity leaves more than half of the slots empty.
    pub const SMALL_CAPACITY: Advice = Advice(4);
    /// Shards fill unevenly.
    pub const SMALL_SHARDS: Advice = Advice(8);

    /// Each bit of a sum.
    pub(crate) fn each(sum: u32) -> Vec<Advice> {
        let bits = (0..u32::BITS).map(|place| sum & 1 << place);
        bits.filter(|bit| *bit != 0).map(Advice).collect()
    }
}

impl fmt::Display for Advice {
    fn fmt(&self, out: &mut fmt::Formatter<'_>) -> fmt::Result {
        let text = unsafe { CStr::from_ptr(raw::ferretgold_advice_text(self.0)) };
        out.write_str(text.to_str().unwrap_or("unknown"))
    }
}

impl fmt::Debug for Advice {
    fn fmt(&self, out: &mut fmt::Formatter<'_>) -> fmt::Result {
        write!(out, "Advice({}: {self})", self.0)
    }
}
