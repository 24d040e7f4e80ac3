//! What is left of a cache that was closed.

use crate::client::{got_of, Got};
use crate::refused::judged;
use crate::{raw, Config, Key, Refused, Totals};
use std::ptr::NonNull;

/// An entry that was left of a cache.
#[repr(C)]
#[derive(Clone, Copy, Debug, Default, PartialEq, Eq)]
pub struct Entry {
    /// Its key.
    pub key: Key,
    /// How many bytes its value has.
    pub length: usize,
    /// Its charge.
    pub charge: u32,
    /// Its countdown: 3, 2 or 1 at first, by its priority; a use adds 1; a visit of the clock takes 1
    /// and leaves at most 2, and evicts it at 0.
    pub uses: u32,
    /// Whether look-ups found it: if not, it was erased.
    pub visible: bool,
    /// Whether a look-up marked it.
    pub hit: bool,
}

/// What is left of a cache, which stays on the thread that closed it. Shards and slots count from 0; a
/// reading of one that isn't there is [`Refused::OUT_OF_RANGE`].
///
/// ```
/// # use ferretgold::{Cache, Config, Got, Key, Priority};
/// # fn main() -> Result<(), ferretgold::Refused> {
/// let cache = Cache::open(&Config::sized(1 << 20, 64, 1)?)?;
/// cache.client()?.insert(Key { w0: 7, w1: 1 }, b"kept", 4, Priority::High)?;
/// let left = cache.close_keeping().map_err(|(why, _)| why)?;
/// let mut value = [0; 64];
/// for (shard, slot, entry) in left.entries() {
///     assert_eq!((entry.key, entry.charge), (Key { w0: 7, w1: 1 }, 4));
///     assert_eq!(left.value(shard, slot, &mut value)?, Got::Value(entry.length));
/// }
/// assert_eq!(left.entries().count(), 1);
/// # Ok(())
/// # }
/// ```
#[derive(Debug)]
pub struct Closed {
    pub(crate) at: NonNull<raw::Closed>,
}

impl Closed {
    pub(crate) fn of(at: NonNull<raw::Closed>) -> Closed {
        Closed { at }
    }

    /// What the cache was opened with.
    pub fn config(&self) -> Config {
        let mut config = raw::Config::default();
        let _ = unsafe { raw::ferretgold_closed_config(self.at.as_ptr(), &mut config) };
        Config::of(&config)
    }

    /// What is left in sum.
    pub fn totals(&self) -> Totals {
        let mut totals = Totals::default();
        let _ = unsafe { raw::ferretgold_closed_totals(self.at.as_ptr(), &mut totals) };
        totals
    }

    /// Each entry, with its shard and its slot, in their order.
    pub fn entries(&self) -> impl Iterator<Item = (u32, u32, Entry)> + '_ {
        let Config { shards, slots, .. } = self.config();
        (0..shards).flat_map(move |shard| {
            (0..slots).filter_map(move |slot| {
                let entry = self.entry(shard, slot).ok().flatten()?;
                Some((shard, slot, entry))
            })
        })
    }

    /// The entry of a slot, if it has one.
    pub fn entry(&self, shard: u32, slot: u32) -> Result<Option<Entry>, Refused> {
        let mut entry = Entry::default();
        match unsafe { raw::ferretgold_closed_entry(self.at.as_ptr(), shard, slot, &mut entry) } {
            1 => Ok(None),
            status => judged(status).map(|()| Some(entry)),
        }
    }

    /// Copies the value of a slot's entry to the front of a buffer; the rest of it stays. A slot
    /// without an entry is a miss.
    pub fn value(&self, shard: u32, slot: u32, buffer: &mut [u8]) -> Result<Got, Refused> {
        let (at, room, mut length) = (buffer.as_mut_ptr().cast(), buffer.len(), 0);
        let closed = self.at.as_ptr();
        let status =
            unsafe { raw::ferretgold_closed_value(closed, shard, slot, at, room, &mut length) };
        match Refused(status) {
            Refused::OUT_OF_RANGE => Err(Refused::OUT_OF_RANGE),
            _ => Ok(got_of(status, length)),
        }
    }

    /// The meta word of a slot.
    pub fn word(&self, shard: u32, slot: u32) -> Result<u64, Refused> {
        let mut word = 0;
        judged(unsafe { raw::ferretgold_closed_word(self.at.as_ptr(), shard, slot, &mut word) })?;
        Ok(word)
    }

    /// How often a slot stands in the trails of its shard's entries.
    pub fn displacement(&self, shard: u32, slot: u32) -> Result<u64, Refused> {
        let (closed, mut many) = (self.at.as_ptr(), 0);
        judged(unsafe { raw::ferretgold_closed_displacement(closed, shard, slot, &mut many) })?;
        Ok(many)
    }

    /// Where the hand of a shard's clock stands.
    pub fn hand(&self, shard: u32) -> Result<u64, Refused> {
        let mut hand = 0;
        judged(unsafe { raw::ferretgold_closed_hand(self.at.as_ptr(), shard, &mut hand) })?;
        Ok(hand)
    }
}

impl Drop for Closed {
    fn drop(&mut self) {
        unsafe { raw::ferretgold_closed_free(self.at.as_ptr()) };
    }
}
