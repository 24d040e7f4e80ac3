//! A block cache of fixed slots for many threads, without locks: `libferretgold` for Rust. What each
//! call does, costs and refuses, `ferretgold.h` says, `ferretgold_closed.h` of a closed cache,
//! `ferretgold_image.h` of one that begins with entries, and `ferretgold_object.h` of one of objects.
//! The build links `libferretgold.a` of the folder that `FERRETGOLD_LIBRARIES` names, else of the
//! place where the crate was installed or checked out; and with the feature `file`, which saves and
//! loads caches, also `libferretgold_file.a`.
//!
//! A [`Cache`] is shared by reference, and any thread may take a [`Client`] of it. A client is used by
//! one thread at a time: it is `Send` and not `Sync`. A [`Handle`] borrows its client and gives itself
//! back when it goes; a client, too, with the handles that were forgotten. So types rule out what
//! the library can't check, except calls from a signal handler or a forked child.
//!
//! ```
//! use ferretgold::{Cache, Config, Got, Inserted, Key, Priority};
//!
//! # fn main() -> Result<(), ferretgold::Refused> {
//! let cache = Cache::open(&Config::sized(1 << 20, 4096, 2)?)?;
//! let client = cache.client()?;
//! let (key, mut block) = (Key { w0: 7, w1: 1 }, [0; 4096]);
//! assert_eq!(client.get(key, &mut block, true), Got::Miss);
//! assert_eq!(client.insert(key, b"a block", 7, Priority::Low)?, Inserted::Placed);
//! assert_eq!(client.get(key, &mut block, true), Got::Value(7));
//! assert_eq!(&block[..7], b"a block");
//! # Ok(())
//! # }
//! ```
//!
//! A handle keeps its entry, whatever other threads do, also if it is erased:
//!
//! ```
//! # use ferretgold::{Cache, Config, Key, Priority};
//! # fn main() -> Result<(), ferretgold::Refused> {
//! # let cache = Cache::open(&Config::sized(1 << 20, 4096, 2)?)?;
//! # let (mine, yours) = (cache.client()?, cache.client()?);
//! # let (key, mut block) = (Key { w0: 7, w1: 1 }, [0; 4096]);
//! let (_, handle) = mine.insert_pinned(key, b"kept", 4, Priority::Low)?;
//! assert_eq!(yours.erase(key), 1);
//! assert_eq!(handle.read(&mut block)?, 4);
//! assert!(yours.lookup(key)?.is_none());
//! assert!(handle.release(true, false)); // freed: it was the last one
//! # Ok(())
//! # }
//! ```
//!
//! [`Objects`] is a cache of values of the program's, which are read where they lie; its calls need no
//! client:
//!
//! ```
//! # use ferretgold::{ObjectConfig, Objects};
//! # fn main() -> Result<(), Box<dyn std::error::Error>> {
//! let cache = Objects::open(&ObjectConfig::sized(1 << 20, 4096))?;
//! cache.insert(&[7; 16], vec![b'x'; 4096], 4096)?;
//! let block = cache.get(&[7; 16]).expect("nothing else is there");
//! std::thread::spawn(move || assert_eq!(block.len(), 4096)).join().unwrap();
//! # Ok(())
//! # }
//! ```
//!
//! No handle outlives its client, and no client is used by two threads at once:
//!
//! ```compile_fail,E0505
//! # use ferretgold::{Cache, Config, Key};
//! # let cache = Cache::open(&Config::default()).unwrap();
//! # let client = cache.client().unwrap();
//! let handle = client.lookup(Key { w0: 7, w1: 1 }).unwrap();
//! drop(client);
//! drop(handle);
//! ```
//!
//! ```compile_fail,E0277
//! # use ferretgold::{Cache, Config, Key};
//! # let cache = Cache::open(&Config::default()).unwrap();
//! # let client = cache.client().unwrap();
//! std::thread::scope(|scope| scope.spawn(|| client.held()));
//! ```

#![warn(missing_docs)]

mod client;
mod closed;
mod config;
#[cfg(feature = "file")]
mod file;
mod handle;
mod hashed;
mod image;
mod loads;
mod meant;
mod object_cache;
mod object_config;
#[cfg(feature = "file")]
mod object_file;
mod objects;
mod owned;
mod panics;
mod pinned;
#[allow(missing_docs)]
mod raw;
mod refused;
mod sizes;

use std::ffi::CStr;
use std::ptr::{null_mut, NonNull};

pub use client::{Client, Got, HeldEntry};
pub use closed::{Closed, Entry};
pub use config::{Config, MOST_SERIALS, UNSEEDED};
#[cfg(feature = "file")]
pub use file::{FileError, Loaded};
pub use handle::Handle;
pub use hashed::{HashedObjects, PinnedEntry};
pub use image::Image;
pub use loads::LoadError;
pub use object_config::ObjectConfig;
pub use objects::Objects;
pub use owned::{Owned, Rejected};
pub use pinned::Pinned;
pub use raw::Part;
use refused::judged;
pub use refused::Refused;
pub use sizes::{Advice, Fit};

/// A key of 16 bytes.
#[repr(C)]
#[derive(Clone, Copy, Debug, Default, PartialEq, Eq, Hash)]
pub struct Key {
    /// Its first eight bytes.
    pub w0: u64,
    /// The others.
    pub w1: u64,
}

/// How many visits of the clock a new entry that nobody looks up survives: 3, 2 or 1.
#[repr(u32)]
#[derive(Clone, Copy, Debug, Default, PartialEq, Eq, Hash)]
pub enum Priority {
    /// Three.
    High = 0,
    /// Two.
    #[default]
    Low = 1,
    /// One.
    Bottom = 2,
}

/// What came of an insertion.
#[derive(Clone, Copy, Debug, PartialEq, Eq, Hash)]
pub enum Inserted {
    /// The entry is in the table.
    Placed,
    /// There was no place for it: as if the entry had been placed and evicted at once. Of insertions
    /// without a handle only.
    Dropped,
    /// The entry is in no table, and goes with its last handle. Of those with one only.
    Standalone,
    /// An entry of the key was met, which is used and keeps its value. Of [`Client::insert`] only.
    There,
}

/// What the calls of a client did on all shards. Counts saturate.
#[repr(C)]
#[derive(Clone, Copy, Debug, Default, PartialEq, Eq)]
pub struct Stats {
    /// Slots that were visited for a key.
    pub probes: u64,
    /// Insertions that met their key.
    pub boosts: u64,
    /// Entries that evictions freed.
    pub evicted: u64,
    /// Those of them that were marked.
    pub evicted_hit: u64,
    /// The charges of those that evictions freed.
    pub freed: u64,
    /// Turns of the clock's hand.
    pub turns: u64,
    /// Corrections of words whose uses were near their end.
    pub corrections: u64,
    /// Compare-exchanges that lost to another thread's step.
    pub lost: u64,
}

/// What calls came to. Each insertion that isn't refused for its arguments or for lack of memory is one of
/// `placed`, `there`, `dropped`, `standalone` and `refused`, and one of `by_turns`.
#[repr(C)]
#[derive(Clone, Copy, Debug, Default, PartialEq, Eq)]
pub struct Counts {
    /// Look-ups that gave a handle, and readings by a key that gave a value.
    pub hits: u64,
    /// All others.
    pub misses: u64,
    /// Insertions that were placed.
    pub placed: u64,
    /// Those that met an entry of their key: [`Inserted::There`], or `Standalone`.
    pub there: u64,
    /// Those that found no place, or no empty slot, and were dropped.
    pub dropped: u64,
    /// And those that stand alone for that.
    pub standalone: u64,
    /// Those that were refused for lack of handles, serials, capacity or places.
    pub refused: u64,
    /// As in [`Stats`], like the next four.
    pub evicted: u64,
    /// Likewise.
    pub evicted_hit: u64,
    /// Likewise.
    pub freed: u64,
    /// Likewise.
    pub turns: u64,
    /// Likewise.
    pub lost: u64,
    /// Insertions by how many turns of the hand each took: the first none, the k-th behind it at most
    /// 2<sup>k - 1</sup> and more than those before, the last more.
    pub by_turns: [u64; 16],
}

/// What was left of a cache that was closed, by the books and slot by slot. They are equal.
#[repr(C)]
#[derive(Clone, Copy, Debug, Default, PartialEq, Eq)]
pub struct Totals {
    /// The charges of its entries.
    pub usage: u64,
    /// How many entries.
    pub occupied: u64,
    /// Their charges, slot by slot.
    pub slot_charges: u64,
    /// Their number, slot by slot.
    pub slot_count: u64,
}

/// The version of the library that is linked.
pub fn version() -> &'static str {
    let text = unsafe { CStr::from_ptr(raw::ferretgold_version()) };
    text.to_str().unwrap_or("unknown")
}

/// A cache. All threads may take clients of it.
#[derive(Debug)]
pub struct Cache {
    at: NonNull<raw::Cache>,
}

// Taking a client and giving one back are for all threads at once, and the rest needs it whole.
unsafe impl Send for Cache {}
unsafe impl Sync for Cache {}

impl Cache {
    /// Opens a cache with no entries, and with all its clients.
    pub fn open(config: &Config) -> Result<Cache, Refused> {
        let mut at = null_mut();
        judged(unsafe { raw::ferretgold_open(&config.raw(), &mut at) })?;
        NonNull::new(at).map(|at| Cache { at }).ok_or(Refused::NULL)
    }

    /// What it was opened with, and in it the seed that was drawn.
    pub fn config(&self) -> Config {
        let mut config = raw::Config::default();
        let _ = unsafe { raw::ferretgold_config_of(self.at.as_ptr(), &mut config) };
        Config::of(&config)
    }

    /// The most bytes of a value.
    pub fn value_limit(&self) -> usize {
        unsafe { raw::ferretgold_value_limit(self.at.as_ptr()) }
    }

    /// What the calls of all clients came to, in sum, also while they are at work: of calls that had
    /// returned. No number falls.
    pub fn counts(&self) -> Counts {
        let mut counts = Counts::default();
        let _ = unsafe { raw::ferretgold_cache_counts(self.at.as_ptr(), &mut counts) };
        counts
    }

    /// The same of the client of this number, whoever has it. Refuses [`Refused::OUT_OF_RANGE`].
    pub fn client_counts(&self, number: u32) -> Result<Counts, Refused> {
        let mut counts = Counts::default();
        let cache = self.at.as_ptr();
        judged(unsafe { raw::ferretgold_client_counts(cache, number, &mut counts) })?;
        Ok(counts)
    }

    /// A client that is idle. It waits for nothing and allocates nothing.
    pub fn client(&self) -> Result<Client<'_>, Refused> {
        let mut at = null_mut();
        judged(unsafe { raw::ferretgold_client_open(self.at.as_ptr(), &mut at) })?;
        NonNull::new(at)
            .map(|at| Client::of(self, at))
            .ok_or(Refused::NULL)
    }

    /// Ends the cache. A client that was forgotten makes it [`Refused::CLIENTS_OUT`]; the cache is given
    /// back then.
    pub fn close(self) -> Result<Totals, (Refused, Cache)> {
        let mut totals = Totals::default();
        match judged(unsafe { raw::ferretgold_close(self.at.as_ptr(), &mut totals) }) {
            Ok(()) => {
                std::mem::forget(self);
                Ok(totals)
            }
            Err(why) => Err((why, self)),
        }
    }

    /// Ends the cache, and keeps what is left of it. The cache is given back if that is refused.
    pub fn close_keeping(self) -> Result<Closed, (Refused, Cache)> {
        let mut left = null_mut();
        let status = unsafe { raw::ferretgold_close_keeping(self.at.as_ptr(), &mut left) };
        match judged(status).and_then(|()| NonNull::new(left).ok_or(Refused::NULL)) {
            Ok(left) => {
                std::mem::forget(self);
                Ok(Closed::of(left))
            }
            Err(why) => Err((why, self)),
        }
    }
}

/// Ends the cache, unless a client of it was forgotten.
impl Drop for Cache {
    fn drop(&mut self) {
        let _ = unsafe { raw::ferretgold_close(self.at.as_ptr(), null_mut()) };
    }
}
