//! How large a cache is, and how it behaves.

use crate::refused::judged;
use crate::{raw, Advice, Fit, Refused};

/// The most serials of a client.
pub const MOST_SERIALS: u64 = 1 << 54;

/// In place of a seed: keys stay as they are.
pub const UNSEEDED: u64 = u64::MAX;

/// How large a cache is, and how it behaves, as `ferretgold_config` of ferretgold.h.
///
/// ```
/// use ferretgold::{Cache, Config, Refused};
///
/// let config = Config { slots: 64, clients: 2, ..Config::default() };
/// assert!(config.memory() < Config::default().memory());
/// let bad = Config { slots: 65, ..config };
/// assert_eq!(bad.check(), Err(Refused::BAD_SLOTS));
/// assert_eq!(Cache::open(&bad).unwrap_err(), Refused::BAD_SLOTS);
/// let opened = Cache::open(&config)?.config();
/// assert_ne!(opened.seed, 0); // it was drawn
/// assert_eq!(opened, Config { seed: opened.seed, ..config });
/// # Ok::<(), Refused>(())
/// ```
#[derive(Clone, Copy, Debug, PartialEq, Eq)]
pub struct Config {
    /// Slots of each shard: a power of two, 8 to 65,536.
    pub slots: u32,
    /// Payload words of 8 bytes in each slot: 1 to 512.
    pub room: u32,
    /// Clients: 1 to 1,024.
    pub clients: u32,
    /// Handles that a client may hold at once: 1 to 16,384.
    pub handles: u32,
    /// Shards: a power of two, 1 to 64.
    pub shards: u32,
    /// Whether each shard's charges stay within its part of the capacity.
    pub strict: bool,
    /// Whether look-ups mark entries, for `evicted_hit` of the statistics.
    pub marks: bool,
    /// In charges, at most 2^40.
    pub capacity: u64,
    /// Serials of each client: 1 to 2^54.
    pub serials: u64,
    /// Of the keys; 0: opening draws one. [`UNSEEDED`] only if keys are spread already.
    pub seed: u64,
}

/// A configuration to begin with, as `FERRETGOLD_CONFIG` of ferretgold.h. Its seed is drawn.
impl Default for Config {
    fn default() -> Config {
        Config {
            slots: 2048,
            room: 512,
            clients: 16,
            handles: 16,
            shards: 2,
            strict: false,
            marks: false,
            capacity: 11_743_232,
            serials: MOST_SERIALS,
            seed: 0,
        }
    }
}

impl Config {
    /// One of at most so many bytes of memory, for values of at most `value` bytes and as many threads
    /// at work.
    pub fn sized(bytes: u64, value: usize, threads: u32) -> Result<Config, Refused> {
        Ok(Config::fitted(bytes, value, threads)?.0)
    }

    /// The same, and what came of that.
    pub fn fitted(bytes: u64, value: usize, threads: u32) -> Result<(Config, Fit), Refused> {
        let (mut it, mut fit) = (raw::Config::default(), Fit::default());
        judged(unsafe { raw::ferretgold_config_for(bytes, value, threads, &mut it, &mut fit) })?;
        Ok((Config::of(&it), fit))
    }

    /// What to think over: nothing also where it is refused. The charge of an entry is taken to be
    /// 8 * `room` bytes, or 1 where the capacity is at most one for each slot.
    pub fn advice(&self) -> Vec<Advice> {
        Advice::each(unsafe { raw::ferretgold_config_advice(&self.raw()) })
    }

    /// Whether a cache can be opened so, whatever the system gives.
    pub fn check(&self) -> Result<(), Refused> {
        judged(unsafe { raw::ferretgold_config_check(&self.raw()) })
    }

    /// How many bytes a cache of this configuration allocates; 0 where it is refused.
    pub fn memory(&self) -> u64 {
        unsafe { raw::ferretgold_memory(&self.raw()) }
    }

    pub(crate) fn of(it: &raw::Config) -> Config {
        Config {
            slots: it.slots,
            room: it.room,
            clients: it.clients,
            handles: it.handles,
            shards: it.shards,
            strict: it.strict,
            marks: it.marks,
            capacity: it.capacity,
            serials: it.serials,
            seed: it.seed,
        }
    }

    pub(crate) fn raw(&self) -> raw::Config {
        raw::Config {
            slots: self.slots,
            room: self.room,
            clients: self.clients,
            handles: self.handles,
            shards: self.shards,
            strict: self.strict,
            marks: self.marks,
            size: std::mem::size_of::<raw::Config>() as u16,
            capacity: self.capacity,
            serials: self.serials,
            seed: self.seed,
        }
    }
}
