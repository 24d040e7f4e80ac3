//! How large a cache of objects is, and how it behaves.

use crate::config::MOST_SERIALS;
use crate::refused::judged;
use crate::{raw, Refused};

/// How large a cache of objects is, and how it behaves, as `ferretgold_object_config` of
/// ferretgold_object.h.
///
/// ```
/// use ferretgold::{ObjectConfig, Objects, Refused};
///
/// let config = ObjectConfig { strict: true, ..ObjectConfig::sized(1 << 30, 4096) };
/// assert_eq!((config.capacity, config.check()), (1 << 30, Ok(())));
/// let bad = ObjectConfig { gone: 3, ..config };
/// assert_eq!(Objects::<Vec<u8>>::open(&bad).unwrap_err(), Refused::BAD_GONE);
/// ```
#[derive(Clone, Copy, Debug, PartialEq, Eq)]
pub struct ObjectConfig {
    /// Slots of each shard: a power of two, 8 to 65,536.
    pub slots: u32,
    /// Clients, 1 to 1,024: at least as many as threads make calls at once.
    pub clients: u32,
    /// Handles that a client may hold at once: 1 to 16,384.
    pub handles: u32,
    /// How many entries one call may free before objects are dropped: 4 to 65,536.
    pub gone: u32,
    /// Shards: a power of two, 1 to 64.
    pub shards: u32,
    /// Whether each shard's charges stay within its part of the capacity.
    pub strict: bool,
    /// Whether look-ups mark entries.
    pub marks: bool,
    /// In charges, at most 2^40.
    pub capacity: u64,
    /// Serials of each client: 1 to 2^54.
    pub serials: u64,
    /// Of the keys; 0: opening draws one. [`UNSEEDED`](crate::UNSEEDED) only if keys are spread
    /// already.
    pub seed: u64,
}

/// A configuration to begin with, as `FERRETGOLD_OBJECT_CONFIG` of ferretgold_object.h. Its seed is
/// drawn.
impl Default for ObjectConfig {
    fn default() -> ObjectConfig {
        ObjectConfig {
            slots: 4096,
            clients: 64,
            handles: 256,
            gone: 256,
            shards: 4,
            strict: false,
            marks: false,
            capacity: 46_972_928,
            serials: MOST_SERIALS,
            seed: 0,
        }
    }
}

const FEWEST_SLOTS: u64 = 8;
const MOST_SLOTS: u64 = 1 << 16;
const MOST_SHARDS: u64 = 64;
/// How many slots are worth a shard, up to so many shards.
const WORTH: u64 = 4096;
const USUAL_SHARDS: u64 = 16;
const FEWEST_HANDLES: u64 = 16;
const MOST_HANDLES: u64 = 256;

impl ObjectConfig {
    /// One of this capacity, whose entries usually have this charge: with ten slots or more for
    /// seven of them, up to 4,194,304 slots; for each of 64 clients a handle for 64 slots, at least
    /// 16 and at most 256.
    pub fn sized(capacity: u64, charge: u64) -> ObjectConfig {
        let wanted = (capacity / charge.max(1)).saturating_mul(10) / 7;
        let slots = wanted
            .clamp(FEWEST_SLOTS, MOST_SLOTS * MOST_SHARDS)
            .next_power_of_two();
        let shards = (slots / WORTH)
            .clamp(1, USUAL_SHARDS)
            .max(slots / MOST_SLOTS);
        ObjectConfig {
            slots: (slots / shards) as u32,
            shards: shards as u32,
            handles: (slots / 64).clamp(FEWEST_HANDLES, MOST_HANDLES) as u32,
            capacity,
            ..ObjectConfig::default()
        }
    }

    /// Whether a cache can be opened so, whatever the system gives.
    pub fn check(&self) -> Result<(), Refused> {
        judged(unsafe { raw::ferretgold_object_config_check(&self.raw()) })
    }

    /// How many bytes a cache of this configuration allocates, beside what the objects are; 0 where it
    /// is refused.
    pub fn memory(&self) -> u64 {
        unsafe { raw::ferretgold_object_memory(&self.raw()) }
    }

    pub(crate) fn of(it: &raw::ObjectConfig) -> ObjectConfig {
        ObjectConfig {
            slots: it.slots,
            clients: it.clients,
            handles: it.handles,
            gone: it.gone,
            shards: it.shards,
            strict: it.strict,
            marks: it.marks,
            capacity: it.capacity,
            serials: it.serials,
            seed: it.seed,
        }
    }

    pub(crate) fn raw(&self) -> raw::ObjectConfig {
        raw::ObjectConfig {
            slots: self.slots,
            clients: self.clients,
            handles: self.handles,
            gone: self.gone,
            shards: self.shards,
            strict: self.strict,
            marks: self.marks,
            size: std::mem::size_of::<raw::ObjectConfig>() as u16,
            capacity: self.capacity,
            serials: self.serials,
            seed: self.seed,
        }
    }
}
