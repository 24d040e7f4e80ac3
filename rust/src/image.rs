//! Caches that begin with entries, by `ferretgold_image.h`.

use crate::refused::judged;
use crate::{raw, Cache, Config, Key, Refused};
use std::mem::forget;
use std::ptr::{null_mut, NonNull};

/// Entries for a cache to begin with, in the order in which they were added. It stays on the thread that
/// made it.
///
/// ```
/// # use ferretgold::{Cache, Config, Got, Image, Key, Priority};
/// # fn main() -> Result<(), ferretgold::Refused> {
/// # let (key, mut value) = (Key { w0: 7, w1: 1 }, [0; 64]);
/// let config = Config::sized(1 << 20, 64, 1)?;
/// let cache = Cache::open(&config)?;
/// cache.client()?.insert(key, b"kept", 4, Priority::High)?;
/// let left = cache.close_keeping().map_err(|(why, _)| why)?;
///
/// let mut image = Image::new()?;
/// for (shard, slot, entry) in left.entries().filter(|(_, _, entry)| entry.visible) {
///     left.value(shard, slot, &mut value)?;
///     image.add(entry.key, &value[..entry.length], entry.charge, entry.uses)?;
/// }
/// let (warm, left_out) = Cache::reopen(&config, image)?;
/// assert_eq!(warm.client()?.get(key, &mut value, true), Got::Value(4));
/// assert_eq!(left_out, 0);
/// # Ok(())
/// # }
/// ```
#[derive(Debug)]
pub struct Image {
    at: NonNull<raw::Image>,
}

impl Image {
    /// An image with no entries.
    pub fn new() -> Result<Image, Refused> {
        let mut at = null_mut();
        judged(unsafe { raw::ferretgold_image_open(&mut at) })?;
        NonNull::new(at).map(|at| Image { at }).ok_or(Refused::NULL)
    }

    /// Adds an entry, with a copy of its value. Nothing is judged: an entry that no cache can have is left
    /// out of each. Refuses [`Refused::OUT_OF_MEMORY`], and the image is as it was then.
    pub fn add(&mut self, key: Key, value: &[u8], charge: u32, uses: u32) -> Result<(), Refused> {
        let (image, at) = (self.at.as_ptr(), value.as_ptr().cast());
        judged(unsafe { raw::ferretgold_image_add(image, &key, at, value.len(), charge, uses) })
    }
}

impl Drop for Image {
    fn drop(&mut self) {
        unsafe { raw::ferretgold_image_free(self.at.as_ptr()) };
    }
}

impl Cache {
    /// Opens a cache that begins with the entries of an image: each goes where its key belongs, as long as
    /// its shard has room. Says how many the cache doesn't have. The client of number 0 made them, and used
    /// as many serials as the shard with the most entries has.
    pub fn reopen(config: &Config, image: Image) -> Result<(Cache, usize), Refused> {
        let (raw, mut at, mut left_out) = (config.raw(), null_mut(), 0);
        let from = image.at.as_ptr();
        forget(image);
        judged(unsafe { raw::ferretgold_reopen(&raw, from, &mut at, &mut left_out) })?;
        NonNull::new(at)
            .map(|at| (Cache { at }, left_out))
            .ok_or(Refused::NULL)
    }
}
