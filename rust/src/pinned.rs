//! Objects that are held.

use crate::object_cache::Held;
use crate::Key;
use std::fmt;
use std::ops::Deref;
use std::sync::Arc;

/// An object that stays while this is there, also when its entry is erased or evicted. It may go to
/// any thread, keeps its cache open, and gives itself back when it is dropped: as a use of its
/// entry, if a look-up found it.
///
/// Each takes one of the handles of a client of the cache. An object in the cache that has a
/// `Pinned` of its own cache keeps that for ever, as a circle of `Arc`s does.
///
/// ```
/// # use ferretgold::{ObjectConfig, Objects};
/// # let cache = Objects::open(&ObjectConfig::default()).unwrap();
/// # let key = [7; 16];
/// cache.insert(&key, String::from("a block"), 7).unwrap();
/// let held = cache.get(&key).unwrap();
/// cache.erase(&key).unwrap();
/// drop(cache);
/// let length = std::thread::spawn(move || held.len()).join().unwrap();
/// assert_eq!(length, 7); // the cache was closed there, when its last holder went
/// ```
pub struct Pinned<V>(Place<V>);

enum Place<V> {
    Cached(Held<V>),
    /// The cache refused it.
    Alone(Arc<V>, Key, u32),
}

impl<V> Pinned<V> {
    pub(crate) fn of(held: Held<V>) -> Pinned<V> {
        Pinned(Place::Cached(held))
    }

    pub(crate) fn alone(object: Arc<V>, key: Key, charge: u32) -> Pinned<V> {
        Pinned(Place::Alone(object, key, charge))
    }

    /// The same object, held once more; giving it back is a use.
    pub(crate) fn shared(&self) -> Pinned<V> {
        Pinned(match &self.0 {
            Place::Cached(held) => Place::Cached(held.shared()),
            Place::Alone(object, key, charge) => Place::Alone(object.clone(), *key, *charge),
        })
    }

    /// The key of its insertion.
    pub fn key(&self) -> [u8; 16] {
        match &self.0 {
            Place::Cached(held) => held.key().into(),
            Place::Alone(_, key, _) => (*key).into(),
        }
    }

    /// The charge of its insertion.
    pub fn charge(&self) -> u32 {
        match &self.0 {
            Place::Cached(held) => held.charge(),
            Place::Alone(_, _, charge) => *charge,
        }
    }

    /// Gives it back: as a use of its entry if `useful`. If it was the last one, and the entry was
    /// erased or `erase_if_last` is set, one try is made to free the entry. Says whether this freed
    /// an entry, which isn't so where another thread got this.
    pub fn release(self, useful: bool, erase_if_last: bool) -> bool {
        match self.0 {
            Place::Cached(held) => held.release(useful, erase_if_last),
            Place::Alone(..) => false,
        }
    }
}

impl<V> Deref for Pinned<V> {
    type Target = V;

    fn deref(&self) -> &V {
        match &self.0 {
            Place::Cached(held) => held.object(),
            Place::Alone(object, ..) => object,
        }
    }
}

impl<V: fmt::Debug> fmt::Debug for Pinned<V> {
    fn fmt(&self, out: &mut fmt::Formatter<'_>) -> fmt::Result {
        out.debug_tuple("Pinned").field(&**self).finish()
    }
}
