//! Objects under keys of any type.

use crate::loads::{LoadError, Loads};
use crate::owned::{Owned, Rejected};
use crate::{Inserted, ObjectConfig, Objects, Pinned, Refused};
use std::borrow::Borrow;
use std::collections::hash_map::RandomState;
use std::fmt;
use std::hash::{BuildHasher, Hash, Hasher};
use std::ops::Deref;
use std::sync::Arc;

/// A cache of objects whose keys are of any type. The table finds them by a hash of 16 bytes; a key
/// lies beside its object and is compared, so that what is found is the key's, whatever hashes are
/// equal. Of keys whose hashes are, the table has one at a time.
///
/// What [`Objects`] says holds here. An object that is to be shared is an [`Arc`] itself. What a
/// key has for hashing, comparing and dropping it doesn't call the cache.
///
/// ```
/// use ferretgold::{HashedObjects, ObjectConfig};
///
/// # fn main() -> Result<(), Box<dyn std::error::Error>> {
/// let config = ObjectConfig::sized(1 << 20, 64);
/// let pages: HashedObjects<String, Vec<u8>> = HashedObjects::open(&config)?;
/// pages.insert("/index".to_string(), b"Welcome".to_vec(), 7)?;
/// assert_eq!(**pages.get("/index").unwrap(), *b"Welcome");
/// let page = pages.get_or_insert_with("/help", || Ok::<_, ()>((b"Help".to_vec(), 4))).unwrap();
/// assert_eq!((page.key().as_str(), page.len()), ("/help", 4));
/// # Ok(())
/// # }
/// ```
pub struct HashedObjects<K, V, S = RandomState> {
    objects: Objects<Keyed<K, V>>,
    shared: Arc<Shared<K, V, S>>,
}

struct Shared<K, V, S> {
    loads: Loads<K, Keyed<K, V>>,
    hashes: S,
}

struct Keyed<K, V> {
    key: K,
    object: V,
}

impl<K: Send + Sync + Hash + Eq, V: Send + Sync> HashedObjects<K, V> {
    /// Opens a cache with no entries, whose hashes are drawn anew.
    pub fn open(config: &ObjectConfig) -> Result<HashedObjects<K, V>, Refused> {
        HashedObjects::open_with(config, RandomState::new())
    }
}

impl<K: Send + Sync + Hash + Eq, V: Send + Sync, S: BuildHasher> HashedObjects<K, V, S> {
    /// The same, with hashes of the program's: two of each key, behind a byte of 0 and one of 1.
    pub fn open_with(config: &ObjectConfig, hashes: S) -> Result<Self, Refused> {
        let (objects, loads) = (Objects::open(config)?, Loads::new());
        Ok(HashedObjects {
            objects,
            shared: Arc::new(Shared { loads, hashes }),
        })
    }
}

impl<K: Hash + Eq, V, S: BuildHasher> HashedObjects<K, V, S> {
    /// What it was opened with.
    pub fn config(&self) -> ObjectConfig {
        self.objects.config()
    }

    /// The object of a key, if one is there.
    pub fn get<Q: Hash + Eq + ?Sized>(&self, key: &Q) -> Option<PinnedEntry<K, V>>
    where
        K: Borrow<Q>,
    {
        self.find(&self.hash(key), key).map(PinnedEntry)
    }

    /// Inserts an object, as [`Objects::insert`] does. `Dropped` also if one is there whose key has
    /// the same hash.
    pub fn insert(&self, key: K, object: V, charge: u32) -> Result<Inserted, Rejected<(K, V)>> {
        let hash = self.hash(&key);
        let keyed = Keyed { key, object };
        self.objects
            .insert(&hash, keyed, charge)
            .map_err(|refused| Rejected {
                why: refused.why,
                object: refused.object.into_pair(),
            })
    }

    /// The object of a key; if none is there, what `load` gives, as [`Objects::get_or_insert_with`]
    /// does.
    pub fn get_or_insert_with<Q, E>(
        &self,
        key: &Q,
        load: impl FnOnce() -> Result<(V, u32), E>,
    ) -> Result<PinnedEntry<K, V>, LoadError<E>>
    where
        K: Borrow<Q>,
        Q: Hash + Eq + ToOwned<Owned = K> + ?Sized,
    {
        let hash = self.hash(key);
        let insert = |(object, charge)| {
            let key = key.to_owned();
            self.objects
                .insert_always(&hash, Keyed { key, object }.into(), charge)
        };
        let found = self
            .shared
            .loads
            .get_or(key, || self.find(&hash, key), || load().map(insert));
        found.map(PinnedEntry)
    }

    /// Hides the entry of a key, or of another one whose hash is the same, and says how many were.
    pub fn erase<Q: Hash + ?Sized>(&self, key: &Q) -> Result<u32, Refused>
    where
        K: Borrow<Q>,
    {
        self.objects.erase(&self.hash(key))
    }

    /// Holds each visible entry in turn, as [`Objects::iter`] does.
    pub fn iter(&self) -> impl Iterator<Item = PinnedEntry<K, V>> + '_ {
        self.objects.iter().map(PinnedEntry)
    }

    fn find<Q: Eq + ?Sized>(&self, hash: &[u8; 16], key: &Q) -> Option<Pinned<Keyed<K, V>>>
    where
        K: Borrow<Q>,
    {
        self.objects.get(hash).filter(|it| it.key.borrow() == key)
    }

    fn hash<Q: Hash + ?Sized>(&self, key: &Q) -> [u8; 16] {
        let half = |number| {
            let mut hasher = self.shared.hashes.build_hasher();
            hasher.write_u8(number);
            key.hash(&mut hasher);
            u128::from(hasher.finish())
        };
        (half(0) | half(1) << 64).to_le_bytes()
    }
}

impl<K, V> Owned<Keyed<K, V>> {
    /// Of what was inserted by value, so in a box.
    fn into_pair(self) -> (K, V) {
        match self {
            Owned::Box(it) => (it.key, it.object),
            Owned::Arc(_) => unreachable!("nobody shares it"),
        }
    }
}

impl<K, V, S> Clone for HashedObjects<K, V, S> {
    fn clone(&self) -> Self {
        HashedObjects {
            objects: self.objects.clone(),
            shared: Arc::clone(&self.shared),
        }
    }
}

impl<K, V, S> fmt::Debug for HashedObjects<K, V, S> {
    fn fmt(&self, out: &mut fmt::Formatter<'_>) -> fmt::Result {
        out.debug_tuple("HashedObjects")
            .field(&self.objects)
            .finish()
    }
}

/// A [`Pinned`] object with its key.
pub struct PinnedEntry<K, V>(Pinned<Keyed<K, V>>);

impl<K, V> PinnedEntry<K, V> {
    /// Its key.
    pub fn key(&self) -> &K {
        &self.0.key
    }

    /// The charge of its insertion.
    pub fn charge(&self) -> u32 {
        self.0.charge()
    }

    /// Gives it back, as [`Pinned::release`] does.
    pub fn release(self, useful: bool, erase_if_last: bool) -> bool {
        self.0.release(useful, erase_if_last)
    }
}

impl<K, V> Deref for PinnedEntry<K, V> {
    type Target = V;

    fn deref(&self) -> &V {
        &self.0.object
    }
}

impl<K: fmt::Debug, V: fmt::Debug> fmt::Debug for PinnedEntry<K, V> {
    fn fmt(&self, out: &mut fmt::Formatter<'_>) -> fmt::Result {
        out.debug_tuple("PinnedEntry")
            .field(self.key())
            .field(&**self)
            .finish()
    }
}
