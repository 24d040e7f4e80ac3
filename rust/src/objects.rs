//! A cache of objects, by `ferretgold_object.h`.

use crate::loads::{LoadError, Loads};
use crate::object_cache::{Home, ObjectCache};
use crate::owned::{Owned, Rejected};
use crate::{Counts, Inserted, Key, ObjectConfig, Pinned, Priority, Refused};
use std::cell::Cell;
use std::fmt;
use std::sync::atomic::{AtomicUsize, Ordering};
use std::sync::Arc;
use std::thread::available_parallelism;

/// A cache of objects of type `V`, for many threads. Who finds one reads it where it lies, and
/// holds it meanwhile; nothing is copied.
///
/// ```
/// use ferretgold::{ObjectConfig, Objects};
/// use std::fs;
///
/// # fn main() -> Result<(), Box<dyn std::error::Error>> {
/// // 64 MiB, of files of some 4 KiB each.
/// let files: Objects<Vec<u8>> = Objects::open(&ObjectConfig::sized(64 << 20, 4096))?;
/// let key = *b"file 7 of disk 1";
/// # let path = std::env::current_exe()?;
/// let file = files.get_or_insert_with(&key, || {
///     fs::read(&path).map(|bytes| { let charge = bytes.len() as u32; (bytes, charge) })
/// })?;
/// assert!(file.starts_with(b"\x7fELF")); // it derefs
///
/// let others = files.clone(); // the same cache
/// std::thread::spawn(move || assert!(others.get(&key).is_some())).join().unwrap();
/// # Ok(())
/// # }
/// ```
///
/// Keys are of 16 bytes; [`HashedObjects`](crate::HashedObjects) has keys of any type. A clone is
/// the same cache: for structs, threads and tasks. Calls need no client, and allocate only an
/// object's box; [`get_or_insert_with`] alone waits. The last of a cache's clones and [`Pinned`]s
/// closes it, on its thread.
///
/// That the table hands each object back once is proved; what the header and this crate add is
/// tested.
///
/// **Who owns an object**
///
/// | Insertion | The object is then |
/// |---|---|
/// | `Ok(Placed)` | the cache's, until its entry went and all that hold it did |
/// | `Ok(Standalone)`, with a `Pinned` | in no table, and goes with the last that hold it |
/// | `Ok(Dropped)` | dropped: as if it had been placed and evicted at once |
/// | `Err` | the caller's again, in the error |
///
/// **Drops** run on the thread whose call freed the entry, when that call is over; they may call
/// the cache. Where one panics, the others run all the same, each once; then the call panics with
/// the first, as when a `Vec` is dropped, or lets it be where its thread unwinds already.
///
/// [`get_or_insert_with`]: Objects::get_or_insert_with
pub struct Objects<V> {
    shared: Arc<Shared<V>>,
}

struct Shared<V> {
    homes: Box<[Arc<Home<V>>]>,
    loads: Loads<[u8; 16], V>,
}

impl<V: Send + Sync> Objects<V> {
    /// Opens a cache with no entries. Allocates what [`ObjectConfig::memory`] says, and 256 bytes
    /// for each processor.
    pub fn open(config: &ObjectConfig) -> Result<Objects<V>, Refused> {
        let cache = Arc::new(ObjectCache::open(config)?);
        let many = available_parallelism().map_or(1, |it| it.get().next_power_of_two());
        let homes = (0..many).map(|_| Arc::new(Home::of(&cache))).collect();
        let loads = Loads::new();
        Ok(Objects {
            shared: Arc::new(Shared { homes, loads }),
        })
    }
}

impl<V> Objects<V> {
    /// What it was opened with, and in it the seed that was drawn.
    pub fn config(&self) -> ObjectConfig {
        self.home().cache().config()
    }

    /// The object of a key, if one is there. `None` also where no handle is to be had: all clients
    /// are in calls, or hold as many as they may.
    pub fn get(&self, key: &[u8; 16]) -> Option<Pinned<V>> {
        self.home().lookup(&(*key).into()).map(Pinned::of)
    }

    /// Inserts an object, as one that was never used: it goes before those that were, unless
    /// somebody reads it first. That hits most often where some objects are read far more often
    /// than others.
    pub fn insert(
        &self,
        key: &[u8; 16],
        object: impl Into<Owned<V>>,
        charge: u32,
    ) -> Result<Inserted, Rejected<Owned<V>>> {
        let (came, held) =
            self.home()
                .insert_pinned(&(*key).into(), object.into(), charge, Priority::Bottom)?;
        held.release(false, false);
        Ok(match came {
            Inserted::Placed => came,
            _ => Inserted::Dropped,
        })
    }

    /// Inserts an object that survives as many visits of the clock as its priority says. Refuses as
    /// `ferretgold_object_insert` does.
    pub fn insert_with_priority(
        &self,
        key: &[u8; 16],
        object: impl Into<Owned<V>>,
        charge: u32,
        priority: Priority,
    ) -> Result<Inserted, Rejected<Owned<V>>> {
        let home = self.home();
        let back = home
            .cache()
            .insert(&(*key).into(), object.into(), charge, priority)?;
        Ok(match back {
            None => Inserted::Placed,
            Some(_) => Inserted::Dropped,
        })
    }

    /// Inserts an object, and holds it: `Placed` or `Standalone`. Giving that back is no use of the
    /// entry.
    pub fn insert_pinned(
        &self,
        key: &[u8; 16],
        object: impl Into<Owned<V>>,
        charge: u32,
        priority: Priority,
    ) -> Result<(Inserted, Pinned<V>), Rejected<Owned<V>>> {
        let (came, held) =
            self.home()
                .insert_pinned(&(*key).into(), object.into(), charge, priority)?;
        Ok((came, Pinned::of(held)))
    }

    /// The object of a key; if none is there, what `load` gives, with its charge: it is inserted
    /// as by [`insert`](Objects::insert), and a charge of 0 counts as 1. Whatever the cache
    /// answers, the object is held and given.
    ///
    /// Of each key one thread loads at a time, in no call of the cache, and others that ask for it
    /// so wait: they block their threads. What it loaded is theirs, too. If it fails or panics that
    /// is told its own caller, and one that waits loads next.
    ///
    /// ```
    /// use ferretgold::{LoadError, ObjectConfig, Objects};
    ///
    /// let cache: Objects<String> = Objects::open(&ObjectConfig::default()).unwrap();
    /// let key = [1; 16];
    /// let failed = cache.get_or_insert_with(&key, || Err::<(String, u32), _>("no such file"));
    /// assert_eq!(failed.unwrap_err(), LoadError::Failed("no such file"));
    ///
    /// let other = || Ok::<_, ()>((String::new(), 1));
    /// let inner = || cache.get_or_insert_with(&key, other).unwrap_err();
    /// let outer = cache.get_or_insert_with(&key, || Err::<(String, u32), _>(inner()));
    /// assert_eq!(outer.unwrap_err(), LoadError::Failed(LoadError::OwnKey));
    /// ```
    pub fn get_or_insert_with<O: Into<Owned<V>>, E>(
        &self,
        key: &[u8; 16],
        load: impl FnOnce() -> Result<(O, u32), E>,
    ) -> Result<Pinned<V>, LoadError<E>> {
        self.shared.loads.get_or(
            key,
            || self.get(key),
            || load().map(|(object, charge)| self.insert_always(key, object.into(), charge)),
        )
    }

    /// An object that is inserted and held, or, where that is refused, stands alone.
    pub(crate) fn insert_always(&self, key: &[u8; 16], object: Owned<V>, charge: u32) -> Pinned<V> {
        let (key, charge) = ((*key).into(), charge.max(1));
        match self
            .home()
            .insert_pinned(&key, object, charge, Priority::Bottom)
        {
            Ok((_, held)) => Pinned::of(held),
            Err(refused) => Pinned::alone(refused.object.into_arc(), key, charge),
        }
    }

    /// Hides each visible entry of the key, and says how many. Its object goes when nobody holds
    /// it. Refuses
    /// [`Refused::NO_CLIENT`]; the entry stays then.
    pub fn erase(&self, key: &[u8; 16]) -> Result<u32, Refused> {
        self.home().cache().erase(&(*key).into())
    }

    /// Hides each visible entry whose key is meant, as a walk comes to it, and says how many: all that
    /// are visible all the time. Where `meant` panics, those before are hidden, and the panic goes on.
    /// Refuses [`Refused::HANDLES_FULL`], [`Refused::SPENT`], [`Refused::NO_CLIENT`].
    ///
    /// ```no_run
    /// # let cache: ferretgold::Objects<Vec<u8>> = todo!();
    /// let of_file = 7u64.to_le_bytes();
    /// cache.erase_where(|key| key.starts_with(&of_file)).unwrap();
    /// ```
    pub fn erase_where(&self, mut meant: impl FnMut(&[u8; 16]) -> bool) -> Result<u64, Refused> {
        let cache = self.home().cache();
        cache.erase_where(&mut |key| meant(&(*key).into()))
    }

    /// What is charged for the entries of the table, and for those that stand alone. Refuses
    /// [`Refused::NO_CLIENT`], as the next two do.
    pub fn usage(&self) -> Result<u64, Refused> {
        self.home().cache().usage()
    }

    /// What is charged for entries that are held. It looks at each slot.
    pub fn pinned_usage(&self) -> Result<u64, Refused> {
        self.home().cache().pinned_usage()
    }

    /// How many entries the table has.
    pub fn occupancy(&self) -> Result<u64, Refused> {
        self.home().cache().occupancy()
    }

    /// What the calls of all threads came to, in sum, also while they are at work: of calls that had
    /// returned. No number falls. An insertion that isn't asked for by priority counts as one that is
    /// held, and [`lost`](Counts::lost) has what insertions lost.
    pub fn counts(&self) -> Counts {
        self.home().cache().counts()
    }

    /// The same of the client of this number, or, under the number of clients, of the calls for which
    /// none was to be had. Refuses [`Refused::OUT_OF_RANGE`].
    pub fn client_counts(&self, number: u32) -> Result<Counts, Refused> {
        self.home().cache().client_counts(number)
    }

    /// Gives back what other threads than those that got it gave back, where its client is in no
    /// call, so that its entries can go.
    pub fn collect(&self) {
        self.home().cache().collect();
    }

    /// Holds each visible entry in turn, slot by slot, while others change them; not one for which
    /// no handle is to be had. Giving it back is no use.
    pub fn iter(&self) -> impl Iterator<Item = Pinned<V>> + '_ {
        let ObjectConfig { shards, slots, .. } = self.config();
        (0..shards).flat_map(move |shard| {
            (0..slots).filter_map(move |slot| self.home().pin_at(shard, slot).map(Pinned::of))
        })
    }

    /// The cache in C.
    #[cfg(feature = "file")]
    pub(crate) fn raw(&self) -> *mut crate::raw::ObjectCache {
        self.home().cache().raw()
    }

    /// Where this thread counts what it holds.
    fn home(&self) -> &Arc<Home<V>> {
        let homes = &self.shared.homes;
        &homes[thread_number() & (homes.len() - 1)]
    }
}

/// The number of a thread: the first of those that use caches of objects has 1.
fn thread_number() -> usize {
    static THREADS: AtomicUsize = AtomicUsize::new(0);
    thread_local! {
        static NUMBER: Cell<usize> = const { Cell::new(0) };
    }
    NUMBER.with(|it| {
        if it.get() == 0 {
            it.set(THREADS.fetch_add(1, Ordering::Relaxed).wrapping_add(1));
        }
        it.get()
    })
}

impl<V> Clone for Objects<V> {
    fn clone(&self) -> Objects<V> {
        Objects {
            shared: Arc::clone(&self.shared),
        }
    }
}

impl<V> fmt::Debug for Objects<V> {
    fn fmt(&self, out: &mut fmt::Formatter<'_>) -> fmt::Result {
        out.debug_struct("Objects")
            .field("config", &self.config())
            .finish_non_exhaustive()
    }
}

/// The words of a key are of its bytes, the low one first.
impl From<[u8; 16]> for Key {
    fn from(bytes: [u8; 16]) -> Key {
        let both = u128::from_le_bytes(bytes);
        Key {
            w0: both as u64,
            w1: (both >> 64) as u64,
        }
    }
}

impl From<Key> for [u8; 16] {
    fn from(key: Key) -> [u8; 16] {
        (u128::from(key.w0) | u128::from(key.w1) << 64).to_le_bytes()
    }
}
