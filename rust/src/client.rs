//! A client of a cache, and its calls.

use crate::handle::Handle;
use crate::meant::erased_where;
use crate::refused::judged;
use crate::{raw, Cache, Config, Inserted, Key, Part, Priority, Refused, Stats};
use std::ptr::NonNull;

/// What a reading by a key found.
#[derive(Clone, Copy, Debug, PartialEq, Eq)]
pub enum Got {
    /// Nothing of the key.
    Miss,
    /// A value of so many bytes, which are at the front of the buffer.
    Value(usize),
    /// A value of so many bytes, more than the buffer has; the buffer is as it was.
    TooShort(usize),
}

/// What is held at a slot: a handle on the entry there, and what its words say of it.
#[derive(Debug)]
pub struct HeldEntry<'c> {
    /// It gives itself back as no use.
    pub handle: Handle<'c>,
    /// The entry's key.
    pub key: Key,
    /// Its charge.
    pub charge: u64,
    /// Its countdown then.
    pub uses: u32,
}

/// A client of a cache, for one thread at a time. It gives itself back when it goes, with the handles
/// that were forgotten.
#[derive(Debug)]
pub struct Client<'a> {
    at: NonNull<raw::Client>,
    cache: &'a Cache,
}

// It may go from thread to thread; what sends it orders its calls.
unsafe impl Send for Client<'_> {}

impl<'a> Client<'a> {
    pub(crate) fn of(cache: &'a Cache, at: NonNull<raw::Client>) -> Client<'a> {
        Client { at, cache }
    }

    /// Gives the client back. One that holds handles which were forgotten makes it
    /// [`Refused::HANDLES_OUT`]; the client stays then.
    pub fn close(self) -> Result<(), (Refused, Client<'a>)> {
        let cache = self.cache.at.as_ptr();
        match judged(unsafe { raw::ferretgold_client_close(cache, self.raw()) }) {
            Ok(()) => {
                std::mem::forget(self);
                Ok(())
            }
            Err(why) => Err((why, self)),
        }
    }
}

impl Client<'_> {
    pub(crate) fn raw(&self) -> *mut raw::Client {
        self.at.as_ptr()
    }

    /// A handle on an entry of the key, if there is one that this client hasn't seen erased.
    pub fn lookup(&self, key: Key) -> Result<Option<Handle<'_>>, Refused> {
        let mut found = raw::Handle::default();
        match unsafe { raw::ferretgold_lookup(self.raw(), &key, &mut found) } {
            0 => Ok(Some(Handle::of(self, found, true))),
            1 => Ok(None),
            why => Err(Refused(why)),
        }
    }

    /// Holds the entry of a slot, if a visible one is there: for walks over a cache.
    pub fn pin_at(&self, shard: u32, slot: u32) -> Result<Option<HeldEntry<'_>>, Refused> {
        let mut found = raw::HeldEntry::default();
        match unsafe { raw::ferretgold_pin_at(self.raw(), shard, slot, &mut found) } {
            0 => Ok(Some(HeldEntry {
                handle: Handle::of(self, found.handle, false),
                key: found.key,
                charge: found.charge,
                uses: found.uses,
            })),
            1 => Ok(None),
            why => Err(Refused(why)),
        }
    }

    /// Holds each visible entry in turn, slot by slot, while other clients change them; or says of a
    /// slot why it can't. Each uses a serial.
    ///
    /// ```
    /// # use ferretgold::{Cache, Config, Key, Priority};
    /// # let cache = Cache::open(&Config::default()).unwrap();
    /// # let client = cache.client().unwrap();
    /// # let key = Key { w0: 7, w1: 1 };
    /// client.insert(key, b"a block", 12, Priority::Low).unwrap();
    /// let all: Vec<_> = client.iter().collect::<Result<_, _>>().unwrap();
    /// assert_eq!((all.len(), all[0].key, all[0].charge, all[0].uses), (1, key, 12, 2));
    /// assert_eq!(all[0].handle.to_vec(), b"a block");
    /// ```
    pub fn iter(&self) -> impl Iterator<Item = Result<HeldEntry<'_>, Refused>> + '_ {
        let Config { shards, slots, .. } = self.cache.config();
        let client: &Client<'_> = self;
        (0..shards).flat_map(move |shard| {
            (0..slots).filter_map(move |slot| client.pin_at(shard, slot).transpose())
        })
    }

    /// Copies the value of an entry of the key to the front of the buffer, with no handle; `useful`
    /// says whether that is a use of the entry.
    ///
    /// ```
    /// # use ferretgold::{Cache, Config, Got, Key, Priority};
    /// # let cache = Cache::open(&Config::default()).unwrap();
    /// # let client = cache.client().unwrap();
    /// # let key = Key { w0: 7, w1: 1 };
    /// # client.insert(key, b"a block", 7, Priority::Low).unwrap();
    /// let mut block = vec![0; 4];
    /// if let Got::TooShort(length) = client.get(key, &mut block, true) {
    ///     block.resize(length, 0);
    /// }
    /// assert_eq!(client.get(key, &mut block, true), Got::Value(7));
    /// assert_eq!(block, b"a block");
    /// ```
    pub fn get(&self, key: Key, buffer: &mut [u8], useful: bool) -> Got {
        let (at, room, mut length) = (buffer.as_mut_ptr().cast(), buffer.len(), 0);
        let status =
            unsafe { raw::ferretgold_get(self.raw(), &key, at, room, useful, &mut length) };
        got_of(status, length)
    }

    /// Copies bytes of the value of an entry of the key, if there is one, as [`Handle::read_part`] does;
    /// `useful` says whether that is a use of the entry. It takes a handle for the time of the call.
    /// Refuses [`Refused::HANDLES_FULL`], [`Refused::SPENT`].
    ///
    /// ```
    /// # use ferretgold::{Cache, Config, Key, Part, Priority};
    /// # let cache = Cache::open(&Config::default()).unwrap();
    /// # let client = cache.client().unwrap();
    /// # let key = Key { w0: 7, w1: 1 };
    /// # client.insert(key, b"a block", 7, Priority::Low).unwrap();
    /// let mut middle = [0; 3];
    /// let part = client.get_part(key, 2, &mut middle, true).unwrap();
    /// assert_eq!(part, Some(Part { given: 3, length: 7 }));
    /// assert_eq!(&middle, b"blo");
    /// ```
    pub fn get_part(
        &self,
        key: Key,
        offset: usize,
        buffer: &mut [u8],
        useful: bool,
    ) -> Result<Option<Part>, Refused> {
        let (at, room, mut part) = (buffer.as_mut_ptr().cast(), buffer.len(), Part::default());
        let client = self.raw();
        let status =
            unsafe { raw::ferretgold_get_part(client, &key, offset, at, room, useful, &mut part) };
        match status {
            0 => Ok(Some(part)),
            1 => Ok(None),
            why => Err(Refused(why)),
        }
    }

    /// Inserts an entry, and keeps no handle on it.
    pub fn insert(
        &self,
        key: Key,
        value: &[u8],
        charge: u32,
        priority: Priority,
    ) -> Result<Inserted, Refused> {
        let (at, length, level) = (value.as_ptr().cast(), value.len(), priority as u32);
        let mut came = 0;
        judged(unsafe {
            raw::ferretgold_insert(self.raw(), &key, at, length, charge, level, &mut came)
        })?;
        Ok(came_of(came))
    }

    /// Inserts an entry, and gives a handle on it.
    ///
    /// ```
    /// # use ferretgold::{Cache, Config, Inserted, Key, Priority};
    /// # let cache = Cache::open(&Config::default()).unwrap();
    /// # let client = cache.client().unwrap();
    /// # let key = Key { w0: 7, w1: 1 };
    /// let (first, kept) = client.insert_pinned(key, b"in the table", 12, Priority::Low).unwrap();
    /// let (second, other) = client.insert_pinned(key, b"beside it", 9, Priority::Low).unwrap();
    /// assert_eq!((first, second), (Inserted::Placed, Inserted::Standalone));
    /// assert_eq!((kept.len(), other.len()), (12, 9));
    /// ```
    pub fn insert_pinned(
        &self,
        key: Key,
        value: &[u8],
        charge: u32,
        priority: Priority,
    ) -> Result<(Inserted, Handle<'_>), Refused> {
        let (at, length, level) = (value.as_ptr().cast(), value.len(), priority as u32);
        let (mut came, mut given) = (0, raw::Handle::default());
        judged(unsafe {
            raw::ferretgold_insert_pinned(
                self.raw(),
                &key,
                at,
                length,
                charge,
                level,
                &mut came,
                &mut given,
            )
        })?;
        Ok((came_of(came), Handle::of(self, given, true)))
    }

    /// Hides each visible entry of the key, and says how many.
    pub fn erase(&self, key: Key) -> u32 {
        let mut hidden = 0;
        let status = unsafe { raw::ferretgold_erase(self.raw(), &key, &mut hidden) };
        debug_assert_eq!(status, 0);
        hidden
    }

    /// Hides each visible entry whose key is meant, as a walk comes to it, and says how many: all that
    /// are visible all the time. Where `meant` panics, those before are hidden, and the panic goes on.
    /// Refuses [`Refused::HANDLES_FULL`], [`Refused::SPENT`].
    pub fn erase_where(&self, mut meant: impl FnMut(Key) -> bool) -> Result<u64, Refused> {
        erased_where(&mut |key| meant(*key), |meant, context, hidden| unsafe {
            raw::ferretgold_erase_where(self.raw(), meant, context, hidden)
        })
    }

    /// What is charged, also for standalone entries and for what other clients have reserved.
    pub fn usage(&self) -> u64 {
        self.total(raw::ferretgold_usage)
    }

    /// What is charged for entries that are held, and for standalone ones.
    pub fn pinned_usage(&self) -> u64 {
        self.total(raw::ferretgold_pinned_usage)
    }

    /// How many entries the table has, with the places that other clients have in hand.
    pub fn occupancy(&self) -> u64 {
        self.total(raw::ferretgold_occupancy)
    }

    fn total(&self, call: unsafe extern "C" fn(*mut raw::Client, *mut u64) -> u32) -> u64 {
        let mut total = 0;
        let status = unsafe { call(self.raw(), &mut total) };
        debug_assert_eq!(status, 0);
        total
    }

    /// The meta word of a slot: for tests and tools.
    pub fn word(&self, shard: u32, slot: u32) -> Result<u64, Refused> {
        let mut word = 0;
        judged(unsafe { raw::ferretgold_word(self.raw(), shard, slot, &mut word) })?;
        Ok(word)
    }

    /// How often a slot stands in trails: for tests and tools.
    pub fn displacement(&self, shard: u32, slot: u32) -> Result<u64, Refused> {
        let mut many = 0;
        judged(unsafe { raw::ferretgold_displacement(self.raw(), shard, slot, &mut many) })?;
        Ok(many)
    }

    /// Its number among the cache's clients, from 0.
    pub fn number(&self) -> u32 {
        unsafe { raw::ferretgold_client_number(self.raw()) }
    }

    /// How many handles it holds.
    pub fn held(&self) -> u32 {
        unsafe { raw::ferretgold_held(self.raw()) }
    }

    /// How many serials it has left.
    pub fn serials_left(&self) -> u64 {
        unsafe { raw::ferretgold_serials_left(self.raw()) }
    }

    /// Whether it holds this handle, and no other client does.
    pub fn holds(&self, handle: &Handle<'_>) -> bool {
        unsafe { raw::ferretgold_holds(self.raw(), handle.raw()) }
    }

    /// What its calls did on all shards.
    pub fn stats(&self) -> Stats {
        let mut stats = Stats::default();
        let status = unsafe { raw::ferretgold_statistics(self.raw(), &mut stats) };
        debug_assert_eq!(status, 0);
        stats
    }
}

impl Drop for Client<'_> {
    fn drop(&mut self) {
        let cache = self.cache.at.as_ptr();
        let status = unsafe { raw::ferretgold_client_close_releasing(cache, self.raw()) };
        debug_assert_eq!(status, 0);
    }
}

pub(crate) fn got_of(status: u32, length: usize) -> Got {
    match status {
        0 => Got::Value(length),
        20 => Got::TooShort(length),
        _ => Got::Miss,
    }
}

fn came_of(number: u32) -> Inserted {
    match number {
        0 => Inserted::Placed,
        1 => Inserted::Dropped,
        2 => Inserted::Standalone,
        _ => Inserted::There,
    }
}
