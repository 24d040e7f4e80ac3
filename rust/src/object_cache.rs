//! A cache of objects as `ferretgold_object.h` has it, with all `unsafe` of objects. What stands on
//! it is safe, as these hold:
//!
//! - *Owner*: an object is owned by one side. Its pointer goes to C by [`into_raw`], with the kind
//!   that says how it is owned, and comes back by [`from_raw`]: where C says that it wasn't taken,
//!   or by C's one call of [`delete`].
//! - *Open*: a cache is open while there is its [`ObjectCache`], and each call borrows that: so
//!   none is under way, on any thread, when it is dropped and closes the cache.
//! - *Held*: a [`Held`] has one reference of C's handle and a share of the cache. Until it gives
//!   that back C keeps what the handle shows, and doesn't hand its object back.
//!
//! A cache takes no object that lives shorter than its own type says:
//!
//! ```compile_fail,E0597
//! # use ferretgold::{ObjectConfig, Objects};
//! let cache: Objects<&'static str> = Objects::open(&ObjectConfig::default()).unwrap();
//! fn fill<'a>(cache: &Objects<&'a str>, text: &'a str) {
//!     let _ = cache.insert(&[0; 16], text, 1);
//! }
//! let text = String::from("short");
//! fill(&cache, &text);
//! ```

#![deny(unsafe_op_in_unsafe_fn)]

use crate::meant::erased_where;
use crate::owned::{Owned, Rejected};
use crate::refused::judged;
use crate::{panics, raw, Counts, Inserted, Key, ObjectConfig, Priority, Refused};
use std::ffi::c_void;
use std::marker::PhantomData;
use std::mem::{size_of, ManuallyDrop};
use std::ptr::{self, null, null_mut, NonNull};
use std::sync::{Arc, Mutex};
use std::thread;

/// A cache that is open. It owns objects, and takes others: so it is of one life of `V`.
pub(crate) struct ObjectCache<V> {
    at: NonNull<raw::ObjectCache>,
    objects: PhantomData<Mutex<V>>,
}

// SAFETY: C's calls are for all threads at once. Any thread may read an object (`Sync`), and drop
// it (`Send`).
unsafe impl<V: Send + Sync> Send for ObjectCache<V> {}
unsafe impl<V: Send + Sync> Sync for ObjectCache<V> {}

// ---- Who owns an object -------------------------------------------------------------------------

const BOX: u16 = 0;
const ARC: u16 = 1;

/// An object as it crosses to C, with its kind: who has these two owns it.
fn into_raw<V>(object: Owned<V>) -> (*mut c_void, u16) {
    match object {
        Owned::Box(it) => (Box::into_raw(it).cast(), BOX),
        Owned::Arc(it) => (Arc::into_raw(it) as *mut c_void, ARC),
    }
}

/// # Safety
/// They are of [`into_raw`] of the same type, and the caller owns the object.
unsafe fn from_raw<V>(object: *mut c_void, kind: u16) -> Owned<V> {
    let object = object.cast::<V>();
    match kind {
        // SAFETY: of this kind are pointers of boxes; the caller owns it.
        BOX => Owned::Box(unsafe { Box::from_raw(object) }),
        // SAFETY: of the other kind are pointers of shared objects; the caller owns one share.
        _ => Owned::Arc(unsafe { Arc::from_raw(object) }),
    }
}

/// What C calls for each object of a cache of `V`, once, when nobody holds it. It doesn't unwind.
///
/// # Safety
/// C owned the object, and gives it up.
unsafe extern "C" fn delete<V>(_: *mut c_void, _: *const Key, object: *mut c_void, kind: u16) {
    // SAFETY: *Owner*: an open cache of `V` was given only objects of `V`.
    panics::caught(|| drop(unsafe { from_raw::<V>(object, kind) }));
}

// ---- Calls --------------------------------------------------------------------------------------

impl<V: Send + Sync> ObjectCache<V> {
    pub fn open(config: &ObjectConfig) -> Result<ObjectCache<V>, Refused> {
        let (config, mut at) = (config.raw(), null_mut());
        // SAFETY: `delete` is the deleter of `V`, and asks for no context.
        judged(unsafe { raw::ferretgold_object_open(&config, delete::<V>, null_mut(), &mut at) })?;
        let at = NonNull::new(at).ok_or(Refused::NULL)?;
        // Each box stands once, unless it has nothing: all those are at one place.
        if size_of::<V>() != 0 {
            // SAFETY: *Open*.
            let _ = unsafe { raw::ferretgold_object_owns(at.as_ptr(), BOX) };
        }
        Ok(ObjectCache {
            at,
            objects: PhantomData,
        })
    }
}

impl<V> ObjectCache<V> {
    #[cfg(feature = "file")]
    pub fn raw(&self) -> *mut raw::ObjectCache {
        self.at.as_ptr()
    }

    pub fn config(&self) -> ObjectConfig {
        let mut config = raw::ObjectConfig::default();
        // SAFETY: *Open*.
        let _ = unsafe { raw::ferretgold_object_config_of(self.at.as_ptr(), &mut config) };
        ObjectConfig::of(&config)
    }

    /// Without a handle. An object that is dropped comes back, too.
    pub fn insert(
        &self,
        key: &Key,
        object: Owned<V>,
        charge: u32,
        priority: Priority,
    ) -> Result<Option<Owned<V>>, Rejected<Owned<V>>> {
        let (object, kind) = into_raw(object);
        let (level, mut came) = (priority as u32, DROPPED);
        // SAFETY: *Open*; *Owner*: C owns the object now, if it answers so.
        let status = unsafe {
            let cache = self.at.as_ptr();
            raw::ferretgold_object_insert(cache, key, object, kind, charge, level, &mut came)
        };
        if status == 0 && came != DROPPED {
            panics::go_on();
            return Ok(None);
        }
        // SAFETY: *Owner*: C didn't take it.
        let object = unsafe { from_raw(object, kind) };
        panics::go_on();
        match judged(status) {
            Ok(()) => Ok(Some(object)),
            Err(why) => Err(Rejected { why, object }),
        }
    }

    pub fn erase(&self, key: &Key) -> Result<u32, Refused> {
        let mut hidden = 0;
        // SAFETY: *Open*.
        let status = unsafe { raw::ferretgold_object_erase(self.at.as_ptr(), key, &mut hidden) };
        panics::go_on();
        judged(status).map(|()| hidden)
    }

    pub fn erase_where(&self, meant: &mut dyn FnMut(&Key) -> bool) -> Result<u64, Refused> {
        erased_where(meant, |meant, context, hidden| {
            let cache = self.at.as_ptr();
            // SAFETY: *Open*. C calls the function before its call is over.
            unsafe { raw::ferretgold_object_erase_where(cache, meant, context, hidden) }
        })
    }

    pub fn usage(&self) -> Result<u64, Refused> {
        self.total(raw::ferretgold_object_usage)
    }

    pub fn pinned_usage(&self) -> Result<u64, Refused> {
        self.total(raw::ferretgold_object_pinned_usage)
    }

    pub fn occupancy(&self) -> Result<u64, Refused> {
        self.total(raw::ferretgold_object_occupancy)
    }

    fn total(
        &self,
        call: unsafe extern "C" fn(*mut raw::ObjectCache, *mut u64) -> u32,
    ) -> Result<u64, Refused> {
        let mut total = 0;
        // SAFETY: *Open*.
        let status = unsafe { call(self.at.as_ptr(), &mut total) };
        panics::go_on();
        judged(status).map(|()| total)
    }

    pub fn counts(&self) -> Counts {
        let mut counts = Counts::default();
        // SAFETY: *Open*.
        let _ = unsafe { raw::ferretgold_object_cache_counts(self.at.as_ptr(), &mut counts) };
        counts
    }

    pub fn client_counts(&self, number: u32) -> Result<Counts, Refused> {
        let (cache, mut counts) = (self.at.as_ptr(), Counts::default());
        // SAFETY: *Open*.
        judged(unsafe { raw::ferretgold_object_client_counts(cache, number, &mut counts) })?;
        Ok(counts)
    }

    pub fn collect(&self) {
        // SAFETY: *Open*.
        let _ = unsafe { raw::ferretgold_object_collect(self.at.as_ptr()) };
        panics::go_on();
    }
}

const DROPPED: u32 = 1;

/// Closes it, and drops what is left.
impl<V> Drop for ObjectCache<V> {
    fn drop(&mut self) {
        let closes = Closes(self.at);
        if !closes.is_done() {
            // Objects of as many other caches as C can tell apart are being dropped on this thread.
            thread::scope(|scope| {
                let _ = thread::Builder::new().spawn_scoped(scope, || closes.is_done());
            });
        }
        panics::go_on();
    }
}

/// A cache that is to be closed, on this thread or another.
struct Closes(NonNull<raw::ObjectCache>);

// SAFETY: `ObjectCache<V>` is `Send`, so what is left may be dropped on any thread.
unsafe impl Sync for Closes {}

impl Closes {
    fn is_done(&self) -> bool {
        // SAFETY: *Open*: no call is under way, and none follows where this closes it. Each handle
        // that is out has a share of the cache, so none is.
        unsafe { raw::ferretgold_object_close(self.0.as_ptr()) == 0 }
    }
}

// ---- Handles ------------------------------------------------------------------------------------

/// One of the places at which those who hold a cache's entries are counted. Each thread counts at
/// one, so that few meet at a line of memory.
#[repr(align(128))]
pub(crate) struct Home<V>(Arc<ObjectCache<V>>);

/// A reference on an entry. It keeps the cache open, and gives itself back.
pub(crate) struct Held<V> {
    home: Arc<Home<V>>,
    handle: NonNull<raw::ObjectHandle>,
    /// Whether giving it back is a use of the entry.
    pub useful: bool,
}

// SAFETY: any thread may read what a handle shows, share it and give it back. The last one drops
// the object (`Send`).
unsafe impl<V: Send + Sync> Send for Held<V> {}
unsafe impl<V: Send + Sync> Sync for Held<V> {}

impl<V> Home<V> {
    pub fn of(cache: &Arc<ObjectCache<V>>) -> Home<V> {
        Home(Arc::clone(cache))
    }

    pub fn cache(&self) -> &ObjectCache<V> {
        &self.0
    }

    /// # Safety
    /// C gave this handle, with one reference of it.
    unsafe fn held(self: &Arc<Self>, handle: *const raw::ObjectHandle, useful: bool) -> Held<V> {
        Held {
            home: Arc::clone(self),
            // SAFETY: C's handles aren't null.
            handle: unsafe { NonNull::new_unchecked(handle as *mut raw::ObjectHandle) },
            useful,
        }
    }

    pub fn lookup(self: &Arc<Self>, key: &Key) -> Option<Held<V>> {
        let mut handle = null();
        // SAFETY: *Open*.
        let status = unsafe { raw::ferretgold_object_lookup(self.at(), key, &mut handle) };
        // SAFETY: C answered that it gave one.
        let held = (status == 0).then(|| unsafe { self.held(handle, true) });
        panics::go_on();
        held
    }

    /// What the entry of a slot is, if one is there.
    pub fn pin_at(self: &Arc<Self>, shard: u32, slot: u32) -> Option<Held<V>> {
        let mut handle = null();
        // SAFETY: *Open*.
        let status = unsafe { raw::ferretgold_object_pin_at(self.at(), shard, slot, &mut handle) };
        // SAFETY: C answered that it gave one.
        let held = (status == 0).then(|| unsafe { self.held(handle, false) });
        panics::go_on();
        held
    }

    /// Inserts an object, and holds it; giving it back is no use of it.
    pub fn insert_pinned(
        self: &Arc<Self>,
        key: &Key,
        object: Owned<V>,
        charge: u32,
        priority: Priority,
    ) -> Result<(Inserted, Held<V>), Rejected<Owned<V>>> {
        let (object, kind) = into_raw(object);
        let (level, mut came, mut handle) = (priority as u32, 0, null());
        let (at, came, handle_at) = (self.at(), &mut came, &mut handle);
        // SAFETY: *Open*; *Owner*: C owns the object now, unless it refuses.
        let status = unsafe {
            raw::ferretgold_object_insert_pinned(
                at, key, object, kind, charge, level, came, handle_at,
            )
        };
        let answer = match (judged(status), *came) {
            // SAFETY: C answered that it gave one.
            (Ok(()), 0) => Ok((Inserted::Placed, unsafe { self.held(handle, false) })),
            (Ok(()), _) => Ok((Inserted::Standalone, unsafe { self.held(handle, false) })),
            // SAFETY: *Owner*: C didn't take it.
            (Err(why), _) => Err(Rejected {
                why,
                object: unsafe { from_raw(object, kind) },
            }),
        };
        panics::go_on();
        answer
    }

    fn at(&self) -> *mut raw::ObjectCache {
        self.0.at.as_ptr()
    }
}

impl<V> Held<V> {
    fn shows(&self) -> &raw::ObjectHandle {
        // SAFETY: *Held*: nobody writes there until it is given back.
        unsafe { self.handle.as_ref() }
    }

    pub fn object(&self) -> &V {
        // SAFETY: *Held*; *Owner*: it is an object of `V`, which C owns meanwhile, and nobody
        // changes.
        unsafe { &*self.shows().object.cast::<V>() }
    }

    pub fn key(&self) -> Key {
        self.shows().key
    }

    pub fn charge(&self) -> u32 {
        self.shows().charge
    }

    /// One more reference. C doesn't look how many there are, up to 2^32: so there is one for each
    /// thread that waits, and no more.
    pub fn shared(&self) -> Held<V> {
        // SAFETY: *Open*; *Held*.
        let status = unsafe { raw::ferretgold_object_ref(self.home.at(), self.handle.as_ptr()) };
        debug_assert_eq!(status, 0);
        // SAFETY: C counts one more reference.
        unsafe { self.home.held(self.handle.as_ptr(), true) }
    }

    /// Gives it back; whether this freed an entry.
    pub fn release(self, useful: bool, erase_if_last: bool) -> bool {
        let it = ManuallyDrop::new(self);
        // SAFETY: `it` isn't dropped, and goes.
        let freed = unsafe { it.give_back(useful, erase_if_last) };
        // SAFETY: `it` isn't dropped, so its share of the cache is dropped here, once.
        drop(unsafe { ptr::read(&it.home) });
        panics::go_on();
        freed
    }

    /// # Safety
    /// The reference isn't used after it.
    unsafe fn give_back(&self, useful: bool, erase_if_last: bool) -> bool {
        let (handle, mut freed) = (self.handle.as_ptr(), false);
        // SAFETY: *Open*; *Held*.
        let status = unsafe {
            let cache = self.home.at();
            raw::ferretgold_object_release(cache, handle, useful, erase_if_last, &mut freed)
        };
        debug_assert_eq!(status, 0);
        freed
    }
}

impl<V> Drop for Held<V> {
    fn drop(&mut self) {
        // SAFETY: it goes.
        unsafe { self.give_back(self.useful, false) };
        panics::go_on();
    }
}
