//! The functions of ferretgold.h, _closed.h, _image.h, _object.h and _file.h, as C has them, also by the
//! names by which C links them. tests/static/check.py compares the two.

use std::ffi::c_void;
use std::os::raw::c_char;

/// A configuration, as it crosses to C.
#[repr(C)]
#[derive(Clone, Copy, Default)]
pub struct Config {
    pub slots: u32,
    pub room: u32,
    pub clients: u32,
    pub handles: u32,
    pub shards: u32,
    pub strict: bool,
    pub marks: bool,
    pub size: u16,
    pub capacity: u64,
    pub serials: u64,
    pub seed: u64,
}

#[repr(C)]
#[derive(Clone, Copy, Debug, Default)]
pub struct Handle {
    pub index: usize,
    pub serial: u64,
    pub client: u32,
    pub cache: u32,
}

#[repr(C)]
#[derive(Clone, Copy, Debug, Default)]
pub struct HeldEntry {
    pub handle: Handle,
    pub key: Key,
    pub charge: u64,
    pub uses: u32,
}

/// What a reading of a part of a value gave.
#[repr(C)]
#[derive(Clone, Copy, Debug, Default, PartialEq, Eq)]
pub struct Part {
    /// How many bytes are at the front of the buffer.
    pub given: usize,
    /// How many bytes the whole value has.
    pub length: usize,
}

/// A configuration of a cache of objects, as it crosses to C.
#[repr(C)]
#[derive(Clone, Copy, Default)]
pub struct ObjectConfig {
    pub slots: u32,
    pub clients: u32,
    pub handles: u32,
    pub gone: u32,
    pub shards: u32,
    pub strict: bool,
    pub marks: bool,
    pub size: u16,
    pub capacity: u64,
    pub serials: u64,
    pub seed: u64,
}

#[repr(C)]
#[derive(Clone, Copy, Debug)]
pub struct ObjectHandle {
    pub object: *mut c_void,
    pub key: Key,
    pub charge: u32,
    pub kind: u16,
}

#[cfg(feature = "file")]
pub use crate::Loaded;
pub use crate::{Counts, Entry, Fit, Key, Stats, Totals};

/// A cache, a client of one, what is left of one that was closed, and what one begins with.
#[derive(Debug)]
pub enum Cache {}
#[derive(Debug)]
pub enum Client {}
#[derive(Debug)]
pub enum Closed {}
#[derive(Debug)]
pub enum Image {}

/// A cache of objects.
#[derive(Debug)]
pub enum ObjectCache {}

extern "C" {
    pub fn ferretgold_memory(config: *const Config) -> u64;
    pub fn ferretgold_config_for(
        bytes: u64,
        value: usize,
        threads: u32,
        config: *mut Config,
        fit: *mut Fit,
    ) -> u32;
    pub fn ferretgold_config_advice(config: *const Config) -> u32;
    pub fn ferretgold_advice_text(advice: u32) -> *const c_char;
    pub fn ferretgold_config_check(config: *const Config) -> u32;
    pub fn ferretgold_config_of(cache: *const Cache, config: *mut Config) -> u32;
    pub fn ferretgold_value_limit(cache: *const Cache) -> usize;
    pub fn ferretgold_cache_counts(cache: *const Cache, counts: *mut Counts) -> u32;
    pub fn ferretgold_client_counts(cache: *const Cache, number: u32, counts: *mut Counts) -> u32;
    #[link_name = "ferretgold_open_0_1"]
    pub fn ferretgold_open(config: *const Config, cache: *mut *mut Cache) -> u32;
    pub fn ferretgold_client_open(cache: *mut Cache, client: *mut *mut Client) -> u32;
    pub fn ferretgold_client_close(cache: *mut Cache, client: *mut Client) -> u32;
    pub fn ferretgold_client_close_releasing(cache: *mut Cache, client: *mut Client) -> u32;
    pub fn ferretgold_close(cache: *mut Cache, totals: *mut Totals) -> u32;
    pub fn ferretgold_close_keeping(cache: *mut Cache, closed: *mut *mut Closed) -> u32;
    pub fn ferretgold_closed_free(closed: *mut Closed);
    pub fn ferretgold_closed_config(closed: *const Closed, config: *mut Config) -> u32;
    pub fn ferretgold_closed_totals(closed: *mut Closed, totals: *mut Totals) -> u32;
    pub fn ferretgold_closed_entry(
        closed: *mut Closed,
        shard: u32,
        slot: u32,
        entry: *mut Entry,
    ) -> u32;
    pub fn ferretgold_closed_value(
        closed: *mut Closed,
        shard: u32,
        slot: u32,
        buffer: *mut c_void,
        capacity: usize,
        length: *mut usize,
    ) -> u32;
    pub fn ferretgold_closed_word(
        closed: *mut Closed,
        shard: u32,
        slot: u32,
        word: *mut u64,
    ) -> u32;
    pub fn ferretgold_closed_displacement(
        closed: *mut Closed,
        shard: u32,
        slot: u32,
        displacement: *mut u64,
    ) -> u32;
    pub fn ferretgold_closed_hand(closed: *mut Closed, shard: u32, hand: *mut u64) -> u32;
    pub fn ferretgold_lookup(client: *mut Client, key: *const Key, handle: *mut Handle) -> u32;
    pub fn ferretgold_reref(client: *mut Client, handle: Handle, more: *mut Handle) -> u32;
    pub fn ferretgold_release(
        client: *mut Client,
        handle: Handle,
        useful: bool,
        erase_if_last: bool,
        freed: *mut bool,
    ) -> u32;
    pub fn ferretgold_insert(
        client: *mut Client,
        key: *const Key,
        value: *const c_void,
        length: usize,
        charge: u32,
        priority: u32,
        inserted: *mut u32,
    ) -> u32;
    pub fn ferretgold_insert_pinned(
        client: *mut Client,
        key: *const Key,
        value: *const c_void,
        length: usize,
        charge: u32,
        priority: u32,
        inserted: *mut u32,
        handle: *mut Handle,
    ) -> u32;
    pub fn ferretgold_erase(client: *mut Client, key: *const Key, hidden: *mut u32) -> u32;
    pub fn ferretgold_pin_at(
        client: *mut Client,
        shard: u32,
        slot: u32,
        held: *mut HeldEntry,
    ) -> u32;
    pub fn ferretgold_erase_where(
        client: *mut Client,
        meant: Meant,
        context: *mut c_void,
        hidden: *mut u64,
    ) -> u32;
    pub fn ferretgold_handle_key(client: *mut Client, handle: Handle, key: *mut Key) -> u32;
    pub fn ferretgold_value_len(client: *mut Client, handle: Handle, length: *mut usize) -> u32;
    pub fn ferretgold_read_value(
        client: *mut Client,
        handle: Handle,
        buffer: *mut c_void,
        capacity: usize,
        length: *mut usize,
    ) -> u32;
    pub fn ferretgold_read_part(
        client: *mut Client,
        handle: Handle,
        offset: usize,
        buffer: *mut c_void,
        capacity: usize,
        part: *mut Part,
    ) -> u32;
    pub fn ferretgold_get(
        client: *mut Client,
        key: *const Key,
        buffer: *mut c_void,
        capacity: usize,
        useful: bool,
        length: *mut usize,
    ) -> u32;
    pub fn ferretgold_get_part(
        client: *mut Client,
        key: *const Key,
        offset: usize,
        buffer: *mut c_void,
        capacity: usize,
        useful: bool,
        part: *mut Part,
    ) -> u32;
    pub fn ferretgold_image_open(image: *mut *mut Image) -> u32;
    pub fn ferretgold_image_add(
        image: *mut Image,
        key: *const Key,
        value: *const c_void,
        length: usize,
        charge: u32,
        uses: u32,
    ) -> u32;
    pub fn ferretgold_image_free(image: *mut Image);
    #[link_name = "ferretgold_reopen_0_1"]
    pub fn ferretgold_reopen(
        config: *const Config,
        image: *mut Image,
        cache: *mut *mut Cache,
        left_out: *mut usize,
    ) -> u32;
    pub fn ferretgold_usage(client: *mut Client, usage: *mut u64) -> u32;
    pub fn ferretgold_pinned_usage(client: *mut Client, usage: *mut u64) -> u32;
    pub fn ferretgold_occupancy(client: *mut Client, occupancy: *mut u64) -> u32;
    pub fn ferretgold_word(client: *mut Client, shard: u32, slot: u32, word: *mut u64) -> u32;
    pub fn ferretgold_displacement(
        client: *mut Client,
        shard: u32,
        slot: u32,
        displacement: *mut u64,
    ) -> u32;
    pub fn ferretgold_client_number(client: *mut Client) -> u32;
    pub fn ferretgold_held(client: *mut Client) -> u32;
    pub fn ferretgold_serials_left(client: *mut Client) -> u64;
    pub fn ferretgold_holds(client: *mut Client, handle: Handle) -> bool;
    pub fn ferretgold_statistics(client: *mut Client, stats: *mut Stats) -> u32;
    pub fn ferretgold_status_text(status: u32) -> *const c_char;
    pub fn ferretgold_version() -> *const c_char;
}

/// What a walk asks of each key.
pub type Meant = unsafe extern "C" fn(context: *mut c_void, key: *const Key) -> bool;

/// What a cache of objects calls for each that it hands back.
pub type Deleter =
    unsafe extern "C" fn(context: *mut c_void, key: *const Key, object: *mut c_void, kind: u16);

extern "C" {
    pub fn ferretgold_object_memory(config: *const ObjectConfig) -> u64;
    pub fn ferretgold_object_config_check(config: *const ObjectConfig) -> u32;
    #[link_name = "ferretgold_object_open_0_1"]
    pub fn ferretgold_object_open(
        config: *const ObjectConfig,
        deleter: Deleter,
        context: *mut c_void,
        cache: *mut *mut ObjectCache,
    ) -> u32;
    pub fn ferretgold_object_config_of(cache: *const ObjectCache, config: *mut ObjectConfig)
        -> u32;
    pub fn ferretgold_object_owns(cache: *mut ObjectCache, kind: u16) -> u32;
    pub fn ferretgold_object_close(cache: *mut ObjectCache) -> u32;
    pub fn ferretgold_object_lookup(
        cache: *mut ObjectCache,
        key: *const Key,
        handle: *mut *const ObjectHandle,
    ) -> u32;
    pub fn ferretgold_object_pin_at(
        cache: *mut ObjectCache,
        shard: u32,
        slot: u32,
        handle: *mut *const ObjectHandle,
    ) -> u32;
    pub fn ferretgold_object_ref(cache: *mut ObjectCache, handle: *const ObjectHandle) -> u32;
    pub fn ferretgold_object_release(
        cache: *mut ObjectCache,
        handle: *const ObjectHandle,
        useful: bool,
        erase_if_last: bool,
        freed: *mut bool,
    ) -> u32;
    pub fn ferretgold_object_collect(cache: *mut ObjectCache) -> u32;
    pub fn ferretgold_object_insert(
        cache: *mut ObjectCache,
        key: *const Key,
        object: *mut c_void,
        kind: u16,
        charge: u32,
        priority: u32,
        inserted: *mut u32,
    ) -> u32;
    pub fn ferretgold_object_insert_pinned(
        cache: *mut ObjectCache,
        key: *const Key,
        object: *mut c_void,
        kind: u16,
        charge: u32,
        priority: u32,
        inserted: *mut u32,
        handle: *mut *const ObjectHandle,
    ) -> u32;
    pub fn ferretgold_object_erase(
        cache: *mut ObjectCache,
        key: *const Key,
        hidden: *mut u32,
    ) -> u32;
    pub fn ferretgold_object_erase_where(
        cache: *mut ObjectCache,
        meant: Meant,
        context: *mut c_void,
        hidden: *mut u64,
    ) -> u32;
    pub fn ferretgold_object_usage(cache: *mut ObjectCache, usage: *mut u64) -> u32;
    pub fn ferretgold_object_pinned_usage(cache: *mut ObjectCache, usage: *mut u64) -> u32;
    pub fn ferretgold_object_occupancy(cache: *mut ObjectCache, occupancy: *mut u64) -> u32;
    pub fn ferretgold_object_cache_counts(cache: *const ObjectCache, counts: *mut Counts) -> u32;
    pub fn ferretgold_object_client_counts(
        cache: *const ObjectCache,
        number: u32,
        counts: *mut Counts,
    ) -> u32;
}

/// Callbacks that ferretgold_file.h takes.
#[cfg(feature = "file")]
pub type Write =
    unsafe extern "C" fn(context: *mut c_void, bytes: *const c_void, count: usize) -> bool;
#[cfg(feature = "file")]
pub type Read = unsafe extern "C" fn(
    context: *mut c_void,
    bytes: *mut c_void,
    count: usize,
    could: *mut bool,
) -> usize;

#[cfg(feature = "file")]
#[repr(C)]
#[derive(Clone, Copy, Debug)]
pub struct ObjectSaved {
    pub key: Key,
    pub bytes: *const c_void,
    pub length: usize,
    pub charge: u32,
    pub kind: u16,
}

#[cfg(feature = "file")]
pub type ObjectSize =
    unsafe extern "C" fn(context: *mut c_void, handle: *const ObjectHandle) -> u64;
#[cfg(feature = "file")]
pub type ObjectCopy = unsafe extern "C" fn(
    context: *mut c_void,
    handle: *const ObjectHandle,
    offset: u64,
    bytes: *mut c_void,
    count: usize,
) -> bool;
#[cfg(feature = "file")]
pub type ObjectMake =
    unsafe extern "C" fn(context: *mut c_void, saved: *const ObjectSaved) -> bool;

#[cfg(feature = "file")]
extern "C" {
    pub fn ferretgold_save(closed: *mut Closed, write: Write, context: *mut c_void) -> u32;
    pub fn ferretgold_load(
        config: *const Config,
        read: Read,
        context: *mut c_void,
        keep_front: bool,
        cache: *mut *mut Cache,
        loaded: *mut Loaded,
    ) -> u32;
    pub fn ferretgold_dump(client: *mut Client, path: *const c_char, saved: *mut u64) -> u32;
    pub fn ferretgold_object_dump(
        cache: *mut ObjectCache,
        size: ObjectSize,
        copy: ObjectCopy,
        context: *mut c_void,
        path: *const c_char,
        saved: *mut u64,
    ) -> u32;
    pub fn ferretgold_object_warm(
        cache: *mut ObjectCache,
        path: *const c_char,
        make: ObjectMake,
        context: *mut c_void,
        loaded: *mut Loaded,
    ) -> u32;
    pub fn ferretgold_file_status_text(status: u32) -> *const c_char;
}
