//! Ferretgold's algorithm as plain Rust, with `unsafe` where that is faster and without a proof: the
//! same words, the same steps in the same order, each sequentially consistent. It is what the proved
//! cache is measured against: what the proved one takes longer is the cost of its form. Its handles are
//! judged as the cache's are. Only `get` goes a way of its own: it writes nothing to an entry whose use
//! would change nothing.
//!
//! The functions below are called from C++ (`caches.hpp` of `bench/peers`), one client by one thread
//! at a time. Each pointer is one that this library gave, and not null.

mod cache;
mod shard;
#[cfg(test)]
mod stress;
mod word;
mod words;

use cache::{Cache, Client, Handle};
use shard::{Key, Shard};
use std::slice::{from_raw_parts, from_raw_parts_mut};

/// A cache's sizes, as C++ has them.
#[repr(C)]
pub struct Sizes {
    slots: u32,
    room: u32,
    handles: u32,
    shards: u32,
    capacity: u64,
    seed: u64,
    strict: bool,
    marks: bool,
}

/// No value.
const NONE: u64 = u64::MAX;

#[no_mangle]
pub extern "C" fn twin_open(sizes: &Sizes) -> *mut Cache {
    let capacity = sizes.capacity.div_ceil(sizes.shards as u64);
    let shard = |_| Shard::new(sizes.slots, sizes.room, capacity, sizes.strict, sizes.marks);
    let shards = (0..sizes.shards).map(shard).collect();
    Box::into_raw(Box::new(Cache { shards, seed: sizes.seed }))
}

#[no_mangle]
pub extern "C" fn twin_client(cache: u32, number: u32, handles: u32) -> *mut Client {
    Box::into_raw(Box::new(Client::new(cache, number, handles)))
}

#[no_mangle]
pub extern "C" fn twin_lookup(cache: &Cache, client: &mut Client, w0: u64, w1: u64, handle: &mut Handle) -> bool {
    cache.lookup(client, Key { w0, w1 }).map(|it| *handle = it).is_some()
}

/// The same, with the first word of the value and the charge.
#[no_mangle]
pub extern "C" fn twin_lookup_word(
    cache: &Cache,
    client: &mut Client,
    w0: u64,
    w1: u64,
    handle: &mut Handle,
    word: &mut u64,
    charge: &mut u64,
) -> bool {
    cache.lookup_word(client, Key { w0, w1 }).map(|it| (*handle, *word, *charge) = it).is_some()
}

/// # Safety
/// The buffer has so many bytes.
#[no_mangle]
pub unsafe extern "C" fn twin_read(
    cache: &Cache,
    client: &Client,
    handle: &Handle,
    buffer: *mut u8,
    length: usize,
) -> u64 {
    let buffer = from_raw_parts_mut(buffer, length);
    cache.read(client, handle, buffer).map_or(NONE, |it| it as u64)
}

/// Whether the client held the handle.
#[no_mangle]
pub extern "C" fn twin_release(cache: &Cache, client: &mut Client, handle: &Handle, useful: bool) -> bool {
    cache.release(client, handle, useful)
}

/// # Safety
/// The buffer has so many bytes.
#[no_mangle]
pub unsafe extern "C" fn twin_get(
    cache: &Cache,
    client: &mut Client,
    w0: u64,
    w1: u64,
    buffer: *mut u8,
    length: usize,
) -> u64 {
    let buffer = from_raw_parts_mut(buffer, length);
    cache.get(client, Key { w0, w1 }, buffer, true).map_or(NONE, |it| it as u64)
}

/// Whether there is a handle, where a place for one is given.
///
/// # Safety
/// The value has so many bytes.
#[no_mangle]
pub unsafe extern "C" fn twin_insert(
    cache: &Cache,
    client: &mut Client,
    w0: u64,
    w1: u64,
    value: *const u8,
    length: usize,
    handle: Option<&mut Handle>,
) -> bool {
    let value = from_raw_parts(value, length);
    let held = cache.insert(client, Key { w0, w1 }, value, 1, handle.is_some());
    if let (Some(handle), Some(held)) = (handle, held) {
        *handle = held;
    }
    held.is_some()
}

/// # Safety
/// The client isn't used again.
#[no_mangle]
pub unsafe extern "C" fn twin_client_close(client: *mut Client) {
    drop(Box::from_raw(client));
}

/// Whether the books agreed with the slots.
///
/// # Safety
/// The cache isn't used again.
#[no_mangle]
pub unsafe extern "C" fn twin_close(cache: *mut Cache) -> bool {
    Box::from_raw(cache).shards.iter().all(Shard::is_balanced)
}
