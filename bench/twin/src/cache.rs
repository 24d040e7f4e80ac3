//! The cache: shards, and clients with their handles.

use crate::shard::{Draft, Key, Pin, Refused, Shard, Stats};

/// A handle, as C++ has it: one that was given back is refused, and so is another client's.
#[repr(C)]
#[derive(Clone, Copy)]
pub struct Handle {
    index: usize,
    serial: u64,
    client: u32,
    cache: u32,
}

/// What a client keeps of a handle.
struct Hold {
    serial: u64,
    entry: Entry,
}

/// Where the entry of a handle is.
enum Entry {
    Pinned { shard: u32, pin: Pin },
    Standalone { shard: u32, value: Box<[u8]>, charge: u64 },
}

/// What a thread works with: its handles, serials and statistics.
pub struct Client {
    number: u32,
    cache: u32,
    serial: u64,
    free: Vec<usize>,
    held: Box<[Option<Hold>]>,
    pub stats: Stats,
}

impl Client {
    pub fn new(cache: u32, number: u32, handles: u32) -> Client {
        Client {
            number,
            cache,
            serial: 0,
            free: (0..handles as usize).rev().collect(),
            held: (0..handles).map(|_| None).collect(),
            stats: Stats::default(),
        }
    }

    /// The next serial, which is used then.
    #[inline(always)]
    fn next_serial(&mut self) -> u64 {
        self.serial += 1;
        self.serial
    }

    #[inline(always)]
    fn keep(&mut self, entry: Entry) -> Option<Handle> {
        let index = self.free.pop()?;
        let serial = self.next_serial();
        self.held[index] = Some(Hold { serial, entry });
        Some(Handle { index, serial, client: self.number, cache: self.cache })
    }

    /// What it keeps of a handle that it holds.
    #[inline(always)]
    fn hold(&self, handle: &Handle) -> Option<&Hold> {
        let hold = self.held.get(handle.index)?.as_ref()?;
        (self.is_own(handle) && hold.serial == handle.serial).then_some(hold)
    }

    #[inline(always)]
    fn is_own(&self, handle: &Handle) -> bool {
        (handle.cache, handle.client) == (self.cache, self.number)
    }
}

pub struct Cache {
    pub shards: Box<[Shard]>,
    pub seed: u64,
}

impl Cache {
    /// The seeded key, and the shard that it is in.
    #[inline(always)]
    fn placed(&self, key: Key) -> (Key, u32) {
        let mixed = |word: u64| {
            let word = (word ^ self.seed).wrapping_mul(0x9e37_79b9_7f4a_7c15);
            word ^ (word >> 32)
        };
        let under = if self.seed == 0 {
            key
        } else {
            let w1 = key.w1.wrapping_add(mixed(key.w0));
            Key { w0: key.w0.wrapping_add(mixed(w1)), w1 }
        };
        (under, (under.w0 >> 32) as u32 & (self.shards.len() as u32 - 1))
    }

    #[inline(always)]
    fn shard(&self, number: u32) -> &Shard {
        &self.shards[number as usize]
    }

    #[inline(always)]
    pub fn lookup(&self, client: &mut Client, key: Key) -> Option<Handle> {
        if client.free.is_empty() {
            return None;
        }
        let (key, shard) = self.placed(key);
        let pin = self.shard(shard).find(key, &mut client.stats)?;
        client.keep(Entry::Pinned { shard, pin })
    }

    /// The same, and the first word of the value.
    #[inline(always)]
    pub fn lookup_word(&self, client: &mut Client, key: Key) -> Option<(Handle, u64, u64)> {
        if client.free.is_empty() {
            return None;
        }
        let (key, shard) = self.placed(key);
        let pin = self.shard(shard).find(key, &mut client.stats)?;
        let word = self.shard(shard).first_word(pin.slot);
        let charge = self.shard(shard).charge(pin.slot);
        client.stats.hits += 1;
        Some((client.keep(Entry::Pinned { shard, pin })?, word, charge))
    }

    #[inline(always)]
    pub fn read(&self, client: &Client, handle: &Handle, buffer: &mut [u8]) -> Option<usize> {
        match &client.hold(handle)?.entry {
            Entry::Pinned { shard, pin } => Some(self.shard(*shard).read(pin.slot, buffer)),
            Entry::Standalone { value, .. } => {
                if let Some(bytes) = buffer.get_mut(..value.len()) {
                    bytes.copy_from_slice(value);
                }
                Some(value.len())
            }
        }
    }

    #[inline(always)]
    pub fn release(&self, client: &mut Client, handle: &Handle, useful: bool) -> bool {
        if !client.is_own(handle) {
            return false;
        }
        let Some(place) = client.held.get_mut(handle.index) else {
            return false;
        };
        let Some(hold) = place.take_if(|it| it.serial == handle.serial) else {
            return false;
        };
        client.free.push(handle.index);
        match hold.entry {
            Entry::Pinned { shard, pin } => {
                self.shard(shard).release(pin, useful, &mut client.stats);
            }
            Entry::Standalone { shard, charge, .. } => self.shard(shard).fall(charge),
        }
        true
    }

    /// Copies the value of a key: how many bytes it has. It writes nothing where it can; else it looks
    /// up, copies and releases.
    #[inline(always)]
    pub fn get(&self, client: &mut Client, key: Key, buffer: &mut [u8], useful: bool) -> Option<usize> {
        let (key, shard) = self.placed(key);
        let shard = self.shard(shard);
        if let Ok(found) = shard.peek(key, buffer, useful, &mut client.stats) {
            return found;
        }
        let pin = shard.find(key, &mut client.stats)?;
        let length = shard.read(pin.slot, buffer);
        shard.give(pin, useful);
        Some(length)
    }

    /// Inserts an entry: a handle of it, where one is asked for.
    #[inline(always)]
    pub fn insert(&self, client: &mut Client, key: Key, value: &[u8], charge: u32, keep: bool) -> Option<Handle> {
        if keep && client.free.is_empty() {
            return None;
        }
        let (key, number) = self.placed(key);
        let shard = self.shard(number);
        let stamp = ((client.number as u64) << 54) | client.next_serial();
        let draft = Draft { key, value, charge, countdown: 2, stamp, keep };
        let placed = match shard.reserve(charge as u64, &mut client.stats) {
            Err(Refused::Strict) => return None,
            Err(Refused::NoPlace) => None,
            Ok(()) => {
                let placed = shard.insert(draft, &mut client.stats);
                if placed.is_none() {
                    shard.give_up(charge as u64);
                }
                placed
            }
        };
        match placed {
            Some(slot) if keep => {
                let pin = Pin { slot, counting: true };
                client.keep(Entry::Pinned { shard: number, pin })
            }
            None if keep => {
                let charge = charge as u64;
                shard.stand(charge);
                client.keep(Entry::Standalone { shard: number, value: value.into(), charge })
            }
            _ => None,
        }
    }
}
