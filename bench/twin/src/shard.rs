//! One shard: its words, the search, the insertion, the clock and the ledgers. Each step is
//! sequentially consistent, and they are those of the proved crates, in the same order.

use crate::word::*;
use crate::words::Words;
use std::sync::atomic::AtomicU64;
use std::sync::atomic::Ordering::SeqCst;

const META: usize = 0;
const DISPLACEMENT: usize = 1;
const KEY0: usize = 2;
const KEY1: usize = 3;
const CHARGE: usize = 4;
const STAMP: usize = 5;
const LENGTH: usize = 6;
const PAYLOAD: usize = 7;

/// How many visits of held entries, for each slot that was freed and one more, end an eviction.
const PINNED_PER_SLOT: u64 = 30;

/// A key, seeded: the stride of its probes and its first slot.
#[derive(Clone, Copy)]
pub struct Key {
    pub w0: u64,
    pub w1: u64,
}

/// What a client counts of its calls.
#[derive(Clone, Copy, Default)]
pub struct Stats {
    pub hits: u64,
    pub probes: u64,
    pub boosts: u64,
    pub evicted: u64,
    pub evicted_hit: u64,
    pub freed: u64,
    pub turns: u64,
    pub corrections: u64,
    pub lost: u64,
}

/// A reference on a slot.
#[derive(Clone, Copy)]
pub struct Pin {
    pub slot: u32,
    pub counting: bool,
}

/// What is inserted.
#[derive(Clone, Copy)]
pub struct Draft<'a> {
    pub key: Key,
    pub value: &'a [u8],
    pub charge: u32,
    pub countdown: u64,
    pub stamp: u64,
    pub keep: bool,
}

/// Why an insertion got no place.
pub enum Refused {
    NoPlace,
    Strict,
}

/// Why a read without a reference gave nothing: one with a reference is due.
pub struct Declined;

pub struct Shard {
    words: Words,
    slots: u64,
    stride: usize,
    capacity: u64,
    strict: bool,
    marks: bool,
}

impl Shard {
    pub fn new(slots: u32, room: u32, capacity: u64, strict: bool, marks: bool) -> Shard {
        let stride = PAYLOAD + room as usize;
        let count = slots as usize * stride + 4;
        Shard { words: Words::new(count), slots: slots as u64, stride, capacity, strict, marks }
    }

    #[inline(always)]
    fn at(&self, slot: u32, word: usize) -> &AtomicU64 {
        #[cfg(test)]
        crate::stress::pause();
        // Each slot is a probe of a key or a slot of the hand, so below the number of slots.
        unsafe { self.words.get_unchecked(slot as usize * self.stride + word) }
    }

    #[inline(always)]
    fn ledger(&self, number: usize) -> &AtomicU64 {
        unsafe { self.words.get_unchecked(self.slots as usize * self.stride + number) }
    }

    fn usage(&self) -> &AtomicU64 {
        self.ledger(0)
    }

    fn occupancy(&self) -> &AtomicU64 {
        self.ledger(1)
    }

    fn standing(&self) -> &AtomicU64 {
        self.ledger(2)
    }

    fn hand(&self) -> &AtomicU64 {
        self.ledger(3)
    }

    #[inline(always)]
    fn probe(&self, key: Key, number: u64) -> u32 {
        (key.w1.wrapping_add(number.wrapping_mul(key.w0 | 1)) & (self.slots - 1)) as u32
    }

    #[inline(always)]
    fn has_key(&self, slot: u32, key: Key) -> bool {
        self.at(slot, KEY0).load(SeqCst) == key.w0 && self.at(slot, KEY1).load(SeqCst) == key.w1
    }

    /// Acquires references: the word that was found.
    #[inline(always)]
    fn acquire(&self, slot: u32, weight: u64, stats: &mut Stats) -> u64 {
        let found = self.at(slot, META).fetch_add(weight, SeqCst);
        if releases(found) >= NEAR && is_shareable(found) {
            self.correct(slot, found + weight, stats);
        }
        found
    }

    #[cold]
    fn correct(&self, slot: u32, left: u64, stats: &mut Stats) {
        if let Some(next) = corrected(left) {
            match self.at(slot, META).compare_exchange(left, next, SeqCst, SeqCst) {
                Ok(_) => stats.corrections += 1,
                Err(_) => stats.lost += 1,
            }
        }
    }

    #[inline(always)]
    pub fn find(&self, key: Key, stats: &mut Stats) -> Option<Pin> {
        for number in 0..self.slots {
            let slot = self.probe(key, number);
            stats.probes += 1;
            if state(self.at(slot, META).load(SeqCst)) == VISIBLE {
                let found = self.acquire(slot, 1, stats);
                if state(found) == VISIBLE && self.has_key(slot, key) {
                    if self.marks && found & HIT == 0 {
                        self.at(slot, META).fetch_or(HIT, SeqCst);
                    }
                    return Some(Pin { slot, counting: releases(found) < NEAR });
                }
                if is_shareable(found) {
                    self.at(slot, META).fetch_sub(1, SeqCst);
                }
            }
            if self.at(slot, DISPLACEMENT).load(SeqCst) == 0 {
                return None;
            }
        }
        None
    }

    /// Reads without a reference, and writes nothing: the value's length, or none where there is no
    /// entry. It declines where the clock or the mark of a hit would still see the use, or where
    /// the entry went meanwhile.
    #[inline(always)]
    pub fn peek(
        &self,
        key: Key,
        buffer: &mut [u8],
        useful: bool,
        stats: &mut Stats,
    ) -> Result<Option<usize>, Declined> {
        for number in 0..self.slots {
            let slot = self.probe(key, number);
            stats.probes += 1;
            let word = self.at(slot, META).load(SeqCst);
            if state(word) == VISIBLE && self.has_key(slot, key) {
                let is_used_up = !useful || releases(word) >= MOST_USES;
                let is_marked = !self.marks || word & HIT != 0;
                let read = if is_used_up && is_marked { self.read_shown(slot, key, buffer) } else { None };
                return read.map(Some).ok_or(Declined);
            }
            if self.at(slot, DISPLACEMENT).load(SeqCst) == 0 {
                return Ok(None);
            }
        }
        Ok(None)
    }

    /// Reads the entry of a slot that has shown one of this key: the value's length, where it stayed.
    ///
    /// A stamp never returns. So where it is the same behind the value as before, and an entry was shown
    /// behind its first load and before its last, that was one entry all along, whose words nobody
    /// writes.
    #[inline(always)]
    fn read_shown(&self, slot: u32, key: Key, buffer: &mut [u8]) -> Option<usize> {
        let is_shown = || state(self.at(slot, META).load(SeqCst)) == VISIBLE;
        let stamp = self.at(slot, STAMP).load(SeqCst);
        if !is_shown() || !self.has_key(slot, key) {
            return None;
        }
        let length = self.read(slot, buffer);
        (is_shown() && self.at(slot, STAMP).load(SeqCst) == stamp).then_some(length)
    }

    /// Inserts an entry that has its place and its charge: its slot, where it was placed.
    #[inline]
    pub fn insert(&self, draft: Draft, stats: &mut Stats) -> Option<u32> {
        for number in 0..self.slots {
            let slot = self.probe(draft.key, number);
            stats.probes += 1;
            let found = self.at(slot, META).fetch_or(OCCUPIED_BIT, SeqCst);
            if state(found) == EMPTY {
                self.write(slot, draft);
                self.at(slot, META).store(started(draft.countdown, draft.keep), SeqCst);
                return Some(slot);
            }
            if state(found) == VISIBLE && self.meet(slot, draft, stats) {
                stats.boosts += 1;
                self.take_back(draft.key, number);
                return None;
            }
            if number + 1 < self.slots {
                self.at(slot, DISPLACEMENT).fetch_add(1, SeqCst);
            } else {
                self.take_back(draft.key, number);
            }
        }
        None
    }

    /// Whether the slot shows an entry of the key, which is used then.
    #[inline]
    fn meet(&self, slot: u32, draft: Draft, stats: &mut Stats) -> bool {
        let weight = draft.countdown;
        let found = self.acquire(slot, weight, stats);
        let is_met = state(found) == VISIBLE && self.has_key(slot, draft.key);
        if is_met && releases(found) < NEAR {
            self.at(slot, META).fetch_add(weight << 30, SeqCst);
        } else if is_shareable(found) {
            self.at(slot, META).fetch_sub(weight, SeqCst);
        }
        is_met
    }

    fn take_back(&self, key: Key, probes: u64) {
        for number in 0..probes {
            self.at(self.probe(key, number), DISPLACEMENT).fetch_sub(1, SeqCst);
        }
    }

    #[inline(always)]
    fn write(&self, slot: u32, draft: Draft) {
        self.at(slot, KEY0).store(draft.key.w0, SeqCst);
        self.at(slot, KEY1).store(draft.key.w1, SeqCst);
        self.at(slot, CHARGE).store(draft.charge as u64, SeqCst);
        self.at(slot, STAMP).store(draft.stamp, SeqCst);
        self.at(slot, LENGTH).store(draft.value.len() as u64, SeqCst);
        let chunks = draft.value.chunks_exact(8);
        let mut last = [0; 8];
        let tail = chunks.remainder();
        for (number, word) in chunks.enumerate() {
            let word = u64::from_le_bytes(word.try_into().unwrap());
            self.at(slot, PAYLOAD + number).store(word, SeqCst);
        }
        if !tail.is_empty() {
            last[..tail.len()].copy_from_slice(tail);
            let number = draft.value.len() / 8;
            self.at(slot, PAYLOAD + number).store(u64::from_le_bytes(last), SeqCst);
        }
    }

    /// How many bytes the value has, which are copied where the buffer has room for them.
    #[inline(always)]
    pub fn read(&self, slot: u32, buffer: &mut [u8]) -> usize {
        let length = self.at(slot, LENGTH).load(SeqCst) as usize;
        if let Some(bytes) = buffer.get_mut(..length) {
            let mut number = PAYLOAD;
            let mut chunks = bytes.chunks_exact_mut(8);
            for word in &mut chunks {
                word.copy_from_slice(&self.at(slot, number).load(SeqCst).to_le_bytes());
                number += 1;
            }
            let tail = chunks.into_remainder();
            if !tail.is_empty() {
                let last = self.at(slot, number).load(SeqCst).to_le_bytes();
                tail.copy_from_slice(&last[..tail.len()]);
            }
        }
        length
    }

    #[inline(always)]
    pub fn first_word(&self, slot: u32) -> u64 {
        self.at(slot, PAYLOAD).load(SeqCst)
    }

    #[inline(always)]
    pub fn charge(&self, slot: u32) -> u64 {
        self.at(slot, CHARGE).load(SeqCst)
    }

    /// Gives a reference back: the word that is left.
    #[inline(always)]
    pub fn give(&self, pin: Pin, useful: bool) -> u64 {
        let meta = self.at(pin.slot, META);
        if useful && pin.counting {
            meta.fetch_add(RELEASE, SeqCst).wrapping_add(RELEASE)
        } else {
            meta.fetch_sub(1, SeqCst).wrapping_sub(1)
        }
    }

    /// Gives a reference back, and frees the entry where it was the last of a hidden one.
    #[inline(always)]
    pub fn release(&self, pin: Pin, useful: bool, stats: &mut Stats) {
        let left = self.give(pin, useful);
        if state(left) == INVISIBLE && references(left) == 0 {
            self.free(pin.slot, left, stats);
        }
    }

    #[cold]
    fn free(&self, slot: u32, word: u64, stats: &mut Stats) {
        if let Some(charge) = self.take(slot, word, stats) {
            self.occupancy().fetch_sub(1, SeqCst);
            self.usage().fetch_sub(charge, SeqCst);
        }
    }

    /// Frees a slot whose word is still this one: its charge.
    #[inline]
    fn take(&self, slot: u32, word: u64, stats: &mut Stats) -> Option<u64> {
        if self.at(slot, META).compare_exchange(word, TAKEN, SeqCst, SeqCst).is_err() {
            stats.lost += 1;
            return None;
        }
        let w0 = self.at(slot, KEY0).load(SeqCst);
        let key = Key { w0, w1: self.at(slot, KEY1).load(SeqCst) };
        let charge = self.at(slot, CHARGE).load(SeqCst);
        let mut number = 0;
        while self.probe(key, number) != slot {
            self.at(self.probe(key, number), DISPLACEMENT).fetch_sub(1, SeqCst);
            number += 1;
        }
        self.at(slot, META).store(0, SeqCst);
        Some(charge)
    }

    /// Frees entries until so much charge is freed: the charge, and the slots.
    fn evict(&self, ask: u64, stats: &mut Stats) -> (u64, u64) {
        let (mut charge, mut slots, mut pinned) = (0, 0, 0);
        for _ in 0..3 * self.slots / 4 + 1 {
            stats.turns += 1;
            let hand = self.hand().fetch_add(4, SeqCst);
            for number in 0..4 {
                let slot = (hand.wrapping_add(number) & (self.slots - 1)) as u32;
                let word = self.at(slot, META).load(SeqCst);
                if !is_shareable(word) {
                    continue;
                }
                if references(word) != 0 {
                    pinned += 1;
                } else if let Some(next) = clocked(word) {
                    let meta = self.at(slot, META);
                    stats.lost += meta.compare_exchange(word, next, SeqCst, SeqCst).is_err() as u64;
                } else if let Some(freed) = self.take(slot, word, stats) {
                    stats.evicted += 1;
                    stats.evicted_hit += (word & HIT != 0) as u64;
                    stats.freed += freed;
                    charge += freed;
                    slots += 1;
                }
            }
            if charge >= ask || (slots + 1) * PINNED_PER_SLOT <= pinned {
                break;
            }
        }
        (charge, slots)
    }

    /// Reserves a place and a charge, and evicts where there isn't enough.
    #[inline]
    pub fn reserve(&self, charge: u64, stats: &mut Stats) -> Result<(), Refused> {
        if self.strict && charge > self.capacity {
            return Err(Refused::Strict);
        }
        let is_full = self.occupancy().fetch_add(1, SeqCst) >= self.slots * 84 / 100;
        let (needed, asked) = if self.strict {
            let used = self.usage().fetch_add(charge, SeqCst);
            let needed = charge - charge.min(self.capacity - used.min(self.capacity));
            (needed, needed)
        } else {
            (0, self.asked(charge))
        };
        let least = if is_full { asked.max(1) } else { asked };
        let (freed, slots) = if least > 0 { self.evict(least, stats) } else { (0, 0) };
        if freed < needed || (is_full && slots == 0) {
            self.occupancy().fetch_sub(1 + slots, SeqCst);
            if self.strict {
                self.usage().fetch_sub(charge + freed, SeqCst);
                return Err(Refused::Strict);
            }
            return Err(Refused::NoPlace);
        }
        if slots > 0 {
            self.occupancy().fetch_sub(slots, SeqCst);
        }
        if !self.strict {
            self.usage().fetch_add(charge, SeqCst);
        }
        if freed > 0 {
            self.usage().fetch_sub(freed, SeqCst);
        }
        Ok(())
    }

    /// What an eviction is asked for, where the capacity may be passed.
    #[inline(always)]
    fn asked(&self, charge: u64) -> u64 {
        let used = self.usage().load(SeqCst);
        if used + charge <= self.capacity || charge > used {
            return 0;
        }
        let more = (self.capacity / 1024).min(charge) + 1;
        charge + if used > self.capacity { more } else { 0 }
    }

    /// Gives a place back, and a charge.
    pub fn give_up(&self, charge: u64) {
        self.occupancy().fetch_sub(1, SeqCst);
        self.usage().fetch_sub(charge, SeqCst);
    }

    pub fn stand(&self, charge: u64) {
        self.usage().fetch_add(charge, SeqCst);
        self.standing().fetch_add(charge, SeqCst);
    }

    pub fn fall(&self, charge: u64) {
        self.standing().fetch_sub(charge, SeqCst);
        self.usage().fetch_sub(charge, SeqCst);
    }

    /// Whether no reference is left and the ledgers are the slots' sums.
    pub fn is_balanced(&self) -> bool {
        let (mut charges, mut count, mut is_idle) = (0, 0, true);
        for slot in 0..self.slots as u32 {
            let word = self.at(slot, META).load(SeqCst);
            if is_shareable(word) {
                is_idle &= references(word) == 0;
                charges += self.at(slot, CHARGE).load(SeqCst);
                count += 1;
            }
        }
        let ledgers = self.usage().load(SeqCst) == charges && self.occupancy().load(SeqCst) == count;
        is_idle && ledgers
    }
}
