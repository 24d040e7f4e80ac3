//! Readers beside writers in a shard that is too small for their keys: each byte that is read is one
//! of the entry's. `cargo test --release`.

use crate::cache::{Cache, Client};
use crate::shard::{Key, Shard};
use std::cell::Cell;
use std::thread::{scope, yield_now};

const SLOTS: u32 = 8;
const ROOM: u32 = 16;
const KEYS: u64 = 12;
/// Readers, and as many writers.
const PAIRS: u64 = 4;
const TIMES: u64 = 400_000;

thread_local!(static DRAWN: Cell<u64> = const { Cell::new(1) });

/// Before each word that a thread uses: now and then the others go on first.
pub fn pause() {
    DRAWN.with(|it| {
        it.set(it.get().wrapping_mul(6_364_136_223_846_793_005).wrapping_add(1_442_695_040_888_963_407));
        if it.get() >> 58 == 0 {
            yield_now();
        }
    });
}

fn key_of(number: u64) -> Key {
    Key { w0: number, w1: number * 7 }
}

/// The value of a key that an insertion with this mark makes: the mark, and bytes that go by both.
fn value_of(key: u64, mark: u64, value: &mut Vec<u8>) {
    let length = 8 + (mark.wrapping_mul(0x9e37_79b9_7f4a_7c15) >> 32) % (8 * ROOM as u64 - 7);
    value.clear();
    value.extend(mark.to_le_bytes());
    value.extend((8..length).map(|place| (mark * 31 + key * 7 + place) as u8));
}

fn write(cache: &Cache, number: u64) {
    let (mut client, mut value) = (Client::new(1, number as u32, 1), Vec::new());
    for time in 0..TIMES {
        let (key, mark) = (time % KEYS, time * PAIRS + number);
        value_of(key, mark, &mut value);
        cache.insert(&mut client, key_of(key), &value, 1, false);
    }
}

/// Reads, so that the clock sees it or not: how many were hits.
fn read(cache: &Cache, number: u64) -> u64 {
    let (mut client, mut want) = (Client::new(1, (PAIRS + number) as u32, 1), Vec::new());
    let (mut buffer, mut hits) = (vec![0; 8 * ROOM as usize], 0);
    for time in 0..TIMES {
        let key = (time * 5 + number) % KEYS;
        let Some(length) = cache.get(&mut client, key_of(key), &mut buffer, number % 2 == 0) else {
            continue;
        };
        value_of(key, u64::from_le_bytes(buffer[..8].try_into().unwrap()), &mut want);
        assert!(buffer[..length] == want[..], "key {key}, {length} bytes");
        hits += 1;
    }
    hits
}

#[test]
fn each_byte_read_is_of_one_entry() {
    for marks in [false, true] {
        let shard = Shard::new(SLOTS, ROOM, SLOTS as u64, false, marks);
        let cache = &Cache { shards: Box::new([shard]), seed: 0x5eed };
        let hits: u64 = scope(|threads| {
            for number in 0..PAIRS {
                threads.spawn(move || write(cache, number));
            }
            let readers: Vec<_> = (0..PAIRS).map(|number| threads.spawn(move || read(cache, number))).collect();
            readers.into_iter().map(|it| it.join().unwrap()).sum()
        });
        println!("marks {marks}: {hits} hits of {}", PAIRS * TIMES);
        assert!(hits > 0 && cache.shards[0].is_balanced());
    }
}
