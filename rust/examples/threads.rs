//! Threads read squares through one cache, each by a client of its own.

use ferretgold::{Cache, Client, Config, Got, Key, Priority, Refused};
use std::thread;

const THREADS: u32 = 4;

/// The square of a number, from the cache where it has it.
fn square(client: &Client, number: u64) -> Result<u64, Refused> {
    let key = Key { w0: 2, w1: number };
    let mut bytes = [0; 8];
    if client.get(key, &mut bytes, true) == Got::Value(8) {
        return Ok(u64::from_le_bytes(bytes));
    }
    let bytes = (number * number).to_le_bytes();
    client.insert(key, &bytes, 1, Priority::Low)?;
    Ok(number * number)
}

fn read_squares(cache: &Cache) -> Result<(), Refused> {
    let client = cache.client()?;
    for round in 0..10_000 {
        let number = round * round % 150;
        assert_eq!(square(&client, number)?, number * number);
    }
    Ok(())
}

fn main() -> Result<(), Refused> {
    let cache = Cache::open(&Config {
        slots: 256,
        room: 1,
        clients: THREADS,
        shards: 1,
        capacity: 100,
        ..Config::default()
    })?;
    thread::scope(|scope| {
        let workers: Vec<_> = (0..THREADS)
            .map(|_| scope.spawn(|| read_squares(&cache)))
            .collect();
        workers
            .into_iter()
            .try_for_each(|worker| worker.join().unwrap())
    })?;
    let totals = cache.close().map_err(|(why, _)| why)?;
    assert_eq!(totals.usage, totals.slot_charges);
    assert_eq!(totals.occupied, totals.slot_count);
    println!("40000 squares are right, and the books agree with the slots");
    Ok(())
}
