//! Each call, and what types can't rule out.

use ferretgold::{
    Advice, Cache, Client, Config, Counts, Got, Image, Inserted, Key, Part, Priority, Refused, Stats,
};
use std::mem::forget;
use std::panic::{catch_unwind, AssertUnwindSafe};

const KEY: Key = Key { w0: 1, w1: 2 };
const OTHER: Key = Key { w0: 3, w1: 4 };

fn small() -> Config {
    Config {
        slots: 8,
        room: 2,
        clients: 2,
        handles: 3,
        shards: 1,
        capacity: 600,
        seed: 7,
        ..Config::default()
    }
}

fn inserts(client: &Client, key: Key, value: &[u8]) -> Result<Inserted, Refused> {
    client.insert(key, value, 7, Priority::default())
}

#[test]
fn a_value_is_read_by_its_key() {
    let cache = Cache::open(&small()).unwrap();
    assert_eq!((cache.config(), cache.value_limit()), (small(), 16));
    let client = cache.client().unwrap();
    let mut block = [9; 6];
    assert_eq!(client.get(KEY, &mut block, true), Got::Miss);
    assert_eq!(client.get_part(KEY, 0, &mut block, true), Ok(None));
    assert_eq!(inserts(&client, KEY, b"hello"), Ok(Inserted::Placed));
    assert_eq!(inserts(&client, KEY, b"other"), Ok(Inserted::There));
    assert_eq!(client.get(KEY, &mut block[..4], true), Got::TooShort(5));
    assert_eq!(block, [9; 6]);
    let tail = Some(Part {
        given: 2,
        length: 5,
    });
    assert_eq!(client.get_part(KEY, 3, &mut block, false), Ok(tail));
    assert_eq!(&block, b"lo\x09\x09\x09\x09");
    assert_eq!(client.get(KEY, &mut block, false), Got::Value(5));
    assert_eq!(&block, b"hello\x09");
    assert_eq!(client.erase(KEY), 1);
    assert_eq!(client.erase(KEY), 0);
    assert_eq!(client.get(KEY, &mut [], true), Got::Miss);
    assert_eq!(inserts(&client, KEY, b""), Ok(Inserted::Placed));
    assert_eq!(client.get(KEY, &mut [], true), Got::Value(0));
    let counted = Counts {
        hits: 3,
        misses: 4,
        placed: 2,
        there: 1,
        by_turns: [3, 0, 0, 0, 0, 0, 0, 0, 0, 0, 0, 0, 0, 0, 0, 0],
        ..Counts::default()
    };
    assert_eq!(cache.counts(), counted);
    assert_eq!(cache.client_counts(client.number()), Ok(counted));
    assert_eq!(
        cache.client_counts(1 - client.number()),
        Ok(Counts::default())
    );
    assert_eq!(cache.client_counts(2), Err(Refused::OUT_OF_RANGE));
}

#[test]
fn a_handle_keeps_its_entry() {
    let cache = Cache::open(&small()).unwrap();
    let (mine, yours) = (cache.client().unwrap(), cache.client().unwrap());
    assert!(mine.lookup(KEY).unwrap().is_none());
    let (came, first) = mine.insert_pinned(KEY, b"ab", 3, Priority::High).unwrap();
    assert_eq!(came, Inserted::Placed);
    let (came, beside) = mine.insert_pinned(KEY, b"", 5, Priority::Bottom).unwrap();
    assert_eq!((came, beside.is_empty()), (Inserted::Standalone, true));
    assert_eq!(
        (mine.usage(), mine.pinned_usage(), mine.occupancy()),
        (8, 8, 1)
    );
    assert!(beside.release(true, false));
    let again = yours.lookup(KEY).unwrap().unwrap();
    assert_eq!(
        (again.key(), again.len(), again.to_vec()),
        (KEY, 2, b"ab".to_vec())
    );
    assert!(yours.holds(&again) && !mine.holds(&again) && mine.holds(&first));
    assert_eq!(again.read(&mut [0]), Err(Refused::TOO_SHORT));
    let mut last = [9; 2];
    let length = again.len();
    let part = again.read_part(length - 1, &mut last);
    assert_eq!((part, last[1]), (Part { given: 1, length }, 9));
    assert_eq!(again.read_part(length, &mut last).given, 0);
    assert!(!first.release(false, true));
    let more = again.reref().unwrap();
    assert_eq!((mine.held(), yours.held()), (0, 2));
    assert!(!again.release(false, true));
    assert!(more.release(false, true));
    assert_eq!((yours.held(), yours.usage()), (0, 0));
}

#[test]
fn walks_hold_each_entry_and_erase_what_is_meant() {
    let cache = Cache::open(&small()).unwrap();
    let client = cache.client().unwrap();
    assert_eq!(inserts(&client, KEY, b"hello"), Ok(Inserted::Placed));
    assert_eq!(inserts(&client, OTHER, b""), Ok(Inserted::Placed));
    let mut seen: Vec<_> = client
        .iter()
        .map(Result::unwrap)
        .map(|it| (it.key, it.charge, it.uses, it.handle.to_vec()))
        .collect();
    seen.sort_by_key(|it| it.0.w0);
    assert_eq!(
        seen,
        [(KEY, 7, 2, b"hello".to_vec()), (OTHER, 7, 2, vec![])]
    );
    assert!(client.pin_at(1, 0).unwrap().is_none() && client.pin_at(0, 8).unwrap().is_none());
    let held: Vec<_> = (0..3).map(|_| client.lookup(KEY).unwrap()).collect();
    let full = Refused::HANDLES_FULL;
    assert_eq!(client.pin_at(0, 0).unwrap_err(), full);
    assert!(client.iter().all(|it| it.is_err_and(|why| why == full)));
    assert_eq!(client.erase_where(|_| true), Err(full));
    drop(held);
    assert_eq!(client.erase_where(|key| key == KEY), Ok(1));
    let asked = AssertUnwindSafe(|| client.erase_where(|_| panic!("asked")));
    let panic = catch_unwind(asked).unwrap_err();
    assert_eq!(panic.downcast_ref(), Some(&"asked"));
    assert_eq!(client.erase_where(|_| true), Ok(1));
    assert_eq!((client.held(), client.occupancy()), (0, 0));
}

#[test]
fn refusals_have_a_status_and_a_text() {
    let cache = Cache::open(&small()).unwrap();
    let client = cache.client().unwrap();
    let charge = |it| client.insert(KEY, b"", it, Priority::Low);
    assert_eq!(charge(0), Err(Refused::NO_CHARGE));
    assert_eq!(inserts(&client, KEY, &[0; 17]), Err(Refused::TOO_LONG));
    assert_eq!(charge(1), Ok(Inserted::Placed));
    let held: Vec<_> = (0..3).map(|_| client.lookup(KEY).unwrap()).collect();
    let why = client.lookup(KEY).unwrap_err();
    assert_eq!(why, Refused::HANDLES_FULL);
    assert_eq!(
        why.to_string(),
        "the client holds as many handles as it may"
    );
    assert_eq!(held[0].as_ref().unwrap().reref().unwrap_err(), why);
    assert_eq!(client.get_part(KEY, 0, &mut [], true), Err(why));
    let why = client
        .insert_pinned(OTHER, b"", 0, Priority::Low)
        .unwrap_err();
    assert_eq!(format!("{why:?}"), "Refused(18: the charge is 0)");
    assert_eq!(Refused(2).to_string(), "unknown");
    assert_eq!(client.word(0, 8), Err(Refused::OUT_OF_RANGE));
    assert_eq!(client.displacement(1, 0), Err(Refused::OUT_OF_RANGE));
    assert!(client.word(0, 7).is_ok() && client.displacement(0, 7).is_ok());
    let bad = Config { room: 0, ..small() };
    assert_eq!(Cache::open(&bad).unwrap_err(), Refused::BAD_ROOM);
    assert_eq!(Config::sized(1 << 20, 4097, 1), Err(Refused::BAD_ROOM));
}

#[test]
fn a_client_tells_of_itself() {
    let cache = Cache::open(&Config {
        serials: 4,
        ..small()
    })
    .unwrap();
    let clients = [cache.client().unwrap(), cache.client().unwrap()];
    assert_eq!(cache.client().unwrap_err(), Refused::NO_CLIENT);
    assert_eq!(clients[0].number() + clients[1].number(), 1);
    assert_eq!(clients[0].stats(), Stats::default());
    assert_eq!(inserts(&clients[0], KEY, b""), Ok(Inserted::Placed));
    assert!(clients[0].lookup(KEY).unwrap().is_some());
    assert_eq!(clients[0].serials_left(), 2);
    assert!(clients[0].stats().probes > 0);
    assert_eq!(clients[1].serials_left(), 4);
}

#[test]
fn nothing_is_lost_that_is_forgotten() {
    let cache = Cache::open(&small()).unwrap();
    let client = cache.client().unwrap();
    forget(client.insert_pinned(KEY, b"", 7, Priority::Low));
    let (why, client) = client.close().unwrap_err();
    assert_eq!((why, client.held()), (Refused::HANDLES_OUT, 1));
    drop(client);
    cache.client().unwrap().close().unwrap();
    let mut client = cache.client().unwrap();
    assert_eq!((client.held(), client.pinned_usage()), (0, 0));
    let was = client.number();
    client = cache.client().unwrap();
    assert_ne!(client.number(), was);
    drop(client);
    let totals = cache.close().unwrap();
    assert_eq!((totals.usage, totals.occupied), (7, 1));
    assert_eq!((totals.slot_charges, totals.slot_count), (7, 1));
}

#[test]
fn a_cache_with_a_forgotten_client_stays() {
    let cache = Cache::open(&small()).unwrap();
    forget(cache.client());
    let (why, cache) = cache.close().unwrap_err();
    assert_eq!(why, Refused::CLIENTS_OUT);
    assert_eq!(
        inserts(&cache.client().unwrap(), KEY, b""),
        Ok(Inserted::Placed)
    );
    forget(cache);
}

#[test]
fn clients_go_from_thread_to_thread() {
    let cache = Cache::open(&Config {
        slots: 64,
        ..small()
    })
    .unwrap();
    let client = cache.client().unwrap();
    std::thread::scope(|scope| {
        let worker = scope.spawn(move || {
            assert_eq!(inserts(&client, KEY, b"sent"), Ok(Inserted::Placed));
            client
        });
        let mine = cache.client().unwrap();
        let client = worker.join().unwrap();
        assert_eq!(client.lookup(KEY).unwrap().unwrap().to_vec(), b"sent");
        assert_eq!(mine.get(KEY, &mut [0; 4], true), Got::Value(4));
    });
}

#[test]
fn sizes_are_those_of_the_budget() {
    let config = Config::sized(1 << 20, 64, 3).unwrap();
    assert!(config.memory() <= 1 << 20 && 2 * config.memory() > 1 << 20);
    assert_eq!((config.room, config.clients), (8, 3));
    let (same, fit) = Config::fitted(1 << 20, 64, 3).unwrap();
    assert_eq!((same, fit.bytes, fit.half), (config, config.memory(), true));
    let (_, more) = Config::fitted(fit.more, 64, 3).unwrap();
    assert_eq!(
        (fit.values, more.entries / 2),
        (64 * fit.entries, fit.entries)
    );
    assert_eq!(ferretgold::version(), env!("CARGO_PKG_VERSION"));
}

#[test]
fn a_configuration_is_thought_over() {
    let config = Config::default();
    assert_eq!(config.advice(), []);
    let many = Config {
        handles: 1000,
        capacity: 1000,
        ..config
    };
    let advice = many.advice();
    assert_eq!(advice, [Advice::MANY_HANDLES, Advice::SMALL_CAPACITY]);
    assert_eq!(
        advice[0].to_string(),
        "clients may hold more than a quarter of a shard's entries: fewer handles or shards"
    );
    let shards = Config {
        slots: 256,
        capacity: 1 << 40,
        ..config
    };
    let advice = shards.advice();
    assert_eq!(advice[1..], [Advice::LARGE_CAPACITY, Advice::SMALL_SHARDS]);
}

#[test]
fn what_is_left_is_read() {
    let config = Config {
        shards: 2,
        ..small()
    };
    let cache = Cache::open(&config).unwrap();
    forget(cache.client());
    let (why, cache) = cache.close_keeping().unwrap_err();
    assert_eq!(why, Refused::CLIENTS_OUT);
    forget(cache);
    let cache = Cache::open(&config).unwrap();
    let client = cache.client().unwrap();
    assert_eq!(
        client.insert(KEY, b"left", 0x1234_5678, Priority::High),
        Ok(Inserted::Placed)
    );
    let words: Vec<u64> = (0..16)
        .map(|k| client.word(k / 8, k % 8).unwrap())
        .collect();
    drop(client);
    let left = cache.close_keeping().map_err(|(why, _)| why).unwrap();
    let all: Vec<_> = left.entries().collect();
    let (shard, slot, entry) = all[0];
    assert_eq!(
        (all.len(), entry.key, entry.length, entry.charge),
        (1, KEY, 4, 0x1234_5678)
    );
    assert_eq!((entry.uses, entry.visible, entry.hit), (3, true, false));
    let mut bytes = [9; 5];
    assert_eq!(
        left.value(shard, slot, &mut bytes[..3]),
        Ok(Got::TooShort(4))
    );
    assert_eq!(left.value(shard, slot, &mut bytes), Ok(Got::Value(4)));
    assert_eq!(&bytes, b"left\x09");
    assert_eq!(left.value(1 - shard, slot, &mut bytes), Ok(Got::Miss));
    assert_eq!(left.entry(1 - shard, slot), Ok(None));
    for k in 0..16 {
        assert_eq!(left.word(k / 8, k % 8), Ok(words[k as usize]));
        assert_eq!(left.displacement(k / 8, k % 8), Ok(0));
    }
    assert_eq!((left.hand(0), left.hand(1)), (Ok(0), Ok(0)));
    assert_eq!(
        (left.totals().usage, left.totals().slot_count),
        (0x1234_5678, 1)
    );
    assert_eq!(left.config(), config);
    for (shard, slot) in [(0, 8), (2, 0)] {
        assert_eq!(left.entry(shard, slot), Err(Refused::OUT_OF_RANGE));
        assert_eq!(
            left.value(shard, slot, &mut bytes),
            Err(Refused::OUT_OF_RANGE)
        );
        assert_eq!(left.word(shard, slot), Err(Refused::OUT_OF_RANGE));
        assert_eq!(left.displacement(shard, slot), Err(Refused::OUT_OF_RANGE));
    }
    assert_eq!(left.hand(2), Err(Refused::OUT_OF_RANGE));
}

#[test]
fn a_cache_begins_with_entries() {
    let image = || {
        let mut image = Image::new().unwrap();
        assert_eq!(image.add(KEY, b"first", 0x1234_5678, 0x1a2b_3c4d), Ok(()));
        assert_eq!(image.add(OTHER, b"", 0, 1), Ok(())); // no cache has an entry of charge 0
        assert_eq!(image.add(OTHER, &[], 3, 1), Ok(()));
        image
    };
    let (warm, left_out) = Cache::reopen(&small(), image()).unwrap();
    assert_eq!((left_out, warm.config()), (1, small()));
    let (client, mut block) = (warm.client().unwrap(), [9; 6]);
    assert_eq!(client.get(KEY, &mut block, true), Got::Value(5));
    assert_eq!(&block, b"first\x09");
    assert_eq!((client.usage(), client.occupancy()), (0x1234_567b, 2));
    drop(client);
    let left = warm.close_keeping().map_err(|(why, _)| why).unwrap();
    let mut all: Vec<_> = left.entries().map(|(_, _, it)| it).collect();
    all.sort_by_key(|it| it.charge);
    assert_eq!((all[0].key, all[0].length, all[0].uses), (OTHER, 0, 1));
    assert_eq!(
        (all[1].key, all[1].charge, all[1].uses),
        (KEY, 0x1234_5678, 0x1a2b_3c4d)
    );
    let config = Config {
        slots: 33,
        ..small()
    };
    let refused = Cache::reopen(&config, image()).unwrap_err();
    assert_eq!(refused, Cache::open(&config).unwrap_err());
    drop(image());
}
