//! What is a use of an entry: handles that are dropped, given back and forgotten; insertions by each call. Of
//! objects by which of two entries goes first where a third needs the room of one.

use ferretgold::{
    Cache, Client, Config, HashedObjects, Inserted, Key, ObjectConfig, Objects, Priority,
};
use std::fs;
use std::mem::forget;
use std::path::Path;
use std::sync::{Barrier, OnceLock};
use std::thread;
use Priority::{Bottom, High, Low};

// ---- Bytes --------------------------------------------------------------------------------------

const KEY: Key = Key { w0: 1, w1: 2 };

/// The countdown of an entry once this was done with it, and the client given back.
fn uses_after(done: fn(&Client)) -> u32 {
    let config = Config {
        slots: 8,
        shards: 1,
        ..Config::default()
    };
    let cache = Cache::open(&config).unwrap();
    let client = cache.client().unwrap();
    done(&client);
    drop(client);
    let left = cache.close_keeping().map_err(|(why, _)| why).unwrap();
    let all: Vec<_> = left.entries().map(|(_, _, it)| it.uses).collect();
    assert_eq!(all.len(), 1);
    all[0]
}

fn insert(client: &Client, priority: Priority) {
    let came = client.insert(KEY, b"it", 1, priority);
    assert_eq!(came, Ok(Inserted::Placed));
}

/// Does something with the entry, which was inserted with one use.
macro_rules! inserted {
    ($it:ident: $done:expr) => {
        |$it| {
            insert($it, Bottom);
            $done;
        }
    };
}

/// What is done with an entry, and its countdown then.
const OF_BYTES: [(&str, fn(&Client), u32); 18] = [
    ("high", |it| insert(it, High), 3),
    ("low", |it| insert(it, Low), 2),
    ("by default", |it| insert(it, Priority::default()), 2),
    ("bottom", |it| insert(it, Bottom), 1),
    ("dropped", inserted!(it: drop(it.lookup(KEY).unwrap())), 2),
    (
        "two dropped",
        inserted!(it: drop(it.lookup(KEY).unwrap().map(|one| (one.reref(), one)))),
        3,
    ),
    (
        "given back as a use",
        inserted!(it: it.lookup(KEY).unwrap().unwrap().release(true, false)),
        2,
    ),
    (
        "given back as none",
        inserted!(it: it.lookup(KEY).unwrap().unwrap().release(false, false)),
        1,
    ),
    ("forgotten", inserted!(it: forget(it.lookup(KEY))), 1),
    ("read", inserted!(it: it.get(KEY, &mut [0; 2], true)), 2),
    (
        "read as no use",
        inserted!(it: it.get(KEY, &mut [0; 2], false)),
        1,
    ),
    (
        "read in part",
        inserted!(it: it.get_part(KEY, 1, &mut [0; 2], true).unwrap()),
        2,
    ),
    (
        "read in part as no use",
        inserted!(it: it.get_part(KEY, 1, &mut [0; 2], false).unwrap()),
        1,
    ),
    (
        "walked over",
        inserted!(it: assert_eq!(it.iter().map(Result::unwrap).count(), 1)),
        1,
    ),
    (
        "used on a walk",
        inserted!(it: it.iter().for_each(|it| assert!(!it.unwrap().handle.release(true, false)))),
        2,
    ),
    (
        "not meant",
        inserted!(it: assert_eq!(it.erase_where(|_| false), Ok(0))),
        1,
    ),
    (
        "held since its insertion",
        |it| drop(it.insert_pinned(KEY, b"it", 1, Low).unwrap()),
        2,
    ),
    (
        "forgotten since its insertion",
        |it| forget(it.insert_pinned(KEY, b"it", 1, Low)),
        1,
    ),
];

#[test]
fn handles_on_bytes_are_uses_unless_they_are_given_back_otherwise() {
    for (name, done, uses) in OF_BYTES {
        assert_eq!(uses_after(done), uses, "{name}");
    }
}

// ---- Objects ------------------------------------------------------------------------------------

const FIRST: [u8; 16] = [1; 16];
const SECOND: [u8; 16] = [2; 16];
const RACES: u64 = 12;

/// Room for what two entries of charge 10 are charged.
fn small(seed: u64) -> ObjectConfig {
    ObjectConfig {
        slots: 16,
        clients: 2,
        handles: 4,
        gone: 16,
        shards: 1,
        strict: true,
        capacity: 20,
        seed,
        ..ObjectConfig::default()
    }
}

/// Whether the first entry and one of this priority are there, once a third one came.
fn raced(seed: u64, done: fn(&Objects<u8>), rival: Priority) -> (bool, bool) {
    let cache = Objects::open(&small(seed)).unwrap();
    done(&cache);
    for (key, priority) in [(SECOND, rival), ([3; 16], High)] {
        let _ = cache.insert_with_priority(&key, 0, 10, priority);
    }
    let there: Vec<_> = cache.iter().map(|it| it.key()).collect();
    (there.contains(&FIRST), there.contains(&SECOND))
}

/// The uses of the first entry, 3 also for more: it stays beside each of fewer, goes before each of more, and does
/// neither always beside one of as many.
fn uses_of(done: fn(&Objects<u8>)) -> Option<usize> {
    let always = |rival, end| (1..=RACES).all(|seed| raced(seed, done, rival) == end);
    let count = |end| {
        [High, Low, Bottom]
            .into_iter()
            .filter(|it| always(*it, end))
            .count()
    };
    let (stays, goes) = (count((true, false)), count((false, true)));
    (stays + goes == 2 || goes == 3).then_some(3 - goes)
}

/// Does something with the entry, which was inserted with one use.
macro_rules! put {
    ($it:ident: $done:expr) => {
        |$it| {
            $it.insert_with_priority(&FIRST, 1, 10, Bottom).unwrap();
            $done;
        }
    };
}

/// Whether a thread, by its folder in /proc, waits.
fn waits(thread: &Path) -> bool {
    let stat = fs::read_to_string(Path::new("/proc").join(thread).join("stat")).unwrap();
    stat.rsplit(") ").next().unwrap().starts_with('S')
}

/// Loads the entry, for which another thread waits; that one's handle is the last.
fn load_for_another(cache: &Objects<u8>) {
    let (waiter, is_over) = (OnceLock::new(), Barrier::new(2));
    thread::scope(|scope| {
        let mine = cache.get_or_insert_with(&FIRST, || {
            scope.spawn(|| {
                let me = fs::read_link("/proc/thread-self").unwrap();
                waiter.set(me).unwrap();
                let theirs = cache.get_or_insert_with(&FIRST, || Err::<(u8, u32), _>(()));
                is_over.wait();
                drop(theirs.unwrap());
            });
            while !waiter.get().is_some_and(|it| waits(it)) {
                thread::yield_now();
            }
            Ok::<_, ()>((1, 10))
        });
        drop(mine.unwrap());
        is_over.wait();
    });
    cache.collect();
}

/// What is done with the entry, and its uses then.
const OF_OBJECTS: [(&str, fn(&Objects<u8>), usize); 16] = [
    (
        "high",
        |it| drop(it.insert_with_priority(&FIRST, 1, 10, High)),
        3,
    ),
    (
        "low",
        |it| drop(it.insert_with_priority(&FIRST, 1, 10, Low)),
        2,
    ),
    ("never used", |it| drop(it.insert(&FIRST, 1, 10)), 0),
    (
        "held since its insertion",
        |it| drop(it.insert_pinned(&FIRST, 1, 10, Low)),
        1,
    ),
    (
        "and given back as a use",
        |it| {
            assert!(!it
                .insert_pinned(&FIRST, 1, 10, Low)
                .unwrap()
                .1
                .release(true, false))
        },
        2,
    ),
    (
        "loaded",
        |it| drop(it.get_or_insert_with(&FIRST, || Ok::<_, ()>((1, 10)))),
        0,
    ),
    ("dropped", put!(it: drop(it.get(&FIRST).unwrap())), 2),
    (
        "given back as a use",
        put!(it: it.get(&FIRST).unwrap().release(true, false)),
        2,
    ),
    (
        "given back as none",
        put!(it: it.get(&FIRST).unwrap().release(false, false)),
        1,
    ),
    (
        "found in place of a load",
        put!(it: drop(it.get_or_insert_with(&FIRST, || Err::<(u8, u32), _>(())))),
        2,
    ),
    ("walked over", put!(it: assert_eq!(it.iter().count(), 1)), 1),
    (
        "used on a walk",
        put!(it: it.iter().for_each(|it| assert!(!it.release(true, false)))),
        2,
    ),
    (
        "not meant",
        put!(it: assert_eq!(it.erase_where(|_| false), Ok(0))),
        1,
    ),
    ("met", put!(it: drop(it.insert(&FIRST, 2, 10))), 2),
    ("loaded by another thread", load_for_another, 1),
    (
        "dropped elsewhere",
        put!(it: {
            let held = it.get(&FIRST).unwrap();
            std::thread::spawn(|| drop(held)).join().unwrap();
            it.collect();
        }),
        2,
    ),
];

#[test]
fn what_is_found_is_used_and_nothing_else() {
    for (name, done, uses) in OF_OBJECTS {
        assert_eq!(uses_of(done), Some(uses), "{name}");
    }
}

/// With keys of any type, too, what was found outlives what was given back as no use, wherever they lie.
#[test]
fn of_keys_of_any_type_what_is_found_stays() {
    for seed in 1..=RACES {
        let cache = HashedObjects::<u64, u8>::open(&small(seed)).unwrap();
        for key in [1, 2] {
            assert_eq!(cache.insert(key, 0, 10).unwrap(), Inserted::Placed);
        }
        drop(cache.get(&1).unwrap());
        assert!(!cache.get(&2).unwrap().release(false, false));
        drop(cache.get_or_insert_with(&3, || Ok::<_, ()>((0, 10))));
        let there: Vec<u64> = cache.iter().map(|it| *it.key()).collect();
        assert!(there.contains(&1) && !there.contains(&2));
    }
}
