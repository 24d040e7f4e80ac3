//! An object whose drop panics, as it is given back by each call that may drop it: that call panics, once it is
//! over, and no later one.

use ferretgold::{ObjectConfig, Objects, Priority};
use std::panic::{catch_unwind, AssertUnwindSafe};
use std::thread;

const KEY: [u8; 16] = [1; 16];
const OTHER: [u8; 16] = [2; 16];

/// Whether its drop panics.
struct Loud(bool);

impl Drop for Loud {
    fn drop(&mut self) {
        assert!(!self.0, "dropped");
    }
}

/// What a call panics with.
fn panicked(call: impl FnOnce()) -> Option<&'static str> {
    let panic = catch_unwind(AssertUnwindSafe(call)).err()?;
    panic.downcast_ref().copied()
}

/// A cache in which an object waits that another thread gave back: the next call drops it.
fn waiting() -> Objects<Loud> {
    let config = ObjectConfig {
        slots: 8,
        clients: 1,
        handles: 4,
        shards: 1,
        ..ObjectConfig::default()
    };
    let cache = Objects::open(&config).unwrap();
    assert!(cache.insert(&KEY, Loud(true), 1).is_ok());
    let held = cache.get(&KEY).unwrap();
    assert_eq!(cache.erase(&KEY), Ok(1));
    thread::spawn(|| drop(held)).join().unwrap();
    cache
}

#[test]
fn each_call_panics_that_drops_what_panics() {
    type Row = (&'static str, fn(&Objects<Loud>));
    let rows: [Row; 12] = [
        ("collect", |it| it.collect()),
        ("usage", |it| assert!(it.usage().is_ok())),
        ("pinned usage", |it| assert!(it.pinned_usage().is_ok())),
        ("occupancy", |it| assert!(it.occupancy().is_ok())),
        ("iter", |it| assert_eq!(it.iter().count(), 0)),
        ("get", |it| assert!(it.get(&OTHER).is_none())),
        ("erase", |it| assert_eq!(it.erase(&OTHER), Ok(0))),
        ("erase where", |it| {
            assert_eq!(it.erase_where(|_| true), Ok(0))
        }),
        ("insert", |it| drop(it.insert(&OTHER, Loud(false), 0))),
        ("insert pinned", |it| {
            drop(it.insert_pinned(&OTHER, Loud(false), 0, Priority::Low))
        }),
        ("insert with priority", |it| {
            drop(it.insert_with_priority(&OTHER, Loud(false), 0, Priority::Low))
        }),
        ("load", |it| {
            let failed = it.get_or_insert_with(&OTHER, || Err::<(Loud, u32), _>(()));
            assert!(failed.is_err());
        }),
    ];
    for (name, call) in rows {
        let cache = waiting();
        assert_eq!(panicked(|| call(&cache)), Some("dropped"), "{name}");
        assert_eq!(
            panicked(|| assert!(cache.get(&KEY).is_none())),
            None,
            "{name}"
        );
        assert_eq!(panicked(|| drop(cache)), None, "{name}");
    }
    assert_eq!(panicked(|| drop(waiting())), Some("dropped"));
}
