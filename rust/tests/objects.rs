//! Caches of objects: who owns an object after each answer, and that each is dropped once, on
//! whatever thread, also where drops panic; and threads whose objects check themselves.

use ferretgold::{
    Inserted, LoadError, ObjectConfig, Objects, Owned, Pinned, Priority, Refused, Rejected,
};
use std::cell::RefCell;
use std::panic::{catch_unwind, AssertUnwindSafe};
use std::sync::atomic::{AtomicBool, AtomicIsize, AtomicU64, Ordering::SeqCst};
use std::sync::{Arc, Mutex};
use std::thread;

const KEY: [u8; 16] = *b"0123456789abcdef";
const OTHER: [u8; 16] = *b"fedcba9876543210";

fn small() -> ObjectConfig {
    ObjectConfig {
        slots: 8,
        clients: 1,
        handles: 4,
        gone: 4,
        shards: 1,
        strict: true,
        capacity: 100,
        seed: 7,
        ..ObjectConfig::default()
    }
}

/// How many objects live; below 0 where one was dropped twice.
type Lives = Arc<AtomicIsize>;

/// Knows whether it lives, and which it is.
struct Object {
    lives: Lives,
    canary: AtomicU64,
    number: u64,
    panics: bool,
}

const CANARY: u64 = 0x5a17_5a17_5a17_5a17;

impl Object {
    fn new(lives: &Lives, number: u64) -> Object {
        lives.fetch_add(1, SeqCst);
        Object {
            lives: lives.clone(),
            canary: AtomicU64::new(CANARY ^ number),
            number,
            panics: false,
        }
    }

    fn check(&self) {
        assert_eq!(self.canary.load(SeqCst), CANARY ^ self.number);
    }
}

thread_local! {
    /// What drops call.
    static CALLED: RefCell<Option<Objects<Object>>> = const { RefCell::new(None) };
}

impl Drop for Object {
    fn drop(&mut self) {
        let found = self.canary.swap(0, SeqCst);
        CALLED.with(|it| {
            if let Some(cache) = &*it.borrow() {
                let _ = cache.erase(&key_of(self.number % KEYS));
                drop(cache.get(&key_of((self.number + 1) % KEYS)));
            }
        });
        let many = if found == CANARY ^ self.number {
            1
        } else {
            1 << 32
        };
        self.lives.fetch_sub(many, SeqCst);
        assert!(!self.panics, "object {}", self.number);
    }
}

fn lives() -> Lives {
    Arc::default()
}

fn count(lives: &Lives) -> isize {
    lives.load(SeqCst)
}

// ---- Who owns an object -------------------------------------------------------------------------

#[derive(Clone, Copy, Debug)]
enum Call {
    Insert,
    WithPriority,
    InsertPinned,
}

type Came = Result<(Inserted, Option<Pinned<Object>>), Rejected<Owned<Object>>>;

fn called(
    call: Call,
    cache: &Objects<Object>,
    key: &[u8; 16],
    object: Owned<Object>,
    charge: u32,
) -> Came {
    match call {
        Call::Insert => cache.insert(key, object, charge).map(|it| (it, None)),
        Call::WithPriority => {
            let it = cache.insert_with_priority(key, object, charge, Priority::Low);
            it.map(|it| (it, None))
        }
        Call::InsertPinned => {
            let it = cache.insert_pinned(key, object, charge, Priority::Low);
            it.map(|(it, held)| (it, Some(held)))
        }
    }
}

#[test]
fn each_answer_says_who_owns_the_object() {
    use {Call::*, Inserted::*};
    // Where `KEY` stands with charge 60 and so many hold it: a call, its key and charge, the
    // answer, and how many live once what that gave is dropped.
    let rows = [
        (0, Insert, KEY, 10, Ok(Dropped), 1),
        (0, Insert, OTHER, 40, Ok(Placed), 2),
        (0, Insert, OTHER, 60, Ok(Placed), 1), // in place of the other
        (0, Insert, OTHER, 0, Err(Refused::NO_CHARGE), 1),
        (0, Insert, OTHER, 101, Err(Refused::TOO_LARGE), 1),
        (1, Insert, OTHER, 60, Err(Refused::CAPACITY_FULL), 1),
        (4, Insert, OTHER, 40, Err(Refused::HANDLES_FULL), 1),
        (4, WithPriority, OTHER, 40, Ok(Placed), 2),
        (0, WithPriority, KEY, 10, Ok(Dropped), 1),
        (0, WithPriority, OTHER, 0, Err(Refused::NO_CHARGE), 1),
        (1, WithPriority, OTHER, 60, Err(Refused::CAPACITY_FULL), 1),
        (0, InsertPinned, KEY, 10, Ok(Standalone), 1),
        (0, InsertPinned, OTHER, 40, Ok(Placed), 2),
        (0, InsertPinned, OTHER, 101, Err(Refused::TOO_LARGE), 1),
        (4, InsertPinned, OTHER, 40, Err(Refused::HANDLES_FULL), 1),
    ];
    for (number, (holds, call, key, charge, wanted, left)) in rows.into_iter().enumerate() {
        for is_shared in [false, true] {
            let (lives, cache) = (lives(), Objects::open(&small()).unwrap());
            cache.insert(&KEY, Object::new(&lives, 1), 60).unwrap();
            let held: Vec<_> = (0..holds).map(|_| cache.get(&KEY).unwrap()).collect();
            let object = Object::new(&lives, 2);
            let object = if is_shared {
                Arc::new(object).into()
            } else {
                object.into()
            };
            let came = called(call, &cache, &key, object, charge);
            let (answer, back) = match &came {
                Ok((it, held)) => (Ok(*it), held.as_ref().map(|it| it.number)),
                Err(it) => (Err(it.why), Some(it.object.number)),
            };
            assert_eq!(answer, wanted, "row {number}");
            assert!(
                back.is_none() || (back, count(&lives)) == (Some(2), 2),
                "row {number}"
            );
            drop(came);
            assert_eq!(count(&lives), left, "row {number}");
            drop((held, cache));
            assert_eq!(count(&lives), 0, "row {number}");
        }
    }
}

#[test]
fn what_is_held_stays_when_it_was_erased() {
    let (lives, cache) = (lives(), Objects::open(&small()).unwrap());
    cache.insert(&KEY, Object::new(&lives, 1), 60).unwrap();
    let held: Vec<_> = (0..4).map(|_| cache.get(&KEY).unwrap()).collect();
    assert!(cache.get(&KEY).is_none()); // no handle is left
    assert_eq!((cache.erase(&KEY), cache.erase(&KEY)), (Ok(1), Ok(0)));
    for (number, it) in held.into_iter().enumerate() {
        it.check();
        assert_eq!(it.release(true, false), number == 3);
        cache.collect();
        assert_eq!(count(&lives), isize::from(number < 3));
    }
    let bad = ObjectConfig {
        slots: 9,
        ..small()
    };
    assert_eq!(Objects::<u8>::open(&bad).unwrap_err(), Refused::BAD_SLOTS);
}

#[test]
fn what_is_meant_is_erased_until_a_panic() {
    let cache = Objects::<u8>::open(&small()).unwrap();
    cache.insert(&KEY, 1, 7).unwrap();
    cache.insert(&OTHER, 2, 5).unwrap();
    let mut asked = 0;
    let panics = catch_unwind(AssertUnwindSafe(|| {
        cache.erase_where(|_| {
            asked += 1;
            panic!("asked")
        })
    }));
    assert_eq!(panics.unwrap_err().downcast_ref(), Some(&"asked"));
    assert_eq!((asked, cache.occupancy()), (1, Ok(2)));
    assert_eq!(cache.erase_where(|key| *key == OTHER), Ok(1));
    assert!(cache.get(&OTHER).is_none() && cache.get(&KEY).is_some());
    assert_eq!(cache.erase_where(|_| true), Ok(1));
    assert_eq!(cache.occupancy(), Ok(0));
}

#[test]
fn totals_are_of_what_is_there_and_held() {
    let cache = Objects::<u8>::open(&small()).unwrap();
    cache.insert(&KEY, 1, 7).unwrap();
    cache.insert(&OTHER, 2, 5).unwrap();
    let _held = cache.get(&OTHER).unwrap();
    assert_eq!((cache.usage(), cache.occupancy()), (Ok(12), Ok(2)));
    assert_eq!(cache.pinned_usage(), Ok(5));
    let (counts, clients) = (cache.counts(), cache.config().clients);
    assert_eq!((counts.placed, counts.hits, counts.misses), (2, 1, 0));
    let of_each = |number| cache.client_counts(number).unwrap().placed;
    assert_eq!((0..=clients).map(of_each).sum::<u64>(), 2);
    let beyond = cache.client_counts(clients + 1);
    assert_eq!(beyond, Err(Refused::OUT_OF_RANGE));
}

#[test]
fn objects_of_no_bytes_and_walks() {
    let cache = Objects::<()>::open(&small()).unwrap();
    assert_eq!(cache.insert(&KEY, (), 1).unwrap(), Inserted::Placed);
    assert_eq!(cache.insert(&OTHER, (), 2).unwrap(), Inserted::Placed);
    let mut walked: Vec<_> = cache.iter().map(|it| (it.key(), it.charge())).collect();
    walked.sort();
    assert_eq!(walked, [(KEY, 1), (OTHER, 2)]);
    cache.iter().for_each(|it| assert!(it.release(false, true)));
    assert_eq!(cache.iter().count(), 0);
    let sized = ObjectConfig::sized(1 << 30, 4096);
    assert_eq!(
        (sized.slots, sized.shards, sized.handles),
        (32_768, 16, 256)
    );
    assert_eq!(ObjectConfig::sized(0, 0).check(), Ok(()));
    let above = ObjectConfig::sized((1 << 40) + 1, 4096);
    assert_eq!(above.check(), Err(Refused::BAD_CAPACITY));
    let most = ObjectConfig::sized(1 << 40, 1);
    assert_eq!(
        (most.slots, most.shards, most.check()),
        (65_536, 64, Ok(()))
    );
}

// ---- Who closes a cache -------------------------------------------------------------------------

thread_local! {
    static LATE: RefCell<Option<Pinned<Object>>> = const { RefCell::new(None) };
}

#[test]
fn the_last_closes_the_cache_on_any_thread() {
    type Last = fn(Objects<Object>, Pinned<Object>);
    let on_another = |work: Box<dyn FnOnce() + Send>| thread::spawn(work).join().unwrap();
    let ways: [(&str, Last); 6] = [
        ("objects here", |cache, held| drop((held, cache))),
        ("pinned here", |cache, held| drop((cache, held))),
        ("pinned there", |cache, held| {
            drop(cache);
            held.check();
            thread::spawn(move || drop(held)).join().unwrap();
        }),
        ("objects there", |cache, held| {
            drop(held);
            let other = cache.clone();
            drop(cache);
            thread::spawn(move || drop(other)).join().unwrap();
        }),
        ("pinned there, given back by its name", |cache, held| {
            thread::spawn(move || drop((cache, held.release(false, true))))
                .join()
                .unwrap();
        }),
        ("pinned when its thread ends", |cache, held| {
            thread::spawn(|| LATE.with(|it| *it.borrow_mut() = Some(held)))
                .join()
                .unwrap();
            drop(cache);
        }),
    ];
    for (name, last) in ways {
        let lives = lives();
        let inner = lives.clone();
        on_another(Box::new(move || {
            let cache = Objects::open(&ObjectConfig::default()).unwrap();
            for number in 0..100 {
                let it = Object::new(&inner, number);
                assert_eq!(
                    cache.insert(&key_of(number), it, 1).unwrap(),
                    Inserted::Placed
                );
            }
            let held = cache.get(&key_of(7)).unwrap();
            assert_eq!((held.number, count(&inner)), (7, 100));
            last(cache, held);
        }));
        assert_eq!(count(&lives), 0, "{name}");
    }
}

/// An object whose drop calls the next cache, and closes it.
struct Link(Option<Objects<Link>>, Lives);

impl Drop for Link {
    fn drop(&mut self) {
        self.1.fetch_sub(1, SeqCst);
        if let Some(next) = &self.0 {
            let _ = next.erase(&KEY);
        }
    }
}

#[test]
fn drops_close_caches_within_calls_of_others() {
    let lives = lives();
    let mut first = None;
    for _ in 0..8 {
        let cache = Objects::open(&small()).unwrap();
        lives.fetch_add(1, SeqCst);
        cache
            .insert(&KEY, Link(first.take(), lives.clone()), 1)
            .unwrap();
        first = Some(cache);
    }
    assert_eq!(first.unwrap().erase(&KEY), Ok(1));
    assert_eq!(count(&lives), 0);
}

// ---- Drops that panic ---------------------------------------------------------------------------

/// A cache that is full of six objects, of which all but two panic when they are dropped.
fn of_panicking(lives: &Lives) -> Objects<Object> {
    let cache = Objects::open(&small()).unwrap();
    for number in 0..6 {
        let mut object = Object::new(lives, number);
        object.panics = number > 1;
        assert_eq!(
            cache.insert(&key_of(number), object, 10).unwrap(),
            Inserted::Placed
        );
    }
    cache
}

fn panics<T>(calls: impl FnOnce() -> T) -> bool {
    catch_unwind(AssertUnwindSafe(calls)).is_err()
}

type Way = fn(Objects<Object>, Object);

/// Ways in which they go, of which each panics where objects of it do.
const WAYS: [(&str, Way); 6] = [
    ("evicted, with drops that call the cache", |cache, last| {
        CALLED.with(|it| *it.borrow_mut() = Some(cache.clone()));
        assert!(panics(|| cache.insert(&KEY, last, 100)));
        drop(CALLED.with(|it| it.borrow_mut().take()));
        assert_eq!(
            (cache.iter().count(), cache.get(&KEY).unwrap().number),
            (1, 9)
        );
    }),
    ("erased", |cache, _| {
        for number in 0..8 {
            let panicked = panics(|| assert!(cache.erase(&key_of(number)).is_ok()));
            assert_eq!(panicked, (2..6).contains(&number));
        }
    }),
    ("released", |cache, _| {
        let held = cache.get(&key_of(2)).unwrap();
        assert_eq!(cache.erase(&key_of(2)), Ok(1));
        assert!(panics(|| drop(held)));
        assert!(panics(|| cache
            .get(&key_of(3))
            .unwrap()
            .release(true, true)));
        assert!(!panics(|| cache
            .get(&key_of(0))
            .unwrap()
            .release(true, true)));
        assert!(panics(|| drop(cache)));
    }),
    ("closed", |cache, _| assert!(panics(|| drop(cache)))),
    ("closed by what was held", |cache, _| {
        let held = cache.get(&key_of(0)).unwrap();
        drop(cache);
        assert!(panics(|| held.release(false, false)));
    }),
    ("closed, unwinding", |cache, _| {
        let held = cache.get(&key_of(0)).unwrap();
        assert!(panics(|| {
            let _both = (cache, held);
            panic!("the program's own");
        }));
    }),
];

#[test]
fn drops_that_panic_leave_none_behind() {
    for (name, go) in WAYS {
        let lives = lives();
        let (cache, last) = (of_panicking(&lives), Object::new(&lives, 9));
        go(cache, last);
        assert_eq!(count(&lives), 0, "{name}");
    }
}

// ---- Eight threads at once ----------------------------------------------------------------------

const KEYS: u64 = 200;
const THREADS: u64 = 8;
const OPERATIONS: u64 = 1_000_000;

fn key_of(number: u64) -> [u8; 16] {
    let mut key = [3; 16];
    key[..8].copy_from_slice(&number.to_le_bytes());
    key
}

/// What the threads share.
struct All {
    cache: Objects<Object>,
    lives: Lives,
    mail: Vec<Mutex<Option<Pinned<Object>>>>,
    loading: Vec<AtomicBool>,
}

struct Worker {
    all: Arc<All>,
    held: Vec<Pinned<Object>>,
    state: u64,
}

fn charge_of(number: u64) -> u32 {
    1 + (number % 8) as u32
}

impl All {
    fn insert(&self, call: Call, number: u64) -> Option<Pinned<Object>> {
        let object = Object::new(&self.lives, number);
        let object = match number % 2 {
            0 => Arc::new(object).into(),
            _ => object.into(),
        };
        let came = called(
            call,
            &self.cache,
            &key_of(number),
            object,
            charge_of(number),
        );
        came.ok().and_then(|(_, held)| held)
    }

    fn load(&self, number: u64, fails: bool) -> Option<Pinned<Object>> {
        let loading = &self.loading[number as usize];
        let load = || {
            assert!(!loading.swap(true, SeqCst), "two load object {number}");
            let object = Object::new(&self.lives, number);
            thread::yield_now();
            loading.store(false, SeqCst);
            (!fails).then(|| (object, charge_of(number))).ok_or(())
        };
        match self.cache.get_or_insert_with(&key_of(number), load) {
            Ok(held) => Some(held),
            Err(why) => {
                assert!(fails && why == LoadError::Failed(()));
                None
            }
        }
    }
}

impl Worker {
    fn drawn(&mut self, below: u64) -> u64 {
        self.state ^= self.state << 13;
        self.state ^= self.state >> 7;
        self.state ^= self.state << 17;
        (self.state >> 20) % below
    }

    fn operation(&mut self) {
        let (number, place) = (self.drawn(KEYS), self.drawn(16) as usize);
        let all = Arc::clone(&self.all);
        let held = match self.drawn(16) {
            0 | 1 => all.insert(Call::Insert, number),
            2 => all.insert(Call::WithPriority, number),
            3 => all.insert(Call::InsertPinned, number),
            4 | 5 => all.load(number, place == 0),
            6 => all.cache.erase(&key_of(number)).ok().and(None),
            7 => self
                .held
                .pop()
                .and_then(|it| all.mail[place].lock().unwrap().replace(it)),
            8 if number == 0 => all.cache.iter().nth(place),
            _ => all.cache.get(&key_of(number)),
        };
        if let Some(it) = held {
            it.check();
            assert_eq!(
                (it.key(), it.charge()),
                (key_of(it.number), charge_of(it.number))
            );
            self.held.push(it);
        }
        if self.held.len() > 6 || self.drawn(2) == 0 {
            self.held.truncate(self.held.len() / 2);
        }
    }

    fn work(mut self, operations: u64) {
        CALLED.with(|it| *it.borrow_mut() = Some(self.all.cache.clone()));
        (0..operations).for_each(|_| self.operation());
        drop(CALLED.with(|it| it.borrow_mut().take()));
    }
}

#[test]
fn objects_check_themselves_under_eight_threads() {
    let many = THREADS as u32;
    let rows = [
        (many + 1, 16, false),
        (3, 16, true),
        (24, 2, false),
        (7, 3, true),
    ];
    for (clients, handles, strict) in rows {
        let (slots, shards, capacity) = (128, 2, 400);
        let sizes = ObjectConfig {
            slots,
            shards,
            capacity,
            ..small()
        };
        let config = ObjectConfig {
            clients,
            handles,
            strict,
            ..sizes
        };
        let all = Arc::new(All {
            cache: Objects::open(&config).unwrap(),
            lives: lives(),
            mail: (0..16).map(|_| Mutex::new(None)).collect(),
            loading: (0..KEYS).map(|_| AtomicBool::new(false)).collect(),
        });
        let worker = |number: u64| Worker {
            all: Arc::clone(&all),
            held: Vec::new(),
            state: number.wrapping_mul(0x9e37_79b9_7f4a_7c15),
        };
        let work = |it: Worker| thread::spawn(move || it.work(OPERATIONS / 4 / THREADS));
        let threads: Vec<_> = (1..=THREADS).map(|number| work(worker(number))).collect();
        for it in threads {
            it.join().unwrap();
        }
        let lives = Arc::clone(&all.lives);
        assert!(count(&lives) > 0, "entries and handles are left");
        drop(all);
        assert_eq!(count(&lives), 0, "{clients} clients of {handles} handles");
    }
}
