//! Loaders: of each key one loads and the others wait; who is told of a failure, and whose turn is
//! next; keys of any type, also of equal hashes.

use ferretgold::{HashedObjects, Inserted, LoadError, ObjectConfig, Objects, Pinned, Refused};
use std::collections::hash_map::DefaultHasher;
use std::convert::Infallible;
use std::hash::{BuildHasher, BuildHasherDefault, Hasher};
use std::panic::{catch_unwind, AssertUnwindSafe};
use std::sync::atomic::{AtomicUsize, Ordering::SeqCst};
use std::sync::{Arc, Barrier, Mutex};
use std::thread;

const KEY: [u8; 16] = *b"0123456789abcdef";
const OTHER: [u8; 16] = *b"fedcba9876543210";

fn opened<V: Send + Sync>() -> Objects<V> {
    Objects::open(&ObjectConfig::default()).unwrap()
}

#[derive(Clone, Copy, PartialEq, Debug)]
enum Fault {
    Fails,
    Panics,
}

const THREADS: usize = 9;

/// What came to threads that asked for one key at once, of whose loads the first ones fail: what
/// was found, the numbers of loads that were told as errors, and how many threads panicked.
fn ask_at_once(fault: Fault, faults: usize) -> (Vec<Pinned<usize>>, Vec<usize>, usize) {
    let (cache, begun, loads) = (opened(), AtomicUsize::new(0), AtomicUsize::new(0));
    let load = || {
        while begun.load(SeqCst) < THREADS {
            thread::yield_now();
        }
        match loads.fetch_add(1, SeqCst) {
            number if number >= faults => Ok((number, 3)),
            number if fault == Fault::Fails => Err(number),
            number => panic!("load {number}"),
        }
    };
    let ask = || {
        begun.fetch_add(1, SeqCst);
        catch_unwind(AssertUnwindSafe(|| cache.get_or_insert_with(&KEY, load)))
    };
    let (mut found, mut failed, mut panicked) = (vec![], vec![], 0);
    thread::scope(|scope| {
        let threads: Vec<_> = (0..THREADS).map(|_| scope.spawn(ask)).collect();
        for it in threads {
            match it.join().unwrap() {
                Ok(Ok(held)) => found.push(held),
                Ok(Err(LoadError::Failed(number))) => failed.push(number),
                Ok(Err(LoadError::OwnKey)) => panic!("no loader asks"),
                Err(_) => panicked += 1,
            }
        }
    });
    failed.sort_unstable();
    (found, failed, panicked)
}

#[test]
fn one_loads_and_the_others_wait() {
    let rows = [
        (Fault::Fails, 0),
        (Fault::Fails, 3),
        (Fault::Panics, 3),
        (Fault::Fails, 9),
    ];
    for (fault, faults) in rows {
        let (found, failed, panicked) = ask_at_once(fault, faults);
        let (wanted, panics) = match fault {
            Fault::Fails => ((0..faults).collect(), 0),
            Fault::Panics => (vec![], faults),
        };
        assert_eq!((failed, panicked), (wanted, panics));
        assert_eq!(found.len(), THREADS - faults);
        // All have what the one load gave that didn't fail.
        assert!(found
            .iter()
            .all(|it| **it == faults && std::ptr::eq(&**it, &*found[0])));
    }
}

#[test]
fn a_loader_that_waits_for_itself_is_told() {
    let cache = opened::<u8>();
    let get = |key, inner| cache.get_or_insert_with(key, || Ok::<_, Infallible>((inner, 1)));
    let met = Barrier::new(2);
    let ask = |mine: &'static [u8; 16], other: &'static [u8; 16]| {
        let mut told = None;
        let held = cache.get_or_insert_with(mine, || {
            met.wait();
            told = Some(get(other, 2).map(|it| *it));
            Ok::<_, Infallible>((1, 1))
        });
        (*held.unwrap(), told.unwrap())
    };
    let mut both = thread::scope(|scope| {
        let one = scope.spawn(|| ask(&KEY, &OTHER));
        [ask(&OTHER, &KEY), one.join().unwrap()]
    });
    both.sort_by_key(|it| it.1.is_ok());
    assert_eq!(both, [(1, Err(LoadError::OwnKey)), (1, Ok(1))]);
    let nested = cache.get_or_insert_with(&[9; 16], || {
        assert_eq!(*get(&[8; 16], 4).unwrap(), 4); // another key is free
        get(&[9; 16], 5).map(|it| (*it, 1))
    });
    assert_eq!(nested.unwrap_err(), LoadError::Failed(LoadError::OwnKey));
    assert_eq!(*get(&[9; 16], 6).unwrap(), 6);
}

#[test]
fn what_is_loaded_is_given_whatever_the_cache_answers() {
    let (strict, capacity) = (true, 100);
    let config = ObjectConfig {
        strict,
        capacity,
        shards: 1,
        ..ObjectConfig::default()
    };
    let cache = Objects::<Arc<()>>::open(&config).unwrap();
    let counted = Arc::new(());
    for (charge, is_kept, has) in [(101, false, 101), (0, true, 1)] {
        let load = || Ok::<_, Infallible>((Box::new(counted.clone()), charge));
        let held = cache.get_or_insert_with(&KEY, load).unwrap();
        assert_eq!(
            (held.charge(), held.key(), Arc::strong_count(&held)),
            (has, KEY, 2)
        );
        assert_eq!(cache.get(&KEY).is_some(), is_kept);
        drop(held);
        assert_eq!(Arc::strong_count(&counted), 1 + usize::from(is_kept));
    }
}

/// What a load gave that others wait for isn't given to who asks once it was erased.
#[test]
fn what_was_erased_is_loaded_anew() {
    for _ in 0..200 {
        let (cache, source, begun) = (opened(), AtomicUsize::new(1), AtomicUsize::new(0));
        let load = || Ok::<_, Infallible>((source.load(SeqCst), 1));
        thread::scope(|scope| {
            let first = cache.get_or_insert_with(&KEY, || {
                for _ in 0..3 {
                    scope.spawn(|| {
                        begun.fetch_add(1, SeqCst);
                        let it = *cache.get_or_insert_with(&KEY, load).unwrap();
                        assert!((1..=2).contains(&it));
                    });
                }
                while begun.load(SeqCst) < 3 {
                    thread::yield_now();
                }
                load()
            });
            assert_eq!(*first.unwrap(), 1);
            source.store(2, SeqCst);
            cache.erase(&KEY).unwrap();
            assert_eq!(*cache.get_or_insert_with(&KEY, load).unwrap(), 2);
        });
    }
}

// ---- Keys of any type ---------------------------------------------------------------------------

/// Hashes by which all keys are alike.
#[derive(Default)]
struct Alike;

impl Hasher for Alike {
    fn write(&mut self, _: &[u8]) {}

    fn finish(&self) -> u64 {
        7
    }
}

type Bytes<S> = HashedObjects<String, u8, BuildHasherDefault<S>>;

#[test]
fn keys_of_equal_hashes_are_told_apart() {
    use Inserted::{Dropped, Placed};
    let all = ObjectConfig::default();
    let alike = Bytes::<Alike>::open_with(&all, Default::default()).unwrap();
    let unlike = Bytes::<DefaultHasher>::open_with(&all, Default::default()).unwrap();
    for (key, it, of_alike) in [("a", 1, Placed), ("b", 2, Dropped), ("a", 3, Dropped)] {
        assert_eq!(alike.insert(key.into(), it, 1).unwrap(), of_alike);
        let came = unlike.insert(key.into(), it, 1).unwrap();
        assert_eq!(came, if it == 3 { Dropped } else { Placed });
    }
    assert_eq!(
        (*alike.get("a").unwrap(), *unlike.get("b").unwrap()),
        (1, 2)
    );
    assert!(alike.get("b").is_none());
    let refused = unlike.insert("c".into(), 3, 0).unwrap_err();
    assert_eq!(
        (refused.why, refused.object),
        (Refused::NO_CHARGE, ("c".into(), 3))
    );
    assert_eq!((alike.iter().count(), unlike.iter().count()), (1, 2));
    assert_eq!((unlike.erase("a"), unlike.erase("a")), (Ok(1), Ok(0)));
}

/// Loads of one hash don't wait for one another, and each gives its own key's.
#[test]
fn loads_of_equal_hashes_are_told_apart() {
    let alike = Bytes::<Alike>::open_with(&ObjectConfig::default(), Default::default()).unwrap();
    let load = |key, it| {
        alike
            .get_or_insert_with(key, || Ok::<_, Infallible>((it, 1)))
            .unwrap()
    };
    let outer = alike.get_or_insert_with("b", || {
        let inner = load("c", 3);
        assert_eq!((inner.key().as_str(), *inner), ("c", 3));
        Ok::<_, Infallible>((2, 1))
    });
    let outer = outer.unwrap();
    assert_eq!((outer.key().as_str(), *outer), ("b", 2));
    assert_eq!((*load("c", 4), *load("b", 5)), (3, 5)); // the table has one of them
}

/// Notes what each hash was made of.
#[derive(Clone, Default)]
struct Noting(Arc<Mutex<Vec<Vec<u8>>>>, Vec<u8>);

impl BuildHasher for Noting {
    type Hasher = Noting;

    fn build_hasher(&self) -> Noting {
        self.clone()
    }
}

impl Hasher for Noting {
    fn write(&mut self, bytes: &[u8]) {
        self.1.extend(bytes);
    }

    fn finish(&self) -> u64 {
        self.0.lock().unwrap().push(self.1.clone());
        0
    }
}

/// A key is found by two hashes of it.
#[test]
fn keys_are_hashed_twice() {
    let noting = Noting::default();
    let all = ObjectConfig::default();
    let cache = HashedObjects::<u8, u8, _>::open_with(&all, noting.clone()).unwrap();
    assert!(cache.get(&7).is_none());
    assert_eq!(*noting.0.lock().unwrap(), [[0, 7], [1, 7]]);
}
