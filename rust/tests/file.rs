//! Caches that are saved and loaded: by writers and readers of all kinds, also those that fail or panic.

use ferretgold::{
    Cache, Closed, Config, Entry, FileError, Got, Inserted, Key, Loaded, ObjectConfig, Objects,
    Priority, Refused, UNSEEDED,
};
use std::error::Error;
use std::io::{self, BufReader, BufWriter, ErrorKind, Read, Write};
use std::panic::{catch_unwind, AssertUnwindSafe};
use std::{env, fs, process};

const ENTRIES: u64 = 20;

fn small() -> Config {
    Config {
        slots: 64,
        room: 8,
        clients: 2,
        shards: 2,
        capacity: 1000,
        seed: 5,
        ..Config::default()
    }
}

fn key_of(number: u64) -> Key {
    Key {
        w0: number,
        w1: !number,
    }
}

fn value_of(number: u64) -> Vec<u8> {
    (0..number * 3).map(|at| (number * 41 + at) as u8).collect()
}

/// A cache with some entries, of which one was erased.
fn filled() -> Cache {
    let cache = Cache::open(&small()).unwrap();
    let client = cache.client().unwrap();
    for number in 0..ENTRIES {
        let came = client.insert(key_of(number), &value_of(number), 7, Priority::High);
        assert_eq!(came, Ok(Inserted::Placed));
    }
    assert_eq!(client.erase(key_of(3)), 1);
    drop(client);
    cache
}

fn closed() -> Closed {
    filled().close_keeping().map_err(|(why, _)| why).unwrap()
}

fn saved() -> Vec<u8> {
    let mut file = Vec::new();
    closed().save(&mut file).unwrap();
    file
}

/// How many entries a cache has, each with its value and its charge.
fn whole(cache: Cache) -> u64 {
    let left = cache.close_keeping().map_err(|(why, _)| why).unwrap();
    let mut value = [0; 64];
    let entries: Vec<(u32, u32, Entry)> = left.entries().collect();
    for (shard, slot, entry) in &entries {
        let number = entry.key.w0;
        assert_eq!((entry.key, entry.charge), (key_of(number), 7));
        let got = left.value(*shard, *slot, &mut value);
        assert_eq!(got, Ok(Got::Value(entry.length)));
        assert_eq!(value[..entry.length], value_of(number));
        assert_ne!(number, 3);
    }
    entries.len() as u64
}

#[test]
fn a_cache_begins_with_what_was_saved() {
    let file = saved();
    let others = [
        small(),
        Config {
            seed: UNSEEDED,
            ..small()
        },
        Config {
            slots: 32,
            shards: 8,
            seed: 7,
            ..small()
        },
    ];
    for config in others {
        let (cache, loaded) = Cache::load(&config, &mut &file[..]).unwrap();
        let all = Loaded {
            entries: ENTRIES - 1,
            left: ENTRIES - 1,
            lost: 0,
        };
        assert_eq!((cache.config(), loaded), (config, all));
        assert_eq!(whole(cache), ENTRIES - 1);
    }
    let less = Config {
        slots: 8,
        shards: 1,
        ..small()
    };
    let (cache, loaded) = Cache::load(&less, &mut &file[..]).unwrap();
    assert_eq!(
        (loaded.entries, loaded.left + loaded.lost),
        (ENTRIES - 1, ENTRIES - 1)
    );
    assert!(loaded.left < 8 && whole(cache) == loaded.left);
}

#[test]
fn what_stands_before_damage_is_kept_where_it_is_wanted() {
    let mut file = saved();
    let (cache, loaded, is_whole) = Cache::load_front(&small(), &mut &file[..]).unwrap();
    assert!(is_whole && loaded.left == whole(cache));
    file.pop();
    let refused = Cache::load(&small(), &mut &file[..]);
    assert!(matches!(refused, Err(FileError::Damaged)));
    let (cache, loaded, is_whole) = Cache::load_front(&small(), &mut &file[..]).unwrap();
    assert!(!is_whole && whole(cache) == ENTRIES - 2);
    assert_eq!(
        (loaded.entries, loaded.left, loaded.lost),
        (ENTRIES - 2, ENTRIES - 2, 0)
    );
    file[0] ^= 1;
    let refused = Cache::load_front(&small(), &mut &file[..]);
    assert!(matches!(refused, Err(FileError::Kind)));
}

/// The beginning of a file of version 2, which has no entry.
const NEWER: &[u8; 32] =
    b"FERRETG1\x02\0\0\0\0\0\0\0\0\0\0\0\0\0\0\0\x59\xdd\xd9\x7b\xd3\x8a\xa7\x48";

#[test]
fn refusals_have_a_name_a_text_and_a_cause() {
    let refused = |file: &[u8]| Cache::load_front(&small(), &mut &file[..]).unwrap_err();
    assert!(matches!(refused(NEWER), FileError::Version));
    assert_eq!(
        refused(NEWER).to_string(),
        "the file has a version that the library doesn't know"
    );
    assert_eq!(refused(b"").to_string(), "it is no file of a cache");
    assert!(refused(b"").source().is_none());
    let bad = Config {
        slots: 9,
        ..small()
    };
    let why = Cache::load(&bad, &mut &saved()[..]).unwrap_err();
    assert!(matches!(why, FileError::Refused(Refused::BAD_SLOTS)));
    assert_eq!(why.to_string(), "the configuration was refused");
    assert_eq!(
        why.source().unwrap().to_string(),
        Refused::BAD_SLOTS.to_string()
    );
}

/// A file that is written and read in pieces, with interruptions. One of its calls fails or panics, and
/// none comes after that.
struct Faulty {
    bytes: Vec<u8>,
    at: usize,
    calls: usize,
    bad: usize,
    panics: bool,
}

impl Faulty {
    fn of(bytes: Vec<u8>, bad: usize, panics: bool) -> Faulty {
        Faulty {
            bytes,
            at: 0,
            calls: 0,
            bad,
            panics,
        }
    }

    fn called(&mut self) -> io::Result<()> {
        self.calls += 1;
        assert!(self.calls <= self.bad + 1, "a call after one that failed");
        if self.calls <= self.bad {
            return Ok(());
        }
        assert!(!self.panics, "gone");
        Err(io::Error::new(ErrorKind::TimedOut, "too late"))
    }

    fn interrupted(&self) -> io::Result<()> {
        match self.calls % 3 {
            1 => Err(ErrorKind::Interrupted.into()),
            _ => Ok(()),
        }
    }
}

impl Write for Faulty {
    fn write(&mut self, bytes: &[u8]) -> io::Result<usize> {
        self.called()?;
        self.interrupted()?;
        let count = bytes.len().min(17);
        self.bytes.extend_from_slice(&bytes[..count]);
        Ok(count)
    }

    fn flush(&mut self) -> io::Result<()> {
        self.called()
    }
}

impl Read for Faulty {
    fn read(&mut self, bytes: &mut [u8]) -> io::Result<usize> {
        self.called()?;
        self.interrupted()?;
        assert!(
            bytes.iter().all(|it| *it == 0),
            "a reader sees what C had there"
        );
        let count = bytes.len().min(17).min(self.bytes.len() - self.at);
        bytes[..count].copy_from_slice(&self.bytes[self.at..][..count]);
        self.at += count;
        Ok(count)
    }
}

#[test]
fn a_writer_that_fails_is_named() {
    let left = closed();
    let fails = |bad| {
        let mut to = Faulty::of(Vec::new(), bad, false);
        match left.save(&mut to) {
            Ok(()) => return Some((to.bytes, to.calls)),
            Err(FileError::Write(why)) => assert_eq!(why.to_string(), "too late"),
            Err(why) => panic!("{}", why),
        }
        None
    };
    let (bytes, calls) = (0..).find_map(fails).unwrap();
    assert_eq!(bytes, saved());
    assert!(calls > 100);
}

#[test]
fn a_reader_that_fails_is_named() {
    let fails = |bad| {
        let mut from = Faulty::of(saved(), bad, false);
        match Cache::load_front(&small(), &mut from) {
            Ok((cache, _, is_whole)) => return Some((cache, is_whole)),
            Err(FileError::Read(why)) => assert_eq!(why.to_string(), "too late"),
            Err(why) => panic!("{}", why),
        }
        None
    };
    let (cache, is_whole) = (0..).find_map(fails).unwrap();
    assert!(is_whole && whole(cache) == ENTRIES - 1);
}

/// What a call returns, unless it panics as the caller's writer or reader did.
fn ended<D>(call: impl FnOnce() -> D) -> Option<D> {
    let ended = catch_unwind(AssertUnwindSafe(call));
    ended
        .map_err(|why| assert_eq!(why.downcast_ref(), Some(&"gone")))
        .ok()
}

#[test]
fn panics_go_on() {
    let left = closed();
    let saves = |bad| {
        let mut to = Faulty::of(Vec::new(), bad, true);
        ended(|| left.save(&mut to).unwrap())?;
        Some(to.bytes)
    };
    let file = (0..).find_map(saves).unwrap();
    assert_eq!(file, saved());
    let loads = |bad| {
        let mut from = Faulty::of(file.clone(), bad, true);
        ended(|| Cache::load(&small(), &mut from).unwrap())
    };
    let (cache, _) = (0..).find_map(loads).unwrap();
    assert_eq!(whole(cache), ENTRIES - 1);
}

#[test]
fn writers_and_readers_may_be_of_any_kind() {
    let mut to = BufWriter::new(Vec::new());
    closed().save(&mut to as &mut dyn Write).unwrap();
    assert!(to.buffer().is_empty(), "it isn't flushed");
    let file = to.into_inner().unwrap();
    assert_eq!(file, saved());
    let mut from = BufReader::new(&file[..]);
    let (cache, _) = Cache::load(&small(), &mut from as &mut dyn Read).unwrap();
    assert_eq!(whole(cache), ENTRIES - 1);
}

/// What a call panics with.
fn panicked<T>(call: impl FnOnce() -> T) -> Option<&'static str> {
    let panic = catch_unwind(AssertUnwindSafe(|| drop(call()))).err()?;
    panic.downcast_ref().copied()
}

#[test]
fn a_cache_that_runs_is_dumped_and_loaded() {
    let path = env::temp_dir().join(format!("ferretgold-{}.bytes", process::id()));
    let cache = filled();
    let client = cache.client().unwrap();
    assert_eq!(client.dump(&path).unwrap(), ENTRIES - 1);
    let (warm, loaded) = Cache::load(&small(), &mut fs::File::open(&path).unwrap()).unwrap();
    assert_eq!((loaded.left, whole(warm)), (ENTRIES - 1, ENTRIES - 1));
    assert!(matches!(
        client.dump(&path.join("none")),
        Err(FileError::Write(_))
    ));
    let held: Vec<_> = (0..small().handles)
        .map(|_| client.lookup(key_of(1)).unwrap())
        .collect();
    assert!(matches!(client.dump(&path), Err(FileError::Busy)) && held.len() > 1);
    fs::remove_file(&path).unwrap();
}

#[test]
fn objects_are_dumped_while_they_are_there_and_come_back() {
    let path = env::temp_dir().join(format!("ferretgold-{}.dump", process::id()));
    let open = || Objects::<Vec<u8>>::open(&ObjectConfig::default()).unwrap();
    let (from, to, mut asked) = (open(), open(), 0);
    let keys = (0..ENTRIES).map(|number| <[u8; 16]>::from(key_of(number)));
    for (key, number) in keys.clone().zip(0..) {
        from.insert(&key, value_of(number), 7).unwrap();
    }
    assert_eq!(from.dump(&path, |it| it).unwrap(), ENTRIES);
    let ends = || {
        from.dump(&path, |it| {
            asked += 1;
            if asked == 2 {
                panic!("bytes")
            }
            it
        })
    };
    assert_eq!((panicked(ends), asked), (Some("bytes"), 2));
    let loaded = to
        .warm(&path, |it| (it.len() != 9).then(|| it.to_vec()))
        .unwrap();
    assert_eq!((loaded.entries, loaded.left), (ENTRIES, ENTRIES - 1));
    for (key, number) in keys.zip(0..) {
        let found = to.get(&key).map(|it| (it.to_vec(), it.charge()));
        assert_eq!(found, (number != 3).then(|| (value_of(number), 7)));
    }
    let mut made = 0;
    let warms = || {
        to.warm(&path, |_| -> Option<Vec<u8>> {
            made += 1;
            panic!("made")
        })
    };
    assert_eq!((panicked(warms), made), (Some("made"), 1));
    fs::remove_file(&path).unwrap();
    assert!(matches!(
        to.warm(&path, |it| Some(it.to_vec())),
        Err(FileError::Read(_))
    ));
    assert!(matches!(
        from.dump(&path.join("none"), |it| it),
        Err(FileError::Write(_))
    ));
}

#[test]
fn who_holds_all_handles_can_not_dump() {
    let path = env::temp_dir().join(format!("ferretgold-{}.busy", process::id()));
    let config = ObjectConfig {
        clients: 1,
        handles: 1,
        ..ObjectConfig::default()
    };
    let cache = Objects::<Vec<u8>>::open(&config).unwrap();
    cache.insert(&[1; 16], vec![1], 1).unwrap();
    let held = cache.get(&[1; 16]);
    let busy = cache.dump(&path, |it| it).unwrap_err();
    assert!(matches!(busy, FileError::Busy) && held.is_some());
    assert_eq!(busy.to_string(), "no client or no handle was to be had");
    assert!(!path.exists());
}

/// What comes back is of low priority: it outlives an entry of the lowest, and goes before one of the highest,
/// wherever they lie.
#[test]
fn objects_come_back_with_two_uses() {
    let path = env::temp_dir().join(format!("ferretgold-{}.low", process::id()));
    let open = |seed| {
        let config = ObjectConfig {
            slots: 16,
            shards: 1,
            strict: true,
            capacity: 20,
            seed,
            ..ObjectConfig::default()
        };
        Objects::<Vec<u8>>::open(&config).unwrap()
    };
    let from = open(1);
    from.insert(&[1; 16], vec![1], 10).unwrap();
    assert_eq!(from.dump(&path, |it| it).unwrap(), 1);
    for (seed, rival) in (1..13).flat_map(|it| [(it, Priority::High), (it, Priority::Bottom)]) {
        let to = open(seed);
        assert_eq!(to.warm(&path, |it| Some(it.to_vec())).unwrap().left, 1);
        for (key, priority) in [([2; 16], rival), ([3; 16], Priority::High)] {
            let came = to.insert_with_priority(&key, vec![], 10, priority);
            assert_eq!(came.unwrap(), Inserted::Placed);
        }
        assert_eq!(to.get(&[1; 16]).is_some(), rival == Priority::Bottom);
    }
    fs::remove_file(&path).unwrap();
}
