//! Configurations: what they are by default, and that each field crosses to C and back as what it is.

use ferretgold::{
    Cache, Config, Inserted, Key, ObjectConfig, Objects, Priority, Refused, MOST_SERIALS, UNSEEDED,
};

/// As FERRETGOLD_CONFIG of ferretgold.h and FERRETGOLD_OBJECT_CONFIG of ferretgold_object.h.
#[test]
fn defaults_are_those_of_the_headers() {
    let bytes = Config {
        slots: 2048,
        room: 512,
        clients: 16,
        handles: 16,
        shards: 2,
        strict: false,
        marks: false,
        capacity: 11_743_232,
        serials: 1 << 54,
        seed: 0,
    };
    let objects = ObjectConfig {
        slots: 4096,
        clients: 64,
        handles: 256,
        gone: 256,
        shards: 4,
        strict: false,
        marks: false,
        capacity: 46_972_928,
        serials: 1 << 54,
        seed: 0,
    };
    assert_eq!(
        (Config::default(), ObjectConfig::default()),
        (bytes, objects)
    );
    assert_eq!((MOST_SERIALS, UNSEEDED), (1 << 54, u64::MAX));
    assert_eq!(Priority::default(), Priority::Low);
}

/// Each field is another number than all others.
fn bytes(strict: bool, marks: bool) -> Config {
    Config {
        slots: 16,
        room: 3,
        clients: 65,
        handles: 7,
        shards: 4,
        strict,
        marks,
        capacity: 0x12_3456_789a,
        serials: 0xab_cdef_0123,
        seed: 0x1122_3344_5566_7788,
    }
}

fn objects(strict: bool, marks: bool) -> ObjectConfig {
    ObjectConfig {
        slots: 16,
        clients: 65,
        handles: 7,
        gone: 9,
        shards: 4,
        strict,
        marks,
        capacity: 0x12_3456_789a,
        serials: 0xab_cdef_0123,
        seed: 0x1122_3344_5566_7788,
    }
}

const KINDS: [(bool, bool); 2] = [(true, false), (false, true)];

#[test]
fn a_cache_says_what_it_was_opened_with() {
    for (strict, marks) in KINDS {
        let (config, other) = (bytes(strict, marks), objects(strict, marks));
        let cache = Cache::open(&config).unwrap();
        assert_eq!(cache.config(), config);
        let left = cache.close_keeping().map_err(|(why, _)| why).unwrap();
        assert_eq!(left.config(), config);
        assert_eq!(Objects::<u8>::open(&other).unwrap().config(), other);
    }
}

/// By the sums of the headers, in which each size stands for itself.
#[test]
fn sizes_take_their_memory() {
    let tables = 4 * (272 + 16 * 8 * (7 + 3));
    let clients = 65 * (856 + 72 * 4 + 104 * 7) + 64 * 2;
    assert_eq!(bytes(false, false).memory(), tables + clients + 496);
    let tables = 4 * (272 + 16 * 64);
    let clients = 65 * (1384 + 72 * 4 + 192 * 7 + 24 * 9);
    assert_eq!(objects(false, false).memory(), tables + clients + 6640);
}

/// One is refused by a strict cache alone, and marked by one that marks.
#[test]
fn strict_and_marks_mean_what_they_say() {
    let (key, large) = (Key { w0: 1, w1: 2 }, u32::MAX);
    for (strict, marks) in KINDS {
        let small = Config {
            capacity: 1 << 33,
            ..bytes(strict, marks)
        };
        let cache = Cache::open(&small).unwrap();
        let client = cache.client().unwrap();
        let wanted = if strict {
            Err(Refused::TOO_LARGE)
        } else {
            Ok(Inserted::Placed)
        };
        assert_eq!(client.insert(key, b"", large, Priority::Low), wanted);
        assert!(client.insert(key, b"", 1, Priority::Low).is_ok());
        drop(client.lookup(key).unwrap().unwrap());
        drop(client);
        let left = cache.close_keeping().map_err(|(why, _)| why).unwrap();
        let hits: Vec<_> = left.entries().map(|(_, _, it)| it.hit).collect();
        assert_eq!(hits, [marks]);
        let small = ObjectConfig {
            capacity: 1 << 33,
            ..objects(strict, marks)
        };
        let objects = Objects::<u8>::open(&small).unwrap();
        let came = objects.insert_with_priority(&[1; 16], 0, large, Priority::Low);
        assert_eq!(came.map_err(|it| it.why), wanted);
    }
}

#[test]
fn sizes_of_objects_are_those_of_a_capacity() {
    let rows = [
        (0, 0, 8, 1, 16),
        (1 << 20, 4096, 512, 1, 16),
        (16 << 20, 4096, 4096, 2, 128),
        (64 << 20, 4096, 4096, 8, 256),
        (1 << 30, 4096, 32_768, 16, 256),
        (8 << 30, 4096, 65_536, 64, 256),
        (1 << 40, 1, 65_536, 64, 256),
        (70, 10, 16, 1, 16), // ten slots for seven of them
        (56, 10, 8, 1, 16),
    ];
    for (capacity, charge, slots, shards, handles) in rows {
        let wanted = ObjectConfig {
            slots,
            shards,
            handles,
            capacity,
            ..ObjectConfig::default()
        };
        assert_eq!(ObjectConfig::sized(capacity, charge), wanted);
    }
}
