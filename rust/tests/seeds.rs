//! Seeds of keys: who names none gets one that is drawn; where the system has none, opening is refused. Where
//! NO_SEEDS is set these tests run over tests/c/no_seeds.c, so that no seed can be drawn.

use ferretgold::{Cache, Config, Image, ObjectConfig, Objects, Refused, UNSEEDED};
use std::env;

/// What opening comes to that has to draw a seed.
fn drawn<T>(it: Result<T, Refused>) -> Option<T> {
    match env::var_os("NO_SEEDS") {
        None => Some(it.unwrap_or_else(|why| panic!("{why}"))),
        Some(_) => {
            let why = it.err().expect("nothing could be drawn");
            assert_eq!(why, Refused::NO_SEED);
            assert_eq!(why.to_string(), "the system has no number for a seed yet");
            None
        }
    }
}

#[test]
fn bytes_have_a_seed_that_is_drawn() {
    let config = Config::sized(1 << 20, 64, 1).unwrap();
    assert_eq!((config.seed, Config::default().seed), (0, 0));
    assert_eq!(config.check(), Ok(()));
    let opened = [
        drawn(Cache::open(&config)),
        drawn(Cache::reopen(&config, Image::new().unwrap())).map(|it| it.0),
    ];
    let seeds = opened.map(|it| it.map_or(7, |it| it.config().seed));
    assert!(!seeds.contains(&0) && !seeds.contains(&UNSEEDED));
    assert!(env::var_os("NO_SEEDS").is_some() || seeds[0] != seeds[1]);
    for seed in [seeds[0], UNSEEDED] {
        let named = Config { seed, ..config };
        assert_eq!(Cache::open(&named).unwrap().config(), named);
    }
}

#[test]
fn objects_have_a_seed_that_is_drawn() {
    let config = ObjectConfig::sized(1 << 20, 4096);
    assert_eq!((config.seed, ObjectConfig::default().seed), (0, 0));
    let seed = drawn(Objects::<u8>::open(&config)).map_or(7, |it| it.config().seed);
    assert!(seed != 0 && seed != UNSEEDED);
    for seed in [seed, UNSEEDED] {
        let named = ObjectConfig { seed, ..config };
        assert_eq!(Objects::<u8>::open(&named).unwrap().config(), named);
    }
}
