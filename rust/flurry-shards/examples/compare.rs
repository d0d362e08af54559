//! Measures `SharedMap` beside std's `HashMap` under as many locks, and prints a table of millions of calls a second: the medians of
//! several rounds, in which the maps take turns.
//!
//!     cargo run --release --example compare [ROUNDS]

use flurry_shards::{bytes, numbers};
use std::collections::hash_map::{HashMap, RandomState};
use std::hash::{BuildHasher, Hash};
use std::sync::Mutex;
use std::thread;
use std::time::Instant;

const LOCKS: usize = 16;
const KEYS: u64 = 200_000;

/// What is measured of a map of numbers, or of bytes made of the numbers.
trait Map: Sync {
    fn insert(&self, key: u64, value: u64);
    fn has(&self, key: u64) -> bool;
    fn remove(&self, key: u64);
}

impl Map for numbers::SharedMap {
    fn insert(&self, key: u64, value: u64) {
        numbers::SharedMap::insert(self, key, value).unwrap();
    }

    fn has(&self, key: u64) -> bool {
        self.get(key).is_some()
    }

    fn remove(&self, key: u64) {
        numbers::SharedMap::remove(self, key);
    }
}

impl Map for bytes::SharedMap {
    fn insert(&self, key: u64, value: u64) {
        bytes::SharedMap::insert(self, &text(key), &text(value)).unwrap();
    }

    fn has(&self, key: u64) -> bool {
        self.get(&text(key)).is_some()
    }

    fn remove(&self, key: u64) {
        bytes::SharedMap::remove(self, &text(key));
    }
}

/// 16 bytes of a number.
fn text(number: u64) -> [u8; 16] {
    (u128::from(number) * 0x1_0001).to_le_bytes()
}

#[repr(align(128))]
struct Locked<K, V>(Mutex<HashMap<K, V>>);

struct Std<K, V> {
    maps: Vec<Locked<K, V>>,
    hasher: RandomState,
}

impl<K: Hash + Eq, V> Std<K, V> {
    fn new() -> Self {
        Std { maps: (0..LOCKS).map(|_| Locked(Mutex::default())).collect(), hasher: RandomState::new() }
    }

    fn with<T>(&self, key: impl Hash, f: impl FnOnce(&mut HashMap<K, V>) -> T) -> T {
        f(&mut self.maps[self.hasher.hash_one(key) as usize % LOCKS].0.lock().unwrap())
    }
}

impl Map for Std<u64, u64> {
    fn insert(&self, key: u64, value: u64) {
        self.with(key, |map| map.insert(key, value));
    }

    fn has(&self, key: u64) -> bool {
        self.with(key, |map| map.get(&key).copied()).is_some()
    }

    fn remove(&self, key: u64) {
        self.with(key, |map| map.remove(&key));
    }
}

impl Map for Std<Vec<u8>, Vec<u8>> {
    fn insert(&self, key: u64, value: u64) {
        let key = text(key);
        self.with(key, |map| map.insert(key.to_vec(), text(value).to_vec()));
    }

    fn has(&self, key: u64) -> bool {
        let key = text(key);
        self.with(key, |map| map.get(&key[..]).cloned()).is_some()
    }

    fn remove(&self, key: u64) {
        let key = text(key);
        self.with(key, |map| map.remove(&key[..]));
    }
}

const WORK: [&str; 4] = ["insert new keys", "look up, all present", "9 look-ups to 1 insert", "remove"];

/// Millions of calls a second of each kind of work, one after the other on the same map.
fn measure(map: &dyn Map, threads: u64) -> [f64; 4] {
    [0, 1, 2, 3].map(|work| {
        let began = Instant::now();
        thread::scope(|scope| {
            for thread in 0..threads {
                scope.spawn(move || (thread..KEYS).step_by(threads as usize).for_each(|number| call(map, work, number)));
            }
        });
        KEYS as f64 / began.elapsed().as_secs_f64() / 1e6
    })
}

fn call(map: &dyn Map, work: usize, number: u64) {
    let key = number.wrapping_mul(0x9E37_79B9_7F4A_7C15) >> 20;
    match work {
        0 => map.insert(key, number),
        2 if number % 10 == 0 => map.insert(key, number + 1),
        3 => map.remove(key),
        _ => assert!(map.has(key)),
    }
}

fn median(mut values: Vec<f64>) -> f64 {
    values.sort_by(f64::total_cmp);
    values[values.len() / 2]
}

fn make(kind: usize) -> Box<dyn Map> {
    match kind {
        0 => Box::new(numbers::SharedMap::new(LOCKS).unwrap()),
        1 => Box::new(Std::<u64, u64>::new()),
        2 => Box::new(bytes::SharedMap::new(LOCKS).unwrap()),
        _ => Box::new(Std::<Vec<u8>, Vec<u8>>::new()),
    }
}

fn main() {
    let rounds = std::env::args().nth(1).map_or(7, |rounds| rounds.parse().expect("a number of rounds"));
    println!("| work | threads | numbers: SharedMap | std | ratio | bytes: SharedMap | std | ratio |");
    println!("|---|---|---|---|---|---|---|---|");
    for threads in [1, 4] {
        let taken: Vec<[[f64; 4]; 4]> = (0..rounds).map(|_| [0, 1, 2, 3].map(|kind| measure(&*make(kind), threads))).collect();
        for (work, name) in WORK.iter().enumerate() {
            let of = |kind: usize| median(taken.iter().map(|round| round[kind][work]).collect());
            let ratio = |kind: usize| median(taken.iter().map(|round| round[kind][work] / round[kind + 1][work]).collect());
            println!(
                "| {name} | {threads} | {:.2} | {:.2} | {:.2} | {:.2} | {:.2} | {:.2} |",
                of(0), of(1), ratio(0), of(2), of(3), ratio(2)
            );
        }
    }
}
