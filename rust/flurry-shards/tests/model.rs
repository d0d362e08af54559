//! 1,000,000 random calls each, beside std's `HashMap`: in one thread, and in four at the same time.

use flurry_shards::{bytes, numbers, OutOfMemory};
use std::collections::{HashMap, HashSet};
use std::thread;

const CALLS: u64 = 1_000_000;
const THREADS: u64 = 4;
const ROUNDS: u64 = 10;
const LENGTHS: u64 = 301;

type Numbers = HashMap<u64, u64>;
type Texts = HashMap<Vec<u8>, Vec<u8>>;

/// Numbers in an order that looks random, from a seed (SplitMix64).
struct Draws(u64);

impl Draws {
    fn next(&mut self, below: u64) -> u64 {
        self.0 = self.0.wrapping_add(0x9E37_79B9_7F4A_7C15);
        let mut z = self.0;
        z = (z ^ (z >> 30)).wrapping_mul(0xBF58_476D_1CE4_E5B9);
        z = (z ^ (z >> 27)).wrapping_mul(0x94D0_49BB_1331_11EB);
        (z ^ (z >> 31)) % below
    }

    /// Bytes of a length from 0 to 300, of which few are different, so that keys come again.
    fn bytes(&mut self, choices: u64, salt: u8) -> Vec<u8> {
        let choice = self.next(choices);
        let mut bytes = vec![choice as u8; (choice % LENGTHS) as usize];
        if let Some(first) = bytes.first_mut() {
            *first = salt;
        }
        if let [_, second, ..] = &mut bytes[..] {
            *second = (choice / 256) as u8;
        }
        bytes
    }
}

/// The lengths of the keys, and of the values, that were drawn.
#[derive(Default)]
struct Lengths(HashSet<usize>, HashSet<usize>);

impl Lengths {
    fn add(&mut self, key: &[u8], value: &[u8]) {
        self.0.insert(key.len());
        self.1.insert(value.len());
    }

    /// Each from 0 to 300 was drawn of both.
    fn are_all(&self) -> bool {
        [&self.0, &self.1].into_iter().all(|lengths| (0..LENGTHS as usize).all(|len| lengths.contains(&len)))
    }
}

fn times_3(old: Option<u64>) -> u64 {
    old.map_or(1, |old| old.wrapping_mul(3))
}

/// The value, or the first half of the one that is there.
fn half_or(value: Vec<u8>) -> impl FnOnce(Option<Vec<u8>>) -> Vec<u8> {
    move |old| old.map_or(value, |old| old[..old.len() / 2].to_vec())
}

#[test]
fn owned_numbers() -> Result<(), OutOfMemory> {
    let mut map = numbers::OwnedMap::new()?;
    let mut model = Numbers::new();
    let mut draws = Draws(1);
    for call in 0..CALLS {
        let (key, value) = (draws.next(5000), draws.next(u64::MAX));
        match draws.next(8) {
            0..=1 => assert_eq!(map.insert(key, value)?, model.insert(key, value)),
            2 => {
                assert_eq!(map.try_insert(key, value)?, model.get(&key).copied());
                model.entry(key).or_insert(value);
            }
            3..=4 => assert_eq!(map.remove(key), model.remove(&key)),
            5 => assert_eq!(map.contains(key), model.contains_key(&key)),
            6 => {
                let new = times_3(model.get(&key).copied());
                assert_eq!(map.update(key, times_3)?, new);
                model.insert(key, new);
            }
            _ => assert_eq!(map.get(key), model.get(&key).copied()),
        }
        if call % 1000 == 0 {
            map.reserve(draws.next(5000) as usize)?;
            assert_eq!(owned_pairs_of_numbers(&mut map), model);
        }
        if call % 30_000 == 0 {
            map.clear();
            model.clear();
        }
        assert_eq!((map.len(), map.is_empty()), (model.len(), model.is_empty()));
    }
    Ok(())
}

fn owned_pairs_of_numbers(map: &mut numbers::OwnedMap) -> Numbers {
    let mut seen = Numbers::new();
    map.for_each(|key, value| assert_eq!(seen.insert(key, value), None));
    seen
}

#[test]
fn owned_bytes() -> Result<(), OutOfMemory> {
    let mut map = bytes::OwnedMap::new()?;
    let mut model = Texts::new();
    let (mut draws, mut lengths) = (Draws(2), Lengths::default());
    for call in 0..CALLS {
        let (key, value) = (draws.bytes(3000, 0), draws.bytes(3000, 1));
        lengths.add(&key, &value);
        match draws.next(8) {
            0..=1 => assert_eq!(map.insert(&key, &value)?, model.insert(key, value).is_some()),
            2 => {
                assert_eq!(map.try_insert(&key, &value)?, model.contains_key(&key));
                model.entry(key).or_insert(value);
            }
            3..=4 => assert_eq!(map.remove(&key), model.remove(&key).is_some()),
            5 => assert_eq!(map.contains(&key), model.contains_key(&key)),
            6 => {
                let new = half_or(value.clone())(model.get(&key).cloned());
                assert_eq!(map.update(&key, half_or(value))?, new);
                model.insert(key, new);
            }
            _ => assert_eq!(map.get(&key).as_ref(), model.get(&key)),
        }
        if call % 1000 == 0 {
            map.reserve(draws.next(5000) as usize)?;
            assert_eq!(owned_pairs_of_bytes(&mut map), model);
        }
        if call % 30_000 == 0 {
            map.clear();
            model.clear();
        }
        assert_eq!((map.len(), map.is_empty()), (model.len(), model.is_empty()));
    }
    assert!(lengths.are_all());
    Ok(())
}

fn owned_pairs_of_bytes(map: &mut bytes::OwnedMap) -> Texts {
    let mut seen = Texts::new();
    map.for_each(|key, value| assert_eq!(seen.insert(key.to_vec(), value.to_vec()), None));
    seen
}

/// Runs a round of calls in each thread, by its number and its model. Returns what all models have.
fn run_in_threads<K, V>(models: &mut [HashMap<K, V>], run: impl Fn(u64, &mut HashMap<K, V>) + Sync) -> HashMap<K, V>
where
    K: std::hash::Hash + Eq + Clone + Send,
    V: Clone + Send,
{
    thread::scope(|scope| {
        for (thread, model) in (0..).zip(&mut *models) {
            let run = &run;
            scope.spawn(move || run(thread, model));
        }
    });
    models.iter().flatten().map(|(key, value)| (key.clone(), value.clone())).collect()
}

/// Each thread has keys of its own, so its calls answer as its model does, whatever the others do; and after each round all models together
/// are the map.
#[test]
fn shared_numbers() -> Result<(), OutOfMemory> {
    let map = numbers::SharedMap::new(16)?;
    let mut models = vec![Numbers::new(); THREADS as usize];
    for round in 0..ROUNDS {
        let model = run_in_threads(&mut models, |thread, model| {
            let mut draws = Draws(round * THREADS + thread);
            for _ in 0..CALLS / THREADS / ROUNDS {
                call_numbers(&map, thread, model, &mut draws).unwrap();
            }
        });
        assert_eq!(pairs_of_numbers(&map, |_| true), model);
        assert_eq!((map.len(), map.is_empty()), (model.len(), model.is_empty()));
        if round % 3 == 2 {
            map.clear();
            assert!(map.is_empty());
            models.iter_mut().for_each(HashMap::clear);
        }
    }
    Ok(())
}

fn call_numbers(map: &numbers::SharedMap, thread: u64, model: &mut Numbers, draws: &mut Draws) -> Result<(), OutOfMemory> {
    let (key, value) = (draws.next(2000) * THREADS + thread, draws.next(u64::MAX));
    match draws.next(6) {
        0 => assert_eq!(map.insert(key, value)?, model.insert(key, value)),
        1 => assert_eq!(map.remove(key), model.remove(&key)),
        2 => {
            assert_eq!(map.try_insert(key, value)?, model.get(&key).copied());
            model.entry(key).or_insert(value);
        }
        3 => {
            let new = times_3(model.get(&key).copied());
            assert_eq!(map.update(key, times_3)?, new);
            model.insert(key, new);
        }
        4 => assert_eq!(map.contains(key), model.contains_key(&key)),
        _ => assert_eq!(map.get(key), model.get(&key).copied()),
    }
    if draws.next(2000) == 0 {
        assert!(map.len() >= model.len());
        assert_eq!(pairs_of_numbers(map, |key| key % THREADS == thread), *model);
    }
    Ok(())
}

/// The pairs whose keys pass a test.
fn pairs_of_numbers(map: &numbers::SharedMap, is_asked: impl Fn(u64) -> bool) -> Numbers {
    let mut seen = Numbers::new();
    map.for_each(|key, value| assert!(!is_asked(key) || seen.insert(key, value).is_none()));
    seen
}

#[test]
fn shared_bytes() -> Result<(), OutOfMemory> {
    let map = bytes::SharedMap::new(16)?;
    let mut models = vec![Texts::new(); THREADS as usize];
    let lengths: Vec<_> = (0..THREADS).map(|_| std::sync::Mutex::new(Lengths::default())).collect();
    for round in 0..ROUNDS {
        let model = run_in_threads(&mut models, |thread, model| {
            let mut draws = Draws(round * THREADS + thread);
            let mut lengths = lengths[thread as usize].lock().unwrap();
            for _ in 0..CALLS / THREADS / ROUNDS {
                call_bytes(&map, thread, model, &mut draws, &mut lengths).unwrap();
            }
        });
        assert_eq!(pairs_of_bytes(&map, |_| true), model);
        assert_eq!((map.len(), map.is_empty()), (model.len(), model.is_empty()));
        if round % 3 == 2 {
            map.clear();
            assert!(map.is_empty());
            models.iter_mut().for_each(HashMap::clear);
        }
    }
    assert!(lengths[0].lock().unwrap().are_all());
    Ok(())
}

/// Whether a key is this thread's: its first byte says so, and the empty key is the first thread's.
fn is_of(thread: u64, key: &[u8]) -> bool {
    key.first().map_or(0, |first| u64::from(*first)) == thread
}

fn call_bytes(
    map: &bytes::SharedMap,
    thread: u64,
    model: &mut Texts,
    draws: &mut Draws,
    lengths: &mut Lengths,
) -> Result<(), OutOfMemory> {
    let mut key = draws.bytes(1000, thread as u8);
    while !is_of(thread, &key) {
        key = draws.bytes(1000, thread as u8);
    }
    let value = draws.bytes(1000, 9);
    lengths.add(&key, &value);
    match draws.next(6) {
        0 => assert_eq!(map.insert(&key, &value)?, model.insert(key, value).is_some()),
        1 => assert_eq!(map.remove(&key), model.remove(&key).is_some()),
        2 => {
            assert_eq!(map.try_insert(&key, &value)?, model.contains_key(&key));
            model.entry(key).or_insert(value);
        }
        3 => {
            let new = half_or(value.clone())(model.get(&key).cloned());
            assert_eq!(map.update(&key, half_or(value))?, new);
            model.insert(key, new);
        }
        4 => assert_eq!(map.contains(&key), model.contains_key(&key)),
        _ => assert_eq!(map.get(&key).as_ref(), model.get(&key)),
    }
    if draws.next(2000) == 0 {
        assert!(map.len() >= model.len());
        assert_eq!(pairs_of_bytes(map, |key| is_of(thread, key)), *model);
    }
    Ok(())
}

/// The pairs whose keys pass a test.
fn pairs_of_bytes(map: &bytes::SharedMap, is_asked: impl Fn(&[u8]) -> bool) -> Texts {
    let mut seen = Texts::new();
    map.for_each(|key, value| assert!(!is_asked(key) || seen.insert(key.to_vec(), value.to_vec()).is_none()));
    seen
}

/// All threads add to the same keys, and no addition is lost.
#[test]
fn no_update_is_lost() -> Result<(), OutOfMemory> {
    let map = numbers::SharedMap::new(4)?;
    thread::scope(|scope| {
        for _ in 0..THREADS {
            scope.spawn(|| {
                for call in 0..CALLS / THREADS {
                    map.update(call % 100, |old| old.unwrap_or(0) + 1).unwrap();
                }
            });
        }
    });
    assert!((0..100).all(|key| map.get(key) == Some(CALLS / 100)));
    Ok(())
}

/// All threads append to the same values, and no byte is lost.
#[test]
fn no_update_of_bytes_is_lost() -> Result<(), OutOfMemory> {
    let map = bytes::SharedMap::new(4)?;
    thread::scope(|scope| {
        for thread in 0..THREADS {
            let map = &map;
            scope.spawn(move || {
                for call in 0..10_000u64 {
                    let key = (call % 100).to_le_bytes();
                    map.update(&key, |old| [old.unwrap_or_default(), vec![thread as u8]].concat()).unwrap();
                }
            });
        }
    });
    for key in 0..100u64 {
        let mut value = map.get(&key.to_le_bytes()).unwrap();
        value.sort();
        assert_eq!(value, (0..THREADS as u8).flat_map(|thread| [thread; 100]).collect::<Vec<_>>());
    }
    Ok(())
}

/// A map that is cleared while threads insert has of each key no value or the last.
#[test]
fn cleared_meanwhile() -> Result<(), OutOfMemory> {
    let map = numbers::SharedMap::new(4)?;
    thread::scope(|scope| {
        for thread in 1..THREADS {
            let map = &map;
            scope.spawn(move || {
                for call in 0..CALLS / THREADS / ROUNDS {
                    let key = call % 100 * THREADS + thread;
                    let old = map.insert(key, call).unwrap();
                    assert!(old.is_none() || old == call.checked_sub(100));
                    assert!([None, Some(call)].contains(&map.get(key)));
                }
            });
        }
        (0..1000).for_each(|_| map.clear());
    });
    map.clear();
    assert!(map.is_empty());
    Ok(())
}
