//! How many locks a shared map has, and when they are held.

use flurry_shards::{bytes, numbers, OutOfMemory};
use std::sync::mpsc;
use std::thread;
use std::time::Duration;

const PATIENCE: Duration = Duration::from_secs(10);

/// Runs `f` in a thread, and returns whether it ends.
fn ends(f: impl FnOnce() + Send + 'static) -> bool {
    let (sender, receiver) = mpsc::channel();
    thread::spawn(move || {
        f();
        let _ = sender.send(());
    });
    receiver.recv_timeout(PATIENCE).is_ok()
}

/// The function of `for_each` may call the map, also where all pairs are behind one lock.
#[test]
fn no_lock_is_held_in_for_each() -> Result<(), OutOfMemory> {
    let (numbers, texts) = (numbers::SharedMap::new(1)?, bytes::SharedMap::new(1)?);
    for key in 0..10 {
        numbers.insert(key, key + 1)?;
        texts.insert(&[key as u8], b"value")?;
    }
    assert!(ends(move || {
        numbers.for_each(|key, value| assert_eq!(numbers.remove(key), Some(value)));
        assert!(numbers.is_empty());
    }));
    assert!(ends(move || {
        texts.for_each(|key, value| assert_eq!(texts.update(key, |old| old.unwrap()).as_deref(), Ok(value)));
        texts.for_each(|key, _| assert!(texts.remove(key)));
        assert!(texts.is_empty());
    }));
    Ok(())
}

/// A map of one pair is not empty, whichever lock the pair is behind.
#[test]
fn one_pair_behind_any_lock() -> Result<(), OutOfMemory> {
    let (numbers, texts) = (numbers::SharedMap::new(32)?, bytes::SharedMap::new(32)?);
    for number in 0..1000u64 {
        let key = number.to_le_bytes();
        assert!(numbers.is_empty() && texts.is_empty());
        numbers.insert(number, 0)?;
        texts.insert(&key, b"")?;
        assert!(!numbers.is_empty() && !texts.is_empty());
        assert_eq!((numbers.len(), texts.len()), (1, 1));
        assert!(numbers.remove(number).is_some() && texts.remove(&key));
    }
    Ok(())
}

/// `hold` runs the function that it is passed under the lock of one key. Meanwhile 32 threads run `call`, with the numbers from 1 to 32.
/// Returns whether 24 of them end before the lock is released.
fn most_go_on(hold: impl FnOnce(&mut dyn FnMut()), call: impl Fn(u64) + Sync) -> bool {
    let (call, mut are_enough) = (&call, false);
    let (sender, receiver) = mpsc::channel();
    thread::scope(|scope| {
        hold(&mut || {
            for number in 1..=32 {
                let sender = sender.clone();
                scope.spawn(move || {
                    call(number);
                    sender.send(()).unwrap();
                });
            }
            are_enough = (0..24).all(|_| receiver.recv_timeout(PATIENCE).is_ok());
        });
    });
    are_enough
}

/// While a call of one key is under way, calls of most other keys are not kept waiting, since those are behind other locks.
#[test]
fn keys_are_behind_many_locks() -> Result<(), OutOfMemory> {
    let (numbers, texts) = (numbers::SharedMap::new(64)?, bytes::SharedMap::new(64)?);
    let hold_number = |run: &mut dyn FnMut()| {
        let set = numbers.update(0, |_| {
            run();
            7
        });
        assert_eq!(set, Ok(7));
    };
    assert!(most_go_on(hold_number, |number| assert_eq!(numbers.insert(number, number), Ok(None))));
    let hold_text = |run: &mut dyn FnMut()| {
        let set = texts.update(b"key", |_| {
            run();
            vec![7]
        });
        assert_eq!(set, Ok(vec![7]));
    };
    assert!(most_go_on(hold_text, |number| assert_eq!(texts.insert(&number.to_le_bytes(), b""), Ok(false))));
    assert_eq!((numbers.len(), texts.len()), (33, 33));
    Ok(())
}
