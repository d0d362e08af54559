//! What a map is after a function of a caller panicked, or memory could not be allocated.

use flurry_shards::{bytes, numbers, OutOfMemory};
use std::env;
use std::panic::{catch_unwind, AssertUnwindSafe};
use std::process::Command;
use std::thread;

/// A panic in the function of `update`, under the lock of the key, leaves the key as it was, and the lock to all other calls.
#[test]
fn a_panic_leaves_a_shared_map() -> Result<(), OutOfMemory> {
    let (numbers, texts) = (numbers::SharedMap::new(1)?, bytes::SharedMap::new(1)?);
    numbers.insert(7, 1)?;
    texts.insert(b"key", b"old")?;
    thread::scope(|scope| {
        assert!(scope.spawn(|| numbers.update(7, |_| panic!("as wanted"))).join().is_err());
        assert!(scope.spawn(|| texts.update(b"key", |_| panic!("as wanted"))).join().is_err());
    });
    assert_eq!((numbers.get(7), numbers.len()), (Some(1), 1));
    assert_eq!(numbers.update(7, |old| old.unwrap_or(0) + 1)?, 2);
    assert_eq!((texts.get(b"key").as_deref(), texts.len()), (Some(&b"old"[..]), 1));
    assert!(texts.insert(b"key", b"new")?);
    Ok(())
}

#[test]
fn a_panic_leaves_an_owned_map() -> Result<(), OutOfMemory> {
    let (mut numbers, mut texts) = (numbers::OwnedMap::new()?, bytes::OwnedMap::new()?);
    numbers.insert(7, 1)?;
    texts.insert(b"key", b"old")?;
    assert!(catch_unwind(AssertUnwindSafe(|| numbers.update(7, |_| panic!("as wanted")))).is_err());
    assert!(catch_unwind(AssertUnwindSafe(|| texts.update(b"key", |_| panic!("as wanted")))).is_err());
    assert_eq!((numbers.get(7), numbers.len()), (Some(1), 1));
    assert_eq!((texts.get(b"key").as_deref(), texts.len()), (Some(&b"old"[..]), 1));
    Ok(())
}

/// So many locks cannot be counted, or be allocated.
#[test]
fn too_many_locks() {
    for shards in [usize::MAX, (1 << 63) + 1, 1 << 63, 1 << 50] {
        assert_eq!(numbers::SharedMap::new(shards).err(), Some(OutOfMemory));
        assert_eq!(bytes::SharedMap::new(shards).err(), Some(OutOfMemory));
    }
    assert!(numbers::SharedMap::new(0).is_ok_and(|map| map.is_empty()));
}

/// Runs each test that wants little memory in a process of its own, which may use 1 GB of addresses.
#[test]
fn with_little_memory() {
    for name in ["update_without_memory", "more_room_than_memory", "dropped_maps_are_freed"] {
        let words = "ulimit -v 1000000 && exec \"$0\" --ignored --exact \"$1\" --test-threads 1";
        let child = Command::new("sh").args(["-c", words]).arg(env::current_exe().unwrap()).arg(name).output().unwrap();
        let said = String::from_utf8_lossy(&child.stdout);
        assert!(child.status.success() && said.contains("1 passed"), "{said}");
    }
}

/// The function of `update` has run when memory for what it returned cannot be allocated, and the map is unchanged.
#[test]
#[ignore = "with_little_memory runs it"]
fn update_without_memory() -> Result<(), OutOfMemory> {
    let (mut owned, shared) = (bytes::OwnedMap::new()?, bytes::SharedMap::new(16)?);
    owned.insert(b"key", b"old")?;
    shared.insert(b"key", b"old")?;
    let mut ran = 0;
    let mut more_than_half = |_| {
        ran += 1;
        vec![0; 600_000_000]
    };
    assert_eq!(owned.update(b"key", &mut more_than_half), Err(OutOfMemory));
    assert_eq!(shared.update(b"key", &mut more_than_half), Err(OutOfMemory));
    assert_eq!(ran, 2);
    assert_eq!((owned.get(b"key").as_deref(), owned.len()), (Some(&b"old"[..]), 1));
    assert_eq!((shared.get(b"key").as_deref(), shared.len()), (Some(&b"old"[..]), 1));
    Ok(())
}

/// Room for which there is no memory is refused, in a map with a table and in one without, and the pairs stay.
#[test]
#[ignore = "with_little_memory runs it"]
fn more_room_than_memory() -> Result<(), OutOfMemory> {
    let (mut numbers, mut texts) = (numbers::OwnedMap::new()?, bytes::OwnedMap::new()?);
    for room in [usize::MAX, 1 << 40, 100_000_000] {
        assert_eq!(numbers.reserve(room), Err(OutOfMemory));
        assert_eq!(texts.reserve(room), Err(OutOfMemory));
        numbers.insert(7, 1)?;
        texts.insert(b"key", b"value")?;
    }
    assert_eq!((numbers.get(7), numbers.len()), (Some(1), 1));
    assert_eq!((texts.get(b"key").as_deref(), texts.len()), (Some(&b"value"[..]), 1));
    Ok(())
}

/// What a map keeps is given back when it is dropped: one after another, 60 maps of 20 MB or more have room.
#[test]
#[ignore = "with_little_memory runs it"]
fn dropped_maps_are_freed() -> Result<(), OutOfMemory> {
    let value = vec![7; 20_000_000];
    for _ in 0..60 {
        numbers::OwnedMap::new()?.reserve(400_000)?;
        bytes::OwnedMap::new()?.reserve(400_000)?;
        bytes::OwnedMap::new()?.insert(b"key", &value)?;
        bytes::SharedMap::new(4)?.insert(b"key", &value)?;
    }
    Ok(())
}
