//! Longer strings and larger maps than the random calls have.

use flurry_shards::{bytes, numbers, OutOfMemory};

const LONGEST: usize = (1 << 20) + 1;
const MANY: u64 = 20_000;

/// The lengths from three to a megabyte beside each power of two.
fn lengths() -> impl Iterator<Item = usize> {
    (2..=20).flat_map(|power| [(1 << power) - 1, 1 << power, (1 << power) + 1])
}

/// Keys and values of up to a megabyte come back whole.
#[test]
fn long_strings() -> Result<(), OutOfMemory> {
    let (mut owned, shared) = (bytes::OwnedMap::new()?, bytes::SharedMap::new(4)?);
    let string: Vec<u8> = (0..LONGEST).map(|at| (at * at / 7) as u8).collect();
    for len in lengths() {
        let (key, value) = (&string[..len], &string[LONGEST - len..]);
        assert_eq!((owned.insert(key, value)?, shared.insert(key, value)?), (false, false));
        assert_eq!((owned.try_insert(key, b"")?, shared.try_insert(key, b"")?), (true, true));
        assert_eq!((owned.get(key).as_deref(), shared.get(key).as_deref()), (Some(value), Some(value)));
        assert_eq!(owned.update(key, |old| old.unwrap())?, value);
        assert_eq!(shared.update(key, |old| old.unwrap())?, value);
        owned.for_each(|k, v| assert!(k == key && v == value));
        shared.for_each(|k, v| assert!(k == key && v == value));
        assert!(!owned.contains(&key[1..]) && !shared.contains(&key[1..]));
        assert!(owned.remove(key) && shared.remove(key));
    }
    Ok(())
}

/// Each call of one key, at each of 20,000 numbers.
#[test]
fn many_numbers() -> Result<(), OutOfMemory> {
    let (mut owned, shared) = (numbers::OwnedMap::new()?, numbers::SharedMap::new(4)?);
    owned.reserve(5 * MANY as usize)?;
    for key in 0..MANY {
        assert_eq!((owned.insert(key, key)?, shared.insert(key, key)?), (None, None));
    }
    for key in 0..MANY {
        assert_eq!((owned.try_insert(key, 0)?, shared.try_insert(key, 0)?), (Some(key), Some(key)));
        assert_eq!(owned.update(key, |old| old.unwrap() + 1)?, key + 1);
        assert_eq!(shared.update(key, |old| old.unwrap() + 1)?, key + 1);
    }
    assert_eq!((owned.len(), shared.len()), (MANY as usize, MANY as usize));
    for key in 0..MANY {
        assert_eq!((owned.get(key), shared.get(key)), (Some(key + 1), Some(key + 1)));
        assert_eq!((owned.remove(key), shared.remove(key)), (Some(key + 1), Some(key + 1)));
    }
    assert!(owned.is_empty() && shared.is_empty());
    Ok(())
}

/// The same of byte strings.
#[test]
fn many_texts() -> Result<(), OutOfMemory> {
    let (mut owned, shared) = (bytes::OwnedMap::new()?, bytes::SharedMap::new(4)?);
    let keys: Vec<_> = (0..MANY).map(u64::to_le_bytes).collect();
    owned.reserve(5 * keys.len())?;
    for key in &keys {
        assert_eq!((owned.insert(key, key)?, shared.insert(key, key)?), (false, false));
    }
    for key in &keys {
        assert_eq!((owned.try_insert(key, b"")?, shared.try_insert(key, b"")?), (true, true));
        assert_eq!(owned.update(key, |old| old.unwrap().repeat(2))?, key.repeat(2));
        assert_eq!(shared.update(key, |old| old.unwrap().repeat(2))?, key.repeat(2));
    }
    assert_eq!((owned.len(), shared.len()), (keys.len(), keys.len()));
    for key in &keys {
        assert_eq!((owned.get(key), shared.get(key)), (Some(key.repeat(2)), Some(key.repeat(2))));
        assert!(owned.remove(key) && shared.remove(key));
    }
    assert!(owned.is_empty() && shared.is_empty());
    Ok(())
}
