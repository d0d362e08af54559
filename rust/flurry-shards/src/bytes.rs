//! Maps from bytes to bytes. Keys and values are copied into the map, and values out of it.

use crate::library::Bytes;
use crate::shards::Shards;
use crate::OutOfMemory;

/// A map of one owner. Each call does what it says to a finite map: that is proved.
///
/// ```
/// use flurry_shards::bytes::OwnedMap;
///
/// let mut map = OwnedMap::new()?;
/// assert!(!map.insert(b"key", b"value")?);
/// assert_eq!(map.get(b"key").as_deref(), Some(&b"value"[..]));
/// assert!(map.remove(b"key"));
/// assert_eq!(map.get(b"key"), None);
/// # Ok::<(), flurry_shards::OutOfMemory>(())
/// ```
pub struct OwnedMap(Bytes);

impl OwnedMap {
    /// Creates an empty map.
    ///
    /// # Errors
    ///
    /// Returns [`OutOfMemory`] if memory cannot be allocated.
    pub fn new() -> Result<Self, OutOfMemory> {
        Bytes::new().map(OwnedMap)
    }

    /// Returns the number of pairs.
    pub fn len(&mut self) -> usize {
        self.0.len()
    }

    /// Returns `true` if there are no pairs.
    pub fn is_empty(&mut self) -> bool {
        self.len() == 0
    }

    /// Returns `true` if the key is present.
    pub fn contains(&mut self, key: &[u8]) -> bool {
        self.0.contains(key)
    }

    /// Returns a copy of the value of the key, or `None` if the key is absent.
    pub fn get(&mut self, key: &[u8]) -> Option<Vec<u8>> {
        let mut value = vec![0; 64];
        let len = self.0.get(key, &mut value)?;
        if len > value.len() {
            value = vec![0; len];
            self.0.get(key, &mut value)?;
        }
        value.truncate(len);
        Some(value)
    }

    /// Inserts a pair, and returns `true` if the key was present, so that its value is replaced.
    ///
    /// # Errors
    ///
    /// Returns [`OutOfMemory`] if memory cannot be allocated. The map is unchanged.
    pub fn insert(&mut self, key: &[u8], value: &[u8]) -> Result<bool, OutOfMemory> {
        self.0.insert(key, value)
    }

    /// Inserts a pair if the key is absent, and returns `false`. If the key is present, returns `true`, and nothing changes.
    ///
    /// # Errors
    ///
    /// Returns [`OutOfMemory`] if memory cannot be allocated. The map is unchanged.
    pub fn try_insert(&mut self, key: &[u8], value: &[u8]) -> Result<bool, OutOfMemory> {
        self.0.try_insert(key, value)
    }

    /// Removes the pair of the key, and returns `true` if the key was present.
    pub fn remove(&mut self, key: &[u8]) -> bool {
        self.0.remove(key)
    }

    /// Sets the value of the key to what `f` returns for a copy of the present one, and returns it. If `f` panics, the map is unchanged and
    /// usable.
    ///
    /// # Errors
    ///
    /// Returns [`OutOfMemory`] if memory for the pair cannot be allocated, once `f` has run. The map is unchanged.
    pub fn update(&mut self, key: &[u8], f: impl FnOnce(Option<Vec<u8>>) -> Vec<u8>) -> Result<Vec<u8>, OutOfMemory> {
        let value = f(self.get(key));
        self.insert(key, &value)?;
        Ok(value)
    }

    /// Removes all pairs.
    pub fn clear(&mut self) {
        self.0.clear();
    }

    /// Makes room in the table for `additional` more pairs. A table has at most 2^30 bins, whatever is asked for.
    ///
    /// # Errors
    ///
    /// Returns [`OutOfMemory`] if memory for that table cannot be allocated. The map is unchanged.
    pub fn reserve(&mut self, additional: usize) -> Result<(), OutOfMemory> {
        self.0.reserve(additional)
    }

    /// Calls `f` for each pair once, in any order. The pairs are copied first.
    pub fn for_each(&mut self, f: impl FnMut(&[u8], &[u8])) {
        each_of(self.0.pairs(), f);
    }
}

// Calls `f` for each pair, whose bytes follow each other in `text`.
fn each_of((lengths, text): (Vec<(usize, usize)>, Vec<u8>), mut f: impl FnMut(&[u8], &[u8])) {
    let mut rest = &text[..];
    for (key_len, value_len) in lengths {
        let (key, behind) = rest.split_at(key_len);
        let (value, behind) = behind.split_at(value_len);
        f(key, value);
        rest = behind;
    }
}

/// A map that threads share: owned maps behind locks, by a hash of the key.
///
/// A call of one key holds one lock while it runs, and so is atomic. [`len`](SharedMap::len), [`clear`](SharedMap::clear) and
/// [`for_each`](SharedMap::for_each) go from lock to lock.
///
/// A function that is passed to [`update`](SharedMap::update) runs under the lock of its key: it may not call the same map. If it panics,
/// the lock is released and not poisoned: the key has the value that it had, and all calls go on as before.
///
/// ```
/// use flurry_shards::bytes::SharedMap;
///
/// let map = SharedMap::new(16)?;
/// std::thread::scope(|scope| {
///     for thread in 0..4u8 {
///         let map = &map;
///         scope.spawn(move || map.insert(&[thread], b"here"));
///     }
/// });
/// assert_eq!(map.len(), 4);
/// # Ok::<(), flurry_shards::OutOfMemory>(())
/// ```
pub struct SharedMap(Shards<OwnedMap>);

impl SharedMap {
    /// Creates an empty map behind as many locks as `shards`, rounded up to a power of two.
    ///
    /// # Errors
    ///
    /// Returns [`OutOfMemory`] if memory for the locks or for the maps cannot be allocated.
    pub fn new(shards: usize) -> Result<Self, OutOfMemory> {
        Shards::new(shards, OwnedMap::new).map(SharedMap)
    }

    /// Returns the number of pairs, counted lock by lock.
    pub fn len(&self) -> usize {
        self.0.each().map(|mut map| map.len()).sum()
    }

    /// Returns `true` if no pair is found, lock by lock.
    pub fn is_empty(&self) -> bool {
        self.0.each().all(|mut map| map.is_empty())
    }

    /// As [`OwnedMap::contains`].
    pub fn contains(&self, key: &[u8]) -> bool {
        self.0.of(key).contains(key)
    }

    /// As [`OwnedMap::get`].
    pub fn get(&self, key: &[u8]) -> Option<Vec<u8>> {
        self.0.of(key).get(key)
    }

    /// As [`OwnedMap::insert`].
    pub fn insert(&self, key: &[u8], value: &[u8]) -> Result<bool, OutOfMemory> {
        self.0.of(key).insert(key, value)
    }

    /// As [`OwnedMap::try_insert`].
    pub fn try_insert(&self, key: &[u8], value: &[u8]) -> Result<bool, OutOfMemory> {
        self.0.of(key).try_insert(key, value)
    }

    /// As [`OwnedMap::remove`].
    pub fn remove(&self, key: &[u8]) -> bool {
        self.0.of(key).remove(key)
    }

    /// As [`OwnedMap::update`]; no other call of the key comes between. If `f` panics, the lock is not poisoned.
    pub fn update(&self, key: &[u8], f: impl FnOnce(Option<Vec<u8>>) -> Vec<u8>) -> Result<Vec<u8>, OutOfMemory> {
        self.0.of(key).update(key, f)
    }

    /// Removes the pairs behind each lock, one lock after the other.
    pub fn clear(&self) {
        self.0.each().for_each(|mut map| map.clear());
    }

    /// Calls `f` once for each pair that is behind a lock when that lock is taken. No lock is held while `f` runs.
    pub fn for_each(&self, mut f: impl FnMut(&[u8], &[u8])) {
        for pairs in self.0.each().map(|mut map| map.0.pairs()) {
            each_of(pairs, &mut f);
        }
    }
}
