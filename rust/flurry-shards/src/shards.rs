//! Many maps, each behind a lock on a cache line of its own.

use crate::OutOfMemory;
use std::collections::hash_map::RandomState;
use std::hash::{BuildHasher, Hash};
use std::sync::{Mutex, MutexGuard, PoisonError};

// Two lines of 64 bytes, since processors fetch them in pairs.
#[repr(align(128))]
struct Shard<M>(Mutex<M>);

pub struct Shards<M> {
    shards: Vec<Shard<M>>,
    hasher: RandomState,
}

impl<M> Shards<M> {
    /// As many as `count`, rounded up to a power of two.
    pub fn new(count: usize, new: fn() -> Result<M, OutOfMemory>) -> Result<Self, OutOfMemory> {
        let count = count.max(1).checked_next_power_of_two().ok_or(OutOfMemory)?;
        let mut shards = Vec::new();
        shards.try_reserve_exact(count).map_err(|_| OutOfMemory)?;
        for _ in 0..count {
            shards.push(Shard(Mutex::new(new()?)));
        }
        Ok(Shards { shards, hasher: RandomState::new() })
    }

    /// The map that has this key, alone until the guard is dropped.
    pub fn of<K: Hash + ?Sized>(&self, key: &K) -> MutexGuard<'_, M> {
        let index = self.hasher.hash_one(key) as usize & (self.shards.len() - 1);
        lock(&self.shards[index])
    }

    /// Each map, one after the other.
    pub fn each(&self) -> impl Iterator<Item = MutexGuard<'_, M>> {
        self.shards.iter().map(lock)
    }
}

// A thread that panicked under the lock did so between two calls of the map, so the map is one.
fn lock<M>(shard: &Shard<M>) -> MutexGuard<'_, M> {
    shard.0.lock().unwrap_or_else(PoisonError::into_inner)
}
