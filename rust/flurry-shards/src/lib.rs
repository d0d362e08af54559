//! Hash maps whose calls are proved to do what a finite map does.
//!
//! [`numbers`] maps `u64` to `u64`, and [`bytes`] maps bytes to bytes. In each, `OwnedMap` has one owner: its calls are those of
//! `libflurry.a`, which is proved. `SharedMap` is for threads: it is made of many owned maps, each behind a lock of `std`.
//!
//! No call ends the process where memory cannot be allocated for the map: it returns [`OutOfMemory`], and no pair changes. An insertion
//! does without a larger table. A function of yours that panics in a call leaves the map usable.
//!
//! ```
//! use flurry_shards::numbers::SharedMap;
//!
//! let visits = SharedMap::new(16)?;
//! std::thread::scope(|scope| {
//!     for _ in 0..4 {
//!         scope.spawn(|| visits.update(7, |old| old.unwrap_or(0) + 1));
//!     }
//! });
//! assert_eq!(visits.get(7), Some(4));
//! # Ok::<(), flurry_shards::OutOfMemory>(())
//! ```

#![deny(unsafe_code)]

pub mod bytes;
#[allow(unsafe_code)]
mod library;
pub mod numbers;
mod shards;

use std::{error, fmt};

/// Memory could not be allocated, or the map has as many pairs as it can. The pairs of the map are those that it had before the call.
#[derive(Clone, Copy, Debug, PartialEq, Eq)]
pub struct OutOfMemory;

impl fmt::Display for OutOfMemory {
    fn fmt(&self, f: &mut fmt::Formatter<'_>) -> fmt::Result {
        f.write_str("out of memory")
    }
}

impl error::Error for OutOfMemory {}
