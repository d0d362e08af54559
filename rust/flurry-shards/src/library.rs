//! The functions of libflurry.a for maps, as `include/flurry.h` declares them, and the maps behind them. All `unsafe` of this crate is
//! here.

use crate::OutOfMemory;
use std::ffi::c_void;
use std::ptr;

const PRESENT: u8 = 1;
const NO_MEMORY: u8 = 3;

/// A map: its address, which its `new` gave, and nobody else has. Therefore a `&mut` to it is what each function asks for.
#[repr(C)]
struct Handle {
    at: *mut c_void,
}

#[repr(C)]
#[derive(Clone, Copy, Default)]
struct Pair {
    first: u64,
    second: u64,
}

// SAFETY: these are the functions of include/flurry.h. The `safe` ones ask for no more than their types say, since a `Handle` is a map that
// was made, by `Words` or by `Bytes` below, and each of them is passed to the functions of its kind alone; and since a `&mut` is not null
// and overlaps nothing else.
unsafe extern "C" {
    safe fn flurry_words_new(at: &mut *mut c_void) -> u8;
    safe fn flurry_words_len(words: &mut Handle) -> usize;
    safe fn flurry_words_contains(words: &mut Handle, key: u64) -> bool;
    safe fn flurry_words_get(words: &mut Handle, key: u64, value: &mut u64) -> u8;
    safe fn flurry_words_insert(words: &mut Handle, key: u64, value: u64, old: &mut u64) -> u8;
    safe fn flurry_words_try_insert(words: &mut Handle, key: u64, value: u64, current: &mut u64) -> u8;
    safe fn flurry_words_remove(words: &mut Handle, key: u64, old: &mut u64) -> u8;
    safe fn flurry_words_clear(words: &mut Handle);
    safe fn flurry_words_reserve(words: &mut Handle, additional: usize) -> u8;
    fn flurry_words_free(words: &mut Handle);
    fn flurry_words_pairs(words: &mut Handle, pairs: *mut Pair, len: usize) -> u8;

    safe fn flurry_bytes_new(at: &mut *mut c_void) -> u8;
    safe fn flurry_bytes_len(bytes: &mut Handle) -> usize;
    safe fn flurry_bytes_clear(bytes: &mut Handle);
    safe fn flurry_bytes_reserve(bytes: &mut Handle, additional: usize) -> u8;
    safe fn flurry_bytes_size(bytes: &mut Handle) -> usize;
    fn flurry_bytes_free(bytes: &mut Handle);
    fn flurry_bytes_contains(bytes: &mut Handle, key: *const u8, key_len: usize) -> bool;
    fn flurry_bytes_get(bytes: &mut Handle, key: *const u8, key_len: usize, value: *mut u8, room: usize, len: &mut usize) -> u8;
    fn flurry_bytes_insert(bytes: &mut Handle, key: *const u8, key_len: usize, value: *const u8, value_len: usize) -> u8;
    fn flurry_bytes_try_insert(bytes: &mut Handle, key: *const u8, key_len: usize, value: *const u8, value_len: usize) -> u8;
    fn flurry_bytes_remove(bytes: &mut Handle, key: *const u8, key_len: usize) -> u8;
    fn flurry_bytes_pairs(bytes: &mut Handle, pairs: *mut Pair, len: usize, text: *mut u8, room: usize) -> u8;
}

/// What `insert` and the like say of a key.
fn told(status: u8) -> Result<bool, OutOfMemory> {
    match status {
        NO_MEMORY => Err(OutOfMemory),
        status => Ok(status == PRESENT),
    }
}

fn done(status: u8) -> Result<(), OutOfMemory> {
    told(status).map(|_| ())
}

/// A map of numbers.
pub struct Words(Handle);

// SAFETY: that another thread may have the map is proved of its type; a `Words` is its only owner, and all its calls take `&mut`. So one
// call happens before the next, in whatever thread. The header names what may order them; README says why any order of Rust's will do.
unsafe impl Send for Words {}

impl Words {
    pub fn new() -> Result<Self, OutOfMemory> {
        let mut at = ptr::null_mut();
        done(flurry_words_new(&mut at))?;
        Ok(Words(Handle { at }))
    }

    pub fn len(&mut self) -> usize {
        flurry_words_len(&mut self.0)
    }

    pub fn contains(&mut self, key: u64) -> bool {
        flurry_words_contains(&mut self.0, key)
    }

    pub fn get(&mut self, key: u64) -> Option<u64> {
        let mut value = 0;
        (flurry_words_get(&mut self.0, key, &mut value) == PRESENT).then_some(value)
    }

    pub fn insert(&mut self, key: u64, value: u64) -> Result<Option<u64>, OutOfMemory> {
        let mut old = 0;
        let present = told(flurry_words_insert(&mut self.0, key, value, &mut old))?;
        Ok(present.then_some(old))
    }

    pub fn try_insert(&mut self, key: u64, value: u64) -> Result<Option<u64>, OutOfMemory> {
        let mut current = 0;
        let present = told(flurry_words_try_insert(&mut self.0, key, value, &mut current))?;
        Ok(present.then_some(current))
    }

    pub fn remove(&mut self, key: u64) -> Option<u64> {
        let mut old = 0;
        (flurry_words_remove(&mut self.0, key, &mut old) == PRESENT).then_some(old)
    }

    pub fn clear(&mut self) {
        flurry_words_clear(&mut self.0);
    }

    pub fn reserve(&mut self, additional: usize) -> Result<(), OutOfMemory> {
        done(flurry_words_reserve(&mut self.0, additional))
    }

    pub fn pairs(&mut self) -> Vec<(u64, u64)> {
        let mut pairs = vec![Pair::default(); self.len()];
        // SAFETY: it writes at most `pairs.len()` pairs of two `u64`, and `pairs` is borrowed by `&mut` for the call.
        unsafe { flurry_words_pairs(&mut self.0, pairs.as_mut_ptr(), pairs.len()) };
        pairs.into_iter().map(|pair| (pair.first, pair.second)).collect()
    }
}

impl Drop for Words {
    fn drop(&mut self) {
        // SAFETY: the owner of the map ends here, so nothing is done with it afterwards.
        unsafe { flurry_words_free(&mut self.0) }
    }
}

/// A map of bytes.
pub struct Bytes(Handle);

// SAFETY: as for `Words`.
unsafe impl Send for Bytes {}

// In each call below a slice is passed as its pointer, which is not null, and its length, and is borrowed for the call. What is written is
// borrowed by `&mut`, and so overlaps nothing else. What is only read may overlap.
impl Bytes {
    pub fn new() -> Result<Self, OutOfMemory> {
        let mut at = ptr::null_mut();
        done(flurry_bytes_new(&mut at))?;
        Ok(Bytes(Handle { at }))
    }

    pub fn len(&mut self) -> usize {
        flurry_bytes_len(&mut self.0)
    }

    pub fn contains(&mut self, key: &[u8]) -> bool {
        // SAFETY: the key is read within its slice.
        unsafe { flurry_bytes_contains(&mut self.0, key.as_ptr(), key.len()) }
    }

    /// The length of the whole value, of which as much is copied as `value` has room for.
    pub fn get(&mut self, key: &[u8], value: &mut [u8]) -> Option<usize> {
        let mut len = 0;
        // SAFETY: the key is read and the value written within its slice.
        let status = unsafe { flurry_bytes_get(&mut self.0, key.as_ptr(), key.len(), value.as_mut_ptr(), value.len(), &mut len) };
        (status == PRESENT).then_some(len)
    }

    pub fn insert(&mut self, key: &[u8], value: &[u8]) -> Result<bool, OutOfMemory> {
        // SAFETY: key and value are read within their slices.
        told(unsafe { flurry_bytes_insert(&mut self.0, key.as_ptr(), key.len(), value.as_ptr(), value.len()) })
    }

    pub fn try_insert(&mut self, key: &[u8], value: &[u8]) -> Result<bool, OutOfMemory> {
        // SAFETY: as for `insert`.
        told(unsafe { flurry_bytes_try_insert(&mut self.0, key.as_ptr(), key.len(), value.as_ptr(), value.len()) })
    }

    pub fn remove(&mut self, key: &[u8]) -> bool {
        // SAFETY: the key is read within its slice.
        unsafe { flurry_bytes_remove(&mut self.0, key.as_ptr(), key.len()) == PRESENT }
    }

    pub fn clear(&mut self) {
        flurry_bytes_clear(&mut self.0);
    }

    pub fn reserve(&mut self, additional: usize) -> Result<(), OutOfMemory> {
        done(flurry_bytes_reserve(&mut self.0, additional))
    }

    /// The lengths of the keys and values, and their bytes, one after the other.
    pub fn pairs(&mut self) -> (Vec<(usize, usize)>, Vec<u8>) {
        let mut pairs = vec![Pair::default(); self.len()];
        let mut text = vec![0; flurry_bytes_size(&mut self.0)];
        // SAFETY: it writes at most `pairs.len()` pairs of two lengths, which are `u64` here, and `text.len()` bytes. They do not overlap.
        unsafe { flurry_bytes_pairs(&mut self.0, pairs.as_mut_ptr(), pairs.len(), text.as_mut_ptr(), text.len()) };
        (pairs.into_iter().map(|pair| (pair.first as usize, pair.second as usize)).collect(), text)
    }
}

impl Drop for Bytes {
    fn drop(&mut self) {
        // SAFETY: as for `Words`.
        unsafe { flurry_bytes_free(&mut self.0) }
    }
}
