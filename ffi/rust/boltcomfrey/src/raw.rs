//! The proved calls as safe functions. All `unsafe` of this crate stands here, in `sys` and in
//! `memory`; `unshared` has two promises to the compiler.
use crate::error::{LoadError, Refusal};
use crate::memory::{copied, lengthen};
use crate::sys::{
    self, ABSENT, DIFFERENT, DONE, EXCLUDED, INCLUDED, LAST_NUMBER, MALFORMED, NOT_EMPTY,
    RartBytes, RartBytesEntry, RartEntry, RartTree, TOO_LONG, TOO_SMALL, TRUNCATED, UNBOUNDED,
    UNSUPPORTED, WRONG_SUM,
};
use std::cell::UnsafeCell;
use std::ops::Bound;
use std::panic::RefUnwindSafe;
use std::ptr::{eq, null_mut};

// How many bytes of room there are for a key at first, and for a key with its byte string.
const KEY_ROOM: usize = 32;
const PAIR_ROOM: usize = 64;

/// The order in which a page has its pairs.
#[derive(Clone, Copy)]
pub enum Order {
    Ascending,
    Descending,
}

impl Order {
    #[inline]
    pub fn reversed(self) -> Order {
        match self {
            Order::Ascending => Order::Descending,
            Order::Descending => Order::Ascending,
        }
    }
}

/// A tree as C holds it, and the calls that are the same whatever its values.
pub trait Handle: Sized {
    const EMPTY: Self;
    const NEW_AT: unsafe extern "C" fn(*mut Self, u64) -> u8;
    const LONGEST_KEY: unsafe extern "C" fn(*mut Self) -> usize;
    const SET_LONGEST_KEY: unsafe extern "C" fn(*mut Self, usize) -> u8;
    const VERSION: unsafe extern "C" fn(*mut Self) -> u64;
    const LEN: unsafe extern "C" fn(*mut Self) -> usize;
    const COMMON: unsafe extern "C" fn(*mut Self, *mut Self) -> usize;
    const EQUALS: unsafe extern "C" fn(*mut Self, *mut Self) -> u8;
    const SNAPSHOT: unsafe extern "C" fn(*mut Self, *mut Self) -> u8;
    const CLONE: unsafe extern "C" fn(*mut Self, *mut Self) -> u8;
    const REMOVE_PREFIX: unsafe extern "C" fn(*mut Self, *const u8, usize, *mut usize) -> u8;
    const PREFIX_SNAPSHOT: unsafe extern "C" fn(*mut Self, *const u8, usize, *mut Self) -> u8;
    const RESTORE_PREFIX: unsafe extern "C" fn(*mut Self, *const u8, usize, *mut Self) -> u8;
    const SAVED_LEN: unsafe extern "C" fn(*mut Self, *mut usize) -> u8;
    const SAVE: unsafe extern "C" fn(*mut Self, *mut u8, usize, *mut usize) -> u8;
    const LOAD: unsafe extern "C" fn(*mut Self, *const u8, usize, *mut usize) -> u8;
    const CLEAR: unsafe extern "C" fn(*mut Self);
}

impl Handle for RartTree {
    const EMPTY: RartTree = RartTree { at: null_mut() };
    const NEW_AT: unsafe extern "C" fn(*mut RartTree, u64) -> u8 = sys::rart_new_at;
    const LONGEST_KEY: unsafe extern "C" fn(*mut RartTree) -> usize = sys::rart_longest_key;
    const SET_LONGEST_KEY: unsafe extern "C" fn(*mut RartTree, usize) -> u8 =
        sys::rart_set_longest_key;
    const VERSION: unsafe extern "C" fn(*mut RartTree) -> u64 = sys::rart_version;
    const LEN: unsafe extern "C" fn(*mut RartTree) -> usize = sys::rart_len;
    const COMMON: unsafe extern "C" fn(*mut RartTree, *mut RartTree) -> usize = sys::rart_common;
    const EQUALS: unsafe extern "C" fn(*mut RartTree, *mut RartTree) -> u8 = sys::rart_equals;
    const SNAPSHOT: unsafe extern "C" fn(*mut RartTree, *mut RartTree) -> u8 = sys::rart_snapshot;
    const CLONE: unsafe extern "C" fn(*mut RartTree, *mut RartTree) -> u8 = sys::rart_clone;
    const REMOVE_PREFIX: unsafe extern "C" fn(*mut RartTree, *const u8, usize, *mut usize) -> u8 =
        sys::rart_remove_prefix;
    const PREFIX_SNAPSHOT: unsafe extern "C" fn(
        *mut RartTree,
        *const u8,
        usize,
        *mut RartTree,
    ) -> u8 = sys::rart_prefix_snapshot;
    const RESTORE_PREFIX: unsafe extern "C" fn(
        *mut RartTree,
        *const u8,
        usize,
        *mut RartTree,
    ) -> u8 = sys::rart_restore_prefix;
    const SAVED_LEN: unsafe extern "C" fn(*mut RartTree, *mut usize) -> u8 = sys::rart_saved_len;
    const SAVE: unsafe extern "C" fn(*mut RartTree, *mut u8, usize, *mut usize) -> u8 =
        sys::rart_save;
    const LOAD: unsafe extern "C" fn(*mut RartTree, *const u8, usize, *mut usize) -> u8 =
        sys::rart_load;
    const CLEAR: unsafe extern "C" fn(*mut RartTree) = sys::rart_clear;
}

impl Handle for RartBytes {
    const EMPTY: RartBytes = RartBytes { at: null_mut() };
    const NEW_AT: unsafe extern "C" fn(*mut RartBytes, u64) -> u8 = sys::rart_bytes_new_at;
    const LONGEST_KEY: unsafe extern "C" fn(*mut RartBytes) -> usize = sys::rart_bytes_longest_key;
    const SET_LONGEST_KEY: unsafe extern "C" fn(*mut RartBytes, usize) -> u8 =
        sys::rart_bytes_set_longest_key;
    const VERSION: unsafe extern "C" fn(*mut RartBytes) -> u64 = sys::rart_bytes_version;
    const LEN: unsafe extern "C" fn(*mut RartBytes) -> usize = sys::rart_bytes_len;
    const COMMON: unsafe extern "C" fn(*mut RartBytes, *mut RartBytes) -> usize =
        sys::rart_bytes_common;
    const EQUALS: unsafe extern "C" fn(*mut RartBytes, *mut RartBytes) -> u8 =
        sys::rart_bytes_equals;
    const SNAPSHOT: unsafe extern "C" fn(*mut RartBytes, *mut RartBytes) -> u8 =
        sys::rart_bytes_snapshot;
    const CLONE: unsafe extern "C" fn(*mut RartBytes, *mut RartBytes) -> u8 = sys::rart_bytes_clone;
    const REMOVE_PREFIX: unsafe extern "C" fn(*mut RartBytes, *const u8, usize, *mut usize) -> u8 =
        sys::rart_bytes_remove_prefix;
    const PREFIX_SNAPSHOT: unsafe extern "C" fn(
        *mut RartBytes,
        *const u8,
        usize,
        *mut RartBytes,
    ) -> u8 = sys::rart_bytes_prefix_snapshot;
    const RESTORE_PREFIX: unsafe extern "C" fn(
        *mut RartBytes,
        *const u8,
        usize,
        *mut RartBytes,
    ) -> u8 = sys::rart_bytes_restore_prefix;
    const SAVED_LEN: unsafe extern "C" fn(*mut RartBytes, *mut usize) -> u8 =
        sys::rart_bytes_saved_len;
    const SAVE: unsafe extern "C" fn(*mut RartBytes, *mut u8, usize, *mut usize) -> u8 =
        sys::rart_bytes_save;
    const LOAD: unsafe extern "C" fn(*mut RartBytes, *const u8, usize, *mut usize) -> u8 =
        sys::rart_bytes_load;
    const CLEAR: unsafe extern "C" fn(*mut RartBytes) = sys::rart_bytes_clear;
}

/// A tree of the library, and its owner.
///
/// The library takes a tree for writing even to read it, though a read stores nothing in the handle.
/// The cell keeps the type from being `Sync`, so that no two calls meet. The pointer keeps it from
/// being `Send`: trees share nodes, counted without atomics.
///
/// Its invariant: the handle is null or as a call left it, and is copied nowhere. Nothing is called
/// back, so while a call is on its way there is no other on it. (A slice's pointer is never null.)
pub struct Tree<H: Handle> {
    handle: UnsafeCell<H>,
}

// (a read calls nothing back, so none is left half done by a panic)
impl<H: Handle> RefUnwindSafe for Tree<H> {}

impl<H: Handle> Tree<H> {
    pub const fn new() -> Tree<H> {
        Tree {
            handle: UnsafeCell::new(H::EMPTY),
        }
    }

    pub fn with_number(number: u64) -> Result<Tree<H>, Refusal> {
        let tree = Tree::new();
        // SAFETY: the invariant.
        done(unsafe { H::NEW_AT(tree.handle.get(), number) })?;
        Ok(tree)
    }

    pub fn longest_key(&self) -> usize {
        // SAFETY: the invariant.
        unsafe { H::LONGEST_KEY(self.handle.get()) }
    }

    pub fn set_longest_key(&mut self, longest: usize) -> Result<(), Refusal> {
        // SAFETY: the invariant.
        done(unsafe { H::SET_LONGEST_KEY(self.handle.get(), longest) })
    }

    pub fn version(&self) -> u64 {
        // SAFETY: the invariant.
        unsafe { H::VERSION(self.handle.get()) }
    }

    pub fn len(&self) -> usize {
        // SAFETY: the invariant.
        unsafe { H::LEN(self.handle.get()) }
    }

    pub fn common_count(&self, other: &Tree<H>) -> usize {
        if eq(self, other) {
            return self.len(); // (two trees of one call may not be one)
        }
        // SAFETY: the invariant, and they are two.
        unsafe { H::COMMON(self.handle.get(), other.handle.get()) }
    }

    pub fn equals(&self, other: &Tree<H>) -> Result<bool, Refusal> {
        if eq(self, other) {
            return Ok(true); // (two trees of one call may not be one)
        }
        // SAFETY: the invariant, and they are two.
        match unsafe { H::EQUALS(self.handle.get(), other.handle.get()) } {
            DIFFERENT => Ok(false),
            answer => done(answer).map(|()| true),
        }
    }

    pub fn snapshot(&self) -> Result<Tree<H>, Refusal> {
        let copy = Tree::new();
        // SAFETY: the invariant, and the copy is another tree.
        done(unsafe { H::SNAPSHOT(self.handle.get(), copy.handle.get()) })?;
        Ok(copy)
    }

    pub fn remove_prefix(&mut self, prefix: &[u8]) -> Result<usize, Refusal> {
        let mut removed = 0;
        let (tree, at, len) = (self.handle.get(), prefix.as_ptr(), prefix.len());
        // SAFETY: the invariant; `removed` is this call's own.
        let answer = unsafe { H::REMOVE_PREFIX(tree, at, len, &mut removed) };
        Ok(found(answer, removed)?.unwrap_or(0))
    }

    pub fn prefix_snapshot(&self, prefix: &[u8]) -> Result<Tree<H>, Refusal> {
        let part = Tree::new();
        let (tree, at, len) = (self.handle.get(), prefix.as_ptr(), prefix.len());
        // SAFETY: the invariant, and the part is another tree.
        done(unsafe { H::PREFIX_SNAPSHOT(tree, at, len, part.handle.get()) })?;
        Ok(part)
    }

    pub fn restore_prefix(&mut self, prefix: &[u8], from: &Tree<H>) -> Result<(), Refusal> {
        let (tree, at, len) = (self.handle.get(), prefix.as_ptr(), prefix.len());
        // SAFETY: the invariant, and the other is another tree, since this one is borrowed to be
        // written.
        done(unsafe { H::RESTORE_PREFIX(tree, at, len, from.handle.get()) })
    }

    pub fn try_clone(&self) -> Result<Tree<H>, Refusal> {
        let copy = Tree::new();
        // SAFETY: the invariant, and the copy is another tree.
        done(unsafe { H::CLONE(self.handle.get(), copy.handle.get()) })?;
        Ok(copy)
    }

    /// How many bytes the map has as bytes.
    pub fn saved_len(&self) -> Result<usize, Refusal> {
        let mut len = 0;
        // SAFETY: the invariant; `len` is this call's own.
        done(unsafe { H::SAVED_LEN(self.handle.get(), &mut len) })?;
        Ok(len)
    }

    /// Writes the map as bytes to the front of these, if it fits there, and tells how many it has.
    pub fn save(&self, into: &mut [u8]) -> Result<usize, Refusal> {
        let (at, room, mut len) = (into.as_mut_ptr(), into.len(), 0);
        // SAFETY: the invariant; `len` is this call's own, and `into` is borrowed to be written.
        match unsafe { H::SAVE(self.handle.get(), at, room, &mut len) } {
            TOO_SMALL => Ok(len),
            answer => done(answer).map(|()| len),
        }
    }

    /// Makes the map the one whose bytes these are.
    pub fn load(&mut self, bytes: &[u8]) -> Result<(), LoadError> {
        let (from, len, mut at) = (bytes.as_ptr(), bytes.len(), 0);
        // SAFETY: the invariant; `at` is this call's own, and the bytes are only read.
        match unsafe { H::LOAD(self.handle.get(), from, len, &mut at) } {
            DONE => Ok(()),
            TRUNCATED => Err(LoadError::Truncated),
            UNSUPPORTED => Err(LoadError::Unsupported),
            MALFORMED => Err(LoadError::Malformed { at }),
            TOO_LONG => Err(LoadError::TooLong { at }),
            WRONG_SUM => Err(LoadError::WrongSum),
            _ => Err(LoadError::NoMemory),
        }
    }
}

impl<H: Handle> Drop for Tree<H> {
    fn drop(&mut self) {
        // SAFETY: the invariant.
        unsafe { H::CLEAR(self.handle.get()) }
    }
}

impl Tree<RartTree> {
    pub fn get(&self, key: &[u8]) -> Option<u64> {
        let mut value = 0;
        // SAFETY: the invariant; `value` is this call's own.
        let answer =
            unsafe { sys::rart_get(self.handle.get(), key.as_ptr(), key.len(), &mut value) };
        (answer == DONE).then_some(value)
    }

    pub fn longest_prefix(&self, probe: &[u8]) -> Option<(usize, u64)> {
        let (mut len, mut value) = (0, 0);
        let (at, room) = (probe.as_ptr(), probe.len());
        // SAFETY: the invariant; both numbers are this call's own.
        let answer =
            unsafe { sys::rart_longest(self.handle.get(), at, room, &mut len, &mut value) };
        (answer == DONE).then_some((len, value))
    }

    /// The first key that meets a bound, written to the front of `room`: its length, and its value.
    pub fn first(
        &self,
        low: Bound<&[u8]>,
        room: &mut Vec<u8>,
    ) -> Result<Option<(usize, u64)>, Refusal> {
        let (from, kind) = parts_of(low);
        let call = if kind == EXCLUDED {
            sys::rart_next
        } else {
            sys::rart_seek
        };
        let (mut len, mut value) = (KEY_ROOM, 0);
        loop {
            lengthen(room, len)?;
            let (tree, at, end) = (self.handle.get(), room.as_mut_ptr(), room.len());
            // SAFETY: the invariant; both numbers are this call's own, and `room` is borrowed to be
            // written.
            match unsafe {
                call(
                    tree,
                    from.as_ptr(),
                    from.len(),
                    at,
                    end,
                    &mut len,
                    &mut value,
                )
            } {
                DONE => return Ok(Some((len, value))),
                TOO_SMALL => (),
                _ => return Ok(None),
            }
        }
    }

    /// The last key that meets a bound, told as by `first`.
    pub fn last(
        &self,
        high: Bound<&[u8]>,
        room: &mut Vec<u8>,
    ) -> Result<Option<(usize, u64)>, Refusal> {
        let (to, kind) = parts_of(high);
        let (key, size, mut len, mut value) = (to.as_ptr(), to.len(), KEY_ROOM, 0);
        loop {
            lengthen(room, len)?;
            let (tree, at, end) = (self.handle.get(), room.as_mut_ptr(), room.len());
            // SAFETY: the invariant; both numbers are this call's own, and `room` is borrowed to be
            // written.
            match unsafe {
                match kind {
                    INCLUDED => sys::rart_seek_back(tree, key, size, at, end, &mut len, &mut value),
                    EXCLUDED => sys::rart_prev(tree, key, size, at, end, &mut len, &mut value),
                    _ => sys::rart_last(tree, at, end, &mut len, &mut value),
                }
            } {
                DONE => return Ok(Some((len, value))),
                TOO_SMALL => (),
                _ => return Ok(None),
            }
        }
    }

    pub fn insert(&mut self, key: &[u8], value: u64) -> Result<Option<u64>, Refusal> {
        let mut replaced = 0;
        let (at, len) = (key.as_ptr(), key.len());
        // SAFETY: the invariant; `replaced` is this call's own.
        let answer = unsafe { sys::rart_insert(self.handle.get(), at, len, value, &mut replaced) };
        found(answer, replaced)
    }

    /// Sets a key where it is not there, else gives the value that is.
    pub fn add(&mut self, key: &[u8], value: u64) -> Result<Option<u64>, Refusal> {
        let mut there = 0;
        let (at, len) = (key.as_ptr(), key.len());
        // SAFETY: the invariant; `there` is this call's own.
        let answer = unsafe { sys::rart_add(self.handle.get(), at, len, value, &mut there) };
        found(answer, there)
    }

    /// Sets a key where it is there, and gives the value before.
    pub fn replace(&mut self, key: &[u8], value: u64) -> Result<Option<u64>, Refusal> {
        let mut replaced = 0;
        let (at, len) = (key.as_ptr(), key.len());
        // SAFETY: the invariant; `replaced` is this call's own.
        let answer = unsafe { sys::rart_replace(self.handle.get(), at, len, value, &mut replaced) };
        found(answer, replaced)
    }

    pub fn remove(&mut self, key: &[u8]) -> Result<Option<u64>, Refusal> {
        let mut value = 0;
        // SAFETY: the invariant; `value` is this call's own.
        let answer =
            unsafe { sys::rart_remove(self.handle.get(), key.as_ptr(), key.len(), &mut value) };
        found(answer, value)
    }

    /// Writes the first pairs within two bounds in an order, as many as there are entries: their keys
    /// one behind the other to the front of `bytes`, which is made longer where it has to be.
    /// Answers how many they are: none where none is there.
    pub fn page(
        &self,
        order: Order,
        (low, high): (Bound<&[u8]>, Bound<&[u8]>),
        bytes: &mut Vec<u8>,
        entries: &mut [RartEntry],
    ) -> Result<usize, Refusal> {
        let (low, low_kind) = parts_of(low);
        let (high, high_kind) = parts_of(high);
        let call = match order {
            Order::Ascending => sys::rart_page,
            Order::Descending => sys::rart_page_back,
        };
        let (mut count, mut needed) = (0, entries.len() * KEY_ROOM);
        loop {
            lengthen(bytes, needed)?;
            let (from, to) = ((low.as_ptr(), low.len()), (high.as_ptr(), high.len()));
            let (at, end) = (bytes.as_mut_ptr(), bytes.len());
            // SAFETY: the invariant; both numbers are this call's own, and `bytes` and `entries`
            // are borrowed to be written, so no two overlap.
            let answer = unsafe {
                call(
                    self.handle.get(),
                    from.0,
                    from.1,
                    low_kind,
                    to.0,
                    to.1,
                    high_kind,
                    at,
                    end,
                    entries.as_mut_ptr(),
                    entries.len(),
                    &mut count,
                    &mut needed,
                )
            };
            if answer != TOO_SMALL {
                return Ok(count);
            }
        }
    }
}

impl Tree<RartBytes> {
    /// Reads a value out where it fits into these bytes, and tells its length.
    fn read(&self, key: &[u8], into: &mut [u8], len: &mut usize) -> u8 {
        let (at, room) = (into.as_mut_ptr(), into.len());
        // SAFETY: the invariant; `into` and `len` are borrowed to be written, so neither overlaps.
        unsafe { sys::rart_bytes_get(self.handle.get(), key.as_ptr(), key.len(), at, room, len) }
    }

    #[inline]
    pub fn get(&self, key: &[u8]) -> Result<Option<Vec<u8>>, Refusal> {
        read_out(|into, len| Ok(self.read(key, into, len)))
    }

    /// Reads a value into a vector, whose content it takes the place of. Without the key the vector
    /// stays.
    pub fn get_into(&self, key: &[u8], into: &mut Vec<u8>) -> Result<bool, Refusal> {
        let Some(mut len) = self.value_len(key) else {
            return Ok(false);
        };
        lengthen(into, len)?;
        into.truncate(len);
        self.read(key, into, &mut len);
        Ok(true)
    }

    pub fn value_len(&self, key: &[u8]) -> Option<usize> {
        let mut len = 0;
        (self.read(key, &mut [], &mut len) != ABSENT).then_some(len)
    }

    pub fn longest_prefix(&self, probe: &[u8]) -> Result<Option<(usize, Vec<u8>)>, Refusal> {
        let mut key_len = 0;
        let (at, room) = (probe.as_ptr(), probe.len());
        let value = read_out(|into, len| {
            let (start, size) = (into.as_mut_ptr(), into.len());
            let tree = self.handle.get();
            // SAFETY: the invariant; `key_len` is this call's own, and `into` and `len` are
            // borrowed to be written, so no two overlap.
            Ok(unsafe { sys::rart_bytes_longest(tree, at, room, &mut key_len, start, size, len) })
        })?;
        Ok(value.map(|it| (key_len, it)))
    }

    /// The first key that meets a bound, written to the front of `room`: its length, and its value.
    pub fn first(
        &self,
        low: Bound<&[u8]>,
        room: &mut Vec<u8>,
    ) -> Result<Option<(usize, Vec<u8>)>, Refusal> {
        let (from, kind) = parts_of(low);
        let call = if kind == EXCLUDED {
            sys::rart_bytes_next
        } else {
            sys::rart_bytes_seek
        };
        lengthen(room, KEY_ROOM)?;
        let (tree, key, mut key_len) = (self.handle.get(), (from.as_ptr(), from.len()), 0);
        let value = read_out(|into, len| {
            let (at, end) = (room.as_mut_ptr(), room.len());
            let (start, size) = (into.as_mut_ptr(), into.len());
            // SAFETY: the invariant; `key_len` is this call's own, and `room`, `into` and `len` are
            // borrowed to be written, so no two overlap.
            let answer =
                unsafe { call(tree, key.0, key.1, at, end, &mut key_len, start, size, len) };
            lengthen(room, key_len)?; // (it fits when the call is made once more)
            Ok(answer)
        })?;
        Ok(value.map(|it| (key_len, it)))
    }

    /// Writes the first pairs within two bounds in an order, as many as there are entries: each value
    /// behind its key, to the front of `bytes`, which is made longer where it has to be. Answers how
    /// many they are: none where none is there.
    pub fn page(
        &self,
        order: Order,
        (low, high): (Bound<&[u8]>, Bound<&[u8]>),
        bytes: &mut Vec<u8>,
        entries: &mut [RartBytesEntry],
    ) -> Result<usize, Refusal> {
        let (low, low_kind) = parts_of(low);
        let (high, high_kind) = parts_of(high);
        let call = match order {
            Order::Ascending => sys::rart_bytes_page,
            Order::Descending => sys::rart_bytes_page_back,
        };
        let (mut count, mut key_len, mut len) = (0, entries.len() * PAIR_ROOM, 0);
        loop {
            lengthen(bytes, key_len + len)?;
            let (from, to) = ((low.as_ptr(), low.len()), (high.as_ptr(), high.len()));
            let (at, end) = (bytes.as_mut_ptr(), bytes.len());
            // SAFETY: the invariant; the numbers are this call's own, and `bytes` and `entries` are
            // borrowed to be written, so no two overlap.
            let answer = unsafe {
                call(
                    self.handle.get(),
                    from.0,
                    from.1,
                    low_kind,
                    to.0,
                    to.1,
                    high_kind,
                    at,
                    end,
                    entries.as_mut_ptr(),
                    entries.len(),
                    &mut count,
                    &mut key_len,
                    &mut len,
                )
            };
            if answer != TOO_SMALL {
                return Ok(count);
            }
        }
    }

    /// The last key that meets a bound, told as by `first`.
    pub fn last(
        &self,
        high: Bound<&[u8]>,
        room: &mut Vec<u8>,
    ) -> Result<Option<(usize, Vec<u8>)>, Refusal> {
        let (to, kind) = parts_of(high);
        lengthen(room, KEY_ROOM)?;
        let (tree, key, limit, mut key_len) = (self.handle.get(), to.as_ptr(), to.len(), 0);
        let value = read_out(|into, len| {
            let (at, end, key_len) = (room.as_mut_ptr(), room.len(), &mut key_len);
            let (start, size) = (into.as_mut_ptr(), into.len());
            // SAFETY: the invariant; `key_len` is this call's own, and `room`, `into` and `len` are
            // borrowed to be written, so no two overlap.
            let answer = unsafe {
                match kind {
                    INCLUDED => sys::rart_bytes_seek_back(
                        tree, key, limit, at, end, key_len, start, size, len,
                    ),
                    EXCLUDED => {
                        sys::rart_bytes_prev(tree, key, limit, at, end, key_len, start, size, len)
                    }
                    _ => sys::rart_bytes_last(tree, at, end, key_len, start, size, len),
                }
            };
            lengthen(room, *key_len)?; // (it fits when the call is made once more)
            Ok(answer)
        })?;
        Ok(value.map(|it| (key_len, it)))
    }

    pub fn insert(&mut self, key: &[u8], value: &[u8]) -> Result<bool, Refusal> {
        let (at, len) = (key.as_ptr(), key.len());
        let (start, size) = (value.as_ptr(), value.len());
        // SAFETY: the invariant; the key and the value are only read.
        let answer = unsafe { sys::rart_bytes_insert(self.handle.get(), at, len, start, size) };
        Ok(found(answer, ())?.is_some())
    }

    /// Sets a key where it is not there, and tells whether it was.
    pub fn add(&mut self, key: &[u8], value: &[u8]) -> Result<bool, Refusal> {
        let (at, len) = (key.as_ptr(), key.len());
        let (start, size) = (value.as_ptr(), value.len());
        // SAFETY: the invariant; the key and the value are only read.
        let answer = unsafe { sys::rart_bytes_add(self.handle.get(), at, len, start, size) };
        Ok(found(answer, ())?.is_some())
    }

    /// Sets a key where it is there, and tells whether it was.
    pub fn replace(&mut self, key: &[u8], value: &[u8]) -> Result<bool, Refusal> {
        let (at, len) = (key.as_ptr(), key.len());
        let (start, size) = (value.as_ptr(), value.len());
        // SAFETY: the invariant; the key and the value are only read.
        let answer = unsafe { sys::rart_bytes_replace(self.handle.get(), at, len, start, size) };
        Ok(found(answer, ())?.is_some())
    }

    pub fn remove(&mut self, key: &[u8]) -> Result<bool, Refusal> {
        // SAFETY: the invariant.
        let answer = unsafe { sys::rart_bytes_remove(self.handle.get(), key.as_ptr(), key.len()) };
        Ok(found(answer, ())?.is_some())
    }
}

/// The key of a bound, and of what kind it is.
fn parts_of(bound: Bound<&[u8]>) -> (&[u8], u8) {
    match bound {
        Bound::Included(key) => (key, INCLUDED),
        Bound::Excluded(key) => (key, EXCLUDED),
        Bound::Unbounded => (&[], UNBOUNDED),
    }
}

/// The value that a call writes out. It is made once more where the value, or its key, has no room.
#[inline]
fn read_out(
    mut call: impl FnMut(&mut [u8], &mut usize) -> Result<u8, Refusal>,
) -> Result<Option<Vec<u8>>, Refusal> {
    let (mut short, mut len) = ([0; 128], 0);
    match call(&mut short, &mut len)? {
        DONE => copied(&short[..len]).map(Some),
        TOO_SMALL => {
            let mut value = Vec::new();
            lengthen(&mut value, len)?;
            call(&mut value, &mut len)?;
            Ok(Some(value))
        }
        _ => Ok(None),
    }
}

/// What the answer of a change says.
fn found<V>(answer: u8, value: V) -> Result<Option<V>, Refusal> {
    match answer {
        ABSENT => Ok(None),
        _ => done(answer).map(|()| Some(value)),
    }
}

fn done(answer: u8) -> Result<(), Refusal> {
    match answer {
        DONE => Ok(()),
        LAST_NUMBER => Err(Refusal::LastNumber),
        TOO_LONG => Err(Refusal::TooLong),
        NOT_EMPTY => Err(Refusal::NotEmpty),
        _ => Err(Refusal::NoMemory),
    }
}
