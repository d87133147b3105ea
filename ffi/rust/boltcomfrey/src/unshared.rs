//! A map that shares nothing, for programs with threads.
use crate::cursor::{Cursor, CursorMut};
use crate::entry::{Entry, InsertError, OccupiedEntry};
use crate::error::{LoadError, Refusal, unrefused};
use crate::extract::ExtractIf;
use crate::iter::{Iter, Keys, Range, Values};
use crate::key_range::KeyRange;
use crate::map::Map;
use crate::value::{Calls, Given, Value};
use std::fmt;
use std::ops::Bound;

/// A map of which nothing outside shares a node: it can go to another thread, and several threads
/// can read it.
///
/// A [`Map`] stays on one thread, since its snapshots share nodes with it, and count without atomics
/// who shares them. Of this one no snapshot can be taken, and none is put in. Its calls are those of
/// [`Map`] that share nothing; [`Unshared::into_map`] gives the map itself, for snapshots on the
/// thread that has it then, and [`Map::unshare`] copies one out.
///
/// What is taken on trust for it stands in the project's `docs/TRUST.md`, "Trusted": that a read
/// stores nothing in what threads share.
///
/// ```
/// # use boltcomfrey::Unshared;
/// use std::sync::Mutex;
/// static PRICES: Mutex<Unshared<u64>> = Mutex::new(Unshared::new());
///
/// std::thread::scope(|threads| {
///     threads.spawn(|| PRICES.lock().unwrap().insert("tea", 300));
///     threads.spawn(|| PRICES.lock().unwrap().insert("milk", 100));
/// });
/// assert_eq!(PRICES.lock().unwrap().len(), 2);
/// ```
///
/// Many threads read one map, with no lock. A new version is made beside it and put in its place.
/// (`unshare` copies all nodes; `examples/published.rs` publishes with no copy.)
///
/// ```
/// # use boltcomfrey::{Refusal, Unshared, VersionedMap};
/// use std::sync::Arc;
/// let mut routes = VersionedMap::from([([10, 0].to_vec(), 1), ([10, 0, 7].to_vec(), 2)]);
/// let read = Arc::new(routes.unshare()?);
/// let reader = std::thread::spawn({
///     let read = Arc::clone(&read);
///     move || read.longest_prefix([10, 0, 3, 9])
/// });
/// routes.insert([10, 0, 3], 3)?;
/// assert_eq!(reader.join().unwrap(), Some((2, 1)));
/// # Ok::<(), Refusal>(())
/// ```
///
/// No method gives out the map that is inside while it is shared:
///
/// ```compile_fail
/// let prices: boltcomfrey::Unshared<u64> = boltcomfrey::Unshared::new();
/// let copy = prices.snapshot();
/// ```
///
/// ```compile_fail
/// let prices: boltcomfrey::Unshared<u64> = boltcomfrey::Unshared::new();
/// std::thread::scope(|threads| {
///     threads.spawn(|| prices.iter());
///     let moved = prices.into_map();
/// });
/// ```
pub struct Unshared<V: Value> {
    map: Map<V>,
}

// SAFETY: each node of the map is its own. `new`, `with_longest_key`, `from_bytes` and
// `Map::unshare` make all nodes anew; no method takes a map in or gives one out but `into_map`, which
// ends this one. So no thread but the one that has it reaches a count of its nodes. The library has
// no state of a thread, and its memory is of C's `malloc`, which any thread may free.
#[allow(unsafe_code)]
unsafe impl<V: Value> Send for Unshared<V> {}

// SAFETY: through `&Unshared` there are reads alone, and a read stores nothing in the handle, in a
// node, or in a count: the archive's reads are tried on memory that can't be written, and by four
// threads at once under helgrind (`ffi/c/reads.c`, `ffi/c/threads.c`).
#[allow(unsafe_code)]
unsafe impl<V: Value> Sync for Unshared<V> {}

/// Methods that hand on to those of the map.
macro_rules! of_the_map {
    ($($(#[$attribute:meta])* $name:ident($($argument:ident: $type:ty),*) -> $answer:ty;)*) => {
        $(
            #[doc = concat!("As [`Map::", stringify!($name), "`].")]
            $(#[$attribute])*
            pub fn $name(&self $(, $argument: $type)*) -> $answer {
                self.map.$name($($argument),*)
            }
        )*
    };
}

macro_rules! changes_of_the_map {
    ($($name:ident($($argument:ident: $type:ty),*) -> $answer:ty;)*) => {
        $(
            #[doc = concat!("As [`Map::", stringify!($name), "`].")]
            pub fn $name(&mut self $(, $argument: $type)*) -> $answer {
                self.map.$name($($argument),*)
            }
        )*
    };
}

impl<V: Value> Unshared<V> {
    /// A map without a key, its number 0. It takes no memory.
    #[must_use]
    pub const fn new() -> Unshared<V> {
        Unshared { map: Map::new() }
    }

    /// As [`Map::with_longest_key`].
    pub fn with_longest_key(bytes: usize) -> Result<Unshared<V>, Refusal> {
        let map = Map::with_longest_key(bytes)?;
        Ok(Unshared { map })
    }

    /// As [`Map::from_bytes`].
    pub fn from_bytes(bytes: &[u8]) -> Result<Unshared<V>, LoadError> {
        let map = Map::from_bytes(bytes)?;
        Ok(Unshared { map })
    }

    /// The map itself, which shares nodes with its snapshots from now on, and stays on this thread.
    ///
    /// ```
    /// # use boltcomfrey::{Refusal, Unshared};
    /// let mut prices: Unshared<u64> = Unshared::new();
    /// prices.insert("tea", 300)?;
    /// let mut prices = prices.into_map();
    /// let yesterday = prices.snapshot()?;
    /// prices.insert("tea", 350)?;
    /// assert_eq!(yesterday.get("tea"), Some(300));
    /// # Ok::<(), Refusal>(())
    /// ```
    pub fn into_map(self) -> Map<V> {
        self.map
    }

    of_the_map! {
        #[must_use] version() -> u64;
        #[must_use] len() -> usize;
        #[must_use] is_empty() -> bool;
        #[must_use] longest_key() -> usize;
        #[must_use] get(key: impl AsRef<[u8]>) -> Option<V>;
        try_get(key: impl AsRef<[u8]>) -> Result<Option<V>, Refusal>;
        #[must_use] get_key_value(key: impl AsRef<[u8]>) -> Option<(Vec<u8>, V)>;
        #[must_use] contains_key(key: impl AsRef<[u8]>) -> bool;
        #[must_use] longest_prefix(probe: impl AsRef<[u8]>) -> Option<(usize, V)>;
        try_longest_prefix(probe: impl AsRef<[u8]>) -> Result<Option<(usize, V)>, Refusal>;
        #[must_use] first_key_value() -> Option<(Vec<u8>, V)>;
        #[must_use] last_key_value() -> Option<(Vec<u8>, V)>;
        #[must_use] first_from(key: impl AsRef<[u8]>) -> Option<(Vec<u8>, V)>;
        #[must_use] first_after(key: impl AsRef<[u8]>) -> Option<(Vec<u8>, V)>;
        #[must_use] last_to(key: impl AsRef<[u8]>) -> Option<(Vec<u8>, V)>;
        #[must_use] last_before(key: impl AsRef<[u8]>) -> Option<(Vec<u8>, V)>;
        #[must_use] iter() -> Iter<'_, V>;
        #[must_use] keys() -> Keys<'_, V>;
        #[must_use] values() -> Values<'_, V>;
        #[must_use] range(range: impl KeyRange) -> Range<'_, V>;
        #[must_use] prefix(prefix: impl AsRef<[u8]>) -> Range<'_, V>;
        #[must_use] lower_bound(bound: Bound<impl AsRef<[u8]>>) -> Cursor<'_, V>;
        #[must_use] upper_bound(bound: Bound<impl AsRef<[u8]>>) -> Cursor<'_, V>;
        #[must_use] to_bytes() -> Vec<u8>;
        try_to_bytes() -> Result<Vec<u8>, Refusal>;
        saved_len() -> Result<usize, Refusal>;
    }

    changes_of_the_map! {
        set_longest_key(bytes: usize) -> Result<(), Refusal>;
        remove(key: impl AsRef<[u8]>) -> Result<Option<V>, Refusal>;
        delete(key: impl AsRef<[u8]>) -> Result<bool, Refusal>;
        remove_prefix(prefix: impl AsRef<[u8]>) -> Result<usize, Refusal>;
        clear() -> ();
        load(bytes: &[u8]) -> Result<(), LoadError>;
        insert(key: impl AsRef<[u8]>, value: impl Given<V>) -> Result<Option<V>, Refusal>;
        set(key: impl AsRef<[u8]>, value: impl Given<V>) -> Result<bool, Refusal>;
        add(key: impl AsRef<[u8]>, value: impl Given<V>) -> Result<bool, Refusal>;
        replace(key: impl AsRef<[u8]>, value: impl Given<V>) -> Result<bool, Refusal>;
        try_retain(keeps: impl FnMut(&[u8], &V) -> bool) -> Result<(), Refusal>;
        entry(key: impl AsRef<[u8]>) -> Entry<'_, V>;
        try_entry(key: impl AsRef<[u8]>) -> Result<Entry<'_, V>, Refusal>;
        first_entry() -> Option<OccupiedEntry<'_, V>>;
        try_first_entry() -> Result<Option<OccupiedEntry<'_, V>>, Refusal>;
        last_entry() -> Option<OccupiedEntry<'_, V>>;
        try_last_entry() -> Result<Option<OccupiedEntry<'_, V>>, Refusal>;
        lower_bound_mut(bound: Bound<impl AsRef<[u8]>>) -> CursorMut<'_, V>;
        upper_bound_mut(bound: Bound<impl AsRef<[u8]>>) -> CursorMut<'_, V>;
    }

    /// As [`Map::try_insert`].
    pub fn try_insert<T: Given<V>>(
        &mut self,
        key: impl AsRef<[u8]>,
        value: T,
    ) -> Result<(), InsertError<'_, V, T>> {
        self.map.try_insert(key, value)
    }

    /// As [`Map::extract_if`].
    pub fn extract_if<F: FnMut(&[u8], &V) -> bool>(
        &mut self,
        range: impl KeyRange,
        chooses: F,
    ) -> ExtractIf<'_, V, F> {
        self.map.extract_if(range, chooses)
    }

    /// As [`Map::try_extend`].
    pub fn try_extend<K: AsRef<[u8]>, T: Given<V>>(
        &mut self,
        pairs: impl IntoIterator<Item = (K, T)>,
    ) -> Result<(), Refusal> {
        self.map.try_extend(pairs)
    }
}

impl<V: Value> Map<V> {
    /// A copy that shares no node with this map, its number and its longest key the same: for another
    /// thread. It takes the time of as many insertions as there are keys, a snapshot a few
    /// nanoseconds.
    ///
    /// ```
    /// # use boltcomfrey::{Refusal, VersionedMap};
    /// let mut prices = VersionedMap::from([("tea", 300)]);
    /// let sent = prices.unshare()?;
    /// prices.insert("tea", 350)?;
    /// let there = std::thread::spawn(move || (sent.get("tea"), sent.version()));
    /// assert_eq!(there.join().unwrap(), (Some(300), 1));
    /// # Ok::<(), Refusal>(())
    /// ```
    pub fn unshare(&self) -> Result<Unshared<V>, Refusal> {
        // (each key has raised the number by one at least)
        let mut map = Map::with_number(self.version() - self.len() as u64)?;
        map.set_longest_key(self.longest_key())?;
        self.iter().lent().try_for_each(|key, value| {
            <V as Calls>::add(&mut map.tree, key, value)?;
            Ok::<(), Refusal>(())
        })?;
        Ok(Unshared { map })
    }
}

impl<V: Value> Default for Unshared<V> {
    fn default() -> Unshared<V> {
        Unshared::new()
    }
}

/// As [`Map`] shows itself.
impl<V: Value> fmt::Debug for Unshared<V> {
    fn fmt(&self, f: &mut fmt::Formatter<'_>) -> fmt::Result {
        self.map.fmt(f)
    }
}

impl<V: Value> PartialEq for Unshared<V> {
    fn eq(&self, other: &Unshared<V>) -> bool {
        self.map == other.map
    }
}

impl<V: Value> Eq for Unshared<V> {}

/// As [`Map::try_extend`]. It panics where it is refused.
impl<V: Value, K: AsRef<[u8]>, T: Given<V>> Extend<(K, T)> for Unshared<V> {
    fn extend<I: IntoIterator<Item = (K, T)>>(&mut self, pairs: I) {
        unrefused(self.try_extend(pairs));
    }
}

/// As `collect` of a [`Map`]. It panics where it is refused.
impl<V: Value, K: AsRef<[u8]>, T: Given<V>> FromIterator<(K, T)> for Unshared<V> {
    fn from_iter<I: IntoIterator<Item = (K, T)>>(pairs: I) -> Unshared<V> {
        let map = Map::from_iter(pairs);
        Unshared { map }
    }
}
