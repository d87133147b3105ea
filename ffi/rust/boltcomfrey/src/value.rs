//! What a map may have as values, and the calls of the library on such maps.
use crate::error::Refusal;
use crate::memory::copied;
use crate::raw::{Handle, Order, Tree};
use crate::sys::{RartBytes, RartBytesEntry, RartEntry, RartTree};
use std::fmt::Debug;
use std::hash::Hash;
use std::ops::Bound;

/// What a map may have as values: numbers of 64 bits (`u64`) or byte strings (`Vec<u8>`).
///
/// It is for bounds of functions that take either map; no other type can meet it.
///
/// ```
/// # use boltcomfrey::{Map, Value, VersionedBytes, VersionedMap};
/// fn keys<V: Value>(map: &Map<V>) -> usize {
///     map.len()
/// }
/// assert_eq!(keys(&VersionedMap::new()) + keys(&VersionedBytes::new()), 0);
/// ```
pub trait Value: Calls + Clone + Ord + Hash + 'static {}

impl Value for u64 {}

impl Value for Vec<u8> {}

/// What can be put into a map with these values: a number, or what lends bytes.
pub trait Given<V: Value> {
    /// The value as a change takes it.
    fn given(&self) -> &V::Lent;
}

impl Given<u64> for u64 {
    fn given(&self) -> &u64 {
        self
    }
}

impl Given<u64> for &u64 {
    fn given(&self) -> &u64 {
        self
    }
}

impl<T: AsRef<[u8]>> Given<Vec<u8>> for T {
    fn given(&self) -> &[u8] {
        self.as_ref()
    }
}

/// The calls that differ by the type of the values. A refused one has changed nothing, but for the
/// rooms that it was to write to. (Public, since `Value` names it, and in no public module, so that
/// no other type can have it.)
pub trait Calls: Sized {
    type Handle: Handle;

    /// As which a change takes a value, and a page lends it.
    type Lent: ?Sized + ToOwned<Owned = Self> + Ord + Hash;

    /// What a page has of each pair.
    type Entry: Clone + Default;

    /// As which a value is shown: a byte string as text.
    fn shown(lent: &Self::Lent) -> impl Debug;

    fn copied(lent: &Self::Lent) -> Result<Self, Refusal>;

    fn get(tree: &Tree<Self::Handle>, key: &[u8]) -> Result<Option<Self>, Refusal>;

    fn has(tree: &Tree<Self::Handle>, key: &[u8]) -> bool;

    fn longest_prefix(
        tree: &Tree<Self::Handle>,
        probe: &[u8],
    ) -> Result<Option<(usize, Self)>, Refusal>;

    /// Sets a key, and gives the value before.
    fn insert(
        tree: &mut Tree<Self::Handle>,
        key: &[u8],
        value: &Self::Lent,
    ) -> Result<Option<Self>, Refusal>;

    /// Sets a key, and tells whether it had a value before.
    fn set(tree: &mut Tree<Self::Handle>, key: &[u8], value: &Self::Lent) -> Result<bool, Refusal>;

    /// Sets a key where it is not there, and tells whether it was there.
    fn add(tree: &mut Tree<Self::Handle>, key: &[u8], value: &Self::Lent) -> Result<bool, Refusal>;

    /// Sets a key where it is there, and tells whether it was.
    fn replace(
        tree: &mut Tree<Self::Handle>,
        key: &[u8],
        value: &Self::Lent,
    ) -> Result<bool, Refusal>;

    /// Takes a key out, and gives its value.
    fn remove(tree: &mut Tree<Self::Handle>, key: &[u8]) -> Result<Option<Self>, Refusal>;

    /// Takes a key out, and tells whether it was there.
    fn delete(tree: &mut Tree<Self::Handle>, key: &[u8]) -> Result<bool, Refusal>;

    /// The first key that meets a bound, written to the front of `room`, which is made longer where
    /// it has to be: the key's length, and its value.
    fn first(
        tree: &Tree<Self::Handle>,
        low: Bound<&[u8]>,
        room: &mut Vec<u8>,
    ) -> Result<Option<(usize, Self)>, Refusal>;

    /// The last key that meets a bound, told as by `first`.
    fn last(
        tree: &Tree<Self::Handle>,
        high: Bound<&[u8]>,
        room: &mut Vec<u8>,
    ) -> Result<Option<(usize, Self)>, Refusal>;

    /// Writes the first pairs within two bounds in an order to the front of `bytes`, which is made
    /// longer where it has to be, and of `entries`: as many as there are entries, or fewer, one at
    /// least where there is one. Answers how many they are.
    fn page(
        tree: &Tree<Self::Handle>,
        order: Order,
        within: (Bound<&[u8]>, Bound<&[u8]>),
        bytes: &mut Vec<u8>,
        entries: &mut [Self::Entry],
    ) -> Result<usize, Refusal>;

    /// Where the pair of an entry ends among the bytes of its page.
    fn end(entry: &Self::Entry) -> usize;

    /// The pair of an entry, which begins here among the bytes of its page.
    fn pair<'a>(
        entry: &'a Self::Entry,
        bytes: &'a [u8],
        start: usize,
    ) -> (&'a [u8], &'a Self::Lent);
}

impl Calls for u64 {
    type Handle = RartTree;
    type Lent = u64;
    type Entry = RartEntry;

    fn shown(lent: &u64) -> impl Debug {
        lent
    }

    #[inline]
    fn copied(lent: &u64) -> Result<u64, Refusal> {
        Ok(*lent)
    }

    #[inline]
    fn get(tree: &Tree<RartTree>, key: &[u8]) -> Result<Option<u64>, Refusal> {
        Ok(tree.get(key))
    }

    fn has(tree: &Tree<RartTree>, key: &[u8]) -> bool {
        tree.get(key).is_some()
    }

    #[inline]
    fn longest_prefix(
        tree: &Tree<RartTree>,
        probe: &[u8],
    ) -> Result<Option<(usize, u64)>, Refusal> {
        Ok(tree.longest_prefix(probe))
    }

    fn insert(tree: &mut Tree<RartTree>, key: &[u8], value: &u64) -> Result<Option<u64>, Refusal> {
        tree.insert(key, *value)
    }

    fn set(tree: &mut Tree<RartTree>, key: &[u8], value: &u64) -> Result<bool, Refusal> {
        Ok(tree.insert(key, *value)?.is_some())
    }

    fn add(tree: &mut Tree<RartTree>, key: &[u8], value: &u64) -> Result<bool, Refusal> {
        Ok(tree.add(key, *value)?.is_some())
    }

    fn replace(tree: &mut Tree<RartTree>, key: &[u8], value: &u64) -> Result<bool, Refusal> {
        Ok(tree.replace(key, *value)?.is_some())
    }

    fn remove(tree: &mut Tree<RartTree>, key: &[u8]) -> Result<Option<u64>, Refusal> {
        tree.remove(key)
    }

    fn delete(tree: &mut Tree<RartTree>, key: &[u8]) -> Result<bool, Refusal> {
        Ok(tree.remove(key)?.is_some())
    }

    fn first(
        tree: &Tree<RartTree>,
        low: Bound<&[u8]>,
        room: &mut Vec<u8>,
    ) -> Result<Option<(usize, u64)>, Refusal> {
        tree.first(low, room)
    }

    fn last(
        tree: &Tree<RartTree>,
        high: Bound<&[u8]>,
        room: &mut Vec<u8>,
    ) -> Result<Option<(usize, u64)>, Refusal> {
        tree.last(high, room)
    }

    fn page(
        tree: &Tree<RartTree>,
        order: Order,
        within: (Bound<&[u8]>, Bound<&[u8]>),
        bytes: &mut Vec<u8>,
        entries: &mut [RartEntry],
    ) -> Result<usize, Refusal> {
        tree.page(order, within, bytes, entries)
    }

    #[inline]
    fn end(entry: &RartEntry) -> usize {
        entry.end
    }

    #[inline]
    fn pair<'a>(entry: &'a RartEntry, bytes: &'a [u8], start: usize) -> (&'a [u8], &'a u64) {
        (&bytes[start..entry.end], &entry.value)
    }
}

impl Calls for Vec<u8> {
    type Handle = RartBytes;
    type Lent = [u8];
    type Entry = RartBytesEntry;

    fn shown(lent: &[u8]) -> impl Debug {
        Text(lent)
    }

    #[inline]
    fn copied(lent: &[u8]) -> Result<Vec<u8>, Refusal> {
        copied(lent)
    }

    #[inline]
    fn get(tree: &Tree<RartBytes>, key: &[u8]) -> Result<Option<Vec<u8>>, Refusal> {
        tree.get(key)
    }

    fn has(tree: &Tree<RartBytes>, key: &[u8]) -> bool {
        tree.value_len(key).is_some()
    }

    fn longest_prefix(
        tree: &Tree<RartBytes>,
        probe: &[u8],
    ) -> Result<Option<(usize, Vec<u8>)>, Refusal> {
        tree.longest_prefix(probe)
    }

    fn insert(
        tree: &mut Tree<RartBytes>,
        key: &[u8],
        value: &[u8],
    ) -> Result<Option<Vec<u8>>, Refusal> {
        let was = tree.get(key)?;
        tree.insert(key, value)?;
        Ok(was)
    }

    fn set(tree: &mut Tree<RartBytes>, key: &[u8], value: &[u8]) -> Result<bool, Refusal> {
        tree.insert(key, value)
    }

    fn add(tree: &mut Tree<RartBytes>, key: &[u8], value: &[u8]) -> Result<bool, Refusal> {
        tree.add(key, value)
    }

    fn replace(tree: &mut Tree<RartBytes>, key: &[u8], value: &[u8]) -> Result<bool, Refusal> {
        tree.replace(key, value)
    }

    fn remove(tree: &mut Tree<RartBytes>, key: &[u8]) -> Result<Option<Vec<u8>>, Refusal> {
        let was = tree.get(key)?;
        tree.remove(key)?;
        Ok(was)
    }

    fn delete(tree: &mut Tree<RartBytes>, key: &[u8]) -> Result<bool, Refusal> {
        tree.remove(key)
    }

    fn first(
        tree: &Tree<RartBytes>,
        low: Bound<&[u8]>,
        room: &mut Vec<u8>,
    ) -> Result<Option<(usize, Vec<u8>)>, Refusal> {
        tree.first(low, room)
    }

    fn last(
        tree: &Tree<RartBytes>,
        high: Bound<&[u8]>,
        room: &mut Vec<u8>,
    ) -> Result<Option<(usize, Vec<u8>)>, Refusal> {
        tree.last(high, room)
    }

    fn page(
        tree: &Tree<RartBytes>,
        order: Order,
        within: (Bound<&[u8]>, Bound<&[u8]>),
        bytes: &mut Vec<u8>,
        entries: &mut [RartBytesEntry],
    ) -> Result<usize, Refusal> {
        tree.page(order, within, bytes, entries)
    }

    #[inline]
    fn end(entry: &RartBytesEntry) -> usize {
        entry.end
    }

    #[inline]
    fn pair<'a>(entry: &'a RartBytesEntry, bytes: &'a [u8], start: usize) -> (&'a [u8], &'a [u8]) {
        let (key_end, end) = (entry.key_end, entry.end);
        (&bytes[start..key_end], &bytes[key_end..end])
    }
}

/// A byte string that is shown as text with escapes.
pub struct Text<'a>(pub &'a [u8]);

impl Debug for Text<'_> {
    fn fmt(&self, f: &mut std::fmt::Formatter<'_>) -> std::fmt::Result {
        write!(f, "\"{}\"", self.0.escape_ascii())
    }
}
