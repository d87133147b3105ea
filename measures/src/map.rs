//! The tree and std's `BTreeMap`, each as a map from byte strings to numbers.
use crate::pages::Pages;
use boltcomfrey::VersionedMap;
use std::collections::BTreeMap;

/// A map. Each call is given the bytes of a key: what a map makes of them belongs to its time.
pub trait Map: Default {
    /// Sets a key to a value, and tells whether it had one.
    fn insert(&mut self, key: &[u8], value: u64) -> bool;
    fn remove(&mut self, key: &[u8]) -> Option<u64>;
    fn get(&self, key: &[u8]) -> Option<u64>;
    /// The value of the longest key that begins the probe.
    fn longest(&self, probe: &[u8]) -> Option<u64>;
    fn snapshot(&self) -> Self;
    /// How many keys both have.
    fn common(&self, other: &Self) -> usize;
    fn iter(&self) -> impl Iterator<Item = (impl AsRef<[u8]>, u64)>;
    /// From `low` up to `high`, without it.
    fn range(&self, low: &[u8], high: &[u8]) -> impl Iterator<Item = (impl AsRef<[u8]>, u64)>;
    /// A walk over all entries that lends their keys.
    fn lend(&self) -> impl FnMut() -> Tally;
}

/// How many operations there were, and a sum over what they told, in which the maps agree.
pub type Tally = (usize, u64);

pub fn add(tally: Tally, told: u64) -> Tally {
    (tally.0 + 1, tally.1.wrapping_add(told))
}

/// Adds an entry whose key is lent: its length, and its value.
pub fn add_lent(tally: Tally, len: usize, value: u64) -> Tally {
    add(tally, len as u64 + (value << 8))
}

const REFUSED: &str = "memory was refused";

impl Map for VersionedMap {
    fn insert(&mut self, key: &[u8], value: u64) -> bool {
        self.insert(key, value).expect(REFUSED).is_some()
    }
    fn remove(&mut self, key: &[u8]) -> Option<u64> {
        self.remove(key).expect(REFUSED)
    }
    fn get(&self, key: &[u8]) -> Option<u64> {
        self.get(key)
    }
    fn longest(&self, probe: &[u8]) -> Option<u64> {
        self.longest_prefix(probe).map(|(_, value)| value)
    }
    fn snapshot(&self) -> VersionedMap {
        self.snapshot().expect(REFUSED)
    }
    fn common(&self, other: &VersionedMap) -> usize {
        self.common_count(other)
    }
    fn iter(&self) -> impl Iterator<Item = (impl AsRef<[u8]>, u64)> {
        self.iter()
    }
    fn range(&self, low: &[u8], high: &[u8]) -> impl Iterator<Item = (impl AsRef<[u8]>, u64)> {
        self.range(low..high)
    }
    fn lend(&self) -> impl FnMut() -> Tally {
        let mut pages = Pages::of(self.iter());
        move || pages.walk()
    }
}

/// Its keys are padded to 16 bytes, and have their length.
pub type Sorted = BTreeMap<([u8; 16], usize), u64>;

fn padded(key: &[u8]) -> ([u8; 16], usize) {
    let mut bytes = [0; 16];
    bytes[..key.len()].copy_from_slice(key);
    (bytes, key.len())
}

impl Map for Sorted {
    fn insert(&mut self, key: &[u8], value: u64) -> bool {
        self.insert(padded(key), value).is_some()
    }
    fn remove(&mut self, key: &[u8]) -> Option<u64> {
        self.remove(&padded(key))
    }
    fn get(&self, key: &[u8]) -> Option<u64> {
        self.get(&padded(key)).copied()
    }
    fn longest(&self, probe: &[u8]) -> Option<u64> {
        let mut lengths = (0..=probe.len()).rev();
        lengths.find_map(|len| Map::get(self, &probe[..len]))
    }
    fn snapshot(&self) -> Sorted {
        self.clone()
    }
    fn common(&self, other: &Sorted) -> usize {
        let (mut lefts, mut rights) = (self.keys(), other.keys());
        let (mut left, mut right, mut count) = (lefts.next(), rights.next(), 0);
        while let (Some(one), Some(another)) = (left, right) {
            let order = one.cmp(another);
            count += usize::from(order.is_eq());
            left = if order.is_le() { lefts.next() } else { left };
            right = if order.is_ge() { rights.next() } else { right };
        }
        count
    }
    fn iter(&self) -> impl Iterator<Item = (impl AsRef<[u8]>, u64)> {
        self.iter().map(|(key, value)| (&key.0[..key.1], *value))
    }
    fn range(&self, low: &[u8], high: &[u8]) -> impl Iterator<Item = (impl AsRef<[u8]>, u64)> {
        let entries = self.range(padded(low)..padded(high));
        entries.map(|(key, value)| (&key.0[..key.1], *value))
    }
    fn lend(&self) -> impl FnMut() -> Tally {
        || {
            let entries = self.iter();
            entries.fold((0, 0), |tally, (key, value)| add_lent(tally, key.1, *value))
        }
    }
}
