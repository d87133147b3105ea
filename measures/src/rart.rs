//! rart's versioned tree, by its public calls that are given a key.
use crate::map::{Map, Tally, add_lent};
use rart::keys::{KeyTrait, vector_key::VectorKey};
use rart::{ArrayKey, VersionedAdaptiveRadixTree};

pub type Inline = VersionedAdaptiveRadixTree<ArrayKey<16>, u64>;
pub type AnyLength = VersionedAdaptiveRadixTree<VectorKey, u64>;

impl<K: KeyTrait> Map for VersionedAdaptiveRadixTree<K, u64> {
    fn insert(&mut self, key: &[u8], value: u64) -> bool {
        self.insert_k(&K::new_from_slice(key), value)
    }
    fn remove(&mut self, key: &[u8]) -> Option<u64> {
        self.remove_k(&K::new_from_slice(key))
    }
    fn get(&self, key: &[u8]) -> Option<u64> {
        self.get_k(&K::new_from_slice(key)).copied()
    }
    fn longest(&self, probe: &[u8]) -> Option<u64> {
        let (probe, mut last) = (K::new_from_slice(probe), None);
        self.prefix_match_for_each_k(&probe, |_, value| last = Some(*value));
        last
    }
    fn snapshot(&self) -> Self {
        self.snapshot()
    }
    fn common(&self, other: &Self) -> usize {
        self.intersect_count(other)
    }
    fn iter(&self) -> impl Iterator<Item = (impl AsRef<[u8]>, u64)> {
        self.iter().map(|(key, value)| (key, *value))
    }
    fn range(&self, low: &[u8], high: &[u8]) -> impl Iterator<Item = (impl AsRef<[u8]>, u64)> {
        let entries = self.range(K::new_from_slice(low)..K::new_from_slice(high));
        entries.map(|(key, value)| (key, *value))
    }
    fn lend(&self) -> impl FnMut() -> Tally {
        || {
            let mut tally = (0, 0);
            self.for_each_view(|key, value| tally = add_lent(tally, key.len(), *value));
            tally
        }
    }
}
