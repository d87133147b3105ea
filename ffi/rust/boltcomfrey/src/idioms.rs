//! Std's traits, for maps of either kind.
use crate::error::unrefused;
use crate::iter::{IntoIter, Iter};
use crate::map::Map;
use crate::value::{Given, Value};
use std::cmp::Ordering;
use std::fmt;
use std::hash::{Hash, Hasher};

impl<V: Value> Default for Map<V> {
    fn default() -> Map<V> {
        Map::new()
    }
}

/// As [`Map::try_clone`]. It panics where it is refused.
///
/// ```
/// # use boltcomfrey::VersionedMap;
/// let prices = VersionedMap::from([("tea", 300)]);
/// assert_eq!(prices.clone(), prices);
/// ```
impl<V: Value> Clone for Map<V> {
    fn clone(&self) -> Map<V> {
        unrefused(self.try_clone())
    }
}

/// As [`Map::try_extend`]. It panics where it is refused.
///
/// ```
/// # use boltcomfrey::VersionedMap;
/// let mut prices = VersionedMap::new();
/// prices.extend([("tea", 300), ("milk", 100)]);
/// assert_eq!(prices.len(), 2);
/// ```
impl<V: Value, K: AsRef<[u8]>, T: Given<V>> Extend<(K, T)> for Map<V> {
    fn extend<I: IntoIterator<Item = (K, T)>>(&mut self, pairs: I) {
        unrefused(self.try_extend(pairs));
    }
}

/// As [`Map::try_from_iter`]. It panics where it is refused.
///
/// ```
/// # use boltcomfrey::VersionedMap;
/// let squares: VersionedMap = (0_u64..9).map(|it| (it.to_be_bytes(), it * it)).collect();
/// assert_eq!(squares.get(8_u64.to_be_bytes()), Some(64));
/// ```
///
/// Pairs that may be errors are collected into a `Result`, as std has it; [`Map::try_from_results`]
/// answers where it is refused.
///
/// ```
/// # use boltcomfrey::VersionedMap;
/// # use std::num::ParseIntError;
/// fn sizes(words: &str) -> Result<VersionedMap, ParseIntError> {
///     let sizes = words.split(' ').map(|it| Ok((it, it.parse::<u64>()?)));
///     sizes.collect()
/// }
/// assert!(sizes("7 12").is_ok() && sizes("7 a dozen").is_err());
/// ```
impl<V: Value, K: AsRef<[u8]>, T: Given<V>> FromIterator<(K, T)> for Map<V> {
    fn from_iter<I: IntoIterator<Item = (K, T)>>(pairs: I) -> Map<V> {
        unrefused(Map::try_from_iter(pairs))
    }
}

/// As [`Map::try_from_iter`]. It panics where it is refused.
impl<V: Value, K: AsRef<[u8]>, T: Given<V>, const N: usize> From<[(K, T); N]> for Map<V> {
    fn from(pairs: [(K, T); N]) -> Map<V> {
        Map::from_iter(pairs)
    }
}

impl<'a, V: Value> IntoIterator for &'a Map<V> {
    type Item = (Vec<u8>, V);
    type IntoIter = Iter<'a, V>;

    fn into_iter(self) -> Iter<'a, V> {
        self.iter()
    }
}

impl<V: Value> IntoIterator for Map<V> {
    type Item = (Vec<u8>, V);
    type IntoIter = IntoIter<V>;

    fn into_iter(self) -> IntoIter<V> {
        IntoIter::new(self)
    }
}

/// The same keys with the same values, whatever the numbers: as [`Map::equals`], and where that is
/// refused by a walk over both, whose pages take some memory of Rust's. It panics without.
///
/// ```
/// # use boltcomfrey::VersionedMap;
/// let mut prices = VersionedMap::from([("tea", 300)]);
/// let before = prices.snapshot()?;
/// assert_eq!(prices, before);
/// prices.insert("tea", 350)?;
/// assert_ne!(prices, before);
/// # Ok::<(), boltcomfrey::Refusal>(())
/// ```
impl<V: Value> PartialEq for Map<V> {
    fn eq(&self, other: &Map<V>) -> bool {
        let walked = || self.cmp(other).is_eq();
        self.len() == other.len() && self.equals(other).unwrap_or_else(|_| walked())
    }
}

impl<V: Value> Eq for Map<V> {}

impl<V: Value> PartialOrd for Map<V> {
    fn partial_cmp(&self, other: &Map<V>) -> Option<Ordering> {
        Some(self.cmp(other))
    }
}

/// As std's maps: by the first pair that differs, whatever the numbers.
impl<V: Value> Ord for Map<V> {
    fn cmp(&self, other: &Map<V>) -> Ordering {
        let (mut left, mut right) = (self.iter().lent(), other.iter().lent());
        loop {
            match (left.next(), right.next()) {
                (None, None) => return Ordering::Equal,
                (pair, others) if pair != others => return pair.cmp(&others),
                _ => (),
            }
        }
    }
}

impl<V: Value> Hash for Map<V> {
    fn hash<H: Hasher>(&self, state: &mut H) {
        state.write_usize(self.len());
        let pairs = self.iter().lent();
        pairs.for_each(|key, value| (key, value).hash(state));
    }
}

/// The pairs, as std shows a map, each key and each byte string as text with escapes.
///
/// ```
/// # use boltcomfrey::VersionedMap;
/// let prices = VersionedMap::from([("tea", 300)]);
/// assert_eq!(format!("{prices:?}"), r#"{"tea": 300}"#);
/// ```
impl<V: Value> fmt::Debug for Map<V> {
    fn fmt(&self, f: &mut fmt::Formatter<'_>) -> fmt::Result {
        self.iter().fmt(f)
    }
}
