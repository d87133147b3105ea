//! Walks over a map.
use crate::iter::{Iter, Keys, Range, Values};
use crate::key_range::KeyRange;
use crate::map::Map;
use crate::value::Value;
use crate::walk::Walk;
use std::iter::FusedIterator;

impl<V: Value> Map<V> {
    /// The pairs in the order of their keys, each key a copy.
    ///
    /// ```
    /// # use boltcomfrey::VersionedMap;
    /// let prices = VersionedMap::from([("tea", 300), ("milk", 100)]);
    /// let pairs: Vec<_> = prices.iter().collect();
    /// assert_eq!(pairs, [(b"milk".to_vec(), 100), (b"tea".to_vec(), 300)]);
    /// ```
    #[must_use]
    pub fn iter(&self) -> Iter<'_, V> {
        Iter::new(self)
    }

    /// The keys in order, each a copy.
    ///
    /// ```
    /// # use boltcomfrey::VersionedMap;
    /// let prices = VersionedMap::from([("tea", 300), ("milk", 100)]);
    /// let names: Vec<_> = prices.keys().collect();
    /// assert_eq!(names, [b"milk", b"tea".as_slice()]);
    /// ```
    #[must_use]
    pub fn keys(&self) -> Keys<'_, V> {
        Keys(self.iter())
    }

    /// The values in the order of their keys.
    ///
    /// ```
    /// # use boltcomfrey::VersionedMap;
    /// let prices = VersionedMap::from([("tea", 300), ("milk", 100)]);
    /// assert_eq!(prices.values().sum::<u64>(), 400);
    /// ```
    #[must_use]
    pub fn values(&self) -> Values<'_, V> {
        Values(self.iter())
    }

    /// The keys in order, of a map that is given up.
    ///
    /// ```
    /// # use boltcomfrey::VersionedMap;
    /// assert_eq!(VersionedMap::from([("tea", 300)]).into_keys().len(), 1);
    /// ```
    pub fn into_keys(
        self,
    ) -> impl DoubleEndedIterator<Item = Vec<u8>> + ExactSizeIterator + FusedIterator {
        self.into_iter().map(|pair| pair.0)
    }

    /// The values in the order of their keys, of a map that is given up.
    ///
    /// ```
    /// # use boltcomfrey::VersionedMap;
    /// assert_eq!(VersionedMap::from([("tea", 300)]).into_values().max(), Some(300));
    /// ```
    pub fn into_values(
        self,
    ) -> impl DoubleEndedIterator<Item = V> + ExactSizeIterator + FusedIterator {
        self.into_iter().map(|pair| pair.1)
    }

    /// The pairs whose keys are in a range, in order. Bounds the other way round are no fault: no
    /// key is between them. It keeps copies of both; where these are refused, so is its first step.
    ///
    /// ```
    /// # use boltcomfrey::VersionedMap;
    /// # use std::ops::Bound;
    /// let prices = VersionedMap::from([("milk", 100), ("salt", 50), ("tea", 300)]);
    /// assert_eq!(prices.range("n"..).count(), 2);
    /// assert_eq!(prices.range("milk".."tea").count(), 2);
    /// let behind = (Bound::Excluded("milk"), Bound::Unbounded);
    /// assert_eq!(prices.range(behind).count(), 2);
    /// ```
    #[must_use]
    pub fn range(&self, range: impl KeyRange) -> Range<'_, V> {
        Range::new(self, Walk::within(range.bounds(), self.len()))
    }

    /// The pairs whose keys a prefix begins, in order. It keeps a copy of the prefix, as `range` does
    /// of its bounds.
    ///
    /// ```
    /// # use boltcomfrey::VersionedMap;
    /// let prices = VersionedMap::from([("tea", 300), ("teapot", 2000), ("tin", 80)]);
    /// assert_eq!(prices.prefix("tea").count(), 2);
    /// ```
    #[must_use]
    pub fn prefix(&self, prefix: impl AsRef<[u8]>) -> Range<'_, V> {
        Range::new(self, Walk::under(prefix.as_ref(), self.len()))
    }
}
