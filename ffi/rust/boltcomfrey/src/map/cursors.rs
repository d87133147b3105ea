//! Places in a map, from which a program goes on.
use crate::cursor::{Cursor, CursorMut, Gap};
use crate::map::Map;
use crate::value::Value;
use std::ops::Bound;

impl<V: Value> Map<V> {
    /// The place before all keys that meet a bound. It keeps a copy of the bound; where that is
    /// refused, so is each step.
    ///
    /// ```
    /// # use boltcomfrey::VersionedMap;
    /// # use std::ops::Bound;
    /// let prices = VersionedMap::from([("milk", 100), ("tea", 300)]);
    /// let mut cursor = prices.lower_bound(Bound::Excluded("milk"));
    /// assert_eq!(cursor.next(), Some((b"tea".to_vec(), 300)));
    /// assert_eq!(cursor.next(), None);
    /// ```
    #[must_use]
    pub fn lower_bound(&self, bound: Bound<impl AsRef<[u8]>>) -> Cursor<'_, V> {
        let place = Gap::before(bound.as_ref().map(AsRef::as_ref));
        Cursor { map: self, place }
    }

    /// The place behind all keys that meet a bound. It keeps a copy of the bound; where that is
    /// refused, so is each step.
    ///
    /// ```
    /// # use boltcomfrey::VersionedMap;
    /// # use std::ops::Bound;
    /// let prices = VersionedMap::from([("milk", 100), ("tea", 300)]);
    /// let mut cursor = prices.upper_bound(Bound::<&str>::Unbounded);
    /// assert_eq!(cursor.prev(), Some((b"tea".to_vec(), 300)));
    /// ```
    #[must_use]
    pub fn upper_bound(&self, bound: Bound<impl AsRef<[u8]>>) -> Cursor<'_, V> {
        let place = Gap::behind(bound.as_ref().map(AsRef::as_ref));
        Cursor { map: self, place }
    }

    /// As `lower_bound`, of a cursor that changes the map.
    ///
    /// ```
    /// # use boltcomfrey::{Refusal, VersionedMap};
    /// # use std::ops::Bound;
    /// let mut prices = VersionedMap::from([("milk", 100), ("tea", 300)]);
    /// let mut cursor = prices.lower_bound_mut(Bound::Included("n"));
    /// while cursor.remove_next()?.is_some() {}
    /// assert_eq!(prices, VersionedMap::from([("milk", 100)]));
    /// # Ok::<(), Refusal>(())
    /// ```
    #[must_use]
    pub fn lower_bound_mut(&mut self, bound: Bound<impl AsRef<[u8]>>) -> CursorMut<'_, V> {
        let place = Gap::before(bound.as_ref().map(AsRef::as_ref));
        CursorMut { map: self, place }
    }

    /// As `upper_bound`, of a cursor that changes the map.
    ///
    /// ```
    /// # use boltcomfrey::{Refusal, VersionedMap};
    /// # use std::ops::Bound;
    /// let mut prices = VersionedMap::from([("milk", 100), ("tea", 300)]);
    /// let mut cursor = prices.upper_bound_mut(Bound::Included("n"));
    /// assert_eq!(cursor.remove_prev()?, Some((b"milk".to_vec(), 100)));
    /// # Ok::<(), Refusal>(())
    /// ```
    #[must_use]
    pub fn upper_bound_mut(&mut self, bound: Bound<impl AsRef<[u8]>>) -> CursorMut<'_, V> {
        let place = Gap::behind(bound.as_ref().map(AsRef::as_ref));
        CursorMut { map: self, place }
    }
}
