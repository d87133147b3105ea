//! What two maps have in common, and what differs.
use crate::both::{Common, Diff};
use crate::error::Refusal;
use crate::map::Map;
use crate::value::Value;

impl<V: Value> Map<V> {
    /// What differs from this map to a later one: each key at which they do, in order, with what
    /// either has there. It walks over both whole, whatever they share.
    ///
    /// ```
    /// # use boltcomfrey::VersionedMap;
    /// let mut prices = VersionedMap::from([("tea", 300), ("milk", 100)]);
    /// let yesterday = prices.snapshot()?;
    /// prices.insert("tea", 350)?;
    /// let changes: Vec<_> = yesterday.diff(&prices).collect();
    /// assert_eq!(changes, [(b"tea".to_vec(), Some(300), Some(350))]);
    /// # Ok::<(), boltcomfrey::Refusal>(())
    /// ```
    #[must_use]
    pub fn diff<'a>(&'a self, after: &'a Map<V>) -> Diff<'a, V> {
        Diff::new(self, after)
    }

    /// The keys that both maps have, in order, with the value of either. It walks over both.
    ///
    /// ```
    /// # use boltcomfrey::VersionedMap;
    /// let left = VersionedMap::from([("tea", 300), ("milk", 100)]);
    /// let right = VersionedMap::from([("tea", 350)]);
    /// assert!(left.intersection(&right).eq([(b"tea".to_vec(), 300, 350)]));
    /// ```
    #[must_use]
    pub fn intersection<'a>(&'a self, other: &'a Map<V>) -> Common<'a, V> {
        Common::new(self, other)
    }

    /// How many keys both maps have, whatever their values. It takes no memory.
    ///
    /// ```
    /// # use boltcomfrey::VersionedMap;
    /// let mut prices = VersionedMap::from([("tea", 300)]);
    /// let yesterday = prices.snapshot()?;
    /// prices.insert("milk", 100)?;
    /// assert_eq!(prices.common_count(&yesterday), 1);
    /// # Ok::<(), boltcomfrey::Refusal>(())
    /// ```
    #[must_use]
    pub fn common_count(&self, other: &Map<V>) -> usize {
        self.tree.common_count(&other.tree)
    }

    /// Whether both maps have the same keys with the same values, whatever their numbers. It takes
    /// memory. `==` asks this, and walks over both where it is refused.
    ///
    /// ```
    /// # use boltcomfrey::VersionedMap;
    /// let prices = VersionedMap::from([("tea", 300)]);
    /// assert!(prices.equals(&prices.snapshot()?)?);
    /// # Ok::<(), boltcomfrey::Refusal>(())
    /// ```
    pub fn equals(&self, other: &Map<V>) -> Result<bool, Refusal> {
        self.tree.equals(&other.tree)
    }
}
