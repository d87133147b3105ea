//! All pairs under a prefix.
use crate::error::Refusal;
use crate::map::Map;
use crate::value::Value;

impl<V: Value> Map<V> {
    /// Takes out all pairs whose keys a prefix begins, and tells how many there were; the number
    /// rises by one then. Without any nothing changes. Refused, nothing has changed. It counts them,
    /// and takes no other time by their number.
    ///
    /// ```
    /// # use boltcomfrey::VersionedMap;
    /// let mut prices = VersionedMap::from([("tea", 300), ("teapot", 2000), ("tin", 80)]);
    /// assert_eq!(prices.remove_prefix("tea")?, 2);
    /// assert_eq!(prices.len(), 1);
    /// # Ok::<(), boltcomfrey::Refusal>(())
    /// ```
    pub fn remove_prefix(&mut self, prefix: impl AsRef<[u8]>) -> Result<usize, Refusal> {
        self.tree.remove_prefix(prefix.as_ref())
    }

    /// The pairs alone whose keys a prefix begins, as a map of its own, its number one greater. Both
    /// share what is below the prefix. It counts the pairs, and takes no other time by their number.
    ///
    /// ```
    /// # use boltcomfrey::VersionedMap;
    /// let prices = VersionedMap::from([("tea", 300), ("teapot", 2000), ("tin", 80)]);
    /// let teas = prices.prefix_snapshot("tea")?;
    /// assert!(teas.keys().eq([b"tea".to_vec(), b"teapot".to_vec()]));
    /// # Ok::<(), boltcomfrey::Refusal>(())
    /// ```
    pub fn prefix_snapshot(&self, prefix: impl AsRef<[u8]>) -> Result<Map<V>, Refusal> {
        let tree = self.tree.prefix_snapshot(prefix.as_ref())?;
        Ok(Map { tree })
    }

    /// Puts in place of all pairs whose keys a prefix begins those that another map has there; the
    /// others stay. Refused, nothing has changed. It counts the pairs that go and come, and takes no
    /// other time by their number.
    ///
    /// The number is then the sum of both. So of a map that is restored from its own snapshots it
    /// doubles each time, and can't be raised any more after some sixty: to undo all, put the snapshot
    /// in the map's place.
    ///
    /// A map whose keys may be longer is refused.
    ///
    /// ```
    /// # use boltcomfrey::VersionedMap;
    /// let mut prices = VersionedMap::from([("tea", 300), ("teapot", 2000), ("tin", 80)]);
    /// let yesterday = prices.snapshot()?;
    /// prices.insert("tea", 350)?;
    /// prices.insert("tin", 90)?;
    /// prices.restore_prefix("tea", &yesterday)?;
    /// assert_eq!((prices.get("tea"), prices.get("tin")), (Some(300), Some(90)));
    /// # Ok::<(), boltcomfrey::Refusal>(())
    /// ```
    pub fn restore_prefix(
        &mut self,
        prefix: impl AsRef<[u8]>,
        from: &Map<V>,
    ) -> Result<(), Refusal> {
        self.tree.restore_prefix(prefix.as_ref(), &from.tree)
    }
}
