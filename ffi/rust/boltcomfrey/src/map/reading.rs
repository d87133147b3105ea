//! Reads of single pairs.
use crate::error::{Refusal, unrefused};
use crate::map::Map;
use crate::memory::copied;
use crate::value::Value;
use std::ops::Bound;

impl<V: Value> Map<V> {
    /// The value of a key. A number takes no memory. A byte string is copied, and it panics where the
    /// copy is refused; `try_get` answers.
    ///
    /// ```
    /// # use boltcomfrey::{VersionedBytes, VersionedMap};
    /// let prices = VersionedMap::from([("tea", 300)]);
    /// assert_eq!(prices.get(b"tea"), Some(300));
    /// assert_eq!(prices.get("milk"), None);
    /// let names = VersionedBytes::from([("tea", "Tea")]);
    /// assert_eq!(names.get("tea"), Some(b"Tea".to_vec()));
    /// ```
    #[must_use]
    pub fn get(&self, key: impl AsRef<[u8]>) -> Option<V> {
        unrefused(self.try_get(key))
    }

    /// The value of a key. Refused where a byte string gets no memory.
    ///
    /// ```
    /// # use boltcomfrey::VersionedBytes;
    /// let names = VersionedBytes::from([("tea", "Tea")]);
    /// assert_eq!(names.try_get("tea")?, Some(b"Tea".to_vec()));
    /// # Ok::<(), boltcomfrey::Refusal>(())
    /// ```
    pub fn try_get(&self, key: impl AsRef<[u8]>) -> Result<Option<V>, Refusal> {
        V::get(&self.tree, key.as_ref())
    }

    /// A key, copied, and its value, if it is there.
    ///
    /// ```
    /// # use boltcomfrey::VersionedMap;
    /// assert_eq!(VersionedMap::new().get_key_value("tea"), None);
    /// ```
    #[must_use]
    pub fn get_key_value(&self, key: impl AsRef<[u8]>) -> Option<(Vec<u8>, V)> {
        let value = self.get(&key)?;
        Some((unrefused(copied(key.as_ref())), value))
    }

    /// Whether a key is there. It takes no memory.
    ///
    /// ```
    /// # use boltcomfrey::VersionedMap;
    /// assert!(!VersionedMap::new().contains_key("tea"));
    /// ```
    #[must_use]
    pub fn contains_key(&self, key: impl AsRef<[u8]>) -> bool {
        V::has(&self.tree, key.as_ref())
    }

    /// The length of the longest key that begins the probe, and its value. It panics where a byte
    /// string is refused; `try_longest_prefix` answers.
    ///
    /// ```
    /// # use boltcomfrey::VersionedMap;
    /// let routes = VersionedMap::from([([10, 0].to_vec(), 1), ([10, 0, 7].to_vec(), 2)]);
    /// assert_eq!(routes.longest_prefix([10, 0, 3, 9]), Some((2, 1)));
    /// assert_eq!(routes.longest_prefix([192, 168, 0, 1]), None);
    /// ```
    ///
    /// The keys are an address's bytes here, and not its text: the text `10.1` begins `10.12.0.1`.
    #[must_use]
    pub fn longest_prefix(&self, probe: impl AsRef<[u8]>) -> Option<(usize, V)> {
        unrefused(self.try_longest_prefix(probe))
    }

    /// The length of the longest key that begins the probe, and its value. Refused where a byte
    /// string gets no memory.
    pub fn try_longest_prefix(
        &self,
        probe: impl AsRef<[u8]>,
    ) -> Result<Option<(usize, V)>, Refusal> {
        V::longest_prefix(&self.tree, probe.as_ref())
    }

    /// The first pair, if there is one.
    ///
    /// ```
    /// # use boltcomfrey::VersionedMap;
    /// let prices = VersionedMap::from([("tea", 300), ("milk", 100)]);
    /// assert_eq!(prices.first_key_value(), Some((b"milk".to_vec(), 100)));
    /// ```
    #[must_use]
    pub fn first_key_value(&self) -> Option<(Vec<u8>, V)> {
        unrefused(self.first(Bound::Unbounded))
    }

    /// The last pair, if there is one.
    ///
    /// ```
    /// # use boltcomfrey::VersionedMap;
    /// let prices = VersionedMap::from([("tea", 300), ("milk", 100)]);
    /// assert_eq!(prices.last_key_value(), Some((b"tea".to_vec(), 300)));
    /// ```
    #[must_use]
    pub fn last_key_value(&self) -> Option<(Vec<u8>, V)> {
        unrefused(self.last(Bound::Unbounded))
    }

    /// The first pair whose key is this one or comes behind it.
    ///
    /// ```
    /// # use boltcomfrey::VersionedMap;
    /// let prices = VersionedMap::from([("tea", 300), ("milk", 100)]);
    /// assert_eq!(prices.first_from("n"), Some((b"tea".to_vec(), 300)));
    /// ```
    #[must_use]
    pub fn first_from(&self, key: impl AsRef<[u8]>) -> Option<(Vec<u8>, V)> {
        unrefused(self.first(Bound::Included(key.as_ref())))
    }

    /// The first pair whose key comes behind this one.
    ///
    /// ```
    /// # use boltcomfrey::VersionedMap;
    /// let prices = VersionedMap::from([("tea", 300), ("milk", 100)]);
    /// assert_eq!(prices.first_after("tea"), None);
    /// ```
    #[must_use]
    pub fn first_after(&self, key: impl AsRef<[u8]>) -> Option<(Vec<u8>, V)> {
        unrefused(self.first(Bound::Excluded(key.as_ref())))
    }

    /// The last pair whose key is this one or comes before it: the newest record not after a time.
    ///
    /// ```
    /// # use boltcomfrey::VersionedMap;
    /// let prices = VersionedMap::from([("tea", 300), ("milk", 100)]);
    /// assert_eq!(prices.last_to("n"), Some((b"milk".to_vec(), 100)));
    /// ```
    #[must_use]
    pub fn last_to(&self, key: impl AsRef<[u8]>) -> Option<(Vec<u8>, V)> {
        unrefused(self.last(Bound::Included(key.as_ref())))
    }

    /// The last pair whose key comes before this one.
    ///
    /// ```
    /// # use boltcomfrey::VersionedMap;
    /// let prices = VersionedMap::from([("tea", 300), ("milk", 100)]);
    /// assert_eq!(prices.last_before("milk"), None);
    /// ```
    #[must_use]
    pub fn last_before(&self, key: impl AsRef<[u8]>) -> Option<(Vec<u8>, V)> {
        unrefused(self.last(Bound::Excluded(key.as_ref())))
    }

    /// The first pair whose key meets a bound.
    pub(crate) fn first(&self, low: Bound<&[u8]>) -> Result<Option<(Vec<u8>, V)>, Refusal> {
        let mut key = Vec::new();
        let found = V::first(&self.tree, low, &mut key)?;
        key.truncate(found.as_ref().map_or(0, |it| it.0));
        Ok(found.map(|(_, value)| (key, value)))
    }

    /// The last pair whose key meets a bound.
    pub(crate) fn last(&self, high: Bound<&[u8]>) -> Result<Option<(Vec<u8>, V)>, Refusal> {
        let mut key = Vec::new();
        let found = V::last(&self.tree, high, &mut key)?;
        key.truncate(found.as_ref().map_or(0, |it| it.0));
        Ok(found.map(|(_, value)| (key, value)))
    }
}

impl Map<Vec<u8>> {
    /// How many bytes the value of a key has. It takes no memory.
    ///
    /// ```
    /// # use boltcomfrey::VersionedBytes;
    /// let names = VersionedBytes::from([("tea", "Tea")]);
    /// assert_eq!(names.value_len("tea"), Some(3));
    /// ```
    #[must_use]
    pub fn value_len(&self, key: impl AsRef<[u8]>) -> Option<usize> {
        self.tree.value_len(key.as_ref())
    }

    /// Reads the value of a key into a vector, in place of its content, and tells whether the key is
    /// there. If not, the vector stays. It panics where the vector can't be made longer;
    /// `try_get_into` answers.
    ///
    /// ```
    /// # use boltcomfrey::VersionedBytes;
    /// let names = VersionedBytes::from([("tea", "Tea")]);
    /// let mut name = Vec::new();
    /// assert!(names.get_into("tea", &mut name));
    /// assert_eq!(name, b"Tea");
    /// ```
    pub fn get_into(&self, key: impl AsRef<[u8]>, into: &mut Vec<u8>) -> bool {
        unrefused(self.try_get_into(key, into))
    }

    /// As `get_into`. Refused where the vector can't be made longer: it is as before then.
    ///
    /// ```
    /// # use boltcomfrey::VersionedBytes;
    /// let mut name = Vec::new();
    /// assert!(!VersionedBytes::new().try_get_into("tea", &mut name)?);
    /// # Ok::<(), boltcomfrey::Refusal>(())
    /// ```
    pub fn try_get_into(&self, key: impl AsRef<[u8]>, into: &mut Vec<u8>) -> Result<bool, Refusal> {
        self.tree.get_into(key.as_ref(), into)
    }
}
