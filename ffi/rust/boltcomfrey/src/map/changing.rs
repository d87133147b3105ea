//! Changes of single pairs.
use crate::error::{Refusal, unrefused};
use crate::map::Map;
use crate::memory::copied;
use crate::value::{Given, Value};
use std::ops::Bound;

impl<V: Value> Map<V> {
    /// Sets a key to a value, and gives the value that was replaced. The number rises by one.
    /// Refused, nothing has changed. Where values are byte strings, the one before is looked up and
    /// copied first: `set` does without.
    ///
    /// A key that is longer than `longest_key` is refused.
    ///
    /// ```
    /// # use boltcomfrey::{VersionedBytes, VersionedMap};
    /// let mut prices = VersionedMap::new();
    /// assert_eq!(prices.insert("tea", 300)?, None);
    /// assert_eq!(prices.insert("tea", 350)?, Some(300));
    /// let mut names = VersionedBytes::new();
    /// assert_eq!(names.insert("tea", "Tea")?, None);
    /// # Ok::<(), boltcomfrey::Refusal>(())
    /// ```
    pub fn insert(
        &mut self,
        key: impl AsRef<[u8]>,
        value: impl Given<V>,
    ) -> Result<Option<V>, Refusal> {
        V::insert(&mut self.tree, key.as_ref(), value.given())
    }

    /// As `insert`, and tells whether a value was replaced.
    ///
    /// ```
    /// # use boltcomfrey::VersionedBytes;
    /// let mut names = VersionedBytes::new();
    /// assert!(!names.set("tea", "Tea")?);
    /// assert!(names.set("tea", "Green tea")?);
    /// # Ok::<(), boltcomfrey::Refusal>(())
    /// ```
    pub fn set(&mut self, key: impl AsRef<[u8]>, value: impl Given<V>) -> Result<bool, Refusal> {
        V::set(&mut self.tree, key.as_ref(), value.given())
    }

    /// Sets a key to a value where it is not there, and tells whether it was set. Where it is there
    /// nothing changes. Refused, nothing has changed.
    ///
    /// ```
    /// # use boltcomfrey::VersionedMap;
    /// let mut prices = VersionedMap::new();
    /// assert!(prices.add("tea", 300)?);
    /// assert!(!prices.add("tea", 350)?);
    /// assert_eq!(prices.get("tea"), Some(300));
    /// # Ok::<(), boltcomfrey::Refusal>(())
    /// ```
    pub fn add(&mut self, key: impl AsRef<[u8]>, value: impl Given<V>) -> Result<bool, Refusal> {
        Ok(!V::add(&mut self.tree, key.as_ref(), value.given())?)
    }

    /// Sets a key to a value where it is there, and tells whether it was set. Without the key nothing
    /// changes. Refused, nothing has changed.
    ///
    /// ```
    /// # use boltcomfrey::VersionedMap;
    /// let mut prices = VersionedMap::from([("tea", 300)]);
    /// assert!(prices.replace("tea", 350)?);
    /// assert!(!prices.replace("milk", 100)?);
    /// assert_eq!(prices.len(), 1);
    /// # Ok::<(), boltcomfrey::Refusal>(())
    /// ```
    pub fn replace(
        &mut self,
        key: impl AsRef<[u8]>,
        value: impl Given<V>,
    ) -> Result<bool, Refusal> {
        V::replace(&mut self.tree, key.as_ref(), value.given())
    }

    /// Takes a key out, and gives its value; the number rises by one then. Without the key nothing
    /// changes. Refused, nothing has changed. A byte string is copied before: `delete` does
    /// without.
    ///
    /// ```
    /// # use boltcomfrey::VersionedMap;
    /// let mut prices = VersionedMap::from([("tea", 300)]);
    /// assert_eq!(prices.remove("tea")?, Some(300));
    /// assert_eq!(prices.remove("tea")?, None);
    /// # Ok::<(), boltcomfrey::Refusal>(())
    /// ```
    pub fn remove(&mut self, key: impl AsRef<[u8]>) -> Result<Option<V>, Refusal> {
        V::remove(&mut self.tree, key.as_ref())
    }

    /// As `remove`, and gives the key too, which is copied before.
    ///
    /// ```
    /// # use boltcomfrey::VersionedMap;
    /// let mut prices = VersionedMap::from([("tea", 300)]);
    /// assert_eq!(prices.remove_entry("tea")?, Some((b"tea".to_vec(), 300)));
    /// # Ok::<(), boltcomfrey::Refusal>(())
    /// ```
    pub fn remove_entry(&mut self, key: impl AsRef<[u8]>) -> Result<Option<(Vec<u8>, V)>, Refusal> {
        let copy = copied(key.as_ref())?;
        Ok(self.remove(key)?.map(|value| (copy, value)))
    }

    /// As `remove`, and tells whether the key was there.
    ///
    /// ```
    /// # use boltcomfrey::VersionedBytes;
    /// let mut names = VersionedBytes::from([("tea", "Tea")]);
    /// assert!(names.delete("tea")?);
    /// assert!(!names.delete("tea")?);
    /// # Ok::<(), boltcomfrey::Refusal>(())
    /// ```
    pub fn delete(&mut self, key: impl AsRef<[u8]>) -> Result<bool, Refusal> {
        V::delete(&mut self.tree, key.as_ref())
    }

    /// Takes the first pair out, and gives it. It panics where it is refused; `try_pop_first`
    /// answers.
    ///
    /// ```
    /// # use boltcomfrey::VersionedMap;
    /// let mut prices = VersionedMap::from([("tea", 300), ("milk", 100)]);
    /// assert_eq!(prices.pop_first(), Some((b"milk".to_vec(), 100)));
    /// ```
    pub fn pop_first(&mut self) -> Option<(Vec<u8>, V)> {
        unrefused(self.try_pop_first())
    }

    /// Takes the first pair out, and gives it. Refused, nothing has changed.
    ///
    /// ```
    /// # use boltcomfrey::VersionedMap;
    /// assert_eq!(VersionedMap::new().try_pop_first()?, None);
    /// # Ok::<(), boltcomfrey::Refusal>(())
    /// ```
    pub fn try_pop_first(&mut self) -> Result<Option<(Vec<u8>, V)>, Refusal> {
        let pair = self.first(Bound::Unbounded)?;
        if let Some((key, _)) = &pair {
            self.delete(key)?;
        }
        Ok(pair)
    }

    /// Takes the last pair out, and gives it. It panics where it is refused; `try_pop_last` answers.
    ///
    /// ```
    /// # use boltcomfrey::VersionedMap;
    /// let mut prices = VersionedMap::from([("tea", 300), ("milk", 100)]);
    /// assert_eq!(prices.pop_last(), Some((b"tea".to_vec(), 300)));
    /// ```
    pub fn pop_last(&mut self) -> Option<(Vec<u8>, V)> {
        unrefused(self.try_pop_last())
    }

    /// Takes the last pair out, and gives it. Refused, nothing has changed.
    ///
    /// ```
    /// # use boltcomfrey::VersionedMap;
    /// assert_eq!(VersionedMap::new().try_pop_last()?, None);
    /// # Ok::<(), boltcomfrey::Refusal>(())
    /// ```
    pub fn try_pop_last(&mut self) -> Result<Option<(Vec<u8>, V)>, Refusal> {
        let pair = self.last(Bound::Unbounded)?;
        if let Some((key, _)) = &pair {
            self.delete(key)?;
        }
        Ok(pair)
    }

    /// Has a key what `f` makes of its value, or of the lack of one: `Some` sets it, `None` takes it
    /// out. The number rises as of `set` and `delete`. Refused, nothing has changed.
    ///
    /// ```
    /// # use boltcomfrey::VersionedMap;
    /// let mut counts = VersionedMap::new();
    /// for word in ["tea", "milk", "tea"] {
    ///     counts.update(word, |count| Some(count.unwrap_or(0) + 1))?;
    /// }
    /// assert_eq!(counts.get("tea"), Some(2));
    /// # Ok::<(), boltcomfrey::Refusal>(())
    /// ```
    pub fn update<T: Given<V>>(
        &mut self,
        key: impl AsRef<[u8]>,
        f: impl FnOnce(Option<V>) -> Option<T>,
    ) -> Result<(), Refusal> {
        match f(self.try_get(&key)?) {
            Some(value) => self.set(key, value)?,
            None => self.delete(key)?,
        };
        Ok(())
    }
}
