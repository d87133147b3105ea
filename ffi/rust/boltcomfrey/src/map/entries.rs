//! Keys at which something is to be done.
use crate::entry::{Entry, InsertError, OccupiedEntry};
use crate::error::{Refusal, unrefused};
use crate::map::Map;
use crate::memory::copied;
use crate::value::{Given, Value};
use std::ops::Bound;

impl<V: Value> Map<V> {
    /// A key, there or not, to be set where it isn't or changed where it is. The key is copied, and so
    /// is a byte string: it panics where a copy is refused. `try_entry` answers.
    ///
    /// ```
    /// # use boltcomfrey::VersionedMap;
    /// let mut prices = VersionedMap::new();
    /// assert_eq!(prices.entry("tea").or_insert(300)?, 300);
    /// # Ok::<(), boltcomfrey::Refusal>(())
    /// ```
    pub fn entry(&mut self, key: impl AsRef<[u8]>) -> Entry<'_, V> {
        unrefused(self.try_entry(key))
    }

    /// As `entry`. Refused where a copy gets no memory.
    ///
    /// ```
    /// # use boltcomfrey::VersionedBytes;
    /// let mut names = VersionedBytes::new();
    /// names.try_entry("tea")?.or_insert_with_key(<[u8]>::to_ascii_uppercase)?;
    /// assert_eq!(names.get("tea"), Some(b"TEA".to_vec()));
    /// # Ok::<(), boltcomfrey::Refusal>(())
    /// ```
    pub fn try_entry(&mut self, key: impl AsRef<[u8]>) -> Result<Entry<'_, V>, Refusal> {
        let (copy, value) = (copied(key.as_ref())?, self.try_get(key)?);
        Ok(Entry::new(self, copy, value))
    }

    /// The first key, to be changed or taken out, if there is one. It panics where its copy, or that
    /// of its byte string, is refused; `try_first_entry` answers.
    ///
    /// ```
    /// # use boltcomfrey::VersionedMap;
    /// let mut prices = VersionedMap::from([("tea", 300), ("milk", 100)]);
    /// assert_eq!(prices.first_entry().map(|it| it.key().to_vec()), Some(b"milk".to_vec()));
    /// ```
    pub fn first_entry(&mut self) -> Option<OccupiedEntry<'_, V>> {
        unrefused(self.try_first_entry())
    }

    /// As `first_entry`. Refused where a copy gets no memory.
    ///
    /// ```
    /// # use boltcomfrey::VersionedMap;
    /// assert!(VersionedMap::new().try_first_entry()?.is_none());
    /// # Ok::<(), boltcomfrey::Refusal>(())
    /// ```
    pub fn try_first_entry(&mut self) -> Result<Option<OccupiedEntry<'_, V>>, Refusal> {
        let first = self.first(Bound::Unbounded)?;
        Ok(first.map(|(key, value)| OccupiedEntry::new(self, key, value)))
    }

    /// The last key, to be changed or taken out, if there is one. It panics where its copy, or that
    /// of its byte string, is refused; `try_last_entry` answers.
    ///
    /// ```
    /// # use boltcomfrey::VersionedMap;
    /// let mut prices = VersionedMap::from([("tea", 300), ("milk", 100)]);
    /// assert_eq!(prices.last_entry().map(|it| it.key().to_vec()), Some(b"tea".to_vec()));
    /// ```
    pub fn last_entry(&mut self) -> Option<OccupiedEntry<'_, V>> {
        unrefused(self.try_last_entry())
    }

    /// As `last_entry`. Refused where a copy gets no memory.
    ///
    /// ```
    /// # use boltcomfrey::VersionedMap;
    /// assert!(VersionedMap::new().try_last_entry()?.is_none());
    /// # Ok::<(), boltcomfrey::Refusal>(())
    /// ```
    pub fn try_last_entry(&mut self) -> Result<Option<OccupiedEntry<'_, V>>, Refusal> {
        let last = self.last(Bound::Unbounded)?;
        Ok(last.map(|(key, value)| OccupiedEntry::new(self, key, value)))
    }

    /// Sets a key to a value where it is not there. Where it is there nothing changes, and the error
    /// has the key's entry and the value, as std's `OccupiedError`; `add` tells so by a `bool`, and
    /// copies nothing. Refused, nothing has changed.
    ///
    /// ```
    /// # use boltcomfrey::{InsertError, Refusal, VersionedMap};
    /// let mut prices = VersionedMap::new();
    /// assert!(prices.try_insert("tea", 300).is_ok());
    /// match prices.try_insert("tea", 350) {
    ///     Ok(()) => unreachable!("there is tea"),
    ///     Err(InsertError::Occupied { entry, value }) => {
    ///         assert_eq!((entry.key(), entry.get(), value), (&b"tea"[..], &300, 350));
    ///     }
    ///     Err(InsertError::Refused(refusal)) => return Err(refusal),
    /// }
    /// # Ok::<(), Refusal>(())
    /// ```
    pub fn try_insert<T: Given<V>>(
        &mut self,
        key: impl AsRef<[u8]>,
        value: T,
    ) -> Result<(), InsertError<'_, V, T>> {
        let key = key.as_ref();
        if V::add(&mut self.tree, key, value.given())? {
            let (copy, there) = (copied(key)?, self.try_get(key)?);
            if let Some(there) = there {
                let entry = OccupiedEntry::new(self, copy, there);
                return Err(InsertError::Occupied { entry, value });
            }
        }
        Ok(())
    }
}
