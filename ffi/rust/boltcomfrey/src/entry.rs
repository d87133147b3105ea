use crate::error::Refusal;
use crate::map::Map;
use crate::value::{Given, Text, Value};
use std::error::Error;
use std::fmt;
use std::mem::replace;

/// A key of a map, there or not, at which something is to be done: [`Map::entry`] gives it. As std's,
/// but that values are copied out, so none is lent to be written: [`Entry::and_modify`] gives one
/// back.
///
/// ```
/// # use boltcomfrey::{Entry, Refusal, VersionedMap};
/// let mut prices = VersionedMap::from([("tea", 300)]);
/// let price = match prices.entry("tea") {
///     Entry::Occupied(tea) => *tea.get(),
///     Entry::Vacant(tea) => tea.insert(100)?,
/// };
/// assert_eq!(price, 300);
/// # Ok::<(), Refusal>(())
/// ```
pub enum Entry<'a, V: Value> {
    /// The key is there.
    Occupied(OccupiedEntry<'a, V>),
    /// The key is not there.
    Vacant(VacantEntry<'a, V>),
}

impl<'a, V: Value> Entry<'a, V> {
    pub(crate) fn new(map: &'a mut Map<V>, key: Vec<u8>, value: Option<V>) -> Entry<'a, V> {
        match value {
            Some(value) => Entry::Occupied(OccupiedEntry::new(map, key, value)),
            None => Entry::Vacant(VacantEntry { map, key }),
        }
    }

    /// The key.
    ///
    /// ```
    /// # use boltcomfrey::VersionedMap;
    /// assert_eq!(VersionedMap::new().entry("tea").key(), b"tea");
    /// ```
    #[must_use]
    pub fn key(&self) -> &[u8] {
        match self {
            Entry::Occupied(entry) => entry.key(),
            Entry::Vacant(entry) => entry.key(),
        }
    }

    /// The value, if the key is there.
    ///
    /// ```
    /// # use boltcomfrey::VersionedMap;
    /// assert_eq!(VersionedMap::from([("tea", 300)]).entry("tea").get(), Some(&300));
    /// ```
    #[must_use]
    pub fn get(&self) -> Option<&V> {
        match self {
            Entry::Occupied(entry) => Some(entry.get()),
            Entry::Vacant(_) => None,
        }
    }

    /// That no change of `and_modify` was refused, or why one was.
    ///
    /// ```
    /// # use boltcomfrey::VersionedMap;
    /// let mut counts = VersionedMap::from([("tea", 1)]);
    /// counts.entry("tea").and_modify(|count| *count += 1).finish()?;
    /// assert_eq!(counts.get("tea"), Some(2));
    /// # Ok::<(), boltcomfrey::Refusal>(())
    /// ```
    pub fn finish(&self) -> Result<(), Refusal> {
        match self {
            Entry::Occupied(entry) => entry.told(),
            Entry::Vacant(_) => Ok(()),
        }
    }
}

impl<'a, V: Value + Given<V>> Entry<'a, V> {
    /// The value of the key, which is set to this one where it is not there. Refused, nothing has
    /// changed.
    ///
    /// ```
    /// # use boltcomfrey::VersionedMap;
    /// let mut prices = VersionedMap::from([("tea", 300)]);
    /// assert_eq!(prices.entry("tea").or_insert(350)?, 300);
    /// assert_eq!(prices.entry("milk").or_insert(100)?, 100);
    /// # Ok::<(), boltcomfrey::Refusal>(())
    /// ```
    pub fn or_insert(self, value: V) -> Result<V, Refusal> {
        self.or_insert_with(|| value)
    }

    /// As `or_insert`, of a value that is made where it is needed.
    ///
    /// ```
    /// # use boltcomfrey::VersionedMap;
    /// let mut prices = VersionedMap::from([("tea", 300)]);
    /// assert_eq!(prices.entry("tea").or_insert_with(|| unreachable!())?, 300);
    /// # Ok::<(), boltcomfrey::Refusal>(())
    /// ```
    pub fn or_insert_with(self, make: impl FnOnce() -> V) -> Result<V, Refusal> {
        self.or_insert_with_key(|_| make())
    }

    /// As `or_insert`, of a value that is made of the key where it is needed.
    ///
    /// ```
    /// # use boltcomfrey::VersionedMap;
    /// let mut lengths = VersionedMap::new();
    /// assert_eq!(lengths.entry("tea").or_insert_with_key(|key| key.len() as u64)?, 3);
    /// # Ok::<(), boltcomfrey::Refusal>(())
    /// ```
    pub fn or_insert_with_key(self, make: impl FnOnce(&[u8]) -> V) -> Result<V, Refusal> {
        match self {
            Entry::Occupied(entry) => entry.told().map(|()| entry.value),
            Entry::Vacant(entry) => {
                let value = make(&entry.key);
                entry.insert(value)
            }
        }
    }

    /// As `or_insert`, of 0 or the empty byte string.
    ///
    /// ```
    /// # use boltcomfrey::VersionedBytes;
    /// assert_eq!(VersionedBytes::new().entry("tea").or_default()?, b"");
    /// # Ok::<(), boltcomfrey::Refusal>(())
    /// ```
    pub fn or_default(self) -> Result<V, Refusal>
    where
        V: Default,
    {
        self.or_insert_with(V::default)
    }

    /// Sets the key to what `f` makes of its value, if it is there. Refused, nothing has changed in
    /// the map, and the calls of the entry that answer a `Result` answer that refusal.
    ///
    /// ```
    /// # use boltcomfrey::VersionedMap;
    /// let mut counts = VersionedMap::new();
    /// for word in ["tea", "milk", "tea"] {
    ///     counts.entry(word).and_modify(|count| *count += 1).or_insert(1)?;
    /// }
    /// assert_eq!(counts.get("tea"), Some(2));
    /// # Ok::<(), boltcomfrey::Refusal>(())
    /// ```
    #[must_use = "a refusal is told by the next call: `finish` is one"]
    pub fn and_modify(self, f: impl FnOnce(&mut V)) -> Entry<'a, V> {
        match self {
            Entry::Occupied(entry) => Entry::Occupied(entry.modified(f)),
            vacant => vacant,
        }
    }

    /// Sets the key to a value, and gives the one before. Refused, nothing has changed.
    ///
    /// ```
    /// # use boltcomfrey::VersionedMap;
    /// let mut prices = VersionedMap::from([("tea", 300)]);
    /// assert_eq!(prices.entry("tea").insert(350)?, Some(300));
    /// assert_eq!(prices.entry("milk").insert(100)?, None);
    /// # Ok::<(), boltcomfrey::Refusal>(())
    /// ```
    pub fn insert(self, value: V) -> Result<Option<V>, Refusal> {
        match self {
            Entry::Occupied(mut entry) => entry.insert(value).map(Some),
            Entry::Vacant(entry) => entry.insert(value).map(|_| None),
        }
    }

    /// Sets the key to a value, and gives its entry. Refused, nothing has changed.
    ///
    /// ```
    /// # use boltcomfrey::VersionedMap;
    /// let mut prices = VersionedMap::new();
    /// let tea = prices.entry("tea").insert_entry(300)?;
    /// assert_eq!((tea.key(), tea.get()), (&b"tea"[..], &300));
    /// # Ok::<(), boltcomfrey::Refusal>(())
    /// ```
    pub fn insert_entry(self, value: V) -> Result<OccupiedEntry<'a, V>, Refusal> {
        match self {
            Entry::Occupied(mut entry) => entry.insert(value).map(|_| entry),
            Entry::Vacant(entry) => entry.insert_entry(value),
        }
    }

    /// Takes the key out, and gives its value, if it is there. Refused, nothing has changed.
    ///
    /// ```
    /// # use boltcomfrey::VersionedMap;
    /// let mut prices = VersionedMap::from([("tea", 300)]);
    /// assert_eq!(prices.entry("tea").remove()?, Some(300));
    /// assert_eq!(prices.entry("milk").remove()?, None);
    /// # Ok::<(), boltcomfrey::Refusal>(())
    /// ```
    pub fn remove(self) -> Result<Option<V>, Refusal> {
        match self {
            Entry::Occupied(entry) => entry.remove().map(Some),
            Entry::Vacant(_) => Ok(None),
        }
    }
}

/// A key that is there, with a copy of its value: [`Entry`], [`Map::first_entry`] and
/// [`Map::last_entry`] give it.
pub struct OccupiedEntry<'a, V: Value> {
    map: &'a mut Map<V>,
    key: Vec<u8>,
    value: V,
    // Why a change of `and_modify` was refused, which later calls answer.
    refused: Option<Refusal>,
}

impl<'a, V: Value> OccupiedEntry<'a, V> {
    pub(crate) fn new(map: &'a mut Map<V>, key: Vec<u8>, value: V) -> OccupiedEntry<'a, V> {
        OccupiedEntry {
            map,
            key,
            value,
            refused: None,
        }
    }

    /// The key.
    ///
    /// ```
    /// # use boltcomfrey::VersionedMap;
    /// let mut prices = VersionedMap::from([("tea", 300), ("milk", 100)]);
    /// assert_eq!(prices.first_entry().expect("a price").key(), b"milk");
    /// ```
    #[must_use]
    pub fn key(&self) -> &[u8] {
        &self.key
    }

    /// The value. Behind an `and_modify` that was refused it is what that made, and not what the map
    /// has.
    ///
    /// ```
    /// # use boltcomfrey::VersionedMap;
    /// let mut prices = VersionedMap::from([("tea", 300), ("milk", 100)]);
    /// assert_eq!(prices.first_entry().expect("a price").get(), &100);
    /// ```
    #[must_use]
    pub fn get(&self) -> &V {
        &self.value
    }

    /// Takes the key out, and gives its value. Refused, nothing has changed.
    ///
    /// ```
    /// # use boltcomfrey::VersionedMap;
    /// let mut prices = VersionedMap::from([("tea", 300), ("milk", 100)]);
    /// assert_eq!(prices.last_entry().expect("a price").remove()?, 300);
    /// assert_eq!(prices.len(), 1);
    /// # Ok::<(), boltcomfrey::Refusal>(())
    /// ```
    pub fn remove(self) -> Result<V, Refusal> {
        self.remove_entry().map(|pair| pair.1)
    }

    /// Takes the key out, and gives it with its value. Refused, nothing has changed.
    ///
    /// ```
    /// # use boltcomfrey::VersionedMap;
    /// let mut prices = VersionedMap::from([("tea", 300)]);
    /// let tea = prices.first_entry().expect("a price");
    /// assert_eq!(tea.remove_entry()?, (b"tea".to_vec(), 300));
    /// # Ok::<(), boltcomfrey::Refusal>(())
    /// ```
    pub fn remove_entry(self) -> Result<(Vec<u8>, V), Refusal> {
        self.told()?;
        self.map.delete(&self.key)?;
        Ok((self.key, self.value))
    }

    fn told(&self) -> Result<(), Refusal> {
        self.refused.map_or(Ok(()), Err)
    }
}

impl<V: Value + Given<V>> OccupiedEntry<'_, V> {
    /// Sets the key to a value, and gives the one before. Refused, nothing has changed.
    ///
    /// ```
    /// # use boltcomfrey::VersionedMap;
    /// let mut prices = VersionedMap::from([("tea", 300)]);
    /// let mut tea = prices.first_entry().expect("a price");
    /// assert_eq!((tea.insert(350)?, tea.get()), (300, &350));
    /// # Ok::<(), boltcomfrey::Refusal>(())
    /// ```
    pub fn insert(&mut self, value: V) -> Result<V, Refusal> {
        self.told()?;
        V::set(&mut self.map.tree, &self.key, value.given())?;
        Ok(replace(&mut self.value, value))
    }

    fn modified(mut self, f: impl FnOnce(&mut V)) -> Self {
        if self.refused.is_none() {
            f(&mut self.value);
            let told = V::set(&mut self.map.tree, &self.key, self.value.given());
            self.refused = told.err();
        }
        self
    }
}

/// A key that is not there: [`Entry`] gives it.
pub struct VacantEntry<'a, V: Value> {
    map: &'a mut Map<V>,
    key: Vec<u8>,
}

impl<V: Value> VacantEntry<'_, V> {
    /// The key.
    ///
    /// ```
    /// # use boltcomfrey::{Entry, VersionedMap};
    /// # let mut prices = VersionedMap::new();
    /// let Entry::Vacant(tea) = prices.entry("tea") else { panic!("there is tea") };
    /// assert_eq!(tea.key(), b"tea");
    /// ```
    #[must_use]
    pub fn key(&self) -> &[u8] {
        &self.key
    }

    /// The key, and the map stays without it.
    ///
    /// ```
    /// # use boltcomfrey::{Entry, VersionedMap};
    /// # let mut prices = VersionedMap::new();
    /// let Entry::Vacant(tea) = prices.entry("tea") else { panic!("there is tea") };
    /// assert_eq!(tea.into_key(), b"tea");
    /// assert!(prices.is_empty());
    /// ```
    #[must_use]
    pub fn into_key(self) -> Vec<u8> {
        self.key
    }
}

impl<'a, V: Value + Given<V>> VacantEntry<'a, V> {
    /// Sets the key to a value, which it gives back. Refused, nothing has changed.
    ///
    /// ```
    /// # use boltcomfrey::{Entry, VersionedMap};
    /// # let mut prices = VersionedMap::new();
    /// let Entry::Vacant(tea) = prices.entry("tea") else { panic!("there is tea") };
    /// assert_eq!(tea.insert(300)?, 300);
    /// assert_eq!(prices.len(), 1);
    /// # Ok::<(), boltcomfrey::Refusal>(())
    /// ```
    pub fn insert(self, value: V) -> Result<V, Refusal> {
        Ok(self.insert_entry(value)?.value)
    }

    /// Sets the key to a value, and gives its entry. Refused, nothing has changed.
    ///
    /// ```
    /// # use boltcomfrey::{Entry, VersionedMap};
    /// # let mut prices = VersionedMap::new();
    /// let Entry::Vacant(tea) = prices.entry("tea") else { panic!("there is tea") };
    /// assert_eq!(tea.insert_entry(300)?.remove()?, 300);
    /// assert!(prices.is_empty());
    /// # Ok::<(), boltcomfrey::Refusal>(())
    /// ```
    pub fn insert_entry(self, value: V) -> Result<OccupiedEntry<'a, V>, Refusal> {
        V::set(&mut self.map.tree, &self.key, value.given())?;
        Ok(OccupiedEntry::new(self.map, self.key, value))
    }
}

/// As std shows an entry, but for the value.
impl<V: Value> fmt::Debug for Entry<'_, V> {
    fn fmt(&self, f: &mut fmt::Formatter<'_>) -> fmt::Result {
        let mut shown = f.debug_tuple("Entry");
        match self {
            Entry::Occupied(entry) => shown.field(entry),
            Entry::Vacant(entry) => shown.field(entry),
        };
        shown.finish()
    }
}

impl<V: Value> fmt::Debug for OccupiedEntry<'_, V> {
    fn fmt(&self, f: &mut fmt::Formatter<'_>) -> fmt::Result {
        let mut shown = f.debug_struct("OccupiedEntry");
        shown.field("key", &Text(&self.key)).finish_non_exhaustive()
    }
}

impl<V: Value> fmt::Debug for VacantEntry<'_, V> {
    fn fmt(&self, f: &mut fmt::Formatter<'_>) -> fmt::Result {
        let mut shown = f.debug_tuple("VacantEntry");
        shown.field(&Text(&self.key)).finish()
    }
}

/// Why [`Map::try_insert`] did not set a key. Nothing has changed then.
pub enum InsertError<'a, V: Value, T> {
    /// The key is there: what std's `OccupiedError` has.
    Occupied {
        /// The key, and the value that it has.
        entry: OccupiedEntry<'a, V>,
        /// The value that it was to be set to.
        value: T,
    },
    /// It was refused, or, of a key that is there, a copy of it or of its value.
    Refused(Refusal),
}

impl<V: Value, T> From<Refusal> for InsertError<'_, V, T> {
    fn from(refusal: Refusal) -> Self {
        InsertError::Refused(refusal)
    }
}

impl<V: Value, T: fmt::Debug> fmt::Debug for InsertError<'_, V, T> {
    fn fmt(&self, f: &mut fmt::Formatter<'_>) -> fmt::Result {
        match self {
            InsertError::Occupied { entry, value } => {
                let mut shown = f.debug_struct("Occupied");
                shown.field("entry", entry).field("value", value).finish()
            }
            InsertError::Refused(refusal) => f.debug_tuple("Refused").field(refusal).finish(),
        }
    }
}

impl<V: Value, T> fmt::Display for InsertError<'_, V, T> {
    fn fmt(&self, f: &mut fmt::Formatter<'_>) -> fmt::Result {
        match self {
            InsertError::Occupied { entry, .. } => {
                write!(f, "the key \"{}\" is there", entry.key.escape_ascii())
            }
            InsertError::Refused(refusal) => refusal.fmt(f),
        }
    }
}

impl<V: Value, T: fmt::Debug> Error for InsertError<'_, V, T> {}
