use crate::error::Refusal;
use crate::raw::Tree;
use crate::value::{Calls, Given, Value};

mod changing;
mod comparing;
mod cursors;
mod entries;
mod many;
mod prefixes;
mod reading;
mod walking;

/// An ordered map from byte strings to values, of which snapshots change independently: a
/// [`VersionedMap`] or a [`VersionedBytes`].
///
/// Reads take `&self` and change nothing. Neither `Send` nor `Sync`, since maps share nodes: for
/// threads there is [`Unshared`](crate::Unshared).
///
/// ```compile_fail
/// fn sends<T: Send>(_: T) {}
/// sends(boltcomfrey::VersionedMap::new());
/// ```
///
/// ```compile_fail
/// fn shares<T: Sync>(_: T) {}
/// shares(boltcomfrey::VersionedMap::new());
/// ```
#[must_use = "a map that nobody keeps is freed at once"]
pub struct Map<V: Value> {
    pub(crate) tree: Tree<<V as Calls>::Handle>,
}

/// A map from byte strings to numbers.
pub type VersionedMap = Map<u64>;

/// A map from byte strings to byte strings. It keeps a copy of each value, which versions share; a
/// read copies it out.
pub type VersionedBytes = Map<Vec<u8>>;

impl<V: Value> Map<V> {
    /// A map without a key, its number 0. It takes no memory.
    ///
    /// ```
    /// # use boltcomfrey::VersionedMap;
    /// let prices = const { VersionedMap::new() };
    /// assert!(prices.is_empty());
    /// ```
    pub const fn new() -> Map<V> {
        Map { tree: Tree::new() }
    }

    /// A map without a key, with this number.
    ///
    /// ```
    /// # use boltcomfrey::VersionedMap;
    /// assert_eq!(VersionedMap::with_number(7)?.version(), 7);
    /// # Ok::<(), boltcomfrey::Refusal>(())
    /// ```
    pub fn with_number(number: u64) -> Result<Map<V>, Refusal> {
        let tree = Tree::with_number(number)?;
        Ok(Map { tree })
    }

    /// A map without a key, its number 0, whose keys may have so many bytes, in place of 1,024. Its
    /// snapshots and clones keep that.
    ///
    /// A chain of keys that begin one another takes some 500 bytes of stack for each byte of the
    /// longest, so a limit ends what a stranger's keys can take.
    ///
    /// ```
    /// # use boltcomfrey::{Refusal, VersionedMap};
    /// let mut prices = VersionedMap::with_longest_key(3)?;
    /// prices.insert("tea", 300)?;
    /// assert_eq!(prices.insert("milk", 100), Err(Refusal::TooLong));
    /// # Ok::<(), Refusal>(())
    /// ```
    pub fn with_longest_key(bytes: usize) -> Result<Map<V>, Refusal> {
        let mut map = Map::new();
        map.set_longest_key(bytes)?;
        Ok(map)
    }

    /// How many bytes a key may have: no key is longer.
    ///
    /// ```
    /// # use boltcomfrey::VersionedMap;
    /// assert_eq!(VersionedMap::new().longest_key(), 1024);
    /// ```
    #[must_use]
    pub fn longest_key(&self) -> usize {
        self.tree.longest_key()
    }

    /// Sets how many bytes a key may have, of a map without a key. With one it is refused, and
    /// nothing has changed.
    ///
    /// ```
    /// # use boltcomfrey::VersionedMap;
    /// let mut prices = VersionedMap::with_number(7)?;
    /// prices.set_longest_key(64)?;
    /// assert_eq!((prices.version(), prices.longest_key()), (7, 64));
    /// # Ok::<(), boltcomfrey::Refusal>(())
    /// ```
    pub fn set_longest_key(&mut self, bytes: usize) -> Result<(), Refusal> {
        self.tree.set_longest_key(bytes)
    }

    /// A map of these pairs, of which a later one takes the place of an earlier one. Its number is
    /// how many there were. `collect` and `From` do the same, and panic where they are refused.
    ///
    /// ```
    /// # use boltcomfrey::VersionedMap;
    /// let prices = VersionedMap::try_from_iter([("tea", 300), ("milk", 100)])?;
    /// assert_eq!(prices.len(), 2);
    /// # Ok::<(), boltcomfrey::Refusal>(())
    /// ```
    pub fn try_from_iter<K: AsRef<[u8]>, T: Given<V>>(
        pairs: impl IntoIterator<Item = (K, T)>,
    ) -> Result<Map<V>, Refusal> {
        let mut map = Map::new();
        map.try_extend(pairs)?;
        Ok(map)
    }

    /// As `try_from_iter`, of pairs that may be errors, up to the first that is one or is refused. To
    /// `collect` them into a `Result` does the same, and panics where it is refused.
    ///
    /// ```
    /// # use boltcomfrey::VersionedMap;
    /// # use std::error::Error;
    /// fn read(line: &str) -> Result<(&str, u64), Box<dyn Error>> {
    ///     let (name, price) = line.split_once(' ').ok_or("no price")?;
    ///     Ok((name, price.parse()?))
    /// }
    /// let prices = VersionedMap::try_from_results("tea 300\nmilk 100".lines().map(read))?;
    /// assert_eq!(prices.get("milk"), Some(100));
    /// assert!(VersionedMap::try_from_results("tea".lines().map(read)).is_err());
    /// # Ok::<(), Box<dyn Error>>(())
    /// ```
    pub fn try_from_results<K: AsRef<[u8]>, T: Given<V>, E: From<Refusal>>(
        pairs: impl IntoIterator<Item = Result<(K, T), E>>,
    ) -> Result<Map<V>, E> {
        let mut map = Map::new();
        for pair in pairs {
            let (key, value) = pair?;
            map.set(key, value)?;
        }
        Ok(map)
    }

    /// The number, at first 0 or that of `with_number`. An insertion raises it by one, and so does
    /// the removal of a key that is there; `restore_prefix` adds the other map's. A snapshot's is
    /// one greater, and this one stays then. So two maps with one number may differ.
    ///
    /// ```
    /// # use boltcomfrey::VersionedMap;
    /// let mut prices = VersionedMap::new();
    /// prices.insert(b"tea", 300)?;
    /// assert_eq!(prices.version(), 1);
    /// # Ok::<(), boltcomfrey::Refusal>(())
    /// ```
    #[must_use]
    pub fn version(&self) -> u64 {
        self.tree.version()
    }

    /// The number of keys, which is kept and not counted.
    ///
    /// ```
    /// # use boltcomfrey::VersionedMap;
    /// let mut prices = VersionedMap::new();
    /// prices.insert(b"tea", 300)?;
    /// assert_eq!(prices.len(), 1);
    /// # Ok::<(), boltcomfrey::Refusal>(())
    /// ```
    #[must_use]
    pub fn len(&self) -> usize {
        self.tree.len()
    }

    /// Whether there is no key.
    ///
    /// ```
    /// # use boltcomfrey::VersionedMap;
    /// assert!(VersionedMap::new().is_empty());
    /// ```
    #[must_use]
    pub fn is_empty(&self) -> bool {
        self.len() == 0
    }

    /// Takes all keys out. The map is then as `new` makes it, its number 0 and its longest key too:
    /// `remove_prefix("")` keeps how long a key may be.
    ///
    /// ```
    /// # use boltcomfrey::VersionedMap;
    /// let mut prices = VersionedMap::from([("tea", 300)]);
    /// prices.clear();
    /// assert_eq!(prices, VersionedMap::new());
    /// ```
    pub fn clear(&mut self) {
        *self = Map::new();
    }

    /// The same map once more, its number one greater. No node is copied before one of both
    /// changes.
    ///
    /// ```
    /// # use boltcomfrey::VersionedMap;
    /// let mut prices = VersionedMap::from([("tea", 300)]);
    /// let yesterday = prices.snapshot()?;
    /// prices.insert("tea", 350)?;
    /// assert_eq!(yesterday.get("tea"), Some(300));
    /// # Ok::<(), boltcomfrey::Refusal>(())
    /// ```
    pub fn snapshot(&self) -> Result<Map<V>, Refusal> {
        let tree = self.tree.snapshot()?;
        Ok(Map { tree })
    }

    /// The same map once more, its number too. `clone` does the same, and panics where it is
    /// refused.
    ///
    /// ```
    /// # use boltcomfrey::VersionedMap;
    /// let prices = VersionedMap::with_number(7)?;
    /// assert_eq!(prices.try_clone()?.version(), 7);
    /// # Ok::<(), boltcomfrey::Refusal>(())
    /// ```
    pub fn try_clone(&self) -> Result<Map<V>, Refusal> {
        let tree = self.tree.try_clone()?;
        Ok(Map { tree })
    }
}
