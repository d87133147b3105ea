//! Changes of many pairs.
use crate::error::{Refusal, unrefused};
use crate::extract::ExtractIf;
use crate::iter::Lent;
use crate::key_range::KeyRange;
use crate::map::Map;
use crate::memory::{copied, push};
use crate::value::{Given, Value};
use crate::walk::Walk;

impl<V: Value> Map<V> {
    /// Sets each key to its value, in order. At a refusal those before it are set, and no other.
    /// `extend` does the same, and panics where it is refused.
    ///
    /// ```
    /// # use boltcomfrey::VersionedMap;
    /// let mut prices = VersionedMap::new();
    /// prices.try_extend([("tea", 300), ("milk", 100)])?;
    /// assert_eq!(prices.len(), 2);
    /// # Ok::<(), boltcomfrey::Refusal>(())
    /// ```
    pub fn try_extend<K: AsRef<[u8]>, T: Given<V>>(
        &mut self,
        pairs: impl IntoIterator<Item = (K, T)>,
    ) -> Result<(), Refusal> {
        for (key, value) in pairs {
            self.set(key, value)?;
        }
        Ok(())
    }

    /// Takes out each pair that is not to be kept, in order. It panics where it is refused;
    /// `try_retain` answers.
    ///
    /// ```
    /// # use boltcomfrey::VersionedMap;
    /// let mut prices = VersionedMap::from([("tea", 300), ("milk", 100)]);
    /// prices.retain(|_, price| *price > 200);
    /// assert!(prices.contains_key("tea") && prices.len() == 1);
    /// ```
    pub fn retain(&mut self, keeps: impl FnMut(&[u8], &V) -> bool) {
        unrefused(self.try_retain(keeps));
    }

    /// Takes out each pair that is not to be kept, in order, once all were asked about. Refused before
    /// that, nothing has changed; at a later refusal those before it are out.
    pub fn try_retain(&mut self, mut keeps: impl FnMut(&[u8], &V) -> bool) -> Result<(), Refusal> {
        let mut out = Vec::new();
        self.iter().lent().try_for_each(|key, value| {
            if keeps(key, &V::copied(value)?) {
                return Ok(());
            }
            push(&mut out, copied(key)?)
        })?;
        out.iter().try_for_each(|key| self.delete(key).map(drop))
    }

    /// Those pairs of a range that a function chooses, in order, each taken out as it is given; those
    /// that aren't asked for stay. The function is lent each value to be read, where std's may write
    /// it. A range keeps copies of its bounds, as `range` does. It panics where it is refused;
    /// [`ExtractIf::try_next`] answers.
    ///
    /// ```
    /// # use boltcomfrey::VersionedMap;
    /// let mut prices = VersionedMap::from([("milk", 100), ("salt", 50), ("tea", 300)]);
    /// let cheap: VersionedMap = prices.extract_if("n".., |_, price| *price < 200).collect();
    /// assert_eq!(cheap, VersionedMap::from([("salt", 50)]));
    /// assert_eq!(prices, VersionedMap::from([("milk", 100), ("tea", 300)]));
    /// ```
    pub fn extract_if<F: FnMut(&[u8], &V) -> bool>(
        &mut self,
        range: impl KeyRange,
        chooses: F,
    ) -> ExtractIf<'_, V, F> {
        let walk = Walk::within(range.bounds(), self.len());
        ExtractIf::new(self, walk, chooses)
    }

    /// Moves all pairs of another map here, where they take the place of what had their keys. The
    /// other one is cleared. It panics where it is refused; `try_append` answers.
    ///
    /// ```
    /// # use boltcomfrey::VersionedMap;
    /// let mut prices = VersionedMap::from([("tea", 300)]);
    /// prices.append(&mut VersionedMap::from([("milk", 100)]));
    /// assert_eq!(prices.len(), 2);
    /// ```
    pub fn append(&mut self, other: &mut Map<V>)
    where
        V: Given<V>,
    {
        unrefused(self.try_append(other));
    }

    /// Moves all pairs of another map here, in order. At a refusal those before it are here, and the
    /// other map is as it was.
    pub fn try_append(&mut self, other: &mut Map<V>) -> Result<(), Refusal>
    where
        V: Given<V>,
    {
        self.set_each(other.iter().lent())?;
        other.clear();
        Ok(())
    }

    /// The pairs of both maps, this one's where a key is in both. It panics where it is refused;
    /// `try_union` answers.
    ///
    /// ```
    /// # use boltcomfrey::VersionedMap;
    /// let prices = VersionedMap::from([("tea", 300)]);
    /// let all = prices.union(VersionedMap::from([("tea", 350), ("milk", 100)]));
    /// assert_eq!(all, VersionedMap::from([("milk", 100), ("tea", 300)]));
    /// ```
    pub fn union(self, other: Map<V>) -> Map<V>
    where
        V: Given<V>,
    {
        unrefused(self.try_union(other))
    }

    /// The pairs of both maps, this one's where a key is in both: this one, with what the other has
    /// beside it. At a refusal both are dropped.
    pub fn try_union(mut self, other: Map<V>) -> Result<Map<V>, Refusal>
    where
        V: Given<V>,
    {
        let mut others = other.iter().lent();
        others.try_for_each(|key, value| V::add(&mut self.tree, key, value).map(drop))?;
        Ok(self)
    }

    /// Splits off the pairs from a key on, which are then a map of their own, its number how many
    /// they are. It panics where it is refused; `try_split_off` answers.
    ///
    /// ```
    /// # use boltcomfrey::VersionedMap;
    /// let mut prices = VersionedMap::from([("tea", 300), ("milk", 100)]);
    /// let behind = prices.split_off("n");
    /// assert!(prices.contains_key("milk") && behind.contains_key("tea"));
    /// ```
    pub fn split_off(&mut self, key: impl AsRef<[u8]>) -> Map<V>
    where
        V: Given<V>,
    {
        unrefused(self.try_split_off(key))
    }

    /// Splits off the pairs from a key on. At a refusal this map is as before.
    pub fn try_split_off(&mut self, key: impl AsRef<[u8]>) -> Result<Map<V>, Refusal>
    where
        V: Given<V>,
    {
        let mut behind = Map::with_longest_key(self.longest_key())?;
        behind.set_each(self.range(key.as_ref()..).lent())?;
        let (mut front, mut taken) = (self.try_clone()?, behind.iter().lent());
        taken.try_for_each(|key, _| front.delete(key).map(drop))?;
        *self = front;
        Ok(behind)
    }

    /// Sets each key that is lent to its value, in order.
    fn set_each(&mut self, mut pairs: Lent<'_, V>) -> Result<(), Refusal> {
        pairs.try_for_each(|key, value| V::set(&mut self.tree, key, value).map(drop))
    }
}
