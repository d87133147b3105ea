//! Cursors, as std's unstable ones: places between two keys, from which a program goes either way.
use crate::error::{Refusal, unrefused};
use crate::map::Map;
use crate::memory::copied;
use crate::raw::Order;
use crate::value::{Given, Value};
use std::fmt;
use std::ops::Bound;

/// A place between two keys, told by a key and not by its neighbours: so it stays right where these
/// are taken out.
#[derive(Clone)]
pub(crate) enum Gap {
    Before(Vec<u8>),
    Behind(Vec<u8>),
    AtEnd,
}

impl Gap {
    /// Before all keys that meet a lower bound.
    pub(crate) fn before(low: Bound<&[u8]>) -> Result<Gap, Refusal> {
        Ok(match low {
            Bound::Included(key) => Gap::Before(copied(key)?),
            Bound::Excluded(key) => Gap::Behind(copied(key)?),
            Bound::Unbounded => Gap::Before(Vec::new()),
        })
    }

    /// Behind all keys that meet an upper bound.
    pub(crate) fn behind(high: Bound<&[u8]>) -> Result<Gap, Refusal> {
        Ok(match high {
            Bound::Included(key) => Gap::Behind(copied(key)?),
            Bound::Excluded(key) => Gap::Before(copied(key)?),
            Bound::Unbounded => Gap::AtEnd,
        })
    }

    /// On the other side of a pair that comes next in an order.
    fn past(order: Order, key: &[u8]) -> Result<Gap, Refusal> {
        let key = copied(key)?;
        Ok(match order {
            Order::Ascending => Gap::Behind(key),
            Order::Descending => Gap::Before(key),
        })
    }

    /// The pair that comes next in an order.
    fn next<V: Value>(&self, map: &Map<V>, order: Order) -> Result<Option<(Vec<u8>, V)>, Refusal> {
        match (order, self) {
            (Order::Ascending, Gap::Before(key)) => map.first(Bound::Included(key)),
            (Order::Ascending, Gap::Behind(key)) => map.first(Bound::Excluded(key)),
            (Order::Ascending, Gap::AtEnd) => Ok(None),
            (Order::Descending, Gap::Before(key)) => map.last(Bound::Excluded(key)),
            (Order::Descending, Gap::Behind(key)) => map.last(Bound::Included(key)),
            (Order::Descending, Gap::AtEnd) => map.last(Bound::Unbounded),
        }
    }
}

/// The methods that go or look either way.
macro_rules! goes_either_way {
    ($cursor:ident) => {
        impl<V: Value> $cursor<'_, V> {
            /// The pair behind the gap, past which the cursor goes. Without one it stays. It panics
            /// where memory is refused; `try_next` answers.
            ///
            /// ```
            /// # use boltcomfrey::VersionedMap;
            /// # use std::ops::Bound;
            /// let prices = VersionedMap::from([("milk", 100), ("tea", 300)]);
            /// let mut cursor = prices.lower_bound(Bound::Included("n"));
            /// assert_eq!(cursor.next(), Some((b"tea".to_vec(), 300)));
            /// assert_eq!(cursor.next(), None);
            /// ```
            #[allow(clippy::should_implement_trait)] // (as std names it, and it goes back too)
            pub fn next(&mut self) -> Option<(Vec<u8>, V)> {
                unrefused(self.try_next())
            }

            /// As `next`. Refused, the cursor stays.
            ///
            /// ```
            /// # use boltcomfrey::VersionedMap;
            /// # use std::ops::Bound;
            /// let prices = VersionedMap::from([("milk", 100), ("tea", 300)]);
            /// let mut cursor = prices.lower_bound(Bound::Included("n"));
            /// assert_eq!(cursor.try_next()?, Some((b"tea".to_vec(), 300)));
            /// # Ok::<(), boltcomfrey::Refusal>(())
            /// ```
            pub fn try_next(&mut self) -> Result<Option<(Vec<u8>, V)>, Refusal> {
                self.step(Order::Ascending)
            }

            /// The pair before the gap, past which the cursor goes back. Without one it stays. It
            /// panics where memory is refused; `try_prev` answers.
            ///
            /// ```
            /// # use boltcomfrey::VersionedMap;
            /// # use std::ops::Bound;
            /// let prices = VersionedMap::from([("milk", 100), ("tea", 300)]);
            /// let mut cursor = prices.lower_bound(Bound::Included("n"));
            /// assert_eq!(cursor.prev(), Some((b"milk".to_vec(), 100)));
            /// assert_eq!(cursor.prev(), None);
            /// ```
            pub fn prev(&mut self) -> Option<(Vec<u8>, V)> {
                unrefused(self.try_prev())
            }

            /// As `prev`. Refused, the cursor stays.
            ///
            /// ```
            /// # use boltcomfrey::VersionedMap;
            /// # use std::ops::Bound;
            /// let prices = VersionedMap::from([("milk", 100), ("tea", 300)]);
            /// let mut cursor = prices.lower_bound(Bound::Included("n"));
            /// assert_eq!(cursor.try_prev()?, Some((b"milk".to_vec(), 100)));
            /// # Ok::<(), boltcomfrey::Refusal>(())
            /// ```
            pub fn try_prev(&mut self) -> Result<Option<(Vec<u8>, V)>, Refusal> {
                self.step(Order::Descending)
            }

            /// The pair behind the gap. It panics where memory is refused; `try_peek_next` answers.
            ///
            /// ```
            /// # use boltcomfrey::VersionedMap;
            /// # use std::ops::Bound;
            /// let prices = VersionedMap::from([("milk", 100), ("tea", 300)]);
            /// let cursor = prices.lower_bound(Bound::Included("n"));
            /// assert_eq!(cursor.peek_next(), Some((b"tea".to_vec(), 300)));
            /// ```
            #[must_use]
            pub fn peek_next(&self) -> Option<(Vec<u8>, V)> {
                unrefused(self.try_peek_next())
            }

            /// As `peek_next`. Refused where the copies get no memory.
            ///
            /// ```
            /// # use boltcomfrey::VersionedMap;
            /// # use std::ops::Bound;
            /// let prices = VersionedMap::from([("milk", 100), ("tea", 300)]);
            /// let cursor = prices.lower_bound(Bound::Included("n"));
            /// assert_eq!(cursor.try_peek_next()?, Some((b"tea".to_vec(), 300)));
            /// # Ok::<(), boltcomfrey::Refusal>(())
            /// ```
            pub fn try_peek_next(&self) -> Result<Option<(Vec<u8>, V)>, Refusal> {
                self.peek(Order::Ascending)
            }

            /// The pair before the gap. It panics where memory is refused; `try_peek_prev` answers.
            ///
            /// ```
            /// # use boltcomfrey::VersionedMap;
            /// # use std::ops::Bound;
            /// let prices = VersionedMap::from([("milk", 100), ("tea", 300)]);
            /// let cursor = prices.lower_bound(Bound::Included("n"));
            /// assert_eq!(cursor.peek_prev(), Some((b"milk".to_vec(), 100)));
            /// ```
            #[must_use]
            pub fn peek_prev(&self) -> Option<(Vec<u8>, V)> {
                unrefused(self.try_peek_prev())
            }

            /// As `peek_prev`. Refused where the copies get no memory.
            ///
            /// ```
            /// # use boltcomfrey::VersionedMap;
            /// # use std::ops::Bound;
            /// let prices = VersionedMap::from([("milk", 100), ("tea", 300)]);
            /// let cursor = prices.lower_bound(Bound::Included("n"));
            /// assert_eq!(cursor.try_peek_prev()?, Some((b"milk".to_vec(), 100)));
            /// # Ok::<(), boltcomfrey::Refusal>(())
            /// ```
            pub fn try_peek_prev(&self) -> Result<Option<(Vec<u8>, V)>, Refusal> {
                self.peek(Order::Descending)
            }

            fn peek(&self, order: Order) -> Result<Option<(Vec<u8>, V)>, Refusal> {
                let gap = self.place.as_ref().map_err(|refusal| *refusal)?;
                gap.next(self.map, order)
            }

            fn step(&mut self, order: Order) -> Result<Option<(Vec<u8>, V)>, Refusal> {
                let pair = self.peek(order)?;
                if let Some((key, _)) = &pair {
                    self.place = Ok(Gap::past(order, key)?);
                }
                Ok(pair)
            }
        }

        impl<V: Value> fmt::Debug for $cursor<'_, V> {
            fn fmt(&self, f: &mut fmt::Formatter<'_>) -> fmt::Result {
                f.debug_struct(stringify!($cursor)).finish_non_exhaustive()
            }
        }
    };
}

/// A place between two keys of a map, or at an end of it: [`Map::lower_bound`] and
/// [`Map::upper_bound`] give it. It goes either way, and copies what it gives.
///
/// Each step is a search. To go over many pairs one way, [`Map::range`] takes less time.
///
/// ```
/// # use boltcomfrey::VersionedMap;
/// # use std::ops::Bound;
/// let prices = VersionedMap::from([("milk", 100), ("salt", 50), ("tea", 300)]);
/// let mut cursor = prices.lower_bound(Bound::Included("n"));
/// assert_eq!(cursor.peek_prev(), Some((b"milk".to_vec(), 100)));
/// assert_eq!(cursor.next(), Some((b"salt".to_vec(), 50)));
/// assert_eq!(cursor.peek_next(), Some((b"tea".to_vec(), 300)));
/// assert_eq!(cursor.prev(), Some((b"salt".to_vec(), 50)));
/// ```
#[derive(Clone)]
pub struct Cursor<'a, V: Value> {
    pub(crate) map: &'a Map<V>,
    // (refused where its key got no memory, and then so is each step)
    pub(crate) place: Result<Gap, Refusal>,
}

goes_either_way!(Cursor);

/// A [`Cursor`] that changes the map about it: [`Map::lower_bound_mut`] and [`Map::upper_bound_mut`]
/// give it.
///
/// ```
/// # use boltcomfrey::{Refusal, VersionedMap};
/// # use std::ops::Bound;
/// let mut prices = VersionedMap::from([("milk", 100), ("salt", 50), ("tea", 300)]);
/// let mut cursor = prices.upper_bound_mut(Bound::Included("milk"));
/// assert_eq!(cursor.remove_next()?, Some((b"salt".to_vec(), 50)));
/// assert!(cursor.insert_before("rice", 200)?);
/// assert_eq!(cursor.peek_prev(), Some((b"rice".to_vec(), 200)));
/// assert!(!cursor.insert_after("bread", 250)?);
/// assert_eq!(prices, VersionedMap::from([("milk", 100), ("rice", 200), ("tea", 300)]));
/// # Ok::<(), Refusal>(())
/// ```
pub struct CursorMut<'a, V: Value> {
    pub(crate) map: &'a mut Map<V>,
    // (as a `Cursor`'s)
    pub(crate) place: Result<Gap, Refusal>,
}

goes_either_way!(CursorMut);

impl<V: Value> CursorMut<'_, V> {
    /// Takes the pair behind the gap out, and gives it, if there is one. Refused, nothing has
    /// changed.
    ///
    /// ```
    /// # use boltcomfrey::VersionedMap;
    /// # use std::ops::Bound;
    /// let mut prices = VersionedMap::from([("milk", 100), ("tea", 300)]);
    /// let mut cursor = prices.lower_bound_mut(Bound::Included("n"));
    /// assert_eq!(cursor.remove_next()?, Some((b"tea".to_vec(), 300)));
    /// assert_eq!(cursor.remove_next()?, None);
    /// # Ok::<(), boltcomfrey::Refusal>(())
    /// ```
    pub fn remove_next(&mut self) -> Result<Option<(Vec<u8>, V)>, Refusal> {
        self.remove(Order::Ascending)
    }

    /// Takes the pair before the gap out, and gives it, if there is one. Refused, nothing has
    /// changed.
    ///
    /// ```
    /// # use boltcomfrey::VersionedMap;
    /// # use std::ops::Bound;
    /// let mut prices = VersionedMap::from([("milk", 100), ("tea", 300)]);
    /// let mut cursor = prices.lower_bound_mut(Bound::Included("n"));
    /// assert_eq!(cursor.remove_prev()?, Some((b"milk".to_vec(), 100)));
    /// assert_eq!(cursor.remove_prev()?, None);
    /// # Ok::<(), boltcomfrey::Refusal>(())
    /// ```
    pub fn remove_prev(&mut self) -> Result<Option<(Vec<u8>, V)>, Refusal> {
        self.remove(Order::Descending)
    }

    /// Sets a key that comes between those on either side to a value, and stands behind it then; tells
    /// whether it does come there, where std has an `UnorderedKeyError`. If not, nothing changes.
    /// Refused, nothing has changed.
    ///
    /// ```
    /// # use boltcomfrey::VersionedMap;
    /// # use std::ops::Bound;
    /// let mut prices = VersionedMap::from([("milk", 100), ("tea", 300)]);
    /// let mut cursor = prices.lower_bound_mut(Bound::Included("n"));
    /// assert!(cursor.insert_before("salt", 50)?);
    /// assert_eq!(cursor.peek_prev(), Some((b"salt".to_vec(), 50)));
    /// assert!(!cursor.insert_before("rice", 200)?);
    /// # Ok::<(), boltcomfrey::Refusal>(())
    /// ```
    pub fn insert_before(
        &mut self,
        key: impl AsRef<[u8]>,
        value: impl Given<V>,
    ) -> Result<bool, Refusal> {
        self.insert(Order::Ascending, key.as_ref(), value.given())
    }

    /// As `insert_before`, and stands before the key then.
    ///
    /// ```
    /// # use boltcomfrey::VersionedMap;
    /// # use std::ops::Bound;
    /// let mut prices = VersionedMap::from([("milk", 100), ("tea", 300)]);
    /// let mut cursor = prices.lower_bound_mut(Bound::Included("n"));
    /// assert!(cursor.insert_after("salt", 50)?);
    /// assert_eq!(cursor.peek_next(), Some((b"salt".to_vec(), 50)));
    /// assert!(!cursor.insert_after("sugar", 90)?);
    /// # Ok::<(), boltcomfrey::Refusal>(())
    /// ```
    pub fn insert_after(
        &mut self,
        key: impl AsRef<[u8]>,
        value: impl Given<V>,
    ) -> Result<bool, Refusal> {
        self.insert(Order::Descending, key.as_ref(), value.given())
    }

    fn remove(&mut self, order: Order) -> Result<Option<(Vec<u8>, V)>, Refusal> {
        let pair = self.peek(order)?;
        if let Some((key, _)) = &pair {
            self.map.delete(key)?;
        }
        Ok(pair)
    }

    /// Sets a key of the gap, and leaves it on the side of what has been passed in an order.
    fn insert(&mut self, order: Order, key: &[u8], value: &V::Lent) -> Result<bool, Refusal> {
        let is_here = self.is_here(key)?;
        if is_here {
            let place = Gap::past(order, key)?;
            V::set(&mut self.map.tree, key, value)?;
            self.place = Ok(place);
        }
        Ok(is_here)
    }

    /// Whether a key comes between those on either side.
    fn is_here(&self, key: &[u8]) -> Result<bool, Refusal> {
        let (before, behind) = (self.try_peek_prev()?, self.try_peek_next()?);
        Ok(before.is_none_or(|it| it.0[..] < *key) && behind.is_none_or(|it| *key < it.0[..]))
    }
}
