use crate::error::{Refusal, unrefused};
use crate::iter::Lent;
use crate::map::Map;
use crate::memory::copied;
use crate::value::Value;
use std::cmp::Ordering;
use std::fmt;
use std::iter::FusedIterator;

/// The keys of two maps in order, each with what either has there.
struct Both<'a, V: Value> {
    left: Lent<'a, V>,
    right: Lent<'a, V>,
}

impl<'a, V: Value> Both<'a, V> {
    fn new(left: &'a Map<V>, right: &'a Map<V>) -> Both<'a, V> {
        let (left, right) = (left.iter().lent(), right.iter().lent());
        Both { left, right }
    }

    /// The first that a function makes of a key, and of what either map has there. A key of which it
    /// is refused is met once more.
    fn find<T>(
        &mut self,
        mut make: impl FnMut(&[u8], Option<&V::Lent>, Option<&V::Lent>) -> Result<Option<T>, Refusal>,
    ) -> Result<Option<T>, Refusal> {
        loop {
            let (left, right) = (self.left.peek()?, self.right.peek()?);
            let order = match (left, right) {
                (Some((left, _)), Some((right, _))) => left.cmp(right),
                (None, Some(_)) => Ordering::Greater,
                (_, None) => Ordering::Less,
            };
            let left = left.filter(|_| order.is_le());
            let right = right.filter(|_| order.is_ge());
            let Some((key, _)) = left.or(right) else {
                return Ok(None);
            };
            let made = make(key, left.map(|it| it.1), right.map(|it| it.1))?;
            if order.is_le() {
                self.left.try_next()?;
            }
            if order.is_ge() {
                self.right.try_next()?;
            }
            if made.is_some() {
                return Ok(made);
            }
        }
    }
}

/// A key, and what either map has there.
type Change<V> = (Vec<u8>, Option<V>, Option<V>);

/// What differs between two maps: each key at which they do, in order, with what either has there.
///
/// It walks over both maps whole, whatever they share, and copies only what it gives.
pub struct Diff<'a, V: Value> {
    both: Both<'a, V>,
}

impl<'a, V: Value> Diff<'a, V> {
    pub(crate) fn new(before: &'a Map<V>, after: &'a Map<V>) -> Diff<'a, V> {
        let both = Both::new(before, after);
        Diff { both }
    }

    /// The next key at which they differ. Refused, none is passed over: the next call asks for it
    /// once more.
    ///
    /// ```
    /// # use boltcomfrey::VersionedMap;
    /// let (before, after) = (VersionedMap::new(), VersionedMap::from([("tea", 300)]));
    /// let mut changes = before.diff(&after);
    /// assert_eq!(changes.try_next()?, Some((b"tea".to_vec(), None, Some(300))));
    /// assert_eq!(changes.try_next()?, None);
    /// # Ok::<(), boltcomfrey::Refusal>(())
    /// ```
    pub fn try_next(&mut self) -> Result<Option<Change<V>>, Refusal> {
        self.both.find(|key, before, after| {
            if before == after {
                return Ok(None);
            }
            let before = before.map(V::copied).transpose()?;
            let after = after.map(V::copied).transpose()?;
            Ok(Some((copied(key)?, before, after)))
        })
    }
}

impl<V: Value> Iterator for Diff<'_, V> {
    type Item = (Vec<u8>, Option<V>, Option<V>);

    fn next(&mut self) -> Option<(Vec<u8>, Option<V>, Option<V>)> {
        unrefused(self.try_next())
    }
}

impl<V: Value> FusedIterator for Diff<'_, V> {}

impl<V: Value> fmt::Debug for Diff<'_, V> {
    fn fmt(&self, f: &mut fmt::Formatter<'_>) -> fmt::Result {
        f.debug_struct("Diff").finish_non_exhaustive()
    }
}

/// The keys that two maps have in common, in order, with the value of either.
///
/// It walks over both maps whole, and copies only what it gives.
pub struct Common<'a, V: Value> {
    both: Both<'a, V>,
}

impl<'a, V: Value> Common<'a, V> {
    pub(crate) fn new(left: &'a Map<V>, right: &'a Map<V>) -> Common<'a, V> {
        let both = Both::new(left, right);
        Common { both }
    }

    /// The next key that both have. Refused, none is passed over: the next call asks for it once
    /// more.
    ///
    /// ```
    /// # use boltcomfrey::VersionedMap;
    /// let (left, right) = (VersionedMap::new(), VersionedMap::from([("tea", 300)]));
    /// assert_eq!(left.intersection(&right).try_next()?, None);
    /// # Ok::<(), boltcomfrey::Refusal>(())
    /// ```
    pub fn try_next(&mut self) -> Result<Option<(Vec<u8>, V, V)>, Refusal> {
        self.both.find(|key, left, right| match (left, right) {
            (Some(left), Some(right)) => {
                Ok(Some((copied(key)?, V::copied(left)?, V::copied(right)?)))
            }
            _ => Ok(None),
        })
    }
}

impl<V: Value> Iterator for Common<'_, V> {
    type Item = (Vec<u8>, V, V);

    fn next(&mut self) -> Option<(Vec<u8>, V, V)> {
        unrefused(self.try_next())
    }
}

impl<V: Value> FusedIterator for Common<'_, V> {}

impl<V: Value> fmt::Debug for Common<'_, V> {
    fn fmt(&self, f: &mut fmt::Formatter<'_>) -> fmt::Result {
        f.debug_struct("Common").finish_non_exhaustive()
    }
}
