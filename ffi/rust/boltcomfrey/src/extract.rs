use crate::error::{Refusal, unrefused};
use crate::map::Map;
use crate::memory::copied;
use crate::raw::Order;
use crate::value::Value;
use crate::walk::Walk;
use std::fmt;
use std::iter::FusedIterator;

/// Those pairs of a range that a function chooses, in order, each taken out as it is given:
/// [`Map::extract_if`] gives them. Pairs that aren't asked for stay.
///
/// It panics where it is refused; [`ExtractIf::try_next`] answers.
#[must_use = "a pair is taken out when it is asked for: `retain` takes out all"]
pub struct ExtractIf<'a, V: Value, F> {
    map: &'a mut Map<V>,
    walk: Walk<V>,
    chooses: F,
    // Whether the next pair was chosen, and to take it out was refused.
    is_chosen: bool,
}

impl<'a, V: Value, F: FnMut(&[u8], &V) -> bool> ExtractIf<'a, V, F> {
    pub(crate) fn new(map: &'a mut Map<V>, walk: Walk<V>, chooses: F) -> Self {
        let is_chosen = false;
        ExtractIf {
            map,
            walk,
            chooses,
            is_chosen,
        }
    }

    /// The next pair that is chosen, which is out then. Refused, nothing has changed, and the next
    /// call goes on with that pair: the function is asked about each pair once.
    ///
    /// ```
    /// # use boltcomfrey::{Refusal, VersionedMap};
    /// let mut prices = VersionedMap::from([("milk", 100), ("salt", 50), ("tea", 300)]);
    /// let mut cheap = prices.extract_if(.., |_, price| *price < 200);
    /// assert_eq!(cheap.try_next()?, Some((b"milk".to_vec(), 100)));
    /// assert_eq!(prices, VersionedMap::from([("salt", 50), ("tea", 300)]));
    /// # Ok::<(), Refusal>(())
    /// ```
    pub fn try_next(&mut self) -> Result<Option<(Vec<u8>, V)>, Refusal> {
        loop {
            let pair = self.walk.peek(&self.map.tree, Order::Ascending)?;
            let Some((key, value)) = pair else {
                return Ok(None);
            };
            let value = V::copied(value)?;
            self.is_chosen = self.is_chosen || (self.chooses)(key, &value);
            let mut taken = None;
            if self.is_chosen {
                let key = copied(key)?;
                self.map.delete(&key)?;
                taken = Some((key, value));
            }
            self.is_chosen = false;
            self.walk.next(&self.map.tree, Order::Ascending)?;
            if taken.is_some() {
                return Ok(taken);
            }
        }
    }
}

impl<V: Value, F: FnMut(&[u8], &V) -> bool> Iterator for ExtractIf<'_, V, F> {
    type Item = (Vec<u8>, V);

    fn next(&mut self) -> Option<(Vec<u8>, V)> {
        unrefused(self.try_next())
    }

    fn size_hint(&self) -> (usize, Option<usize>) {
        (0, Some(self.walk.left()))
    }
}

impl<V: Value, F: FnMut(&[u8], &V) -> bool> FusedIterator for ExtractIf<'_, V, F> {}

impl<V: Value, F> fmt::Debug for ExtractIf<'_, V, F> {
    fn fmt(&self, f: &mut fmt::Formatter<'_>) -> fmt::Result {
        f.debug_struct("ExtractIf").finish_non_exhaustive()
    }
}
