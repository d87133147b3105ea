use crate::error::{Refusal, unrefused};
use crate::map::Map;
use crate::memory::copied;
use crate::raw::{Order, Tree};
use crate::value::{Text, Value};
use crate::walk::{Pair, Walk, pair_copied};
use std::fmt;
use std::iter::FusedIterator;

/// The pairs of a map within two bounds, in the order of their keys, each key a copy.
///
/// It takes them by pages from either end. The library needs no memory for it; the pages, and the
/// copies of keys and of byte strings, do: where they get none it panics. [`Range::lent`] copies no
/// pair, and has steps that answer.
///
/// It borrows the map, which doesn't change meanwhile, and stays on its thread.
///
/// ```compile_fail
/// let mut map = boltcomfrey::VersionedMap::new();
/// let mut pairs = map.range("a"..);
/// map.remove("tea").ok();
/// pairs.next();
/// ```
///
/// ```compile_fail
/// fn sends<T: Send>(_: T) {}
/// sends(boltcomfrey::VersionedMap::new().iter());
/// ```
#[derive(Clone)]
pub struct Range<'a, V: Value> {
    map: &'a Map<V>,
    walk: Walk<V>,
}

impl<'a, V: Value> Range<'a, V> {
    pub(crate) fn new(map: &'a Map<V>, walk: Walk<V>) -> Range<'a, V> {
        Range { map, walk }
    }

    #[inline]
    fn step(&mut self, order: Order) -> Option<(Vec<u8>, V)> {
        let (walk, tree) = (&mut self.walk, &self.map.tree);
        if walk.begins(order) {
            if let Some(pair) = unrefused(walk.search(tree, order)) {
                return Some(pair);
            }
        }
        step(walk, tree, order, pair_copied)
    }

    /// The pairs that are left, of which none is copied.
    ///
    /// ```
    /// # use boltcomfrey::VersionedMap;
    /// let prices = VersionedMap::from([("tea", 300), ("teapot", 2000), ("tin", 80)]);
    /// let mut sum = 0;
    /// prices.prefix("tea").lent().for_each(|_, price| sum += price);
    /// assert_eq!(sum, 2300);
    /// ```
    #[must_use]
    pub fn lent(self) -> Lent<'a, V> {
        Lent::new(self.map, self.walk)
    }
}

/// `last`, `count` and `nth` copy only what they give.
impl<V: Value> Iterator for Range<'_, V> {
    type Item = (Vec<u8>, V);

    #[inline]
    fn next(&mut self) -> Option<(Vec<u8>, V)> {
        self.step(Order::Ascending)
    }

    fn last(mut self) -> Option<(Vec<u8>, V)> {
        self.next_back()
    }

    fn count(self) -> usize {
        let mut count = 0;
        self.lent().for_each(|_, _| count += 1);
        count
    }

    fn nth(&mut self, n: usize) -> Option<(Vec<u8>, V)> {
        unrefused(self.walk.skip(&self.map.tree, Order::Ascending, n));
        self.next()
    }
}

impl<V: Value> DoubleEndedIterator for Range<'_, V> {
    #[inline]
    fn next_back(&mut self) -> Option<(Vec<u8>, V)> {
        self.step(Order::Descending)
    }
}

impl<V: Value> FusedIterator for Range<'_, V> {}

/// What is left, as std shows a map, each key as text with escapes.
impl<V: Value> fmt::Debug for Range<'_, V> {
    fn fmt(&self, f: &mut fmt::Formatter<'_>) -> fmt::Result {
        show(self.clone().lent(), f)
    }
}

/// All pairs of a map, in the order of their keys, each key a copy. It knows how many are left.
#[derive(Clone)]
pub struct Iter<'a, V: Value> {
    map: &'a Map<V>,
    walk: Walk<V>,
}

impl<'a, V: Value> Iter<'a, V> {
    pub(crate) fn new(map: &'a Map<V>) -> Iter<'a, V> {
        Iter {
            walk: Walk::over_all(map.len()),
            map,
        }
    }

    /// The pairs that are left, of which none is copied.
    ///
    /// ```
    /// # use boltcomfrey::{Refusal, VersionedBytes};
    /// let names = VersionedBytes::from([("tea", "Tea"), ("milk", "Milk")]);
    /// let mut pairs = names.iter().lent();
    /// while let Some((key, name)) = pairs.try_next()? {
    ///     println!("{}: {}", key.escape_ascii(), name.escape_ascii());
    /// }
    /// # Ok::<(), Refusal>(())
    /// ```
    #[must_use]
    pub fn lent(self) -> Lent<'a, V> {
        Lent::new(self.map, self.walk)
    }
}

/// What is left, as of [`Range`].
impl<V: Value> fmt::Debug for Iter<'_, V> {
    fn fmt(&self, f: &mut fmt::Formatter<'_>) -> fmt::Result {
        show(self.clone().lent(), f)
    }
}

/// All pairs of a map that is given up, in the order of their keys.
pub struct IntoIter<V: Value> {
    map: Map<V>,
    walk: Walk<V>,
}

impl<V: Value> IntoIter<V> {
    pub(crate) fn new(map: Map<V>) -> IntoIter<V> {
        IntoIter {
            walk: Walk::over_all(map.len()),
            map,
        }
    }
}

/// What is left, as of [`Range`].
impl<V: Value> fmt::Debug for IntoIter<V> {
    fn fmt(&self, f: &mut fmt::Formatter<'_>) -> fmt::Result {
        show(Lent::new(&self.map, self.walk.clone()), f)
    }
}

/// The keys of a map, in order, each a copy.
#[derive(Clone, Debug)]
pub struct Keys<'a, V: Value>(pub(crate) Iter<'a, V>);

/// The values of a map, in the order of their keys.
#[derive(Clone, Debug)]
pub struct Values<'a, V: Value>(pub(crate) Iter<'a, V>);

/// Pairs of a map, in the order of their keys or from the last back, of which none is copied: each is
/// lent until the next one is asked for, its value as `&u64` or `&[u8]`. [`Iter::lent`] and
/// [`Range::lent`] give them.
///
/// Of Rust's memory it takes what its pages take, and no more for more pairs.
///
/// ```
/// # use boltcomfrey::VersionedMap;
/// let prices = VersionedMap::from([("tea", 300), ("milk", 100)]);
/// let mut pairs = prices.iter().lent().rev();
/// assert_eq!(pairs.next(), Some((&b"tea"[..], &300)));
/// ```
#[derive(Clone)]
pub struct Lent<'a, V: Value> {
    map: &'a Map<V>,
    walk: Walk<V>,
    order: Order,
}

impl<'a, V: Value> Lent<'a, V> {
    fn new(map: &'a Map<V>, walk: Walk<V>) -> Lent<'a, V> {
        let order = Order::Ascending;
        Lent { map, walk, order }
    }

    /// What is left, from the other end.
    #[must_use]
    pub fn rev(self) -> Lent<'a, V> {
        let order = self.order.reversed();
        Lent { order, ..self }
    }

    /// The next pair. It panics where memory is refused; `try_next` answers.
    #[allow(clippy::should_implement_trait)] // (std's iterators don't lend)
    #[inline]
    pub fn next(&mut self) -> Option<(&[u8], &V::Lent)> {
        unrefused(self.try_next())
    }

    /// The next pair. Refused, none is passed over: the next call asks for it once more. Where a
    /// range's bounds got no memory, each call is refused.
    ///
    /// ```
    /// # use boltcomfrey::{Refusal, VersionedBytes};
    /// let names = VersionedBytes::from([("tea", "Tea"), ("milk", "Milk")]);
    /// let mut behind = names.range("n"..).lent();
    /// assert_eq!(behind.try_next()?, Some((&b"tea"[..], &b"Tea"[..])));
    /// assert_eq!(behind.try_next()?, None);
    /// # Ok::<(), Refusal>(())
    /// ```
    #[allow(clippy::type_complexity)] // (what `next` gives, or a refusal)
    #[inline]
    pub fn try_next(&mut self) -> Result<Option<(&[u8], &V::Lent)>, Refusal> {
        self.walk.next(&self.map.tree, self.order)
    }

    /// What `try_next` would give, of a walk that goes in one order alone.
    pub(crate) fn peek(&mut self) -> Result<Option<Pair<'_, V>>, Refusal> {
        self.walk.peek(&self.map.tree, self.order)
    }

    /// Calls a function with each pair that is left. It panics where memory is refused;
    /// `try_for_each` answers.
    ///
    /// ```
    /// # use boltcomfrey::VersionedMap;
    /// let prices = VersionedMap::from([("tea", 300), ("milk", 100)]);
    /// let mut longest = 0;
    /// prices.iter().lent().for_each(|name, _| longest = longest.max(name.len()));
    /// assert_eq!(longest, 4);
    /// ```
    pub fn for_each(mut self, mut f: impl FnMut(&[u8], &V::Lent)) {
        let each = |key: &[u8], value: &V::Lent| {
            f(key, value);
            Ok(())
        };
        unrefused(self.try_for_each(each));
    }

    /// Calls a function with each pair that is left, up to the first that it answers an error of, or
    /// that is refused.
    ///
    /// ```
    /// # use boltcomfrey::VersionedMap;
    /// # use std::io::Write;
    /// let prices = VersionedMap::from([("tea", 300), ("milk", 100)]);
    /// let mut list = Vec::new();
    /// prices.iter().lent().try_for_each(|name, price| {
    ///     writeln!(list, "{} is {price}", name.escape_ascii())
    /// })?;
    /// assert_eq!(list, b"milk is 100\ntea is 300\n");
    /// # Ok::<(), std::io::Error>(())
    /// ```
    ///
    /// Where the closure names no type of errors, the answer does:
    ///
    /// ```
    /// # use boltcomfrey::{Refusal, VersionedMap};
    /// # let prices = VersionedMap::from([("tea", 300), ("milk", 100)]);
    /// let mut count = 0;
    /// prices.iter().lent().try_for_each(|_, _| {
    ///     count += 1;
    ///     Ok::<(), Refusal>(())
    /// })?;
    /// assert_eq!(count, 2);
    /// # Ok::<(), Refusal>(())
    /// ```
    pub fn try_for_each<E: From<Refusal>>(
        &mut self,
        f: impl FnMut(&[u8], &V::Lent) -> Result<(), E>,
    ) -> Result<(), E> {
        self.walk.try_for_each(&self.map.tree, self.order, f)
    }
}

/// What is left, as of [`Range`].
impl<V: Value> fmt::Debug for Lent<'_, V> {
    fn fmt(&self, f: &mut fmt::Formatter<'_>) -> fmt::Result {
        show(self.clone(), f)
    }
}

/// What is made of the next pair of a walk.
#[inline]
fn step<V: Value, T>(
    walk: &mut Walk<V>,
    tree: &Tree<V::Handle>,
    order: Order,
    make: impl FnOnce(Pair<'_, V>) -> Result<T, Refusal>,
) -> Option<T> {
    let pair = unrefused(walk.next(tree, order))?;
    Some(unrefused(make(pair)))
}

/// Shows pairs as std shows a map, each key as text with escapes.
fn show<V: Value>(pairs: Lent<'_, V>, f: &mut fmt::Formatter<'_>) -> fmt::Result {
    let mut shown = f.debug_map();
    pairs.for_each(|key, value| {
        shown.entry(&Text(key), &V::shown(value));
    });
    shown.finish()
}

/// Std's traits of a walk over all pairs, of each of which it makes an item.
macro_rules! walks_over_all {
    ($walker:ty $(, .$field:tt)? => $item:ty, $make:expr) => {
        /// `last`, `count` and `nth` copy only what they give.
        impl<V: Value> Iterator for $walker {
            type Item = $item;

            #[inline]
            fn next(&mut self) -> Option<$item> {
                step(&mut self$(.$field)?.walk, &self$(.$field)?.map.tree, Order::Ascending, $make)
            }

            fn size_hint(&self) -> (usize, Option<usize>) {
                let left = self$(.$field)?.walk.left();
                (left, Some(left))
            }

            fn last(mut self) -> Option<$item> {
                self.next_back()
            }

            fn count(self) -> usize {
                self.len()
            }

            fn nth(&mut self, n: usize) -> Option<$item> {
                let tree = &self$(.$field)?.map.tree;
                unrefused(self$(.$field)?.walk.skip(tree, Order::Ascending, n));
                self.next()
            }
        }

        impl<V: Value> DoubleEndedIterator for $walker {
            #[inline]
            fn next_back(&mut self) -> Option<$item> {
                step(&mut self$(.$field)?.walk, &self$(.$field)?.map.tree, Order::Descending, $make)
            }
        }

        impl<V: Value> ExactSizeIterator for $walker {}

        impl<V: Value> FusedIterator for $walker {}
    };
}

walks_over_all!(Iter<'_, V> => (Vec<u8>, V), pair_copied);
walks_over_all!(IntoIter<V> => (Vec<u8>, V), pair_copied);
walks_over_all!(Keys<'_, V>, .0 => Vec<u8>, |(key, _)| copied(key));
walks_over_all!(Values<'_, V>, .0 => V, |(_, value)| V::copied(value));
