//! How far a walk over a map has come: from either end it takes the pairs by pages.
use crate::error::Refusal;
use crate::memory::{copied, lengthen};
use crate::raw::{Order, Tree};
use crate::value::{Calls, Value};
use std::ops::{Bound, Range};

// Many walks end at their first pairs. The first page has so many, and each later one has room for
// so many times as many. Before it a walk within bounds that copies has one pair, which a search
// finds.
const FIRST_PAIRS: usize = 8;
const GROWTH: usize = 8;
const MOST_PAIRS: usize = 256;

/// A pair, as it stands in its page.
pub type Pair<'a, V> = (&'a [u8], &'a <V as Calls>::Lent);

/// A lower bound and an upper one.
type Bounds<K> = (Bound<K>, Bound<K>);

/// Pairs in an order of their keys, as the library writes them.
#[derive(Clone)]
struct Page<V: Value> {
    // Room, kept from page to page. What stands behind what was written says nothing.
    bytes: Vec<u8>,
    entries: Vec<V::Entry>,
    // Which entries are left, and where the first of them begins among the bytes.
    left: Range<usize>,
    start: usize,
}

impl<V: Value> Page<V> {
    fn new() -> Page<V> {
        Page {
            bytes: Vec::new(),
            entries: Vec::new(),
            left: 0..0,
            start: 0,
        }
    }

    /// Takes the first pairs within two bounds in an order, at most so many, where none is left.
    /// Gives a copy of the last key. Refused, none is left as before.
    fn fill(
        &mut self,
        tree: &Tree<<V as Calls>::Handle>,
        order: Order,
        within: Bounds<&[u8]>,
        most: usize,
    ) -> Result<Option<Vec<u8>>, Refusal> {
        lengthen(&mut self.entries, most)?;
        let count = V::page(tree, order, within, &mut self.bytes, &mut self.entries)?;
        let last = count.checked_sub(1).map(|at| copied(self.pair(at).0));
        let last = last.transpose()?;
        (self.left, self.start) = (0..count, 0);
        Ok(last)
    }

    #[inline]
    fn next(&mut self) -> Option<Pair<'_, V>> {
        let entry = &self.entries[self.left.next()?];
        let start = self.start;
        self.start = V::end(entry);
        Some(V::pair(entry, &self.bytes, start))
    }

    fn next_back(&mut self) -> Option<Pair<'_, V>> {
        let at = self.left.next_back()?;
        Some(self.pair(at))
    }

    /// Calls a function with each pair that is left, up to the first that it answers an error of.
    #[inline]
    fn try_for_each<E>(
        &mut self,
        mut f: impl FnMut(&[u8], &V::Lent) -> Result<(), E>,
    ) -> Result<(), E> {
        while let Some((key, value)) = self.next() {
            f(key, value)?;
        }
        Ok(())
    }

    /// What `next` would give.
    fn peek(&self) -> Option<Pair<'_, V>> {
        let at = self.left.clone().next()?;
        Some(self.pair(at))
    }

    /// The pair of an entry.
    fn pair(&self, at: usize) -> Pair<'_, V> {
        let before = at.checked_sub(1);
        let start = before.map_or(0, |it| V::end(&self.entries[it]));
        V::pair(&self.entries[at], &self.bytes, start)
    }
}

// Whether a key meets an upper bound.
fn is_up_to(key: &[u8], high: Bound<&[u8]>) -> bool {
    match high {
        Bound::Included(high) => key <= high,
        Bound::Excluded(high) => key < high,
        Bound::Unbounded => true,
    }
}

// Whether a key meets a lower bound.
fn is_from(key: &[u8], low: Bound<&[u8]>) -> bool {
    match low {
        Bound::Included(low) => key >= low,
        Bound::Excluded(low) => key > low,
        Bound::Unbounded => true,
    }
}

/// An end of a walk: what is left of its page, and how many pairs its next one may have.
#[derive(Clone)]
struct End<V: Value> {
    page: Page<V>,
    size: usize,
}

/// A walk over the pairs within two bounds, and how far it has come from either end. The tree stands
/// elsewhere, and doesn't change meanwhile. A step that is refused leaves it as it was.
#[derive(Clone)]
pub struct Walk<V: Value> {
    // What stands between the pages, or that memory for these bounds was refused.
    between: Result<Bounds<Vec<u8>>, Refusal>,
    // How many pairs are left at most. Where it is as many as the pages have, none is between them.
    left: usize,
    front: End<V>,
    back: End<V>,
}

impl<V: Value> Walk<V> {
    /// Over all pairs, which are so many.
    pub fn over_all(len: usize) -> Walk<V> {
        Walk::new(Ok((Bound::Unbounded, Bound::Unbounded)), len, FIRST_PAIRS)
    }

    /// Over the pairs within two bounds, of so many.
    pub fn within((low, high): Bounds<&[u8]>, len: usize) -> Walk<V> {
        let between = match (bound_copied(low), bound_copied(high)) {
            (Ok(low), Ok(high)) => Ok((low, high)),
            (Err(refusal), _) | (_, Err(refusal)) => Err(refusal),
        };
        Walk::new(between, len, 1)
    }

    /// Over the pairs whose keys a prefix begins, of so many.
    pub fn under(prefix: &[u8], len: usize) -> Walk<V> {
        let low = bound_copied(Bound::Included(prefix));
        let between = low.and_then(|low| Ok((low, behind_all(prefix)?)));
        Walk::new(between, len, 1)
    }

    fn new(between: Result<Bounds<Vec<u8>>, Refusal>, left: usize, size: usize) -> Walk<V> {
        let end = || End {
            page: Page::new(),
            size,
        };
        Walk {
            between,
            left,
            front: end(),
            back: end(),
        }
    }

    /// How many pairs are left at most: of a walk over all that is how many are left.
    pub fn left(&self) -> usize {
        self.left
    }

    /// The next pair in an order, as it stands in its page.
    #[inline]
    pub fn next(
        &mut self,
        tree: &Tree<<V as Calls>::Handle>,
        order: Order,
    ) -> Result<Option<Pair<'_, V>>, Refusal> {
        if self.end(order).page.left.is_empty() && !self.turn(tree, order)? {
            self.left = self.left.saturating_sub(1);
            return Ok(self.end(order.reversed()).page.next_back());
        }
        self.left -= 1;
        Ok(self.end(order).page.next())
    }

    /// What `next` would give, of a walk that goes in one order alone.
    pub fn peek(
        &mut self,
        tree: &Tree<<V as Calls>::Handle>,
        order: Order,
    ) -> Result<Option<Pair<'_, V>>, Refusal> {
        if self.end(order).page.left.is_empty() {
            self.turn(tree, order)?;
        }
        Ok(self.end(order).page.peek())
    }

    /// Calls a function with each pair that is left in an order, up to the first that it answers an
    /// error of, or that is refused.
    pub fn try_for_each<E: From<Refusal>>(
        &mut self,
        tree: &Tree<<V as Calls>::Handle>,
        order: Order,
        mut f: impl FnMut(&[u8], &V::Lent) -> Result<(), E>,
    ) -> Result<(), E> {
        while let Some((key, value)) = self.next(tree, order)? {
            f(key, value)?;
            let page = &mut self.end(order).page;
            let before = page.left.len();
            let told = page.try_for_each(&mut f);
            let passed = before - page.left.len();
            self.left -= passed;
            told?;
        }
        Ok(())
    }

    /// Passes over so many pairs in an order, or all that are left.
    pub fn skip(
        &mut self,
        tree: &Tree<<V as Calls>::Handle>,
        order: Order,
        count: usize,
    ) -> Result<(), Refusal> {
        for _ in 0..count {
            if self.next(tree, order)?.is_none() {
                break;
            }
        }
        Ok(())
    }

    /// Whether the first pair in an order is to be searched for, where it is to be copied.
    #[inline]
    pub fn begins(&self, order: Order) -> bool {
        match order {
            Order::Ascending => self.front.size == 1,
            Order::Descending => self.back.size == 1,
        }
    }

    /// The first pair between the pages in an order, by a search. The next one stands in a page.
    pub fn search(
        &mut self,
        tree: &Tree<<V as Calls>::Handle>,
        order: Order,
    ) -> Result<Option<(Vec<u8>, V)>, Refusal> {
        if !self.has_between() {
            return Ok(None);
        }
        let (low, high) = lent(&self.between)?;
        let mut key = Vec::new();
        let found = match order {
            Order::Ascending => V::first(tree, low, &mut key)?,
            Order::Descending => V::last(tree, high, &mut key)?,
        };
        key.truncate(found.as_ref().map_or(0, |it| it.0));
        let is_within = match order {
            Order::Ascending => is_up_to(&key, high),
            Order::Descending => is_from(&key, low),
        };
        match found {
            Some((_, value)) if is_within => {
                let passed = copied(&key)?;
                self.pass(order, passed);
                self.end(order).size = FIRST_PAIRS;
                self.left -= 1;
                Ok(Some((key, value)))
            }
            _ => {
                self.left = self.in_pages();
                Ok(None)
            }
        }
    }

    /// Takes the next page in an order, which begins behind the last key of the one before. Answers
    /// whether it has a pair.
    #[cold]
    fn turn(&mut self, tree: &Tree<<V as Calls>::Handle>, order: Order) -> Result<bool, Refusal> {
        if !self.has_between() {
            return Ok(false);
        }
        let within = lent(&self.between)?;
        let end = match order {
            Order::Ascending => &mut self.front,
            Order::Descending => &mut self.back,
        };
        let size = end.size.max(FIRST_PAIRS);
        let Some(last) = end.page.fill(tree, order, within, size)? else {
            self.left = self.in_pages();
            return Ok(false);
        };
        end.size = MOST_PAIRS.min(size * GROWTH);
        self.pass(order, last);
        Ok(true)
    }

    /// The end from which an order begins.
    #[inline]
    fn end(&mut self, order: Order) -> &mut End<V> {
        match order {
            Order::Ascending => &mut self.front,
            Order::Descending => &mut self.back,
        }
    }

    /// How many pairs the pages have.
    fn in_pages(&self) -> usize {
        self.front.page.left.len() + self.back.page.left.len()
    }

    /// Whether there may be a pair between the pages.
    fn has_between(&self) -> bool {
        self.left > self.in_pages()
    }

    /// Leaves between the pages what stands behind a key in an order.
    #[inline]
    fn pass(&mut self, order: Order, key: Vec<u8>) {
        if let Ok((low, high)) = &mut self.between {
            match order {
                Order::Ascending => *low = Bound::Excluded(key),
                Order::Descending => *high = Bound::Excluded(key),
            }
        }
    }
}

/// A pair, copied.
#[inline]
pub fn pair_copied<V: Value>((key, value): Pair<'_, V>) -> Result<(Vec<u8>, V), Refusal> {
    Ok((copied(key)?, V::copied(value)?))
}

#[inline]
fn bound_copied(bound: Bound<&[u8]>) -> Result<Bound<Vec<u8>>, Refusal> {
    Ok(match bound {
        Bound::Included(key) => Bound::Included(copied(key)?),
        Bound::Excluded(key) => Bound::Excluded(copied(key)?),
        Bound::Unbounded => Bound::Unbounded,
    })
}

fn lent(between: &Result<Bounds<Vec<u8>>, Refusal>) -> Result<Bounds<&[u8]>, Refusal> {
    let (low, high) = between.as_ref().map_err(|refusal| *refusal)?;
    Ok((
        low.as_ref().map(Vec::as_slice),
        high.as_ref().map(Vec::as_slice),
    ))
}

// The upper bound of the keys that a prefix begins.
fn behind_all(prefix: &[u8]) -> Result<Bound<Vec<u8>>, Refusal> {
    let Some(last) = prefix.iter().rposition(|it| *it != u8::MAX) else {
        return Ok(Bound::Unbounded);
    };
    let mut behind = copied(&prefix[..=last])?;
    behind[last] += 1;
    Ok(Bound::Excluded(behind))
}
