use std::ops::{Bound, Range, RangeFrom, RangeFull, RangeInclusive, RangeTo, RangeToInclusive};

/// What a range of keys may be: any of std's ranges, of what lends bytes, a pair of bounds, or a
/// reference to one of these.
///
/// A function that takes any range has this for its bound. One that has std's `RangeBounds` hands the
/// two bounds on:
///
/// ```
/// # use boltcomfrey::{KeyRange, VersionedMap};
/// # use std::ops::RangeBounds;
/// fn sum(prices: &VersionedMap, range: impl KeyRange) -> u64 {
///     prices.range(range).map(|pair| pair.1).sum()
/// }
/// fn sum_within<'a>(prices: &VersionedMap, range: impl RangeBounds<&'a [u8]>) -> u64 {
///     sum(prices, (range.start_bound(), range.end_bound()))
/// }
/// let prices = VersionedMap::from([("milk", 100), ("tea", 300)]);
/// assert_eq!(sum(&prices, "n"..), 300);
/// assert_eq!(sum_within(&prices, ..=b"milk".as_slice()), 100);
/// ```
pub trait KeyRange {
    /// The lower bound and the upper one.
    fn bounds(&self) -> (Bound<&[u8]>, Bound<&[u8]>);
}

impl KeyRange for RangeFull {
    fn bounds(&self) -> (Bound<&[u8]>, Bound<&[u8]>) {
        (Bound::Unbounded, Bound::Unbounded)
    }
}

impl<K: AsRef<[u8]>> KeyRange for Range<K> {
    fn bounds(&self) -> (Bound<&[u8]>, Bound<&[u8]>) {
        (
            Bound::Included(self.start.as_ref()),
            Bound::Excluded(self.end.as_ref()),
        )
    }
}

impl<K: AsRef<[u8]>> KeyRange for RangeInclusive<K> {
    fn bounds(&self) -> (Bound<&[u8]>, Bound<&[u8]>) {
        (
            Bound::Included(self.start().as_ref()),
            Bound::Included(self.end().as_ref()),
        )
    }
}

impl<K: AsRef<[u8]>> KeyRange for RangeFrom<K> {
    fn bounds(&self) -> (Bound<&[u8]>, Bound<&[u8]>) {
        (Bound::Included(self.start.as_ref()), Bound::Unbounded)
    }
}

impl<K: AsRef<[u8]>> KeyRange for RangeTo<K> {
    fn bounds(&self) -> (Bound<&[u8]>, Bound<&[u8]>) {
        (Bound::Unbounded, Bound::Excluded(self.end.as_ref()))
    }
}

impl<K: AsRef<[u8]>> KeyRange for RangeToInclusive<K> {
    fn bounds(&self) -> (Bound<&[u8]>, Bound<&[u8]>) {
        (Bound::Unbounded, Bound::Included(self.end.as_ref()))
    }
}

impl<K: AsRef<[u8]>> KeyRange for (Bound<K>, Bound<K>) {
    fn bounds(&self) -> (Bound<&[u8]>, Bound<&[u8]>) {
        (
            self.0.as_ref().map(K::as_ref),
            self.1.as_ref().map(K::as_ref),
        )
    }
}

impl<R: KeyRange> KeyRange for &R {
    fn bounds(&self) -> (Bound<&[u8]>, Bound<&[u8]>) {
        R::bounds(self)
    }
}
