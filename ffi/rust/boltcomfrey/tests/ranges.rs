//! Ranges of each kind, those that hold no key too, of keys named in each way.
use boltcomfrey::{Refusal, VersionedBytes, VersionedMap};
use std::ops::Bound::{Excluded, Included, Unbounded};
use std::ops::RangeBounds;

fn prices() -> Result<VersionedMap, Refusal> {
    let mut map = VersionedMap::new();
    map.try_extend([("milk", 100), ("salt", 50), ("tea", 300)])?;
    Ok(map)
}

#[test]
fn bounds_are_met_or_not() -> Result<(), Refusal> {
    let map = prices()?;
    let values = |range| map.range(range).map(|it| it.1).collect::<Vec<_>>();
    assert_eq!(values((Included("milk"), Included("tea"))), [100, 50, 300]);
    assert_eq!(values((Excluded("milk"), Excluded("tea"))), [50]);
    assert_eq!(values((Excluded("milk"), Unbounded)), [50, 300]);
    assert_eq!(values((Unbounded, Excluded("tea"))), [100, 50]);
    assert_eq!(values((Unbounded, Unbounded)), [100, 50, 300]);
    assert_eq!(map.range(..).count(), 3);
    assert_eq!(map.range(&b"n"[..]..).count(), 2);
    assert_eq!(map.range(..String::from("n")).count(), 1);
    Ok(())
}

#[test]
fn no_key_is_between_bounds_the_other_way_round() -> Result<(), Refusal> {
    let map = prices()?;
    let mut bytes = VersionedBytes::new();
    bytes.try_extend([("milk", "Milk"), ("tea", "Tea")])?;
    for (low, high) in [
        (Included("tea"), Included("milk")),
        (Excluded("salt"), Excluded("salt")),
        (Included("salt"), Excluded("salt")),
        (Excluded("tea"), Excluded("milk")),
    ] {
        assert_eq!(map.range((low, high)).count(), 0);
        assert_eq!(bytes.range((low, high)).count(), 0);
    }
    Ok(())
}

#[test]
fn ranges_are_lent_or_handed_on_by_their_bounds() -> Result<(), Refusal> {
    fn count<'a>(map: &VersionedMap, range: impl RangeBounds<&'a [u8]>) -> usize {
        map.range((range.start_bound(), range.end_bound())).count()
    }
    let map = prices()?;
    let (behind, before) = ("n".., (Unbounded, Excluded(vec![b't'])));
    assert_eq!(map.range(&behind).count(), map.range(behind).count());
    assert_eq!(map.range(&before).count(), map.range(before).count());
    assert_eq!(count(&map, ..), 3);
    assert_eq!(count(&map, &b"milk"[..]..b"tea"), 2);
    assert_eq!(count(&map, (Excluded(&b"milk"[..]), Unbounded)), 2);
    assert_eq!(map.range(b"milk"..=b"salt").count(), 2);
    assert_eq!(map.range(b"n".as_slice()..).count(), 2);
    Ok(())
}
