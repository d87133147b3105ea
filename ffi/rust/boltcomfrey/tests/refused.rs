//! The same calls, one request in forty for a new block refused, and one in four for a longer one.
#![cfg(feature = "refusals")]

mod common;

use boltcomfrey::{Refusal, VersionedBytes, VersionedMap, refusals};
use common::{Compared, calls};

/// Ends the refusals, of which there were some of each kind: each call that was refused lacked one
/// request. Others lacked pages, which go on without memory.
fn expect_refused(calls: u64) {
    refusals::set(0);
    assert!(refusals::refused() > calls);
    assert!((1..calls).contains(&refusals::longer_refused()));
    assert!(refusals::blocks() > 0);
}

#[test]
fn refused_calls_change_nothing() {
    let mut compared = Compared::<u64>::new();
    refusals::set(40);
    (0..calls()).for_each(|_| compared.step());
    expect_refused(compared.refused);
    drop(compared);
    assert_eq!(refusals::blocks(), 0);
}

#[test]
fn nor_do_those_on_byte_strings() {
    let mut compared = Compared::<Vec<u8>>::new();
    refusals::set(40);
    (0..calls()).for_each(|_| compared.step());
    expect_refused(compared.refused);
    drop(compared);
    assert_eq!(refusals::blocks(), 0);
}

#[test]
fn maps_hold_blocks_until_they_are_dropped() -> Result<(), Refusal> {
    let mut map = VersionedMap::new();
    assert_eq!(refusals::blocks(), 0);
    map.insert("tea", 300)?;
    assert!(refusals::blocks() > 0);
    let before = map.snapshot()?;
    drop(map);
    assert_eq!(before.get("tea"), Some(300));
    assert!(refusals::blocks() > 0);
    drop(before);
    assert_eq!(refusals::blocks(), 0);
    Ok(())
}

#[test]
fn what_was_set_before_a_refusal_stays() {
    let mut map = VersionedMap::new();
    refusals::set(20);
    let told = map.try_extend((0..100).map(|at: u8| ([at], u64::from(at))));
    refusals::set(0);
    assert_eq!(told, Err(Refusal::NoMemory));
    assert!(map.len() < 100);
    let set: Vec<_> = (0..map.len() as u8)
        .map(|at| (vec![at], u64::from(at)))
        .collect();
    assert!(map.iter().eq(set));
}

#[test]
fn so_do_byte_strings() {
    let mut map = VersionedBytes::new();
    refusals::set(20);
    let told = map.try_extend((0..100).map(|at: u8| ([at], [at])));
    refusals::set(0);
    assert_eq!(told, Err(Refusal::NoMemory));
    let set: Vec<_> = (0..map.len() as u8)
        .map(|at| (vec![at], vec![at]))
        .collect();
    assert!(set.len() < 100 && map.iter().eq(set));
}

#[test]
fn a_refused_split_leaves_its_map() {
    // (keys of many nodes, which are shared, so that each takes memory)
    let pairs = (0..100).map(|at: u8| ([at / 10, at % 10], u64::from(at)));
    let whole: VersionedMap = pairs.collect();
    let mut refused = 0;
    for one_in in 20..200 {
        let mut map = whole.clone();
        refusals::set(one_in);
        let told = map.try_split_off([9, 5]);
        refusals::set(0);
        match told {
            Ok(behind) => assert_eq!((map.len(), behind.len()), (95, 5)),
            Err(_) => {
                refused += 1;
                assert_eq!((map.version(), map), (whole.version(), whole.clone()));
            }
        }
    }
    assert!(refused > 0);
}

#[test]
fn maps_are_compared_all_the_same() -> Result<(), Refusal> {
    let mut map = VersionedBytes::from([("milk", "Milk"), ("tea", "Tea")]);
    let (before, same) = (map.snapshot()?, map.snapshot()?);
    map.insert("tea", "Green tea")?;
    refusals::set(1);
    let refused = map.equals(&before).and(before.equals(&same));
    let told = (map == before, before == same);
    refusals::set(0);
    assert_eq!(refused, Err(Refusal::NoMemory));
    assert_eq!(told, (false, true));
    Ok(())
}

#[test]
fn a_refused_entry_answers_so_from_then_on() -> Result<(), Refusal> {
    let mut map = VersionedMap::from([("milk", 100), ("tea", 300)]);
    let before = map.snapshot()?; // (so that a change takes memory)
    refusals::set(1);
    let modified = map.entry("tea").and_modify(|price| *price += 50);
    refusals::set(0);
    assert_eq!(modified.finish(), Err(Refusal::NoMemory));
    assert_eq!(modified.or_insert(350), Err(Refusal::NoMemory));
    assert_eq!((map.version(), &map), (2, &before));
    Ok(())
}

#[test]
fn pairs_that_are_taken_out_are_asked_about_once() -> Result<(), Refusal> {
    let mut map: VersionedMap = (0..100).map(|at: u8| ([at], u64::from(at))).collect();
    let (before, mut asked, mut refused) = (map.snapshot()?, 0, 0);
    let mut chosen = map.extract_if(.., |_, value| {
        asked += 1;
        value % 2 == 0
    });
    let mut given = Vec::new();
    refusals::set(10); // (one step asks for fewer)
    loop {
        match chosen.try_next() {
            Ok(Some((_, value))) => given.push(value),
            Ok(None) => break,
            Err(_) => refused += 1,
        }
    }
    refusals::set(0);
    assert!(given.into_iter().eq((0..100).step_by(2)));
    assert!(asked == 100 && refused > 0 && before.len() == 100);
    Ok(())
}
