//! Two ways of the tree, or of a routing table, to the same: what a call gains over a loop of others.
use crate::keys::{Data, Key, mixed};
use crate::map::Tally;
use crate::report::{self, grouped};
use crate::rows::{Row, row, tally};
use boltcomfrey::VersionedMap;
use std::collections::BTreeMap;

/// A call, and another way to the same.
struct Pair {
    name: String,
    call: Row,
    other: Row,
}

const REFUSED: &str = "memory was refused";

/// The table of all ways, least times of so many passes.
pub fn table(all: &[Data], passes: usize) -> String {
    let mut pairs = Vec::new();
    for data in all {
        let keys = format!("{} {} keys", grouped(data.count), data.kind.name);
        pairs.extend(least(passes, || orders(data, &keys)));
        pairs.extend(least(passes, || vec![equal(data, &keys)]));
    }
    let most = all.iter().map(|data| data.count).max().unwrap_or(0);
    pairs.extend(least(passes, || vec![longest()]));
    for count in [10, most] {
        pairs.extend(least(passes, || tenants(count)));
    }
    report::pairs(pairs.iter().map(|it| {
        let times = (it.call.nanoseconds, it.other.nanoseconds);
        (it.name.as_str(), times)
    }))
}

/// Measures so often, and keeps the least times. Both ways must tell the same.
fn least(passes: usize, measure: impl Fn() -> Vec<Pair>) -> Vec<Pair> {
    let mut kept = measure();
    for _ in 1..passes {
        for (it, again) in kept.iter_mut().zip(measure()) {
            it.call.nanoseconds = it.call.nanoseconds.min(again.call.nanoseconds);
            it.other.nanoseconds = it.other.nanoseconds.min(again.other.nanoseconds);
        }
    }
    for it in &kept {
        assert_eq!(
            it.call.tally, it.other.tally,
            "{}: the ways differ",
            it.name
        );
    }
    kept
}

fn pair(name: String, mut call: impl FnMut() -> Tally, mut other: impl FnMut() -> Tally) -> Pair {
    Pair {
        name,
        call: row("", || (), |()| call()),
        other: row("", || (), |()| other()),
    }
}

fn filled(keys: &[Key]) -> VersionedMap {
    keys.iter().map(|key| (key, 1)).collect()
}

/// Walks from either end, and searches of the neighbour of each key.
fn orders(data: &Data, keys: &str) -> Vec<Pair> {
    let map = filled(&data.stored);
    let values = |walk: &mut dyn Iterator<Item = (Vec<u8>, u64)>| tally(walk.map(|it| it.1));
    let found = |pair: Option<(Vec<u8>, u64)>| pair.map_or(0, |it| it.1);
    let after = |key: &Key| found(map.first_after(key));
    let before = |key: &Key| found(map.last_before(key));
    vec![
        pair(
            format!("`iter().rev()`, and `iter()`: an entry of {keys}"),
            || values(&mut map.iter().rev()),
            || values(&mut map.iter()),
        ),
        pair(
            format!("`last_before`, and `first_after`: a key of {keys}"),
            || tally(data.probes.iter().map(before)),
            || tally(data.probes.iter().map(after)),
        ),
    ]
}

/// Two maps with the same pairs, made apart.
fn equal(data: &Data, keys: &str) -> Pair {
    let (map, other) = (filled(&data.stored), filled(&data.probes));
    let count = data.stored.len();
    pair(
        format!("`equals`, and two iterators side by side: a key of {keys}"),
        || (count, u64::from(map.equals(&other).expect(REFUSED))),
        || (count, u64::from(map.iter().eq(other.iter()))),
    )
}

/// How many routes there are, and addresses that are looked up.
const ROUTES: u64 = 10_000;

/// An address of 4 bytes. The first is one of 64, so that most have a route.
fn address(number: u64) -> [u8; 4] {
    let [first, second, third, fourth, ..] = mixed(number).to_be_bytes();
    [first % 64, second, third, fourth]
}

/// A table of routes, each the first 1 to 4 bytes of an address: of sixteen one has 1 byte, four
/// have 2, seven 3, and four 4.
fn longest() -> Pair {
    let len = |number: u64| match number % 16 {
        0 => 1,
        1..=4 => 2,
        5..=11 => 3,
        _ => 4,
    };
    let routes = (0..ROUTES).map(|it| (address(it)[..len(it)].to_vec(), it + 1));
    let sorted: BTreeMap<Vec<u8>, u64> = routes.collect();
    let map: VersionedMap = sorted.iter().map(|(key, value)| (key, *value)).collect();
    let asked = |probe: [u8; 4]| {
        (1..=4)
            .rev()
            .find_map(|len| sorted.get(&probe[..len]).copied())
    };
    let probes = || (ROUTES..2 * ROUTES).map(address);
    let value = |probe: [u8; 4]| map.longest_prefix(probe).map_or(0, |it| it.1);
    pair(
        format!(
            "`longest_prefix` in {} routes, and a `BTreeMap` asked by length",
            grouped(ROUTES)
        ),
        || tally(probes().map(value)),
        || tally(probes().map(|probe| asked(probe).unwrap_or(0))),
    )
}

/// All keys of a tenant taken out of a snapshot, and put back into another, beside a loop. There are
/// a thousand keys of another tenant.
fn tenants(count: u64) -> Vec<Pair> {
    let of = |tenant: u8, count: u64| {
        (0..count).map(move |number| ([&[tenant][..], &mixed(number).to_be_bytes()].concat(), 1))
    };
    let others: VersionedMap = of(2, 1_000).collect();
    let mut all = others.snapshot().expect(REFUSED);
    all.extend(of(1, count));
    let told = |map: VersionedMap| (1, map.len() as u64);
    let snapshot = |map: &VersionedMap| map.snapshot().expect(REFUSED);
    let keys = grouped(count);
    vec![
        pair(
            format!("`remove_prefix` in a snapshot, and a loop of `remove`: {keys} keys"),
            || {
                let mut map = snapshot(&all);
                map.remove_prefix([1]).expect(REFUSED);
                told(map)
            },
            || {
                let mut map = snapshot(&all);
                for (key, _) in all.prefix([1]) {
                    map.remove(key).expect(REFUSED);
                }
                told(map)
            },
        ),
        pair(
            format!("`restore_prefix` in a snapshot, and a loop of `insert`: {keys} keys"),
            || {
                let mut map = snapshot(&others);
                map.restore_prefix([1], &all).expect(REFUSED);
                told(map)
            },
            || {
                let mut map = snapshot(&others);
                map.extend(all.prefix([1]));
                told(map)
            },
        ),
    ]
}
