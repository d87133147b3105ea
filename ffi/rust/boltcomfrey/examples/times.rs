//! Nanoseconds a call, beside std's `BTreeMap`: the least of some passes over random keys of 16
//! bytes.
//!
//! cargo run --release --example times -- PASSES
mod random;

use boltcomfrey::VersionedMap;
use random::Numbers;
use std::collections::BTreeMap;
use std::env;
use std::hint::black_box;
use std::time::Instant;

type Key = [u8; 16];
type Sorted = BTreeMap<Vec<u8>, u64>;

fn keys(numbers: &mut Numbers, count: usize) -> Vec<Key> {
    (0..count).map(|_| numbers.key()).collect()
}

/// The keys in another order.
fn shuffled(numbers: &mut Numbers, keys: &[Key]) -> Vec<Key> {
    let mut keys = keys.to_vec();
    for place in (1..keys.len()).rev() {
        keys.swap(place, (numbers.next() % (place as u64 + 1)) as usize);
    }
    keys
}

/// Nanoseconds a call, made once with each of the keys.
fn timed<R>(keys: &[Key], mut call: impl FnMut(&Key) -> R) -> f64 {
    let start = Instant::now();
    for key in keys {
        black_box(call(key));
    }
    start.elapsed().as_nanos() as f64 / keys.len() as f64
}

/// Nanoseconds an entry of a whole walk.
fn walked<E>(entries: impl Iterator<Item = E>) -> f64 {
    let start = Instant::now();
    let count = entries.map(black_box).count();
    start.elapsed().as_nanos() as f64 / count as f64
}

/// Nanoseconds an entry of a whole walk that copies none.
fn walked_lent(tree: &VersionedMap) -> f64 {
    let start = Instant::now();
    tree.iter().lent().for_each(|key, value| {
        black_box((key, value));
    });
    start.elapsed().as_nanos() as f64 / tree.len() as f64
}

/// A name, the time of the library, that of std.
type Row = (&'static str, f64, f64);

fn row<R, S>(
    name: &'static str,
    keys: &[Key],
    ours: impl FnMut(&Key) -> R,
    theirs: impl FnMut(&Key) -> S,
) -> Row {
    (name, timed(keys, ours), timed(keys, theirs))
}

fn pass(count: usize, numbers: &mut Numbers) -> Vec<Row> {
    let present = keys(numbers, count);
    let (asked, absent) = (shuffled(numbers, &present), keys(numbers, count));
    let (mut tree, mut map) = (VersionedMap::new(), Sorted::new());
    let inserted = |tree: &VersionedMap, key: &Key| {
        let mut copy = tree.snapshot()?;
        copy.insert(key, 1)
    };
    let with = |map: &Sorted, key: &Key| {
        let mut copy = map.clone();
        copy.insert(key.to_vec(), 1)
    };
    vec![
        row(
            "insertion",
            &present,
            |key| tree.insert(key, 1),
            |key| map.insert(key.to_vec(), 1),
        ),
        row(
            "lookup, found",
            &asked,
            |key| tree.get(key),
            |key| map.get(&key[..]).copied(),
        ),
        row(
            "lookup, absent",
            &absent,
            |key| tree.get(key),
            |key| map.get(&key[..]).copied(),
        ),
        row(
            "version, an empty call",
            &present,
            |_| tree.version(),
            |_| map.len(),
        ),
        row(
            "copy, one insertion",
            &absent[..1],
            |key| inserted(&tree, key),
            |key| with(&map, key),
        ),
        (
            "walk, a copied entry",
            walked(tree.iter()),
            walked(map.iter().map(|(key, value)| (key.clone(), *value))),
        ),
        ("walk, a lent entry", walked_lent(&tree), walked(map.iter())),
        row(
            "removal",
            &asked,
            |key| tree.remove(key),
            |key| map.remove(&key[..]),
        ),
    ]
}

/// The least times of all passes, row by row.
fn least(count: usize, passes: usize) -> Vec<Row> {
    let mut numbers = Numbers::new();
    let mut least = pass(count, &mut numbers);
    for _ in 1..passes {
        for (row, other) in least.iter_mut().zip(pass(count, &mut numbers)) {
            row.1 = row.1.min(other.1);
            row.2 = row.2.min(other.2);
        }
    }
    least
}

fn main() {
    let passes = env::args()
        .nth(1)
        .and_then(|it| it.parse().ok())
        .unwrap_or(6);
    for count in [1_000, 100_000] {
        println!("{count} keys: nanoseconds, those of BTreeMap, the ratio");
        for (name, ours, theirs) in least(count, passes) {
            println!("{name:28} {ours:9.1} {theirs:9.1} {:6.2}", ours / theirs);
        }
    }
}
