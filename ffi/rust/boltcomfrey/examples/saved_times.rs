//! Microseconds to save a map as bytes and to load it, beside a `BTreeMap` with a loop over `Write`
//! and another over bytes that are read, which makes no sum: the least of some passes over random
//! keys of 16 bytes.
//!
//! cargo run --release --example saved_times -- PASSES
//!
//! What the sum takes is told by a map of one byte string as long as the file: to save it is to make
//! the sum and to copy it.
mod random;

use boltcomfrey::{VersionedBytes, VersionedMap};
use random::Numbers;
use std::collections::BTreeMap;
use std::env;
use std::hint::black_box;
use std::io::{self, Read, Write};
use std::time::{Duration, Instant};

fn put(to: &mut impl Write, bytes: &[u8]) -> io::Result<()> {
    to.write_all(&(bytes.len() as u64).to_le_bytes())?;
    to.write_all(bytes)
}

fn number(from: &mut impl Read) -> io::Result<u64> {
    let mut eight = [0; 8];
    from.read_exact(&mut eight)?;
    Ok(u64::from_le_bytes(eight))
}

fn string(from: &mut impl Read) -> io::Result<Vec<u8>> {
    let mut bytes = vec![0; number(from)? as usize];
    from.read_exact(&mut bytes)?;
    Ok(bytes)
}

/// A value that the loops over `BTreeMap` write and read.
trait Value: Sized {
    fn write(&self, to: &mut impl Write) -> io::Result<()>;
    fn read(from: &mut impl Read) -> io::Result<Self>;
}

impl Value for u64 {
    fn write(&self, to: &mut impl Write) -> io::Result<()> {
        to.write_all(&self.to_le_bytes())
    }

    fn read(from: &mut impl Read) -> io::Result<u64> {
        number(from)
    }
}

impl Value for Vec<u8> {
    fn write(&self, to: &mut impl Write) -> io::Result<()> {
        put(to, self)
    }

    fn read(from: &mut impl Read) -> io::Result<Vec<u8>> {
        string(from)
    }
}

fn write_map<V: Value>(map: &BTreeMap<Vec<u8>, V>) -> io::Result<Vec<u8>> {
    let mut bytes = Vec::new();
    bytes.write_all(&(map.len() as u64).to_le_bytes())?;
    for (key, value) in map {
        put(&mut bytes, key)?;
        value.write(&mut bytes)?;
    }
    Ok(bytes)
}

fn read_map<V: Value>(mut bytes: &[u8]) -> io::Result<BTreeMap<Vec<u8>, V>> {
    let mut map = BTreeMap::new();
    for _ in 0..number(&mut bytes)? {
        map.insert(string(&mut bytes)?, V::read(&mut bytes)?);
    }
    Ok(map)
}

/// The least time of so many calls.
fn least<R>(passes: usize, mut call: impl FnMut() -> R) -> Duration {
    let timed = (0..passes).map(|_| {
        let start = Instant::now();
        let made = black_box(call());
        let time = start.elapsed();
        drop(made);
        time
    });
    timed.min().expect("a pass")
}

/// What saving, loading and the sum take, with as many bytes a key.
struct Times {
    saved: [Duration; 2],
    loaded: [Duration; 2],
    sum: Duration,
    bytes: [f64; 2],
}

impl Times {
    fn print(&self, name: &str, count: usize) {
        let ratio = |pair: [Duration; 2], less: Duration| {
            pair[0].saturating_sub(less).as_secs_f64() / pair[1].as_secs_f64()
        };
        println!(
            "{count} keys, {name}: microseconds, those of BTreeMap, the ratio, without the sum"
        );
        for (what, pair) in [("saving", self.saved), ("loading", self.loaded)] {
            let [ours, theirs] = pair.map(|it| it.as_nanos() as f64 / 1_000.0);
            let (all, less) = (ratio(pair, Duration::ZERO), ratio(pair, self.sum));
            println!("{what:8} {ours:10.1} {theirs:10.1} {all:6.2} {less:6.2}");
        }
        println!("the sum  {:10.1}", self.sum.as_nanos() as f64 / 1_000.0);
        println!(
            "bytes a key {:.1}, BTreeMap's loop {:.1}",
            self.bytes[0], self.bytes[1]
        );
    }
}

/// The time of the sum over so many bytes, by a map that has them as one value.
fn sum_time(passes: usize, len: usize) -> Duration {
    let map = VersionedBytes::from([("", vec![7; len])]);
    least(passes, || map.to_bytes())
}

macro_rules! measured {
    ($passes:expr, $pairs:expr, $ours:ty, $theirs:ty) => {{
        let ours: $ours = $pairs.iter().cloned().collect();
        let theirs: $theirs = $pairs.iter().cloned().collect();
        let (file, other) = (ours.to_bytes(), write_map(&theirs)?);
        Times {
            saved: [
                least($passes, || ours.to_bytes()),
                least($passes, || write_map(&theirs)),
            ],
            loaded: [
                least($passes, || <$ours>::from_bytes(&file)),
                least($passes, || -> io::Result<$theirs> { read_map(&other) }),
            ],
            sum: sum_time($passes, file.len()),
            bytes: [file.len(), other.len()].map(|it| it as f64 / $pairs.len() as f64),
        }
    }};
}

fn main() -> io::Result<()> {
    let given = env::args().nth(1).and_then(|it| it.parse().ok());
    let passes: usize = given.unwrap_or(10);
    let mut numbers = Numbers::new();
    for count in [1_000, 100_000] {
        let passes = passes * 100_000 / count;
        let pairs: Vec<_> = (0..count)
            .map(|_| (numbers.key().to_vec(), numbers.next()))
            .collect();
        measured!(passes, pairs, VersionedMap, BTreeMap<Vec<u8>, u64>).print("numbers", count);
        let pairs: Vec<_> = (0..count)
            .map(|_| (numbers.key().to_vec(), numbers.key().to_vec()))
            .collect();
        measured!(passes, pairs, VersionedBytes, BTreeMap<Vec<u8>, Vec<u8>>)
            .print("byte strings of 16", count);
    }
    Ok(())
}
