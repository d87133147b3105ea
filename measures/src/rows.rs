//! What is timed of each map, row by row; `meanings.md` says what each row is.
use crate::keys::{Data, Key, keys, mixed};
use crate::map::{Map, Tally, add};
use std::hint::black_box;
use std::time::{Duration, Instant};

/// In each pass the rounds of a row begin within this time; two do at least.
const BUDGET: Duration = Duration::from_millis(5);

/// A row of a map: nanoseconds of an operation in the fastest round, and what a round told.
pub struct Row {
    pub name: &'static str,
    pub nanoseconds: f64,
    pub tally: Tally,
}

/// Times rounds over what `prepare` makes, but neither that nor its drop.
pub fn row<S>(
    name: &'static str,
    prepare: impl Fn() -> S,
    mut round: impl FnMut(&mut S) -> Tally,
) -> Row {
    let mut timed = || {
        let mut state = black_box(prepare());
        let start = Instant::now();
        let tally = black_box(round(&mut state));
        (start.elapsed(), tally)
    };
    let begin = Instant::now();
    let (mut least, tally) = timed();
    loop {
        least = least.min(timed().0);
        if begin.elapsed() >= BUDGET {
            let nanoseconds = least.as_nanos() as f64 / tally.0 as f64;
            return Row {
                name,
                nanoseconds,
                tally,
            };
        }
    }
}

/// A row that needs nothing made.
fn plain(name: &'static str, mut round: impl FnMut() -> Tally) -> Row {
    row(name, || (), |()| round())
}

/// The rows of a map, which are the same for each.
pub fn rows<M: Map>(data: &Data) -> Vec<Row> {
    let map: M = filled(&data.stored);
    let mut rows = calls(&map, data);
    rows.extend(changes::<M>(data));
    rows.extend(walks(&map, data));
    rows.extend(searches::<M>(data));
    rows
}

fn calls<M: Map>(map: &M, data: &Data) -> Vec<Row> {
    let look_up = |keys: &[Key]| tally(keys.iter().map(|key| told(map.get(key))));
    let some = &data.absent[..data.absent.len().min(500)];
    let with = |key: &Key| u64::from(map.snapshot().insert(key, 0));
    vec![
        row("build", M::default, |map| fill(map, &data.stored)),
        plain("lookup, found", || look_up(&data.probes)),
        plain("lookup, absent", || look_up(&data.absent)),
        plain("snapshot, one insertion", || tally(some.iter().map(with))),
    ]
}

fn changes<M: Map>(data: &Data) -> Vec<Row> {
    let made = || filled::<M>(&data.stored);
    let take_out = |map: &mut M| tally(data.probes.iter().map(|key| told(map.remove(key))));
    let dropped = |map: &mut Option<M>| {
        drop(map.take());
        (data.stored.len(), 0)
    };
    vec![
        row("removal", made, take_out),
        row("drop of a map", || Some(made()), dropped),
    ]
}

fn walks<M: Map>(map: &M, data: &Data) -> Vec<Row> {
    let length = 100.min(data.sorted.len() / 2);
    let places = data.sorted.len() - length;
    let range = |number: u64| {
        let low = mixed(number) as usize % places;
        entries(map.range(&data.sorted[low], &data.sorted[low + length]))
    };
    vec![
        plain("`iter`", || tally(entries(map.iter()))),
        plain("`for_each_view`", map.lend()),
        plain("`range` of 100", || tally((0..64).flat_map(range))),
    ]
}

fn searches<M: Map>(data: &Data) -> Vec<Row> {
    let stored = data.stored.iter().enumerate();
    let routes: M = filled(stored.map(|(place, key)| &key[..8 + place % 9]));
    let longest = |probe: &Key| told(routes.longest(probe));
    vec![
        plain("longest match", || tally(data.probes.iter().map(longest))),
        join::<M>("`intersect_count`, 1 % common", data, 1),
        join::<M>("`intersect_count`, 10 % common", data, 10),
        join::<M>("`intersect_count`, all common", data, 100),
    ]
}

fn join<M: Map>(name: &'static str, data: &Data, percent: u64) -> Row {
    let (count, common) = (data.count, data.count * percent / 100);
    let base: M = filled(keys(&data.kind, 0, common));
    let (mut left, mut right) = (base.snapshot(), base.snapshot());
    fill(&mut left, keys(&data.kind, common, count));
    fill(&mut right, keys(&data.kind, count, 2 * count - common));
    plain(name, || (data.stored.len(), left.common(&right) as u64))
}

fn filled<M: Map>(keys: impl IntoIterator<Item = impl AsRef<[u8]>>) -> M {
    let mut map = M::default();
    fill(&mut map, keys);
    map
}

fn fill<M: Map>(map: &mut M, keys: impl IntoIterator<Item = impl AsRef<[u8]>>) -> Tally {
    let numbered = keys.into_iter().zip(0..);
    tally(numbered.map(|(key, value)| u64::from(map.insert(key.as_ref(), value))))
}

pub fn tally(told: impl Iterator<Item = u64>) -> Tally {
    told.fold((0, 0), add)
}

/// What a value adds to a tally, and what none does.
fn told(value: Option<u64>) -> u64 {
    value.map_or(0, |it| it + 1)
}

/// What each entry adds to a tally: the last byte of its key, and its value.
fn entries(pairs: impl Iterator<Item = (impl AsRef<[u8]>, u64)>) -> impl Iterator<Item = u64> {
    let last = |key: &[u8]| key.last().copied().map_or(0, u64::from);
    pairs.map(move |(key, value)| last(key.as_ref()) + (value << 8))
}
