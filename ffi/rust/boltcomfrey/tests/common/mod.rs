//! Random calls on a few versions, beside a model of std's maps.
#![allow(dead_code)] // (each test takes some of it)

mod cursors;
mod entries;
mod extracting;

use boltcomfrey::{Given, Lent, LoadError, Map, Refusal, Value};
use std::borrow::Borrow;
use std::collections::BTreeMap;
use std::fmt::Debug;
use std::ops::Bound::{self, Excluded, Included, Unbounded};
use std::ops::RangeBounds;

/// The generator xorshift64.
pub struct Random(u64);

impl Random {
    pub fn below(&mut self, most: u64) -> u64 {
        self.0 ^= self.0 << 13;
        self.0 ^= self.0 >> 7;
        self.0 ^= self.0 << 17;
        self.0 % most
    }

    /// A key of at most seven bytes, of few that often begin one another. The last of a short one
    /// may be any, so that nodes of each width are met.
    fn key(&mut self) -> Vec<u8> {
        let len = self.below(8);
        let mut key: Vec<_> = (0..len)
            .map(|_| [0, b'a', b'b', u8::MAX][self.below(4) as usize])
            .collect();
        if let ([.., last], 1..=2) = (&mut key[..], len) {
            *last = self.below(256) as u8;
        }
        key
    }
}

/// A value drawn at random.
pub trait Drawn: Value + Given<Self> + Debug + Borrow<Self::Lent> {
    fn drawn(random: &mut Random) -> Self;
}

impl Drawn for u64 {
    fn drawn(random: &mut Random) -> u64 {
        random.below(u64::MAX)
    }
}

impl Drawn for Vec<u8> {
    /// Short, or longer than what is read at once.
    fn drawn(random: &mut Random) -> Vec<u8> {
        let most = if random.below(8) == 0 { 400 } else { 20 };
        let len = random.below(most);
        (0..len).map(|_| random.below(256) as u8).collect()
    }
}

/// What a version should be.
#[derive(Clone)]
struct Model<V> {
    pairs: BTreeMap<Vec<u8>, V>,
    number: u64,
    longest: usize,
}

impl<V: Clone + PartialEq> Model<V> {
    fn new(longest: usize) -> Model<V> {
        Model {
            pairs: BTreeMap::new(),
            number: 0,
            longest,
        }
    }

    fn longest_prefix(&self, probe: &[u8]) -> Option<(usize, V)> {
        let starts = (0..=probe.len()).rev();
        starts
            .map(|len| &probe[..len])
            .find_map(|it| Some((it.len(), self.pairs.get(it)?.clone())))
    }

    /// The pairs within two bounds, as the map gives them.
    fn range(
        &self,
        range: impl RangeBounds<Vec<u8>>,
    ) -> impl DoubleEndedIterator<Item = (Vec<u8>, V)> {
        self.pairs
            .range(range)
            .map(|(key, value)| (key.clone(), value.clone()))
    }

    /// The pairs that a prefix begins.
    fn prefix(&self, prefix: &[u8]) -> impl Iterator<Item = (Vec<u8>, V)> {
        self.range(..).filter(|(key, _)| key.starts_with(prefix))
    }

    fn common_count(&self, other: &Model<V>) -> usize {
        self.pairs
            .keys()
            .filter(|it| other.pairs.contains_key(*it))
            .count()
    }

    /// The keys at which this model and a later one differ, with what either has there.
    fn diff(&self, after: &Model<V>) -> Vec<(Vec<u8>, Option<V>, Option<V>)> {
        let mut keys: Vec<_> = self.pairs.keys().chain(after.pairs.keys()).collect();
        keys.sort();
        keys.dedup();
        let changes = keys.into_iter().map(|key| {
            let (was, is) = (self.pairs.get(key), after.pairs.get(key));
            (key.clone(), was.cloned(), is.cloned())
        });
        changes.filter(|(_, was, is)| was != is).collect()
    }

    fn insert(&mut self, key: &[u8], value: V) -> Option<V> {
        self.number += 1;
        self.pairs.insert(key.to_vec(), value)
    }

    fn remove(&mut self, key: &[u8]) -> Option<V> {
        let removed = self.pairs.remove(key)?;
        self.number += 1;
        Some(removed)
    }

    fn snapshot(&self) -> Model<V> {
        let mut copy = self.clone();
        copy.number += 1;
        copy
    }
}

/// Versions, each beside its model, and how many calls were refused.
pub struct Compared<V: Value> {
    random: Random,
    versions: Vec<(Map<V>, Model<V>)>,
    pub refused: u64,
}

impl<V: Drawn> Compared<V> {
    pub fn new() -> Compared<V> {
        Compared {
            random: Random(0x9e37_79b9_7f4a_7c15),
            versions: vec![(Map::new(), Model::new(1024))],
            refused: 0,
        }
    }

    /// Makes a random call on a random version, and compares what it answers and what it leaves.
    pub fn step(&mut self) {
        let at = self.random.below(self.versions.len() as u64) as usize;
        match self.random.below(2000) {
            0..20 => self.copy(at),
            20 => {
                self.walk(at);
                self.walk_on(at);
                self.walk_by(at);
                self.go_either_way(at);
                self.change_either_way(at);
            }
            21 => {
                self.compare_with_another(at);
                self.unite(at);
                self.equate(at);
            }
            22..42 => self.count_common(at),
            42 => self.renew(at),
            43..46 => self.save(at),
            46..600 => self.read(at),
            600..1200 => self.remove(at),
            1200..1300 => self.update(at),
            1300..1392 => self.set_if(at),
            1392..1395 => self.remove_prefix(at),
            1395..1397 => self.keep_prefix(at),
            1397..1400 => self.restore_prefix(at),
            1400..1402 => self.extract(at),
            1402..1450 => self.enter(at),
            1450..1475 => self.try_insert(at),
            1475..1480 => self.enter_at_an_end(at),
            _ => self.insert(at),
        }
        let (map, model) = &self.versions[at];
        assert_eq!(
            (map.version(), map.len()),
            (model.number, model.pairs.len())
        );
        assert_eq!(map.is_empty(), model.pairs.is_empty());
        assert_eq!(map.longest_key(), model.longest);
    }

    fn insert(&mut self, at: usize) {
        let (key, value) = (self.random.key(), V::drawn(&mut self.random));
        let gives = self.random.below(2) == 0;
        let (map, model) = &mut self.versions[at];
        if key.len() > model.longest {
            assert_eq!(map.set(&key, value), Err(Refusal::TooLong));
            return;
        }
        let told = if gives {
            map.insert(&key, value.clone())
                .map(|was| assert_eq!(was, model.insert(&key, value)))
        } else {
            map.set(&key, value.clone())
                .map(|was| assert_eq!(was, model.insert(&key, value).is_some()))
        };
        self.note(told);
    }

    fn remove(&mut self, at: usize) {
        let (key, how) = (self.random.key(), self.random.below(4));
        let (map, model) = &mut self.versions[at];
        let told = match how {
            0 => map
                .delete(&key)
                .map(|was| assert_eq!(was, model.remove(&key).is_some())),
            1 => map.try_pop_first().map(|first| {
                let key = model.pairs.keys().next().cloned();
                assert_eq!(first.is_some(), key.is_some());
                if let (Some((key, value)), Some(wanted)) = (first, key) {
                    assert_eq!(key, wanted);
                    assert_eq!(Some(value), model.remove(&key));
                }
            }),
            _ => map
                .remove(&key)
                .map(|was| assert_eq!(was, model.remove(&key))),
        };
        self.note(told);
    }

    fn update(&mut self, at: usize) {
        let (key, value) = (self.random.key(), V::drawn(&mut self.random));
        let sets = self.random.below(2) == 0;
        let (map, model) = &mut self.versions[at];
        let mut seen = None;
        let told = map.update(&key, |was| {
            seen = was;
            sets.then(|| value.clone())
        });
        let was = model.pairs.get(&key).cloned();
        assert_eq!(seen, was);
        if sets && key.len() > model.longest {
            assert_eq!(told, Err(Refusal::TooLong));
            return;
        }
        let told = told.map(|()| {
            if sets {
                model.insert(&key, value);
            } else {
                model.remove(&key);
            }
        });
        self.note(told);
    }

    /// Sets a key where it is not there, or where it is.
    fn set_if(&mut self, at: usize) {
        let (key, value) = (self.random.key(), V::drawn(&mut self.random));
        let adds = self.random.below(2) == 0;
        let (map, model) = &mut self.versions[at];
        let is_there = model.pairs.contains_key(&key);
        let told = if adds {
            map.add(&key, value.clone())
        } else {
            map.replace(&key, value.clone())
        };
        if adds && key.len() > model.longest {
            assert_eq!(told, Err(Refusal::TooLong));
            return;
        }
        let told = told.map(|is_set| {
            assert_eq!(is_set, adds != is_there);
            if is_set {
                model.insert(&key, value);
            }
        });
        self.note(told);
    }

    /// Takes out what a prefix begins. Where nothing is there it isn't refused.
    fn remove_prefix(&mut self, at: usize) {
        let prefix = self.random.key();
        let (map, model) = &mut self.versions[at];
        let many = model.prefix(&prefix).count();
        let told = map.remove_prefix(&prefix);
        assert!(told.is_ok() || many > 0);
        let told = told.map(|removed| {
            assert_eq!(removed, many);
            model.pairs.retain(|key, _| !key.starts_with(&prefix));
            model.number += u64::from(many > 0);
        });
        self.note(told);
    }

    /// Keeps what a prefix begins, in place of another version.
    fn keep_prefix(&mut self, at: usize) {
        let prefix = self.random.key();
        let (map, model) = &self.versions[at];
        match map.prefix_snapshot(&prefix) {
            Ok(part) => {
                let mut under = model.snapshot();
                under.pairs.retain(|key, _| key.starts_with(&prefix));
                let next = (at + 1) % self.versions.len();
                self.versions[next] = (part, under);
            }
            Err(refusal) => self.note(Err(refusal)),
        }
    }

    /// Puts what another version has under a prefix in place of what stands there.
    fn restore_prefix(&mut self, at: usize) {
        let prefix = self.random.key();
        let (mut map, mut model) = self.versions.swap_remove(at);
        if !self.versions.is_empty() {
            let from = self.random.below(self.versions.len() as u64) as usize;
            let (other, others) = &self.versions[from];
            match map.restore_prefix(&prefix, other) {
                Ok(()) => {
                    model.pairs.retain(|key, _| !key.starts_with(&prefix));
                    model.pairs.extend(others.prefix(&prefix));
                    model.number += others.number;
                }
                Err(Refusal::TooLong) => assert!(others.longest > model.longest),
                Err(Refusal::LastNumber) => {
                    assert_eq!(model.number.checked_add(others.number), None);
                }
                Err(refusal) => self.note(Err(refusal)),
            }
        }
        self.versions.push((map, model));
        let last = self.versions.len() - 1;
        self.versions.swap(at, last);
    }

    /// Takes a snapshot or a clone, in place of another version where there are eight.
    fn copy(&mut self, at: usize) {
        let is_snapshot = self.random.below(2) == 0;
        let (map, model) = &self.versions[at];
        let copied = if is_snapshot {
            map.snapshot().map(|it| (it, model.snapshot()))
        } else {
            map.try_clone().map(|it| (it, model.clone()))
        };
        match copied {
            Ok(pair) if self.versions.len() < 8 => self.versions.push(pair),
            Ok(pair) => self.versions[(at + 1) % 8] = pair,
            Err(refusal) => self.note(Err(refusal)),
        }
    }

    /// Puts a map without a key in a version's place, whose keys may be longer or shorter than those
    /// that are drawn.
    fn renew(&mut self, at: usize) {
        let longest = self.random.below(16) as usize;
        match Map::with_longest_key(longest) {
            Ok(map) => self.versions[at] = (map, Model::new(longest)),
            Err(refusal) => self.note(Err(refusal)),
        }
    }

    /// Saves a version, and loads it into another one, whose keys may be as long as before; then with
    /// one bit changed.
    fn save(&mut self, at: usize) {
        let to = self.random.below(self.versions.len() as u64) as usize;
        let saved = self.versions[at].0.try_to_bytes();
        let mut file = match saved {
            Ok(file) => file,
            Err(refusal) => return self.note(Err(refusal)),
        };
        let wanted = self.versions[at].1.clone();
        let (map, model) = &mut self.versions[to];
        let is_long = wanted.pairs.keys().any(|it| it.len() > model.longest);
        let told = match map.load(&file) {
            Ok(()) => {
                assert!(!is_long);
                let longest = model.longest;
                *model = Model { longest, ..wanted };
                Ok(())
            }
            Err(LoadError::TooLong { at }) => {
                assert!(is_long && at < file.len());
                Ok(())
            }
            Err(LoadError::NoMemory) => Err(Refusal::NoMemory),
            Err(error) => panic!("{error}"),
        };
        assert!(map.iter().eq(model.range(..)));
        self.note(told);
        let bit = self.random.below(8 * file.len() as u64) as usize;
        file[bit / 8] ^= 1 << (bit % 8);
        let told = match self.versions[to].0.load(&file) {
            Err(LoadError::NoMemory) => Err(Refusal::NoMemory),
            told => {
                assert!(told.is_err());
                Ok(())
            }
        };
        self.note(told);
    }

    fn read(&mut self, at: usize) {
        let key = self.random.key();
        let (map, model) = &self.versions[at];
        assert_eq!(map.get(&key).as_ref(), model.pairs.get(&key));
        assert_eq!(map.contains_key(&key), model.pairs.contains_key(&key));
        assert_eq!(map.longest_prefix(&key), model.longest_prefix(&key));
        let from = model.range(key.clone()..).next();
        assert_eq!(map.first_from(&key), from);
        assert_eq!(map.range(key.clone()..).next(), from);
        let behind = (Excluded(key.clone()), Unbounded);
        let after = model.range(behind.clone()).next();
        assert_eq!(map.first_after(&key), after);
        assert_eq!(map.range(behind).next(), after);
        assert_eq!(map.first_key_value(), model.range(..).next());
        let last = |to: Bound<Vec<u8>>| model.range((Unbounded, to)).next_back();
        assert_eq!(map.last_key_value(), last(Unbounded));
        assert_eq!(map.last_to(&key), last(Included(key.clone())));
        assert_eq!(map.last_before(&key), last(Excluded(key)));
    }

    /// (As often as in C, since the model looks each key up.)
    fn count_common(&mut self, at: usize) {
        let other = self.random.below(self.versions.len() as u64) as usize;
        let ((map, model), (other, others)) = (&self.versions[at], &self.versions[other]);
        assert_eq!(map.common_count(other), model.common_count(others));
    }

    /// Walks over a version: all of it, what a prefix begins, and what is between two keys.
    fn walk(&mut self, at: usize) {
        let (key, other) = (self.random.key(), self.random.key());
        let (map, model) = &self.versions[at];
        assert!(map.iter().eq(model.range(..)));
        assert!(map.keys().eq(model.pairs.keys().cloned()));
        assert!(map.values().eq(model.pairs.values().cloned()));
        assert_eq!(map.iter().len(), model.pairs.len());
        assert!(map.prefix(&key).eq(model.prefix(&key)));
        let (low, high) = if key <= other {
            (key, other)
        } else {
            (other, key)
        };
        let pairs = map.range(low.clone()..=high.clone());
        assert!(pairs.clone().eq(model.range(low.clone()..=high.clone())));
        assert!(
            pairs
                .clone()
                .rev()
                .eq(model.range(low.clone()..=high.clone()).rev())
        );
        expect_from_both_ends(
            &mut self.random,
            pairs,
            model.range(low.clone()..=high.clone()),
        );
        expect_from_both_ends(&mut self.random, map.iter(), model.range(..));
        let within = (Included(low.as_slice()), Excluded(high.as_slice()));
        assert_eq!(map.range(within).count(), model.range(low..high).count());
    }

    /// Walks over a version, of which some pairs are passed over or not copied.
    fn walk_on(&mut self, at: usize) {
        let (key, skipped) = (self.random.key(), self.random.below(20) as usize);
        let (map, model) = &self.versions[at];
        let (mut pairs, mut wanted) = (map.iter(), model.range(..));
        assert_eq!(pairs.nth(skipped), wanted.nth(skipped));
        assert_eq!(pairs.len(), wanted.count());
        expect_lent(pairs.clone().lent(), model.range(..).skip(skipped + 1));
        let backwards = model.range(..).rev();
        let left = map.len().saturating_sub(skipped + 1);
        expect_lent(pairs.clone().lent().rev(), backwards.take(left));
        assert_eq!(pairs.count(), left);
        assert_eq!(map.iter().last(), model.range(..).next_back());
        assert_eq!(map.values().last(), map.last_key_value().map(|it| it.1));
        assert_eq!(
            map.keys().nth(skipped),
            model.pairs.keys().nth(skipped).cloned()
        );
        let (mut behind, mut wanted) = (map.range(key.clone()..), model.range(key.clone()..));
        assert_eq!(behind.next_back(), wanted.next_back());
        assert_eq!(behind.nth(skipped), wanted.nth(skipped));
        let wanted: Vec<_> = wanted.collect();
        expect_lent(behind.clone().lent(), wanted.iter().cloned());
        expect_lent(behind.clone().lent().rev(), wanted.iter().rev().cloned());
        assert_eq!(behind.clone().count(), wanted.len());
        assert_eq!(behind.last(), wanted.last().cloned());
        expect_lent(map.prefix(&key).lent(), model.prefix(&key));
    }

    /// Walks over a version by a function, from either end, which ends the walk or does not.
    fn walk_by(&mut self, at: usize) {
        let most = self.random.below(20) as usize;
        let (map, model) = &self.versions[at];
        let (mut pairs, mut wanted) = (map.iter(), model.range(..));
        assert_eq!(pairs.next_back(), wanted.next_back());
        let mut given = Vec::new();
        let mut lent = pairs.lent();
        let told = lent.try_for_each(|key, value| {
            given.push((key.to_vec(), value.to_owned()));
            if given.len() > most {
                return Err(Refusal::NotEmpty);
            }
            Ok(())
        });
        assert_eq!(told.is_err(), given.len() > most);
        lent.rev().for_each(|key, value| {
            assert_eq!(wanted.next_back(), Some((key.to_vec(), value.to_owned())));
        });
        assert!(wanted.eq(given));
    }

    /// Compares two versions: what differs, what is common, and how they are ordered.
    fn compare_with_another(&mut self, at: usize) {
        let other = self.random.below(self.versions.len() as u64) as usize;
        let ((map, model), (other, others)) = (&self.versions[at], &self.versions[other]);
        assert_eq!(map == other, model.pairs == others.pairs);
        assert_eq!(map.cmp(other), model.pairs.cmp(&others.pairs));
        assert!(map.diff(other).eq(model.diff(others)));
        let common = model.range(..).filter_map(|(key, value)| {
            let theirs = others.pairs.get(&key)?.clone();
            Some((key, value, theirs))
        });
        assert!(map.intersection(other).eq(common));
    }

    fn equate(&mut self, at: usize) {
        let other = self.random.below(self.versions.len() as u64) as usize;
        let ((map, model), (other, others)) = (&self.versions[at], &self.versions[other]);
        let told = map.equals(other);
        let told = told.map(|equal| assert_eq!(equal, model.pairs == others.pairs));
        self.note(told);
    }

    /// Makes a map of two, whose keys may be as long as the first one's.
    fn unite(&mut self, at: usize) {
        let other = self.random.below(self.versions.len() as u64) as usize;
        let ((map, model), (other, others)) = (&self.versions[at], &self.versions[other]);
        let mut all = others.pairs.clone();
        all.extend(model.range(..));
        let is_long = all.keys().any(|it| it.len() > model.longest);
        let united = map
            .try_clone()
            .and_then(|map| map.try_union(other.try_clone()?));
        match united {
            Ok(united) => assert!(!is_long && united.iter().eq(all)),
            Err(Refusal::TooLong) => assert!(is_long),
            Err(refusal) => self.note(Err(refusal)),
        }
    }

    fn note(&mut self, told: Result<(), Refusal>) {
        if let Err(refusal) = told {
            assert_eq!(refusal, Refusal::NoMemory);
            self.refused += 1;
        }
    }
}

/// That pairs that are lent are the wanted ones.
fn expect_lent<V: Drawn>(mut given: Lent<'_, V>, wanted: impl Iterator<Item = (Vec<u8>, V)>) {
    let mut wanted = wanted.fuse();
    while let Some((key, value)) = given.next() {
        let (it, other) = wanted.next().expect("a pair");
        assert!(key == it && value == other.borrow());
    }
    assert_eq!(wanted.next(), None);
}

/// That both give the same from whatever end.
fn expect_from_both_ends<T: PartialEq + Debug>(
    random: &mut Random,
    mut given: impl DoubleEndedIterator<Item = T>,
    mut wanted: impl DoubleEndedIterator<Item = T>,
) {
    loop {
        let (it, other) = match random.below(2) {
            0 => (given.next(), wanted.next()),
            _ => (given.next_back(), wanted.next_back()),
        };
        assert_eq!(it, other);
        if it.is_none() {
            return;
        }
    }
}

/// How many calls to make: as many as CALLS says, else 100,000.
pub fn calls() -> u64 {
    std::env::var("CALLS").map_or(100_000, |it| it.parse().expect("CALLS is a number"))
}
