//! Cursors, beside a list of the pairs and how many of them stand before the gap.
use super::{Compared, Drawn, Model, Random};
use boltcomfrey::{Cursor, CursorMut, Map, Refusal};
use std::ops::Bound::{self, Excluded, Included, Unbounded};

/// Where a cursor begins: at a bound of any kind, a lower one or an upper one.
struct Start {
    bound: Bound<Vec<u8>>,
    is_lower: bool,
}

impl Start {
    fn drawn(random: &mut Random) -> Start {
        let bound = match random.below(5) {
            0 => Unbounded,
            1 | 2 => Included(random.key()),
            _ => Excluded(random.key()),
        };
        let is_lower = random.below(2) == 0;
        Start { bound, is_lower }
    }

    fn cursor<'a, V: Drawn>(&self, map: &'a Map<V>) -> Cursor<'a, V> {
        let bound = self.bound.as_ref();
        match self.is_lower {
            true => map.lower_bound(bound),
            false => map.upper_bound(bound),
        }
    }

    fn cursor_mut<'a, V: Drawn>(&self, map: &'a mut Map<V>) -> CursorMut<'a, V> {
        let bound = self.bound.as_ref();
        match self.is_lower {
            true => map.lower_bound_mut(bound),
            false => map.upper_bound_mut(bound),
        }
    }

    /// Whether a key comes before the gap.
    fn is_behind(&self, key: &Vec<u8>) -> bool {
        match &self.bound {
            Included(it) if self.is_lower => key < it,
            Included(it) => key <= it,
            Excluded(it) if self.is_lower => key <= it,
            Excluded(it) => key < it,
            Unbounded => !self.is_lower,
        }
    }
}

/// The pairs of a map, and how many of them come before the gap.
struct Pairs<V> {
    all: Vec<(Vec<u8>, V)>,
    before: usize,
}

impl<V: Drawn> Pairs<V> {
    fn of(model: &Model<V>, start: &Start) -> Pairs<V> {
        let all: Vec<_> = model.range(..).collect();
        let before = all.partition_point(|(key, _)| start.is_behind(key));
        Pairs { all, before }
    }

    fn next(&self) -> Option<&(Vec<u8>, V)> {
        self.all.get(self.before)
    }

    fn prev(&self) -> Option<&(Vec<u8>, V)> {
        self.all[..self.before].last()
    }

    /// Whether a key comes into the gap.
    fn fits(&self, key: &Vec<u8>) -> bool {
        self.prev().is_none_or(|it| it.0 < *key) && self.next().is_none_or(|it| *key < it.0)
    }

    fn remove_next(&mut self) -> Option<(Vec<u8>, V)> {
        self.next()?;
        Some(self.all.remove(self.before))
    }

    fn remove_prev(&mut self) -> Option<(Vec<u8>, V)> {
        self.before = self.before.checked_sub(1)?;
        self.remove_next()
    }
}

impl<V: Drawn> Compared<V> {
    /// Goes from a place either way.
    pub(super) fn go_either_way(&mut self, at: usize) {
        let start = Start::drawn(&mut self.random);
        let (map, model) = &self.versions[at];
        let (mut cursor, mut pairs) = (start.cursor(map), Pairs::of(model, &start));
        for _ in 0..20 {
            assert_eq!(cursor.peek_next().as_ref(), pairs.next());
            assert_eq!(cursor.peek_prev().as_ref(), pairs.prev());
            if self.random.below(2) == 0 {
                assert_eq!(cursor.next().as_ref(), pairs.next());
                pairs.before += usize::from(pairs.next().is_some());
            } else {
                assert_eq!(cursor.prev().as_ref(), pairs.prev());
                pairs.before -= usize::from(pairs.prev().is_some());
            }
        }
    }

    /// Takes out and sets pairs about a place. Refused, the cursor and the map are as before.
    pub(super) fn change_either_way(&mut self, at: usize) {
        let start = Start::drawn(&mut self.random);
        let (map, model) = &mut self.versions[at];
        let mut pairs = Pairs::of(model, &start);
        let mut cursor = start.cursor_mut(map);
        let mut refused = 0;
        for _ in 0..20 {
            let told = match self.random.below(2) {
                0 => remove(&mut self.random, &mut cursor, &mut pairs, model),
                _ => insert(&mut self.random, &mut cursor, &mut pairs, model),
            };
            if let Err(refusal) = told {
                assert_eq!(refusal, Refusal::NoMemory);
                refused += 1;
            }
            assert_eq!(cursor.peek_next().as_ref(), pairs.next());
            assert_eq!(cursor.peek_prev().as_ref(), pairs.prev());
        }
        self.refused += refused;
    }
}

/// Takes out the pair on one side of a cursor.
fn remove<V: Drawn>(
    random: &mut Random,
    cursor: &mut CursorMut<'_, V>,
    pairs: &mut Pairs<V>,
    model: &mut Model<V>,
) -> Result<(), Refusal> {
    let (given, wanted) = match random.below(2) {
        0 => (cursor.remove_next()?, pairs.remove_next()),
        _ => (cursor.remove_prev()?, pairs.remove_prev()),
    };
    assert_eq!(given, wanted);
    if let Some((key, value)) = wanted {
        assert_eq!(model.remove(&key), Some(value));
    }
    Ok(())
}

/// Sets a key where a cursor stands, if it comes there. One that goes on from the key before often
/// does.
fn insert<V: Drawn>(
    random: &mut Random,
    cursor: &mut CursorMut<'_, V>,
    pairs: &mut Pairs<V>,
    model: &mut Model<V>,
) -> Result<(), Refusal> {
    let (is_passed, value) = (random.below(2) == 0, V::drawn(random));
    let front = pairs.prev().map_or(&[][..], |it| &it.0);
    let key = [front, &random.key()].concat();
    let told = match is_passed {
        true => cursor.insert_before(&key, value.clone()),
        false => cursor.insert_after(&key, value.clone()),
    };
    let fits = pairs.fits(&key);
    if fits && key.len() > model.longest {
        assert_eq!(told, Err(Refusal::TooLong));
        return Ok(());
    }
    assert_eq!(told?, fits);
    if fits {
        model.insert(&key, value.clone());
        pairs.all.insert(pairs.before, (key, value));
        pairs.before += usize::from(is_passed);
    }
    Ok(())
}
