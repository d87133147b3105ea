//! Every call that answers a `Result`, with each request for Rust's memory refused in turn: it
//! answers that memory lacks, and the map is as before. (The library's own requests go past Rust's
//! allocator; tests/refused.rs refuses those.)
use boltcomfrey::{Given, InsertError, Lent, LoadError, Map, Refusal, Value};
use std::alloc::{GlobalAlloc, Layout, System};
use std::borrow::Borrow;
use std::cell::Cell;
use std::fmt::Debug;
use std::io;
use std::ops::{Bound, ControlFlow, Range};
use std::panic::{AssertUnwindSafe, catch_unwind};
use std::ptr::null_mut;

/// The allocator of the system, which refuses some requests of a thread.
struct Refusing;

thread_local! {
    static REFUSED: Cell<Range<u64>> = const { Cell::new(0..0) };
    static MADE: Cell<u64> = const { Cell::new(0) };
}

/// Whether the next request of this thread is refused.
fn is_refused() -> bool {
    let (number, refused) = (MADE.get(), REFUSED.replace(0..0));
    MADE.set(number + 1);
    REFUSED.set(refused.clone());
    refused.contains(&number)
}

// SAFETY: all is the system's, but for requests that are refused, as any may be.
unsafe impl GlobalAlloc for Refusing {
    unsafe fn alloc(&self, layout: Layout) -> *mut u8 {
        if is_refused() {
            return null_mut();
        }
        // SAFETY: the caller's promises are those that the system's asks for.
        unsafe { System.alloc(layout) }
    }

    unsafe fn realloc(&self, at: *mut u8, layout: Layout, size: usize) -> *mut u8 {
        if is_refused() {
            return null_mut();
        }
        // SAFETY: as above.
        unsafe { System.realloc(at, layout, size) }
    }

    unsafe fn dealloc(&self, at: *mut u8, layout: Layout) {
        // SAFETY: as above.
        unsafe { System.dealloc(at, layout) }
    }
}

#[global_allocator]
static REFUSING: Refusing = Refusing;

/// Which requests of a call are refused: the first is number 0.
#[derive(Clone, Debug)]
struct Lack(Range<u64>);

impl Lack {
    /// Makes a call with these requests refused.
    fn of<R>(&self, call: impl FnOnce() -> R) -> R {
        MADE.set(0);
        REFUSED.set(self.0.clone());
        let told = call();
        REFUSED.set(0..0);
        told
    }

    /// Whether the call that was made last came to them.
    fn was_met(&self) -> bool {
        MADE.get() > self.0.start
    }
}

/// A kind of values, with a short one, and one that is longer than what is read at once.
trait Sample: Value + Given<Self> + Debug + Borrow<Self::Lent> {
    type Put: Given<Self> + Copy;
    const SHORT: Self::Put;
    const LONG: Self::Put;
    /// Whether a read takes memory for a value.
    const IS_COPIED: bool;
}

impl Sample for u64 {
    type Put = u64;
    const SHORT: u64 = 7;
    const LONG: u64 = u64::MAX;
    const IS_COPIED: bool = false;
}

impl Sample for Vec<u8> {
    type Put = &'static [u8];
    const SHORT: &'static [u8] = b"Tea";
    const LONG: &'static [u8] = &[7; 500];
    const IS_COPIED: bool = true;
}

/// A map of several pages, with keys that are longer than the room that one has at first.
fn whole<V: Sample>() -> Map<V> {
    let value = |at| if at % 3 == 0 { V::LONG } else { V::SHORT };
    (0..100_u8).map(|at| (key(at), value(at))).collect()
}

fn key(at: u8) -> Vec<u8> {
    vec![at; usize::from(at) % 50 + 1]
}

type Pairs<V> = Vec<(Vec<u8>, V)>;

/// All that can be seen of a map.
fn seen<V: Sample>(map: &Map<V>) -> (u64, usize, Pairs<V>) {
    (map.version(), map.longest_key(), map.iter().collect())
}

/// Makes a call on the map with each of its requests refused in turn, alone and with all that come
/// behind. Answers how many requests it makes.
fn each<V: Sample, R: PartialEq + Debug>(
    call: impl Fn(&mut Map<V>, &Lack) -> Result<R, Refusal>,
) -> u64 {
    let wanted = call(&mut whole(), &Lack(0..0));
    assert!(wanted.is_ok());
    let refused = |lack: Lack| {
        let (mut map, before) = (whole(), seen(&whole()));
        let told = call(&mut map, &lack);
        if !lack.was_met() {
            assert_eq!(told, wanted);
            return false;
        }
        assert_eq!(told, Err(Refusal::NoMemory), "{lack:?}");
        assert_eq!(seen(&map), before, "{lack:?}");
        true
    };
    let alone = (0..).take_while(|it| refused(Lack(*it..it + 1))).count();
    let and_behind = (0..).take_while(|it| refused(Lack(*it..u64::MAX))).count();
    assert_eq!(alone, and_behind);
    alone as u64
}

/// That a call makes some request, and changes nothing where one is refused.
fn copies<V: Sample, R: PartialEq + Debug>(
    call: impl Fn(&mut Map<V>, &Lack) -> Result<R, Refusal>,
) {
    assert!(each(call) > 0);
}

/// The same of a call that makes one for a value alone.
fn copies_value<V: Sample, R: PartialEq + Debug>(
    call: impl Fn(&mut Map<V>, &Lack) -> Result<R, Refusal>,
) {
    assert_eq!(each(call) > 0, V::IS_COPIED);
}

/// That a call makes no request.
fn takes_none<V: Sample, R: PartialEq + Debug>(
    call: impl Fn(&mut Map<V>, &Lack) -> Result<R, Refusal>,
) {
    assert_eq!(each(call), 0);
}

fn of_load(error: LoadError) -> Refusal {
    assert_eq!(error, LoadError::NoMemory);
    Refusal::NoMemory
}

fn of_stream(error: io::Error) -> Refusal {
    assert_eq!(error.kind(), io::ErrorKind::OutOfMemory);
    Refusal::NoMemory
}

fn try_reads<V: Sample>() {
    let (short, long) = (&key(1), &key(99));
    copies_value::<V, _>(|map, lack| lack.of(|| map.try_get(short)));
    copies_value::<V, _>(|map, lack| lack.of(|| map.try_get(long)));
    takes_none::<V, _>(|map, lack| lack.of(|| map.try_get("absent")));
    copies_value::<V, _>(|map, lack| lack.of(|| map.try_longest_prefix(short)));
    copies_value::<V, _>(|map, lack| lack.of(|| map.try_longest_prefix(long)));
    takes_none::<V, _>(|map, lack| {
        let other = whole();
        lack.of(|| map.equals(&other))
    });
    takes_none::<V, _>(|map, lack| lack.of(|| map.saved_len()));
}

fn try_changes<V: Sample>() {
    let (short, long, new) = (&key(1), &key(99), "new");
    for value in [V::SHORT, V::LONG] {
        copies_value::<V, _>(|map, lack| lack.of(|| map.insert(short, value)));
        copies_value::<V, _>(|map, lack| lack.of(|| map.insert(long, value)));
        takes_none::<V, _>(|map, lack| lack.of(|| map.insert(new, value)));
        takes_none::<V, _>(|map, lack| lack.of(|| map.set(long, value)));
        takes_none::<V, _>(|map, lack| lack.of(|| map.add(new, value)));
        takes_none::<V, _>(|map, lack| lack.of(|| map.replace(long, value)));
        copies_value::<V, _>(|map, lack| lack.of(|| map.update(long, |_| Some(value))));
        takes_none::<V, _>(|map, lack| lack.of(|| map.update(new, |_| Some(value))));
        takes_none::<V, _>(|map, lack| lack.of(|| map.try_extend([(new, value)])));
    }
    copies_value::<V, _>(|map, lack| lack.of(|| map.update(long, |_| None::<V>)));
    copies_value::<V, _>(|map, lack| lack.of(|| map.remove(long)));
    copies::<V, _>(|map, lack| lack.of(|| map.remove_entry(long)));
    takes_none::<V, _>(|map, lack| lack.of(|| map.delete(long)));
    takes_none::<V, _>(|map, lack| lack.of(|| map.remove_prefix([1])));
    takes_none::<V, _>(|map, lack| {
        let other = Map::new();
        lack.of(|| map.restore_prefix([1], &other))
    });
}

fn try_entries<V: Sample + Default>() {
    let (long, new) = (&key(99), "new");
    for key in [new.as_bytes(), long] {
        takes_none::<V, _>(|map, lack| {
            let (value, entry) = (whole::<V>().pop_first(), map.entry(key));
            lack.of(|| entry.or_insert(value.expect("a pair").1))
        });
        takes_none::<V, _>(|map, lack| {
            let entry = map.entry(key);
            lack.of(|| entry.or_default())
        });
        takes_none::<V, _>(|map, lack| {
            let entry = map.entry(key);
            lack.of(|| entry.insert(V::default()))
        });
        takes_none::<V, _>(|map, lack| {
            let entry = map.entry(key);
            lack.of(|| entry.insert_entry(V::default()).map(drop))
        });
        takes_none::<V, _>(|map, lack| {
            let entry = map.entry(key);
            lack.of(|| entry.remove())
        });
        takes_none::<V, _>(|map, lack| {
            let entry = map.entry(key);
            lack.of(|| entry.and_modify(|value| *value = V::default()).finish())
        });
    }
}

fn try_keys<V: Sample + Default>() {
    let (long, new) = (&key(99), "new");
    for key in [new.as_bytes(), long] {
        copies::<V, _>(|map, lack| lack.of(|| Ok(map.try_entry(key)?.get().is_some())));
    }
    copies::<V, _>(|map, lack| lack.of(|| Ok(map.try_first_entry()?.is_some())));
    copies::<V, _>(|map, lack| lack.of(|| Ok(map.try_last_entry()?.is_some())));
    takes_none::<V, _>(|map, lack| {
        let mut entry = map.last_entry().expect("a pair");
        lack.of(|| entry.insert(V::default()).map(drop))
    });
    takes_none::<V, _>(|map, lack| {
        let entry = map.last_entry().expect("a pair");
        lack.of(|| entry.remove_entry())
    });
    takes_none::<V, _>(|map, lack| lack.of(|| is_new(map.try_insert(new, V::LONG))));
    copies::<V, _>(|map, lack| lack.of(|| is_new(map.try_insert(long, V::LONG))));
}

/// Whether a key was set that had to be new.
fn is_new<V: Value, T>(told: Result<(), InsertError<'_, V, T>>) -> Result<bool, Refusal> {
    match told {
        Ok(()) => Ok(true),
        Err(InsertError::Occupied { .. }) => Ok(false),
        Err(InsertError::Refused(refusal)) => Err(refusal),
    }
}

fn try_cursors<V: Sample>() {
    let (key, new) = (&key(70), [70, 71]);
    let middle = Bound::Included(key);
    copies::<V, _>(|map, lack| {
        let cursor = map.lower_bound(middle);
        lack.of(|| Ok((cursor.try_peek_prev()?, cursor.try_peek_next()?)))
    });
    copies::<V, _>(|map, lack| lack.of(|| map.lower_bound(middle).try_next()));
    copies::<V, _>(|map, lack| lack.of(|| map.upper_bound(middle).try_prev()));
    copies::<V, _>(|map, lack| lack.of(|| map.lower_bound_mut(middle).remove_next()));
    copies::<V, _>(|map, lack| lack.of(|| map.upper_bound_mut(middle).remove_prev()));
    for value in [V::SHORT, V::LONG] {
        copies::<V, _>(|map, lack| {
            let mut cursor = map.upper_bound_mut(Bound::Included(new));
            lack.of(|| cursor.insert_before(new, value))
        });
        copies::<V, _>(|map, lack| {
            let mut cursor = map.upper_bound_mut(Bound::Included(new));
            lack.of(|| cursor.insert_after(new, value))
        });
    }
}

#[test]
fn refused_cursors_stay() {
    let map = whole::<u64>();
    for number in 0.. {
        let lack = Lack(number..number + 1);
        let mut cursor = map.lower_bound(Bound::Included(key(7)));
        let told = lack.of(|| cursor.try_next());
        if !lack.was_met() {
            return assert_eq!(told, Ok(Some((key(7), u64::SHORT))));
        }
        assert_eq!(told, Err(Refusal::NoMemory));
        assert_eq!(cursor.try_next(), Ok(Some((key(7), u64::SHORT))));
    }
}

fn try_many<V: Sample>() {
    copies::<V, _>(|map, lack| lack.of(|| map.try_pop_first()));
    copies::<V, _>(|map, lack| lack.of(|| map.try_pop_last()));
    copies::<V, _>(|map, lack| lack.of(|| map.try_retain(|key, _| key[0] % 2 == 0)));
    copies::<V, _>(|map, lack| lack.of(|| map.try_split_off([7])));
    copies::<V, _>(|map, lack| {
        let (one, another) = (map.try_clone()?, map.try_clone()?);
        lack.of(|| one.try_union(another))
    });
    takes_none::<V, _>(|_, lack| lack.of(|| Map::<V>::try_from_iter([("new", V::LONG)])));
    takes_none::<V, _>(|_, lack| {
        let pairs = [Ok::<_, Refusal>(("new", V::LONG))];
        lack.of(|| Map::<V>::try_from_results(pairs))
    });
    takes_none::<V, _>(|_, lack| lack.of(|| Map::<V>::with_number(7)));
    takes_none::<V, _>(|_, lack| lack.of(|| Map::<V>::with_longest_key(7)));
    takes_none::<V, _>(|_, lack| {
        let mut map = Map::<V>::new();
        lack.of(|| map.set_longest_key(7))
    });
    takes_none::<V, _>(|map, lack| lack.of(|| map.snapshot()));
    takes_none::<V, _>(|map, lack| lack.of(|| map.prefix_snapshot([7])));
    takes_none::<V, _>(|map, lack| lack.of(|| map.try_clone()));
}

fn try_bytes<V: Sample>() {
    let file = &whole::<V>().to_bytes();
    copies::<V, _>(|map, lack| lack.of(|| map.try_to_bytes()));
    copies::<V, _>(|map, lack| lack.of(|| map.save_to(io::sink())).map_err(of_stream));
    copies::<V, _>(|_, lack| {
        lack.of(|| Map::<V>::load_from(&file[..]))
            .map_err(of_stream)
    });
    takes_none::<V, _>(|_, lack| lack.of(|| Map::<V>::from_bytes(file)).map_err(of_load));
    takes_none::<V, _>(|map, lack| lack.of(|| map.load(file)).map_err(of_load));
}

fn try_walks<V: Sample>() {
    copies::<V, _>(|map, lack| lack.of(|| Ok(map.iter().lent().try_next()?.is_some())));
    copies::<V, _>(|map, lack| lack.of(|| Ok(map.iter().lent().rev().try_next()?.is_some())));
    copies::<V, _>(|map, lack| lack.of(|| map.iter().lent().try_for_each(|_, _| Ok(()))));
    copies::<V, _>(|map, lack| {
        let (low, high) = (key(7), key(70));
        lack.of(|| map.range(&low..&high).lent().try_for_each(|_, _| Ok(())))
    });
    copies::<V, _>(|map, lack| lack.of(|| map.prefix([7]).lent().try_for_each(|_, _| Ok(()))));
    copies::<V, _>(|map, lack| lack.of(|| map.extract_if(.., |_, _| true).try_next()));
}

#[test]
fn refused_calls_change_nothing() {
    try_reads::<u64>();
    try_changes::<u64>();
    try_entries::<u64>();
    try_keys::<u64>();
    try_cursors::<u64>();
    try_many::<u64>();
    try_bytes::<u64>();
    try_walks::<u64>();
}

#[test]
fn nor_do_those_on_byte_strings() {
    try_reads::<Vec<u8>>();
    try_changes::<Vec<u8>>();
    try_entries::<Vec<u8>>();
    try_keys::<Vec<u8>>();
    try_cursors::<Vec<u8>>();
    try_many::<Vec<u8>>();
    try_bytes::<Vec<u8>>();
    try_walks::<Vec<u8>>();
}

#[test]
fn a_refused_vector_stays() {
    let long = &key(99);
    copies::<Vec<u8>, _>(|map, lack| {
        let mut into = b"before".to_vec();
        let told = lack.of(|| map.try_get_into(long, &mut into));
        if told.is_err() {
            assert_eq!(into, b"before");
        }
        told
    });
}

/// That of two maps, one of which was to be put into the other, that one is as it was, and its first
/// pairs are in the other at most.
fn try_append<V: Sample>() {
    for number in 0.. {
        let (mut map, mut other) = (Map::new(), whole::<V>());
        let lack = Lack(number..number + 1);
        let told = lack.of(|| map.try_append(&mut other));
        if !lack.was_met() {
            assert_eq!((told, seen(&other)), (Ok(()), seen(&Map::new())));
            assert_eq!(map, whole());
            return assert!(number > 3);
        }
        assert_eq!(told, Err(Refusal::NoMemory));
        assert_eq!(seen(&other), seen(&whole()));
        assert!(map.iter().eq(other.iter().take(map.len())));
    }
}

#[test]
fn a_refused_map_that_was_to_move_stays() {
    try_append::<u64>();
    try_append::<Vec<u8>>();
}

/// That a walk meets each pair once, whichever of its requests is refused.
fn try_steps<V: Sample>(wanted: &[(Vec<u8>, V)], walk: Lent<V>) {
    for number in 0.. {
        let (mut pairs, mut left, mut refused) = (walk.clone(), wanted.iter(), 0);
        let lack = Lack(number..number + 1);
        let ended = lack.of(|| {
            loop {
                match pairs.try_next() {
                    Err(_) => refused += 1,
                    Ok(None) => break ControlFlow::Continue(()),
                    Ok(Some((key, value))) => match left.next() {
                        Some(pair) if key == pair.0 && value == pair.1.borrow() => (),
                        _ => break ControlFlow::Break(()),
                    },
                }
            }
        });
        assert!(ended.is_continue() && left.next().is_none());
        assert_eq!(refused, u64::from(lack.was_met()));
        if !lack.was_met() {
            return assert!(number > 3);
        }
    }
}

fn try_all_steps<V: Sample>() {
    let map = whole::<V>();
    let mut pairs: Vec<_> = map.iter().collect();
    try_steps(&pairs, map.iter().lent());
    try_steps(&pairs[7..], map.range(key(7)..).lent());
    pairs.reverse();
    try_steps(&pairs, map.iter().lent().rev());
    try_steps(&pairs[..93], map.range(key(7)..).lent().rev());
}

#[test]
fn refused_steps_pass_no_pair_over() {
    try_all_steps::<u64>();
    try_all_steps::<Vec<u8>>();
}

/// That pairs are taken out once, and asked about once, whichever request is refused.
fn try_extracting<V: Sample>() {
    for number in 0.. {
        let (mut map, lack) = (whole::<V>(), Lack(number..number + 1));
        let (mut given, mut asked, mut refused) = (Vec::with_capacity(100), 0, 0);
        let mut chosen = map.extract_if(key(7)..key(90), |key, _| {
            asked += 1;
            key[0] % 3 == 0
        });
        lack.of(|| {
            loop {
                match chosen.try_next() {
                    Err(_) => refused += 1,
                    Ok(None) => break,
                    Ok(Some(pair)) => given.push(pair),
                }
            }
        });
        assert_eq!((asked, refused), (83, u64::from(lack.was_met())));
        let (out, kept): (Vec<_>, _) = whole::<V>()
            .into_iter()
            .partition(|(key, _)| key[0] % 3 == 0 && (7..90).contains(&key[0]));
        assert!(given == out && map.iter().eq::<Vec<_>>(kept));
        if !lack.was_met() {
            return assert!(number > 3);
        }
    }
}

#[test]
fn refused_extractions_pass_no_pair_over() {
    try_extracting::<u64>();
    try_extracting::<Vec<u8>>();
}

/// That steps give what is wanted, whichever of their requests is refused.
fn try_both<T: PartialEq + Debug, W>(
    wanted: &[T],
    begun: impl Fn() -> W,
    step: impl Fn(&mut W) -> Result<Option<T>, Refusal>,
) {
    for number in 0.. {
        let (mut walk, mut refused) = (begun(), 0);
        let mut given = Vec::with_capacity(wanted.len() + 1);
        let lack = Lack(number..number + 1);
        lack.of(|| {
            loop {
                match step(&mut walk) {
                    Err(_) => refused += 1,
                    Ok(None) => break,
                    Ok(Some(it)) => given.push(it),
                }
            }
        });
        assert_eq!(given, wanted);
        assert_eq!(refused, u64::from(lack.was_met()));
        if !lack.was_met() {
            return assert!(number > 3);
        }
    }
}

fn try_two_maps<V: Sample>() {
    let (map, mut other) = (whole::<V>(), whole::<V>());
    other.retain(|key, _| key[0] % 5 > 0);
    for at in (1..60).step_by(7) {
        other.set(key(at), V::LONG).expect("memory");
        other.set([at, 255], V::SHORT).expect("memory");
    }
    let changes: Vec<_> = map.diff(&other).collect();
    try_both(&changes, || map.diff(&other), |it| it.try_next());
    let common: Vec<_> = map.intersection(&other).collect();
    try_both(&common, || map.intersection(&other), |it| it.try_next());
}

#[test]
fn nor_do_those_over_two_maps() {
    try_two_maps::<u64>();
    try_two_maps::<Vec<u8>>();
}

#[test]
fn without_memory_for_bounds_no_step_is_taken() {
    let (map, low, high) = (whole::<u64>(), key(7), key(9));
    for number in 0..2 {
        let lack = Lack(number..number + 1);
        let mut pairs = lack.of(|| map.range(&low..&high)).lent();
        assert!(lack.was_met());
        assert_eq!(pairs.try_next(), Err(Refusal::NoMemory));
        assert_eq!(pairs.try_next(), Err(Refusal::NoMemory));
    }
    let mut cursor = Lack(0..1).of(|| map.lower_bound(Bound::Included(&low)));
    assert_eq!(cursor.try_next(), Err(Refusal::NoMemory));
    assert_eq!(cursor.try_prev(), Err(Refusal::NoMemory));
}

/// That a call which answers no `Result` panics, whichever of its requests is refused.
fn panics<V: Sample, R>(call: impl Fn(&Map<V>) -> R) {
    let map = whole();
    for number in 0.. {
        let lack = Lack(number..number + 1);
        let told = lack.of(|| catch_unwind(AssertUnwindSafe(|| call(&map))).is_err());
        if !told {
            assert!(!lack.was_met());
            return assert!(number > 0);
        }
    }
}

#[test]
fn calls_without_an_answer_panic() {
    let (long, other) = (&key(99), whole());
    panics::<Vec<u8>, _>(|map| map.get(long));
    panics::<Vec<u8>, _>(|map| map.get_into(long, &mut Vec::new()));
    panics::<Vec<u8>, _>(|map| map.longest_prefix(long));
    panics::<u64, _>(|map| map.get_key_value(long));
    panics::<u64, _>(|map| map.first_key_value());
    panics::<u64, _>(|map| map.last_to(long));
    panics::<u64, _>(|map| map.iter().for_each(drop));
    panics::<u64, _>(|map| map.range(long..).count());
    panics::<u64, _>(|map| map.prefix(long).for_each(drop));
    panics::<u64, _>(|map| map.keys().for_each(drop));
    panics::<u64, _>(|map| map.iter().lent().for_each(|_, _| ()));
    panics::<u64, _>(|map| map.lower_bound(Bound::Included(long)).next());
    panics::<u64, _>(|map| map.lower_bound(Bound::Included("")).peek_next());
    panics::<u64, _>(|map| map.cmp(&other));
}

#[test]
fn maps_are_compared_without_memory_of_rusts() {
    let (map, other) = (whole::<Vec<u8>>(), whole());
    let lack = Lack(0..u64::MAX);
    assert!(lack.of(|| map == other));
    assert!(!lack.was_met());
}
