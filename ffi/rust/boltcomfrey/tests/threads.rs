//! A map that shares nothing, on several threads. `ffi/check` runs it under valgrind too. That a read
//! stores nothing is tried by `ffi/c/threads.c`: helgrind doesn't know the locks of Rust's library.
use boltcomfrey::{Map, Refusal, Unshared, Value};
use std::error::Error;
use std::sync::{Arc, Mutex, OnceLock};
use std::thread;

const KEYS: u64 = 2000;

fn key(number: u64) -> [u8; 8] {
    (number * 7 % KEYS).to_be_bytes()
}

fn filled() -> Unshared<u64> {
    (0..KEYS).map(|it| (key(it), it)).collect()
}

/// What each read of a map gives, made one number.
fn read_all(map: &Unshared<u64>) -> u64 {
    let mut sum = map.version() + map.len() as u64 + map.longest_key() as u64;
    for number in 0..KEYS {
        let key = key(number);
        sum += map.get(key).unwrap() + map.longest_prefix(key).unwrap().1;
        sum += map.first_from(key).unwrap().1 + map.last_to(key).unwrap().1;
        sum += map.first_after(key).map_or(0, |it| it.1) + u64::from(map.contains_key(key));
        sum += map.last_before(key).map_or(0, |it| it.1);
    }
    sum += map.first_key_value().unwrap().1 + map.last_key_value().unwrap().1;
    sum += map.iter().map(|it| it.1).sum::<u64>() + map.values().rev().sum::<u64>();
    sum += map.keys().count() as u64 + map.range(key(3)..).rev().count() as u64;
    sum += map.prefix([0, 0, 0, 0, 0, 0, 1]).lent().fold_values();
    sum + map.to_bytes().len() as u64 + map.saved_len().unwrap() as u64
}

trait FoldValues {
    fn fold_values(self) -> u64;
}

impl FoldValues for boltcomfrey::Lent<'_, u64> {
    fn fold_values(self) -> u64 {
        let mut sum = 0;
        self.for_each(|_, value| sum += value);
        sum
    }
}

#[test]
fn it_goes_to_another_thread_and_back() -> Result<(), Refusal> {
    let mut map = filled();
    let mut map = thread::spawn(move || {
        for number in 0..KEYS / 2 {
            map.remove(key(number)).unwrap();
        }
        map
    })
    .join()
    .unwrap();
    assert_eq!(map.len() as u64, KEYS - KEYS / 2);
    map.insert("tea", 300)?;
    thread::spawn(move || drop(map)).join().unwrap();
    Ok(())
}

#[test]
fn four_threads_read_one_map() {
    let map = Arc::new(filled());
    let wanted = read_all(&map);
    let readers: Vec<_> = (0..4)
        .map(|_| {
            let map = Arc::clone(&map);
            thread::spawn(move || read_all(&map))
        })
        .collect();
    for reader in readers {
        assert_eq!(reader.join().unwrap(), wanted);
    }
    let map = Arc::into_inner(map).unwrap().into_map();
    assert_eq!(map, map.snapshot().unwrap());
}

#[test]
fn statics_hold_it() {
    static CHANGED: Mutex<Unshared<u64>> = Mutex::new(Unshared::new());
    static READ: OnceLock<Unshared<Vec<u8>>> = OnceLock::new();
    thread::scope(|threads| {
        for start in 0..4 {
            threads.spawn(move || {
                for number in (start..KEYS).step_by(4) {
                    CHANGED.lock().unwrap().insert(key(number), number).unwrap();
                }
            });
        }
    });
    assert_eq!(*CHANGED.lock().unwrap(), filled());
    let names = READ.get_or_init(|| [("tea", "Tea")].into_iter().collect());
    thread::scope(|threads| {
        threads.spawn(|| assert_eq!(names.get("tea"), Some(b"Tea".to_vec())));
    });
}

fn copies_are_apart<V: Value>(map: &Map<V>) -> Result<(), Refusal> {
    let copy = map.unshare()?;
    assert_eq!(
        (copy.version(), copy.longest_key()),
        (map.version(), map.longest_key())
    );
    assert_eq!(copy.to_bytes(), map.to_bytes());
    thread::spawn(move || drop(copy)).join().unwrap();
    Ok(())
}

#[test]
fn a_copy_shares_nothing_with_its_map() -> Result<(), Refusal> {
    let mut map = Map::<u64>::with_longest_key(8)?;
    copies_are_apart(&map)?;
    map.try_extend((0..KEYS).map(|it| (key(it), it)))?;
    let before = map.snapshot()?;
    map.remove_prefix([0, 0, 0, 0, 0, 0, 1])?;
    copies_are_apart(&map)?;
    copies_are_apart(&before)?;
    copies_are_apart(&before.prefix_snapshot([0, 0, 0, 0, 0, 0, 2])?)?;
    copies_are_apart(&Map::<Vec<u8>>::from([("tea", "Tea"), ("teapot", "")]))
}

#[test]
fn it_has_the_calls_of_a_map() -> Result<(), Box<dyn Error>> {
    let mut map: Unshared<u64> = Unshared::with_longest_key(16)?;
    assert!(map.is_empty() && map == Unshared::default());
    assert_eq!(map.insert("teapots are too long", 1), Err(Refusal::TooLong));
    map.extend([("tea", 300), ("teapot", 2000), ("tin", 80)]);
    assert_eq!(
        (
            map.set("tea", 350)?,
            map.add("tea", 1)?,
            map.replace("milk", 1)?
        ),
        (true, false, false)
    );
    assert_eq!((map.remove("tin")?, map.delete("tin")?), (Some(80), false));
    assert_eq!(
        format!("{map:?}"),
        format!("{:?}", Map::from([("tea", 350), ("teapot", 2000)]))
    );
    assert_eq!(map.get_key_value("tea"), Some((b"tea".to_vec(), 350)));
    map.try_retain(|key, _| key != b"tea")?;
    assert_eq!(
        (map.try_get("tea")?, map.try_longest_prefix("teapots")?),
        (None, Some((6, 2000)))
    );
    let bytes = map.try_to_bytes()?;
    assert_eq!(map.remove_prefix("tea")?, 1);
    map.load(&bytes)?;
    assert_eq!(map, Unshared::from_bytes(&bytes)?);
    map.clear();
    map.set_longest_key(3)?;
    assert_eq!(map.len(), 0);
    Ok(())
}
