//! Walks meet keys and values that are longer than what is read at once. Keys are as long as they
//! may be, and no longer.
use boltcomfrey::{Refusal, VersionedBytes, VersionedMap};

const LENS: [usize; 5] = [31, 32, 33, 500, 5000];

#[test]
fn long_keys_are_met() -> Result<(), Refusal> {
    let mut map = VersionedMap::with_longest_key(5000)?;
    map.try_extend(LENS.map(|len| (vec![b'a'; len], len as u64)))?;
    let met: Vec<_> = map.iter().collect();
    assert_eq!(met, LENS.map(|len| (vec![b'a'; len], len as u64)));
    Ok(())
}

#[test]
fn so_are_long_values() -> Result<(), Refusal> {
    let pairs = LENS.map(|len| (vec![b'a'; len], vec![b'b'; 1000 / len]));
    let others = LENS.map(|len| (vec![b'c'; len], vec![b'd'; 100 * len]));
    let mut map = VersionedBytes::with_longest_key(5000)?;
    map.try_extend(pairs.clone())?;
    map.try_extend(others.clone())?;
    assert!(map.iter().eq(pairs.into_iter().chain(others)));
    Ok(())
}

#[test]
fn one_long_pair_is_met() -> Result<(), Refusal> {
    let (mut map, mut bytes) = (VersionedMap::new(), VersionedBytes::new());
    let (key, value) = (vec![b'a'; 500], vec![b'b'; 1000]);
    map.insert(&key, 7)?;
    bytes.insert(&key, &value)?;
    assert!(map.iter().eq([(key.clone(), 7)]));
    assert!(bytes.iter().eq([(key, value)]));
    Ok(())
}

#[test]
fn short_keys_are_met_behind_a_long_one() -> Result<(), Refusal> {
    let mut map = VersionedMap::new();
    let mut pairs = vec![(vec![b'a'; 500], 0)];
    pairs.extend((1..200).map(|at| ([[b'b'; 49].as_slice(), &[at]].concat(), u64::from(at))));
    map.try_extend(pairs.clone())?;
    assert!(map.iter().eq(pairs));
    Ok(())
}

// (a test has a thread of its own, whose stack has 2 MiB)
#[test]
fn chains_of_keys_end_no_thread() -> Result<(), Refusal> {
    let mut map = VersionedMap::new();
    let keys: Vec<_> = (0..1024)
        .flat_map(|len| ["a", "b"].map(|end| "a".repeat(len) + end))
        .collect();
    map.try_extend(keys.iter().zip(0..))?;
    let before = map.snapshot()?;
    assert_eq!(map.common_count(&before), 2048);
    for (key, value) in keys.iter().zip(0..) {
        assert_eq!(map.remove(key)?, Some(value));
    }
    assert!(map.is_empty());
    assert_eq!(before.len(), 2048);
    Ok(())
}

#[test]
fn longer_keys_are_refused() -> Result<(), Refusal> {
    let (mut map, mut bytes) = (VersionedMap::new(), VersionedBytes::new());
    let (key, longer) = ([b'a'; 1024], [b'a'; 1025]);
    map.insert(key, 7)?;
    bytes.insert(key, "Tea")?;
    assert_eq!(map.insert(longer, 8), Err(Refusal::TooLong));
    assert_eq!(bytes.insert(longer, "Milk"), Err(Refusal::TooLong));
    assert!(map.iter().eq([(key.to_vec(), 7)]));
    assert!(bytes.iter().eq([(key.to_vec(), b"Tea".to_vec())]));
    assert_eq!((map.version(), bytes.version()), (1, 1));
    assert_eq!((map.get(longer), map.remove(longer)?), (None, None));
    Ok(())
}

#[test]
fn how_long_keys_may_be_goes_along() -> Result<(), Refusal> {
    let mut map = VersionedMap::with_longest_key(5000)?;
    map.insert([b'a'; 5000], 7)?;
    assert_eq!(map.set_longest_key(3), Err(Refusal::NotEmpty));
    let (snapshot, clone) = (map.snapshot()?, map.try_clone()?);
    let behind = map.split_off("");
    for map in [&snapshot, &clone, &behind, &map] {
        assert_eq!(map.longest_key(), 5000);
    }
    map.set_longest_key(3)?;
    assert_eq!(map.insert("milk", 1), Err(Refusal::TooLong));
    assert!(map.is_empty());
    map.clear();
    assert_eq!(map.longest_key(), 1024);
    Ok(())
}
