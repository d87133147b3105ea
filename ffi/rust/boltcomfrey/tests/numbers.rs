//! At the greatest number a change is refused, and leaves the map as it was.
use boltcomfrey::{Refusal, VersionedBytes, VersionedMap};

#[test]
fn greatest_number_has_no_room() -> Result<(), Refusal> {
    let mut map = VersionedMap::with_number(u64::MAX - 1)?;
    assert_eq!(map.insert("tea", 300)?, None);
    assert_eq!(map.insert("tea", 350), Err(Refusal::LastNumber));
    assert_eq!(map.remove("tea"), Err(Refusal::LastNumber));
    assert_eq!(map.remove("milk")?, None);
    assert_eq!(map.snapshot().err(), Some(Refusal::LastNumber));
    assert_eq!(map.try_clone()?.get("tea"), Some(300));
    assert_eq!((map.get("tea"), map.version()), (Some(300), u64::MAX));
    Ok(())
}

#[test]
fn nor_has_it_among_byte_strings() -> Result<(), Refusal> {
    let mut map = VersionedBytes::with_number(u64::MAX - 1)?;
    assert_eq!(map.insert("tea", "Tea")?, None);
    assert_eq!(map.insert("tea", "Green tea"), Err(Refusal::LastNumber));
    assert_eq!(map.set("tea", "Green tea"), Err(Refusal::LastNumber));
    assert_eq!(map.remove("tea"), Err(Refusal::LastNumber));
    assert_eq!(map.remove("milk")?, None);
    assert!(!map.delete("milk")?);
    assert_eq!(map.snapshot().err(), Some(Refusal::LastNumber));
    assert_eq!(map.try_clone()?.get("tea"), Some(b"Tea".to_vec()));
    assert_eq!((map.get("milk"), map.version()), (None, u64::MAX));
    Ok(())
}

#[test]
fn what_was_set_before_stays() -> Result<(), Refusal> {
    let mut map = VersionedMap::with_number(u64::MAX - 2)?;
    let pairs = [("milk", 100), ("salt", 50), ("tea", 300)];
    assert_eq!(map.try_extend(pairs), Err(Refusal::LastNumber));
    assert!(
        map.iter()
            .eq([(b"milk".to_vec(), 100), (b"salt".to_vec(), 50)])
    );
    let mut bytes = VersionedBytes::with_number(u64::MAX - 1)?;
    assert_eq!(
        bytes.try_extend([("milk", "Milk"), ("tea", "Tea")]),
        Err(Refusal::LastNumber)
    );
    assert!(bytes.iter().eq([(b"milk".to_vec(), b"Milk".to_vec())]));
    Ok(())
}

#[test]
fn refusals_say_what_lacks() {
    assert_eq!(Refusal::NoMemory.to_string(), "out of memory");
    assert_eq!(Refusal::TooLong.to_string(), "the key is too long");
    assert_eq!(Refusal::NotEmpty.to_string(), "the map has a key");
    assert_eq!(
        Refusal::LastNumber.to_string(),
        "the number of the map can't be raised"
    );
}

#[test]
fn a_later_value_makes_maps_differ() -> Result<(), Refusal> {
    let (mut map, mut bytes) = (VersionedMap::new(), VersionedBytes::new());
    map.try_extend([("milk", 100), ("tea", 300)])?;
    bytes.try_extend([("milk", "Milk"), ("tea", "Tea")])?;
    let (maps, byte_maps) = (map.snapshot()?, bytes.snapshot()?);
    assert!(map == maps && bytes == byte_maps);
    map.insert("tea", 350)?;
    bytes.insert("tea", "Green tea")?;
    assert!(map != maps && bytes != byte_maps);
    Ok(())
}
