//! Maps as bytes: files that were written out by hand, which error comes, and streams.
use boltcomfrey::{LoadError, VersionedBytes, VersionedMap};
use std::io::{self, ErrorKind, Read, Write};

/// A file: what stands in it, and its sum, which sha256sum made.
fn file(body: &[u8], sum: &str) -> Vec<u8> {
    let digits = |at: usize| u8::from_str_radix(&sum[at..at + 2], 16).expect("two digits");
    let sum = (0..sum.len()).step_by(2).map(digits);
    body.iter().copied().chain(sum).collect()
}

/// No pair, number 0.
fn empty() -> Vec<u8> {
    file(
        b"comfrey\x01\x01\x00\x00",
        "63d9fcd563fa5968747084cf77f0850e7c829c3809d1b32f5d75d7d6bdd862e0",
    )
}

/// The empty key with the greatest number, `tea` with 300, `teapot` with 2, at number 3.
fn three() -> Vec<u8> {
    file(
        b"comfrey\x01\x01\x03\x03\
          \x00\x00\xff\xff\xff\xff\xff\xff\xff\xff\
          \x00\x03tea\x2c\x01\x00\x00\x00\x00\x00\x00\
          \x03\x03pot\x02\x00\x00\x00\x00\x00\x00\x00",
        "f24c429adaf72d1dc4f519a081e7d0d4199e6d2fd7c45d0327eba624d51a5f4c",
    )
}

/// `a` with no byte, `ab` with `x`, at number 4.
fn strings() -> Vec<u8> {
    file(
        b"comfrey\x01\x02\x04\x02\x00\x01a\x00\x01\x01b\x01x",
        "fb1c6ba59111456dc0582d3ae540bdcfd59139c0c823500172bbbae518cdc9d8",
    )
}

#[test]
fn maps_are_the_files_that_were_written_by_hand() {
    assert_eq!(VersionedMap::new().to_bytes(), empty());
    let map = VersionedMap::from([("teapot", 2), ("", u64::MAX), ("tea", 300)]);
    assert_eq!(map.to_bytes(), three());
    let mut map = VersionedBytes::with_number(2).expect("memory");
    map.extend([("ab", "x"), ("a", "")]);
    assert_eq!(map.to_bytes(), strings());
}

#[test]
fn files_are_the_maps_that_they_say() -> Result<(), LoadError> {
    let map = VersionedMap::from_bytes(&three())?;
    let pairs = [(&b""[..], u64::MAX), (b"tea", 300), (b"teapot", 2)];
    assert!(
        map.iter()
            .eq(pairs.map(|(key, value)| (key.to_vec(), value)))
    );
    assert_eq!((map.version(), map.len(), map.longest_key()), (3, 3, 1024));
    let map = VersionedBytes::from_bytes(&strings())?;
    assert_eq!(
        (map.get("a"), map.get("ab")),
        (Some(vec![]), Some(b"x".to_vec()))
    );
    assert_eq!((map.version(), map.len()), (4, 2));
    assert!(VersionedMap::from_bytes(&empty())?.is_empty());
    Ok(())
}

#[test]
fn each_beginning_is_truncated_and_each_flipped_bit_refused() {
    let file = three();
    for end in 0..file.len() {
        let read = VersionedMap::from_bytes(&file[..end]);
        assert_eq!(read, Err(LoadError::Truncated), "of {end} bytes");
    }
    for bit in 0..8 * file.len() {
        let mut other = file.clone();
        other[bit / 8] ^= 1 << (bit % 8);
        assert!(VersionedMap::from_bytes(&other).is_err(), "bit {bit}");
    }
}

#[test]
fn each_refusal_is_told() {
    let read = |at: usize, byte: u8| {
        let mut file = three();
        file[at] = byte;
        VersionedMap::from_bytes(&file).expect_err("a changed file")
    };
    assert_eq!(read(0, b'k'), LoadError::Malformed { at: 0 });
    assert_eq!(read(7, 2), LoadError::Unsupported);
    assert_eq!(read(8, 2), LoadError::Malformed { at: 8 });
    assert_eq!(read(10, 4), LoadError::Malformed { at: 10 }); // (four keys at number 3)
    assert_eq!(read(34, 0), LoadError::Malformed { at: 34 }); // (`pot` stands before `tea`)
    assert_eq!(read(34, 4), LoadError::Malformed { at: 34 }); // (`tea` has three bytes)
    assert_eq!(read(39, 3), LoadError::WrongSum);
    let longer = [&three()[..], b"\0"].concat();
    assert_eq!(
        VersionedMap::from_bytes(&longer),
        Err(LoadError::Malformed { at: 79 })
    );
    let strings = VersionedMap::from_bytes(&strings());
    assert_eq!(strings, Err(LoadError::Malformed { at: 8 }));
    assert_eq!(
        LoadError::TooLong { at: 11 }.to_string(),
        "the key at byte 11 is too long"
    );
}

#[test]
fn keys_are_as_long_as_the_map_says() {
    let mut map = VersionedMap::with_longest_key(5).expect("memory");
    map.insert("milk", 100).expect("memory");
    assert_eq!(map.load(&three()), Err(LoadError::TooLong { at: 34 }));
    assert_eq!(
        (map.get("milk"), map.version(), map.len()),
        (Some(100), 1, 1)
    );
    let mut map = VersionedMap::with_longest_key(6).expect("memory");
    assert_eq!(map.load(&three()), Ok(()));
    assert_eq!((map.longest_key(), map.len()), (6, 3));
    let mut long = VersionedMap::with_longest_key(2000).expect("memory");
    long.insert([7; 1025], 1).expect("memory");
    let file = long.to_bytes();
    assert_eq!(
        VersionedMap::from_bytes(&file),
        Err(LoadError::TooLong { at: 11 })
    );
    assert_eq!(long.load(&file), Ok(()));
}

#[test]
fn values_of_any_length_are_saved() -> Result<(), LoadError> {
    let map: VersionedBytes = (0..300_usize)
        .map(|len| (len.to_be_bytes(), vec![7; len]))
        .collect();
    assert_eq!(VersionedBytes::from_bytes(&map.to_bytes())?, map);
    assert_eq!(map.saved_len().expect("memory"), map.to_bytes().len());
    Ok(())
}

/// Takes one byte at a time, and fails when it has so many.
struct Taker {
    bytes: Vec<u8>,
    most: usize,
}

impl Write for Taker {
    fn write(&mut self, bytes: &[u8]) -> io::Result<usize> {
        if self.bytes.len() == self.most {
            return Err(io::Error::other("full"));
        }
        self.bytes.extend(bytes.first());
        Ok(bytes.len().min(1))
    }

    fn flush(&mut self) -> io::Result<()> {
        Ok(())
    }
}

/// Gives one byte at a time, and fails behind the last.
struct Giver<'a>(&'a [u8]);

impl Read for Giver<'_> {
    fn read(&mut self, into: &mut [u8]) -> io::Result<usize> {
        let Some((first, left)) = self.0.split_first() else {
            return Err(io::Error::other("broken"));
        };
        (into[0], self.0) = (*first, left);
        Ok(1)
    }
}

#[test]
fn streams_carry_the_same_bytes() -> io::Result<()> {
    let file = three();
    let map = VersionedMap::load_from(&file[..])?;
    let taker = |most| Taker {
        bytes: vec![],
        most,
    };
    let mut whole = taker(79);
    map.save_to(&mut whole)?;
    assert_eq!(whole.bytes, file);
    let mut short = taker(50);
    let full = map.save_to(&mut short).expect_err("no room");
    assert_eq!(full.to_string(), "full");
    assert_eq!(short.bytes, file[..50]);
    let ended = Giver(&file).take(79);
    assert_eq!(VersionedMap::load_from(ended)?, map);
    let broken = VersionedMap::load_from(Giver(&file)).expect_err("no end");
    assert_eq!(broken.to_string(), "broken");
    Ok(())
}

#[test]
fn errors_of_streams_tell_of_what_kind_they_are() {
    let kind = |file: &[u8]| {
        let error = VersionedMap::load_from(file).expect_err("no file");
        error.kind()
    };
    assert_eq!(kind(&three()[..78]), ErrorKind::UnexpectedEof);
    assert_eq!(kind(&strings()), ErrorKind::InvalidData);
    assert_eq!(kind(b"comfrey\x02"), ErrorKind::Unsupported);
}
