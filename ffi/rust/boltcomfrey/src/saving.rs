//! Maps as bytes: of each map and its number there is one form, which ends with a sum.
use crate::error::{LoadError, Refusal, unrefused};
use crate::map::Map;
use crate::value::Value;
use std::io::{self, Read, Write};

// How many bytes of room there are at first: for the front and the sum, and for each pair.
const ROOM: usize = 64;
const PAIR_ROOM: usize = 64;

impl<V: Value> Map<V> {
    /// The map and its number as bytes. It panics where memory is refused.
    ///
    /// Equal maps with equal numbers have equal bytes, however they came about, and others have
    /// others. A pair takes the bytes that its key has not in common with the one before, its value,
    /// and some two more.
    ///
    /// ```
    /// # use boltcomfrey::VersionedMap;
    /// let prices = VersionedMap::from([("tea", 300), ("milk", 100)]);
    /// let bytes = prices.to_bytes();
    /// let loaded = VersionedMap::from_bytes(&bytes)?;
    /// assert_eq!((&loaded, loaded.version()), (&prices, prices.version()));
    /// # Ok::<(), boltcomfrey::LoadError>(())
    /// ```
    #[must_use]
    pub fn to_bytes(&self) -> Vec<u8> {
        unrefused(self.try_to_bytes())
    }

    /// As [`Map::to_bytes`]. Refused for memory alone.
    pub fn try_to_bytes(&self) -> Result<Vec<u8>, Refusal> {
        let mut bytes = Vec::new();
        let mut len = self.len() * PAIR_ROOM + ROOM;
        loop {
            bytes.try_reserve_exact(len)?;
            bytes.resize(len, 0);
            len = self.tree.save(&mut bytes)?;
            if len <= bytes.len() {
                bytes.truncate(len);
                return Ok(bytes);
            }
            bytes = Vec::new(); // (so that what it holds isn't copied)
        }
    }

    /// How many bytes the map has as bytes. It goes through all pairs.
    ///
    /// ```
    /// # use boltcomfrey::{Refusal, VersionedMap};
    /// assert_eq!(VersionedMap::new().saved_len()?, 43);
    /// # Ok::<(), Refusal>(())
    /// ```
    pub fn saved_len(&self) -> Result<usize, Refusal> {
        self.tree.saved_len()
    }

    /// The map whose bytes these are, as [`Map::to_bytes`] gives them, its number too. All others are
    /// refused: what is read has these bytes again.
    ///
    /// No key has more than 1,024 bytes; [`Map::load`] has another limit. No length in the bytes is
    /// believed: memory is asked for as they come, so a stranger's bytes take what their length
    /// bears.
    ///
    /// ```
    /// # use boltcomfrey::{LoadError, VersionedMap};
    /// assert_eq!(VersionedMap::from_bytes(b"tea"), Err(LoadError::Malformed { at: 0 }));
    /// ```
    pub fn from_bytes(bytes: &[u8]) -> Result<Map<V>, LoadError> {
        let mut map = Map::new();
        map.load(bytes)?;
        Ok(map)
    }

    /// Makes this map the one whose bytes these are, as [`Map::from_bytes`]. Its keys may be as long
    /// as before. Where the bytes are refused it is as before.
    ///
    /// ```
    /// # use boltcomfrey::{LoadError, VersionedMap};
    /// let bytes = VersionedMap::from([("milk", 100)]).to_bytes();
    /// let mut prices = VersionedMap::with_longest_key(3)?;
    /// assert_eq!(prices.load(&bytes), Err(LoadError::TooLong { at: 11 }));
    /// # Ok::<(), boltcomfrey::Refusal>(())
    /// ```
    pub fn load(&mut self, bytes: &[u8]) -> Result<(), LoadError> {
        self.tree.load(bytes)
    }

    /// Writes what [`Map::to_bytes`] gives. An error is the writer's, where some of the bytes may be
    /// written, which are no map's; or of the kind `OutOfMemory`, and none is written.
    ///
    /// ```
    /// # use boltcomfrey::VersionedMap;
    /// let mut file = Vec::new();
    /// VersionedMap::from([("tea", 300)]).save_to(&mut file)?;
    /// let prices = VersionedMap::load_from(&file[..])?;
    /// assert_eq!(prices.get("tea"), Some(300));
    /// # Ok::<(), std::io::Error>(())
    /// ```
    pub fn save_to(&self, mut writer: impl Write) -> io::Result<()> {
        writer.write_all(&self.try_to_bytes()?)
    }

    /// Reads all that a reader gives, as [`Map::from_bytes`]. An error is the reader's, or has a
    /// [`LoadError`] in it, or is of the kind `OutOfMemory`.
    pub fn load_from(mut reader: impl Read) -> io::Result<Map<V>> {
        let mut bytes = Vec::new();
        reader.read_to_end(&mut bytes)?;
        Ok(Map::from_bytes(&bytes)?)
    }
}
