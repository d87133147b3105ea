//! The keys that the maps are given, the same in every run.

pub type Key = [u8; 16];

/// A kind of keys, of which each number has one: its halves, the greatest byte first.
#[derive(Clone, Copy)]
pub struct Kind {
    pub name: &'static str,
    halves: fn(u64) -> (u64, u64),
}

pub const KINDS: [Kind; 3] = [
    Kind {
        name: "random",
        halves: |number| (mixed(2 * number), mixed(2 * number + 1)),
    },
    Kind {
        name: "shared prefix",
        halves: |number| (number / 64, (number % 64) << 32 | mixed(number) >> 32),
    },
    Kind {
        name: "dense",
        halves: |number| (0, number),
    },
];
/// The place of those that share a prefix.
pub const SHARED: usize = 1;

const SEED: u64 = 2026;

/// A number that looks random, of this one and the seed (by the steps of SplitMix64).
pub fn mixed(number: u64) -> u64 {
    let mut mixed = (number ^ SEED << 40).wrapping_mul(0x9e37_79b9_7f4a_7c15);
    mixed = (mixed ^ mixed >> 30).wrapping_mul(0xbf58_476d_1ce4_e5b9);
    mixed = (mixed ^ mixed >> 27).wrapping_mul(0x94d0_49bb_1331_11eb);
    mixed ^ mixed >> 31
}

fn shuffle(keys: &mut [Key]) {
    for place in (1..keys.len()).rev() {
        let other = mixed(!(place as u64)) % (place as u64 + 1);
        keys.swap(place, other as usize);
    }
}

/// The keys of these numbers, shuffled.
pub fn keys(kind: &Kind, from: u64, to: u64) -> Vec<Key> {
    let halves = (from..to).map(kind.halves);
    let numbers = halves.map(|(high, low)| u128::from(high) << 64 | u128::from(low));
    let mut keys: Vec<Key> = numbers.map(u128::to_be_bytes).collect();
    shuffle(&mut keys);
    keys
}

/// So many keys of a kind.
pub struct Data {
    pub kind: Kind,
    pub count: u64,
    /// In the order in which they are put in.
    pub stored: Vec<Key>,
    /// The same in another order.
    pub probes: Vec<Key>,
    pub sorted: Vec<Key>,
    pub absent: Vec<Key>,
}

impl Data {
    pub fn new(kind: Kind, count: u64) -> Data {
        let stored = keys(&kind, 0, count);
        let absent = keys(&kind, count, 2 * count);
        let (mut probes, mut sorted) = (stored.clone(), stored.clone());
        shuffle(&mut probes);
        sorted.sort();
        Data {
            kind,
            count,
            stored,
            probes,
            sorted,
            absent,
        }
    }
}
