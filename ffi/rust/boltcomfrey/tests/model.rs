//! Random calls, each compared with a model of std's maps.
mod common;

use common::{Compared, calls};

#[test]
fn answers_are_those_of_separate_maps() {
    let mut compared = Compared::<u64>::new();
    (0..calls()).for_each(|_| compared.step());
    assert_eq!(compared.refused, 0);
}

#[test]
fn so_are_those_of_byte_strings() {
    let mut compared = Compared::<Vec<u8>>::new();
    (0..calls()).for_each(|_| compared.step());
    assert_eq!(compared.refused, 0);
}
