//! Times of the tree, through its library for C, beside those of std's `BTreeMap`, and of rart where
//! the script `beside_rart` names it; and of some calls beside a loop of others. `meanings.md`,
//! printed behind the tables, says what is in them.
//!
//! Each map gets the same calls in the same program, and all must tell the same. Each pass goes over
//! all maps in turn, and of each row the least time counts.
mod keys;
mod map;
mod pages;
#[cfg(feature = "rart")]
mod rart;
mod report;
mod rows;
mod ways;

use crate::keys::{Data, Kind};
use crate::rows::{Row, rows};
use std::error::Error;
use std::{env, fs};

/// A map's name, and what measures it.
type Column = (&'static str, fn(&Data) -> Vec<Row>);

const COLUMNS: &[Column] = &[
    ("tree", rows::<boltcomfrey::VersionedMap>),
    #[cfg(feature = "rart")]
    (
        concat!(env!("RART"), ", keys of any length"),
        rows::<rart::AnyLength>,
    ),
    #[cfg(feature = "rart")]
    (
        concat!(env!("RART"), ", keys of 16 bytes"),
        rows::<rart::Inline>,
    ),
    ("`BTreeMap`", rows::<map::Sorted>),
];

/// The rows of each column, over one kind and number of keys.
struct Results {
    data: Data,
    columns: Vec<Vec<Row>>,
}

impl Results {
    /// Measures all columns, and keeps the least times.
    fn add_pass(&mut self) {
        let taken: Vec<Vec<Row>> = COLUMNS.iter().map(|(_, rows)| rows(&self.data)).collect();
        for (row, first) in taken.iter().flat_map(|rows| rows.iter().zip(&taken[0])) {
            assert_eq!(row.tally, first.tally, "{}: the maps differ", row.name);
        }
        let kept = self.columns.iter_mut().flatten();
        for (row, other) in kept.zip(taken.iter().flatten()) {
            row.nanoseconds = row.nanoseconds.min(other.nanoseconds);
        }
        if self.columns.is_empty() {
            self.columns = taken;
        }
    }

    fn names(&self) -> impl Iterator<Item = &'static str> {
        self.columns[0].iter().map(|row| row.name)
    }

    fn times(&self, row: usize) -> impl Iterator<Item = f64> {
        self.columns.iter().map(move |rows| rows[row].nanoseconds)
    }

    /// The first column's time of a row, divided by another's.
    fn ratio(&self, row: usize, other: usize) -> f64 {
        self.columns[0][row].nanoseconds / self.columns[other][row].nanoseconds
    }
}

/// Of each kind of keys the results of each size.
fn measured(options: &Options) -> Vec<Vec<Results>> {
    let of = |kind: Kind, size: &u64| Results {
        data: Data::new(kind, *size),
        columns: Vec::new(),
    };
    let of_kind = |kind: Kind| options.sizes.iter().map(|size| of(kind, size)).collect();
    let mut all = Vec::from(keys::KINDS.map(of_kind));
    for pass in 1..=options.passes {
        eprintln!("pass {pass} of {}", options.passes);
        all.iter_mut().flatten().for_each(Results::add_pass);
    }
    all
}

const OPTIONS: &str = "--sizes N,.. (from 100), --passes N (from 1), --svg FILE";

struct Options {
    sizes: Vec<u64>,
    passes: usize,
    svg: Option<String>,
}

fn options() -> Result<Options, Box<dyn Error>> {
    let (mut sizes, mut passes, mut svg) = (vec![1_000, 10_000], 12, None);
    let mut words = env::args().skip(1);
    while let Some(word) = words.next() {
        let value = words.next().ok_or(OPTIONS)?;
        match word.as_str() {
            "--sizes" => sizes = value.split(',').map(str::parse).collect::<Result<_, _>>()?,
            "--passes" => passes = value.parse()?,
            "--svg" => svg = Some(value),
            _ => return Err(OPTIONS.into()),
        }
    }
    if passes == 0 || sizes.iter().any(|size| *size < 100) {
        return Err(OPTIONS.into());
    }
    Ok(Options { sizes, passes, svg })
}

fn main() -> Result<(), Box<dyn Error>> {
    let options = options()?;
    let kinds = measured(&options);
    let shared = kinds[keys::SHARED].last().expect("a list of sizes has one");
    let count = report::grouped(shared.data.count);
    let title =
        format!("{count} keys of 16 bytes that share a prefix; nanoseconds an operation or entry");
    println!("{title}:\n\n{}", report::times(shared));
    if let Some(file) = &options.svg {
        fs::write(file, report::bars(shared, &title))?;
    }
    let sizes: Vec<String> = options.sizes.iter().copied().map(report::grouped).collect();
    for (at, (name, _)) in COLUMNS.iter().enumerate().skip(1) {
        println!("Ratios to {name}, at {} keys:\n", sizes.join(" and "));
        println!("{}", report::ratios(&kinds, at));
    }
    let data: Vec<Data> = kinds.into_iter().flatten().map(|it| it.data).collect();
    println!(
        "Two ways to the same; nanoseconds:\n\n{}",
        ways::table(&data, options.passes)
    );
    print!("{}", include_str!("meanings.md"));
    Ok(())
}
