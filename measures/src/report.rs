//! The tables in Markdown, and the times as bars in SVG.
use crate::{COLUMNS, Results};

/// Nanoseconds of all columns over one kind and number of keys.
pub fn times(results: &Results) -> String {
    let mut table = head(COLUMNS.iter().map(|(name, _)| *name));
    for (row, name) in results.names().enumerate() {
        table += &line(name, results.times(row).map(shown));
    }
    table
}

/// The first column's times divided by another's: of each kind of keys, a figure of each size.
pub fn ratios(kinds: &[Vec<Results>], other: usize) -> String {
    let mut table = head(kinds.iter().map(|sizes| sizes[0].data.kind.name));
    for (row, name) in kinds[0][0].names().enumerate() {
        let cell = |sizes: &Vec<Results>| {
            let ratios = sizes.iter().map(|it| ratio(it.ratio(row, other)));
            ratios.collect::<Vec<String>>().join(", ")
        };
        table += &line(name, kinds.iter().map(cell));
    }
    table
}

/// Times of a call and of another way to the same, and the first divided by the second.
pub fn pairs<'a>(pairs: impl Iterator<Item = (&'a str, (f64, f64))>) -> String {
    let mut table = head(["the call", "the other way", "ratio"].into_iter());
    for (name, (call, other)) in pairs {
        let cells = [shown(call), shown(other), ratio(call / other)];
        table += &line(name, cells.into_iter());
    }
    table
}

fn head<'a>(names: impl Iterator<Item = &'a str>) -> String {
    let names: Vec<&str> = names.collect();
    let rule = "---|".repeat(names.len());
    format!("| | {} |\n|---|{rule}\n", names.join(" | "))
}

fn line(name: &str, cells: impl Iterator<Item = String>) -> String {
    let cells: Vec<String> = cells.collect();
    format!("| {name} | {} |\n", cells.join(" | "))
}

fn ratio(ratio: f64) -> String {
    let digits = if ratio < 0.095 { 3 } else { 2 };
    format!("{ratio:.digits$}")
}

fn shown(nanoseconds: f64) -> String {
    match nanoseconds {
        ..9.95 => format!("{nanoseconds:.1}"),
        _ => grouped(nanoseconds.round() as u64),
    }
}

/// A number with commas.
pub fn grouped(number: u64) -> String {
    match number {
        ..1_000 => number.to_string(),
        _ => format!("{},{:03}", grouped(number / 1_000), number % 1_000),
    }
}

/// Told apart on light pages and on dark ones, as is the text.
const COLOURS: [&str; 4] = ["#3584e4", "#d9622b", "#e3a13c", "#8a939d"];
const TEXT: &str = "font-family='sans-serif' font-size='10' fill='#7a7f87'";
/// Where bars begin, and how long the slowest of a row is. Behind it stands its time.
const LEFT: usize = 190;
const LONGEST: f64 = 390.0;

/// The bars of each row, of which the slowest is the longest.
pub fn bars(results: &Results, title: &str) -> String {
    let step = 9 * COLUMNS.len() + 8;
    let told = text(4, 25, "in each row the slowest is the longest");
    let (mut shapes, mut y) = (text(4, 12, title) + &told, 56);
    for (at, (name, _)) in COLUMNS.iter().enumerate() {
        let x = 4 + 160 * at;
        shapes += &(bar(x, 34, 9.0, at) + &text(x + 13, 42, name));
    }
    for (row, name) in results.names().enumerate() {
        let slowest = results.times(row).fold(0.0, f64::max);
        shapes += &text(4, y + step / 2, name);
        for (at, time) in results.times(row).enumerate() {
            let (y, length) = (y + 9 * at, LONGEST * time / slowest);
            let behind = LEFT + length as usize + 4;
            shapes += &(bar(LEFT, y, length, at) + &text(behind, y + 8, &shown(time)));
        }
        y += step;
    }
    let size = format!("width='640' height='{y}' viewBox='0 0 640 {y}'");
    let head = format!("<svg xmlns='http://www.w3.org/2000/svg' {size} {TEXT}>");
    format!("{head}\n{shapes}</svg>\n").replace('`', "")
}

fn bar(x: usize, y: usize, length: f64, column: usize) -> String {
    let (length, fill) = (length.max(0.5), COLOURS[column]);
    format!("<rect x='{x}' y='{y}' width='{length:.1}' height='8' fill='{fill}'/>\n")
}

fn text(x: usize, y: usize, text: &str) -> String {
    format!("<text x='{x}' y='{y}'>{text}</text>\n")
}
