//! What was measured, as Markdown tables whose columns are also aligned for the terminal.

use crate::calls::{Call, DENSE_SIZES, SIZES};
use crate::goals::{self, ORDER};
use crate::measure::{Pair, Times};

/// A call by the library and by the other program.
pub struct Line {
    pub call: &'static Call,
    pub order: u32,
    pub times: Times,
}

/// A call by the library and by FLINT: the ratios FLINT / library at all sizes but N 1, and the seconds at the last.
pub struct Dense {
    pub call: &'static Call,
    pub ratios: Vec<f64>,
    pub library: f64,
    pub flint: f64,
}

impl Line {
    pub fn title(&self) -> String {
        self.call.title(self.order)
    }
}

/// Ratios library / plain at each size, and the times of whole calls.
pub fn print_ratios(lines: &[Line]) {
    for (sizes, lines) in by_sizes(lines, |line| line.call) {
        let last = sizes[sizes.len() - 1];
        println!("\nRatios library / plain; times at N {last}, and of the part that does not grow, at N 1:\n");
        let head = head(&sizes[1..], ["library", "plain", "library, N 1", "plain, N 1"]);
        print_table(head, lines.into_iter().map(ratios_row).collect());
    }
}

/// The lines of calls that are timed at the same sizes, the sizes of most calls first.
fn by_sizes<T>(lines: &[T], call: fn(&T) -> &Call) -> Vec<(&'static [u32], Vec<&T>)> {
    let of = |sizes: &'static [u32]| (sizes, lines.iter().filter(|line| call(line).sizes() == sizes).collect::<Vec<_>>());
    [of(&SIZES), of(&DENSE_SIZES)].into_iter().filter(|(_, lines)| !lines.is_empty()).collect()
}

/// The head of a table: the call, a column for each size, and others.
fn head(sizes: &[u32], others: impl IntoIterator<Item = impl Into<String>>) -> Vec<String> {
    let sizes = sizes.iter().map(|n| format!("N {n}"));
    ["call".into()].into_iter().chain(sizes).chain(others.into_iter().map(Into::into)).collect()
}

fn ratios_row(line: &Line) -> Vec<String> {
    let times = &line.times;
    let last = line.call.sizes().len() - 1;
    let ratios = (1..=last).map(|size| format!("{:.2}", times.ratio(size)));
    let seconds = [(last, LIBRARY), (last, OTHER), (0, LIBRARY), (0, OTHER)].map(|(size, by)| duration(times.time(size, by)));
    [line.title()].into_iter().chain(ratios).chain(seconds).collect()
}

/// The cost a row at the first size after N 1, less the time at N 1, and at greater N as a ratio to it.
pub fn print_growth(lines: &[Line]) {
    for (sizes, lines) in by_sizes(lines, |line| line.call) {
        let (first, more) = (sizes[1], &sizes[2..]);
        println!("\nTime a row (matrix: an entry; fractions: a place; solve_dense: a product) less the time at N 1:");
        println!("the library's at N {first}, then ratios to that at N {first}:\n");
        let plain = more.iter().enumerate().map(|(k, n)| format!("{}N {n}", if k == 0 { "plain: " } else { "" }));
        print_table(head(&sizes[1..], plain), lines.into_iter().map(growth_row).collect());
    }
}

fn growth_row(line: &Line) -> Vec<String> {
    let cost = format!("{:.1} ns", line.times.cost(1, line.call, LIBRARY) * 1e9);
    let sizes = [LIBRARY, OTHER].into_iter().flat_map(|by| (2..line.call.sizes().len()).map(move |size| (size, by)));
    let ratios = sizes.map(|(size, by)| format!("{:.2}", line.times.growth(size, line.call, by)));
    [line.title(), cost].into_iter().chain(ratios).collect()
}

const LIBRARY: fn(&Pair) -> f64 = |pair| pair.library;
const OTHER: fn(&Pair) -> f64 = |pair| pair.other;

/// Ratios new / old at each size, and the times of whole calls at the last: one table, with nothing where a size is not timed.
pub fn print_against(lines: &[Line]) {
    let mut sizes: Vec<u32> = lines.iter().flat_map(|line| &line.call.sizes()[1..]).copied().collect();
    sizes.sort();
    sizes.dedup();
    println!("\nRatios new / old; times at the greatest N of the call:\n");
    print_table(head(&sizes, ["new", "old"]), lines.iter().map(|line| against_row(line, &sizes)).collect());
}

fn against_row(line: &Line, sizes: &[u32]) -> Vec<String> {
    let (times, timed) = (&line.times, line.call.sizes());
    let ratio = |n| timed.iter().position(|size| size == n).map(|size| format!("{:.2}", times.ratio(size)));
    let ratios = sizes.iter().map(|n| ratio(n).unwrap_or_default());
    let seconds = [LIBRARY, OTHER].map(|by| duration(times.time(timed.len() - 1, by)));
    [line.title()].into_iter().chain(ratios).chain(seconds).collect()
}

/// Ratios FLINT / library at each size, and the times of whole calls.
pub fn print_dense(version: &str, dense: &[Dense]) {
    for (sizes, lines) in by_sizes(dense, |line| line.call) {
        let last = sizes[sizes.len() - 1];
        println!(
            "\nFLINT {version} on the matrices in full, orders {ORDER}, and on residues; ratios FLINT / library; times at N {last}:\n"
        );
        print_table(head(&sizes[1..], ["library", "FLINT"]), lines.into_iter().map(dense_row).collect());
    }
}

fn dense_row(line: &Dense) -> Vec<String> {
    let ratios = line.ratios.iter().map(|ratio| format!("{ratio:.2}"));
    let seconds = [line.library, line.flint].map(duration);
    [line.call.title(ORDER)].into_iter().chain(ratios).chain(seconds).collect()
}

pub fn print_goals(lines: &[Line], dense: &[Dense]) {
    let rows = goals::rows(lines, dense);
    if !rows.is_empty() {
        println!("\nGoals, orders {ORDER}, N 1024:\n");
        print_table(["call", "ratio", "goal", "measured", ""].map(String::from).into(), rows);
    }
}

fn duration(seconds: f64) -> String {
    if seconds < 0.1 {
        format!("{:.1} µs", seconds * 1e6)
    } else {
        format!("{:.1} ms", seconds * 1e3)
    }
}

/// The first column is set to the left, the others to the right.
fn print_table(head: Vec<String>, rows: Vec<Vec<String>>) {
    let width = |column: usize| rows.iter().chain([&head]).map(|row| row[column].chars().count()).max().unwrap_or(0).max(2);
    let widths: Vec<usize> = (0..head.len()).map(width).collect();
    let rule = widths.iter().enumerate().map(|(column, &width)| match column {
        0 => "-".repeat(width),
        _ => "-".repeat(width - 1) + ":",
    });
    let rule: Vec<String> = rule.collect();
    [&head, &rule].into_iter().chain(&rows).for_each(|row| print_row(row, &widths));
}

fn print_row(row: &[String], widths: &[usize]) {
    for (column, (cell, &width)) in row.iter().zip(widths).enumerate() {
        if column == 0 {
            print!("| {cell:width$} |");
        } else {
            print!(" {cell:>width$} |");
        }
    }
    println!();
}
