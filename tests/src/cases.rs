//! Random cases: each begins sound and exact, is varied, and then faults may be planted.

use crate::calls::{Call, Number};
use crate::case::{Buffer, Case, Fault, Holds};
use crate::dense::{Table, LITERAL_SIZE};
use crate::faults;
use crate::layout::Shape;
use crate::random::Random;
use crate::refusals::{is_prime, LARGEST_ORDER, LARGEST_PRIME};
use crate::row_file;
use crate::swept::choose_pivots;

const PRIMES: [u32; 7] = [2, 3, 5, 7, 101, 2_147_483_629, LARGEST_PRIME];

/// A case for a call: sound for half of the seeds, else with one to three faults. At times pivots are as they come.
pub fn draw(call: &Call, random: &mut Random) -> Case {
    let mut case = sound(call, random);
    if (call.pivots || call.is_dense() || call.needs_zero_pivot()) && random.once_in(5) {
        case.buffer_mut(1).words = draw_table(case.p, case.shape(0), random);
    }
    add_surplus(&mut case, random);
    let faults = faults::draw(call, random);
    with_faults(case, faults, random)
}

/// A sound case with faults planted in it, in their order.
pub fn with_faults(mut case: Case, faults: Vec<Fault>, random: &mut Random) -> Case {
    for fault in faults {
        faults::plant(&mut case, fault, random);
        case.faults.push(fault);
    }
    share(&mut case, random);
    for buffer in &mut case.buffers {
        buffer.null = buffer.words.is_empty() && random.once_in(2);
    }
    case
}

/// All numbers within limits, all buffers exact, no zero pivot, or one where one is needed, no singular matrix and no place without
/// a fraction where a call would refuse it.
pub fn sound(call: &Call, random: &mut Random) -> Case {
    let (p, n) = (draw_prime(random), draw_size(call.largest_size(), random));
    let orders = draw_orders(call.tables, n, random);
    let mut case = Case { p, q: 1, n, orders, place: (1, 1), k: 1, c: 1, buffers: vec![], faults: vec![] };
    match call.number {
        Number::None | Number::Corner => {}
        Number::Place => case.place = draw_place(n, random),
        Number::Factor => case.c = draw_residue(p, random),
        Number::Prime => case.q = draw_other_prime(p, random),
    }
    for &(number, holds) in call.buffers {
        let mut buffer = Buffer::new(number, holds, vec![]);
        buffer.words = draw_words(&case, &buffer, random);
        case.buffers.push(buffer);
    }
    if call.pivots {
        let (p, shape) = (case.p, case.shape(0));
        make_regular(p, shape, &mut case.buffer_mut(1).words, random);
    }
    if call.needs_zero_pivot() {
        let (p, shape, row) = (case.p, case.shape(0), faults::draw_row(n, random) as usize);
        make_zero_pivot(p, shape, &mut case.buffer_mut(1).words, row, random);
    }
    if call.number == Number::Corner {
        make_corner(&mut case, random);
    }
    if call.is_dense() {
        make_nonsingular(&mut case, random);
    }
    if call.number == Number::Prime {
        make_fractions(&mut case, random);
    }
    case
}

/// Mostly of the list, else a prime of any length.
pub fn draw_prime(random: &mut Random) -> u32 {
    if !random.once_in(4) {
        return random.one_of(&PRIMES);
    }
    let most = LARGEST_PRIME >> random.below(30);
    draw_prime_to(most, random)
}

/// A prime of at most so much.
pub fn draw_prime_to(most: u32, random: &mut Random) -> u32 {
    std::iter::repeat_with(|| random.between(2, most)).find(|&p| is_prime(p)).expect("there is a prime")
}

/// A prime other than this one.
pub fn draw_other_prime(p: u32, random: &mut Random) -> u32 {
    std::iter::repeat_with(|| draw_prime(random)).find(|&q| q != p).expect("there is another prime")
}

/// Mostly small, at times up to the largest.
fn draw_size(largest: u32, random: &mut Random) -> u32 {
    match random.below(600) {
        0..=199 => random.between(1, 3),
        200..=499 => random.between(4, 12),
        500..=594 => random.between(13, 40),
        595..=597 => random.between(41, 100),
        598 => random.between(64, largest - 1),
        _ => largest,
    }
}

/// 0 to 8, mostly small, and smaller still for large sizes, where the dense program is slow.
fn draw_order(n: u32, random: &mut Random) -> u32 {
    match random.below(16) {
        0..=2 => 0,
        3..=6 => 1,
        7..=9 => 2,
        _ if n > 100 && !random.once_in(8) => random.between(0, 3),
        10..=11 => 3,
        12..=13 => random.between(4, 8),
        _ => 8,
    }
}

/// r and s of each table; those of two tables add up to at most 8, often to 8, and at times are the same.
fn draw_orders(tables: usize, n: u32, random: &mut Random) -> Vec<(u32, u32)> {
    let (r, s) = (draw_order(n, random), draw_order(n, random));
    match tables {
        0 => vec![],
        1 => vec![(r, s)],
        _ if random.once_in(6) => vec![(r.min(4), s.min(4)); 2],
        _ => vec![(r, s), (draw_beside(r, n, random), draw_beside(s, n, random))],
    }
}

/// The second table's order beside the first's.
fn draw_beside(order: u32, n: u32, random: &mut Random) -> u32 {
    let most = LARGEST_ORDER - order;
    match random.below(6) {
        0 | 1 if n <= 100 || random.once_in(8) => most,
        2 => 0,
        _ => draw_order(n, random).min(most),
    }
}

/// Corners, the diagonal, its neighbours, and anywhere.
fn draw_place(n: u32, random: &mut Random) -> (u32, u32) {
    let (i, j) = (random.between(1, n), random.between(1, n));
    match random.below(8) {
        0 => (n, 1),
        1 => (1, n),
        2 => (i, i),
        3 => (i, (i + 1).min(n)),
        4 => ((j + 1).min(n), j),
        _ => (i, j),
    }
}

/// How the residues of a buffer are chosen.
#[derive(Clone, Copy)]
enum Style {
    Any,
    Extreme,
    Same(u32),
    Runs,
    Sparse,
}

fn draw_style(p: u32, random: &mut Random) -> Style {
    match random.below(8) {
        0..=2 => Style::Any,
        3 => Style::Extreme,
        4 => Style::Same(random.one_of(&[1, p - 1, p - 1])),
        5 | 6 => Style::Runs,
        _ => Style::Sparse,
    }
}

fn draw_residue(p: u32, random: &mut Random) -> u32 {
    if random.once_in(2) {
        extreme(p, random)
    } else {
        random.between(0, p - 1)
    }
}

/// The least and the largest residues, whose products are the largest and the least.
fn extreme(p: u32, random: &mut Random) -> u32 {
    random.one_of(&[0, 1, p - 2, p - 1])
}

fn draw_residues(p: u32, count: usize, random: &mut Random) -> Vec<u32> {
    let style = draw_style(p, random);
    let (mut run, mut left) = (0, 0);
    let mut next = || match style {
        Style::Any => random.between(0, p - 1),
        Style::Extreme => extreme(p, random),
        Style::Same(residue) => residue,
        Style::Sparse => {
            if random.once_in(4) {
                random.between(0, p - 1)
            } else {
                0
            }
        }
        Style::Runs => {
            if left == 0 {
                (run, left) = (extreme(p, random), random.between(1, 20));
            }
            left -= 1;
            run
        }
    };
    (0..count).map(|_| next()).collect()
}

fn draw_words(case: &Case, buffer: &Buffer, random: &mut Random) -> Vec<u32> {
    let needed = case.needed(buffer.holds);
    if !buffer.is_read() {
        return draw_any(needed, buffer.holds, random);
    }
    match buffer.holds {
        Holds::Table(which) => draw_table(case.p, case.shape(which), random),
        Holds::ReadFile => draw_file(case.p, case.shape(0), random),
        holds => draw_residues(case.prime_of(holds), needed, random),
    }
}

/// Any words, or any bytes.
fn draw_any(count: usize, holds: Holds, random: &mut Random) -> Vec<u32> {
    let most = if holds.is_file() { 255 } else { u32::MAX };
    (0..count).map(|_| random.word() & most).collect()
}

/// The bytes of a file, its records mostly in any order; at times 0 stands for the house prime.
pub fn draw_file(p: u32, shape: Shape, random: &mut Random) -> Vec<u32> {
    let table = draw_table(p, shape, random);
    let p = if p == LARGEST_PRIME && random.once_in(2) { 0 } else { p };
    row_file::bytes(&row_file::laid_out(p, shape, &table, &draw_records(shape.n, random)))
}

/// The record number of each row: in the order of the rows, backwards, or mostly in any order.
pub fn draw_records(n: usize, random: &mut Random) -> Vec<u32> {
    let mut records: Vec<u32> = (1..=n as u32).collect();
    match random.below(6) {
        0 => {}
        1 => records.reverse(),
        _ => (1..n).for_each(|last| records.swap(last, random.below(last + 1))),
    }
    records
}

/// A table's words, exact: residues where they are used.
pub fn draw_table(p: u32, shape: Shape, random: &mut Random) -> Vec<u32> {
    let mut words = draw_residues(p, shape.table_words(), random);
    fill_idle(&mut words, p, shape, random);
    words
}

/// Changes d wherever the pivot is zero.
pub fn make_regular(p: u32, shape: Shape, words: &mut [u32], random: &mut Random) {
    choose_pivots(p, shape, words, |_, m| if m == 0 { random.between(1, p - 1) } else { m });
}

/// Changes d's so that the first zero pivot is at row k; the rows after it are as they were.
pub fn make_zero_pivot(p: u32, shape: Shape, words: &mut [u32], k: usize, random: &mut Random) {
    let pivot = |row: usize, m: u32| match m {
        _ if row == k => 0,
        0 => random.between(1, p - 1),
        _ => m,
    };
    choose_pivots(p, shape, words, pivot);
}

/// Mostly takes a table with a singular corner whose matrix is not singular, if one of a few draws is such, else changes d's until no
/// corner is.
fn make_nonsingular(case: &mut Case, random: &mut Random) {
    let (p, shape) = (case.p, case.shape(0));
    let draws = if shape.n > 40 { 2 } else { 8 };
    for _ in 0..if random.once_in(3) { 0 } else { draws } {
        let mut words = draw_table(p, shape, random);
        let row = random.between(1, case.n) as usize;
        make_zero_pivot(p, shape, &mut words, row, random);
        if (Table { p, shape, words: &words }).matrix().rank() == shape.n {
            case.buffer_mut(1).words = words;
            return;
        }
    }
    make_regular(p, shape, &mut case.buffer_mut(1).words, random);
}

/// Takes a corner, mostly a singular one, and mostly a column that shows it, at times but for a word.
fn make_corner(case: &mut Case, random: &mut Random) {
    let (p, shape) = (case.p, case.shape(0));
    let most = if shape.n > LITERAL_SIZE { 40 } else { case.n };
    let row = faults::draw_row(most, random);
    case.k = if random.once_in(4) { random.between(1, most) } else { row };
    if !random.once_in(5) {
        make_zero_pivot(p, shape, &mut case.buffer_mut(1).words, row as usize, random);
    }
    let k = case.k as usize;
    let shown = case.table().corner(k).matrix().null_with_one();
    if let Some(column) = shown.filter(|_| !random.once_in(6)) {
        let words = &mut case.buffer_mut(3).words;
        words[..k].copy_from_slice(&column);
        if random.once_in(3) {
            words[random.below(k)] = random.between(0, p - 1);
        }
    }
}

/// Changes all residues to those of fractions.
fn make_fractions(case: &mut Case, random: &mut Random) {
    let primes = case.primes();
    (1..=case.n as usize).for_each(|place| case.set_residues(place, primes.residues(primes.draw_fraction(random))));
}

/// Idle words: residues, zeros, the prime itself, or any words.
pub fn fill_idle(words: &mut [u32], p: u32, shape: Shape, random: &mut Random) {
    let style = random.below(5);
    for place in [1, shape.n].into_iter().flat_map(|k| shape.idle_places(k)) {
        match style {
            0 => {}
            1 => words[place] = 0,
            2 => words[place] = random.one_of(&[p, p + 1, u32::MAX]),
            _ => words[place] = random.word(),
        }
    }
}

/// Words behind what is needed, or bytes: none, a few, a row's, or a column's where there are no rows. A file that is read has none.
pub fn add_surplus(case: &mut Case, random: &mut Random) {
    let row = if case.orders.is_empty() { case.n as usize } else { case.shape(0).row_words() };
    for buffer in case.buffers.iter_mut().filter(|buffer| buffer.holds != Holds::ReadFile) {
        let count = random.one_of(&[0, 0, 0, 1, 2, 9, row, row + 1]);
        buffer.words.extend(draw_any(count, buffer.holds, random));
    }
}

/// At times the second table or the column is the first table's own memory: two buffers that are only read may be the same.
fn share(case: &mut Case, random: &mut Random) {
    let own = |fault: &Fault| matches!(fault, Fault::Short(2 | 3) | Fault::Word(2 | 3));
    let alike = case.orders.iter().all(|&orders| orders == case.orders[0]);
    if case.faults.iter().any(own) || !random.once_in(if alike { 12 } else { 50 }) {
        return;
    }
    if let Some(place) = case.buffers.iter().position(|buffer| (2..=3).contains(&buffer.number)) {
        case.buffers[place].words = case.buffer(1).words.clone();
        case.buffers[place].shared = true;
    }
}
