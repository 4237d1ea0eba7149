//! The faults that can be planted in a sound case.

use crate::calls::{Call, Number};
use crate::case::{Case, Fault, Holds};
use crate::cases::{make_regular, make_zero_pivot};
use crate::dense::Table;
use crate::layout::{Kind, Shape};
use crate::random::Random;
use crate::refusals::{is_prime, LARGEST_PRIME};
use crate::swept::choose_pivots;

pub mod file;

/// Units, squares, products of two primes, pseudoprimes, and primes above the limit.
#[rustfmt::skip]
const NO_PRIMES: [u32; 26] = [
    0, 1, 4, 6, 9, 25, 49, 121, 341, 561, 1_105, 2_047, 65_535, 65_536, 1_373_653, 25_326_001,
    46_337 * 46_337, 46_327 * 46_337, 2_147_483_641, 2_147_483_646, 2_147_483_648, 2_147_483_649, 2_147_483_659,
    3_215_031_751, 4_294_967_291, 4_294_967_295,
];

/// Every fault that a call can meet.
pub fn all(call: &Call) -> Vec<Fault> {
    let mut faults = vec![Fault::Prime, Fault::Size];
    faults.extend((0..call.tables).map(Fault::Orders));
    if call.tables == 2 {
        faults.push(Fault::OrderSums);
    }
    match call.number {
        Number::None => {}
        Number::Place => faults.push(Fault::Place),
        Number::Corner => faults.push(Fault::Corner),
        Number::Factor => faults.push(Fault::Factor),
        Number::Prime => faults.extend([Fault::SecondPrime, Fault::EqualPrimes, Fault::Fraction]),
    }
    let numbers = || call.buffers.iter().filter(|(_, holds)| *holds != Holds::ReadFile).map(|&(number, _)| number);
    faults.extend(numbers().map(Fault::Short));
    faults.extend(numbers().filter(|&number| number <= 3).map(Fault::Word));
    if call.reads_file() {
        faults.extend([Fault::Word(6), Fault::Chain, Fault::Length, Fault::Head]);
    }
    if call.pivots {
        faults.push(Fault::Pivot);
    }
    if call.needs_zero_pivot() {
        faults.push(Fault::Regular);
    }
    if call.is_dense() {
        faults.push(Fault::Singular);
    }
    faults
}

/// No fault for half of the seeds, else one to three different ones.
pub fn draw(call: &Call, random: &mut Random) -> Vec<Fault> {
    let mut left = all(call);
    let count = random.one_of(&[0, 0, 0, 0, 1, 1, 2, 3]);
    let mut faults: Vec<Fault> = (0..count).map(|_| left.swap_remove(random.below(left.len()))).collect();
    faults.sort();
    faults
}

pub fn plant(case: &mut Case, fault: Fault, random: &mut Random) {
    if case.buffers.iter().any(|buffer| buffer.holds == Holds::ReadFile) {
        return file::plant(case, fault, random);
    }
    plant_in_call(case, fault, random);
}

fn plant_in_call(case: &mut Case, fault: Fault, random: &mut Random) {
    match fault {
        Fault::Pivot => plant_pivot(case, random),
        Fault::Regular => plant_regular(case, random),
        Fault::Singular => plant_singular(case, random),
        Fault::Fraction => plant_without(case, random),
        Fault::Prime => case.p = draw_no_prime(random),
        Fault::SecondPrime => case.q = draw_no_prime(random),
        // what was planted as the second prime stays
        Fault::EqualPrimes if is_prime(case.q) => case.q = case.p,
        Fault::EqualPrimes => case.p = case.q,
        Fault::Size if case.is_dense() => {
            case.n = random.one_of(&[0, 257, 257, 258, 512, 1_024, 1_025, 65_537, 0x8000_0000, u32::MAX])
        }
        Fault::Size => case.n = random.one_of(&[0, 0, 1_025, 1_025, 1_026, 2_048, 65_536, 65_537, 0x8000_0000, u32::MAX]),
        Fault::Orders(which) => plant_order(&mut case.orders[which], random),
        Fault::OrderSums => plant_order_sums(case, random),
        Fault::Place => plant_place(case, random),
        Fault::Corner => case.k = draw_outside(case.n, random),
        Fault::Factor => case.c = not_below(case.p, random),
        Fault::Short(number) => cut(case, number, random),
        Fault::Word(number) => plant_words(case, number, random),
        Fault::Chain | Fault::Length | Fault::Head => panic!("{fault:?} belongs to a file"),
    }
}

fn plant_order(orders: &mut (u32, u32), random: &mut Random) {
    let above = random.one_of(&[9, 9, 9, 10, 255, 256, 65_535, 65_536, 0x8000_0000, u32::MAX]);
    match random.below(3) {
        0 => orders.0 = above,
        1 => orders.1 = above,
        _ => *orders = (above, above),
    }
}

/// Orders within limits whose r's, s's or both add up to more than 8, mostly to 9.
fn plant_order_sums(case: &mut Case, random: &mut Random) {
    let which = random.below(3);
    if which != 1 {
        (case.orders[0].0, case.orders[1].0) = draw_above(random);
    }
    if which != 0 {
        (case.orders[0].1, case.orders[1].1) = draw_above(random);
    }
}

fn draw_above(random: &mut Random) -> (u32, u32) {
    let one = random.between(1, 8);
    (one, if random.once_in(3) { random.between(9 - one, 8) } else { 9 - one })
}

fn plant_place(case: &mut Case, random: &mut Random) {
    let outside = draw_outside(case.n, random);
    match random.below(3) {
        0 => case.place.0 = outside,
        1 => case.place.1 = outside,
        _ => case.place = (outside, outside),
    }
}

/// No row's number.
fn draw_outside(n: u32, random: &mut Random) -> u32 {
    random.one_of(&[0, 0, n + 1, n + 1, 1_025, 65_537, 0x8000_0000, u32::MAX])
}

/// A word that is no residue.
fn not_below(p: u32, random: &mut Random) -> u32 {
    let any = random.between(p, u32::MAX);
    random.one_of(&[p, p, p.saturating_add(1), u32::MAX, any])
}

/// Makes a buffer too short: by one word, empty, or anyhow. One that needs no words only loses its surplus.
fn cut(case: &mut Case, number: u32, random: &mut Random) {
    let needed = case.needed(case.buffer(number).holds);
    let count = match random.below(4) {
        _ if needed == 0 => 0,
        0 | 1 => needed - 1,
        2 => 0,
        _ => random.below(needed),
    };
    case.buffer_mut(number).words.truncate(count);
}

/// Makes the pivot of a row zero, unless one before it is: of the first row, the last, or any. The rows after it stay.
fn plant_pivot(case: &mut Case, random: &mut Random) {
    let (p, shape, row) = (case.p, case.shape(0), draw_row(case.n, random) as usize);
    choose_pivots(p, shape, &mut case.buffer_mut(1).words, |k, m| if k == row { 0 } else { m });
}

/// Leaves no zero pivot.
fn plant_regular(case: &mut Case, random: &mut Random) {
    let (p, shape) = (case.p, case.shape(0));
    make_regular(p, shape, &mut case.buffer_mut(1).words, random);
}

fn plant_singular(case: &mut Case, random: &mut Random) {
    let (p, shape, way) = (case.p, case.shape(0), random.below(SINGULAR_WAYS));
    make_singular(p, shape, &mut case.buffer_mut(1).words, way, random);
}

/// In so many ways a table's matrix is made singular.
pub const SINGULAR_WAYS: usize = 5;

/// Only the last pivot is zero; a row is zero; a column is; two rows are the same; or all entries are zero.
pub fn make_singular(p: u32, shape: Shape, words: &mut [u32], way: usize, random: &mut Random) {
    let row = draw_row(shape.n as u32, random) as usize;
    let mut clear = |kind: Kind, k: usize| words[shape.places(kind, k)].fill(0);
    match way {
        0 => make_zero_pivot(p, shape, words, shape.n, random),
        1 => [Kind::D, Kind::P, Kind::G].into_iter().for_each(|kind| clear(kind, row)),
        2 => [Kind::D, Kind::Q, Kind::H].into_iter().for_each(|kind| clear(kind, row)),
        3 if shape.n > 1 => make_twins(p, shape, words, row.min(shape.n - 1)),
        _ => (1..=shape.n).for_each(|k| [Kind::D, Kind::P, Kind::G].into_iter().for_each(|kind| clear(kind, k))),
    }
}

/// Makes row k of the matrix the one after it: the diagonal's entries, p of the row and g of the next follow from the other words.
fn make_twins(p: u32, shape: Shape, words: &mut [u32], k: usize) {
    let table = Table { p, shape, words };
    let of = |kind, k| table.generator(kind, k);
    let made = [
        (Kind::D, k, of(Kind::P, k + 1).times(&of(Kind::Q, k))),
        (Kind::P, k, of(Kind::P, k + 1).times(&of(Kind::A, k))),
        (Kind::D, k + 1, of(Kind::G, k).times(&of(Kind::H, k + 1))),
        (Kind::G, k + 1, of(Kind::G, k).times(&of(Kind::B, k + 1))),
    ];
    for (kind, k, block) in made.into_iter().filter(|&(kind, k, _)| !shape.is_idle(kind, k)) {
        words[shape.places(kind, k)].copy_from_slice(&block.residues);
    }
}

/// Gives one to three places residues without a fraction: the first, the last, or any.
fn plant_without(case: &mut Case, random: &mut Random) {
    let primes = case.primes();
    for _ in 0..random.one_of(&[1, 1, 2, 3]) {
        let place = draw_row(case.n, random) as usize;
        case.set_residues(place, primes.draw_without(random));
    }
}

/// The first row, the last, or any.
pub fn draw_row(n: u32, random: &mut Random) -> u32 {
    match random.below(3) {
        0 => 1,
        1 => n,
        _ => random.between(1, n),
    }
}

/// Plants one to three words that are no residues in used places: of the first row, the last, or any.
fn plant_words(case: &mut Case, number: u32, random: &mut Random) {
    for _ in 0..random.one_of(&[1, 1, 2, 3]) {
        let row = draw_row(case.n, random);
        let place = used_place(case, number, row as usize, random);
        let prime = case.prime_of(case.buffer(number).holds);
        case.buffer_mut(number).words[place] = not_below(prime, random);
    }
}

fn used_place(case: &Case, number: u32, row: usize, random: &mut Random) -> usize {
    match case.buffer(number).holds {
        Holds::Table(which) => random.one_of(&case.shape(which).used_places(row).collect::<Vec<_>>()),
        _ => row - 1,
    }
}

/// Mostly of the list, else a product of two factors, or a number above the limit.
fn draw_no_prime(random: &mut Random) -> u32 {
    match random.below(4) {
        0 => random.between(2, 46_340) * random.between(2, 46_340),
        1 => random.between(LARGEST_PRIME + 1, u32::MAX),
        _ => random.one_of(&NO_PRIMES),
    }
}
