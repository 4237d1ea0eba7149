//! Every limit from both sides: each P, N and order around its bounds, and nothing else at fault.

use crate::calls::{entry, fractions, kernel_check, read_file, write_file, Call, CALLS};
use crate::case::{Buffer, Case, Holds};
use crate::layout::Shape;
use crate::refusals::LARGEST_PRIME;
use crate::row_file;
use crate::tally::Tally;
use crate::trial::trial;

pub fn run(tally: &mut Tally) -> Result<(), String> {
    primes(tally)?;
    for call in CALLS {
        sizes(call, tally)?;
        orders(call, tally)?;
    }
    corners(tally)
}

fn check(call: &Call, case: Case, tally: &mut Tally) -> Result<(), String> {
    let reply = trial(call, &case)?;
    tally.record(call, &case, reply);
    Ok(())
}

/// Small numbers, and numbers around squares and around the limit.
fn primes(tally: &mut Tally) -> Result<(), String> {
    let around = |middle: u32| middle - 60..=middle + 60;
    let squares = [46_327 * 46_327, 46_337 * 46_337, 46_339 * 46_339];
    let large = squares.into_iter().chain([65_536, 1 << 31, u32::MAX - 60]).flat_map(around);
    for p in (0..=3_000).chain(large) {
        for call in [&entry::CALL, &read_file::CALL, &write_file::CALL] {
            check(call, zeros(call, p, 1, &[0, 0]), tally)?;
        }
        two_primes(p, tally)?;
    }
    Ok(())
}

/// The number as the first prime, as the second, and as both.
fn two_primes(p: u32, tally: &mut Tally) -> Result<(), String> {
    let call = &fractions::CALL;
    for (p, q) in [(p, 2), (2, p), (p, LARGEST_PRIME), (LARGEST_PRIME, p), (p, p)] {
        check(call, Case { q, ..zeros(call, p, 1, &[]) }, tally)?;
    }
    Ok(())
}

fn sizes(call: &Call, tally: &mut Tally) -> Result<(), String> {
    let sizes = (0..=20).chain(250..=262).chain(1_015..=1_034).chain([2_048, 65_536, 65_537, 66_560, 1 << 31, u32::MAX]);
    for n in sizes {
        check(call, zeros(call, 7, n, &vec![0; 2 * call.tables]), tally)?;
    }
    Ok(())
}

/// The orders of one table to 10, those of two to 9; far ones in each place, also such that would add up to 2³² or more.
fn orders(call: &Call, tally: &mut Tally) -> Result<(), String> {
    let places = 2 * call.tables;
    let bound: u32 = if call.tables == 1 { 11 } else { 10 };
    for choice in 0..bound.pow(places as u32) {
        let orders: Vec<u32> = (0..places as u32).map(|place| choice / bound.pow(place) % bound).collect();
        check(call, zeros(call, 7, 3, &orders), tally)?;
    }
    for order in [255, 256, 65_535, 65_536, 65_544, 1 << 31, u32::MAX - 1, u32::MAX] {
        for place in 0..places {
            for others in [0, 1, 2, 8] {
                let orders: Vec<u32> = (0..places).map(|other| if other == place { order } else { others }).collect();
                check(call, zeros(call, 7, 3, &orders), tally)?;
            }
        }
        check(call, zeros(call, 7, 3, &vec![order; places]), tally)?;
    }
    Ok(())
}

/// Every k of small sizes, and those around the bounds of the largest.
fn corners(tally: &mut Tally) -> Result<(), String> {
    let call = &kernel_check::CALL;
    for n in (1..=20).chain([1_024]) {
        let to = if n < 1_024 { n } else { 1 };
        for k in (0..=to).chain(n..=n + 2).chain([65_536, 65_537, 65_536 + n, 1 << 31, u32::MAX]) {
            check(call, Case { k, ..zeros(call, 7, n, &[0, 0]) }, tally)?;
        }
    }
    Ok(())
}

/// Zero matrices, or identities where a zero pivot or a singular matrix is refused, and a zero column, in buffers that are long
/// enough wherever N is at most 2,048 and the orders at most 10; the second prime is 2.
fn zeros(call: &Call, p: u32, n: u32, orders: &[u32]) -> Case {
    let orders: Vec<(u32, u32)> = orders.chunks(2).map(|pair| (pair[0], pair[1])).collect();
    let rows = n.min(2_048) as usize;
    let capped = |(r, s): (u32, u32)| (r.min(10) as usize, s.min(10) as usize);
    let row = |(r, s): (usize, usize)| 1 + 2 * r + r * r + 2 * s + s * s;
    let table = |orders: (usize, usize)| rows * row(orders);
    let joined = || orders.iter().map(|&pair| capped(pair)).fold((0, 0), |(r, s), other| (r + other.0, s + other.1));
    let buffer = |&(number, holds): &(u32, Holds)| {
        let count = match holds {
            Holds::Table(which) => table(capped(orders[which])),
            Holds::Joined => table(joined()),
            Holds::Column | Holds::Residues(_) | Holds::Signed => rows,
            Holds::Square => rows * rows,
            Holds::Work => rows * capped(orders[0]).1,
            Holds::WrittenFile => 4 * (5 + rows * (1 + row(capped(orders[0])))),
            Holds::ReadFile => return Buffer::new(number, holds, zero_file(p, n, orders[0], rows, capped(orders[0]))),
        };
        let mut words = vec![if number <= 3 { 0 } else { 9 }; count];
        if (call.pivots || call.is_dense()) && number == 1 {
            words.iter_mut().step_by(row(capped(orders[0]))).for_each(|d| *d = 1);
        }
        Buffer::new(number, holds, words)
    };
    let buffers = call.buffers.iter().map(buffer).collect();
    let mut case = Case { p, q: 2, n, orders, place: (1, 1), k: 1, c: 0, buffers, faults: vec![] };
    if call.reads_file() {
        case.read_head();
    }
    case
}

/// The bytes of a file of so many zero rows of orders r and s, with the given numbers in its head.
fn zero_file(p: u32, n: u32, orders: (u32, u32), rows: usize, (r, s): (usize, usize)) -> Vec<u32> {
    let shape = Shape { n: rows, r, s };
    let records: Vec<u32> = (1..=rows.max(1) as u32).collect();
    let mut words = row_file::laid_out(p, shape, &vec![0; shape.table_words()], &records);
    words[..4].copy_from_slice(&[p, n, orders.0, orders.1]);
    row_file::bytes(&words)
}
