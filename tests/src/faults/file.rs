//! The faults of a row file that is read.

use super::{draw_no_prime, draw_row, not_below, plant_in_call};
use crate::case::{Case, Fault};
use crate::random::Random;
use crate::row_file::{next_place, FIRST};

/// Numbers go out of limits in the file's head, as they would in a call that is handed them.
pub fn plant(case: &mut Case, fault: Fault, random: &mut Random) {
    match fault {
        Fault::Word(_) => plant_words(case, random),
        Fault::Chain => plant_chain(case, random),
        Fault::Length => plant_length(case, random),
        Fault::Head => {
            let any = random.below(20);
            let count = random.one_of(&[0, 1, 4, 16, 19, 19, any]);
            case.buffer_mut(6).words.truncate(count);
        }
        Fault::Prime => {
            let p = std::iter::repeat_with(|| draw_no_prime(random)).find(|&p| p != 0).expect("0 is the house prime");
            case.set_file_word(0, p);
        }
        Fault::Size | Fault::Orders(_) => {
            plant_in_call(case, fault, random);
            let (n, (r, s)) = (case.n, case.orders[0]);
            (1..).zip([n, r, s]).for_each(|(place, number)| case.set_file_word(place, number));
        }
        _ => plant_in_call(case, fault, random),
    }
}

/// Plants one to three words that are no residues in used places of the chain's first row, its last, or any.
fn plant_words(case: &mut Case, random: &mut Random) {
    let (shape, records) = (case.shape(0), case.file_chain().expect("a sound chain"));
    for _ in 0..random.one_of(&[1, 1, 2, 3]) {
        let row = draw_row(case.n, random) as usize;
        let in_row = random.one_of(&shape.used_places(row).collect::<Vec<_>>()) % shape.row_words();
        case.set_file_word(next_place(shape, records[row - 1]) + 1 + in_row, not_below(case.p, random));
    }
}

/// A number above N.
fn above(n: u32, random: &mut Random) -> u32 {
    random.one_of(&[n + 1, n + 1, n + 2, 65_536 + n, 0x8000_0001, u32::MAX])
}

/// Makes a sound chain wrong, in one of the ways that a chain of this size can be.
pub fn plant_chain(case: &mut Case, random: &mut Random) {
    let (shape, records) = (case.shape(0), case.file_chain().expect("a sound chain"));
    let (n, row) = (shape.n, random.below(shape.n));
    let place = |row: usize| next_place(shape, records[row]);
    let (place, number) = match random.below(if n > 1 { 8 } else { 4 }) {
        0 => (FIRST, 0),
        1 => (FIRST, above(case.n, random)),
        2 => (place(n - 1), above(case.n, random)),
        // back to this row or one before it: the chain never ends
        3 => (place(row), records[random.below(row + 1)]),
        4 => (place(n - 1), records[random.below(n)]),
        // an end or no record before the last row
        5 => (place(row.min(n - 2)), 0),
        6 => (place(row.min(n - 2)), above(case.n, random)),
        // rows left out
        _ => (FIRST, records[1 + random.below(n - 1)]),
    };
    case.set_file_word(place, number);
}

/// Bytes are cut off or added; the head stays.
fn plant_length(case: &mut Case, random: &mut Random) {
    let bytes = &mut case.buffer_mut(6).words;
    let length = bytes.len();
    match random.below(6) {
        0 => bytes.truncate(length - 1),
        1 => bytes.truncate(length - 4),
        2 => bytes.truncate(20),
        3 => bytes.truncate(20 + random.below(length - 20)),
        4 => bytes.push(0),
        _ => bytes.extend((0..random.between(1, 40)).map(|_| random.word() & 255)),
    }
}
