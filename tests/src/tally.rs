//! What was reached: outcomes, traits of cases, and pairs of faults. A class that was never reached is a failure.

use crate::calls::{Call, Number, CALLS};
use crate::case::{Buffer, Case, Fault, Holds};
use crate::faults;
use crate::layout::Kind;
use crate::refusals::{file_head, orders, size, Reply, LARGEST_DENSE_SIZE, LARGEST_PRIME, LARGEST_SIZE};
use crate::row_file::FIRST;
use crate::swept::first_zero_pivot;
use std::collections::{BTreeMap, BTreeSet};

#[derive(Default)]
pub struct Tally {
    pub passed: usize,
    outcomes: BTreeMap<(&'static str, u32, u32), usize>,
    traits: BTreeMap<(&'static str, &'static str), usize>,
    pairs: BTreeSet<(&'static str, Fault, Fault)>,
    laws: BTreeMap<&'static str, usize>,
}

/// A trait of a case that must occur with every call, and whether this case has it.
type Trait = (&'static str, fn(&Case) -> bool);

/// Traits of accepted cases.
const ACCEPTED: [Trait; 7] = [
    ("N is 1", |case| case.n == 1),
    ("N is 2", |case| case.n == 2),
    ("N is the largest", |case| case.n == if case.is_dense() { LARGEST_DENSE_SIZE } else { LARGEST_SIZE }),
    ("P is 2", |case| case.p == 2),
    ("P is 2,147,483,647", |case| case.p == LARGEST_PRIME),
    ("no surplus", |case| case.buffers.iter().all(|buffer| !has_surplus(case, buffer))),
    ("surplus in every buffer", |case| {
        case.buffers.iter().all(|buffer| has_surplus(case, buffer) || buffer.holds == Holds::ReadFile)
    }),
];

/// Traits of accepted cases with orders.
const ACCEPTED_ORDERS: [Trait; 5] = [
    ("r is 0, s is not", |case| case.orders[0].0 == 0 && case.orders[0].1 > 0),
    ("s is 0, r is not", |case| case.orders[0].1 == 0 && case.orders[0].0 > 0),
    ("r and s are 0", |case| case.orders[0] == (0, 0)),
    ("r is 8", |case| case.orders[0].0 == 8),
    ("s is 8", |case| case.orders[0].1 == 8),
];

/// Traits of accepted cases with a table.
const ACCEPTED_TABLE: [Trait; 3] = [
    ("idle word not below P in row 1", |case| has_high_idle(case, 1, 1)),
    ("idle word not below P in row N", |case| has_high_idle(case, 1, case.n)),
    ("surplus not below P", |case| has_high_surplus(case, 1)),
];

/// Traits of accepted cases with a file that is read.
const ACCEPTED_FILE: [Trait; 6] = [
    ("P is 0 in the file", |case| case.file_words()[0] == 0),
    ("records in the order of the rows, N above 3", |case| case.n > 3 && case.file_chain().is_ok_and(|chain| chain.is_sorted())),
    ("records in another order, N above 3", |case| case.n > 3 && case.file_chain().is_ok_and(|chain| !chain.is_sorted())),
    ("row N is record 1, N above 3", |case| case.n > 3 && case.file_chain().is_ok_and(|chain| chain.last() == Some(&1))),
    ("idle word not below P in row 1", |case| has_high_idle_in_file(case, 1)),
    ("idle word not below P in row N", |case| has_high_idle_in_file(case, case.n as usize)),
];

/// A trait of a case beside its reply.
type TraitOfReply = (&'static str, fn(&Case, Reply) -> bool);

/// Traits of refused cases with a file that is read.
const REFUSED_FILE: [TraitOfReply; 13] = [
    ("no bytes", |case, reply| reply.number == 9 && case.buffer(6).words.is_empty()),
    ("19 bytes", |case, reply| reply.number == 9 && case.buffer(6).words.len() == 19),
    ("a head alone, out of limits", |case, reply| reply.number <= 3 && case.buffer(6).words.len() == 20),
    ("a byte too few", |case, reply| reply.number == 9 && surplus_of_file(case) == Some(-1)),
    ("a byte too many", |case, reply| reply.number == 9 && surplus_of_file(case) == Some(1)),
    ("first record 0", |case, reply| reply.number == 10 && case.file_words()[FIRST] == 0),
    ("first record N + 1", |case, reply| reply.number == 10 && case.file_words()[FIRST] == case.n + 1),
    ("chain wrong after one row", |case, reply| reply.number == 10 && reply.row == 1 && case.n > 1),
    ("chain wrong before the last row", |case, reply| reply.number == 10 && reply.row == case.n - 1 && case.n > 1),
    ("chain not ended after N rows", |case, reply| reply.number == 10 && reply.row == case.n),
    ("chain wrong between", |case, reply| reply.number == 10 && reply.row > 1 && reply.row + 1 < case.n),
    ("the record of a bad word has another number", |case, reply| {
        reply.number == 5 && case.file_chain().is_ok_and(|chain| chain[reply.row as usize - 1] != reply.row)
    }),
    ("P is 0 in the file, bad word", |case, reply| reply.number == 5 && case.file_words()[0] == 0),
];

/// Traits of refused cases with two primes.
const REFUSED_PRIMES: [TraitOfReply; 6] = [
    ("no fraction in the first place, N above 1", |case, reply| reply.number == 12 && reply.row == 1 && case.n > 1),
    ("no fraction in the last place, N above 1", |case, reply| reply.number == 12 && reply.row == case.n && case.n > 1),
    ("no fraction in a place between", |case, reply| reply.number == 12 && reply.row > 1 && reply.row < case.n),
    ("within the bound a denominator divisible by the first prime", |case, reply| has_denominator(case, reply, case.p)),
    ("within the bound a denominator divisible by the second prime", |case, reply| has_denominator(case, reply, case.q)),
    ("equal numbers that are no primes", |case, reply| reply.number == 1 && case.p == case.q),
];

/// Whether the place without a fraction has a pair within the bound whose denominator this prime divides.
fn has_denominator(case: &Case, reply: Reply, prime: u32) -> bool {
    if reply.number != 12 {
        return false;
    }
    let residues = case.residues().nth(reply.row as usize - 1).expect("a place of the columns");
    let pair = case.primes().shortest(residues);
    case.primes().is_within(pair) && pair.1 % prime as i64 == 0
}

/// Traits of accepted cases with two tables.
const ACCEPTED_TWO: [Trait; 18] = [
    ("r1 + r2 is 8, both are not 0", |case| case.joined().r == 8 && lower(case) == (true, true)),
    ("s1 + s2 is 8, both are not 0", |case| case.joined().s == 8 && upper(case) == (true, true)),
    ("both sums are 8", |case| case.joined().r == 8 && case.joined().s == 8),
    ("r1 is 0, r2 is not", |case| lower(case) == (false, true)),
    ("r2 is 0, r1 is not", |case| lower(case) == (true, false)),
    ("s1 is 0, s2 is not", |case| upper(case) == (false, true)),
    ("s2 is 0, s1 is not", |case| upper(case) == (true, false)),
    ("second r and s are 0, first are not", |case| case.orders[1] == (0, 0) && case.orders[0].0.min(case.orders[0].1) > 0),
    ("all orders are 0", |case| case.orders == [(0, 0), (0, 0)]),
    ("r2 is 8", |case| case.orders[1].0 == 8),
    ("s2 is 8", |case| case.orders[1].1 == 8),
    ("all orders are above 1, N above 3", |case| case.n > 3 && case.orders.iter().all(|&(r, s)| r > 1 && s > 1)),
    ("all orders differ", |case| {
        let ((r1, s1), (r2, s2)) = (case.orders[0], case.orders[1]);
        BTreeSet::from([r1, s1, r2, s2]).len() == 4
    }),
    ("the same orders, N above 1", |case| case.n > 1 && case.orders[0] == case.orders[1] && case.orders[0] != (0, 0)),
    ("P is 2,147,483,647, sum 8, N above 3", |case| case.p == LARGEST_PRIME && case.joined().r == 8 && case.n > 3),
    ("second idle word not below P in row 1", |case| has_high_idle(case, 2, 1)),
    ("second idle word not below P in row N", |case| has_high_idle(case, 2, case.n)),
    ("second surplus not below P", |case| has_high_surplus(case, 2)),
];

/// Traits of accepted cases whose pivots matter.
const ACCEPTED_PIVOTS: [Trait; 6] = [
    ("P is 2, orders above 1, N above 3", |case| case.p == 2 && orders_above_1(case)),
    ("P is 2,147,483,647, orders above 1, N above 3", |case| case.p == LARGEST_PRIME && orders_above_1(case)),
    ("r and s are 8, N above 3", |case| case.orders[0] == (8, 8) && case.n > 3),
    ("a d is 0", |case| (1..=case.n as usize).any(|k| case.table().generator(Kind::D, k).residues[0] == 0)),
    ("r above s, s above 0, N above 3", |case| case.orders[0].0 > case.orders[0].1 && case.orders[0].1 > 0 && case.n > 3),
    ("s above r, r above 0, N above 3", |case| case.orders[0].1 > case.orders[0].0 && case.orders[0].0 > 0 && case.n > 3),
];

/// Traits of accepted cases of the dense solve.
const ACCEPTED_DENSE: [Trait; 7] = [
    ("no singular corner, N above 4", |case| case.n > 4 && singular_corner(case).is_none()),
    ("corner 1 is singular, N above 4", |case| case.n > 4 && singular_corner(case) == Some(1)),
    ("corner N − 1 is the first singular one, N above 4", |case| {
        case.n > 4 && singular_corner(case) == Some(case.n as usize - 1)
    }),
    ("a corner between is the first singular one, N above 4", |case| {
        case.n > 4 && singular_corner(case).is_some_and(|k| k > 1 && k + 1 < case.n as usize)
    }),
    ("a singular corner, N is 256", |case| case.n == LARGEST_DENSE_SIZE && singular_corner(case).is_some()),
    ("a singular corner, P is 2,147,483,647, orders above 1, N above 3", |case| {
        case.p == LARGEST_PRIME && orders_above_1(case) && singular_corner(case).is_some()
    }),
    ("every d is 0, N above 3", |case| {
        case.n > 3 && (1..=case.n as usize).all(|k| case.table().generator(Kind::D, k).residues[0] == 0)
    }),
];

/// Traits of refused cases of the dense solve.
const REFUSED_DENSE: [TraitOfReply; 6] = [
    ("N is 257", |case, reply| reply.number == 2 && case.n == LARGEST_DENSE_SIZE + 1),
    ("N is 1,024", |case, reply| reply.number == 2 && case.n == LARGEST_SIZE),
    ("the square is a word too short, N above 1", |case, reply| {
        (reply.number, reply.buffer) == (4, 4) && case.n > 1 && case.buffer(4).words.len() + 1 == case.needed(Holds::Square)
    }),
    ("singular, every corner before the last regular, N above 4", |case, reply| {
        reply.number == 7 && case.n > 4 && singular_corner(case) == Some(case.n as usize)
    }),
    ("singular, corner 1 too, N above 4", |case, reply| reply.number == 7 && case.n > 4 && singular_corner(case) == Some(1)),
    ("singular, N is 256", |case, reply| reply.number == 7 && case.n == LARGEST_DENSE_SIZE),
];

/// Traits of cases of the kernel; an accepted reply's value is the row of the first zero pivot.
const OF_KERNEL: [TraitOfReply; 9] = [
    ("zero pivot in row 1, N above 4", |case, reply| reply.value == 1 && case.n > 4),
    ("zero pivot in row N, N above 4", |case, reply| reply.value == case.n && case.n > 4),
    ("zero pivot first in a row between, N above 4", |case, reply| reply.value > 1 && reply.value < case.n && case.n > 4),
    ("zero pivot in row 1,024", |_, reply| reply.value == LARGEST_SIZE),
    ("a zero pivot in a matrix that has an inverse", |case, reply| {
        reply.number == 0 && case.n <= 5 && case.table().matrix().rank() == case.n as usize
    }),
    ("a word that is kept is not below P", |case, reply| {
        let kept = reply.value as usize..case.n as usize;
        reply.number == 0 && case.buffer(5).words[kept].iter().any(|&word| word >= case.p)
    }),
    ("regular, N above 4", |case, reply| reply.number == 13 && case.n > 4),
    ("regular, N is 1,024", |case, reply| reply.number == 13 && case.n == LARGEST_SIZE),
    ("the result has room for the column, not for N words", |case, reply| {
        let room = case.buffer(5).words.len();
        reply.number == 4 && case.faults == [Fault::Short(5)] && singular_corner(case).is_some_and(|k| k <= room)
    }),
];

/// Traits of cases of the kernel's check; an accepted reply's value tells whether the column shows that corner k is singular.
const OF_CHECK: [TraitOfReply; 14] = [
    ("shown, k is 1, N above 4", |case, reply| reply.value == 1 && case.k == 1 && case.n > 4),
    ("shown, k is N, N above 4", |case, reply| reply.value == 1 && case.k == case.n && case.n > 4),
    ("shown, k is between, N above 4", |case, reply| reply.value == 1 && case.k > 1 && case.k < case.n && case.n > 4),
    ("shown, k is 1,024", |case, reply| reply.value == 1 && case.k == LARGEST_SIZE),
    ("shown, a later word is not 0", |case, reply| reply.value == 1 && case.column()[case.k as usize..].iter().any(|&x| x != 0)),
    ("shown, an earlier corner is singular too", |case, reply| {
        reply.value == 1 && singular_corner(case).is_some_and(|first| first < case.k as usize)
    }),
    ("not shown, word k is 1, N above 4", |case, reply| is_not_shown(reply) && word_k(case) == 1 && case.n > 4),
    ("not shown, k is 1,024", |case, reply| is_not_shown(reply) && case.k == LARGEST_SIZE),
    ("not shown, sent to zeros, word k is not 1", |case, reply| {
        let k = case.k as usize;
        is_not_shown(reply)
            && case.n <= 12
            && word_k(case) > 1
            && case.table().corner(k).matrix().sends(&case.column()[..k]) == vec![0; k]
    }),
    ("not shown, all words are 0", |case, reply| is_not_shown(reply) && case.column().iter().all(|&x| x == 0)),
    ("a bad word only after word k", |case, reply| (reply.number, reply.buffer) == (5, 3) && reply.row > case.k),
    ("k is 0", |case, reply| reply.number == 8 && case.k == 0),
    ("k is N + 1", |case, reply| reply.number == 8 && case.k == case.n + 1),
    ("k outside, the table is too short", |case, reply| reply.number == 8 && case.faults.contains(&Fault::Short(1))),
];

fn is_not_shown(reply: Reply) -> bool {
    (reply.number, reply.value) == (0, 0)
}

/// Word k of the column of the kernel's check.
fn word_k(case: &Case) -> u32 {
    case.column()[case.k as usize - 1]
}

/// The first singular corner.
fn singular_corner(case: &Case) -> Option<usize> {
    first_zero_pivot(case.table())
}

/// Traits of accepted cases with two primes.
const ACCEPTED_PRIMES: [Trait; 8] = [
    ("the second prime is 2", |case| case.q == 2),
    ("the second prime is 2,147,483,647", |case| case.q == LARGEST_PRIME),
    ("the primes are the largest two", |case| case.p.min(case.q) == 2_147_483_629),
    ("the first prime is below 10, the second above 2³⁰", |case| case.p < 10 && case.q > 1 << 30),
    ("the second prime is below 10, the first above 2³⁰", |case| case.q < 10 && case.p > 1 << 30),
    ("a first residue not below the second prime", |case| case.residues().any(|(x, _)| x >= case.q)),
    ("a second residue not below the first prime", |case| case.residues().any(|(_, y)| y >= case.p)),
    ("surplus not below either prime", |case| has_high_surplus(case, 1) && has_high_surplus(case, 2)),
];

/// Traits of accepted cases with a work buffer.
const ACCEPTED_WORK: [Trait; 2] = [
    ("no work, as NULL", |case| case.buffer(4).null),
    ("no work, not NULL", |case| case.buffer(4).words.is_empty() && !case.buffer(4).null),
];

fn orders_above_1(case: &Case) -> bool {
    case.n > 3 && case.orders[0].0 > 1 && case.orders[0].1 > 1
}

/// Whether the lower orders of the two tables are not 0.
fn lower(case: &Case) -> (bool, bool) {
    (case.orders[0].0 > 0, case.orders[1].0 > 0)
}

fn upper(case: &Case) -> (bool, bool) {
    (case.orders[0].1 > 0, case.orders[1].1 > 0)
}

/// Traits of refused cases.
const REFUSED: [Trait; 3] = [
    ("several faults", |case| case.faults.len() > 1),
    ("an empty buffer", |case| case.buffers.iter().any(|buffer| buffer.words.is_empty() && !buffer.null)),
    ("an empty buffer as NULL", |case| case.buffers.iter().any(|buffer| buffer.null)),
];

/// What a law must have met.
const WAYS_OF_LAWS: [&str; 7] = [
    "dense, both accepted",
    "dense, only solve refused",
    "dense, both refused",
    "corner shown by one column",
    "corner shown by several columns",
    "singular corner, every last word is 0",
    "regular corner",
];

const BAD_FIRST: &str = "bad word first in row 1";
const BAD_LAST: &str = "bad word first in row N";
const ZERO_FIRST: &str = "zero pivot in row 1, N above 1";
const ZERO_LAST: &str = "zero pivot in row N, N above 1";
const ZERO_BETWEEN: &str = "zero pivot first in a row between";
const ZERO_INVERTIBLE: &str = "zero pivot in a matrix that has an inverse";
const SHARED: &str = "a buffer is the first table's memory";

/// Whether a table, the first or the second, has an idle word in row k that is no residue.
fn has_high_idle(case: &Case, number: u32, k: u32) -> bool {
    case.shape(number as usize - 1).idle_places(k as usize).any(|place| case.buffer(number).words[place] >= case.p)
}

/// The same of a file's row k.
fn has_high_idle_in_file(case: &Case, k: usize) -> bool {
    let rows = case.file_rows();
    case.shape(0).idle_places(k).any(|place| rows[place] >= case.p)
}

/// By how many bytes a file is too long, if its head is within limits.
fn surplus_of_file(case: &Case) -> Option<isize> {
    let within = file_head(case).is_none() && size(case).is_none() && orders(case).is_none();
    within.then(|| case.buffer(6).words.len() as isize - case.needed(Holds::ReadFile) as isize)
}

fn has_surplus(case: &Case, buffer: &Buffer) -> bool {
    buffer.words.len() > case.needed(buffer.holds)
}

fn has_high_surplus(case: &Case, number: u32) -> bool {
    let buffer = case.buffer(number);
    buffer.words[case.needed(buffer.holds)..].iter().any(|&word| word >= case.prime_of(buffer.holds))
}

impl Tally {
    /// Counts a case that passed.
    pub fn record(&mut self, call: &Call, case: &Case, reply: Reply) {
        self.passed += 1;
        *self.outcomes.entry((call.name, reply.number, reply.buffer)).or_default() += 1;
        let lists = if reply.number == 0 { accepted(call) } else { vec![&REFUSED[..]] };
        lists.concat().iter().filter(|(_, holds)| holds(case)).for_each(|&(name, _)| self.count(call, name));
        let held = with_reply(call).iter().filter(|(_, holds)| holds(case, reply));
        held.for_each(|&(name, _)| self.count(call, name));
        if reply.number == 5 && reply.row == 1 {
            self.count(call, BAD_FIRST);
        }
        if reply.number == 5 && reply.row == case.n && case.n > 1 {
            self.count(call, BAD_LAST);
        }
        if call.pivots && reply.number == 7 && case.n > 1 {
            let row = [(1, ZERO_FIRST), (case.n, ZERO_LAST)].into_iter().find(|&(row, _)| row == reply.row);
            self.count(call, row.map_or(ZERO_BETWEEN, |(_, name)| name));
        }
        if call.pivots && reply.number == 7 && case.n <= 5 && case.table().matrix().rank() == case.n as usize {
            self.count(call, ZERO_INVERTIBLE);
        }
        if reply.number == 0 && case.buffers.iter().any(|buffer| buffer.shared) {
            self.count(call, SHARED);
        }
        for &one in &case.faults {
            self.pairs.extend(case.faults.iter().map(|&other| (call.name, one, other)));
        }
    }

    /// Adds what another tally counted.
    pub fn add(&mut self, other: Tally) {
        self.passed += other.passed;
        other.outcomes.into_iter().for_each(|(key, count)| *self.outcomes.entry(key).or_default() += count);
        other.traits.into_iter().for_each(|(key, count)| *self.traits.entry(key).or_default() += count);
        self.pairs.extend(other.pairs);
        other.laws.into_iter().for_each(|(name, count)| *self.laws.entry(name).or_default() += count);
    }

    /// Counts a law that held of calls that passed.
    pub fn law(&mut self, name: &'static str) {
        *self.laws.entry(name).or_default() += 1;
    }

    fn count(&mut self, call: &Call, name: &'static str) {
        *self.traits.entry((call.name, name)).or_default() += 1;
    }

    /// Cases by call and outcome.
    pub fn print(&self) {
        for call in CALLS {
            let counts = self.outcomes.iter().filter(|((name, ..), _)| *name == call.name);
            let text: Vec<String> =
                counts.map(|((_, number, buffer), count)| format!("{}: {count}", outcome(*number, *buffer))).collect();
            println!("{:25} {}", call.name, text.join(", "));
        }
        let text: Vec<String> = self.laws.iter().map(|(name, count)| format!("{name}: {count}")).collect();
        println!("{:25} {}", "laws", text.join(", "));
        let mut rare: Vec<_> = self.traits.iter().map(|((call, name), count)| (count, call, name)).collect();
        rare.sort();
        let text: Vec<String> = rare.iter().take(4).map(|(count, call, name)| format!("{call}, {name}: {count}")).collect();
        println!("rarest traits: {}", text.join("; "));
    }

    /// What should have been reached and was not.
    pub fn missing(&self) -> Vec<String> {
        let laws = WAYS_OF_LAWS.iter().filter(|&name| !self.laws.contains_key(name)).map(|name| name.to_string());
        CALLS.iter().flat_map(|call| self.missing_of(call)).chain(laws).collect()
    }

    fn missing_of(&self, call: &Call) -> Vec<String> {
        let outcomes =
            call.outcomes.iter().filter(|&&(number, buffer)| !self.outcomes.contains_key(&(call.name, number, buffer)));
        let traits = traits_of(call).into_iter().filter(|&name| !self.traits.contains_key(&(call.name, name)));
        let pairs = all_pairs(call).into_iter().filter(|&(one, other)| !self.pairs.contains(&(call.name, one, other)));
        outcomes
            .map(|&(number, buffer)| format!("{}: {}", call.name, outcome(number, buffer)))
            .chain(traits.map(|name| format!("{}: {name}", call.name)))
            .chain(pairs.map(|(one, other)| format!("{}: {one:?} with {other:?}", call.name)))
            .collect()
    }
}

fn traits_of(call: &Call) -> Vec<&'static str> {
    let mut names: Vec<&str> = accepted(call).concat().iter().chain(&REFUSED).map(|&(name, _)| name).collect();
    names.extend([BAD_FIRST, BAD_LAST]);
    names.extend(with_reply(call).iter().map(|&(name, _)| name));
    if call.pivots {
        names.extend([ZERO_FIRST, ZERO_LAST, ZERO_BETWEEN, ZERO_INVERTIBLE]);
    }
    if call.buffers.iter().any(|&(number, _)| (2..=3).contains(&number)) {
        names.push(SHARED);
    }
    names
}

/// The traits that look at the reply.
fn with_reply(call: &Call) -> &'static [TraitOfReply] {
    match call.number {
        Number::Prime => &REFUSED_PRIMES,
        Number::Corner => &OF_CHECK,
        _ if call.needs_zero_pivot() => &OF_KERNEL,
        _ if call.reads_file() => &REFUSED_FILE,
        _ if call.is_dense() => &REFUSED_DENSE,
        _ => &[],
    }
}

fn accepted(call: &Call) -> Vec<&'static [Trait]> {
    if call.number == Number::Prime {
        return vec![&ACCEPTED, &ACCEPTED_PRIMES];
    }
    let of_buffer: &[Trait] = if call.reads_file() { &ACCEPTED_FILE } else { &ACCEPTED_TABLE };
    let mut lists: Vec<&[Trait]> = vec![&ACCEPTED, &ACCEPTED_ORDERS, of_buffer];
    if call.tables == 2 {
        lists.push(&ACCEPTED_TWO);
    }
    if call.pivots || call.is_dense() || call.needs_zero_pivot() {
        lists.push(&ACCEPTED_PIVOTS);
    }
    if call.is_dense() {
        lists.push(&ACCEPTED_DENSE);
    }
    if call.buffers.iter().any(|&(_, holds)| holds == Holds::Work) {
        lists.push(&ACCEPTED_WORK);
    }
    lists
}

fn all_pairs(call: &Call) -> Vec<(Fault, Fault)> {
    let faults = faults::all(call);
    faults.iter().flat_map(|&one| faults.iter().map(move |&other| (one, other))).collect()
}

fn outcome(number: u32, buffer: u32) -> String {
    match (number, buffer) {
        (0, _) => "accepted".into(),
        (_, 0) => format!("refused {number}"),
        _ => format!("refused {number} beside {buffer}"),
    }
}
