//! Calls one after another: each takes the tables that the calls before it left. What they come to is compared as matrices.

use crate::block::sum_of_two;
use crate::calls::{apply, inverse, multiple, product, solve, sum, transpose, Answer, Call};
use crate::case::{Buffer, Case, Fault, Holds};
use crate::cases;
use crate::dense::{Matrix, Table, LITERAL_SIZE};
use crate::faults;
use crate::layout::Shape;
use crate::random::Random;
use crate::refusals::{Reply, LARGEST_ORDER, LARGEST_PRIME};
use crate::tally::Tally;
use crate::trial::{compare, ended, only_accepted, owed, trial};

mod dense;
mod drawn;
mod files;
mod fractions;
mod identities;
mod inverses;
mod kernel;
mod singular;
mod small;

/// A law: its name, how many times it is tried, and a trial.
pub struct Law {
    pub name: &'static str,
    pub times: u64,
    run: fn(&mut Laws) -> Result<(), String>,
}

pub const LAWS: [Law; 60] = [
    Law { name: "groupings", times: 180, run: Laws::groupings },
    Law { name: "product_by_sum", times: 200, run: Laws::product_by_sum },
    Law { name: "multiples", times: 200, run: Laws::multiples },
    Law { name: "identity", times: 200, run: Laws::identity },
    Law { name: "apply_twice", times: 200, run: Laws::apply_twice },
    Law { name: "apply_twice_large", times: 24, run: Laws::apply_twice_large },
    Law { name: "solve_and_apply", times: 300, run: Laws::solve_and_apply },
    Law { name: "solve_and_apply_large", times: 24, run: Laws::solve_and_apply_large },
    Law { name: "large_words", times: 8, run: Laws::large_words },
    Law { name: "inverse_and_product", times: 200, run: Laws::inverse_and_product },
    Law { name: "inverse_transposed", times: 200, run: Laws::inverse_transposed },
    Law { name: "inverse_of_multiple", times: 200, run: Laws::inverse_of_multiple },
    Law { name: "inverse_of_product", times: 2_100, run: Laws::inverse_of_product },
    Law { name: "inverse_of_product_large", times: 35, run: Laws::inverse_of_product_large },
    Law { name: "inverse_twice", times: 2_100, run: Laws::inverse_twice },
    Law { name: "inverse_twice_large", times: 35, run: Laws::inverse_twice_large },
    Law { name: "transposed_product", times: 2_100, run: Laws::transposed_product },
    Law { name: "transposed_product_large", times: 35, run: Laws::transposed_product_large },
    Law { name: "transposed_pivots", times: 2_100, run: Laws::transposed_pivots },
    Law { name: "transposed_pivots_large", times: 35, run: Laws::transposed_pivots_large },
    Law { name: "solve_through", times: 2_100, run: Laws::solve_through },
    Law { name: "solve_through_large", times: 35, run: Laws::solve_through_large },
    Law { name: "singular_rows", times: 64, run: Laws::singular_rows },
    Law { name: "singular_rows_large", times: 8, run: Laws::singular_rows_large },
    Law { name: "small_matrices", times: small::PARTS, run: Laws::small_matrices },
    Law { name: "small_tables", times: small::PARTS, run: Laws::small_tables },
    Law { name: "round_trips", times: 400, run: Laws::round_trips },
    Law { name: "round_trips_large", times: 12, run: Laws::round_trips_large },
    Law { name: "damaged_files", times: 8_000, run: Laws::damaged_files },
    Law { name: "exchanged_records", times: 200, run: Laws::exchanged_records },
    Law { name: "flipped_bits", times: 24, run: Laws::flipped_bits },
    Law { name: "file_lengths", times: 18, run: Laws::file_lengths },
    Law { name: "every_chain", times: files::PARTS, run: Laws::every_chain },
    Law { name: "every_word", times: 60, run: Laws::every_word },
    Law { name: "small_fractions", times: fractions::SMALL_PAIRS, run: Laws::small_fractions },
    Law { name: "middling_fractions", times: 6_000, run: Laws::middling_fractions },
    Law { name: "large_fractions", times: 6_000, run: Laws::large_fractions },
    Law { name: "extreme_fractions", times: fractions::EXTREME_PAIRS, run: Laws::extreme_fractions },
    Law { name: "places_without", times: 70, run: Laws::places_without },
    Law { name: "bad_residues", times: 60, run: Laws::bad_residues },
    Law { name: "fault_sets", times: fractions::FAULT_SETS, run: Laws::fault_sets },
    Law { name: "dense_small", times: small::PARTS, run: Laws::dense_small },
    Law { name: "dense_permutations", times: dense::PERMUTATIONS, run: Laws::dense_permutations },
    Law { name: "dense_products", times: 3_000, run: Laws::dense_products },
    Law { name: "dense_products_large", times: 32, run: Laws::dense_products_large },
    Law { name: "dense_singular", times: dense::SINGULAR, run: Laws::dense_singular },
    Law { name: "dense_beside_solve", times: 2_100, run: Laws::dense_beside_solve },
    Law { name: "dense_beside_solve_large", times: 24, run: Laws::dense_beside_solve_large },
    Law { name: "dense_influence", times: 300, run: Laws::dense_influence },
    Law { name: "dense_rooms", times: 60, run: Laws::dense_rooms },
    Law { name: "dense_fault_sets", times: dense::FAULT_SETS, run: Laws::dense_fault_sets },
    Law { name: "kernel_rows", times: kernel::ROWS, run: Laws::kernel_rows },
    Law { name: "kernel_rows_large", times: singular::PLACES.len() as u64, run: Laws::kernel_rows_large },
    Law { name: "kernel_small", times: small::PARTS, run: Laws::kernel_small },
    Law { name: "kernel_beside_solve", times: 2_100, run: Laws::kernel_beside_solve },
    Law { name: "corners_shown", times: 900, run: Laws::corners_shown },
    Law { name: "kernel_influence", times: 300, run: Laws::kernel_influence },
    Law { name: "kernel_rooms", times: 60, run: Laws::kernel_rooms },
    Law { name: "kernel_fault_sets", times: kernel::FAULT_SETS, run: Laws::kernel_fault_sets },
    Law { name: "kernel_check_fault_sets", times: kernel::CHECK_FAULT_SETS, run: Laws::kernel_check_fault_sets },
];

impl Law {
    /// The trial that belongs to a number, always the same.
    pub fn trial(&self, number: u64, tally: &mut Tally) -> Result<(), String> {
        let mut laws = Laws { tally: Tally::default(), number, random: Random::named(self.name, number) };
        let ended = (self.run)(&mut laws).map(|()| laws.tally.law(self.name));
        tally.add(laws.tally);
        ended.map_err(|account| format!("{} {number}: {account}", self.name))
    }
}

/// A table as it was drawn, or as a call left it.
#[derive(Clone)]
struct Factor {
    p: u32,
    shape: Shape,
    words: Vec<u32>,
}

impl Factor {
    fn matrix(&self) -> Matrix {
        Table { p: self.p, shape: self.shape, words: &self.words }.matrix()
    }

    fn orders(&self) -> (u32, u32) {
        (self.shape.r as u32, self.shape.s as u32)
    }
}

/// A trial under way.
struct Laws {
    tally: Tally,
    number: u64,
    random: Random,
}

impl Laws {
    /// Every grouping of every stretch of a list stands for the dense product of that stretch.
    fn groupings(&mut self) -> Result<(), String> {
        let (p, n, count) = (cases::draw_prime(&mut self.random), self.between(1, 7), 1 + self.number as usize % 6);
        let most = if self.number % 5 == 4 { LARGEST_ORDER + 2 } else { LARGEST_ORDER };
        let (rs, ss) = (self.split(most, count), self.split(most, count));
        let factors: Vec<Factor> = (0..count).map(|k| self.draw(p, n, rs[k], ss[k])).collect();
        let mut grouped = vec![];
        for (length, first) in (1..=count).flat_map(|length| (0..=count - length).map(move |first| (length, first))) {
            let matrices = factors[first..first + length].iter().map(Factor::matrix);
            let owed = matrices.reduce(|product, matrix| product.times(&matrix)).expect("a factor");
            let all = self.group(&factors, &grouped, first, length)?;
            same("a grouping", &all, &owed)?;
            grouped.push(((first, length), all));
        }
        Ok(())
    }

    /// All groupings of a stretch of the list, of those of its two parts; those with a refused call are left out.
    fn group(&mut self, list: &[Factor], known: &[Groupings], first: usize, length: usize) -> Result<Vec<Factor>, String> {
        if length == 1 {
            return Ok(vec![list[first].clone()]);
        }
        let of = |stretch| &known.iter().find(|(other, _)| *other == stretch).expect("shorter stretches come first").1;
        let mut all = vec![];
        for cut in 1..length {
            for left in of((first, cut)) {
                for right in of((first + cut, length - cut)) {
                    all.extend(self.join(&product::CALL, left, right)?);
                }
            }
        }
        Ok(all)
    }

    /// A(B + C) is AB + AC, and (B + C)A is BA + CA.
    fn product_by_sum(&mut self) -> Result<(), String> {
        let (p, n) = (cases::draw_prime(&mut self.random), self.between(1, 10));
        let (rs, ss) = (self.split(LARGEST_ORDER, 4), self.split(LARGEST_ORDER, 4));
        let (ra, sa) = (rs[0].min(rs[1]), ss[0].min(ss[1]));
        let (a, b, c) = (self.draw(p, n, ra, sa), self.draw(p, n, rs[2], ss[2]), self.draw(p, n, rs[3], ss[3]));
        let both = self.accepted(&sum::CALL, &b, &c)?;
        let (left, right) = (self.accepted(&product::CALL, &a, &both)?, self.accepted(&product::CALL, &both, &a)?);
        let (ab, ac) = (self.accepted(&product::CALL, &a, &b)?, self.accepted(&product::CALL, &a, &c)?);
        let (ba, ca) = (self.accepted(&product::CALL, &b, &a)?, self.accepted(&product::CALL, &c, &a)?);
        let (by_left, by_right) = (self.accepted(&sum::CALL, &ab, &ac)?, self.accepted(&sum::CALL, &ba, &ca)?);
        let dense = b.matrix().plus(&c.matrix());
        same("A(B + C)", &[left, by_left], &a.matrix().times(&dense))?;
        same("(B + C)A", &[right, by_right], &dense.times(&a.matrix()))
    }

    /// cA times B, and A times cB, is c times AB; cA + cB is c times A + B.
    fn multiples(&mut self) -> Result<(), String> {
        let (a, b) = self.draw_two(12);
        let c = self.random.between(0, a.p - 1);
        let (ca, cb) = (self.multiple(c, &a)?, self.multiple(c, &b)?);
        for (call, ways) in [(&product::CALL, vec![(&ca, &b), (&a, &cb)]), (&sum::CALL, vec![(&ca, &cb)])] {
            let plain = self.accepted(call, &a, &b)?;
            let multiple = self.multiple(c, &plain)?;
            let owed = multiple.matrix();
            for (left, right) in ways {
                let found = self.accepted(call, left, right)?;
                same(call.name, &[found], &owed)?;
            }
        }
        Ok(())
    }

    /// A times the identity, the identity times A, and A plus zero stand for A; A times zero, for zero.
    fn identity(&mut self) -> Result<(), String> {
        let (a, _) = self.draw_two(12);
        let (n, w) = (a.shape.n, Shape { r: 0, s: 0, ..a.shape });
        let diagonal = |residue| Factor { p: a.p, shape: w, words: vec![residue; n] };
        let (one, zero) = (diagonal(1), diagonal(0));
        let (left, right) = (self.accepted(&product::CALL, &one, &a)?, self.accepted(&product::CALL, &a, &one)?);
        let (below, above) = (self.accepted(&sum::CALL, &a, &zero)?, self.accepted(&sum::CALL, &zero, &a)?);
        same("A with the identity or zero", &[left, right, below, above], &a.matrix())?;
        let nothing = self.accepted(&product::CALL, &a, &zero)?;
        same("A times zero", &[nothing], &zero.matrix())
    }

    /// The product sends a column where the second table and then the first send it; the sum, to the sum of both.
    fn apply_twice(&mut self) -> Result<(), String> {
        let (a, b) = self.draw_two(40);
        self.sends_alike(&a, &b)
    }

    /// The same at N 1,024.
    fn apply_twice_large(&mut self) -> Result<(), String> {
        const ORDERS: [[u32; 4]; 6] = [[1, 1, 1, 1], [4, 4, 4, 4], [8, 0, 0, 8], [0, 8, 8, 0], [2, 5, 6, 3], [8, 8, 0, 0]];
        let [r1, s1, r2, s2] = ORDERS[self.number as usize % ORDERS.len()];
        let p = if self.number < 12 { LARGEST_PRIME } else { cases::draw_prime(&mut self.random) };
        let (a, b) = (self.draw(p, 1024, r1, s1), self.draw(p, 1024, r2, s2));
        self.sends_alike(&a, &b)
    }

    fn sends_alike(&mut self, a: &Factor, b: &Factor) -> Result<(), String> {
        let p = a.p;
        let x = self.draw_column(p, a.shape.n);
        let (product, sum) = (self.accepted(&product::CALL, a, b)?, self.accepted(&sum::CALL, a, b)?);
        let (ax, bx) = (self.applied(a, &x)?, self.applied(b, &x)?);
        let added: Vec<u32> = ax.iter().zip(&bx).map(|(&x, &y)| sum_of_two(x, y, p)).collect();
        let tables = format!("P {p} N {} orders {:?} {:?}", x.len(), a.orders(), b.orders());
        if self.applied(&product, &x)? != self.applied(a, &bx)? {
            return Err(format!("the product sends a column elsewhere: {tables}"));
        }
        if self.applied(&sum, &x)? != added {
            return Err(format!("the sum sends a column elsewhere: {tables}"));
        }
        Ok(())
    }

    fn between(&mut self, first: u32, last: u32) -> usize {
        self.random.between(first, last) as usize
    }

    /// So many orders that add up to the most or less.
    fn split(&mut self, most: u32, count: usize) -> Vec<u32> {
        let mut orders = vec![0; count];
        for _ in 0..most {
            if !self.random.once_in(6) {
                orders[self.random.below(count)] += 1;
            }
        }
        orders.iter().map(|&order: &u32| order.min(LARGEST_ORDER)).collect()
    }

    fn draw(&mut self, p: u32, n: usize, r: u32, s: u32) -> Factor {
        let shape = Shape { n, r: r as usize, s: s as usize };
        Factor { p, shape, words: cases::draw_table(p, shape, &mut self.random) }
    }

    fn draw_column(&mut self, p: u32, n: usize) -> Vec<u32> {
        (0..n).map(|_| self.random.between(0, p - 1)).collect()
    }

    fn draw_two(&mut self, largest_size: u32) -> (Factor, Factor) {
        let (p, n) = (cases::draw_prime(&mut self.random), self.between(1, largest_size));
        let (rs, ss) = (self.split(LARGEST_ORDER, 2), self.split(LARGEST_ORDER, 2));
        (self.draw(p, n, rs[0], ss[0]), self.draw(p, n, rs[1], ss[1]))
    }

    /// A case that is made of tables as they are.
    fn case(&mut self, call: &Call, tables: &[&Factor], c: u32, column: &[u32]) -> Case {
        let (p, n) = (tables[0].p, tables[0].shape.n as u32);
        let orders = tables.iter().map(|table| table.orders()).collect();
        let mut case = Case { p, q: 1, n, orders, place: (1, 1), k: 1, c, buffers: vec![], faults: vec![] };
        for &(number, holds) in call.buffers {
            let words = match (number, holds) {
                (4 | 5, _) => (0..case.needed(holds)).map(|_| self.random.word()).collect(),
                (_, Holds::Table(which)) => tables[which].words.clone(),
                _ => column.to_vec(),
            };
            case.buffers.push(Buffer::new(number, holds, words));
        }
        case
    }

    /// Runs it; the result's words where it is accepted.
    fn call(&mut self, call: &Call, tables: &[&Factor], c: u32, column: &[u32]) -> Result<Option<Vec<u32>>, String> {
        let case = self.case(call, tables, c, column);
        if call.tables == 1 && case.n as usize > LITERAL_SIZE {
            return only_accepted(call, &case).map(Some);
        }
        let (reply, lent) = ended(call, &case)?;
        self.tally.record(call, &case, reply);
        Ok((reply.number == 0).then(|| lent.words(5).to_vec()))
    }

    /// Runs a case of which the answer is known.
    fn answers(&mut self, call: &Call, case: &Case, owed: &Answer) -> Result<(), String> {
        compare(call, case, owed)?;
        self.tally.record(call, case, owed.reply);
        Ok(())
    }

    /// The set of faults that belongs to the trial's number, of all sets, planted in a case of its own.
    fn fault_set(&mut self, call: &Call, sets: u64) -> Result<(), String> {
        let all = faults::all(call);
        assert_eq!(1 << all.len(), sets);
        let mut faults: Vec<Fault> =
            (0..all.len()).filter(|place| self.number >> place & 1 == 1).map(|place| all[place]).collect();
        faults.sort();
        let mut case = cases::sound(call, &mut self.random);
        cases::add_surplus(&mut case, &mut self.random);
        let case = cases::with_faults(case, faults, &mut self.random);
        self.tried(call, &case).map(|_| ())
    }

    /// Runs a case and compares it with the dense answer.
    fn tried(&mut self, call: &Call, case: &Case) -> Result<Reply, String> {
        let reply = trial(call, case)?;
        self.tally.record(call, case, reply);
        Ok(reply)
    }

    /// The case with other idle words, other words past the N rows, other surplus, and other words in what is written: nothing
    /// follows from them.
    fn influence(&mut self, call: &Call, case: &Case) -> Result<(), String> {
        let owed = owed(call, case);
        self.answers(call, case, &owed)?;
        for _ in 0..4 {
            let mut other = case.clone();
            let (p, shape) = (case.p, case.shape(0));
            cases::fill_idle(&mut other.buffer_mut(1).words, p, shape, &mut self.random);
            for buffer in other.buffers.iter_mut().filter(|buffer| !buffer.is_read()) {
                buffer.words.iter_mut().for_each(|word| *word = self.random.word());
            }
            cases::add_surplus(&mut other, &mut self.random);
            self.answers(call, &other, &owed)?;
        }
        Ok(())
    }

    /// The case, whose rooms are exact, and with a word less in any set of buffers.
    fn rooms(&mut self, call: &Call, case: &Case) -> Result<(), String> {
        for set in 0..1 << case.buffers.len() {
            let mut other = case.clone();
            let short = |(place, buffer): (usize, &mut Buffer)| {
                let words = buffer.words.len() - (set >> place & 1);
                buffer.words.truncate(words);
            };
            other.buffers.iter_mut().enumerate().for_each(short);
            self.tried(call, &other)?;
        }
        Ok(())
    }

    /// The sum or product of two tables, where it is accepted.
    fn join(&mut self, call: &Call, left: &Factor, right: &Factor) -> Result<Option<Factor>, String> {
        let shape = left.shape.joined(right.shape);
        let words = self.call(call, &[left, right], 0, &[])?;
        Ok(words.map(|words| Factor { p: left.p, shape, words }))
    }

    fn accepted(&mut self, call: &Call, left: &Factor, right: &Factor) -> Result<Factor, String> {
        self.join(call, left, right)?.ok_or_else(|| format!("{} refuses orders that add up to at most 8", call.name))
    }

    fn transposed(&mut self, table: &Factor) -> Result<Factor, String> {
        let shape = Shape { r: table.shape.s, s: table.shape.r, ..table.shape };
        let words = self.call(&transpose::CALL, &[table], 0, &[])?.expect("transpose accepts");
        Ok(Factor { p: table.p, shape, words })
    }

    fn multiple(&mut self, c: u32, table: &Factor) -> Result<Factor, String> {
        let words = self.call(&multiple::CALL, &[table], c, &[])?.expect("multiple accepts");
        Ok(Factor { words, ..table.clone() })
    }

    fn applied(&mut self, table: &Factor, column: &[u32]) -> Result<Vec<u32>, String> {
        Ok(self.call(&apply::CALL, &[table], 0, column)?.expect("apply accepts"))
    }

    /// The column that a table without zero pivots sends to the given one.
    fn solved(&mut self, table: &Factor, column: &[u32]) -> Result<Vec<u32>, String> {
        self.call(&solve::CALL, &[table], 0, column)?.ok_or_else(|| "solve refuses a table without zero pivots".into())
    }

    fn inverted(&mut self, table: &Factor) -> Result<Factor, String> {
        let words = self.call(&inverse::CALL, &[table], 0, &[])?;
        let words = words.ok_or("inverse refuses a table without zero pivots")?;
        Ok(Factor { words, ..*table })
    }
}

/// A stretch of a list, by its first place and its length, and the tables of all its groupings.
type Groupings = ((usize, usize), Vec<Factor>);

fn same(what: &str, tables: &[Factor], owed: &Matrix) -> Result<(), String> {
    tables.iter().try_for_each(|table| table.matrix().compare(owed).map_err(|account| format!("{what}: {account}")))
}
