//! The dense solve: permutations and products of which it is known how they were made, singular matrices, solve beside it, rooms,
//! and words that influence nothing.

use super::{Factor, Laws};
use crate::block::{sum_of_products, Block};
use crate::calls::solve_dense::CALL;
use crate::calls::{solve, Answer};
use crate::case::Case;
use crate::cases;
use crate::faults::{make_singular, SINGULAR_WAYS};
use crate::layout::{Kind, Shape, KINDS};
use crate::refusals::{Reply, LARGEST_DENSE_SIZE, LARGEST_ORDER, LARGEST_PRIME};
use crate::trial::only_accepted;

/// All sets of the call's faults.
pub const FAULT_SETS: u64 = 1 << 10;

/// All permutations of at most four rows, then drawn ones.
pub const PERMUTATIONS: u64 = 33 + 600;

/// Sizes of the singular matrices: to 64, and these.
const MORE_SIZES: [usize; 4] = [100, 129, 255, 256];

/// Each size in each way.
pub const SINGULAR: u64 = (64 + MORE_SIZES.len() as u64) * SINGULAR_WAYS as u64;

/// A table, made so that its first singular corner is known, and whether its whole matrix is singular.
struct Made {
    table: Factor,
    corner: Option<usize>,
    singular: bool,
}

impl Laws {
    /// A permutation's weights, one in each row and column: the solution needs no elimination. With a weight 0 it is singular.
    pub fn dense_permutations(&mut self) -> Result<(), String> {
        let (p, to) = match small_permutation(self.number) {
            Some(to) => (self.random.one_of(&[2, 3, LARGEST_PRIME]), to),
            None => self.draw_permutation_case(),
        };
        let mut weights = self.draw_weights(p, to.len(), None);
        let mut table = self.monomial(p, &to, &weights);
        for _ in 0..3 {
            let x = self.draw_column(p, to.len());
            let column: Vec<u32> = to.iter().zip(&weights).map(|(&j, &weight)| times(p, weight, x[j])).collect();
            self.dense_owes(&table, &column, Some(x))?;
        }
        weights[self.random.below(to.len())] = 0;
        table = self.monomial(p, &to, &weights);
        let column = self.draw_column(p, to.len());
        self.dense_owes(&table, &column, None)
    }

    /// A product of known factors, singular or not, of at most 40 rows.
    pub fn dense_products(&mut self) -> Result<(), String> {
        let n = if self.random.once_in(4) { self.between(13, 40) } else { self.between(1, 12) };
        self.dense_product(n)
    }

    /// The same up to N 256.
    pub fn dense_products_large(&mut self) -> Result<(), String> {
        let n = if self.number.is_multiple_of(4) { self.between(41, 255) } else { LARGEST_DENSE_SIZE as usize };
        self.dense_product(n)
    }

    /// Solve names the first singular corner, or gives the same column; the dense solve gives the known one wherever the matrix is
    /// not singular.
    fn dense_product(&mut self, n: usize) -> Result<(), String> {
        let p = cases::draw_prime(&mut self.random);
        let Made { table, corner, singular } = self.made(p, n);
        let x = self.draw_column(p, n);
        let column = table.sends(&x);
        let case = self.case(&solve::CALL, &[&table], 0, &column);
        match corner {
            Some(row) => self.answers(&solve::CALL, &case, &Answer::refused(Reply::zero_pivot(row)))?,
            None if only_accepted(&solve::CALL, &case)? != x => return Err("solve gives another column".into()),
            None => {}
        }
        self.tally.law(match (singular, corner) {
            (false, None) => "dense, both accepted",
            (false, _) => "dense, only solve refused",
            (true, _) => "dense, both refused",
        });
        self.dense_owes(&table, &column, (!singular).then_some(x))
    }

    /// A lower triangular table times a permutation's weights times an upper triangular one. A diagonal or the weights may have a zero:
    /// then the matrix is singular, and so is each corner from that row on. A corner is singular, too, whose rows the permutation
    /// sends beyond it.
    fn made(&mut self, p: u32, n: usize) -> Made {
        let (most, row) = (self.between(0, LARGEST_ORDER), self.random.below(n));
        let to = self.draw_permutation(n, most);
        let zero = if self.random.once_in(3) { 1 + self.random.below(3) } else { 0 };
        let weights = self.draw_weights(p, n, (zero == 1).then_some(row));
        let middle = self.monomial(p, &to, &weights);
        let (r, s) = (LARGEST_ORDER - middle.shape.r as u32, LARGEST_ORDER - middle.shape.s as u32);
        let (r, s) = (self.random.between(0, r), self.random.between(0, s));
        let (mut lower, mut upper) = (self.draw(p, n, r, 0), self.draw(p, n, 0, s));
        for (side, way) in [(&mut lower, 2), (&mut upper, 3)] {
            let diagonal = self.draw_weights(p, n, (zero == way).then_some(row));
            diagonal.iter().enumerate().for_each(|(k, &d)| side.words[side.shape.places(Kind::D, k + 1).start] = d);
        }
        let moved = (1..=n).find(|&k| to[..k].iter().any(|&j| j >= k));
        let corner = moved.into_iter().chain((zero > 0).then_some(row + 1)).min();
        Made { table: lower.times(&middle).times(&upper), corner, singular: zero > 0 }
    }

    /// Residues other than 0, but for one at the given row.
    fn draw_weights(&mut self, p: u32, n: usize, zero: Option<usize>) -> Vec<u32> {
        (0..n).map(|k| if zero == Some(k) { 0 } else { self.random.between(1, p - 1) }).collect()
    }

    /// Matrices made singular in each way: 7, without a row, and the square all zeros.
    pub fn dense_singular(&mut self) -> Result<(), String> {
        let (place, way) = (self.number as usize / SINGULAR_WAYS, self.number as usize % SINGULAR_WAYS);
        let n = if place < 64 { place + 1 } else { MORE_SIZES[place - 64] };
        let (p, r, s) = (cases::draw_prime(&mut self.random), self.random.between(0, 8), self.random.between(0, 8));
        let mut table = self.draw(p, n, r, s);
        make_singular(p, table.shape, &mut table.words, way, &mut self.random);
        for column in [self.draw_column(p, n), vec![0; n]] {
            self.dense_owes(&table, &column, None)?;
        }
        Ok(())
    }

    /// Tables as they come, regular ones, and with a zero pivot: where solve accepts, so does the dense solve, with the same words.
    pub fn dense_beside_solve(&mut self) -> Result<(), String> {
        let drawn = self.draw_one();
        let (table, _) = self.draw_pivots(drawn);
        let column = self.draw_column(table.p, table.shape.n);
        let (swept, dense) = (self.call(&solve::CALL, &[&table], 0, &column)?, self.call(&CALL, &[&table], 0, &column)?);
        if swept.is_some() && swept != dense {
            return Err(format!("solve gives {swept:?}, the dense solve {dense:?}"));
        }
        Ok(())
    }

    /// The same of regular tables up to N 256.
    pub fn dense_beside_solve_large(&mut self) -> Result<(), String> {
        let n = if self.number.is_multiple_of(2) { LARGEST_DENSE_SIZE as usize } else { self.between(41, 255) };
        let (p, r, s) = (cases::draw_prime(&mut self.random), self.random.between(0, 8), self.random.between(0, 8));
        let table = self.draw_regular(p, n, r, s);
        let column = self.draw_column(p, n);
        let case = self.case(&solve::CALL, &[&table], 0, &column);
        let swept = only_accepted(&solve::CALL, &case)?;
        self.dense_owes(&table, &column, Some(swept))
    }

    /// Idle words, words past the N rows, surplus, and what lies in the square and the result beforehand: nothing follows from them.
    pub fn dense_influence(&mut self) -> Result<(), String> {
        let case = self.draw_dense_case();
        self.influence(&CALL, &case)
    }

    /// Exact rooms are enough, and a word less in any set of buffers is refused.
    pub fn dense_rooms(&mut self) -> Result<(), String> {
        let case = self.draw_dense_case();
        self.rooms(&CALL, &case)
    }

    /// Every set of faults, planted in a case of its own: the first cause in the order of the checks decides.
    pub fn dense_fault_sets(&mut self) -> Result<(), String> {
        self.fault_set(&CALL, FAULT_SETS)
    }

    /// A table as it comes or regular, with exact buffers.
    fn draw_dense_case(&mut self) -> Case {
        let (p, n) = (cases::draw_prime(&mut self.random), self.between(1, 24));
        let (r, s) = (self.random.between(0, 8), self.random.between(0, 8));
        let table = if self.random.once_in(2) { self.draw(p, n, r, s) } else { self.draw_regular(p, n, r, s) };
        let column = self.draw_column(p, n);
        self.case(&CALL, &[&table], 0, &column)
    }

    /// The dense solve gives this column, or refuses a singular matrix.
    fn dense_owes(&mut self, table: &Factor, column: &[u32], solution: Option<Vec<u32>>) -> Result<(), String> {
        let mut case = self.case(&CALL, &[table], 0, column);
        cases::add_surplus(&mut case, &mut self.random);
        self.answers(&CALL, &case, &Answer::dense(column.len(), solution))
    }

    fn draw_permutation_case(&mut self) -> (u32, Vec<usize>) {
        let n = if self.random.once_in(20) { self.between(41, LARGEST_DENSE_SIZE) } else { self.between(2, 40) };
        let most = self.between(1, LARGEST_ORDER);
        (cases::draw_prime(&mut self.random), self.draw_permutation(n, most))
    }

    /// The column of each row. Across each row so many rows' at most go to the right, and as many to the left: all move around, or
    /// stretches of rows change places among themselves.
    fn draw_permutation(&mut self, n: usize, most: usize) -> Vec<usize> {
        if self.random.once_in(4) {
            return (0..n).map(|i| (i + most) % n).collect();
        }
        let mut to: Vec<usize> = (0..n).collect();
        for stretch in to.chunks_mut(2 * most.max(1)).filter(|_| most > 0) {
            match self.random.below(4) {
                0 => {}
                1 => stretch.reverse(),
                _ => (1..stretch.len()).for_each(|last| stretch.swap(last, self.random.below(last + 1))),
            }
        }
        to
    }

    /// The table of the matrix with the weight of each row in the given column. Below the diagonal a column is held, from its own
    /// row to the one that has it, in a place of the state; above it a row, to its column.
    fn monomial(&mut self, p: u32, to: &[usize], weights: &[u32]) -> Factor {
        let n = to.len();
        let mut from = vec![0; n];
        to.iter().enumerate().for_each(|(i, &j)| from[j] = i);
        let ((lower, r), (upper, s)) = (held(&from), held(to));
        let shape = Shape { n, r, s };
        let mut words = vec![0; shape.table_words()];
        let unit = |order, place, x| Block::new(p, 1, order, |_, y| if place == Some(y) { x } else { 0 });
        let kept = |order, left| Block::new(p, order, order, |x, y| u32::from(x == y && left != Some(x)));
        for (k, &weight) in weights.iter().enumerate() {
            let (below, above) = (lower[to[k]], upper[from[k]]);
            let d = if to[k] == k { weight } else { 0 };
            let (d, p, q) = (Block::new(p, 1, 1, |_, _| d), unit(r, below, weight), unit(r, lower[k], 1));
            let row = [d, p, kept(r, below), q, unit(s, upper[k], weight), kept(s, above), unit(s, above, 1)];
            for (kind, block) in KINDS.into_iter().zip(row) {
                words[shape.places(kind, k + 1)].copy_from_slice(&block.residues);
            }
        }
        cases::fill_idle(&mut words, p, shape, &mut self.random);
        Factor { p, shape, words }
    }
}

impl Factor {
    /// The column that the matrix sends x to, row by row.
    fn sends(&self, x: &[u32]) -> Vec<u32> {
        let row = |i| sum_of_products(self.table().row(i).into_iter().zip(x.iter().copied()), self.p);
        (1..=self.shape.n).map(row).collect()
    }
}

fn times(p: u32, x: u32, y: u32) -> u32 {
    sum_of_products([(x, y)].into_iter(), p)
}

/// For each row whose end lies after it a place, which is free again at its end; and how many places there are.
fn held(ends: &[usize]) -> (Vec<Option<usize>>, usize) {
    let mut until = vec![];
    let mut place = |k: usize, end: usize| {
        let place = until.iter().position(|&other| other <= k).unwrap_or(until.len());
        until.resize(until.len().max(place + 1), 0);
        until[place] = end;
        place
    };
    let places = ends.iter().enumerate().map(|(k, &end)| (end > k).then(|| place(k, end))).collect();
    (places, until.len())
}

/// The permutation of at most four rows that has this number.
fn small_permutation(mut number: u64) -> Option<Vec<usize>> {
    for (n, count) in [(1, 1), (2, 2), (3, 6), (4, 24)] {
        if number < count {
            let mut left: Vec<usize> = (0..n).collect();
            let mut take = |choices: usize| {
                let place = number as usize % choices;
                number /= choices as u64;
                left.remove(place)
            };
            return Some((1..=n).rev().map(&mut take).collect());
        }
        number -= count;
    }
    None
}
