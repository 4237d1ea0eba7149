//! The kernel and its check: zero pivots in every row, columns that are wrong in a word, other corners, solve and inverse beside
//! it, rooms, and words that influence nothing.

use super::singular::PLACES;
use super::{Factor, Laws};
use crate::block::{sum_of_products, sum_of_two};
use crate::calls::kernel_check::CALL as CHECK;
use crate::calls::{inverse, kernel::CALL, solve, Answer, Call};
use crate::case::{Case, Fault};
use crate::cases;
use crate::dense::Matrix;
use crate::faults::{self, make_singular, SINGULAR_WAYS};
use crate::refusals::{Reply, LARGEST_PRIME};

/// All sets of the kernel's faults, and of its check's.
pub const FAULT_SETS: u64 = 1 << 7;
pub const CHECK_FAULT_SETS: u64 = 1 << 8;

/// To this size every row has the zero pivot by turns.
const SIZES: u64 = 40;

/// Each size with these primes, then with a drawn one.
const PRIMES: [u32; 3] = [2, 3, LARGEST_PRIME];
pub const ROWS: u64 = SIZES * (PRIMES.len() as u64 + 1);

impl Laws {
    /// Every row of a table of each size to 40.
    pub fn kernel_rows(&mut self) -> Result<(), String> {
        let (round, n) = (self.number / SIZES, self.number % SIZES + 1);
        let drawn = cases::draw_prime(&mut self.random);
        let p = PRIMES.get(round as usize).copied().unwrap_or(drawn);
        let (r, s) = (self.random.between(0, 8), self.random.between(0, 8));
        let drawn = self.draw(p, n as usize, r, s);
        let matrix = drawn.matrix();
        (1..=n as usize).try_for_each(|k| self.kernel_at(&drawn, &matrix, k))
    }

    /// Some rows of tables of 1,024.
    pub fn kernel_rows_large(&mut self) -> Result<(), String> {
        let (row, r, s) = PLACES[self.number as usize];
        let p = if self.number.is_multiple_of(2) { 3 } else { LARGEST_PRIME };
        let drawn = self.draw(p, 1024, r, s);
        let matrix = drawn.matrix();
        self.kernel_at(&drawn, &matrix, row)
    }

    /// The table with its first zero pivot at row k: the kernel is the dense one, solve and inverse name its row, the check knows it.
    fn kernel_at(&mut self, drawn: &Factor, matrix: &Matrix, k: usize) -> Result<(), String> {
        let table = self.with_zero_pivot(drawn, k);
        let matrix = table.with_own_diagonal(matrix);
        let shown = matrix.kernel().expect("a corner is singular");
        assert_eq!(shown.len(), k, "the dense program finds another row");
        let mut case = self.case(&CALL, &[&table], 0, &[]);
        cases::add_surplus(&mut case, &mut self.random);
        self.answers(&CALL, &case, &Answer::kernel(Some(shown.clone())))?;
        self.refused_at(&table, k)?;
        self.known_by_check(&table, &matrix, &shown)
    }

    /// The check passes the kernel's own column, whatever residues follow it, but neither with another word nor doubled nor for the
    /// corner before. A later word that is no residue is refused.
    fn known_by_check(&mut self, table: &Factor, matrix: &Matrix, shown: &[u32]) -> Result<(), String> {
        let (p, n, k) = (table.p, table.shape.n, shown.len());
        self.shows(table, k, &[shown, &vec![0; n - k]].concat(), true)?;
        let column = [shown, &self.draw_column(p, n - k)].concat();
        self.shows(table, k, &column, true)?;
        for place in self.some_places(k) {
            let other = sum_of_two(column[place], self.random.between(1, p - 1), p);
            self.shows(table, k, &with(&column, place, other), false)?;
        }
        for last in [0, 2].into_iter().filter(|&last| last < p) {
            self.shows(table, k, &with(&column, k - 1, last), false)?;
        }
        let double: Vec<u32> = column.iter().map(|&x| sum_of_two(x, x, p)).collect();
        self.shows(table, k, &double, false)?;
        for k in [k - 1, k + 1].into_iter().filter(|k| (1..=n).contains(k)) {
            let words = with(&column, k - 1, 1);
            self.shows(table, k, &column, matrix.shows(k, &column))?;
            self.shows(table, k, &words, matrix.shows(k, &words))?;
        }
        self.refused_by_check(table, &column, k)
    }

    /// 8 for 0 and for N + 1, and 5 for a later word not below P.
    fn refused_by_check(&mut self, table: &Factor, column: &[u32], k: usize) -> Result<(), String> {
        let (p, n) = (table.p, table.shape.n);
        for k in [0, n as u32 + 1] {
            let case = Case { k, ..self.case(&CHECK, &[table], 0, column) };
            self.answers(&CHECK, &case, &Answer::refused(Reply { number: 8, ..Reply::accepted(0) }))?;
        }
        for place in [k, n - 1].into_iter().filter(|&place| place >= k && place < n) {
            let bad = with(column, place, self.random.between(p, u32::MAX));
            let case = Case { k: k as u32, ..self.case(&CHECK, &[table], 0, &bad) };
            let reply = Reply { number: 5, buffer: 3, row: place as u32 + 1, value: 0 };
            self.answers(&CHECK, &case, &Answer::refused(reply))?;
        }
        Ok(())
    }

    /// All places of a small column, some of a large one.
    fn some_places(&mut self, k: usize) -> Vec<usize> {
        if k as u64 <= SIZES {
            (0..k).collect()
        } else {
            (0..8).map(|_| self.random.below(k)).chain([0, k - 1]).collect()
        }
    }

    /// Tables as they come, regular ones, and with a zero pivot: 13 where solve and inverse accept, and the row where they give 7.
    pub fn kernel_beside_solve(&mut self) -> Result<(), String> {
        let drawn = self.draw_one();
        let (table, _) = self.draw_pivots(drawn);
        let column = self.draw_column(table.p, table.shape.n);
        let mut reply = |call: &Call| {
            let case = self.case(call, &[&table], 0, &column);
            self.tried(call, &case)
        };
        let kernel = reply(&CALL)?;
        for call in [&solve::CALL, &inverse::CALL] {
            let came = reply(call)?;
            let owed = if came.number == 7 { Reply::accepted(came.row) } else { Reply::regular() };
            if kernel != owed {
                return Err(format!("{} gives {came}, the kernel {kernel}", call.name));
            }
        }
        Ok(())
    }

    /// Every corner of a table of which several are singular, mostly, and every column that shows it, or nearly does.
    pub fn corners_shown(&mut self) -> Result<(), String> {
        let (p, n) = (cases::draw_prime(&mut self.random), self.between(1, 14));
        let (r, s) = (self.random.between(0, 4), self.random.between(0, 4));
        let mut table = self.draw(p, n, r, s);
        for _ in 0..self.number % 3 {
            let way = self.random.below(SINGULAR_WAYS);
            make_singular(p, table.shape, &mut table.words, way, &mut self.random);
        }
        let matrix = table.matrix();
        (1..=n).try_for_each(|k| self.corner_shown(&table, &matrix, k))
    }

    fn corner_shown(&mut self, table: &Factor, matrix: &Matrix, k: usize) -> Result<(), String> {
        let p = table.p;
        let nulls = matrix.corner(k).null_columns();
        let later = self.draw_column(p, table.shape.n - k);
        let Some((last, others)) = nulls.split_last() else {
            self.tally.law("regular corner");
            let column = with(&self.draw_column(p, table.shape.n), k - 1, 1);
            return self.shows(table, k, &column, false);
        };
        let mut sum = last.clone();
        for other in others {
            let factor = self.random.between(0, p - 1);
            sum.iter_mut().zip(other).for_each(|(x, &y)| *x = sum_of_products([(factor, y), (1, *x)].into_iter(), p));
        }
        let column = [sum, later].concat();
        self.tally.law(match (last[k - 1], others.len()) {
            (1, 0) => "corner shown by one column",
            (1, _) => "corner shown by several columns",
            _ => "singular corner, every last word is 0",
        });
        self.shows(table, k, &column, last[k - 1] == 1)?;
        self.shows(table, k, &with(&column, k - 1, 1), last[k - 1] == 1)?;
        let factor = self.random.between(0, p - 1);
        let multiple: Vec<u32> = column.iter().map(|&x| sum_of_products([(factor, x)].into_iter(), p)).collect();
        self.shows(table, k, &multiple, factor == 1 && last[k - 1] == 1)?;
        let place = self.random.below(k);
        let other = with(&column, place, self.random.between(0, p - 1));
        self.shows(table, k, &other, matrix.shows(k, &other))
    }

    /// The check of corner k and a column is accepted with this value.
    fn shows(&mut self, table: &Factor, k: usize, column: &[u32], shown: bool) -> Result<(), String> {
        let mut case = Case { k: k as u32, ..self.case(&CHECK, &[table], 0, column) };
        cases::add_surplus(&mut case, &mut self.random);
        self.answers(&CHECK, &case, &Answer::value(u32::from(shown)))
    }

    /// Nothing follows from idle words, from words past the N rows, from surplus, nor from what lies in the result beforehand.
    pub fn kernel_influence(&mut self) -> Result<(), String> {
        self.draw_kernel_cases().iter().try_for_each(|(call, case)| self.influence(call, case))
    }

    /// Exact rooms are enough, and a word less in any set of buffers is refused: the result needs N words, however few are written.
    pub fn kernel_rooms(&mut self) -> Result<(), String> {
        self.draw_kernel_cases().iter().try_for_each(|(call, case)| self.rooms(call, case))
    }

    /// Every set of the kernel's faults, planted in a case of its own.
    pub fn kernel_fault_sets(&mut self) -> Result<(), String> {
        self.fault_set(&CALL, FAULT_SETS)
    }

    /// The same of its check's.
    pub fn kernel_check_fault_sets(&mut self) -> Result<(), String> {
        self.fault_set(&CHECK, CHECK_FAULT_SETS)
    }

    /// A small case of each call with exact buffers; at times no pivot is zero.
    fn draw_kernel_cases(&mut self) -> [(&'static Call, Case); 2] {
        let random = &mut self.random;
        [&CALL, &CHECK].map(|call| {
            let drawn = std::iter::repeat_with(|| cases::sound(call, random)).find(|case| case.n <= 40);
            let mut case = drawn.expect("a small case");
            if call.needs_zero_pivot() && random.once_in(4) {
                faults::plant(&mut case, Fault::Regular, random);
            }
            (call, case)
        })
    }
}

/// The column with another word in a place, from 0.
fn with(column: &[u32], place: usize, word: u32) -> Vec<u32> {
    let mut other = column.to_vec();
    other[place] = word;
    other
}
