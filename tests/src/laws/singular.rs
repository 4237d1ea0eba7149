//! Tables with a zero pivot at each row: the rows before are regular, those after it are as they were drawn.

use super::{Factor, Laws};
use crate::calls::{inverse, solve, Answer};
use crate::cases;
use crate::dense::Matrix;
use crate::eliminated::Eliminated;
use crate::layout::Kind;
use crate::refusals::{Reply, LARGEST_PRIME};

/// Rows of tables of 1,024, and their orders.
pub const PLACES: [(usize, u32, u32); 8] =
    [(1024, 1, 1), (1023, 2, 0), (1024, 8, 8), (512, 8, 1), (1, 1, 1), (2, 0, 3), (1024, 0, 0), (700, 3, 3)];

impl Factor {
    /// Its matrix, of which only the diagonal differs from the given one.
    pub fn with_own_diagonal(&self, matrix: &Matrix) -> Matrix {
        let mut entries = matrix.entries.clone();
        for row in 1..=matrix.n {
            entries[(row - 1) * (matrix.n + 1)] = self.words[self.shape.places(Kind::D, row).start];
        }
        Matrix { entries, ..*matrix }
    }
}

impl Laws {
    /// Every row of a table of each size to 64.
    pub fn singular_rows(&mut self) -> Result<(), String> {
        let (p, n) = (cases::draw_prime(&mut self.random), self.number as usize + 1);
        let (r, s) = (self.random.between(0, 8), self.random.between(0, 8));
        let drawn = self.draw(p, n, r, s);
        let matrix = drawn.matrix();
        (1..=n).try_for_each(|k| self.singular_at(&drawn, &matrix, k))
    }

    /// Some rows of tables of 1,024.
    pub fn singular_rows_large(&mut self) -> Result<(), String> {
        let (row, r, s) = PLACES[self.number as usize];
        let p = if self.number.is_multiple_of(2) { LARGEST_PRIME } else { 3 };
        let drawn = self.draw(p, 1024, r, s);
        let matrix = drawn.matrix();
        self.singular_at(&drawn, &matrix, row)
    }

    /// The table with a zero pivot at row k, which the dense program confirms: solve and inverse both name the row.
    fn singular_at(&mut self, drawn: &Factor, matrix: &Matrix, k: usize) -> Result<(), String> {
        let table = self.with_zero_pivot(drawn, k);
        let dense = Eliminated::new(table.with_own_diagonal(matrix));
        assert_eq!(dense.err(), Some(k), "the dense program finds another row");
        self.refused_at(&table, k)
    }

    /// Solve and inverse name this row.
    pub fn refused_at(&mut self, table: &Factor, k: usize) -> Result<(), String> {
        let owed = Answer::refused(Reply::zero_pivot(k));
        let column = self.draw_column(table.p, table.shape.n);
        for call in [&solve::CALL, &inverse::CALL] {
            let case = self.case(call, &[table], 0, &column);
            self.answers(call, &case, &owed)?;
        }
        Ok(())
    }
}
