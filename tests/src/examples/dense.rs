//! The examples of the dense solve.

use super::{case, m_with, Examples, ANY, M, M_SQUARE};
use crate::calls::solve_dense::CALL;
use crate::case::Case;
use crate::refusals::LARGEST_PRIME;

/// Rows 0 1 and 1 6: not singular, with a zero first.
const ZERO_FIRST: [u32; 14] = [0, 0, 0, 1, 1, 0, 0, 6, 1, 0, 0, 0, 0, 1];

/// The table, the column, and what lies in the square and the result.
fn dense_case(p: u32, n: u32, orders: (u32, u32), table: &[u32], column: &[u32], square: &[u32], result: &[u32]) -> Case {
    case(&CALL, p, n, orders, &[table, column, square, result])
}

/// The same with a square and a result that have surplus.
fn roomy(p: u32, n: u32, orders: (u32, u32), table: &[u32], column: &[u32]) -> Case {
    dense_case(p, n, orders, table, column, &vec![8; (n * n) as usize + 2], &vec![8; n as usize + 1])
}

impl Examples<'_> {
    pub fn of_dense_solve(&mut self) -> Result<(), String> {
        self.dense_solutions()?;
        self.dense_singular()?;
        self.dense_limits()?;
        self.order_of_dense_refusals()?;
        self.short_buffers_of_dense_solve()?;
        self.large_products_of_dense_solve()
    }

    /// The column, and a square of zeros.
    fn solves_dense(&mut self, case: Case, result: &[u32]) -> Result<(), String> {
        let zeros = vec![0; result.len() * result.len()];
        self.expect(&CALL, case, [0; 4], &[(4, &zeros), (5, result)])
    }

    /// 7 without a row, the result as it was, and a square of zeros.
    fn singular(&mut self, p: u32, n: u32, orders: (u32, u32), table: &[u32]) -> Result<(), String> {
        for column in [vec![1; n as usize], vec![0; n as usize]] {
            let zeros = vec![0; (n * n) as usize];
            self.expect(&CALL, roomy(p, n, orders, table, &column), [7, 1, 0, 0], &[(4, &zeros)])?;
        }
        Ok(())
    }

    /// M as solve has it; M times M and rows 0 1, 1 6, which solve refuses at row 1; a diagonal; one row.
    fn dense_solutions(&mut self) -> Result<(), String> {
        self.solves_dense(dense_case(7, 3, (1, 1), &M, &[4, 4, 5], &[8; 9], &[8; 3]), &[1, 2, 3])?;
        self.solves_dense(roomy(7, 3, (1, 1), &m_with(&[]), &[4, 4, 5, 7, ANY]), &[1, 2, 3])?;
        self.solves_dense(roomy(7, 3, (2, 2), &M_SQUARE.concat(), &[5, 4, 1]), &[1, 2, 3])?;
        self.solves_dense(roomy(7, 2, (1, 1), &ZERO_FIRST, &[3, 5]), &[1, 3])?;
        self.solves_dense(roomy(5, 2, (0, 0), &[2, 3], &[1, 1]), &[3, 2])?;
        self.solves_dense(roomy(2, 1, (0, 0), &[1], &[1]), &[1])?;
        self.solves_dense(roomy(7, 1, (1, 1), &[3, ANY, ANY, ANY, ANY, ANY, ANY], &[1]), &[5])
    }

    /// Zeros, a zero in a diagonal, and M with the last pivot taken from d: 7 names no row.
    fn dense_singular(&mut self) -> Result<(), String> {
        self.singular(7, 1, (0, 0), &[0])?;
        self.singular(2, 3, (0, 0), &[0; 3])?;
        self.singular(5, 2, (0, 0), &[0, 2])?;
        self.singular(5, 2, (0, 0), &[2, 0])?;
        self.singular(7, 3, (1, 1), &[0; 21])?;
        self.singular(7, 3, (1, 1), &m_with(&[(14, 1)]))
    }

    /// N 256 passes and is refused with 7, 257 gives 2, and so does 1,024, which solve passes.
    fn dense_limits(&mut self) -> Result<(), String> {
        let mut table = [2; 1025];
        let column = [1; 1025];
        self.solves_dense(roomy(7, 256, (0, 0), &table, &column), &[4; 256])?;
        for (p, n, number) in [(7, 257, 2), (7, 1024, 2), (7, 1025, 2), (7, 0, 2), (9, 257, 1), (1, 2, 1), (2_147_483_648, 2, 1)]
        {
            self.refuses(&CALL, roomy(p, n, (0, 0), &table, &column), number, 0, 0)?;
        }
        table[255] = 0;
        self.singular(7, 256, (0, 0), &table)?;
        let last = roomy(7, 255, (0, 0), &table, &column);
        self.solves_dense(last, &[4; 255])
    }

    /// Several causes at once: the first of the table decides, and a singular matrix comes last.
    fn order_of_dense_refusals(&mut self) -> Result<(), String> {
        let with = |p, n, orders, table: &[u32], column: &[u32], square: &[u32], result: &[u32]| {
            dense_case(p, n, orders, table, column, square, result)
        };
        let (bad, zero) = ([9, 0, 0, 0, 0, 0, 0], [0; 7]);
        self.refuses(&CALL, with(9, 257, (9, 9), &[], &[], &[], &[]), 1, 0, 0)?;
        self.refuses(&CALL, with(7, 257, (9, 9), &[], &[], &[], &[]), 2, 0, 0)?;
        self.refuses(&CALL, with(7, 256, (0, 9), &[], &[], &[], &[]), 3, 1, 0)?;
        self.refuses(&CALL, with(7, 1, (1, 1), &[], &[], &[], &[]), 4, 1, 0)?;
        self.refuses(&CALL, with(7, 1, (1, 1), &bad, &[], &[], &[]), 4, 3, 0)?;
        self.refuses(&CALL, with(7, 1, (1, 1), &bad, &[9], &[], &[]), 4, 4, 0)?;
        self.refuses(&CALL, with(7, 1, (1, 1), &bad, &[9], &[8], &[]), 4, 5, 0)?;
        self.refuses(&CALL, with(7, 1, (1, 1), &bad, &[9], &[8], &[8]), 5, 1, 1)?;
        self.refuses(&CALL, with(7, 1, (1, 1), &zero, &[9], &[8], &[8]), 5, 3, 1)?;
        self.refuses(&CALL, with(7, 2, (0, 0), &[0, 1], &[0, 7], &[8; 4], &[8; 2]), 5, 3, 2)?;
        self.singular(7, 1, (1, 1), &zero)
    }

    /// Of several short buffers the lowest is named; the square needs N times N words.
    fn short_buffers_of_dense_solve(&mut self) -> Result<(), String> {
        let zero = m_with(&[(0, 0)]);
        let with = |table: usize, column: usize, square: usize, result: usize| {
            dense_case(7, 3, (1, 1), &zero[..table], &[ANY; 3][..column], &[8; 9][..square], &[8; 3][..result])
        };
        self.refuses(&CALL, with(20, 2, 8, 2), 4, 1, 0)?;
        self.refuses(&CALL, with(21, 2, 8, 2), 4, 3, 0)?;
        self.refuses(&CALL, with(21, 3, 8, 2), 4, 4, 0)?;
        self.refuses(&CALL, with(21, 3, 3, 2), 4, 4, 0)?;
        self.refuses(&CALL, with(21, 3, 9, 2), 4, 5, 0)?;
        self.refuses(&CALL, with(21, 3, 9, 3), 5, 3, 1)
    }

    /// All words are −1, orders 8, as in the example of solve: rows −1 8 −64, 8 −1 8, −64 8 −1.
    fn large_products_of_dense_solve(&mut self) -> Result<(), String> {
        let (p, most) = (LARGEST_PRIME, LARGEST_PRIME - 1);
        self.solves_dense(roomy(p, 3, (8, 8), &vec![most; 3 * 161], &[p - 57, 15, p - 57]), &[1, 1, 1])?;
        self.solves_dense(roomy(p, 1, (0, 0), &[most], &[most]), &[1])
    }
}
