//! The examples of solve and inverse.

use super::{case, m_with, Examples, ANY, M, M_INVERSE, M_SQUARE};
use crate::calls::{inverse, matrix, solve};
use crate::case::Case;
use crate::refusals::LARGEST_PRIME;
use crate::trial::trial;

/// A solve's case: the table, the column, and what lies in the work buffer and the result.
fn solve_case(p: u32, n: u32, orders: (u32, u32), table: &[u32], column: &[u32], work: &[u32], result: &[u32]) -> Case {
    case(&solve::CALL, p, n, orders, &[table, column, work, result])
}

fn inverse_case(p: u32, n: u32, orders: (u32, u32), table: &[u32], result: &[u32]) -> Case {
    case(&inverse::CALL, p, n, orders, &[table, result])
}

impl Examples<'_> {
    pub fn of_pivots(&mut self) -> Result<(), String> {
        self.solving_with_m()?;
        self.pivots_of_m()?;
        self.inverse_of_m_as_table()?;
        self.refused_with_an_inverse()?;
        self.inverse_refused()?;
        self.solving_one_row()?;
        self.solving_a_diagonal()?;
        self.solving_one_side()?;
        self.solving_at_the_limits()?;
        self.order_of_refusals_of_pivots()?;
        self.short_buffers_of_solve()?;
        self.large_products_of_pivots()
    }

    /// The column, and v of the rows but the last, then s zeros.
    fn solves(&mut self, case: Case, work: &[u32], result: &[u32]) -> Result<(), String> {
        self.expect(&solve::CALL, case, [0; 4], &[(4, work), (5, result)])
    }

    fn inverts(&mut self, case: Case, result: &[u32]) -> Result<(), String> {
        self.accepts(&inverse::CALL, case, result)
    }

    /// Solve, for a column of ones, and inverse name the row of a zero pivot, with nothing written.
    fn zero_pivot(&mut self, p: u32, n: u32, orders: (u32, u32), table: &[u32], row: u32) -> Result<(), String> {
        let (column, work, result) = (vec![1; n as usize], vec![8; (n * orders.1) as usize], vec![8; n as usize]);
        self.refuses(&solve::CALL, solve_case(p, n, orders, table, &column, &work, &result), 7, 1, row)?;
        self.refuses(&inverse::CALL, inverse_case(p, n, orders, table, &vec![8; table.len()]), 7, 1, row)
    }

    /// Example 1: solving for (4, 4, 5) gives (1, 2, 3); v of rows 1 and 2 is 1 and 3. The same with surplus.
    fn solving_with_m(&mut self) -> Result<(), String> {
        let column = [4, 4, 5, 7, ANY];
        self.solves(solve_case(7, 3, (1, 1), &M, &column[..3], &[8; 3], &[8; 3]), &[1, 3, 0], &[1, 2, 3])?;
        self.solves(solve_case(7, 3, (1, 1), &m_with(&[]), &column, &[8; 5], &[8; 4]), &[1, 3, 0], &[1, 2, 3])?;
        self.solves(solve_case(7, 3, (1, 1), &M, &[0; 3], &[8; 3], &[8; 3]), &[1, 3, 0], &[0, 0, 0])
    }

    /// Example 2: the pivots are 1, 1, 4. With d less by its pivot a row is refused, and with no other d.
    fn pivots_of_m(&mut self) -> Result<(), String> {
        for (place, row, pivot) in [(0, 1, 1), (7, 2, 1), (14, 3, 4)] {
            let d = M[place] - pivot;
            self.zero_pivot(7, 3, (1, 1), &m_with(&[(place, d)]), row)?;
            for other in (0..7).filter(|&other| other != d) {
                let case = inverse_case(7, 3, (1, 1), &m_with(&[(place, other)]), &[8; 21]);
                let reply = trial(&inverse::CALL, &case)?;
                if reply.number == 7 && reply.row <= row {
                    return Err(format!("with {other} as d of row {row}, M is refused {reply}"));
                }
                self.tally.record(&inverse::CALL, &case, reply);
            }
        }
        Ok(())
    }

    /// Example 3: the inverse's table; solving with it takes example 1 back.
    fn inverse_of_m_as_table(&mut self) -> Result<(), String> {
        self.inverts(inverse_case(7, 3, (1, 1), &M, &[8; 21]), &M_INVERSE)?;
        self.inverts(inverse_case(7, 3, (1, 1), &m_with(&[(1, ANY), (2, 7), (16, ANY), (19, 0)]), &[8; 30]), &M_INVERSE)?;
        self.solves(solve_case(7, 3, (1, 1), &M_INVERSE, &[1, 2, 3], &[8; 3], &[8; 3]), &[5, 3, 0], &[4, 4, 5])
    }

    /// Example 4: M times M has an inverse, as M has, but its leading 1 by 1 corner is 0.
    fn refused_with_an_inverse(&mut self) -> Result<(), String> {
        self.zero_pivot(7, 3, (2, 2), &M_SQUARE.concat(), 1)?;
        let column = [4, 4, 5];
        self.refuses(&solve::CALL, solve_case(7, 3, (2, 2), &M_SQUARE.concat(), &column, &[8; 6], &[8; 3]), 7, 1, 1)
    }

    /// Example 5: rows 1 1 and 1 0 are regular; their inverse, rows 0 1 and 1 6, is refused at row 1.
    fn inverse_refused(&mut self) -> Result<(), String> {
        let table = [1, 0, 0, 1, 1, 0, 0, 0, 1, 0, 0, 0, 0, 1];
        let inverse = [0, 0, 0, 1, 1, 0, 0, 6, 1, 0, 0, 0, 0, 1];
        self.accepts(&matrix::CALL, case(&matrix::CALL, 7, 2, (1, 1), &[&table, &[8; 4]]), &[1, 1, 1, 0])?;
        self.inverts(inverse_case(7, 2, (1, 1), &table, &[8; 14]), &inverse)?;
        self.accepts(&matrix::CALL, case(&matrix::CALL, 7, 2, (1, 1), &[&inverse, &[8; 4]]), &[0, 1, 1, 6])?;
        self.solves(solve_case(7, 2, (1, 1), &table, &[3, 5], &[8; 2], &[8; 2]), &[1, 0], &[5, 5])?;
        self.zero_pivot(7, 2, (1, 1), &inverse, 1)
    }

    /// Examples 6 and 8: one row, whose inverse is 1/d, and which d = 0 has refused; all words but d are idle.
    fn solving_one_row(&mut self) -> Result<(), String> {
        self.zero_pivot(7, 1, (0, 0), &[0], 1)?;
        self.zero_pivot(2, 1, (0, 0), &[0], 1)?;
        self.zero_pivot(7, 1, (1, 1), &[0, ANY, ANY, ANY, ANY, ANY, ANY], 1)?;
        self.inverts(inverse_case(2, 1, (0, 0), &[1], &[8]), &[1])?;
        self.solves(solve_case(2, 1, (0, 0), &[1], &[1], &[], &[8]), &[], &[1])?;
        let inverses = [1, 4, 5, 2, 3, 6];
        for (d, inverse) in (1..7).zip(inverses) {
            let table = [d, ANY, ANY, ANY, ANY, ANY, ANY];
            self.inverts(inverse_case(7, 1, (1, 1), &table, &[8; 7]), &[inverse, 0, 0, 0, 0, 0, 0])?;
            self.solves(solve_case(7, 1, (1, 1), &table, &[1], &[8], &[8]), &[0], &[inverse])?;
        }
        Ok(())
    }

    /// Example 7's table: its inverse has the diagonal 3, 2. There is no work, and NULL will do.
    fn solving_a_diagonal(&mut self) -> Result<(), String> {
        self.inverts(inverse_case(5, 2, (0, 0), &[2, 3], &[8; 2]), &[3, 2])?;
        let mut case = solve_case(5, 2, (0, 0), &[2, 3], &[1, 1], &[], &[8; 2]);
        self.solves(case.clone(), &[], &[3, 2])?;
        case.buffer_mut(4).null = true;
        self.solves(case, &[], &[3, 2])?;
        self.zero_pivot(5, 2, (0, 0), &[2, 0], 2)?;
        self.zero_pivot(5, 3, (0, 0), &[2, 0, 0], 2)
    }

    /// Rows 2 0, 3 4, and rows 2 3, 0 4, modulo 7.
    fn solving_one_side(&mut self) -> Result<(), String> {
        let (lower, upper) = ([2, ANY, ANY, 3, 4, 1, ANY, ANY], [2, 3, ANY, ANY, 4, ANY, ANY, 1]);
        self.solves(solve_case(7, 2, (1, 0), &lower, &[1, 2], &[], &[8; 2]), &[], &[4, 1])?;
        self.inverts(inverse_case(7, 2, (1, 0), &lower, &[8; 8]), &[4, 0, 0, 5, 2, 5, 0, 0])?;
        self.solves(solve_case(7, 2, (0, 1), &upper, &[1, 2], &[8; 2], &[8; 2]), &[5, 0], &[5, 4])?;
        self.inverts(inverse_case(7, 2, (0, 1), &upper, &[8; 8]), &[4, 5, 0, 0, 2, 0, 0, 5])
    }

    /// Example 9: N 1,024 passes, 1,025 gives 2, P 1 and 9 give 1.
    fn solving_at_the_limits(&mut self) -> Result<(), String> {
        let solving = |p, n| solve_case(p, n, (0, 0), &[2; 1025], &[1; 1025], &[], &[8; 1025]);
        let inverting = |p, n| inverse_case(p, n, (0, 0), &[2; 1025], &[8; 1025]);
        self.solves(solving(7, 1024), &[], &[4; 1024])?;
        self.inverts(inverting(7, 1024), &[4; 1024])?;
        for (p, n, number) in [(7, 1025, 2), (7, 0, 2), (1, 2, 1), (9, 2, 1), (0, 2, 1), (2_147_483_648, 2, 1)] {
            self.refuses(&solve::CALL, solving(p, n), number, 0, 0)?;
            self.refuses(&inverse::CALL, inverting(p, n), number, 0, 0)?;
        }
        let most = LARGEST_PRIME - 1;
        self.inverts(inverse_case(LARGEST_PRIME, 1, (0, 0), &[most], &[8]), &[most])
    }

    /// Several causes at once: the first of the table decides, and a zero pivot comes last.
    fn order_of_refusals_of_pivots(&mut self) -> Result<(), String> {
        let (s, i) = (&solve::CALL, &inverse::CALL);
        self.refuses(s, solve_case(9, 0, (9, 9), &[], &[], &[], &[]), 1, 0, 0)?;
        self.refuses(s, solve_case(7, 0, (9, 9), &[], &[], &[], &[]), 2, 0, 0)?;
        self.refuses(s, solve_case(7, 1, (0, 9), &[], &[], &[], &[]), 3, 1, 0)?;
        self.refuses(s, solve_case(7, 1, (9, 0), &[], &[], &[], &[]), 3, 1, 0)?;
        self.refuses(s, solve_case(7, 1, (1, 1), &[], &[], &[], &[]), 4, 1, 0)?;
        let (bad, zero) = ([9, 0, 0, 0, 0, 0, 0], [0; 7]);
        self.refuses(s, solve_case(7, 1, (1, 1), &bad, &[], &[], &[]), 4, 3, 0)?;
        self.refuses(s, solve_case(7, 1, (1, 1), &bad, &[9], &[], &[]), 4, 4, 0)?;
        self.refuses(s, solve_case(7, 1, (1, 1), &bad, &[9], &[0], &[]), 4, 5, 0)?;
        self.refuses(s, solve_case(7, 1, (1, 1), &bad, &[9], &[0], &[0]), 5, 1, 1)?;
        self.refuses(s, solve_case(7, 1, (1, 1), &zero, &[9], &[0], &[0]), 5, 3, 1)?;
        self.refuses(s, solve_case(7, 1, (1, 1), &zero, &[6], &[0], &[0]), 7, 1, 1)?;
        self.refuses(s, solve_case(7, 2, (0, 0), &[0, 1], &[0, 7], &[], &[0, 0]), 5, 3, 2)?;
        self.solves(solve_case(7, 1, (0, 0), &[3], &[1], &[], &[0]), &[], &[5])?;
        self.refuses(s, solve_case(7, 1, (0, 1), &[3, 9, 9, 9], &[1], &[], &[0]), 4, 4, 0)?;
        self.refuses(i, inverse_case(9, 0, (9, 9), &[], &[]), 1, 0, 0)?;
        self.refuses(i, inverse_case(7, 0, (9, 9), &[], &[]), 2, 0, 0)?;
        self.refuses(i, inverse_case(7, 1, (0, 9), &[], &[]), 3, 1, 0)?;
        self.refuses(i, inverse_case(7, 1, (0, 0), &[], &[]), 4, 1, 0)?;
        self.refuses(i, inverse_case(7, 1, (0, 0), &[9], &[]), 4, 5, 0)?;
        self.refuses(i, inverse_case(7, 2, (0, 0), &[0, 9], &[0, 0]), 5, 1, 2)
    }

    /// Of several short buffers the lowest is named; the work buffer comes between the column and the result.
    fn short_buffers_of_solve(&mut self) -> Result<(), String> {
        let zero = m_with(&[(0, 0)]);
        let with = |table: usize, column: usize, work: usize, result: usize| {
            solve_case(7, 3, (1, 1), &zero[..table], &[ANY; 3][..column], &[8; 3][..work], &[8; 3][..result])
        };
        self.refuses(&solve::CALL, with(20, 2, 2, 2), 4, 1, 0)?;
        self.refuses(&solve::CALL, with(21, 2, 2, 2), 4, 3, 0)?;
        self.refuses(&solve::CALL, with(21, 3, 2, 2), 4, 4, 0)?;
        self.refuses(&solve::CALL, with(21, 3, 3, 2), 4, 5, 0)?;
        self.refuses(&solve::CALL, with(21, 3, 0, 0), 4, 4, 0)?;
        self.refuses(&inverse::CALL, inverse_case(7, 3, (1, 1), &zero[..20], &[8; 20]), 4, 1, 0)?;
        self.refuses(&inverse::CALL, inverse_case(7, 3, (1, 1), &zero, &[8; 20]), 4, 5, 0)
    }

    /// Eight products near 2⁶² do not fit 64 bits: all words are −1, orders 8. The pivots are −1, 63, 63, every f is −1, every v
    /// and y is 1, every z is 1/63; the matrix has rows −1 8 −64, 8 −1 8, −64 8 −1, the inverse's d's are 1/63, 65/63, 1/63.
    fn large_products_of_pivots(&mut self) -> Result<(), String> {
        let (p, most) = (LARGEST_PRIME, LARGEST_PRIME - 1);
        let (table, column) = (vec![most; 3 * 161], [p - 57, 15, p - 57]);
        let work = [[1; 8], [1; 8], [0; 8]].concat();
        self.solves(solve_case(p, 3, (8, 8), &table, &column, &[9; 24], &[9; 3]), &work, &[1, 1, 1])?;
        let (over, more) = (2_113_396_605, 2_079_309_564);
        let rows = [[over, 0, 0, 1, 1, 0, 0], [more, over, 0, 1, 1, 0, over], [over, over, 0, 0, 0, 0, over]];
        let runs = rows.iter().flat_map(|row| row.iter().zip([1, 8, 64, 8, 8, 64, 8]));
        let owed: Vec<u32> = runs.flat_map(|(&word, count)| vec![word; count]).collect();
        self.inverts(inverse_case(p, 3, (8, 8), &table, &[9; 3 * 161]), &owed)
    }
}
