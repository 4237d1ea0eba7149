//! The examples of sum and product.

use super::{case, m_with, Examples, ANY, M, M_INVERSE, M_MATRIX, M_SQUARE};
use crate::calls::{matrix, product, sum, Call};
use crate::case::Case;
use crate::refusals::LARGEST_PRIME;
use crate::trial::owed;

/// A sum's or a product's case: the orders r1, s1, r2, s2, both tables and the result.
fn pair_case(call: &Call, p: u32, n: u32, orders: [u32; 4], first: &[u32], second: &[u32], result: &[u32]) -> Case {
    let [r1, s1, r2, s2] = orders;
    Case { orders: vec![(r1, s1), (r2, s2)], ..case(call, p, n, (r1, s1), &[first, second, result]) }
}

impl Examples<'_> {
    pub fn on_two_tables(&mut self) -> Result<(), String> {
        self.m_times_m_as_table()?;
        self.m_plus_m()?;
        self.m_plus_its_inverse()?;
        self.m_plus_d()?;
        self.m_times_its_inverse()?;
        self.order_of_factors()?;
        self.one_side_only()?;
        self.two_tables_of_one_row()?;
        self.order_sums()?;
        self.refusals_of_two_tables()?;
        self.large_products_of_two()
    }

    /// Example 4 by the product call: M times M stands for rows 0 5 3, 6 0 4, 1 1 4; also where both are one buffer.
    fn m_times_m_as_table(&mut self) -> Result<(), String> {
        let square = M_SQUARE.concat();
        let call = &product::CALL;
        let mut case_of_two = pair_case(call, 7, 3, [1, 1, 1, 1], &M, &M, &[8; 55]);
        self.accepts(call, case_of_two.clone(), &square)?;
        case_of_two.buffers[1].shared = true;
        self.accepts(call, case_of_two, &square)?;
        let rows = [0, 5, 3, 6, 0, 4, 1, 1, 4];
        self.accepts(&matrix::CALL, case(&matrix::CALL, 7, 3, (2, 2), &[&square, &[8; 9]]), &rows)
    }

    /// M plus M stands for twice M.
    fn m_plus_m(&mut self) -> Result<(), String> {
        let twice = [
            [2, 0, 0, 0, 0, 0, 0, 2, 2, 1, 1, 0, 0, 0, 0, 0, 0],
            [6, 1, 1, 2, 0, 0, 2, 1, 1, 2, 2, 3, 0, 0, 3, 1, 1],
            [3, 3, 3, 0, 0, 0, 0, 0, 0, 0, 0, 0, 0, 0, 0, 4, 4],
        ]
        .concat();
        let call = &sum::CALL;
        let mut case_of_two = pair_case(call, 7, 3, [1, 1, 1, 1], &M, &M, &[8; 51]);
        self.accepts(call, case_of_two.clone(), &twice)?;
        case_of_two.buffers[1].shared = true;
        self.accepts(call, case_of_two, &twice)?;
        let rows = M_MATRIX.map(|x| 2 * x % 7);
        self.accepts(&matrix::CALL, case(&matrix::CALL, 7, 3, (2, 2), &[&twice, &[8; 9]]), &rows)
    }

    /// M plus its inverse stands for rows 4 0 5, 6 5 5, 1 0 0.
    fn m_plus_its_inverse(&mut self) -> Result<(), String> {
        let both = [
            [4, 0, 0, 0, 0, 0, 0, 2, 2, 1, 1, 0, 0, 0, 0, 0, 0],
            [5, 1, 2, 2, 0, 0, 5, 1, 4, 2, 3, 3, 0, 0, 0, 1, 6],
            [0, 3, 1, 0, 0, 0, 0, 0, 0, 0, 0, 0, 0, 0, 0, 4, 6],
        ]
        .concat();
        self.accepts(&sum::CALL, pair_case(&sum::CALL, 7, 3, [1, 1, 1, 1], &M, &M_INVERSE, &[8; 51]), &both)?;
        let rows = [4, 0, 5, 6, 5, 5, 1, 0, 0];
        self.accepts(&matrix::CALL, case(&matrix::CALL, 7, 3, (2, 2), &[&both, &[8; 9]]), &rows)
    }

    /// M plus rows 1 0 0, 1 3 0, 3 6 2, a table without an upper side, stands for rows 2 1 5, 3 6 1, 1 2 0.
    fn m_plus_d(&mut self) -> Result<(), String> {
        let d = [1, 9, 9, 2, 3, 4, 5, 6, 2, 1, 9, 9];
        let both =
            [[2, 0, 0, 0, 0, 0, 0, 2, 2, 1, 0, 0], [6, 1, 4, 2, 0, 0, 5, 1, 6, 2, 3, 1], [0, 3, 1, 0, 0, 0, 0, 0, 0, 0, 0, 4]]
                .concat();
        self.accepts(&sum::CALL, pair_case(&sum::CALL, 7, 3, [1, 1, 1, 0], &M, &d, &[8; 37]), &both)?;
        let rows = [2, 1, 5, 3, 6, 1, 1, 2, 0];
        self.accepts(&matrix::CALL, case(&matrix::CALL, 7, 3, (2, 1), &[&both, &[8; 9]]), &rows)
    }

    /// M times its inverse stands for the identity, on either side.
    fn m_times_its_inverse(&mut self) -> Result<(), String> {
        let call = &product::CALL;
        let right = [
            [1, 0, 0, 0, 0, 0, 0, 6, 2, 1, 1, 0, 0, 0, 0, 0, 0],
            [1, 1, 4, 2, 2, 0, 5, 5, 4, 2, 2, 3, 3, 0, 0, 1, 6],
            [1, 3, 5, 0, 0, 0, 0, 0, 0, 0, 0, 0, 0, 0, 0, 1, 6],
        ]
        .concat();
        self.accepts(call, pair_case(call, 7, 3, [1, 1, 1, 1], &M, &M_INVERSE, &[8; 51]), &right)?;
        let identity = [1, 0, 0, 0, 1, 0, 0, 0, 1];
        self.accepts(&matrix::CALL, case(&matrix::CALL, 7, 3, (2, 2), &[&right, &[8; 9]]), &identity)?;
        let left = pair_case(call, 7, 3, [1, 1, 1, 1], &M_INVERSE, &M, &[8; 51]);
        let owed = owed(call, &left);
        self.accepts(call, left, &owed.written[0].1)?;
        self.accepts(&matrix::CALL, case(&matrix::CALL, 7, 3, (2, 2), &[&owed.written[0].1, &[8; 9]]), &identity)
    }

    /// Rows 1 0, 1 1 times rows 1 1, 0 1 are rows 1 1, 1 2; the other way round they are rows 2 1, 1 1.
    fn order_of_factors(&mut self) -> Result<(), String> {
        let call = &product::CALL;
        let lower = [1, ANY, ANY, 1, 1, 1, ANY, ANY];
        let upper = [1, 1, ANY, ANY, 1, ANY, ANY, 1];
        let one = [1, 0, 0, 1, 1, 0, 0, 2, 1, 0, 0, 0, 0, 1];
        self.accepts(call, pair_case(call, 7, 2, [1, 0, 0, 1], &lower, &upper, &[8; 14]), &one)?;
        self.accepts(&matrix::CALL, case(&matrix::CALL, 7, 2, (1, 1), &[&one, &[8; 4]]), &[1, 1, 1, 2])?;
        let other = [2, 0, 0, 1, 1, 0, 0, 1, 1, 0, 0, 0, 0, 1];
        self.accepts(call, pair_case(call, 7, 2, [0, 1, 1, 0], &upper, &lower, &[8; 14]), &other)?;
        self.accepts(&matrix::CALL, case(&matrix::CALL, 7, 2, (1, 1), &[&other, &[8; 4]]), &[2, 1, 1, 1])
    }

    /// Tables without one side, or without both: rows 2 0, 3 4 and the diagonal 5, 6, modulo 7.
    fn one_side_only(&mut self) -> Result<(), String> {
        let (lower, diagonal) = ([2, ANY, ANY, 3, 4, 1, ANY, ANY], [5, 6]);
        let with = |call: &Call, orders, first: &[u32], second: &[u32]| pair_case(call, 7, 2, orders, first, second, &[8; 9]);
        let (s, p) = (&sum::CALL, &product::CALL);
        self.accepts(s, with(s, [1, 0, 0, 0], &lower, &diagonal), &[0, 0, 0, 3, 3, 1, 0, 0])?;
        self.accepts(s, with(s, [0, 0, 1, 0], &diagonal, &lower), &[0, 0, 0, 3, 3, 1, 0, 0])?;
        self.accepts(p, with(p, [1, 0, 0, 0], &lower, &diagonal), &[3, 0, 0, 1, 3, 1, 0, 0])?;
        self.accepts(p, with(p, [0, 0, 1, 0], &diagonal, &lower), &[3, 0, 0, 3, 3, 6, 0, 0])?;
        self.accepts(s, with(s, [0, 0, 0, 0], &diagonal, &diagonal), &[3, 5])?;
        self.accepts(p, with(p, [0, 0, 0, 0], &diagonal, &diagonal), &[4, 1])
    }

    /// With N 1 all but d is idle, in both tables.
    fn two_tables_of_one_row(&mut self) -> Result<(), String> {
        let (first, second) = ([3, ANY, ANY, ANY, ANY, ANY, ANY], [6, ANY, ANY, ANY]);
        for (call, d) in [(&sum::CALL, 2), (&product::CALL, 4)] {
            let owed = [d, 0, 0, 0, 0, 0, 0, 0, 0, 0, 0, 0];
            self.accepts(call, pair_case(call, 7, 1, [1, 1, 0, 1], &first, &second, &[8; 12]), &owed)?;
        }
        self.accepts(&sum::CALL, pair_case(&sum::CALL, 2, 1, [0; 4], &[1], &[1], &[8]), &[0])?;
        self.accepts(&product::CALL, pair_case(&product::CALL, 2, 1, [0; 4], &[1], &[1], &[8]), &[1])
    }

    /// Example 9, what concerns these calls: order sums 8 pass, 9 give 6, below the diagonal and above it alike.
    fn order_sums(&mut self) -> Result<(), String> {
        for call in [&sum::CALL, &product::CALL] {
            let with = |orders| pair_case(call, 7, 1, orders, &[1; 200], &[1; 200], &[8; 400]);
            let d = if call.name == sum::CALL.name { 2 } else { 1 };
            let owed: Vec<u32> = [d].into_iter().chain([0; 160]).collect();
            for order in 0..=8 {
                self.accepts(call, with([order, 8 - order, 8 - order, order]), &owed)?;
            }
            for order in 1..=8 {
                self.refuses(call, with([order, 0, 9 - order, 0]), 6, 0, 0)?;
                self.refuses(call, with([0, order, 0, 9 - order]), 6, 0, 0)?;
            }
            self.refuses(call, with([8, 8, 8, 8]), 6, 0, 0)?;
        }
        Ok(())
    }

    /// Several causes at once: the first of the table decides, and of two buffers the lower.
    fn refusals_of_two_tables(&mut self) -> Result<(), String> {
        for call in [&sum::CALL, &product::CALL] {
            let bad = m_with(&[(7, 7)]);
            let last = m_with(&[(20, 7)]);
            let with = |p, n, orders, first: &[u32], second: &[u32], result: &[u32]| {
                pair_case(call, p, n, orders, first, second, result)
            };
            self.refuses(call, with(9, 0, [9, 0, 9, 0], &[], &[], &[]), 1, 0, 0)?;
            self.refuses(call, with(7, 0, [9, 0, 9, 0], &[], &[], &[]), 2, 0, 0)?;
            self.refuses(call, with(7, 1025, [9, 0, 9, 0], &[], &[], &[]), 2, 0, 0)?;
            self.refuses(call, with(7, 3, [0, 9, 9, 0], &[], &[], &[]), 3, 1, 0)?;
            self.refuses(call, with(7, 3, [8, 0, 0, 9], &[], &[], &[]), 3, 2, 0)?;
            self.refuses(call, with(7, 3, [1, 0, ANY, 0], &[], &[], &[]), 3, 2, 0)?;
            self.refuses(call, with(7, 3, [ANY, 0, 1, 0], &[], &[], &[]), 3, 1, 0)?;
            self.refuses(call, with(7, 3, [8, 0, 1, 0], &[], &[], &[]), 6, 0, 0)?;
            let orders = [1, 1, 1, 1];
            self.refuses(call, with(7, 3, orders, &bad[..20], &bad[..20], &[8; 50]), 4, 1, 0)?;
            self.refuses(call, with(7, 3, orders, &bad, &bad[..20], &[8; 50]), 4, 2, 0)?;
            self.refuses(call, with(7, 3, orders, &bad, &bad, &[8; 50]), 4, 5, 0)?;
            self.refuses(call, with(7, 3, orders, &last, &bad, &[8; 51]), 5, 1, 3)?;
            self.refuses(call, with(7, 3, orders, &M, &last, &[8; 51]), 5, 2, 3)?;
            self.refuses(call, with(7, 3, orders, &M, &bad, &[8; 52]), 5, 2, 2)?;
        }
        Ok(())
    }

    /// Eight products near 2⁶² do not fit 64 bits: all words are −1, orders 8 and 0, and 0 and 8. X and Y are 0, 1, 65.
    fn large_products_of_two(&mut self) -> Result<(), String> {
        let most = LARGEST_PRIME - 1;
        let table = vec![most; 3 * 81];
        let by_x = [[1, 0, 0, 1, 1, 0, 0], [65, most, most, 65, 65, most, most], [4161, most, 0, 0, 0, 0, most]];
        let by_y = [[4161, 0, 0, most, most, 0, 0], [65, 65, most, most, most, most, 65], [1, 1, 0, 0, 0, 0, 1]];
        let call = &product::CALL;
        for (orders, rows) in [([8, 0, 0, 8], by_x), ([0, 8, 8, 0], by_y)] {
            let runs = rows.iter().flat_map(|row| row.iter().zip([1, 8, 64, 8, 8, 64, 8]));
            let owed: Vec<u32> = runs.flat_map(|(&word, count)| vec![word; count]).collect();
            self.accepts(call, pair_case(call, LARGEST_PRIME, 3, orders, &table, &table, &[9; 3 * 161]), &owed)?;
        }
        Ok(())
    }
}
