//! The examples of the kernel and of its check.

use super::{case, m_with, Examples, ANY, M, M_SQUARE};
use crate::calls::kernel_check::CALL as CHECK;
use crate::calls::{kernel::CALL, matrix};
use crate::case::Case;
use crate::refusals::LARGEST_PRIME;

/// Rows 1 1 0, 1 1 3, 2 3 5 modulo 7, of orders 2: the matrix has an inverse, its second corner has none.
const SECOND_CORNER: [[u32; 17]; 3] = [
    [1, ANY, ANY, ANY, ANY, ANY, ANY, 1, 0, 1, 0, ANY, ANY, ANY, ANY, ANY, ANY],
    [1, 1, 0, 1, 0, 0, 1, 0, 1, 0, 1, 1, 0, 0, 1, 1, 0],
    [5, 2, 3, ANY, ANY, ANY, ANY, ANY, ANY, ANY, ANY, ANY, ANY, ANY, ANY, 0, 3],
];

/// The table, and what lies in the result.
fn kernel_case(p: u32, n: u32, orders: (u32, u32), table: &[u32], result: &[u32]) -> Case {
    case(&CALL, p, n, orders, &[table, result])
}

fn check_case(p: u32, n: u32, orders: (u32, u32), k: u32, table: &[u32], column: &[u32]) -> Case {
    Case { k, ..case(&CHECK, p, n, orders, &[table, column]) }
}

impl Examples<'_> {
    pub fn of_kernel(&mut self) -> Result<(), String> {
        self.kernels()?;
        self.regular_tables()?;
        self.checks_of_kernels()?;
        self.checks_of_other_corners()?;
        self.kernel_limits()?;
        self.order_of_kernel_refusals()?;
        self.order_of_check_refusals()?;
        self.large_products_of_kernel()
    }

    /// The column at the beginning of a result with surplus, its length the value; all other words stay. The check passes it.
    fn kernel_is(&mut self, p: u32, n: u32, orders: (u32, u32), table: &[u32], column: &[u32]) -> Result<(), String> {
        let k = column.len() as u32;
        let result: Vec<u32> = (1..=n + 2).map(|place| ANY - place).collect();
        self.expect(&CALL, kernel_case(p, n, orders, table, &result), [0, 0, 0, k], &[(5, column)])?;
        let mut cleared = column.to_vec();
        cleared.resize(n as usize, 0);
        self.check_is(check_case(p, n, orders, k, table, &cleared), 1)
    }

    fn check_is(&mut self, case: Case, value: u32) -> Result<(), String> {
        self.expect(&CHECK, case, [0, 0, 0, value], &[])
    }

    /// M with the last pivot taken from d, or the second; rows whose second corner is singular; M times M and zeros, where it is the
    /// first; a diagonal.
    fn kernels(&mut self) -> Result<(), String> {
        self.kernel_is(7, 3, (1, 1), &m_with(&[(14, 1)]), &[0, 2, 1])?;
        self.kernel_is(7, 3, (1, 1), &m_with(&[(7, 2)]), &[6, 1])?;
        let rows = [1, 1, 0, 1, 1, 3, 2, 3, 5];
        self.accepts(&matrix::CALL, case(&matrix::CALL, 7, 3, (2, 2), &[&SECOND_CORNER.concat(), &[8; 9]]), &rows)?;
        self.kernel_is(7, 3, (2, 2), &SECOND_CORNER.concat(), &[6, 1])?;
        self.kernel_is(7, 3, (2, 2), &M_SQUARE.concat(), &[1])?;
        self.kernel_is(7, 3, (1, 1), &[0; 21], &[1])?;
        self.kernel_is(5, 3, (0, 0), &[2, 0, 0], &[0, 1])?;
        self.kernel_is(2, 1, (0, 0), &[0], &[1])?;
        self.kernel_is(7, 1, (1, 1), &[0, ANY, ANY, ANY, ANY, ANY, ANY], &[1])?;
        self.kernel_is(2, 2, (1, 1), &[1, ANY, ANY, 1, 1, ANY, ANY, 1, 1, ANY, ANY, ANY, ANY, 1], &[1, 1])
    }

    /// 13, and the result as it was.
    fn regular_tables(&mut self) -> Result<(), String> {
        self.refuses(&CALL, kernel_case(7, 3, (1, 1), &M, &[8; 3]), 13, 0, 0)?;
        self.refuses(&CALL, kernel_case(7, 3, (1, 1), &M, &[ANY; 5]), 13, 0, 0)?;
        self.refuses(&CALL, kernel_case(2, 1, (0, 0), &[1], &[8]), 13, 0, 0)?;
        self.refuses(&CALL, kernel_case(5, 2, (0, 0), &[2, 3], &[8; 2]), 13, 0, 0)
    }

    /// Of M with the last pivot taken from d only 0 2 1 passes; a multiple is sent to zeros too, but its last word is not 1.
    fn checks_of_kernels(&mut self) -> Result<(), String> {
        let table = m_with(&[(14, 1)]);
        for number in 0..343 {
            let column = [number / 49, number / 7 % 7, number % 7];
            self.check_is(check_case(7, 3, (1, 1), 3, &table, &column), u32::from(column == [0, 2, 1]))?;
        }
        for (k, column) in [(1, [1, 2, 1]), (2, [0, 2, 1]), (2, [0, 1, 1]), (1, [0, 2, 1])] {
            self.check_is(check_case(7, 3, (1, 1), k, &table, &column), 0)?;
        }
        self.check_is(check_case(7, 3, (1, 1), 3, &table, &[0, 2, 1, 7, ANY]), 1)
    }

    /// Corners after the first singular one: a diagonal 2, 0, 0 has several columns for its third. A matrix with an inverse has
    /// none.
    fn checks_of_other_corners(&mut self) -> Result<(), String> {
        for x in 0..5 {
            self.check_is(check_case(5, 3, (0, 0), 3, &[2, 0, 0], &[0, x, 1]), 1)?;
            self.check_is(check_case(5, 3, (0, 0), 3, &[2, 0, 0], &[x, 1, 0]), 0)?;
            self.check_is(check_case(5, 3, (0, 0), 2, &[2, 0, 0], &[0, 1, x]), 1)?;
            self.check_is(check_case(5, 3, (0, 0), 3, &[2, 0, 3], &[0, x, 1]), 0)?;
        }
        let table = SECOND_CORNER.concat();
        self.check_is(check_case(7, 3, (2, 2), 2, &table, &[6, 1, 6]), 1)?;
        self.check_is(check_case(7, 3, (2, 2), 3, &table, &[6, 1, 0]), 0)?;
        self.check_is(check_case(7, 3, (2, 2), 3, &table, &[6, 1, 1]), 0)?;
        self.check_is(check_case(7, 3, (1, 1), 3, &M, &[0, 2, 1]), 0)
    }

    /// N 1,024 passes with a zero pivot in the last row and is refused with 13 without one, 1,025 gives 2, P 1 and 9 give 1.
    fn kernel_limits(&mut self) -> Result<(), String> {
        let mut table = [2; 1025];
        self.refuses(&CALL, kernel_case(7, 1024, (0, 0), &table, &[8; 1025]), 13, 0, 0)?;
        table[1023] = 0;
        let mut column = [0; 1024];
        column[1023] = 1;
        self.kernel_is(7, 1024, (0, 0), &table, &column)?;
        self.check_is(check_case(7, 1024, (0, 0), 1023, &table, &[1; 1024]), 0)?;
        for (p, n, number) in [(7, 1025, 2), (7, 0, 2), (1, 2, 1), (9, 2, 1), (0, 2, 1), (2_147_483_648, 2, 1)] {
            self.refuses(&CALL, kernel_case(p, n, (0, 0), &table, &[8; 1025]), number, 0, 0)?;
            self.refuses(&CHECK, check_case(p, n, (0, 0), 1, &table, &[1; 1025]), number, 0, 0)?;
        }
        Ok(())
    }

    /// Several causes at once: the first of the table decides, and 13 comes last. The result needs N words where one is written.
    fn order_of_kernel_refusals(&mut self) -> Result<(), String> {
        let (bad, zero) = (m_with(&[(14, 7)]), m_with(&[(0, 0)]));
        self.refuses(&CALL, kernel_case(9, 0, (9, 9), &[], &[]), 1, 0, 0)?;
        self.refuses(&CALL, kernel_case(7, 0, (9, 9), &[], &[]), 2, 0, 0)?;
        self.refuses(&CALL, kernel_case(7, 3, (0, 9), &[], &[]), 3, 1, 0)?;
        self.refuses(&CALL, kernel_case(7, 3, (1, 1), &[], &[]), 4, 1, 0)?;
        self.refuses(&CALL, kernel_case(7, 3, (1, 1), &bad[..20], &[8; 2]), 4, 1, 0)?;
        self.refuses(&CALL, kernel_case(7, 3, (1, 1), &bad, &[8; 2]), 4, 5, 0)?;
        self.refuses(&CALL, kernel_case(7, 3, (1, 1), &zero, &[8; 2]), 4, 5, 0)?;
        self.refuses(&CALL, kernel_case(7, 3, (1, 1), &zero, &[]), 4, 5, 0)?;
        self.refuses(&CALL, kernel_case(7, 3, (1, 1), &bad, &[8; 3]), 5, 1, 3)?;
        self.refuses(&CALL, kernel_case(7, 3, (1, 1), &m_with(&[(0, 0), (14, 7)]), &[8; 3]), 5, 1, 3)
    }

    /// 8 comes before 4, and 5 looks at every word of the column, those after word k too.
    fn order_of_check_refusals(&mut self) -> Result<(), String> {
        let with = |k, table: &[u32], column: &[u32]| check_case(7, 3, (1, 1), k, table, column);
        let bad = m_with(&[(14, 7)]);
        self.refuses(&CHECK, check_case(9, 0, (9, 9), 0, &[], &[]), 1, 0, 0)?;
        self.refuses(&CHECK, check_case(7, 0, (9, 9), 0, &[], &[]), 2, 0, 0)?;
        self.refuses(&CHECK, check_case(7, 3, (9, 0), 0, &[], &[]), 3, 1, 0)?;
        for k in [0, 4, 1_025, 65_537, 0x8000_0001, ANY] {
            self.refuses(&CHECK, with(k, &[], &[]), 8, 0, 0)?;
            self.refuses(&CHECK, with(k, &bad, &[7; 3]), 8, 0, 0)?;
        }
        self.refuses(&CHECK, with(3, &[], &[]), 4, 1, 0)?;
        self.refuses(&CHECK, with(3, &bad[..20], &[7; 2]), 4, 1, 0)?;
        self.refuses(&CHECK, with(1, &bad, &[7; 2]), 4, 3, 0)?;
        self.refuses(&CHECK, with(1, &bad, &[7; 3]), 5, 1, 3)?;
        self.refuses(&CHECK, with(1, &M, &[1, 2, 7]), 5, 3, 3)?;
        self.refuses(&CHECK, with(1, &m_with(&[(0, 0)]), &[1, ANY, 7]), 5, 3, 2)?;
        self.check_is(with(1, &m_with(&[(0, 0)]), &[1, 6, 6, 7]), 1)
    }

    /// All words are −1, orders 8, and the last d is −64: rows −1 8 −64, 8 −1 8, −64 8 −64.
    fn large_products_of_kernel(&mut self) -> Result<(), String> {
        let (p, most) = (LARGEST_PRIME, LARGEST_PRIME - 1);
        let mut table = vec![most; 3 * 161];
        table[2 * 161] = p - 64;
        self.kernel_is(p, 3, (8, 8), &table, &[0, 8, 1])?;
        self.kernel_is(p, 2, (0, 0), &[most, 0], &[0, 1])
    }
}
