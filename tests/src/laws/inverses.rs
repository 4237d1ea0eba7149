//! The laws of solve and inverse.

use super::{same, Factor, Laws};
use crate::calls::{inverse, product, solve};
use crate::cases;
use crate::dense::Matrix;
use crate::eliminated::reciprocal;
use crate::refusals::{LARGEST_ORDER, LARGEST_PRIME};
use crate::trial::ended;

/// Orders for tables of 1,024 rows.
const ORDERS: [(u32, u32); 8] = [(1, 1), (8, 8), (0, 8), (8, 0), (0, 0), (2, 5), (8, 1), (1, 8)];

impl Laws {
    fn draw_one_regular(&mut self, largest_size: u32, largest_order: u32) -> Factor {
        let (p, n) = (cases::draw_prime(&mut self.random), self.between(1, largest_size));
        let (r, s) = (self.random.between(0, largest_order), self.random.between(0, largest_order));
        self.draw_regular(p, n, r, s)
    }

    /// Solve takes back what apply does, and apply what solve does; the inverse's table sends a column where solve does.
    pub fn solve_and_apply(&mut self) -> Result<(), String> {
        let a = self.draw_one_regular(40, LARGEST_ORDER);
        self.takes_back(&a)
    }

    /// The same at N 1,024.
    pub fn solve_and_apply_large(&mut self) -> Result<(), String> {
        let (r, s) = ORDERS[self.number as usize % ORDERS.len()];
        let p = match self.number / 8 {
            0 => LARGEST_PRIME,
            1 => 2,
            _ => cases::draw_prime(&mut self.random),
        };
        let a = self.draw_regular(p, 1024, r, s);
        self.takes_back(&a)
    }

    /// The words of solve and inverse at N 1,024, all of them.
    pub fn large_words(&mut self) -> Result<(), String> {
        let (r, s) = ORDERS[self.number as usize % ORDERS.len()];
        let p = if self.number.is_multiple_of(2) { cases::draw_prime(&mut self.random) } else { LARGEST_PRIME };
        let (a, x) = (self.draw_regular(p, 1024, r, s), self.draw_column(p, 1024));
        for call in [&solve::CALL, &inverse::CALL] {
            let case = self.case(call, &[&a], 0, &x);
            let (reply, _) = ended(call, &case)?;
            self.tally.record(call, &case, reply);
        }
        Ok(())
    }

    fn takes_back(&mut self, a: &Factor) -> Result<(), String> {
        let x = self.draw_column(a.p, a.shape.n);
        let (sent, solved, inverted) = (self.applied(a, &x)?, self.solved(a, &x)?, self.inverted(a)?);
        let found = [self.solved(a, &sent)?, self.applied(a, &solved)?, self.applied(&inverted, &sent)?];
        let table = format!("P {} N {} orders {:?}", a.p, x.len(), a.orders());
        if found.iter().any(|column| *column != x) {
            return Err(format!("solve, apply and the inverse do not take each other back: {table}"));
        }
        if self.applied(&inverted, &x)? != solved {
            return Err(format!("the inverse sends a column elsewhere than solve: {table}"));
        }
        Ok(())
    }

    /// A times its inverse, and its inverse times A, is the identity, also by the product call.
    pub fn inverse_and_product(&mut self) -> Result<(), String> {
        let a = self.draw_one_regular(12, 4);
        let inverse = self.inverted(&a)?;
        let (right, left) = (self.accepted(&product::CALL, &a, &inverse)?, self.accepted(&product::CALL, &inverse, &a)?);
        same("A with its inverse", &[right, left], &Matrix::identity(a.p, a.shape.n))
    }

    /// The inverse of A transposed is that of A, transposed.
    pub fn inverse_transposed(&mut self) -> Result<(), String> {
        let a = self.draw_one_regular(20, 8);
        let (inverse, turned) = (self.inverted(&a)?, self.transposed(&a)?);
        let (one, other) = (self.transposed(&inverse)?, self.inverted(&turned)?);
        same("the inverse of A transposed", &[one, other], &inverse.matrix().transposed())
    }

    /// The inverse of cA is that of A over c.
    pub fn inverse_of_multiple(&mut self) -> Result<(), String> {
        let a = self.draw_one_regular(20, 8);
        let c = self.random.between(1, a.p - 1);
        let (multiple, inverse) = (self.multiple(c, &a)?, self.inverted(&a)?);
        let (one, other) = (self.inverted(&multiple)?, self.multiple(reciprocal(c, a.p), &inverse)?);
        same("the inverse of cA", &[one], &other.matrix())
    }
}
