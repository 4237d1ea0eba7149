//! The identities of M-111: inverses of products and of inverses, transposes of products, pivots of transposes, and solving
//! through a product. The library computes both sides; they are compared with each other and with the dense program.

use super::drawn::{Both, One, Two};
use super::{same, Factor, Laws};
use crate::calls::{inverse, product, solve, Answer, Call};
use crate::dense::Matrix;
use crate::eliminated::Factors;
use crate::refusals::Reply;

/// Up to this size all entries are compared with dense products and inverses, above it the columns that tables send columns to.
const DENSE_SIZE: usize = 256;
const COLUMNS: usize = 6;

fn is_dense(table: &Factor) -> bool {
    table.shape.n <= DENSE_SIZE
}

/// The row of the first zero pivot by dense elimination, above the size for that by the papers' recurrence.
fn zero_pivot(table: &Factor) -> Option<usize> {
    if is_dense(table) {
        Factors::new(&table.matrix()).err()
    } else {
        table.zero_pivot()
    }
}

/// The dense product, up to the size for it, and the row of its first zero pivot.
fn dense_product(Two { a, b, product }: &Two) -> Result<(Option<Matrix>, Option<usize>), String> {
    let matrix = is_dense(a).then(|| a.matrix().times(&b.matrix()));
    let row = matrix.as_ref().map_or_else(|| a.times(b).zero_pivot(), |matrix| Factors::new(matrix).err());
    product.check(row).map(|()| (matrix, row))
}

impl Laws {
    /// The inverse of AB, where it is accepted, and the inverse of B times that of A stand for one matrix.
    pub fn inverse_of_product(&mut self) -> Result<(), String> {
        let drawn = self.draw_pair();
        self.inverts_backwards(drawn)
    }

    /// The same up to N 1,024.
    pub fn inverse_of_product_large(&mut self) -> Result<(), String> {
        let drawn = self.draw_large_pair();
        self.inverts_backwards(drawn)
    }

    /// Where AB has a zero pivot its row is named, and the product of the inverses is accepted all the same.
    fn inverts_backwards(&mut self, drawn: Both) -> Result<(), String> {
        let two = self.draw_factors(drawn);
        let ((dense, row), Two { a, b, .. }) = (dense_product(&two)?, &two);
        let ab = self.accepted(&product::CALL, a, b)?;
        let inverse = self.inverse_known(&ab, row)?;
        let (inverse_a, inverse_b) = (self.inverse_known(a, zero_pivot(a))?, self.inverse_known(b, zero_pivot(b))?);
        let (Some(inverse_a), Some(inverse_b)) = (inverse_a, inverse_b) else {
            self.tally.law("inverse_of_product, A or B refused");
            return Ok(());
        };
        self.tally.law(if row.is_none() { "inverse_of_product, all accepted" } else { "inverse_of_product, AB refused" });
        let product = self.accepted(&product::CALL, &inverse_b, &inverse_a)?;
        let found: Vec<Factor> = [product].into_iter().chain(inverse).collect();
        if let Some(matrix) = dense {
            return same("the inverse of AB", &found, &matrix.inverse().expect("A and B have no zero pivots"));
        }
        let lists: Vec<Vec<&Factor>> = found.iter().map(|table| vec![table]).collect();
        self.send_alike("the inverse of AB", a, &lists)?;
        self.send_alike("AB after its inverse", a, &[vec![], vec![&found[0], b, a]])
    }

    /// The inverse of the inverse, where it is accepted, stands for the first matrix.
    pub fn inverse_twice(&mut self) -> Result<(), String> {
        let drawn = self.draw_one();
        self.inverts_back(drawn)
    }

    /// The same up to N 1,024.
    pub fn inverse_twice_large(&mut self) -> Result<(), String> {
        let drawn = self.draw_large_one();
        self.inverts_back(drawn)
    }

    /// Where the inverse has a zero pivot its row is named.
    fn inverts_back(&mut self, drawn: One) -> Result<(), String> {
        let (a, known) = self.draw_inverse(drawn);
        let inverse = self.inverted(&a)?;
        let dense = is_dense(&a).then(|| a.matrix());
        let row = match &dense {
            Some(matrix) => {
                let owed = matrix.inverse().expect("the table has no zero pivots");
                same("the inverse", std::slice::from_ref(&inverse), &owed)?;
                Factors::new(&owed).err()
            }
            None => inverse.zero_pivot(),
        };
        known.check(row)?;
        self.tally.law(if row.is_none() { "inverse_twice, accepted" } else { "inverse_twice, refused" });
        match (self.inverse_known(&inverse, row)?, dense) {
            (Some(twice), Some(matrix)) => same("the inverse of the inverse", &[twice], &matrix),
            (Some(twice), None) => self.send_alike("the inverse of the inverse", &a, &[vec![&a], vec![&twice]]),
            (None, _) => Ok(()),
        }
    }

    /// AB transposed is B transposed times A transposed.
    pub fn transposed_product(&mut self) -> Result<(), String> {
        let drawn = self.draw_pair();
        self.transposes_backwards(drawn)
    }

    /// The same up to N 1,024.
    pub fn transposed_product_large(&mut self) -> Result<(), String> {
        let drawn = self.draw_large_pair();
        self.transposes_backwards(drawn)
    }

    fn transposes_backwards(&mut self, (p, n, [r1, s1, r2, s2]): Both) -> Result<(), String> {
        let (a, b) = (self.draw(p, n, r1, s1), self.draw(p, n, r2, s2));
        let ab = self.accepted(&product::CALL, &a, &b)?;
        let (turned, turned_a, turned_b) = (self.transposed(&ab)?, self.transposed(&a)?, self.transposed(&b)?);
        let product = self.accepted(&product::CALL, &turned_b, &turned_a)?;
        if is_dense(&a) {
            let owed = a.matrix().times(&b.matrix()).transposed();
            return same("AB transposed", &[turned, product], &owed);
        }
        self.send_alike("AB transposed", &a, &[vec![&turned], vec![&product], vec![&turned_a, &turned_b]])
    }

    /// A table and its transpose have their first zero pivots in one row, or none: solve and inverse reply alike to both.
    pub fn transposed_pivots(&mut self) -> Result<(), String> {
        let drawn = self.draw_one();
        self.pivots_alike(drawn)
    }

    /// The same up to N 1,024.
    pub fn transposed_pivots_large(&mut self) -> Result<(), String> {
        let drawn = self.draw_large_one();
        self.pivots_alike(drawn)
    }

    fn pivots_alike(&mut self, drawn: One) -> Result<(), String> {
        let (a, known) = self.draw_pivots(drawn);
        let (turned, row, column) = (self.transposed(&a)?, zero_pivot(&a), self.draw_column(a.p, a.shape.n));
        known.check(row)?;
        self.tally.law(if row.is_none() { "transposed_pivots, accepted" } else { "transposed_pivots, refused" });
        for call in [&solve::CALL, &inverse::CALL] {
            self.known(call, &a, &column, row)?;
            self.known(call, &turned, &column, row)?;
        }
        Ok(())
    }

    /// Where all three are accepted, solving with AB gives what solving with A, and with B what comes of that, does.
    pub fn solve_through(&mut self) -> Result<(), String> {
        let drawn = self.draw_pair();
        self.solves_through(drawn)
    }

    /// The same up to N 1,024.
    pub fn solve_through_large(&mut self) -> Result<(), String> {
        let drawn = self.draw_large_pair();
        self.solves_through(drawn)
    }

    /// Where AB has a zero pivot its row is named.
    fn solves_through(&mut self, drawn: Both) -> Result<(), String> {
        let two = self.draw_factors(drawn);
        let ((dense, row), Two { a, b, .. }) = (dense_product(&two)?, &two);
        let column = self.draw_column(a.p, a.shape.n);
        let ab = self.accepted(&product::CALL, a, b)?;
        let at_once = self.known(&solve::CALL, &ab, &column, row)?;
        let halfway = self.known(&solve::CALL, a, &column, zero_pivot(a))?;
        let found = match halfway {
            Some(halfway) => self.known(&solve::CALL, b, &halfway, zero_pivot(b))?,
            None => None,
        };
        let Some(found) = found else {
            self.tally.law("solve_through, A or B refused");
            return Ok(());
        };
        self.tally.law(if row.is_none() { "solve_through, all accepted" } else { "solve_through, AB refused" });
        let sent = match dense {
            Some(matrix) => matrix.sends(&found),
            None => {
                let sent = self.applied(b, &found)?;
                self.applied(a, &sent)?
            }
        };
        let tables = format!("P {} N {} orders {:?} {:?}", a.p, column.len(), a.orders(), b.orders());
        if sent != column {
            return Err(format!("AB sends the solution by A and then B elsewhere: {tables}"));
        }
        if at_once.is_some_and(|at_once| at_once != found) {
            return Err(format!("AB has another solution than A and then B: {tables}"));
        }
        Ok(())
    }

    /// Runs solve or inverse on a table whose first zero pivot is known: refused with its row, else accepted.
    fn known(&mut self, call: &Call, table: &Factor, column: &[u32], row: Option<usize>) -> Result<Option<Vec<u32>>, String> {
        if let Some(row) = row {
            let case = self.case(call, &[table], 0, column);
            return self.answers(call, &case, &Answer::refused(Reply::zero_pivot(row))).map(|()| None);
        }
        let words = self.call(call, &[table], 0, column)?;
        words.map(Some).ok_or_else(|| format!("{} refuses a table without zero pivots", call.name))
    }

    /// The inverse's table, where the table has no zero pivot.
    fn inverse_known(&mut self, table: &Factor, row: Option<usize>) -> Result<Option<Factor>, String> {
        let words = self.known(&inverse::CALL, table, &[], row)?;
        Ok(words.map(|words| Factor { words, ..*table }))
    }

    /// The tables of each list, one after another, send columns where those of every other list send them.
    fn send_alike(&mut self, what: &str, of: &Factor, lists: &[Vec<&Factor>]) -> Result<(), String> {
        let (p, n) = (of.p, of.shape.n);
        for _ in 0..COLUMNS {
            let column = self.draw_column(p, n);
            let mut ends = vec![];
            for list in lists {
                ends.push(list.iter().try_fold(column.clone(), |column, table| self.applied(table, &column))?);
            }
            if ends.iter().any(|end| *end != ends[0]) {
                return Err(format!("{what}: a column is sent elsewhere, P {p} N {n} orders {:?}", of.orders()));
            }
        }
        Ok(())
    }
}
