//! Every matrix and every table of a few residues, and every column: the answers are found by trying all columns.

use super::{Factor, Laws};
use crate::block::Block;
use crate::calls::{inverse, kernel, kernel_check, solve, solve_dense, Answer};
use crate::case::Case;
use crate::dense::{Matrix, Table};
use crate::layout::{Kind, Shape, KINDS};
use crate::refusals::Reply;
use crate::swept::Swept;
use crate::trial::ended;

/// Into how many trials each law is cut.
pub const PARTS: u64 = 16;

/// What is done with each table.
type Visit = fn(&mut Laws, &Factor) -> Result<(), String>;

impl Laws {
    /// Every matrix modulo 2 and 3 of at most three rows, in tables of orders 2.
    pub fn small_matrices(&mut self) -> Result<(), String> {
        self.each_matrix(Laws::every_column)
    }

    fn each_matrix(&mut self, visit: Visit) -> Result<(), String> {
        for (p, n) in [(2, 1), (2, 2), (2, 3), (3, 1), (3, 2), (3, 3)] {
            for number in self.part(p, n * n) {
                visit(self, &with_entries(p, n, &digits(p, n * n, number)))?;
            }
        }
        Ok(())
    }

    /// Every table modulo 2 of orders 1 and at most three rows, and modulo 3 of two rows.
    pub fn small_tables(&mut self) -> Result<(), String> {
        self.each_table(Laws::every_column)
    }

    fn each_table(&mut self, visit: Visit) -> Result<(), String> {
        for (p, n) in [(2, 1), (2, 2), (2, 3), (3, 2)] {
            let shape = Shape { n, r: 1, s: 1 };
            let used: Vec<usize> = (1..=n).flat_map(|k| shape.used_places(k)).collect();
            for number in self.part(p, used.len()) {
                let mut words = vec![u32::MAX; shape.table_words()];
                used.iter().zip(digits(p, used.len(), number)).for_each(|(&place, residue)| words[place] = residue);
                visit(self, &Factor { p, shape, words })?;
            }
        }
        Ok(())
    }

    /// The numbers of so many digits that belong to this trial.
    fn part(&self, p: u32, count: usize) -> impl Iterator<Item = u32> {
        (self.number as u32..p.pow(count as u32)).step_by(PARTS as usize)
    }

    fn every_column(&mut self, table: &Factor) -> Result<(), String> {
        let Factor { p, shape, words } = table;
        let (matrix, columns) = (table.matrix(), every(*p, shape.n));
        let sent: Vec<Vec<u32>> = columns.iter().map(|x| matrix.sends(x)).collect();
        let singular = least_corner_by_trial(&matrix);
        let swept = Swept::new(Table { p: *p, shape: *shape, words });
        assert_eq!(swept.as_ref().err(), singular.as_ref(), "the dense program finds another row");
        let case = self.case(&inverse::CALL, &[table], 0, &[]);
        let (reply, _) = ended(&inverse::CALL, &case)?;
        self.tally.record(&inverse::CALL, &case, reply);
        for column in &columns {
            let owed = match &swept {
                Ok(swept) => {
                    let mut found = (0..columns.len()).filter(|&x| sent[x] == *column);
                    let only = found.next().expect("a regular matrix sends a column to each");
                    assert!(found.next().is_none(), "a regular matrix sends two columns to one");
                    Answer { written: vec![(4, swept.work()), (5, columns[only].clone())], ..Answer::value(0) }
                }
                Err(row) => Answer::refused(Reply::zero_pivot(*row)),
            };
            let case = self.case(&solve::CALL, &[table], 0, column);
            self.answers(&solve::CALL, &case, &owed)?;
        }
        self.every_dense_column(table)
    }

    /// Every matrix modulo 2 of four rows, in tables of orders 3, by the dense solve.
    pub fn dense_small(&mut self) -> Result<(), String> {
        self.part(2, 16).try_for_each(|number| self.every_dense_column(&with_entries(2, 4, &digits(2, 16, number))))
    }

    /// A matrix is singular where it sends two columns to zeros.
    fn every_dense_column(&mut self, table: &Factor) -> Result<(), String> {
        let (matrix, columns) = (table.matrix(), every(table.p, table.shape.n));
        let sent: Vec<Vec<u32>> = columns.iter().map(|x| matrix.sends(x)).collect();
        let is_singular = sent.iter().filter(|column| column.iter().all(|&x| x == 0)).count() > 1;
        for column in &columns {
            let solution = (!is_singular).then(|| {
                let only =
                    sent.iter().position(|other| other == column).expect("a matrix that is not singular sends one to each");
                columns[only].clone()
            });
            assert_eq!(matrix.only_solution(column), solution, "the dense program finds another solution");
            let case = self.case(&solve_dense::CALL, &[table], 0, column);
            self.answers(&solve_dense::CALL, &case, &Answer::dense(matrix.n, solution))?;
        }
        Ok(())
    }

    /// The kernel of every matrix and table as above, and its check of every corner and every column.
    pub fn kernel_small(&mut self) -> Result<(), String> {
        self.each_matrix(Laws::every_kernel)?;
        self.each_table(Laws::every_kernel)
    }

    fn every_kernel(&mut self, table: &Factor) -> Result<(), String> {
        let (matrix, n) = (table.matrix(), table.shape.n);
        let kernel = least_corner_by_trial(&matrix).map(|k| {
            let mut shown = every(table.p, k).into_iter().filter(|column| shows(&matrix.corner(k), column));
            let only = shown.next().expect("the first singular corner is shown");
            assert!(shown.next().is_none(), "two columns show the first singular corner");
            only
        });
        let case = self.case(&kernel::CALL, &[table], 0, &[]);
        self.answers(&kernel::CALL, &case, &Answer::kernel(kernel))?;
        let columns = every(table.p, n);
        for k in 1..=n {
            let corner = matrix.corner(k);
            for column in &columns {
                let case = Case { k: k as u32, ..self.case(&kernel_check::CALL, &[table], 0, column) };
                let shown = shows(&corner, &column[..k]);
                self.answers(&kernel_check::CALL, &case, &Answer::value(u32::from(shown)))?;
            }
        }
        Ok(())
    }
}

/// Whether the last word of a column is 1 and the matrix sends it to zeros.
fn shows(matrix: &Matrix, column: &[u32]) -> bool {
    column.ends_with(&[1]) && is_zero(&matrix.sends(column))
}

fn is_zero(column: &[u32]) -> bool {
    column.iter().all(|&x| x == 0)
}

/// The least corner that sends a column other than zeros to zeros.
fn least_corner_by_trial(matrix: &Matrix) -> Option<usize> {
    (1..=matrix.n).find(|&k| {
        let corner = matrix.corner(k);
        every(matrix.p, k).iter().any(|x| !is_zero(x) && is_zero(&corner.sends(x)))
    })
}

fn every(p: u32, count: usize) -> Vec<Vec<u32>> {
    (0..p.pow(count as u32)).map(|number| digits(p, count, number)).collect()
}

fn digits(p: u32, count: usize, number: u32) -> Vec<u32> {
    (0..count as u32).map(|place| number / p.pow(place) % p).collect()
}

/// A table with these entries, of at least orders 2, and of one less than its rows: a and b are the identity, q and g of row k have
/// a 1 in place k, so that p of a row begins with its entries left of the diagonal, and h with those above it.
fn with_entries(p: u32, n: usize, entries: &[u32]) -> Factor {
    let order = 2.max(n - 1);
    let shape = Shape { n, r: order, s: order };
    let mut words = vec![u32::MAX; shape.table_words()];
    for k in 1..=n {
        let entry = |i: usize, j: usize| if i.max(j) > n { 0 } else { entries[(i - 1) * n + j - 1] };
        for kind in KINDS.into_iter().filter(|&kind| !shape.is_idle(kind, k)) {
            let residues = match kind {
                Kind::D => vec![entry(k, k)],
                Kind::P => (1..=order).map(|j| entry(k, j)).collect(),
                Kind::H => (1..=order).map(|i| entry(i, k)).collect(),
                Kind::Q | Kind::G => (1..=order).map(|place| u32::from(place == k)).collect(),
                Kind::A | Kind::B => Block::identity(p, order).residues.into_owned(),
            };
            words[shape.places(kind, k)].copy_from_slice(&residues);
        }
    }
    let table = Factor { p, shape, words };
    assert_eq!(table.matrix().entries, entries);
    table
}
