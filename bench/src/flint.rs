//! The library's calls beside FLINT's on the same matrices in full, or on the same residues, where FLINT is installed. All that is
//! unsafe in FLINT's calls stands here.

use crate::calls::{Call, Leaves, Run};
use crate::goals::ORDER;
use crate::lent::{Lent, P, Q};
use crate::measure::{in_turn, median, time};
use crate::report::Dense;
use std::ffi::{c_char, c_int, CStr};
use std::time::{Duration, Instant};

const LEAST_ROUNDS: usize = 7;
const LEAST_TIME: Duration = Duration::from_secs(1);
/// In a round a program runs at least this long, and at least once.
const TURN: Duration = Duration::from_millis(20);

/// The matrices of a call as FLINT holds them, in flint.c.
enum Matrices {}

type DenseRun = unsafe extern "C" fn(*mut Matrices) -> c_int;

extern "C" {
    fn dense_version() -> *const c_char;
    fn dense_new(p: u32, n: u32, columns: u32, a: *const u32, b: *const u32) -> *mut Matrices;
    fn dense_free(dense: *mut Matrices);
    fn dense_words(dense: *const Matrices, words: *mut u32);
    fn dense_product(dense: *mut Matrices) -> c_int;
    fn dense_apply(dense: *mut Matrices) -> c_int;
    fn dense_solve(dense: *mut Matrices) -> c_int;
    fn dense_inverse(dense: *mut Matrices) -> c_int;
    fn fractions_find(
        p: u32,
        q: u32,
        n: u32,
        first: *const u32,
        second: *const u32,
        numerators: *mut i32,
        denominators: *mut u32,
    ) -> c_int;
}

/// The cases of each call that is measured beside FLINT.
pub struct Flint(Vec<Vec<Case>>);

impl Flint {
    /// All cases, checked.
    pub fn new(calls: &[&'static Call]) -> Option<Flint> {
        let mut cases: Vec<Vec<Case>> = calls.iter().filter_map(|call| cases(call)).collect();
        cases.iter_mut().flatten().for_each(Case::check);
        Some(Flint(cases))
    }

    pub fn version(&self) -> String {
        unsafe { CStr::from_ptr(dense_version()) }.to_string_lossy().into_owned()
    }

    pub fn measure(&mut self) -> Vec<Dense> {
        self.0.iter_mut().map(|cases| line(cases)).collect()
    }
}

/// The call at all sizes but N 1; none where it is not measured beside FLINT.
fn cases(call: &'static Call) -> Option<Vec<Case>> {
    let run: DenseRun = match call.name {
        "product" => dense_product,
        "apply" => dense_apply,
        "solve" | "solve_dense" => dense_solve,
        "inverse" => dense_inverse,
        "fractions" => return Some(call.sizes()[1..].iter().map(|&n| Case::fractions(call, n)).collect()),
        _ => return None,
    };
    Some(call.sizes()[1..].iter().map(|&n| Case::dense(call, run, n)).collect())
}

fn line(cases: &mut [Case]) -> Dense {
    let call = cases[0].call;
    let rounds: Vec<Vec<[f64; 2]>> = cases.iter_mut().map(Case::measure).collect();
    let ratios = rounds.iter().map(|rounds| median(rounds.iter().map(|[library, flint]| flint / library))).collect();
    let last = &rounds[rounds.len() - 1];
    let [library, flint] = [0, 1].map(|program| median(last.iter().map(|times| times[program])));
    Dense { call, ratios, library, flint }
}

/// A call on what it is lent, and on the same in FLINT's form.
struct Case {
    call: &'static Call,
    lent: Lent,
    held: Held,
}

enum Held {
    /// The matrices, and the words of FLINT's result.
    Dense(DenseRun, *mut Matrices, usize),
    /// FLINT's numerators and denominators.
    Fractions(Vec<i32>, Vec<u32>),
}

impl Case {
    fn dense(call: &'static Call, run: DenseRun, n: u32) -> Case {
        let lent = Lent::new(call, n, ORDER);
        let first = full(n, ORDER, &lent.first);
        let second = match call.leaves {
            Leaves::Joined => full(n, ORDER, &lent.second),
            Leaves::Column | Leaves::Dense => lent.column.clone(),
            _ => first.clone(),
        };
        let columns = second.len() as u32 / n;
        let matrices = unsafe { dense_new(P, n, columns, first.as_ptr(), second.as_ptr()) };
        Case { call, lent, held: Held::Dense(run, matrices, second.len()) }
    }

    fn fractions(call: &'static Call, n: u32) -> Case {
        let held = Held::Fractions(vec![0; n as usize], vec![0; n as usize]);
        Case { call, lent: Lent::new(call, n, 0), held }
    }

    /// Both have the same matrix, column or fractions.
    fn check(&mut self) {
        assert!(self.library().is_some() && self.flint().is_some(), "{} is refused", self.call.name);
        let same = match &self.held {
            Held::Dense(_, matrices, count) => self.is_dense_result(*matrices, *count),
            Held::Fractions(numerators, denominators) => (numerators, denominators) == (&self.lent.numerators, &self.lent.result),
        };
        assert!(same, "the library and FLINT differ in {} at N {}", self.call.name, self.lent.n);
    }

    fn is_dense_result(&self, matrices: *const Matrices, count: usize) -> bool {
        let mut words = vec![0; count];
        unsafe { dense_words(matrices, words.as_mut_ptr()) };
        let (n, result) = (self.lent.n, &self.lent.result);
        match self.call.leaves {
            Leaves::Joined => full(n, 2 * ORDER, result) == words,
            Leaves::Table => full(n, ORDER, result) == words,
            _ => *result == words,
        }
    }

    /// The rounds' times of the library and of FLINT, which take turns in going first.
    fn measure(&mut self) -> Vec<[f64; 2]> {
        let mut rounds = Vec::new();
        let start = Instant::now();
        while rounds.len() < LEAST_ROUNDS || start.elapsed() < LEAST_TIME {
            let library_first = rounds.len() % 2 == 0;
            rounds.push(in_turn(library_first, Case::library, Case::flint, |run| self.turn(run)));
        }
        rounds
    }

    /// The median time of one program's calls in a round.
    fn turn(&mut self, run: Run<Case>) -> f64 {
        let mut times = Vec::new();
        let start = Instant::now();
        while times.is_empty() || start.elapsed() < TURN {
            times.push(time(run, self));
        }
        median(times.into_iter())
    }

    fn library(&mut self) -> Option<u32> {
        (self.call.library)(&mut self.lent)
    }

    fn flint(&mut self) -> Option<u32> {
        let Lent { n, first, second, .. } = &self.lent;
        let (first, second) = (first.as_ptr(), second.as_ptr());
        let accepted = match &mut self.held {
            Held::Dense(run, matrices, _) => unsafe { run(*matrices) },
            Held::Fractions(numerators, denominators) => unsafe {
                fractions_find(P, Q, *n, first, second, numerators.as_mut_ptr(), denominators.as_mut_ptr())
            },
        };
        (accepted != 0).then_some(0)
    }
}

impl Drop for Case {
    fn drop(&mut self) {
        if let Held::Dense(_, matrices, _) = self.held {
            unsafe { dense_free(matrices) }
        }
    }
}

/// The matrix behind a table.
fn full(n: u32, order: u32, table: &[u32]) -> Vec<u32> {
    let mut matrix = vec![0; n as usize * n as usize];
    plain::matrix(P, n, order, order, table, &mut matrix).expect("a table of residues");
    matrix
}
