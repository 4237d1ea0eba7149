//! Times of a call at several sizes, by both programs in turn, so that what disturbs the machine disturbs both.

use crate::calls::{Call, Run, OTHER};
use crate::clock;
use crate::lent::Lent;
use std::time::{Duration, Instant};

/// A call on tables of one order, at every size.
pub struct Case {
    pub call: &'static Call,
    pub order: u32,
    lent: Vec<Lent>,
}

/// At least so many rounds, for at least this time.
pub struct Effort {
    pub rounds: usize,
    pub time: Duration,
}

/// The seconds of one call, the mean of a round's two.
#[derive(Clone, Copy, Default)]
pub struct Pair {
    pub library: f64,
    pub other: f64,
}

/// A pair for each size.
type Round = Vec<Pair>;

/// The rounds of a case.
pub struct Times {
    pub rounds: Vec<Round>,
}

impl Case {
    pub fn new(call: &'static Call, order: u32) -> Case {
        Case { call, order, lent: call.sizes().iter().map(|&n| Lent::new(call, n, order)).collect() }
    }

    /// Both programs accept, and leave the same words and the same value.
    pub fn check(&mut self) {
        let (call, title) = (self.call, self.call.title(self.order));
        for lent in &mut self.lent {
            let [other, library] = [call.other, call.library].map(|run| {
                lent.take_written();
                (run(lent), lent.take_written())
            });
            for (program, left) in [(OTHER, &other), ("library", &library)] {
                assert!(left.0.is_some(), "the {program} refuses {title} at N {}", lent.n);
            }
            assert!(library == other, "the library and the {OTHER} differ in {title} at N {}", lent.n);
        }
    }

    pub fn measure(&mut self, effort: Effort) -> Times {
        let mut rounds = Vec::new();
        let start = Instant::now();
        while rounds.len() < effort.rounds || start.elapsed() < effort.time {
            rounds.push(self.round());
        }
        Times { rounds }
    }

    /// Each program once at every size, the library first, then once more, the other program first.
    fn round(&mut self) -> Round {
        let mut round = vec![Pair::default(); self.lent.len()];
        for library_first in [true, false] {
            for (pair, lent) in round.iter_mut().zip(&mut self.lent) {
                let [library, other] = in_turn(library_first, self.call.library, self.call.other, |run| time(run, lent));
                pair.library += library / 2.0;
                pair.other += other / 2.0;
            }
        }
        round
    }
}

impl Times {
    /// The median time at a size.
    pub fn time(&self, size: usize, by: fn(&Pair) -> f64) -> f64 {
        median(self.rounds.iter().map(|round| by(&round[size])))
    }

    /// The median of the rounds' ratios library / other.
    pub fn ratio(&self, size: usize) -> f64 {
        median(self.rounds.iter().map(|round| round[size].library / round[size].other))
    }

    /// The same at the last size.
    pub fn last_ratio(&self) -> f64 {
        self.ratio(self.rounds[0].len() - 1)
    }

    /// The time at a size less that at N 1, for each unit that the time grows with.
    pub fn cost(&self, size: usize, call: &Call, by: fn(&Pair) -> f64) -> f64 {
        median(self.rounds.iter().map(|round| cost(round, size, call, by)))
    }

    /// The median of the rounds' ratios of this cost to that at the first size after N 1.
    pub fn growth(&self, size: usize, call: &Call, by: fn(&Pair) -> f64) -> f64 {
        median(self.rounds.iter().map(|round| cost(round, size, call, by) / cost(round, 1, call, by)))
    }
}

fn cost(round: &[Pair], size: usize, call: &Call, by: fn(&Pair) -> f64) -> f64 {
    (by(&round[size]) - by(&round[0])) / call.units(call.sizes()[size])
}

/// What both programs take by the same means, in this order or the other.
pub fn in_turn<T>(one_first: bool, one: Run<T>, two: Run<T>, mut measure: impl FnMut(Run<T>) -> f64) -> [f64; 2] {
    if one_first {
        [measure(one), measure(two)]
    } else {
        let two = measure(two);
        [measure(one), two]
    }
}

pub fn time<T>(run: Run<T>, lent: &mut T) -> f64 {
    let start = clock::now();
    let value = run(lent);
    let time = clock::now() - start;
    assert!(value.is_some(), "a call is refused");
    time
}

pub fn median(values: impl Iterator<Item = f64>) -> f64 {
    let mut values: Vec<f64> = values.collect();
    values.sort_by(f64::total_cmp);
    (values[(values.len() - 1) / 2] + values[values.len() / 2]) / 2.0
}
