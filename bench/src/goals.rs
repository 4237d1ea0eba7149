//! What is aimed at, at orders 4 and N 1024. Nothing fails where a goal is missed.

use crate::report::{Dense, Line};

pub const ORDER: u32 = 4;

/// The goals of a call: the ratio library / plain at most 1, the ratio FLINT / library at least this.
struct Goal {
    call: &'static str,
    flint: f64,
}

const GOALS: [Goal; 4] = [
    Goal { call: "solve", flint: 500.0 },
    Goal { call: "product", flint: 1000.0 },
    Goal { call: "inverse", flint: 1000.0 },
    Goal { call: "apply", flint: 8.0 },
];

pub fn has_goal(call: &str, order: u32) -> bool {
    order == ORDER && GOALS.iter().any(|goal| goal.call == call)
}

/// A row for each goal whose ratio was measured, the calls in the order of the goals.
pub fn rows(lines: &[Line], dense: &[Dense]) -> Vec<Vec<String>> {
    GOALS.iter().flat_map(|goal| [plain_row(goal, lines), flint_row(goal, dense)]).flatten().collect()
}

fn plain_row(goal: &Goal, lines: &[Line]) -> Option<Vec<String>> {
    let line = lines.iter().find(|line| line.call.name == goal.call && line.order == ORDER)?;
    let measured = hundredths(line.times.last_ratio());
    Some(row(&line.title(), "library / plain", "at most 1.00".into(), measured, measured <= 1.0))
}

fn flint_row(goal: &Goal, dense: &[Dense]) -> Option<Vec<String>> {
    let line = dense.iter().find(|line| line.call.name == goal.call)?;
    let measured = hundredths(*line.ratios.last()?);
    Some(row(&line.call.title(ORDER), "FLINT / library", format!("at least {}", goal.flint), measured, measured >= goal.flint))
}

fn row(title: &str, ratio: &str, goal: String, measured: f64, met: bool) -> Vec<String> {
    let met = if met { "met" } else { "missed" };
    vec![title.into(), ratio.into(), goal, format!("{measured:.2}"), met.into()]
}

/// As it is printed, so that what is met looks met.
fn hundredths(ratio: f64) -> f64 {
    (ratio * 100.0).round() / 100.0
}
