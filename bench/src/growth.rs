//! Our own times as the input grows: the sizes take turns as sides do.
use crate::goals::Goal;
use crate::harness::{figure, Spread};
use crate::{markdown, Bench};

/// A call on one input, and the records or bytes that its time is divided by.
pub struct Call {
    pub pieces: usize,
    pub call: Box<dyn FnMut()>,
}

/// How many records there are, from 10^3 to 10^6, or to 10^5 in a quick run.
pub fn sizes(bench: &Bench) -> Vec<usize> {
    let last = if bench.plan.quick { 5 } else { 6 };
    (3..=last).map(|e| 10usize.pow(e)).collect()
}

pub fn head(what: &str, sizes: &[usize]) {
    let mut columns = vec![what.to_string()];
    columns.extend(sizes.iter().map(|n| markdown::grouped(*n)));
    columns.push("the last over the first".into());
    markdown::head(&columns.iter().map(String::as_str).collect::<Vec<_>>());
}

/// The goal, where it can be judged: goals speak of 10^6 records.
pub fn judged(sizes: &[usize], goal: Goal) -> Option<Goal> {
    (sizes.last() == Some(&1_000_000)).then_some(goal)
}

/// One row, whose factor is noted for the goal. Answers the nanoseconds a piece, size by size.
pub fn row(bench: &mut Bench, what: &str, mut calls: Vec<Call>, goal: Option<Goal>) -> Vec<Spread> {
    let pieces: Vec<usize> = calls.iter().map(|c| c.pieces).collect();
    let mut sides: Vec<&mut dyn FnMut()> = Vec::new();
    for c in &mut calls {
        sides.push(&mut *c.call);
    }
    let times = bench.plan.measure(&mut sides);
    let last = pieces.len() - 1;
    let factor = times.ratio(last, 0).times(pieces[0] as f64 / pieces[last] as f64);
    let by_size: Vec<Spread> = (0..=last).map(|i| times.each(i, pieces[i])).collect();
    let mut cells = vec![what.to_string()];
    cells.extend(by_size.iter().map(|time| figure(time.median)));
    cells.push(factor.to_string());
    markdown::row(&cells);
    if let Some(goal) = goal {
        bench.goals.note(goal, factor, what);
    }
    by_size
}
