//! Rescuing beside reading the same bytes, which are cut and refused with 1, and beside writing what was rescued. A rescue reads, walks what came
//! once more, and puts it, without the checks of a write. All memory is lent and used again.
use crate::goals::Goal;
use crate::growth::{self, Call};
use crate::harness::{each, Spread};
use crate::inputs::{list_of, nested, payloads, tiles, tiles_of_records, wide, Doc, Order, ORDERS};
use crate::library::{self, Answer, WORDS};
use crate::markdown::{self, grouped};
use crate::Bench;
use std::hint::black_box;

/// The lists and compounds that may be open at once.
const DEEPEST: usize = 512;

pub fn section(bench: &mut Bench) {
    markdown::section("Rescuing", "rescue");
    markdown::caption("Documents without their last byte:");
    head();
    for n in [10, 1_000, bench.plan.size(50_000, 5_000)] {
        many(bench, &format!("tiles, {}", grouped(n)), Cut::last_byte(tiles(n)));
    }
    many(bench, "list of 1,000,000 bytes", Cut::last_byte(list_of(1, 1_000_000, &[5])));
    // a read passes over long payloads, and a rescue copies them
    for (what, doc) in payloads() {
        row(bench, what, Cut::last_byte(doc));
    }
    let most = bench.plan.size(1_000_000, 10_000);
    for order in ORDERS {
        for n in [1_000, 10_000, 100_000, 1_000_000].into_iter().filter(|&n| n <= most) {
            many(bench, &format!("one compound, {}, {}", order.name(), grouped(n)), Cut::last_byte(wide(n, 0, 0, order)));
        }
    }
    many(bench, "100 paths of compounds, 512 deep", Cut::last_byte(nested(100, 512)));
    markdown::caption("Documents of which half came, and all is open:");
    head();
    many(bench, "compounds, 512 deep", Cut::innermost(512));
    many(bench, "list of 1,000,000 bytes", Cut::half_of_a_list(1_000_000));
    growing(bench);
}

/// A document that is cut, with memory for its rescue.
pub struct Cut {
    bytes: Vec<u8>,
    /// The records that a read of it begins.
    records: usize,
    table: Vec<u32>,
    out: Vec<u8>,
    changes: Vec<u32>,
}

impl Cut {
    fn of(mut bytes: Vec<u8>, length: usize, records: usize) -> Cut {
        bytes.truncate(length);
        let (table, out) = (vec![0; WORDS * records], vec![0; length + DEEPEST]);
        Cut { bytes, records, table, out, changes: vec![0; 3 * DEEPEST] }
    }

    fn last_byte(whole: Doc) -> Cut {
        let length = whole.bytes.len() - 1;
        Cut::of(whole.bytes, length, whole.tags)
    }

    /// Compounds in each other, of which no end byte came.
    pub fn innermost(deep: usize) -> Cut {
        let whole = nested(1, deep);
        let length = whole.bytes.len() - deep;
        Cut::of(whole.bytes, length, whole.tags)
    }

    /// The read begins a record for the element that is missing.
    fn half_of_a_list(n: usize) -> Cut {
        let whole = list_of(1, n, &[5]);
        let length = whole.bytes.len() - 1 - n / 2;
        Cut::of(whole.bytes, length, whole.tags - n / 2 + 1)
    }

    pub fn rescue(&mut self) -> Answer {
        library::rescue(black_box(&self.bytes), &mut self.table, &mut self.out, &mut self.changes)
    }

    /// The document that a rescue gives, and how many containers were open.
    fn saved(&mut self) -> (Vec<u8>, u64) {
        let answer = self.rescue();
        assert_eq!(answer[0], 0);
        (self.out[..answer[2] as usize].to_vec(), answer[3])
    }
}

fn head() {
    markdown::head(&[
        "document",
        "bytes",
        "records",
        "open",
        "rescuing, ns a record",
        "reading, ns a record",
        "rescuing / reading",
        "writing, ns a record",
        "rescuing / writing",
    ]);
}

/// A row of the goal.
fn many(bench: &mut Bench, what: &str, cut: Cut) {
    let ratio = row(bench, what, cut);
    bench.goals.note(Goal::Rescue, ratio, what);
}

/// A row, whose time over a read's is answered.
fn row(bench: &mut Bench, what: &str, mut cut: Cut) -> Spread {
    let (records, bytes) = (cut.records, cut.bytes.clone());
    let (saved, open) = cut.saved();
    let (mut table, mut again, mut out) = (vec![0; WORDS * records], vec![0; WORDS * records], vec![0; saved.len()]);
    let read = library::read(&saved, &mut table);
    assert_eq!(read[..3], [0, 0, saved.len() as u64], "{what}");
    table.truncate(WORDS * read[3] as usize);
    let times = bench.plan.measure(&mut [
        &mut || assert_eq!(cut.rescue()[0], 0),
        &mut || assert_eq!(library::read(black_box(&bytes), &mut again)[0], 1),
        &mut || assert_eq!(library::write(black_box(&saved), &mut table, &mut out)[0], 0),
    ]);
    markdown::row(&[
        what.into(),
        bytes.len().to_string(),
        records.to_string(),
        open.to_string(),
        each(times.of(0), records),
        each(times.of(1), records),
        times.ratio(0, 1).to_string(),
        each(times.of(2), records),
        times.ratio(0, 2).to_string(),
    ]);
    times.ratio(0, 1)
}

fn growing(bench: &mut Bench) {
    markdown::caption("Growth, ns a record:");
    let sizes = growth::sizes(bench);
    growth::head("records", &sizes);
    let goal = growth::judged(&sizes, Goal::RescueGrowth);
    grows(bench, "rescuing tiles", &sizes, tiles_of_records, goal);
    grows(bench, "rescuing one compound, sorted", &sizes, |n| wide(n - 1, 0, 0, Order::Sorted), goal);
    grows(bench, "rescuing one compound, random", &sizes, |n| wide(n - 1, 0, 0, Order::Random), None);
}

fn grows(bench: &mut Bench, what: &str, sizes: &[usize], make: impl Fn(usize) -> Doc, goal: Option<Goal>) {
    let calls = sizes.iter().map(|&n| {
        let mut cut = Cut::last_byte(make(n));
        Call { pieces: cut.records, call: Box::new(move || assert_eq!(cut.rescue()[0], 0)) }
    });
    growth::row(bench, what, calls.collect(), goal);
}
