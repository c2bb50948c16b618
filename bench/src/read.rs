//! Reading beside the crate's read_nbt. Ours lends a table that is used again; theirs builds its tree and drops it.
use crate::goals::Goal;
use crate::growth::{self, Call};
use crate::harness::{each, Spread};
use crate::inputs::{list_of, odd_shapes, payloads, tiles, tiles_of_records, wide, Doc, Order, ORDERS};
use crate::library::{self, MOST_RECORDS, WORDS};
use crate::markdown::{self, grouped};
use crate::{quartz, Bench};
use std::hint::black_box;

pub fn section(bench: &mut Bench) {
    markdown::section("Reading", "read");
    let mut table = vec![0; WORDS * MOST_RECORDS];
    markdown::caption("Documents:");
    head();
    for n in [10, 1_000, bench.plan.size(50_000, 5_000)] {
        let what = format!("tiles, {}", grouped(n));
        for (map, ratio) in row(bench, &what, &tiles(n), &mut table) {
            bench.goals.note(Goal::ReadTiles, ratio, &format!("{what}, {map}"));
        }
    }
    row(bench, "list of 1,000,000 bytes", &list_of(1, 1_000_000, &[5]), &mut table);
    for (what, doc) in payloads() {
        row(bench, what, &doc, &mut table);
    }
    markdown::caption("Hostile documents:");
    head();
    hostile(bench, &mut table);
    growing(bench);
}

/// One compound's names: what they have in common, bytes of that before and behind the digits that tell them apart, and how many there are.
type Names = (&'static str, usize, usize, &'static [usize]);

const NAMES: [Names; 3] = [
    ("names of 7 bytes", 0, 0, &[10, 100, 1_000, 10_000, 100_000, 1_000_000]),
    ("200 bytes before in common", 200, 0, &[10, 1_000, 60_000]),
    ("20 before and 20 behind in common", 20, 20, &[1_000, 100_000]),
];

fn hostile(bench: &mut Bench, table: &mut [u32]) {
    let most = bench.plan.size(1_000_000, 10_000);
    for (what, before, after, sizes) in NAMES {
        for order in ORDERS {
            for &n in sizes.iter().filter(|&&n| n <= most) {
                let name = format!("one compound, {what}, {}, {}", order.name(), grouped(n));
                row(bench, &name, &wide(n, before, after, order), table);
            }
        }
    }
    for (what, doc) in odd_shapes(bench.plan.size(1_000_000, 100_000)) {
        row(bench, &what, &doc, table);
    }
}

fn head() {
    markdown::head(&[
        "document",
        "bytes",
        "tags",
        "ours, ns a tag",
        "HashMap, ns a tag",
        "HashMap / ours",
        "IndexMap, ns a tag",
        "IndexMap / ours",
        "ours / a copy",
    ]);
}

/// One document; the crate's times over ours, by map.
fn row(bench: &mut Bench, what: &str, d: &Doc, table: &mut [u32]) -> [(&'static str, Spread); 2] {
    let answer = library::read(&d.bytes, table);
    assert_eq!((answer[0], answer[2], answer[3]), (0, d.bytes.len() as u64, d.tags as u64), "{what}");
    let mut out = vec![0u8; d.bytes.len()];
    let times = bench.plan.measure(&mut [
        &mut || assert_eq!(library::read(black_box(&d.bytes), table)[0], 0),
        &mut || quartz::hash::read(black_box(&d.bytes)),
        &mut || quartz::index::read(black_box(&d.bytes)),
        &mut || black_box(&mut out[..]).copy_from_slice(black_box(&d.bytes)),
    ]);
    let ratios = [("HashMap", times.ratio(1, 0)), ("IndexMap", times.ratio(2, 0))];
    for (map, ratio) in ratios {
        bench.goals.note(Goal::ReadNeverSlower, ratio, &format!("{what}, {map}"));
    }
    markdown::row(&[
        what.into(),
        d.bytes.len().to_string(),
        d.tags.to_string(),
        each(times.of(0), d.tags),
        each(times.of(1), d.tags),
        ratios[0].1.to_string(),
        each(times.of(2), d.tags),
        ratios[1].1.to_string(),
        times.ratio(0, 3).to_string(),
    ]);
    ratios
}

fn growing(bench: &mut Bench) {
    markdown::caption("Growth, ns a record:");
    let sizes = growth::sizes(bench);
    growth::head("records", &sizes);
    let one = |order: Order| move |n: usize| wide(n - 1, 0, 0, order);
    grows(bench, "tiles", &sizes, tiles_of_records, None);
    grows(bench, "one compound, sorted", &sizes, one(Order::Sorted), Some(Goal::ReadGrowthSorted));
    grows(bench, "one compound, reversed", &sizes, one(Order::Reversed), None);
    grows(bench, "one compound, random", &sizes, one(Order::Random), Some(Goal::ReadGrowthRandom));
}

fn grows(bench: &mut Bench, what: &str, sizes: &[usize], make: impl Fn(usize) -> Doc, goal: Option<Goal>) {
    let calls = sizes.iter().map(|&n| {
        let doc = make(n);
        let mut table = vec![0; WORDS * doc.tags];
        Call { pieces: doc.tags, call: Box::new(move || assert_eq!(library::read(black_box(&doc.bytes), &mut table)[0], 0)) }
    });
    growth::row(bench, what, calls.collect(), goal.and_then(|goal| growth::judged(sizes, goal)));
}
