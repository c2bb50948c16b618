//! Writing beside the crate's write_nbt. Each side has read the document before, ours into a table, theirs into its tree, and writes into memory
//! that is used again. Ours checks the table at each call; the check by itself has a column.
use crate::goals::Goal;
use crate::growth::{self, Call};
use crate::harness::{each, Spread};
use crate::inputs::{odd_shapes, payloads, tiles, tiles_of_records, wide, Doc, Order, ORDERS};
use crate::library;
use crate::markdown::{self, grouped};
use crate::{quartz, Bench};
use std::hint::black_box;

pub fn section(bench: &mut Bench) {
    markdown::section("Writing", "write");
    markdown::caption("Documents:");
    head();
    for n in [10, 1_000, bench.plan.size(50_000, 5_000)] {
        let what = format!("tiles, {}", grouped(n));
        let ratios = row(bench, &what, &tiles(n));
        bench.goals.note(Goal::WriteTiles, ratios.hash, &format!("{what}, HashMap"));
        bench.goals.note(Goal::WriteTiles, ratios.index, &format!("{what}, IndexMap"));
    }
    for (what, doc) in payloads() {
        let ratios = row(bench, what, &doc);
        if what.contains("arrays") {
            bench.goals.note(Goal::WriteArrays, ratios.copy, what);
        }
    }
    markdown::caption("Hostile documents:");
    head();
    hostile(bench);
    growing(bench);
}

fn hostile(bench: &mut Bench) {
    let most = bench.plan.size(100_000, 10_000);
    for (before, n) in [(0, 1_000), (0, 100_000), (200, 10_000)] {
        for order in ORDERS.into_iter().filter(|_| n <= most) {
            let what = if before == 0 { "names of 7 bytes".into() } else { format!("{before} bytes before in common") };
            row(bench, &format!("one compound, {what}, {}, {}", order.name(), grouped(n)), &wide(n, before, 0, order));
        }
    }
    for (what, doc) in odd_shapes(bench.plan.size(1_000_000, 100_000)) {
        row(bench, &what, &doc);
    }
}

fn head() {
    markdown::head(&[
        "tree",
        "bytes",
        "tags",
        "ours, ns a tag",
        "the check in it",
        "HashMap, ns a tag",
        "HashMap / ours",
        "IndexMap, ns a tag",
        "IndexMap / ours",
        "ours / a copy",
    ]);
}

struct Ratios {
    hash: Spread,
    index: Spread,
    copy: Spread,
}

fn row(bench: &mut Bench, what: &str, d: &Doc) -> Ratios {
    let (mut table, mut out) = (d.table(), vec![0u8; d.bytes.len()]);
    assert_eq!(library::write(&d.bytes, &mut table, &mut out)[..3], [0, 0, out.len() as u64], "{what}");
    assert!(out == d.bytes, "{what}");
    let checked = table.clone();
    assert_eq!(library::is_table(&d.bytes, &checked)[..3], [0, 0, 1], "{what}");
    let (mut by_hash, mut by_index, mut copy) = (quartz::hash::writer(&d.bytes), quartz::index::writer(&d.bytes), out.clone());
    let times = bench.plan.measure(&mut [
        &mut || assert_eq!(library::write(black_box(&d.bytes), &mut table, &mut out)[0], 0),
        &mut || assert_eq!(library::is_table(black_box(&d.bytes), &checked)[0], 0),
        &mut by_hash,
        &mut by_index,
        &mut || black_box(&mut copy[..]).copy_from_slice(black_box(&d.bytes)),
    ]);
    let ratios = Ratios { hash: times.ratio(2, 0), index: times.ratio(3, 0), copy: times.ratio(0, 4) };
    markdown::row(&[
        what.into(),
        d.bytes.len().to_string(),
        d.tags.to_string(),
        each(times.of(0), d.tags),
        format!("{} ({:.0} %)", each(times.of(1), d.tags), 100.0 * times.of(1) / times.of(0)),
        each(times.of(2), d.tags),
        ratios.hash.to_string(),
        each(times.of(3), d.tags),
        ratios.index.to_string(),
        ratios.copy.to_string(),
    ]);
    ratios
}

fn growing(bench: &mut Bench) {
    markdown::caption("Growth, ns a record:");
    let sizes = growth::sizes(bench);
    growth::head("records", &sizes);
    for order in ORDERS {
        grows(bench, &format!("writing one compound, {}", order.name()), &sizes, |n| wide(n - 1, 0, 0, order), writing);
    }
    grows(bench, "writing tiles", &sizes, tiles_of_records, writing);
    grows(bench, "the check, tiles", &sizes, tiles_of_records, checking);
    grows(bench, "the check, one compound", &sizes, |n| wide(n - 1, 0, 0, Order::Sorted), checking);
}

fn grows(bench: &mut Bench, what: &str, sizes: &[usize], make: impl Fn(usize) -> Doc, call: fn(Doc) -> Call) {
    growth::row(bench, what, sizes.iter().map(|&n| call(make(n))).collect(), None);
}

fn writing(doc: Doc) -> Call {
    let (mut table, mut out) = (doc.table(), vec![0u8; doc.bytes.len()]);
    Call { pieces: doc.tags, call: Box::new(move || assert_eq!(library::write(black_box(&doc.bytes), &mut table, &mut out)[0], 0)) }
}

fn checking(doc: Doc) -> Call {
    let table = doc.table();
    Call { pieces: doc.tags, call: Box::new(move || assert_eq!(library::is_table(black_box(&doc.bytes), &table)[2], 1)) }
}
