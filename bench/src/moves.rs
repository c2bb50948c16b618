//! Kept lines moved from eight words a record to nine and back, beside a copy of the bytes that a move writes. All memory is lent and used again.
use crate::goals::Goal;
use crate::growth::{self, Call};
use crate::harness::each;
use crate::inputs::{tiles, tiles_of_records, wide, Doc, Order};
use crate::library::{self, Answer, LINE, OLD_LINE};
use crate::lines::lines_of;
use crate::markdown::{self, grouped};
use crate::worst::{self, Words};
use crate::Bench;
use std::hint::black_box;

pub fn section(bench: &mut Bench) {
    markdown::section("Moves", "moves");
    markdown::caption("Lines moved, ns a record:");
    head();
    for n in [10, 1_000, bench.plan.size(50_000, 5_000)] {
        row(bench, &format!("tiles, {}", grouped(n)), &Kept::of(&tiles(n)));
    }
    let sizes = growth::sizes(bench);
    for (what, make) in SHAPES {
        for &n in &sizes {
            row(bench, &format!("{what}, {}", grouped(n)), &make(n));
        }
    }
    growing(bench, &sizes);
}

/// The lines of one table in both widths, and the length of its document.
pub struct Kept {
    pub doc_len: usize,
    pub old: Vec<u8>,
    pub new: Vec<u8>,
}

impl Kept {
    fn new(doc_len: usize, words: &[u32]) -> Kept {
        let new = lines_of(words);
        let old = new.chunks_exact(LINE).flat_map(|line| line[..OLD_LINE - 1].iter().chain(b"\n")).copied().collect();
        Kept { doc_len, old, new }
    }

    fn of(doc: &Doc) -> Kept {
        Kept::new(doc.bytes.len(), &doc.table())
    }

    /// One compound of n - 1 entries.
    fn flat(n: usize) -> Kept {
        Kept::of(&wide(n - 1, 0, 0, Order::Sorted))
    }

    /// So many compounds in each other, which no reader gives above 512: depth is no part of what makes a table.
    pub fn path(n: usize) -> Kept {
        Kept::new(worst::DOC.len(), &Words::path(n).words)
    }

    fn records(&self) -> usize {
        self.new.len() / LINE
    }
}

/// The tables that are made with any number of records.
const SHAPES: [(&str, fn(usize) -> Kept); 2] = [("one compound", Kept::flat), ("one path", Kept::path)];

/// A move that is to be accepted.
fn moved(answer: Answer, out: &[u8]) {
    assert_eq!(answer[..3], [0, 0, out.len() as u64]);
}

fn head() {
    markdown::head(&["table", "records", "up", "a copy, 73 bytes", "up / a copy", "down", "a copy, 65 bytes", "down / a copy"]);
}

fn row(bench: &mut Bench, what: &str, kept: &Kept) {
    let Kept { doc_len, old, new } = kept;
    let (mut up, mut down) = (vec![0; new.len()], vec![0; old.len()]);
    let (mut new_copy, mut old_copy) = (new.clone(), old.clone());
    let times = bench.plan.measure(&mut [
        &mut || moved(library::lines_up(*doc_len, black_box(old), &mut up), new),
        &mut || black_box(&mut new_copy[..]).copy_from_slice(black_box(new)),
        &mut || moved(library::lines_down(*doc_len, black_box(new), &mut down), old),
        &mut || black_box(&mut old_copy[..]).copy_from_slice(black_box(old)),
    ]);
    assert!(up == *new && down == *old, "{what}");
    let records = kept.records();
    markdown::row(&[
        what.into(),
        records.to_string(),
        each(times.of(0), records),
        each(times.of(1), records),
        times.ratio(0, 1).to_string(),
        each(times.of(2), records),
        each(times.of(3), records),
        times.ratio(2, 3).to_string(),
    ]);
}

fn growing(bench: &mut Bench, sizes: &[usize]) {
    markdown::caption("Growth, ns a record:");
    growth::head("records", sizes);
    let of_tiles: fn(usize) -> Kept = |n| Kept::of(&tiles_of_records(n));
    for (what, make) in [("tiles", of_tiles)].into_iter().chain(SHAPES) {
        grows(bench, &format!("up, {what}"), sizes, make, up);
        grows(bench, &format!("down, {what}"), sizes, make, down);
    }
}

fn grows(bench: &mut Bench, what: &str, sizes: &[usize], make: fn(usize) -> Kept, call: fn(Kept) -> Call) {
    let calls = sizes.iter().map(|&n| call(make(n))).collect();
    growth::row(bench, what, calls, growth::judged(sizes, Goal::MovesGrowth));
}

fn up(kept: Kept) -> Call {
    let (pieces, mut out) = (kept.records(), vec![0; kept.new.len()]);
    Call { pieces, call: Box::new(move || assert_eq!(library::lines_up(kept.doc_len, black_box(&kept.old), &mut out)[0], 0)) }
}

fn down(kept: Kept) -> Call {
    let (pieces, mut out) = (kept.records(), vec![0; kept.old.len()]);
    Call { pieces, call: Box::new(move || assert_eq!(library::lines_down(kept.doc_len, black_box(&kept.new), &mut out)[0], 0)) }
}
