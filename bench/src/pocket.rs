//! Both forms side by side (02, [2]): documents in Java's form and the same values in the pocket edition's, read and written.
use crate::goals::Goal;
use crate::harness::each;
use crate::inputs::{odd_shapes, payloads, tiles, wide, Doc, Order};
use crate::library::{self, WORDS};
use crate::markdown::{self, grouped};
use crate::Bench;
use std::hint::black_box;

pub const JAVA: u32 = 0;
pub const POCKET: u32 = 2;

pub fn section(bench: &mut Bench) {
    markdown::section("Both forms", "pocket");
    markdown::head(&[
        "document",
        "tags",
        "Java read, ns a tag",
        "pocket read",
        "pocket / Java",
        "Java written, ns a tag",
        "pocket written",
        "pocket / Java",
    ]);
    for (what, doc) in documents(bench) {
        row(bench, &what, &doc);
    }
}

/// Documents in Java's form, whose strings are the same bytes in both.
pub fn documents(bench: &Bench) -> Vec<(String, Doc)> {
    let sizes = [10, 1_000, bench.plan.size(50_000, 5_000)];
    let mut all: Vec<(String, Doc)> = sizes.map(|n| (format!("tiles, {}", grouped(n)), tiles(n))).into();
    all.extend(payloads().map(|(what, doc)| (what.into(), doc)));
    all.push(("one compound, names of 7 bytes, random, 10,000".into(), wide(10_000, 0, 0, Order::Random)));
    all.extend(odd_shapes(bench.plan.size(1_000_000, 100_000)));
    all
}

fn row(bench: &mut Bench, what: &str, java: &Doc) {
    let pocket = turned(&java.bytes);
    let (mut ours, mut theirs) = (java.table(), vec![0; WORDS * java.tags]);
    assert_eq!(library::read_in(POCKET, &pocket, &mut theirs)[0], 0, "{what}");
    assert!(ours == theirs, "{what}: both forms have the same records");
    let read = bench.plan.measure(&mut [
        &mut || assert_eq!(library::read_in(JAVA, black_box(&java.bytes), &mut ours)[0], 0),
        &mut || assert_eq!(library::read_in(POCKET, black_box(&pocket), &mut theirs)[0], 0),
    ]);
    let (mut out, mut other) = (vec![0u8; pocket.len()], vec![0u8; pocket.len()]);
    let written = bench.plan.measure(&mut [
        &mut || assert_eq!(library::write_in(JAVA, black_box(&java.bytes), &mut ours, &mut out)[0], 0),
        &mut || assert_eq!(library::write_in(POCKET, black_box(&pocket), &mut theirs, &mut other)[0], 0),
    ]);
    assert!(out == java.bytes && other == pocket, "{what}");
    for (deed, times) in [("read", &read), ("written", &written)] {
        bench.goals.note(Goal::PocketBesideJava, times.ratio(1, 0), &format!("{what}, {deed}"));
    }
    markdown::row(&[
        what.into(),
        java.tags.to_string(),
        each(read.of(0), java.tags),
        each(read.of(1), java.tags),
        read.ratio(1, 0).to_string(),
        each(written.of(0), java.tags),
        each(written.of(1), java.tags),
        written.ratio(1, 0).to_string(),
    ]);
}

/// The same values in the pocket edition's form; the strings of these documents are the same in both.
pub fn turned(bytes: &[u8]) -> Vec<u8> {
    let mut out = bytes.to_vec();
    let at = string(&mut out, 1);
    payload(&mut out, 10, at);
    out
}

/// Turns a number of so many bytes round; the place behind it.
fn turn(out: &mut [u8], at: usize, width: usize) -> usize {
    out[at..at + width].reverse();
    at + width
}

fn string(out: &mut [u8], at: usize) -> usize {
    let size = u16::from_be_bytes([out[at], out[at + 1]]);
    turn(out, at, 2) + size as usize
}

/// Turns a count round; the place behind it, and the count.
fn count(out: &mut [u8], at: usize) -> (usize, usize) {
    let n = u32::from_be_bytes(out[at..at + 4].try_into().unwrap());
    (turn(out, at, 4), n as usize)
}

fn payload(out: &mut [u8], kind: u8, at: usize) -> usize {
    const WIDTHS: [usize; 13] = [0, 1, 2, 4, 8, 4, 8, 1, 0, 0, 0, 4, 8];
    let width = WIDTHS[kind as usize];
    match kind {
        8 => string(out, at),
        9 => {
            let (mut next, n) = count(out, at + 1);
            for _ in 0..n {
                next = payload(out, out[at], next);
            }
            next
        }
        10 => compound(out, at),
        7 | 11 | 12 => {
            let (next, n) = count(out, at);
            (0..n).fold(next, |at, _| turn(out, at, width))
        }
        _ => turn(out, at, width),
    }
}

fn compound(out: &mut [u8], mut at: usize) -> usize {
    while out[at] != 0 {
        let kind = out[at];
        let body = string(out, at + 1);
        at = payload(out, kind, body);
    }
    at + 1
}
