//! Texts beside the crate's parse_and_size. Ours writes a document into memory that is used again; theirs makes a tree and drops it.
use crate::goals::Goal;
use crate::growth::{self, Call};
use crate::harness::{each, Spread};
use crate::inputs::{around, doubles_text, keys_text, list_text, tile_text, ORDERS};
use crate::library;
use crate::markdown::{self, grouped};
use crate::{quartz, Bench};
use std::hint::black_box;

/// No text makes a longer document than this many times its length, with what an empty one takes.
fn room(text: &str) -> Vec<u8> {
    vec![0; 8 * text.len() + 64]
}

pub fn section(bench: &mut Bench) {
    markdown::section("Texts", "text");
    markdown::caption("Texts:");
    head();
    for n in [1, 10, 100, 1_000, 6_000] {
        let what = format!("tiles, {}", grouped(n));
        let [hash, index] = row(bench, &what, &tile_text(n));
        bench.goals.note(Goal::TextTiles, hash, &format!("{what}, HashMap"));
        bench.goals.note(Goal::TextTiles, index, &format!("{what}, IndexMap"));
    }
    for (what, text) in ordinary() {
        row(bench, what, &text);
    }
    markdown::caption("Lists of 50,000 whole numbers with d, which become doubles:");
    head();
    row(bench, "longitudes, which a double holds", &doubles_text(50_000, 0..1_800_000_000));
    row(bench, "from 2^53 up to 2^63, which are rounded", &doubles_text(50_000, 1 << 53..1 << 63));
    markdown::caption("Hostile texts:");
    head();
    hostile(bench);
    growing(bench);
}

fn ordinary() -> [(&'static str, String); 5] {
    [
        ("one unquoted token", format!("{{a:{}}}", "x".repeat(60_000))),
        ("one quoted string", format!("{{a:\"{}\"}}", "x".repeat(60_000))),
        ("a list of 349,000 numbers", list_text(349_000, "7b")),
        ("an array of 349,000 bytes", format!("{{a:[B;{}]}}", vec!["7b"; 349_000].join(","))),
        ("a list of 262,000 strings", list_text(262_000, "\"\"")),
    ]
}

fn hostile(bench: &mut Bench) {
    row(bench, "a string of escapes, \\n", &format!("{{a:\"{}\"}}", "\\n".repeat(60_000)));
    row(bench, "a string of escapes, \\u0041", &format!("{{a:\"{}\"}}", "\\u0041".repeat(60_000)));
    row(bench, "lists within each other, 500 deep, over and over", &list_text(1040, &around(500, "[", "]")));
    for order in ORDERS {
        for n in [1_000, 10_000, 100_000] {
            row(bench, &format!("one compound, {}, {} keys", order.name(), grouped(n)), &keys_text(n, order));
        }
    }
}

fn head() {
    markdown::head(&[
        "text",
        "bytes",
        "ours, ns a byte",
        "HashMap, ns a byte",
        "HashMap / ours",
        "IndexMap, ns a byte",
        "IndexMap / ours",
        "ours / a copy",
    ]);
}

/// One text; the crate's times over ours, with HashMap and with IndexMap.
fn row(bench: &mut Bench, what: &str, text: &str) -> [Spread; 2] {
    let (mut out, mut copy) = (room(text), vec![0u8; text.len()]);
    let answer = library::parse(text, &mut out);
    assert_eq!((answer[0], answer[2]), (0, text.len() as u64), "{what}: {answer:?}");
    let times = bench.plan.measure(&mut [
        &mut || assert_eq!(library::parse(black_box(text), &mut out)[0], 0),
        &mut || quartz::hash::parse(black_box(text)),
        &mut || quartz::index::parse(black_box(text)),
        &mut || black_box(&mut copy[..]).copy_from_slice(black_box(text.as_bytes())),
    ]);
    let ratios = [times.ratio(1, 0), times.ratio(2, 0)];
    markdown::row(&[
        what.into(),
        text.len().to_string(),
        each(times.of(0), text.len()),
        each(times.of(1), text.len()),
        ratios[0].to_string(),
        each(times.of(2), text.len()),
        ratios[1].to_string(),
        times.ratio(0, 3).to_string(),
    ]);
    ratios
}

fn growing(bench: &mut Bench) {
    markdown::caption("Growth, ns a byte, on texts of some 10^4, 10^5 and 10^6 bytes:");
    let sizes = [10_000, 100_000, 1_000_000];
    growth::head("bytes", &sizes);
    grows(bench, "tiles", sizes.map(|n| tile_text(n / 140)));
    grows(bench, "a list of numbers", sizes.map(|n| list_text(n / 3, "7b")));
    for order in ORDERS {
        grows(bench, &format!("one compound, {}", order.name()), sizes.map(|n| keys_text(n / 10, order)));
    }
}

fn grows(bench: &mut Bench, what: &str, texts: [String; 3]) {
    let calls = texts.into_iter().map(|text| {
        let mut out = room(&text);
        Call { pieces: text.len(), call: Box::new(move || assert_eq!(library::parse(black_box(&text), &mut out)[0], 0)) }
    });
    growth::row(bench, what, calls.collect(), Some(Goal::TextGrowth));
}
