//! Tokens beside the crate's own lexer, which a probe in its module reaches. The crate's tokens carry their strings; ours say where these
//! lie, and tikfazrul_content makes them, so ours has a column with that and one without.
use crate::harness::{each, Spread};
use crate::inputs::{around, list_text, tile_text};
use crate::library;
use crate::{markdown, quartz, Bench};
use std::hint::black_box;

/// The kinds and stop sets of include/tikfazrul.h that are looked at here.
mod kind {
    pub const OPEN_CURLY: u64 = 1;
    pub const CLOSED_CURLY: u64 = 2;
    pub const OPEN_SQUARE: u64 = 3;
    pub const CLOSED_SQUARE: u64 = 4;
    pub const COMMA: u64 = 5;
    pub const COLON: u64 = 6;
    pub const SEMICOLON: u64 = 7;
    pub const STRING: u64 = 8;
    pub const QUOTED: u64 = 9;
}

mod stops {
    pub const DEFAULT: u32 = 0;
    pub const KEY: u32 = 1;
    pub const VALUE: u32 = 2;
    pub const FIRST: u32 = 3;
    pub const LATER: u32 = 4;
}

pub fn section(bench: &mut Bench) {
    markdown::section("Tokens", "tokens");
    markdown::caption(
        "Texts taken apart from start to end. Each of our calls judges the whole text (9, 15), so long texts are not walked like this:",
    );
    markdown::head(&[
        "text",
        "bytes",
        "tokens",
        "ours, ns a token",
        "crate, ns a token",
        "crate / ours",
        "ours with contents, ns a token",
        "crate / ours with contents",
    ]);
    for n in [1, 3, 8] {
        walked(bench, &format!("tiles, {n}"), &tile_text(n));
    }
    walked(bench, "a list of numbers", &list_text(250, "-7b"));
    walked(bench, "a list of decimals", &list_text(100, "48.9520d"));
    walked(bench, "a list of quoted strings", &list_text(60, "\"a scene\""));
    walked(bench, "a list of strings of escapes", &list_text(60, "\"\\n\\t\\u0041\""));
    walked(bench, "lists within each other, 400 deep", &format!("{{a:{}}}", around(400, "[", "]")));
    singles(bench);
}

/// The stop set that a parser gives for each token of a text, in turn.
fn stop_sets(text: &str) -> Vec<u32> {
    let (mut sets, mut open, mut start, mut next) = (Vec::new(), Vec::new(), 0, stops::DEFAULT);
    loop {
        let answer = library::token(text, start, next);
        assert_eq!(answer[0], 0, "{text}");
        if answer[2] == 0 {
            return sets;
        }
        sets.push(next);
        start = answer[5] as usize;
        next = after(answer[2], &mut open);
    }
}

/// What may stop the token behind one of this kind, in the brackets that are open.
fn after(kind: u64, open: &mut Vec<u64>) -> u32 {
    match kind {
        kind::OPEN_CURLY | kind::OPEN_SQUARE => open.push(kind),
        kind::CLOSED_CURLY | kind::CLOSED_SQUARE => drop(open.pop()),
        _ => {}
    }
    let in_list = open.last() == Some(&kind::OPEN_SQUARE);
    match kind {
        kind::OPEN_SQUARE => stops::FIRST,
        kind::OPEN_CURLY => stops::KEY,
        kind::COLON => stops::VALUE,
        kind::COMMA if !in_list => stops::KEY,
        kind::COMMA | kind::SEMICOLON => stops::LATER,
        _ => stops::DEFAULT,
    }
}

/// Takes a token for each stop set and hands it on; where the last one ends.
fn walk(text: &str, sets: &[u32], mut each: impl FnMut(&library::Answer)) -> usize {
    let mut start = 0;
    for &set in sets {
        let answer = library::token(text, start, set);
        each(&answer);
        start = answer[5] as usize;
    }
    start
}

fn contents(text: &str, token: &library::Answer, out: &mut [u8]) {
    if token[2] == kind::STRING || token[2] == kind::QUOTED {
        library::content(text, token[6] as usize, token[7] as usize, token[2] == kind::QUOTED, out);
    }
}

fn walked(bench: &mut Bench, what: &str, text: &str) {
    let sets = stop_sets(text);
    let mut out = vec![0; 2 * text.len()];
    assert_eq!(Some(walk(text, &sets, |_| ())), quartz::walk(text, &sets), "{what}");
    let times = bench.plan.measure(&mut [
        &mut || assert_eq!(walk(black_box(text), &sets, |_| ()), text.len()),
        &mut || assert!(quartz::walk(black_box(text), &sets).is_some()),
        &mut || assert_eq!(walk(black_box(text), &sets, |token| contents(text, token, &mut out)), text.len()),
    ]);
    markdown::row(&[
        what.into(),
        text.len().to_string(),
        sets.len().to_string(),
        each(times.of(0), sets.len()),
        each(times.of(1), sets.len()),
        times.ratio(1, 0).to_string(),
        each(times.of(2), sets.len()),
        times.ratio(1, 2).to_string(),
    ]);
}

const LENGTHS: [usize; 3] = [1 << 16, 1 << 18, 1 << 20];

fn singles(bench: &mut Bench) {
    markdown::caption("One call on a text that is one token, ns a byte:");
    markdown::head(&["one token", "64 KiB", "256 KiB", "1 MiB", "the last over the first", "crate, the last", "crate / ours, the last"]);
    single(bench, "unquoted, letters", |n| "x".repeat(n));
    single(bench, "unquoted, blanks", |n| "x ".repeat(n / 2));
    single(bench, "unquoted, nested braces", |n| format!("x{}y", around(n / 2 - 1, "{", "}")));
    single(bench, "unquoted, quotes and backslashes", |n| "x'\\'\"".repeat(n / 5));
    single(bench, "unquoted, two-byte characters", |n| "é".repeat(n / 2));
    single(bench, "quoted, letters", |n| format!("'{}'", "x".repeat(n - 2)));
    single(bench, "quoted, escapes", |n| format!("'{}'", "\\n".repeat(n / 2 - 1)));
}

fn single(bench: &mut Bench, what: &str, make: impl Fn(usize) -> String) {
    let texts = LENGTHS.map(make);
    let ours = |i: usize| {
        let text: &str = &texts[i];
        move || assert_eq!(library::token(black_box(text), 0, stops::VALUE)[5], text.len() as u64)
    };
    let theirs = &mut || assert!(quartz::walk(black_box(&texts[2]), &[stops::VALUE]).is_some());
    let times = bench.plan.measure(&mut [&mut ours(0), &mut ours(1), &mut ours(2), theirs]);
    let growth: Spread = times.ratio(2, 0).times(texts[0].len() as f64 / texts[2].len() as f64);
    markdown::row(&[
        what.into(),
        each(times.of(0), texts[0].len()),
        each(times.of(1), texts[1].len()),
        each(times.of(2), texts[2].len()),
        growth.to_string(),
        each(times.of(3), texts[2].len()),
        times.ratio(3, 2).to_string(),
    ]);
}
