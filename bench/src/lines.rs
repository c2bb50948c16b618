//! Tables kept as lines: written and read beside Rust's own formatting and parsing of the same words, and beside a copy of the lines' bytes; and
//! what is gained or lost by reading lines in place of the document. All memory is lent and used again, on Rust's side too.
use crate::goals::Goal;
use crate::growth::{self, Call};
use crate::harness::{each, figure};
use crate::inputs::{payloads, random_words, tiles, tiles_of_records, wide, Doc, Order};
use crate::library::{self, LINE, MOST_RECORDS, WORDS};
use crate::markdown::{self, grouped};
use crate::Bench;
use std::fmt::Write;
use std::hint::black_box;

pub fn section(bench: &mut Bench) {
    markdown::section("Lines", "lines");
    let most = bench.plan.size(50_000, 5_000);
    let sizes = [10, 1_000, most];
    markdown::caption("Tables written as lines:");
    write_head();
    for n in sizes {
        write_row(bench, &format!("tiles, {}", grouped(n)), &tiles(n));
    }
    markdown::caption("Lines read back:");
    read_head();
    for n in sizes {
        read_row(bench, &format!("tiles, {}", grouped(n)), &tiles(n).table());
    }
    let records = bench.plan.size(500_000, 50_000);
    read_row(bench, &format!("random words, {} records", grouped(records)), &random_words(WORDS * records));
    markdown::caption("Reading lines in place of the document, ns a record:");
    kept_head();
    for n in sizes {
        kept_row(bench, &format!("tiles, {}", grouped(n)), &tiles(n));
    }
    let n = bench.plan.size(1_000_000, 10_000);
    kept_row(bench, &format!("one compound, random, {}", grouped(n)), &wide(n, 0, 0, Order::Random));
    for (what, doc) in payloads() {
        kept_row(bench, what, &doc);
    }
    hostile(bench);
    growing(bench);
}

/// The lines by Rust's own formatting. A string and one call a record are faster than bytes and a call a word.
fn format_lines(words: &[u32], out: &mut String) {
    out.clear();
    for r in words.chunks_exact(WORDS) {
        let [a, b, c, d, e, f, g, h, i]: [u32; WORDS] = r.try_into().unwrap();
        writeln!(out, "{a:08x}{b:08x}{c:08x}{d:08x}{e:08x}{f:08x}{g:08x}{h:08x}{i:08x}").unwrap();
    }
}

/// The words by Rust's own parsing, which takes capitals and a sign as well. UTF-8 checked at once is faster than line by line.
fn parse_lines(lines: &[u8], words: &mut Vec<u32>) {
    words.clear();
    for line in std::str::from_utf8(lines).unwrap().split_terminator('\n') {
        assert_eq!(line.len(), LINE - 1);
        words.extend((0..WORDS).map(|i| u32::from_str_radix(&line[8 * i..8 * i + 8], 16).unwrap()));
    }
}

/// The lines of any words.
pub fn lines_of(words: &[u32]) -> Vec<u8> {
    let mut out = String::with_capacity(words.len() / WORDS * LINE);
    format_lines(words, &mut out);
    out.into_bytes()
}

/// Bytes a second, in millions.
fn speed(bytes: usize, seconds: f64) -> String {
    figure(bytes as f64 / seconds / 1e6)
}

fn write_head() {
    markdown::head(&[
        "table",
        "records",
        "bytes of lines",
        "ours, MB/s",
        "the check in it",
        "Rust's own formatting, MB/s",
        "Rust's own / ours",
        "a copy, MB/s",
        "ours / a copy",
    ]);
}

fn write_row(bench: &mut Bench, what: &str, doc: &Doc) {
    let (table, doc_len) = (doc.table(), doc.bytes.len());
    let lines = lines_of(&table);
    let (mut out, mut own, mut copy) = (vec![0; lines.len()], String::with_capacity(lines.len()), lines.clone());
    assert_eq!(library::write_lines(doc_len, &table, &mut out)[..3], [0, 0, lines.len() as u64], "{what}");
    assert!(out == lines, "{what}");
    let times = bench.plan.measure(&mut [
        &mut || assert_eq!(library::write_lines(doc_len, black_box(&table), &mut out)[0], 0),
        &mut || assert_eq!(library::is_table(&doc.bytes, black_box(&table))[2], 1),
        &mut || format_lines(black_box(&table), black_box(&mut own)),
        &mut || black_box(&mut copy[..]).copy_from_slice(black_box(&lines)),
    ]);
    let ratio = times.ratio(2, 0);
    markdown::row(&[
        what.into(),
        doc.tags.to_string(),
        lines.len().to_string(),
        speed(lines.len(), times.of(0)),
        format!("{:.0} %", 100.0 * times.of(1) / times.of(0)),
        speed(lines.len(), times.of(2)),
        ratio.to_string(),
        speed(lines.len(), times.of(3)),
        times.ratio(0, 3).to_string(),
    ]);
    bench.goals.note(Goal::WriteLines, ratio, what);
}

fn read_head() {
    markdown::head(&[
        "table",
        "records",
        "bytes of lines",
        "ours, MB/s",
        "Rust's own parsing, MB/s",
        "Rust's own / ours",
        "a copy, MB/s",
        "ours / a copy",
    ]);
}

fn read_row(bench: &mut Bench, what: &str, words: &[u32]) {
    let (lines, records) = (lines_of(words), words.len() / WORDS);
    let (mut table, mut own, mut copy) = (vec![0; words.len()], Vec::with_capacity(words.len()), lines.clone());
    assert_eq!(library::read_lines(&lines, &mut table)[..3], [0, 0, records as u64], "{what}");
    parse_lines(&lines, &mut own);
    assert!(table == words && own == words, "{what}");
    let times = bench.plan.measure(&mut [
        &mut || assert_eq!(library::read_lines(black_box(&lines), &mut table)[0], 0),
        &mut || parse_lines(black_box(&lines), black_box(&mut own)),
        &mut || black_box(&mut copy[..]).copy_from_slice(black_box(&lines)),
    ]);
    let ratio = times.ratio(1, 0);
    markdown::row(&[
        what.into(),
        records.to_string(),
        lines.len().to_string(),
        speed(lines.len(), times.of(0)),
        speed(lines.len(), times.of(1)),
        ratio.to_string(),
        speed(lines.len(), times.of(2)),
        times.ratio(0, 2).to_string(),
    ]);
    bench.goals.note(Goal::ReadLines, ratio, what);
}

fn kept_head() {
    markdown::head(&[
        "document",
        "bytes",
        "records",
        "bytes of lines",
        "reading the lines",
        "the check",
        "reading the document",
        "lines / document",
        "lines and check / document",
    ]);
}

/// Lines from elsewhere may form no table, and the check finds that; a read from the document needs none.
fn kept_row(bench: &mut Bench, what: &str, doc: &Doc) {
    let table = doc.table();
    let lines = lines_of(&table);
    let (mut by_lines, mut by_document, mut checked) = (vec![0; table.len()], vec![0; table.len()], vec![0; table.len()]);
    let times = bench.plan.measure(&mut [
        &mut || assert_eq!(library::read_lines(black_box(&lines), &mut by_lines)[0], 0),
        &mut || assert_eq!(library::is_table(&doc.bytes, black_box(&table))[2], 1),
        &mut || assert_eq!(library::read(black_box(&doc.bytes), &mut by_document)[0], 0),
        &mut || {
            assert_eq!(library::read_lines(black_box(&lines), &mut checked)[0], 0);
            assert_eq!(library::is_table(&doc.bytes, &checked)[2], 1);
        },
    ]);
    assert!(by_lines == table && by_document == table && checked == table, "{what}");
    markdown::row(&[
        what.into(),
        doc.bytes.len().to_string(),
        doc.tags.to_string(),
        lines.len().to_string(),
        each(times.of(0), doc.tags),
        each(times.of(1), doc.tags),
        each(times.of(2), doc.tags),
        times.ratio(0, 2).to_string(),
        times.ratio(3, 2).to_string(),
    ]);
}

/// Lines that are refused, of which a number makes more or fewer, and the refusal's number and place.
struct Refused {
    what: &'static str,
    make: fn(usize) -> Vec<u8>,
    few: usize,
    many: usize,
    refusal: fn(usize) -> [u64; 2],
}

/// Where a reader might look at the same bytes again and again.
const REFUSED: [Refused; 3] = [
    Refused { what: "empty lines", make: |n| vec![b'\n'; n], few: 10_000, many: MOST_RECORDS, refusal: |_| [29, 1] },
    Refused { what: "one line that does not end", make: |n| vec![b'0'; n], few: 100_000, many: 16_000_000, refusal: |_| [29, 1] },
    Refused { what: "good lines, the last unended", make: last_unended, few: 10_000, many: MOST_RECORDS, refusal: |n| [29, n as u64] },
];

fn last_unended(n: usize) -> Vec<u8> {
    let mut lines = lines_of(&random_words(WORDS * n));
    lines.pop();
    lines
}

fn hostile(bench: &mut Bench) {
    markdown::caption(&format!("Lines that are refused, with room for a record each {LINE} bytes, which a refusal zeroes:"));
    markdown::head(&["lines", "refused with", "bytes", "ns a byte", "bytes", "ns a byte", "growth"]);
    for refused in REFUSED {
        let (few, many) = (refusing(&refused, refused.few), refusing(&refused, refused.many));
        let [number, _] = (refused.refusal)(refused.many);
        hostile_row(bench, &[refused.what.into(), number.to_string()], few, many);
    }
}

/// The time is divided by the lines' bytes.
fn refusing(refused: &Refused, n: usize) -> Call {
    let (lines, refusal) = ((refused.make)(n), (refused.refusal)(n));
    let mut table = vec![0; WORDS * (lines.len() / LINE + 1)];
    Call { pieces: lines.len(), call: Box::new(move || assert_eq!(library::read_lines(black_box(&lines), &mut table)[..2], refusal)) }
}

fn hostile_row(bench: &mut Bench, left: &[String], mut few: Call, mut many: Call) {
    let times = bench.plan.measure(&mut [&mut *few.call, &mut *many.call]);
    let growth = times.ratio(1, 0).times(few.pieces as f64 / many.pieces as f64);
    let mut cells = left.to_vec();
    for (i, call) in [&few, &many].into_iter().enumerate() {
        cells.extend([call.pieces.to_string(), each(times.of(i), call.pieces)]);
    }
    cells.push(growth.to_string());
    markdown::row(&cells);
}

fn growing(bench: &mut Bench) {
    markdown::caption("Growth, ns a record:");
    let sizes = growth::sizes(bench);
    growth::head("records", &sizes);
    grows(bench, "writing the lines of tiles", &sizes, |n| writing(&tiles_of_records(n)));
    grows(bench, "reading the lines of tiles", &sizes, |n| reading(&tiles_of_records(n).table()));
    grows(bench, "reading lines of random words", &sizes, |n| reading(&random_words(WORDS * n)));
}

fn grows(bench: &mut Bench, what: &str, sizes: &[usize], call: fn(usize) -> Call) {
    growth::row(bench, what, sizes.iter().map(|&n| call(n)).collect(), growth::judged(sizes, Goal::LinesGrowth));
}

fn writing(doc: &Doc) -> Call {
    let (table, doc_len) = (doc.table(), doc.bytes.len());
    let mut out = vec![0; LINE * doc.tags];
    Call { pieces: doc.tags, call: Box::new(move || assert_eq!(library::write_lines(doc_len, black_box(&table), &mut out)[0], 0)) }
}

fn reading(words: &[u32]) -> Call {
    let (lines, mut table) = (lines_of(words), vec![0; words.len()]);
    Call { pieces: words.len() / WORDS, call: Box::new(move || assert_eq!(library::read_lines(black_box(&lines), &mut table)[0], 0)) }
}
