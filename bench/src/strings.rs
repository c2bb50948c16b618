//! The checks of modified UTF-8 and of UTF-8 beside Rust's from_utf8 on the same text.
use crate::goals::Goal;
use crate::library;
use crate::{markdown, Bench};
use std::hint::black_box;

const MIB: usize = 1 << 20;

const ENGLISH: &str = "The quick brown fox jumps over the lazy dog 0123456789. ";
const FRENCH: &str = "Dès Noël, où un zéphyr haï me vêt de glaçons würmiens, je dîne d'exquis rôtis de bœuf à l'aÿ. ";

const TEXTS: [(&str, &str); 11] = [
    ("1 MiB ASCII", ENGLISH),
    ("1 MiB, two bytes each 50", "The quick brown fox jumps over the lazy dog, and é "),
    ("1 MiB German", "Zwölf Boxkämpfer jagen Viktor quer über den großen Sylter Deich, während die Möwen schreien. "),
    ("1 MiB French", FRENCH),
    ("1 MiB Russian with spaces", "Съешь же ещё этих мягких французских булок, да выпей чаю. "),
    ("1 MiB Cyrillic, two bytes each", "съешьжеещёэтихмягкихфранцузскихбулокдавыпейчаю"),
    ("1 MiB Greek, two bytes each", "ξεσκεπάζωτηνψυχοφθόραβδελυγμία"),
    ("1 MiB CJK, three bytes each", "天地玄黃宇宙洪荒日月盈昃辰宿列張寒來暑往秋收冬藏"),
    ("1 MiB Korean with spaces", "다람쥐 헌 쳇바퀴에 타고파. 키스의 고유조건은 입술끼리 만나야 하고 "),
    ("1 MiB ASCII, a pair each 100", "The quick brown fox jumps over the lazy dog 0123456789, and then the same again, a bit slower, 😀 "),
    ("1 MiB, pairs only", "😀😁😂🤣😃😄😅😆😉😊"),
];

pub fn section(bench: &mut Bench) {
    markdown::section("Strings", "strings");
    markdown::head(&[
        "input",
        "from_utf8, MB/s",
        "modified UTF-8, MB/s",
        "ours / from_utf8",
        "UTF-8, MB/s",
        "ours / from_utf8",
        "a copy, MB/s",
    ]);
    for (what, text) in TEXTS {
        row(bench, what, &[filled(text, MIB)]);
    }
    let ascii = filled(ENGLISH, MIB / 16);
    row(bench, "names of 3 to 12 bytes", &pieces(&ascii, &[3, 8, 12, 5, 4, 9, 6, 11, 7, 10]));
    row(bench, "French words, one call each", &words(&filled(FRENCH, MIB / 16)));
    row(bench, "ASCII of 40 bytes", &pieces(&ascii, &[40]));
    row(bench, "ASCII of 200 bytes", &pieces(&ascii, &[200]));
}

/// A text over and over up to a size, cut at a character.
fn filled(text: &str, size: usize) -> Vec<u8> {
    let mut out = String::new();
    let mut characters = text.chars().cycle();
    while out.len() + 4 <= size {
        out.push(characters.next().unwrap());
    }
    out.into_bytes()
}

/// Bytes cut into pieces of these lengths in turn, each checked by one call.
fn pieces(bytes: &[u8], lengths: &[usize]) -> Vec<Vec<u8>> {
    let mut rest = bytes;
    let mut lengths = lengths.iter().cycle();
    let mut out = Vec::new();
    while let Some((piece, behind)) = rest.split_at_checked(*lengths.next().unwrap()) {
        out.push(piece.to_vec());
        rest = behind;
    }
    out
}

/// The words of a text, each checked by one call.
fn words(text: &[u8]) -> Vec<Vec<u8>> {
    text.split(|&b| b == b' ').map(<[u8]>::to_vec).collect()
}

/// A text in modified UTF-8: the same bytes but for what is above the basic plane, which takes two halves of three bytes.
fn modified(text: &[u8]) -> Vec<u8> {
    let mut out = Vec::new();
    for unit in std::str::from_utf8(text).unwrap().encode_utf16() {
        let last = 0x80 | (unit & 63) as u8;
        match unit {
            1..=0x7F => out.push(unit as u8),
            0 | 0x80..=0x7FF => out.extend([0xC0 | (unit >> 6) as u8, last]),
            _ => out.extend([0xE0 | (unit >> 12) as u8, 0x80 | (unit >> 6 & 63) as u8, last]),
        }
    }
    out
}

fn all(parts: &[Vec<u8>], check: impl Fn(&[u8]) -> bool) {
    for part in parts {
        assert!(black_box(check(black_box(part))));
    }
}

fn total(parts: &[Vec<u8>]) -> f64 {
    parts.iter().map(Vec::len).sum::<usize>() as f64
}

/// The checks of one text in its two encodings, in bytes a second: each encoding has its own bytes.
fn row(bench: &mut Bench, what: &str, parts: &[Vec<u8>]) {
    let own: Vec<Vec<u8>> = parts.iter().map(|p| modified(p)).collect();
    let mut copies = parts.to_vec();
    let times = bench.plan.measure(&mut [
        &mut || all(parts, |b| std::str::from_utf8(b).is_ok()),
        &mut || all(&own, |b| library::check_mutf8(b)[0] == 0),
        &mut || all(parts, |b| library::check_utf8(b)[0] == 0),
        &mut || copies.iter_mut().zip(parts).for_each(|(to, from)| black_box(&mut to[..]).copy_from_slice(black_box(from))),
    ]);
    let by_modified = times.ratio(0, 1).times(total(&own) / total(parts));
    let by_utf8 = times.ratio(0, 2);
    bench.goals.note(Goal::Strings, by_modified, &format!("{what}, modified UTF-8"));
    bench.goals.note(Goal::Strings, by_utf8, &format!("{what}, UTF-8"));
    let speed = |bytes: f64, side: usize| format!("{:.0}", bytes / times.of(side) / 1e6);
    markdown::row(&[
        what.into(),
        speed(total(parts), 0),
        speed(total(&own), 1),
        by_modified.to_string(),
        speed(total(parts), 2),
        by_utf8.to_string(),
        speed(total(parts), 3),
    ]);
}
