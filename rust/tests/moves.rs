//! Lines of eight words moved to nine, and back: there and back, what is refused and in which order, and what a refusal leaves.
//! What is expected is spelt from the words of a table that was read or built here, never by the moves.
mod common;

use common::samples;
use std::fmt::Write;
use tikfazrul::{lines_down, lines_down_into, lines_up, lines_up_into, read};
use tikfazrul::{Place, Refusal, Table, LINE, MAX_DOCUMENT, MAX_RECORDS, OLD_LINE, WORDS};

const TILE: &[u8] = b"\x0A\0\x01a\x01\0\x01b\xFF\0";
const OLD: &str = "\
0000000a00000003000000010000000000000000000000010000000000000002
0000000100000007000000010000000800000001000000000000000000000002
";
const NEW: &str = "\
0000000a0000000300000001000000000000000000000001000000000000000200000000
000000010000000700000001000000080000000100000000000000000000000200000000
";
const OVER: Refusal = Refusal::OverLimit(Place::Whole);
const NONE: Refusal = Refusal::NoTable(Place::Whole);
const FULL: Refusal = Refusal::OutputFull(Place::Whole);

#[derive(Clone, Copy, Debug, PartialEq)]
enum Way {
    Up,
    Down,
}
use Way::{Down, Up};
const WAYS: [Way; 2] = [Up, Down];

impl Way {
    fn whole(self, lines: &[u8], doc_len: usize) -> Result<Vec<u8>, Refusal> {
        match self {
            Up => lines_up(lines, doc_len),
            Down => lines_down(lines, doc_len),
        }
    }

    fn lent(self, doc_len: usize, lines: &[u8], out: &mut [u8]) -> Result<usize, Refusal> {
        match self {
            Up => lines_up_into(doc_len, lines, out),
            Down => lines_down_into(doc_len, lines, out),
        }
    }

    fn back(self) -> Way {
        if self == Up {
            Down
        } else {
            Up
        }
    }

    /// The words of a record in the lines that are moved.
    fn words(self) -> usize {
        if self == Up {
            8
        } else {
            9
        }
    }

    /// The bytes of a line that is moved.
    fn line(self) -> usize {
        if self == Up {
            OLD_LINE
        } else {
            LINE
        }
    }

    fn bad(self, line: usize) -> Refusal {
        match self {
            Up => Refusal::BadOldLine(Place::Line(line)),
            Down => Refusal::BadLine(Place::Line(line)),
        }
    }

    /// The lines of a table, of the width that is moved.
    fn from(self, words: &[u32]) -> Vec<u8> {
        spelt(words, self.words())
    }

    /// The lines of a table, of the width that is moved to.
    fn to(self, words: &[u32]) -> Vec<u8> {
        self.back().from(words)
    }
}

/// The first words of each record as lines, spelt by hand.
fn spelt(words: &[u32], kept: usize) -> Vec<u8> {
    let mut lines = String::new();
    for record in words.chunks(WORDS) {
        record[..kept].iter().for_each(|word| write!(lines, "{word:08x}").unwrap());
        lines.push('\n');
    }
    lines.into_bytes()
}

/// The same without the last word, from the lines themselves.
fn cut(new: &[u8]) -> Vec<u8> {
    let mut old = Vec::with_capacity(new.len());
    for line in new.chunks(LINE) {
        old.extend_from_slice(&line[..64]);
        old.push(b'\n');
    }
    old
}

/// The move into lent bytes: the answer, and the bytes.
fn moved(way: Way, doc_len: usize, lines: &[u8], room: usize) -> (Result<usize, Refusal>, Vec<u8>) {
    let mut out = vec![0xAA; room];
    let answer = way.lent(doc_len, lines, &mut out);
    (answer, out)
}

/// The lines are refused so, with much room and with none, and change nothing.
fn refused(way: Way, doc_len: usize, lines: &[u8], refusal: Refusal) {
    assert_eq!(way.whole(lines, doc_len), Err(refusal), "{way:?} {doc_len}");
    for room in [0, 1, 2 * lines.len().min(1 << 20) + 9] {
        assert_eq!(moved(way, doc_len, lines, room), (Err(refusal), vec![0xAA; room]), "{way:?} {doc_len}");
    }
}

/// The lines of these words are moved to those of the other width, into just as much room, and back.
fn accepted(way: Way, doc_len: usize, words: &[u32]) {
    let (from, to) = (way.from(words), way.to(words));
    assert_eq!(way.whole(&from, doc_len).as_ref(), Ok(&to), "{way:?}");
    assert_eq!(moved(way, doc_len, &from, to.len()), (Ok(to.len()), to.clone()));
    assert_eq!(moved(way, doc_len, &from, to.len() + 3), (Ok(to.len()), [&to[..], &[0xAA; 3]].concat()));
    assert_eq!(moved(way, doc_len, &from, to.len() - 1), (Err(FULL), vec![0xAA; to.len() - 1]));
    let there = way.whole(&from, doc_len).unwrap();
    assert_eq!(way.back().whole(&there, doc_len), Ok(from));
}

/// The words with the parent of each record found by a plain search: the last record before it whose subtree goes on beyond it.
fn with_parents(words: &[u32]) -> Vec<u32> {
    let mut all = words.to_vec();
    for record in 0..words.len() / WORDS {
        let around = (0..record).rev().find(|other| words[other * WORDS + 7] as usize > record);
        all[record * WORDS + 8] = around.unwrap_or(0) as u32;
    }
    all
}

/// The lines of these words are moved, or refused with 10, as the library judges the words with their parents.
fn as_judged(way: Way, doc_len: usize, words: &[u32]) -> bool {
    let all = if way == Up { with_parents(words) } else { words.to_vec() };
    let good = Table::from_words(all.clone()).is_table(doc_len).unwrap();
    let wanted = if good { Ok(way.to(&all)) } else { Err(NONE) };
    assert_eq!(way.whole(&way.from(words), doc_len), wanted, "{way:?} {words:?}");
    good
}

/// Numbers that look like chance and are the same each time.
struct Dice(u64);

impl Dice {
    fn roll(&mut self, below: u64) -> u64 {
        self.0 ^= self.0 << 13;
        self.0 ^= self.0 >> 7;
        self.0 ^= self.0 << 17;
        self.0 % below
    }

    /// A kind: below this depth any, else one that holds no tags.
    fn kind(&mut self, depth: usize) -> u8 {
        let kinds: &[u8] = if depth > 0 { &[9, 10, 9, 10, 9, 10, 9, 10, 1, 3, 6, 7, 8, 12] } else { &[1, 2, 3, 4, 5, 6, 7, 8, 11, 12] };
        kinds[self.roll(kinds.len() as u64) as usize]
    }

    fn payload(&mut self, kind: u8, depth: usize, doc: &mut Vec<u8>) {
        let count = self.roll(5) as u8;
        match kind {
            7 | 11 | 12 => {
                doc.extend([0, 0, 0, count]);
                doc.extend(vec![7; usize::from(count) * [1, 4, 8][usize::from(kind.saturating_sub(10))]]);
            }
            8 => {
                doc.extend([0, count]);
                doc.extend(vec![b's'; usize::from(count)]);
            }
            9 => {
                let inner = if count == 0 { 0 } else { self.kind(depth - 1) };
                doc.extend([inner, 0, 0, 0, count]);
                (0..count).for_each(|_| self.payload(inner, depth - 1, doc));
            }
            10 => {
                for name in 0..count {
                    let inner = self.kind(depth - 1);
                    doc.extend([inner, 0, 1, b'a' + name]);
                    self.payload(inner, depth - 1, doc);
                }
                doc.push(0);
            }
            _ => doc.extend(vec![1; [1, 2, 4, 8, 4, 8][usize::from(kind) - 1]]),
        }
    }
}

/// Documents of many shapes.
fn grown(count: u64) -> Vec<Vec<u8>> {
    let one = |seed: u64| {
        let mut doc = b"\x0A\0\x04grow".to_vec();
        Dice(seed.wrapping_mul(0x9E37_79B9_7F4A_7C15)).payload(10, 1 + seed as usize % 9, &mut doc);
        doc
    };
    (1..=count).map(one).collect()
}

#[test]
fn two_lines_by_hand() {
    assert_eq!((OLD.len(), NEW.len()), (2 * OLD_LINE, 2 * LINE));
    assert_eq!(lines_up(OLD.as_bytes(), TILE.len()).unwrap(), NEW.as_bytes());
    assert_eq!(lines_down(NEW.as_bytes(), TILE.len()).unwrap(), OLD.as_bytes());
    assert_eq!(moved(Up, 10, OLD.as_bytes(), 147), (Ok(146), [NEW.as_bytes(), &[0xAA]].concat()));
    assert_eq!(moved(Down, 10, NEW.as_bytes(), 131), (Ok(130), [OLD.as_bytes(), &[0xAA]].concat()));
}

/// Of every document that is read: the new lines are those of its table, and each parent is the one that climbing leads to.
#[test]
fn tables_that_were_read_there_and_back() {
    let mut records = 0;
    for doc in samples().into_iter().chain(grown(300)) {
        let table = read(&doc).unwrap();
        WAYS.into_iter().for_each(|way| accepted(way, doc.len(), table.words()));
        let new = lines_up(&spelt(table.words(), 8), doc.len()).unwrap();
        assert_eq!(new, table.to_lines(doc.len()).unwrap());
        for (_, node) in table.root(&doc).unwrap().walk() {
            let line = &new[node.record() * LINE..][..LINE];
            let parent = node.parent().map_or(0, |parent| parent.record());
            assert_eq!(line[64..], *format!("{parent:08x}\n").as_bytes());
            records += 1;
        }
        assert_eq!(Table::from_lines(&new, doc.len()).unwrap().words(), table.words());
    }
    assert!(records > 2_000, "{records}");
}

// 02, [8]: 9, 29, 10, 13, where more than one is due
#[test]
fn the_order_of_refusals() {
    for way in WAYS {
        let words = read(TILE).unwrap().into_words();
        let (good, to) = (way.from(&words), way.to(&words));
        let capital = good.to_ascii_uppercase();
        let none = [&good[..], &good].concat();
        let none_and_bad = [&good[..], &good, b"x\n"].concat();
        // all four, and one less each time
        for (doc_len, lines, refusal) in [
            (MAX_DOCUMENT + 1, &none_and_bad, OVER),
            (MAX_DOCUMENT + 1, &capital, OVER),
            (MAX_DOCUMENT + 1, &none, OVER),
            (MAX_DOCUMENT + 1, &good, OVER),
            (usize::MAX, &good, OVER),
            (MAX_DOCUMENT + 1, &Vec::new(), OVER),
            (TILE.len(), &none_and_bad, way.bad(5)),
            (0, &capital, way.bad(1)),
            (TILE.len(), &none, NONE),
            (8, &good, NONE),
            (TILE.len(), &Vec::new(), NONE),
            (0, &Vec::new(), NONE),
        ] {
            refused(way, doc_len, lines, refusal);
        }
        for room in 0..to.len() {
            assert_eq!(moved(way, TILE.len(), &good, room), (Err(FULL), vec![0xAA; room]), "{way:?}");
        }
        assert_eq!(moved(way, TILE.len(), &good, to.len()), (Ok(to.len()), to));
        assert!(way.whole(&good, MAX_DOCUMENT).is_ok());
    }
}

#[test]
fn too_many_lines_come_first() {
    for way in WAYS {
        // more lines than there may be, whether the last is ended, and whatever is wrong with them
        refused(way, 0, &vec![b'\n'; MAX_RECORDS + 1], OVER);
        refused(way, 0, &[&vec![b'\n'; MAX_RECORDS][..], b"0"].concat(), OVER);
        refused(way, MAX_DOCUMENT + 1, &vec![b'\n'; MAX_RECORDS + 1], OVER);
        refused(way, 0, &vec![b'\n'; MAX_RECORDS], way.bad(1));
        refused(way, 0, &[&vec![b'\n'; MAX_RECORDS - 1][..], b"0"].concat(), way.bad(1));
        refused(way, 0, &vec![b'0'; 3 * LINE], way.bad(1));
    }
}

/// Lines of both widths in one file: the first of the other width is named.
#[test]
fn both_widths_are_refused() {
    let doc = samples().into_iter().find(|doc| read(doc).unwrap().len() == 28).expect("mosaic.nbt");
    let words = read(&doc).unwrap().into_words();
    for way in WAYS {
        let (from, to) = (way.from(&words), way.to(&words));
        let (own, other) = (Vec::from_iter(from.chunks(way.line())), Vec::from_iter(to.chunks(way.back().line())));
        for strange in [&[0][..], &[13], &[27], &[13, 14], &[5, 27], &[0, 27], &[1]] {
            let lines: Vec<&[u8]> = (0..28).map(|line| if strange.contains(&line) { other[line] } else { own[line] }).collect();
            refused(way, doc.len(), &lines.concat(), way.bad(strange[0] + 1));
        }
        // one of the own width among the others is not the one that is named, but where it stands first
        refused(way, doc.len(), &[&other[..5], &own[5..6], &other[6..]].concat().concat(), way.bad(1));
        refused(way, doc.len(), &[&own[..1], &other[1..]].concat().concat(), way.bad(2));
        refused(way, doc.len(), &to, way.bad(1));
        // as many bytes as a table of whole lines has, all of them of the other width
        refused(way, 1, &way.to(&wide(way.line() as u32 - 1)), way.bad(1));
        accepted(way, 1, &wide(way.line() as u32 - 1));
        refused(way, doc.len(), &from[..from.len() - 1], way.bad(28));
        refused(way, doc.len(), &[&from[..], b"\n"].concat(), way.bad(29));
    }
}

#[test]
fn lines_cut_anywhere() {
    for way in WAYS {
        let lines = way.from(read(TILE).unwrap().words());
        for cut in 0..lines.len() {
            let refusal = if cut % way.line() == 0 { NONE } else { way.bad(cut / way.line() + 1) };
            refused(way, TILE.len(), &lines[..cut], refusal);
        }
    }
}

/// The words of lines, read by hand; `None` where a byte is no digit.
fn words_of(way: Way, lines: &[u8]) -> Option<Vec<u32>> {
    let mut words = Vec::new();
    for line in lines.chunks(way.line()) {
        let (digits, end) = line.split_at(line.len() - 1);
        if end != b"\n" || !digits.iter().all(|byte| matches!(byte, b'0'..=b'9' | b'a'..=b'f')) {
            return None;
        }
        words.extend(digits.chunks(8).map(|word| u32::from_str_radix(std::str::from_utf8(word).unwrap(), 16).unwrap()));
        words.resize(words.len().next_multiple_of(WORDS), 0);
    }
    Some(words)
}

/// Every byte of two lines set to every value: only digits are digits, only a line feed is one, and the words are judged.
#[test]
fn every_byte_changed() {
    let mut good = [0; 2];
    for way in WAYS {
        let lines = way.from(read(TILE).unwrap().words());
        for at in 0..lines.len() {
            for value in 0..=255 {
                let mut changed = lines.clone();
                changed[at] = value;
                match words_of(way, &changed) {
                    Some(words) => good[way as usize] += usize::from(as_judged(way, TILE.len(), &words)),
                    None => {
                        let refusal = way.bad(at / way.line() + 1);
                        assert_eq!(way.whole(&changed, TILE.len()), Err(refusal), "{way:?} {at} {value}");
                        assert!(refusal.window(&changed).is_some(), "{way:?} {at} {value}");
                    }
                }
            }
        }
    }
    // once for each byte, which is itself, and more for those of names and payloads
    assert!(good[0] > 130 && good[1] > 146 && good[0] < 400 && good[1] < 400, "{good:?}");
}

/// Every word of a table set to values that tables have, or just don't.
#[test]
fn every_word_changed() {
    let (mut good, mut bad) = (0, 0);
    for doc in samples().into_iter().chain(grown(40)).filter(|doc| read(doc).unwrap().len() < 25) {
        let words = read(&doc).unwrap().into_words();
        for at in 0..words.len() {
            for value in [0, 1, 2, 8, 9, 10, 12, 13, words[at].wrapping_sub(1), words[at] + 1, doc.len() as u32, u32::MAX] {
                let mut changed = words.clone();
                changed[at] = value;
                for way in WAYS {
                    let verdict = as_judged(way, doc.len(), &changed);
                    good += usize::from(verdict);
                    bad += usize::from(!verdict);
                }
            }
        }
    }
    assert!(good > 1_000 && bad > 10_000, "{good} {bad}");
}

/// On the way down a wrong parent is 10, wherever it is; on the way up there is none to be wrong.
#[test]
fn wrong_parents() {
    for doc in samples() {
        let words = read(&doc).unwrap().into_words();
        let records = words.len() / WORDS;
        for record in 0..records {
            let right = words[record * WORDS + 8];
            for parent in [0, 1, record as u32, record as u32 + 1, right.wrapping_sub(1), right + 1, records as u32 - 1, u32::MAX] {
                let mut changed = words.clone();
                changed[record * WORDS + 8] = parent;
                let wanted = if parent == right { Ok(spelt(&words, 8)) } else { Err(NONE) };
                assert_eq!(lines_down(&spelt(&changed, 9), doc.len()), wanted, "{record} {parent}");
            }
        }
        let mut root = words.clone();
        root[8] = 1;
        refused(Down, doc.len(), &spelt(&root, 9), NONE);
        let mut last = words.clone();
        *last.last_mut().unwrap() ^= 1;
        refused(Down, doc.len(), &spelt(&last, 9), NONE);
        assert_eq!(lines_up(&spelt(&last, 8), doc.len()), Ok(spelt(&words, 9)));
    }
}

/// Told any length, the moves accept a table exactly where every name and payload ends in a document so long.
#[test]
fn spans_are_judged_by_the_length() {
    for doc in samples() {
        let words = read(&doc).unwrap().into_words();
        let ends = words.chunks(WORDS).map(|record| (record[1] + record[2]).max(record[3] + record[4]) as usize);
        let needed = ends.max().unwrap();
        for doc_len in (0..=doc.len()).chain([MAX_DOCUMENT]) {
            for way in WAYS {
                let wanted = if doc_len < needed { Err(NONE) } else { Ok(way.to(&words)) };
                assert_eq!(way.whole(&way.from(&words), doc_len), wanted, "{way:?} {doc_len} of {needed}");
            }
        }
    }
}

#[test]
fn a_name_and_a_payload_just_in_and_just_out() {
    let root = [10, 3, 1, 0, 0, 1, 0, 2, 0];
    for (child, needed) in [
        ([1, 20, 5, 4, 1, 0, 0, 2, 0], 25),
        ([1, 4, 1, 24, 1, 0, 0, 2, 0], 25),
        ([8, 4, 1, 20, 5, 0, 0, 2, 0], 25),
        ([12, 4, 1, 9, 16, 2, 0, 2, 0], 25),
        // nothing lies at the document's end, and beyond it not even that
        ([8, 25, 0, 4, 1, 0, 0, 2, 0], 25),
        ([8, 4, 1, 25, 0, 0, 0, 2, 0], 25),
        ([8, 0, 1 << 24, 4, 1, 0, 0, 2, 0], MAX_DOCUMENT),
        ([8, 4, 1, (1 << 24) - 1, 1, 0, 0, 2, 0], MAX_DOCUMENT),
    ] {
        let words = [root, child].concat();
        for way in WAYS {
            accepted(way, needed, &words);
            refused(way, needed - 1, &way.from(&words), NONE);
        }
    }
    for (at, length) in [(u32::MAX, 1), (1, u32::MAX), (u32::MAX, u32::MAX), (0, (1 << 24) + 1), ((1 << 24) + 1, 0), (1 << 31, 1 << 31)] {
        for child in [[8, at, length, 0, 0, 0, 0, 2, 0], [8, 0, 0, at, length, 0, 0, 2, 0]] {
            WAYS.into_iter().for_each(|way| refused(way, MAX_DOCUMENT, &way.from(&[root, child].concat()), NONE));
        }
    }
}

/// Compounds and lists in turn, each in the one before it.
fn chain(count: u32) -> Vec<u32> {
    let kind = |record: u32| [10, 9][record as usize % 2];
    let inner = |record: u32| u32::from(record + 1 < count);
    let of = |record: u32| if kind(record) == 9 { 10 * inner(record) } else { 0 };
    let record = |n: u32| [kind(n), 0, 0, 0, 0, inner(n), of(n), count, n.saturating_sub(1)];
    (0..count).flat_map(record).collect()
}

/// Compounds, each in the one before it, and after the innermost a byte in each: as many climbs as descents, and the last to the root.
fn comb(count: u32) -> Vec<u32> {
    let compound = |n: u32| [10, 0, 0, 0, 0, 1 + u32::from(n + 1 < count), 0, 2 * count - n, n.saturating_sub(1)];
    let byte = |n: u32| [1, 0, 0, 0, 1, 0, 0, count + n + 1, count - 1 - n];
    (0..count).flat_map(compound).chain((0..count).flat_map(byte)).collect()
}

/// A root with so many bytes in it.
fn wide(count: u32) -> Vec<u32> {
    let byte = |n: u32| [1, 0, 0, 0, 1, 0, 0, n + 2, 0];
    [10, 0, 0, 0, 0, count, 0, count + 1, 0].into_iter().chain((0..count).flat_map(byte)).collect()
}

/// Moves these words both ways on a stack of 64 KiB, however deep they are.
fn on_a_small_stack(words: &[u32], doc_len: usize) {
    let new = spelt(words, 9);
    let old = cut(&new);
    for (way, from, to) in [(Up, &old, &new), (Down, &new, &old)] {
        let mut out = vec![0xAA; to.len() + 1];
        let answer = std::thread::scope(|scope| {
            let small = std::thread::Builder::new().stack_size(64 << 10);
            small.spawn_scoped(scope, || way.lent(doc_len, from, &mut out)).unwrap().join().unwrap()
        });
        assert_eq!(answer, Ok(to.len()));
        assert!(out.pop() == Some(0xAA) && out == *to, "{way:?}");
    }
}

#[test]
fn deep_and_wide_tables_on_a_small_stack() {
    assert_eq!(with_parents(&chain(50)), chain(50));
    assert_eq!(with_parents(&comb(50)), comb(50));
    assert_eq!(with_parents(&wide(50)), wide(50));
    on_a_small_stack(&chain(100_000), 0);
    on_a_small_stack(&comb(50_000), 1);
    on_a_small_stack(&wide(100_000), 1);
}

#[test]
fn what_is_wrong_deep_down_is_found() {
    for (words, doc_len) in [(chain(10_000), 0), (chain(9_999), 0), (comb(5_000), 1), (wide(10_000), 1)] {
        let last = words.len() - WORDS;
        // the last record ends one too late; on the way down, its parent is another
        for (at, ways) in [(last + 7, &WAYS[..]), (last + 8, &[Down])] {
            let mut changed = words.clone();
            changed[at] += 1;
            ways.iter().for_each(|&way| assert_eq!(way.whole(&way.from(&changed), doc_len), Err(NONE), "{way:?} {at}"));
        }
    }
}

/// The most records that a table has, and one more.
#[test]
fn limits() {
    let words = wide(MAX_RECORDS as u32 - 1);
    let new = Table::from_words(words).to_lines(1).unwrap();
    let old = cut(&new);
    for (way, mut from, to) in [(Up, old.clone(), &new), (Down, new.clone(), &old)] {
        assert!(way.whole(&from, 1).as_ref() == Ok(to), "{way:?}");
        let (last, end) = (from.len() - way.line(), from.len());
        from[last] = b'A';
        assert_eq!(way.whole(&from, 1), Err(way.bad(MAX_RECORDS)));
        from[last] = b'0';
        from.pop();
        assert_eq!(way.whole(&from, 1), Err(way.bad(MAX_RECORDS)));
        for more in [&b"\n0"[..], b"\n\n", &[b"\n", &from[..way.line()]].concat()] {
            from.truncate(end - 1);
            from.extend(more);
            assert_eq!(way.whole(&from, 1), Err(OVER));
        }
    }
}

/// Each second line, with the place of the mark and what it says.
fn pointed_at(way: Way, cases: &[(String, usize, &str)]) {
    let first = if way == Up { OLD } else { NEW }.split_inclusive('\n').next().unwrap();
    for (second, at, what) in cases {
        let lines = [first, second].concat();
        let refusal = way.whole(lines.as_bytes(), TILE.len()).unwrap_err();
        assert_eq!((refusal, refusal.number()), (way.bad(2), 29), "{second:?}");
        let window = refusal.window(lines.as_bytes()).unwrap();
        let (shown, mark) = window.split_once('\n').unwrap();
        assert_eq!(mark, format!("{}^ {what}", " ".repeat(*at)), "{second:?}");
        assert_eq!(shown.trim_end_matches('…').len(), second.trim_end_matches('\n').len().min(8 * way.words() + 8), "{second:?}");
    }
}

#[test]
fn a_bad_line_is_pointed_at_by_the_width_that_is_asked_for() {
    let (digits, nine) = (&OLD[65..129], &NEW[73..145]);
    pointed_at(
        Up,
        &[
            (format!("{nine}\n"), 64, "72 digits for 64: nine words, as lines have since parents were added"),
            (nine.to_owned(), 64, "the line goes on after 64 digits"),
            (format!("{nine}\r\n"), 64, "the line goes on after 64 digits"),
            (format!("{}x\n", &nine[..71]), 64, "the line goes on after 64 digits"),
            (format!("{nine}0\n"), 64, "the line goes on after 64 digits"),
            (format!("{}\n", &nine[..71]), 64, "the line goes on after 64 digits"),
            (format!("{digits}A\n"), 64, "the line goes on after 64 digits"),
            (format!("{digits} \n"), 64, "a blank"),
            (format!("{digits}\r\n"), 64, "a carriage return"),
            (digits.to_owned(), 64, "no line feed"),
            (format!("{}\n", &digits[1..]), 63, "the line ends after 63 of 64 digits"),
            (digits[..9].to_owned(), 9, "the lines end after 9 of 64 digits"),
            ("\n".to_owned(), 0, "the line ends after 0 of 64 digits"),
            (format!("{}\n", digits.replace('8', "F")), 31, "a capital"),
            (format!("{}\n", digits.replacen('1', "g", 1)), 7, "no digit (byte 67)"),
        ],
    );
    pointed_at(
        Down,
        &[
            (format!("{digits}\n"), 64, "64 digits of 72: eight words, as lines had before parents were added"),
            (digits.to_owned(), 64, "the lines end after 64 of 72 digits"),
            (format!("{nine}0\n"), 72, "the line goes on after 72 digits"),
            (nine.to_owned(), 72, "no line feed"),
            (format!("{}\n", &nine[1..]), 71, "the line ends after 71 of 72 digits"),
        ],
    );
}
