//! Tables kept as lines: there and back, what is refused and where, and what a refusal leaves.
mod common;

use common::samples;
use std::fmt::Write;
use tikfazrul::{lines_into, read, read_lines_into, Place, Refusal, Table, LINE, MAX_DOCUMENT, MAX_RECORDS, WORDS};

const TILE: &[u8] = b"\x0A\0\x01a\x01\0\x01b\xFF\0";
const FIRST: &str = "0000000a0000000300000001000000000000000000000001000000000000000200000000\n";
const SECOND: &str = "000000010000000700000001000000080000000100000000000000000000000200000000\n";

fn bad(line: usize) -> Refusal {
    Refusal::BadLine(Place::Line(line))
}

fn full(line: usize) -> Refusal {
    Refusal::TableFull(Place::Line(line))
}

/// Reads into words that are lent: the answer, and the words.
fn lent(lines: &[u8], words: usize) -> (Result<usize, Refusal>, Vec<u32>) {
    let mut lent = vec![0xAAAA; words];
    let answer = read_lines_into(lines, &mut lent);
    (answer, lent)
}

/// The lines of words, spelt by hand.
fn spelt(words: &[u32]) -> Vec<u8> {
    let mut lines = String::new();
    for record in words.chunks(WORDS) {
        record.iter().for_each(|word| write!(lines, "{word:08x}").unwrap());
        lines.push('\n');
    }
    lines.into_bytes()
}

#[test]
fn the_samples_there_and_back() {
    let documents = samples();
    assert!(documents.len() >= 7);
    for doc in documents {
        let read = read(&doc).unwrap();
        let lines = read.to_lines(doc.len()).unwrap();
        assert_eq!(lines, spelt(read.words()));
        let kept = Table::from_lines(&lines, doc.len()).unwrap();
        assert_eq!((kept.words(), kept.consumed()), (read.words(), 0));
        assert_eq!(kept.to_lines(doc.len()).unwrap(), lines);
        assert_eq!(format!("{:?}", kept.root(&doc).unwrap()), format!("{:?}", read.root(&doc).unwrap()));
        assert_eq!(tikfazrul::query(&doc, &kept, &[4]), tikfazrul::query(&doc, &read, &[4]));
        assert_eq!(lent(&lines, read.words().len()), (Ok(read.len()), read.words().to_vec()));
    }
}

#[test]
fn every_word_goes_there_and_back() {
    let bits = (0..32).flat_map(|bit| [1 << bit, !(1 << bit), u32::MAX >> bit, 0x0123_4567 << bit]);
    // and seven more words, so that the last record is whole
    let words: Vec<u32> = bits.chain([0x89AB_CDEF; 7]).collect();
    let lines = spelt(&words);
    assert_eq!(lent(&lines, words.len()), (Ok(15), words));
}

#[test]
fn a_bad_line_is_pointed_at() {
    let digits = &SECOND[..72];
    for (second, at, what) in [
        (format!("{}\n", digits.replace('8', "F")), 31, "a capital"),
        (format!("{}\n", digits.replacen('1', " ", 1)), 7, "a blank"),
        (format!("{digits} \n"), 72, "a blank"),
        (format!(" {digits}\n"), 0, "a blank"),
        (format!("{digits}\r\n"), 72, "a carriage return"),
        (format!("{}\n", &digits[1..]), 71, "the line ends after 71 of 72 digits"),
        (format!("{digits}0\n"), 72, "the line goes on after 72 digits"),
        (format!("{digits}00000000\n"), 72, "the line goes on after 72 digits"),
        // a line of eight words is named as what it was, wherever its words are from
        (format!("{}\n", &digits[..64]), 64, "64 digits of 72: eight words, as lines had before parents were added"),
        (format!("{}\n", &digits[8..]), 64, "64 digits of 72: eight words, as lines had before parents were added"),
        (format!("{}\n", &digits[9..]), 63, "the line ends after 63 of 72 digits"),
        (format!("{}\n", &digits[16..]), 56, "the line ends after 56 of 72 digits"),
        (format!("{}\r\n", &digits[8..]), 64, "a carriage return"),
        (digits[8..].to_owned(), 64, "the lines end after 64 of 72 digits"),
        ("\n".to_owned(), 0, "the line ends after 0 of 72 digits"),
        (digits.to_owned(), 72, "no line feed"),
        (digits[..9].to_owned(), 9, "the lines end after 9 of 72 digits"),
        (format!("{}\n", digits.replacen('1', "g", 1)), 7, "no digit (byte 67)"),
        (format!("{}\n", digits.replacen("01", "é", 1)), 6, "no digit (byte C3)"),
    ] {
        let lines = [FIRST, &second].concat();
        let refusal = Table::from_lines(lines.as_bytes(), TILE.len()).unwrap_err();
        assert_eq!(refusal, bad(2), "{second:?}");
        let window = refusal.window(lines.as_bytes()).unwrap();
        let (shown, mark) = window.split_once('\n').unwrap();
        assert_eq!(mark, format!("{}^ {what}", " ".repeat(at)), "{second:?}");
        assert_eq!(shown.len(), second.trim_end_matches('\n').len(), "{second:?}");
    }
}

/// Every byte of two lines set to every value: only digits are digits, and only a line feed is one.
#[test]
fn every_byte_changed() {
    let lines = [FIRST, SECOND].concat().into_bytes();
    for at in 0..lines.len() {
        for value in 0..=255 {
            let mut changed = lines.clone();
            changed[at] = value;
            let good = match at % LINE {
                72 => value == b'\n',
                _ => matches!(value, b'0'..=b'9' | b'a'..=b'f'),
            };
            let line = at / LINE + 1;
            let (answer, words) = lent(&changed, 19);
            assert_eq!(answer, if good { Ok(2) } else { Err(bad(line)) }, "{at} {value}");
            assert_eq!((good, words[18]), (words != [0; 19], if good { 0xAAAA } else { 0 }));
            assert_eq!(bad(line).window(&changed).is_none(), good, "{at} {value}");
        }
    }
}

#[test]
fn lines_cut_anywhere() {
    let lines = [FIRST, SECOND].concat().into_bytes();
    for cut in 0..lines.len() {
        let wanted = if cut % LINE == 0 { Ok(cut / LINE) } else { Err(bad(cut / LINE + 1)) };
        assert_eq!(lent(&lines[..cut], 18).0, wanted, "{cut}");
    }
}

#[test]
fn the_first_line_at_fault_is_named() {
    let capital = FIRST.replace('a', "A");
    for (lines, words, refusal) in [
        ([FIRST, SECOND].concat(), 17, full(2)),
        ([FIRST, SECOND].concat(), 16, full(2)),
        ([FIRST, SECOND].concat(), 8, full(1)),
        ([FIRST, SECOND].concat(), 0, full(1)),
        // in one line a bad one comes before no room
        ([FIRST, &capital].concat(), 9, bad(2)),
        ([FIRST, &SECOND[..72]].concat(), 9, bad(2)),
        ([&capital, SECOND].concat(), 0, bad(1)),
        // an earlier line without room comes before a later one that is bad
        ([FIRST, SECOND, &capital].concat(), 9, full(2)),
        ([FIRST, SECOND, "\n"].concat(), 0, full(1)),
        ([FIRST, &capital, SECOND].concat(), 9, bad(2)),
        ([FIRST, SECOND, &capital].concat(), 18, bad(3)),
    ] {
        assert_eq!(lent(lines.as_bytes(), words), (Err(refusal), vec![0; words]), "{lines:?}");
    }
    assert_eq!(full(2).window([FIRST, SECOND].concat().as_bytes()), None, "nothing is wrong with the line");
    assert_eq!((bad(0).window(b"\n"), bad(2).window(b"\n")), (None, None), "there is no such line");
}

#[test]
fn what_is_accepted_changes_only_the_words_read() {
    assert_eq!(lent(b"", 0), (Ok(0), vec![]));
    assert_eq!(lent(b"", 9), (Ok(0), vec![0xAAAA; 9]));
    let words = [&[10, 3, 1, 0, 0, 1, 0, 2, 0][..], &[0xAAAA; 17]].concat();
    assert_eq!(lent(FIRST.as_bytes(), 26), (Ok(1), words));
}

#[test]
fn lines_are_judged_before_they_are_walked() {
    let both = [FIRST, SECOND].concat();
    let none = Err(Refusal::NoTable(Place::Whole));
    assert_eq!(Table::from_lines(both.as_bytes(), TILE.len()).unwrap().root(TILE).unwrap().get("b").unwrap().as_i8(), Some(-1));
    assert_eq!(Table::from_lines(both.as_bytes(), 8), none, "a payload lies behind the document");
    for lines in ["", FIRST, SECOND, &[FIRST, SECOND, SECOND].concat(), &[SECOND, FIRST].concat()] {
        assert_eq!(Table::from_lines(lines.as_bytes(), TILE.len()), none, "{lines:?}");
    }
    // what is wrong with the lines comes first
    assert_eq!(Table::from_lines(&both.as_bytes()[..145], 0), Err(bad(2)));
    assert_eq!(Table::from_lines(&both.as_bytes()[..145], MAX_DOCUMENT + 1), Err(bad(2)));
    assert_eq!(Table::from_lines(both.as_bytes(), MAX_DOCUMENT + 1), Err(Refusal::OverLimit(Place::Whole)));
    assert!(Table::from_lines(both.as_bytes(), MAX_DOCUMENT).is_ok());
    // over a document of another length they are judged again
    let table = Table::from_lines(both.as_bytes(), TILE.len()).unwrap();
    assert_eq!(table.root(&TILE[..8]).err(), Some(Refusal::NoTable(Place::Whole)));
    assert!(table.root(&[TILE, TILE].concat()).is_ok());
}

#[test]
fn writing_into_lent_bytes() {
    let table = read(TILE).unwrap();
    let lines = [FIRST, SECOND].concat().into_bytes();
    let write = |table: &Table, doc_len: usize, room: usize| {
        let mut out = vec![0xAA; room];
        let answer = lines_into(doc_len, table, &mut out);
        (answer, out)
    };
    assert_eq!(write(&table, TILE.len(), 146), (Ok(146), lines.clone()));
    assert_eq!(write(&table, TILE.len(), 149), (Ok(146), [&lines[..], &[0xAA; 3]].concat()));
    let wide = Table::from_words(vec![0; 9 * MAX_RECORDS + 1]);
    let odd = Table::from_words(table.words()[..17].to_vec());
    let (over, none) = (Refusal::OverLimit(Place::Whole), Refusal::NoTable(Place::Whole));
    for (table, doc_len, room, refusal) in [
        (&wide, 0, 0, over),
        (&table, MAX_DOCUMENT + 1, 0, over),
        (&odd, MAX_DOCUMENT + 1, 0, over),
        (&odd, TILE.len(), 146, none),
        (&table, 8, 0, none),
        (&Table::new(), 0, 0, none),
        (&table, TILE.len(), 145, Refusal::OutputFull(Place::Whole)),
        (&table, TILE.len(), 0, Refusal::OutputFull(Place::Whole)),
    ] {
        assert_eq!(write(table, doc_len, room), (Err(refusal), vec![0xAA; room]));
        if refusal.number() != 13 {
            assert_eq!(table.to_lines(doc_len), Err(refusal));
        }
    }
}

/// A table of the most records, in a list of bytes, and the length of its document.
fn largest() -> (Vec<u32>, usize) {
    let count = MAX_RECORDS as u32;
    let elements = (2..count).flat_map(|record| [1, 0, 0, record, 1, 0, 0, record + 1, 1]);
    let words = [10, 0, 0, 0, 0, 1, 0, count, 0, 9, 0, 0, 0, 0, count - 2, 1, count, 0].into_iter().chain(elements).collect();
    (words, MAX_RECORDS)
}

/// On the smallest stack that the crate asks for.
#[test]
fn limits_on_a_stack_of_256_kib() {
    std::thread::Builder::new().stack_size(256 << 10).spawn(limits).unwrap().join().unwrap();
}

fn limits() {
    let (words, doc_len) = largest();
    let mut lines = Table::from_words(words.clone()).to_lines(doc_len).unwrap();
    assert_eq!(lines.len(), LINE * MAX_RECORDS);
    assert_eq!(Table::from_lines(&lines, doc_len).unwrap().words(), words);
    // one more, whether it is ended or good or not, and whatever else is wrong
    let over = Err(Refusal::OverLimit(Place::Whole));
    for more in [FIRST, "0", "\n"] {
        lines.truncate(LINE * MAX_RECORDS);
        lines.extend(more.as_bytes());
        assert_eq!(Table::from_lines(&lines, doc_len), over);
        assert_eq!(lent(&lines, 9), (Err(Refusal::OverLimit(Place::Whole)), vec![0; 9]));
    }
    lines[0] = b'A';
    assert_eq!(Table::from_lines(&lines, doc_len), over);
    lines.truncate(LINE * MAX_RECORDS);
    assert_eq!(Table::from_lines(&lines, doc_len), Err(bad(1)));
    lines[0] = b'0';
    assert_eq!(lent(&lines, 9 * MAX_RECORDS - 1).0, Err(full(MAX_RECORDS)));
    lines.pop();
    assert_eq!(Table::from_lines(&lines, doc_len), Err(bad(MAX_RECORDS)));
    assert_eq!(Table::from_lines(&vec![b'\n'; MAX_RECORDS], doc_len), Err(bad(1)));
    assert_eq!(Table::from_lines(&vec![b'\n'; MAX_RECORDS + 1], doc_len), over);
}

#[test]
fn one_line_without_end() {
    let long = vec![b'0'; LINE * (MAX_RECORDS + 1)];
    let refusal = Table::from_lines(&long, 0).unwrap_err();
    assert_eq!(refusal, bad(1));
    let window = refusal.window(&long).unwrap();
    assert!(window.ends_with(&format!("0…\n{}^ the line goes on after 72 digits", " ".repeat(72))), "{window}");
    assert!(window.chars().count() < 200);
}
