//! What comes from hostile hands is refused, and nothing crashes: empty slices, tables of odd lengths, words that form no table, wrong
//! queries.
use std::time::Instant;
use tikfazrul::{lines_into, mutf8, query, query_into, read, read_into, read_lines_into, write, write_into, Place, Query, Refusal, Table};

const TILE: &[u8] = b"\x0A\0\x01a\x01\0\x01b\xFF\0";

#[test]
fn empty_slices() {
    assert_eq!(read(&[]), Err(Refusal::DataEnds(Place::Byte(0))));
    assert_eq!(read_into(&[], &mut []), Err(Refusal::DataEnds(Place::Byte(0))));
    assert_eq!(read_into(TILE, &mut []), Err(Refusal::TableFull(Place::Byte(4))));
    let mut none = Table::new();
    assert_eq!(none.is_table(0), Ok(false));
    assert_eq!(none.root(&[]).err(), Some(Refusal::NoTable(Place::Whole)));
    assert_eq!(write(&[], &mut none), Err(Refusal::NoTable(Place::Whole)));
    assert_eq!(write_into(TILE, &mut none, &mut []), Err(Refusal::NoTable(Place::Whole)));
    assert_eq!(query(&[], &none, &[]), Err(Refusal::NoTable(Place::Whole)));
    assert_eq!(none.find(&[], &Query::new()).err(), Some(Refusal::NoTable(Place::Whole)));
    assert_eq!((mutf8::check(&[]), mutf8::check_utf8(&[])), (Ok(()), Ok(())));
    let mut table = read(TILE).unwrap();
    assert_eq!(query(TILE, &table, &[]), Ok(vec![0]));
    assert_eq!(query_into(TILE, &table, &[4], &mut []), Err(Refusal::MoreMatches(2)));
    assert_eq!(write_into(TILE, &mut table, &mut []), Err(Refusal::OutputFull(Place::Whole)));
}

#[test]
fn tables_of_odd_lengths() {
    let whole = read(TILE).unwrap().into_words();
    for length in (0..whole.len()).chain([whole.len() + 1, 24, 27, 35]) {
        let mut words = whole.clone();
        words.resize(length, 0);
        let mut table = Table::from_words(words.clone());
        assert_eq!(table.is_table(TILE.len()), Ok(false), "{length}");
        assert_eq!(table.root(TILE).err(), Some(Refusal::NoTable(Place::Whole)));
        assert_eq!(write(TILE, &mut table), Err(Refusal::NoTable(Place::Whole)));
        assert_eq!(query(TILE, &table, &[4]), Err(Refusal::NoTable(Place::Whole)));
        assert_eq!(table.words(), words);
    }
    for room in 0..18 {
        let full = read_into(TILE, &mut vec![5; room]).unwrap_err();
        assert_eq!(full, Refusal::TableFull(Place::Byte(if room < 9 { 4 } else { 8 })));
    }
}

#[test]
fn a_refusal_zeroes_the_table_and_leaves_the_output() {
    let mut words = [9; 20];
    assert!(read_into(b"\x0A\0\0", &mut words).is_err());
    assert_eq!(words, [0; 20]);
    let mut table = read(TILE).unwrap();
    let mut out = [0xAA; 9];
    assert_eq!(write_into(TILE, &mut table, &mut out), Err(Refusal::OutputFull(Place::Whole)));
    assert_eq!(out, [0xAA; 9]);
}

/// Every word of a table set to every odd value: what is refused is refused, and what still forms a table is walked to its end.
#[test]
fn every_word_changed() {
    let whole = read(TILE).unwrap().into_words();
    let mut walked = 0;
    for at in 0..whole.len() {
        for value in [0, 1, 2, 3, 7, 8, 9, 10, 11, 13, 0x7FFF_FFFF, 0x8000_0000, u32::MAX] {
            let mut words = whole.clone();
            words[at] = value;
            let mut table = Table::from_words(words);
            match table.root(TILE) {
                Err(refusal) => assert_eq!(refusal, Refusal::NoTable(Place::Whole)),
                Ok(root) => {
                    for (_, node) in root.walk() {
                        assert!(node.path().starts_with("root"));
                        assert!(node.payload().len() + node.name_bytes().map_or(0, <[u8]>::len) <= 2 * TILE.len());
                        walked += 1;
                    }
                }
            }
            assert_eq!(table.is_table(TILE.len()).unwrap(), !matches!(write(TILE, &mut table), Err(Refusal::NoTable(_))));
        }
    }
    assert!(walked > 0, "some changes still form a table");
}

/// Every call that takes a table refuses one whose parents are wrong, and leaves what it was lent (02, [7]).
#[test]
fn wrong_parents_are_refused() {
    // a compound of a compound of a byte, and a byte beside that: records 1 to 4 below the root
    let doc = b"\x0A\0\0\x0A\0\x01a\x0A\0\x01b\x01\0\x01c\x07\0\x01\0\x01d\x08\0\0";
    let whole = read(doc).unwrap();
    let parents = [0, 0, 1, 2, 1];
    assert_eq!(whole.words().chunks(9).map(|record| record[8]).collect::<Vec<_>>(), parents);
    let none = Refusal::NoTable(Place::Whole);
    for (record, parent) in parents.into_iter().enumerate() {
        // its child, itself, the record before it, its grandparent, one beyond the table, and every other
        for wrong in (0..=7).chain([0x8000_0000, u32::MAX]).filter(|&wrong| wrong != parent) {
            let mut words = whole.words().to_vec();
            words[9 * record + 8] = wrong;
            let mut table = Table::from_words(words.clone());
            assert_eq!(table.is_table(doc.len()), Ok(false), "{wrong} for {record}");
            assert_eq!(table.root(doc).err(), Some(none));
            assert_eq!(table.find(doc, &Query::new()).err(), Some(none));
            let (mut out, mut list, mut lines) = ([0xAA; 64], [0xAA; 5], [0xAA; 5 * tikfazrul::LINE]);
            assert_eq!(write_into(doc, &mut table, &mut out), Err(none));
            assert_eq!(query_into(doc, &table, &[4], &mut list), Err(none));
            assert_eq!(lines_into(doc.len(), &table, &mut lines), Err(none));
            assert!(out.iter().chain(&lines).all(|&byte| byte == 0xAA) && list == [0xAA; 5] && table.words() == words);
            // lines hold any words, and are judged where a table is made of them
            let kept: String =
                words.chunks(9).map(|record| record.iter().map(|word| format!("{word:08x}")).collect::<String>() + "\n").collect();
            let mut taken = [0; 45];
            assert_eq!((read_lines_into(kept.as_bytes(), &mut taken), &taken[..]), (Ok(5), &words[..]));
            assert_eq!(Table::from_lines(kept.as_bytes(), doc.len()), Err(none));
        }
    }
}

/// A list of a byte, a list of a byte, and a byte: no document has it, but it is a table.
#[test]
fn a_mixed_list_is_counted_right() {
    let root = [10, 0, 0, 0, 0, 1, 0, 6, 0];
    let list = [9, 0, 0, 0, 0, 3, 1, 6, 0];
    let inner = [9, 0, 0, 0, 0, 1, 1, 5, 1];
    let byte = |end, parent| [1, 0, 0, 0, 1, 0, 0, end, parent];
    let mut table = Table::from_words([root, list, byte(3, 1), inner, byte(5, 3), byte(6, 1)].concat());
    let paths: Vec<String> = table.find(&[7], &"**".parse().unwrap()).unwrap().iter().map(|node| node.path()).collect();
    assert_eq!(paths, ["root", "root/\"\"", "root/\"\"[0]", "root/\"\"[1]", "root/\"\"[1][0]", "root/\"\"[2]"]);
    assert_eq!(write(&[7], &mut table), Err(Refusal::NonHomogenousList(Place::Record(3))));
}

#[test]
fn a_table_over_another_document() {
    let table = read(TILE).unwrap();
    assert_eq!(table.root(&TILE[..8]).err(), Some(Refusal::NoTable(Place::Whole)));
    // of the same length: the spans lie in it, and hold what they hold
    let other = [0xFF; 10];
    let root = table.root(&other).unwrap();
    assert_eq!((root.name(), root.name_bytes()), (None, Some(&[0xFF][..])));
    let path = root.children().next().unwrap().path();
    assert_eq!(path, "root/\u{FFFD}");
    assert_eq!(write(&other, &mut table.clone()), Err(Refusal::InvalidString(Place::In { byte: 3, record: 0 })));
}

#[test]
fn wrong_queries() {
    let table = read(TILE).unwrap();
    let malformed = |bytes: &[u8], at| assert_eq!(query(TILE, &table, bytes), Err(Refusal::MalformedQuery(Place::Query(at))), "{bytes:?}");
    malformed(&[0], 0);
    malformed(&[4, 5], 1);
    malformed(&[3, 2, 0, 0, 0], 1);
    malformed(&[2, 0xFF, 0xFF, 0xFF, 0xFF], 0);
    malformed(&[1, 0], 0);
    malformed(b"\x04\x01\0\x02a", 1);
    malformed(b"\x01\0\x04\xF0\x9F\x98\x80", 0);
    malformed(&[4; 17], 16);
    for first in 0..=255u8 {
        let answer = query(TILE, &table, &[first]);
        assert_eq!(answer.is_ok(), matches!(first, 3 | 4), "{first}");
    }
}

#[test]
fn a_query_of_more_matches_than_first_lent() {
    let mut doc = b"\x0A\0\0\x09\0\0\x01\0\0\x01\0".to_vec();
    doc.extend([7; 256]);
    doc.push(0);
    let table = read(&doc).unwrap();
    let all = query(&doc, &table, &[4]).unwrap();
    assert_eq!(all, (0..258).collect::<Vec<u32>>());
    assert_eq!(table.find(&doc, &"root/\"\"[255]".parse().unwrap()).unwrap()[0].record(), 257);
}

#[test]
fn tables_that_would_write_more_than_a_document() {
    // a thousand records that share one array of 65,536 bytes
    let mut words = vec![10, 0, 0, 0, 0, 1, 0, 1002, 0, 9, 0, 0, 0, 0, 1000, 7, 1002, 0];
    for end in 3..=1002 {
        words.extend([7, 0, 0, 0, 65_536, 65_536, 0, end, 1]);
    }
    let doc = vec![0; 65_536];
    let mut table = Table::from_words(words);
    assert_eq!(table.is_table(doc.len()), Ok(true));
    assert_eq!(write(&doc, &mut table), Err(Refusal::OutputFull(Place::Whole)));
    let mut out = vec![0; 66_000_000];
    assert_eq!(write_into(&doc, &mut table, &mut out), Ok(3 + 3 + 5 + 1000 * 65_540 + 1));
}

#[test]
fn deep_tables_from_elsewhere() {
    // lists in lists, far deeper than a document may be
    let count = 100_000;
    let mut words = vec![10, 0, 0, 0, 0, 1, 0, count, 0];
    for record in 1..count {
        let last = record + 1 == count;
        words.extend([9, 0, 0, 0, 0, u32::from(!last), if last { 0 } else { 9 }, count, record - 1]);
    }
    let mut table = Table::from_words(words);
    assert_eq!(table.is_table(0), Ok(true));
    let root = table.root(&[]).unwrap();
    let (depth, last) = root.walk().last().unwrap();
    assert_eq!((depth, last.record(), last.lineage().len()), (99_999, 99_999, 100_000));
    assert_eq!(last.path(), format!("root/\"\"{}", "[0]".repeat(99_998)));
    assert_eq!(query(&[], &table, &[4]), Err(Refusal::TooDeep(Place::Record(512))));
    assert_eq!(write(&[], &mut table), Err(Refusal::TooDeep(Place::Record(512))));
}

#[test]
fn limits() {
    let long = vec![0; tikfazrul::MAX_DOCUMENT + 1];
    assert_eq!(read(&long), Err(Refusal::OverLimit(Place::Whole)));
    let mut wide = Table::from_words(vec![0; 9 * tikfazrul::MAX_RECORDS + 1]);
    assert_eq!(wide.is_table(0), Err(Refusal::OverLimit(Place::Whole)));
    assert_eq!(wide.root(&[]).err(), Some(Refusal::OverLimit(Place::Whole)));
    assert_eq!(write(&[], &mut wide), Err(Refusal::OverLimit(Place::Whole)));
    assert_eq!(query(&[], &wide, &[4]), Err(Refusal::OverLimit(Place::Whole)));
}

#[test]
fn documents_cut_anywhere_and_with_any_byte_changed() {
    let doc = b"\x0A\0\x04tile\x09\0\x01l\x0A\0\0\0\x01\x08\0\x01s\0\x02ab\0\x0B\0\x01i\0\0\0\x01\0\0\0\x07\0";
    assert!(read(doc).is_ok());
    for cut in 0..doc.len() {
        let refusal = read(&doc[..cut]).unwrap_err();
        assert_eq!(refusal.number(), 1, "{cut}");
        assert!(refusal.window(&doc[..cut]).unwrap().contains("^^"));
    }
    for at in 0..doc.len() {
        for value in 0..=255 {
            let mut changed = doc.to_vec();
            changed[at] = value;
            match read(&changed) {
                Err(refusal) => assert!(refusal.place().number() <= doc.len()),
                Ok(mut table) => assert!(write(&changed, &mut table).unwrap().len() <= changed.len()),
            }
        }
    }
}

/// The root and 511 tags in each other.
fn deep(open: &[u8], innermost: &[u8], close: &[u8]) -> Vec<u8> {
    [b"\x0A\0\0", &*open.repeat(510), innermost, &*close.repeat(511)].concat()
}

/// On the smallest stack that the crate asks for.
#[test]
fn the_deepest_documents_on_a_stack_of_256_kib() {
    let compounds = deep(b"\x0A\0\0", b"\x0A\0\0\0", b"\0");
    let lists = [b"\x0A\0\0\x09\0\0", &*b"\x09\0\0\0\x01".repeat(510), &[0; 6]].concat();
    for doc in [compounds, lists] {
        let small = std::thread::Builder::new().stack_size(256 << 10);
        let thread = small.spawn(move || {
            let mut table = read(&doc).unwrap();
            assert_eq!((table.len(), query(&doc, &table, &[4, 4, 4, 3, 4]).unwrap().len()), (512, 511));
            assert_eq!(query(&doc, &table, &[4, 3].repeat(8)).unwrap().len(), 504);
            assert_eq!(query(&doc, &table, &[4].repeat(16)).unwrap().len(), 512);
            assert_eq!(query(&doc, &table, &[4, 1, 0, 1, b'y'].repeat(8)).unwrap().len(), 0);
            assert_eq!(write(&doc, &mut table).unwrap(), doc);
        });
        thread.unwrap().join().unwrap();
    }
}

/// A list of so many paths of 510 compounds: records up to 512 deep.
fn paths(n: u32) -> Vec<u8> {
    let path = [&*b"\x0A\0\0".repeat(509), &[0; 510]].concat();
    [b"\x0A\0\0\x09\0\0\x0A", &n.to_be_bytes()[..], &path.repeat(n as usize), b"\0"].concat()
}

/// A query costs its steps, not its depth: sixteen take a few times as long on records 512 deep as on as many side by side. A walk that tries
/// the steps again at each level takes hundreds of times as long.
#[test]
fn a_query_costs_its_steps_and_not_its_depth() {
    let deep = paths(40);
    let records = read(&deep).unwrap().len() as u32;
    assert_eq!(records, 2 + 40 * 510);
    let wide = [b"\x0A\0\0\x09\0\0\x01", &(records - 2).to_be_bytes()[..], &vec![7; records as usize - 2], b"\0"].concat();
    let hostile = [&[4], &[3; 14][..], b"\x01\0\x01y"].concat();
    let [deep, wide] = [deep, wide].map(|doc| {
        let table = read(&doc).unwrap();
        assert_eq!(table.len(), records as usize);
        let asked = || {
            let start = Instant::now();
            assert_eq!(query(&doc, &table, &hostile).unwrap(), []);
            start.elapsed()
        };
        (0..5).map(|_| asked()).min().unwrap()
    });
    assert!(deep < 40 * wide, "{deep:?} deep, {wide:?} wide");
}
