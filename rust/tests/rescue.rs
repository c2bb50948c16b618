//! Rescues: what they say, what they leave in lent memory, and what is refused.
use tikfazrul::{read, rescue, rescue_into, Kind, Place, Refusal, Saved, CHANGE, MAX_DEPTH, MAX_DOCUMENT};

/// A list of three compounds, cut in the second.
const CUT: &[u8] = b"\x0A\0\x01t\x09\0\x01l\x0A\0\0\0\x03\x01\0\x01b\x07\0\x01\0\x01b\x08\x08\0\x01s\0";
const SAVED: &[u8] = b"\x0A\0\x01t\x09\0\x01l\x0A\0\0\0\x02\x01\0\x01b\x07\0\x01\0\x01b\x08\0\0";

#[test]
fn what_was_open() {
    let rescued = rescue(CUT).unwrap();
    assert_eq!(rescued.document, SAVED);
    assert_eq!(rescued.table, read(SAVED).unwrap());
    let open: Vec<_> = rescued.changes().map(|c| (c.record, c.path, c.kind, c.promised, c.kept)).collect();
    assert_eq!(open, [(0, "root", Kind::Compound, 0, 1), (1, "root/l", Kind::List, 3, 2), (4, "root/l[1]", Kind::Compound, 0, 1)]);
}

#[test]
fn lent_memory() {
    let lend = |words: usize, bytes: usize, changes: usize| {
        let mut memory = (vec![0xAAAA; words], vec![0xAA; bytes], vec![0xAAAA; changes]);
        let answer = rescue_into(CUT, &mut memory.0, &mut memory.1, &mut memory.2);
        (answer, memory)
    };
    // the record of the string that is cut wants room in the read, though it vanishes
    let (answer, (words, bytes, changes)) = lend(63, SAVED.len() + 2, 11);
    assert_eq!(answer, Ok(Saved { bytes: SAVED.len(), changes: 3 }));
    assert_eq!((words, bytes), (vec![0; 63], [SAVED, &[0xAA; 2]].concat()));
    assert_eq!(changes, [0, 0, 1, 1, 3, 2, 4, 0, 1, 0xAAAA, 0xAAAA]);
    for (words, bytes, changes, refusal) in [
        (62, SAVED.len(), 9, Refusal::TableFull(Place::Byte(28))),
        (63, SAVED.len(), 8, Refusal::MoreChanges(3)),
        (63, SAVED.len() - 1, 8, Refusal::MoreChanges(3)),
        (63, SAVED.len() - 1, 9, Refusal::OutputFull(Place::Whole)),
        (63, 0, 0, Refusal::MoreChanges(3)),
        (0, 0, 0, Refusal::TableFull(Place::Byte(4))),
    ] {
        let (answer, memory) = lend(words, bytes, changes);
        assert_eq!(answer, Err(refusal));
        assert_eq!(memory, (vec![0; words], vec![0xAA; bytes], vec![0xAAAA; changes]), "{refusal}");
    }
}

#[test]
fn a_whole_document_and_a_cut_root() {
    assert_eq!(rescue(SAVED), Err(Refusal::NotCut(Place::Whole)));
    assert_eq!(rescue(&[SAVED, b"more"].concat()), Err(Refusal::NotCut(Place::Whole)));
    let mut words = [7; 11];
    assert_eq!(rescue_into(b"\x0A\0\0\0", &mut words, &mut [], &mut []), Err(Refusal::NotCut(Place::Whole)));
    assert_eq!(words, [10, 3, 0, 0, 0, 0, 0, 1, 0, 7, 7]);
    for (doc, place) in [(&b""[..], 0), (b"\x0A", 1), (b"\x0A\0", 1), (b"\x0A\0\x01", 3), (b"\x0A\0\x02a", 3)] {
        assert_eq!(rescue(doc), Err(Refusal::RootCut(Place::Byte(place))));
    }
    assert_eq!(rescue(b"\x0A\0\x01a").unwrap().document, b"\x0A\0\x01a\0");
    assert_eq!(rescue(b"\x09\0\0"), Err(Refusal::MissingRootTag(Place::Byte(0))));
    assert_eq!(rescue(b"\x0A\0\x01\xFF"), Err(Refusal::InvalidString(Place::Byte(3))));
}

#[test]
fn more_records_than_first_thought() {
    // a record for each byte: the table is made larger until it has room
    let mut doc = b"\x0A\0\0\x09\0\0\x01\0\x01\0\0".to_vec();
    doc.extend([7; 65_000]);
    let rescued = rescue(&doc).unwrap();
    assert_eq!(rescued.table.len(), 65_002);
    assert_eq!(rescued.changes().map(|change| (change.promised, change.kept)).collect::<Vec<_>>(), [(0, 1), (65_536, 65_000)]);
}

/// The deepest that a document is, on the smallest stack that the crate asks for.
#[test]
fn the_deepest_on_a_stack_of_256_kib() {
    let compounds = b"\x0A\0\0".repeat(MAX_DEPTH);
    let lists = [&b"\x0A\0\0\x09\0\0"[..], &b"\x09\0\0\0\x02".repeat(MAX_DEPTH - 2), b"\x01\0\0\0\x02\x07"].concat();
    for doc in [compounds, lists] {
        let small = std::thread::Builder::new().stack_size(256 << 10);
        let thread = small.spawn(move || {
            let rescued = rescue(&doc).unwrap();
            assert_eq!(rescued.changes().len(), MAX_DEPTH);
            assert!(rescued.document.len() <= doc.len() + MAX_DEPTH);
            assert!(rescued.changes().zip(rescued.changes().skip(1)).all(|(outer, inner)| inner.path.starts_with(outer.path)));
            let short = rescue_into(&doc, &mut [0; 9 * 514], &mut vec![0; doc.len() + MAX_DEPTH], &mut [0; CHANGE * MAX_DEPTH - 1]);
            assert_eq!(short, Err(Refusal::MoreChanges(MAX_DEPTH)));
        });
        thread.unwrap().join().unwrap();
    }
    assert_eq!(rescue(&b"\x0A\0\0".repeat(MAX_DEPTH + 1)), Err(Refusal::TooDeep(Place::Byte(3 * MAX_DEPTH + 3))));
}

#[test]
fn limits() {
    assert_eq!(rescue(&vec![0; MAX_DOCUMENT + 1]), Err(Refusal::OverLimit(Place::Whole)));
    // an array that fills the document but for the root's end, which makes it one byte longer than a document may be
    let size = MAX_DOCUMENT - 10;
    let mut doc = b"\x0A\0\0\x07\0\0".to_vec();
    doc.extend((size as u32).to_be_bytes());
    doc.resize(MAX_DOCUMENT, 5);
    assert_eq!(rescue(&doc), Err(Refusal::OutputFull(Place::Whole)));
    let mut out = vec![0; MAX_DOCUMENT + 1];
    let saved = rescue_into(&doc, &mut [0; 18], &mut out, &mut [0; 3]);
    assert_eq!(saved, Ok(Saved { bytes: MAX_DOCUMENT + 1, changes: 1 }));
    assert_eq!((&out[..MAX_DOCUMENT], out[MAX_DOCUMENT]), (&doc[..], 0));
}
