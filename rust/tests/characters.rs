//! Names and strings that can't be read, in both forms: the place of refusal 4 in reading and writing (02, [3]), which string it is, and the
//! bytes marked.
use tikfazrul::{check_string, read, read_in, rescue_in, write, Broken, Form, Part, Place, Refusal, Table, MAX_DEPTH, MAX_DOCUMENT};

mod common;
#[path = "common/pocket.rs"]
mod layout;

const FORMS: [Form; 2] = [Form::Java, Form::Pocket];

/// A string, the offset of the first sequence that can't be read, and the number of bytes that belong to it.
type Sequence = (&'static [u8], usize, usize);

/// Sequences that are not modified UTF-8, worked out from 01's rule 2 and 02, [3]. No text behind makes one readable, or begins with a byte
/// that would belong to it.
const JAVA: [Sequence; 22] = [
    (b"\0", 0, 1),
    (b"\x80", 0, 1),
    (b"\xBF\xBF", 0, 1),
    (b"\xF8\x88\x80\x80\x80", 0, 1),
    (b"\xFF", 0, 1),
    (b"\xC3", 0, 1),
    (b"\xC3(", 0, 1),
    (b"\xE2\x82", 0, 2),
    (b"\xE2\x82a", 0, 2),
    (b"\xE2a\x82", 0, 1),
    (b"\xC1\xBF", 0, 2),
    (b"\xE0\x9F\xBF", 0, 3),
    (b"\xF0\x9F\x98\x80", 0, 4),
    (b"\xF0\x9F\x98\x80\x80", 0, 4),
    (b"\xED\xA0\xBD", 0, 3),
    (b"\xED\xA0\xBD\0", 0, 3),
    (b"\xED\xA0\xBD\xED\xB8", 0, 3),
    (b"\xED\xA0\xBD\xED\xB8a", 0, 3),
    (b"\xED\xA0\xBD\xED\xA0\xBD", 0, 3),
    (b"\xED\xB8\x80", 0, 3),
    (b"\xED\xA0\xBD\xED\xB8\x80\xED\xB8\x80", 6, 3),
    (b"ab\xE2\x82\xAC\x80", 5, 1),
];

/// The same that are not UTF-8, from 02, [2].
const POCKET: [Sequence; 23] = [
    (b"\x80", 0, 1),
    (b"\xBF\xBF", 0, 1),
    (b"\xF8\x88\x80\x80\x80", 0, 1),
    (b"\xFF", 0, 1),
    (b"\xC3", 0, 1),
    (b"\xC3(", 0, 1),
    (b"\xC3\0", 0, 1),
    (b"\xE2\x82", 0, 2),
    (b"\xE2\x82a", 0, 2),
    (b"\xE2a\x82", 0, 1),
    (b"\xC0\x80", 0, 2),
    (b"\xC1\xBF", 0, 2),
    (b"\xE0\x9F\xBF", 0, 3),
    (b"\xF0\x8F\xBF\xBF", 0, 4),
    (b"\xF4\x90\x80\x80", 0, 4),
    (b"\xF5\x80\x80\x80", 0, 4),
    (b"\xF0\x9F\x98", 0, 3),
    (b"\xF0\x9F\x98a", 0, 3),
    (b"\xED\xA0\xBD", 0, 3),
    (b"\xED\xB8\x80", 0, 3),
    (b"\xED\xA0\xBD\xED\xB8\x80", 0, 3),
    (b"\0\xF0\x9F\x98\x80\x80", 5, 1),
    (b"ab\xE2\x82\xAC\x80", 5, 1),
];

/// What may stand around one: nothing, a letter, and characters of every length.
fn around(form: Form) -> [Vec<u8>; 3] {
    [Vec::new(), b"a".to_vec(), form.encode("r\u{E9}\u{20AC}\0\u{1F600}").into_owned()]
}

/// Each sequence at the start of a string, within it and at its end: the string, the offset and the number of bytes.
fn strings(form: Form) -> Vec<(Vec<u8>, usize, usize)> {
    let sequences = if form == Form::Java { &JAVA[..] } else { &POCKET };
    let mut strings = Vec::new();
    for before in around(form) {
        for behind in around(form) {
            let one = |&(bytes, offset, width): &Sequence| ([&before, bytes, &behind].concat(), before.len() + offset, width);
            strings.extend(sequences.iter().map(one));
        }
    }
    strings
}

/// The document with a string between these bytes, its length before it, and where its content begins.
fn with(form: Form, before: &[u8], string: &[u8], behind: &[u8]) -> (Vec<u8>, usize) {
    let length = u16::try_from(string.len()).unwrap();
    let length = if form == Form::Java { length.to_be_bytes() } else { length.to_le_bytes() };
    ([before, &length, string, behind].concat(), before.len() + 2)
}

/// Refusal 4 of a form.
fn invalid(form: Form, place: Place) -> Refusal {
    match form {
        Form::Java => Refusal::InvalidString(place),
        Form::Pocket => Refusal::InvalidPocketString(place),
    }
}

/// What a document is refused with, and which string can't be read.
fn refused_in(form: Form, doc: &[u8]) -> (Refusal, Option<Broken>) {
    let refusal = read_in(form, doc).unwrap_err();
    (refusal, refusal.broken(doc))
}

fn refused(doc: &[u8]) -> (Refusal, Option<Broken>) {
    refused_in(Form::Java, doc)
}

fn broken(path: &str, part: Part, bytes: std::ops::Range<usize>) -> Option<Broken> {
    Some(Broken { path: path.to_owned(), part, bytes })
}

/// Where a string stands: what comes before the length in each form, and behind the content, the path, and which string it is.
type Standing = ([&'static [u8]; 2], &'static [u8], &'static str, Part);

const PLACES: [Standing; 12] = [
    ([b"\x0A", b"\x0A"], b"\0", "root", Part::RootName),
    ([b"\x0A\0\0\x01", b"\x0A\0\0\x01"], b"\x07\0", "root", Part::Name),
    ([b"\x0A\0\x01t\x08\0\x01a\0\x01b\x08", b"\x0A\x01\0t\x08\x01\0a\x01\0b\x08"], b"\0\0\0", "root", Part::Name),
    ([b"\x0A\0\0\x09", b"\x0A\0\0\x09"], b"\x01\0\0\0\0\0", "root", Part::Name),
    ([b"\x0A\0\0\x0A", b"\x0A\0\0\x0A"], b"\0\0", "root", Part::Name),
    ([b"\x0A\0\0\x0A\0\x01s\x0A", b"\x0A\0\0\x0A\x01\0s\x0A"], b"\0\0\0", "root/s", Part::Name),
    ([b"\x0A\0\0\x09\0\x01l\x0A\0\0\0\x02\0\x01", b"\x0A\0\0\x09\x01\0l\x0A\x02\0\0\0\0\x01"], b"\x07\0\0", "root/l[1]", Part::Name),
    ([b"\x0A\0\0\x08\0\x01s", b"\x0A\0\0\x08\x01\0s"], b"\0", "root/s", Part::String),
    ([b"\x0A\0\0\x08\0\x01a\0\x01b\x08\0\x03a b", b"\x0A\0\0\x08\x01\0a\x01\0b\x08\x03\0a b"], b"\0", "root/\"a b\"", Part::String),
    ([b"\x0A\0\0\x09\0\x01l\x08\0\0\0\x01", b"\x0A\0\0\x09\x01\0l\x08\x01\0\0\0"], b"\0", "root/l[0]", Part::String),
    (
        [b"\x0A\0\0\x09\0\x01l\x08\0\0\0\x03\0\x01a\0\x01b", b"\x0A\0\0\x09\x01\0l\x08\x03\0\0\0\x01\0a\x01\0b"],
        b"\0",
        "root/l[2]",
        Part::String,
    ),
    (
        [b"\x0A\0\0\x09\0\x01l\x0A\0\0\0\x02\0\x08\0\x01s", b"\x0A\0\0\x09\x01\0l\x0A\x02\0\0\0\0\x08\x01\0s"],
        b"\0\0",
        "root/l[1]/s",
        Part::String,
    ),
];

/// Every string that can't be read, in every place and in both forms.
fn everywhere(judge: impl Fn(Form, &str, Part, Vec<u8>, std::ops::Range<usize>, (usize, usize))) {
    for form in FORMS {
        for (before, behind, path, part) in PLACES {
            for (string, offset, width) in strings(form) {
                let (doc, start) = with(form, before[form as usize], &string, behind);
                judge(form, path, part, doc, start..start + string.len(), (start + offset, width));
            }
        }
    }
}

#[test]
fn a_read_says_where_and_which() {
    everywhere(|form, path, part, doc, content, (at, width)| {
        let wanted = (invalid(form, Place::Byte(at)), broken(path, part, at..at + width));
        assert_eq!(refused_in(form, &doc), wanted, "{form:?} {doc:X?}");
        // what follows the string is not looked at, and a rescue hands the place on
        assert_eq!(refused_in(form, &doc[..content.end]), wanted);
        assert_eq!(rescue_in(form, &doc), Err(wanted.0));
        // a refusal of the other form is none of this document's
        let other = if form == Form::Java { Form::Pocket } else { Form::Java };
        if read_in(other, &doc).err().map(|refusal| refusal.place()) != Some(Place::Byte(at)) {
            assert_eq!(invalid(other, Place::Byte(at)).broken(&doc), None);
        }
    });
}

/// The bytes above the marks of a window.
fn marked(window: &str) -> String {
    let lines: Vec<&str> = window.lines().collect();
    let above =
        |pair: &[&str]| -> String { pair[0].chars().zip(pair[1].chars()).filter(|pair| pair.1 == '^').map(|pair| pair.0).collect() };
    lines.windows(2).filter(|pair| pair[1].ends_with('^')).map(above).collect()
}

fn digits(bytes: &[u8]) -> String {
    bytes.iter().map(|byte| format!("{byte:02X}")).collect()
}

#[test]
fn every_byte_of_the_sequence_is_marked() {
    everywhere(|form, _, _, doc, _, (at, width)| {
        let refusal = read_in(form, &doc).unwrap_err();
        let window = refusal.window(&doc).unwrap();
        assert_eq!(marked(&window), digits(&doc[at..at + width]), "{window}");
        assert_eq!(refusal.marked(&doc), Some(at..at + width));
    });
    for form in FORMS {
        for (string, offset, width) in strings(form) {
            let refusal = check_string(form, &string).unwrap_err();
            assert_eq!(refusal, invalid(form, Place::Byte(offset)));
            assert_eq!(marked(&refusal.window(&string).unwrap()), digits(&string[offset..offset + width]));
            assert_eq!(refusal.broken(&string), None);
        }
    }
    assert_eq!(tikfazrul::mutf8::check(b"a\0"), check_string(Form::Java, b"a\0"));
}

#[test]
fn no_byte_behind_the_string_is_marked() {
    // the next element's length begins as the euro sign goes on
    let pocket = b"\x0A\0\0\x09\x01\0l\x08\x02\0\0\0\x02\0a\xE2\x82\xAC";
    let doc = b"\x0A\0\0\x09\0\x01l\x08\0\0\0\x02\0\x02a\xE2\x82\xAC";
    for (form, doc) in [(Form::Pocket, pocket), (Form::Java, doc)] {
        let (refusal, found) = refused_in(form, doc);
        assert_eq!((refusal, found), (invalid(form, Place::Byte(15)), broken("root/l[0]", Part::String, 15..16)));
        assert_eq!(marked(&refusal.window(doc).unwrap()), "E2");
    }
    let refusal = Refusal::InvalidString(Place::Byte(15));
    // bytes that are no such document end the sequence themselves
    assert_eq!(marked(&refusal.window(&doc[1..]).unwrap()), "82");
    assert_eq!(marked(&refusal.window(&[&[0][..], doc].concat()[..17]).unwrap()), "61");
    assert_eq!(marked(&refusal.window(b"").unwrap()), "  ");
}

#[test]
fn a_sequence_across_two_lines() {
    let doc = b"\x0A\0\x04tile\x08\0\0\0\x06S2 \xF0\x9F\x98\0";
    assert_eq!(
        read(doc).unwrap_err().window(doc).unwrap(),
        "\
00000000  0A 00 04 74 69 6C 65 08  00 00 00 06 53 32 20 F0  |...tile.....S2 .|
                                                        ^^
00000010  9F 98 00                                          |...|
          ^^ ^^"
    );
}

/// Each name and each string of the samples, in both forms, broken at each of its bytes: the path is the one that the tag had.
#[test]
fn every_string_of_the_samples() {
    let mut tried = [0; 3];
    let java = common::samples();
    let pocket = java.iter().map(|doc| (Form::Pocket, layout::pocket(doc)));
    for (form, doc) in pocket.chain(java.iter().map(|doc| (Form::Java, doc.clone()))) {
        let table = read_in(form, &doc).unwrap();
        for (_, node) in table.root(&doc).unwrap().walk() {
            let record = node.record();
            let above = node.parent().map_or(("root".to_owned(), Part::RootName), |parent| (parent.path(), Part::Name));
            let word = |which: usize| table.words()[9 * record + which] as usize;
            let name = (word(1)..word(1) + word(2), above);
            let value = (word(3)..word(3) + if word(0) == 8 { word(4) } else { 0 }, (node.path(), Part::String));
            for (string, (path, part)) in [name, value] {
                for at in string.clone().filter(|at| check_string(form, &doc[string.start..*at]).is_ok()) {
                    let mut other = doc.clone();
                    other[at] = 0xFF;
                    assert_eq!(refused_in(form, &other), (invalid(form, Place::Byte(at)), broken(&path, part, at..at + 1)));
                    tried[part as usize] += 1;
                }
            }
        }
    }
    assert!(tried.iter().all(|&tried| tried > 40), "{tried:?}");
}

/// Names of which the part that can be read would be refused for something else.
#[test]
fn a_name_is_a_name_whatever_its_start_is() {
    let name = |doc: &[u8], path: &str, at: usize| assert_eq!(refused(doc).1, broken(path, Part::Name, at..at + 1), "{doc:X?}");
    // the name of a sister
    name(b"\x0A\0\0\x08\0\x01a\0\0\x08\0\x02a\xFF\0\0\0", "root", 13);
    // no such id
    name(b"\x0A\0\0\x08\0\x01a\0\0\x0D\0\x01\xFF", "root", 12);
    // a string before it, and a compound whose name it is
    name(b"\x0A\0\0\x08\0\x01a\0\0\x0A\0\x02b\xFF\0\0", "root", 13);
    // one level too many
    let deep = [&b"\x0A\0\0".repeat(MAX_DEPTH)[..], b"\x0A\0\x02b\xFF\0"].concat();
    name(&deep, &format!("root{}", "/\"\"".repeat(MAX_DEPTH - 1)), deep.len() - 2);
}

/// Compounds that are not closed take a byte each, for which a document of all bytes has no room: then it is not said which string it is.
#[test]
fn a_document_that_cannot_be_rescued() {
    let longest = |compounds: usize| {
        let behind = b"\x08\0\x01s\0\x01\xFF";
        let mut doc = [&b"\x0A\0\0".repeat(compounds)[..], b"\x07\0\x01b"].concat();
        let elements = MAX_DOCUMENT - doc.len() - 4 - behind.len();
        doc.extend(u32::try_from(elements).unwrap().to_be_bytes());
        doc.resize(MAX_DOCUMENT - behind.len(), 5);
        doc.extend(behind);
        refused(&doc)
    };
    let refusal = Refusal::InvalidString(Place::Byte(MAX_DOCUMENT - 1));
    assert_eq!(longest(1), (refusal, broken("root/s", Part::String, MAX_DOCUMENT - 1..MAX_DOCUMENT)));
    assert_eq!(longest(2), (refusal, None));
}

/// A root, in it a string n, a byte o and a list p of two strings, over a document that begins with nop.
const TREE: [[u32; 9]; 6] = [
    [10, 0, 0, 0, 0, 3, 0, 6, 0],
    [8, 0, 1, 1, 2, 0, 0, 2, 0],
    [1, 1, 1, 0, 1, 0, 0, 3, 0],
    [9, 2, 1, 0, 0, 2, 8, 6, 0],
    [8, 0, 0, 0, 2, 0, 0, 5, 3],
    [8, 0, 0, 0, 3, 0, 0, 6, 3],
];

/// What the writing of such a table is refused with, where these spans are other ones: record, first word, start and length. And which
/// string can't be read.
fn unwritten_in(form: Form, doc: &[u8], spans: &[(usize, usize, usize, usize)]) -> (Refusal, Option<Broken>) {
    let mut records = TREE;
    for &(record, word, start, length) in spans {
        records[record][word] = start as u32;
        records[record][word + 1] = length as u32;
    }
    let mut table = Table::from_words_in(form, records.concat());
    let refusal = write(doc, &mut table).unwrap_err();
    assert_eq!(table.words(), records.concat());
    (refusal, refusal.broken_in(doc, &table))
}

fn unwritten(doc: &[u8], spans: &[(usize, usize, usize, usize)]) -> (Refusal, Option<Broken>) {
    unwritten_in(Form::Java, doc, spans)
}

const NAME: usize = 1;
const STRING: usize = 3;

fn at(byte: usize, record: usize) -> Refusal {
    Refusal::InvalidString(Place::In { byte, record })
}

#[test]
fn a_write_says_where_and_which() {
    let places = [
        (0, NAME, "root", Part::RootName),
        (1, NAME, "root", Part::Name),
        (3, NAME, "root", Part::Name),
        (1, STRING, "root/n", Part::String),
        (4, STRING, "root/p[0]", Part::String),
        (5, STRING, "root/p[1]", Part::String),
    ];
    for (form, (record, word, path, part)) in FORMS.into_iter().flat_map(|form| places.map(|place| (form, place))) {
        for (string, offset, width) in strings(form) {
            // what follows would go on with a sequence that is cut
            let doc = [b"nop", &string[..], b"\x82\x82"].concat();
            let byte = 3 + offset;
            let answer = unwritten_in(form, &doc, &[(record, word, 3, string.len())]);
            let refusal = invalid(form, Place::In { byte, record });
            assert_eq!(answer, (refusal, broken(path, part, byte..byte + width)), "{form:?} {string:X?}");
            assert_eq!((refusal.place().number(), refusal.place().record()), (byte, Some(record)));
        }
    }
}

/// Bytes that are a string of one form and not of the other: what is told of a table follows the form that it has.
#[test]
fn a_table_is_judged_by_its_own_form() {
    let words = [[10, 0, 0, 0, 0, 1, 0, 2, 0], [8, 0, 1, 0, 5, 0, 0, 2, 0]].concat();
    for (good, bad, doc) in [(Form::Java, Form::Pocket, b"nop\xC0\x80"), (Form::Pocket, Form::Java, b"nop\0\0")] {
        let [mut one, mut other] = [good, bad].map(|form| Table::from_words_in(form, words.clone()));
        assert!(write(doc, &mut one).is_ok());
        let refusal = write(doc, &mut other).unwrap_err();
        assert_eq!(refusal, invalid(bad, Place::In { byte: 3, record: 1 }));
        assert_eq!(refusal.broken_in(doc, &other), broken("root/n", Part::String, 3..if bad == Form::Java { 4 } else { 5 }));
        assert_eq!(refusal.broken_in(doc, &one), None);
        assert_eq!(invalid(good, refusal.place()).broken_in(doc, &other), None);
    }
}

#[test]
fn of_two_strings_a_write_names_the_first() {
    let doc = b"nop\xFFx\xE2\x82";
    // a name before its own string, whichever stands first in the document
    assert_eq!(unwritten(doc, &[(1, NAME, 4, 3), (1, STRING, 3, 1)]), (at(5, 1), broken("root", Part::Name, 5..7)));
    assert_eq!(unwritten(doc, &[(1, NAME, 3, 1), (1, STRING, 4, 3)]), (at(3, 1), broken("root", Part::Name, 3..4)));
    // one span that is both
    assert_eq!(unwritten(doc, &[(1, NAME, 3, 1), (1, STRING, 3, 1)]), (at(3, 1), broken("root", Part::Name, 3..4)));
    // the earlier record
    assert_eq!(unwritten(doc, &[(1, STRING, 4, 3), (3, NAME, 3, 1)]), (at(5, 1), broken("root/n", Part::String, 5..7)));
    assert_eq!(unwritten(doc, &[(0, NAME, 4, 2), (1, NAME, 3, 1)]), (at(5, 0), broken("root", Part::RootName, 5..6)));
    assert_eq!(unwritten(doc, &[(4, STRING, 4, 3), (5, STRING, 3, 1)]), (at(5, 4), broken("root/p[0]", Part::String, 5..7)));
}

#[test]
fn other_refusals_of_a_write_have_a_record_alone() {
    let doc = b"nop\xFF";
    // o is called n, before a list whose name can't be read
    let twice = Refusal::RepeatedName(Place::Record(2));
    assert_eq!(unwritten(doc, &[(2, NAME, 0, 1), (3, NAME, 3, 1)]), (twice, None));
    let long = vec![b'n'; 65_536];
    assert_eq!(unwritten(&long, &[(1, NAME, 0, 65_536)]), (Refusal::StringTooLong(Place::Record(1)), None));
    assert_eq!((twice.place().number(), twice.place().record()), (2, Some(2)));
    assert_eq!(Refusal::OutputFull(Place::Whole).place().record(), None);
}

#[test]
fn a_string_is_found_only_where_it_is() {
    let doc = b"nop\xFF";
    let mut records = TREE;
    records[1][STRING..STRING + 2].copy_from_slice(&[3, 1]);
    let table = Table::from_words(records.concat());
    assert_eq!(at(3, 1).broken_in(doc, &table), broken("root/n", Part::String, 3..4));
    for (refusal, bytes, table) in [
        (at(2, 1), &doc[..], &table),
        (at(3, 2), doc, &table),
        (at(3, 6), doc, &table),
        (at(3, 1), b"nopq", &table),
        (at(3, 1), b"nop", &table),
        (at(3, 1), doc, &Table::new()),
        (Refusal::InvalidString(Place::Byte(3)), doc, &table),
        (Refusal::RepeatedName(Place::In { byte: 3, record: 1 }), doc, &table),
    ] {
        assert_eq!(refusal.broken_in(bytes, table), None, "{refusal}");
    }
    let doc = b"\x0A\0\0\x08\0\x01s\0\x01\xFF\0";
    for refusal in [
        Refusal::InvalidString(Place::Byte(8)),
        Refusal::InvalidString(Place::Byte(99)),
        Refusal::InvalidString(Place::Whole),
        Refusal::DataEnds(Place::Byte(9)),
        at(9, 1),
    ] {
        assert_eq!(refusal.broken(doc), None, "{refusal}");
    }
    assert_eq!(Refusal::InvalidString(Place::Byte(9)).broken(&doc[1..]), None);
    // a place without a table is shown all the same
    assert_eq!(marked(&at(9, 1).window(doc).unwrap()), "FF");
}
