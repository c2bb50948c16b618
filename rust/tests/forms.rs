//! Documents in the pocket edition's form (02, [2]): laid out by hand from the same values as in Java's, then read, written, asked, rescued and
//! kept as lines.
use tikfazrul::{
    check_string, query, read, read_in, read_in_into, rescue, rescue_in, rescue_in_into, write, Fault, Form, Kind, Node, Place, Query,
    Refusal, Rescued, Saved, Table, MAX_NAME,
};

mod common;
#[path = "common/pocket.rs"]
mod layout;

use layout::{pocket, string};

/// A text's document in Java's form, and in the pocket edition's.
fn both(text: &str) -> (Vec<u8>, Vec<u8>) {
    let java = tikfazrul::parse(text.as_bytes()).unwrap().document;
    let pocket = pocket(&java);
    (java, pocket)
}

/// A tag's path and kind; its count, end, list's kind and parent; its name and value.
type Told = (String, Kind, [usize; 4], Option<String>, Option<String>);

/// What can be told of a tag whatever its form; floats by their bits.
fn told(node: &Node) -> Told {
    let value = match node.kind() {
        Kind::Float => node.as_f32().map(|n| n.to_bits().to_string()),
        Kind::Double => node.as_f64().map(|n| n.to_bits().to_string()),
        Kind::String => node.as_str().map(|text| text.into_owned()),
        Kind::ByteArray | Kind::IntArray | Kind::LongArray => node.wholes().map(|all| format!("{:?}", all.collect::<Vec<_>>())),
        _ => node.as_whole().map(|n| n.to_string()),
    };
    let list_kind = node.list_kind().map_or(0, |kind| usize::from(kind.id()));
    let parent = node.parent().map_or(usize::MAX, |parent| parent.record());
    (node.path(), node.kind(), [node.len(), node.end(), list_kind, parent], node.name().map(|name| name.into_owned()), value)
}

fn tree(table: &Table, doc: &[u8]) -> Vec<Told> {
    table.root(doc).unwrap().walk().map(|(_, node)| told(&node)).collect()
}

#[test]
fn a_document_counted_out_by_hand() {
    // the root t; in it the short s of 258, the string n "hi", the ints i of 1 and -2, and the list l of two bytes
    let doc = b"\x0A\x01\0t\x02\x01\0s\x02\x01\x08\x01\0n\x02\0hi\x0B\x01\0i\x02\0\0\0\x01\0\0\0\xFE\xFF\xFF\xFF\x09\x01\0l\x01\x02\0\0\0\x07\x08\0";
    let words = [
        [10, 3, 1, 0, 0, 4, 0, 7, 0],
        [2, 7, 1, 8, 2, 0, 0, 2, 0],
        [8, 13, 1, 16, 2, 0, 0, 3, 0],
        [11, 21, 1, 26, 8, 2, 0, 4, 0],
        [9, 37, 1, 0, 0, 2, 1, 7, 0],
        [1, 0, 0, 43, 1, 0, 0, 6, 4],
        [1, 0, 0, 44, 1, 0, 0, 7, 4],
    ]
    .concat();
    let mut table = read_in(Form::Pocket, doc).unwrap();
    assert_eq!((table.words(), table.consumed(), table.form()), (&words[..], 46, Form::Pocket));
    let mut lent = vec![9; 70];
    let answer = read_in_into(Form::Pocket, &[&doc[..], b"rest"].concat(), &mut lent).unwrap();
    assert_eq!((answer.consumed, answer.records, &lent[..63], &lent[63..]), (46, 7, &words[..], &[9; 7][..]));
    let root = table.root(doc).unwrap();
    assert_eq!(root.get("s").unwrap().as_i16(), Some(258));
    assert_eq!(root.get("s").unwrap().payload(), [2, 1]);
    assert_eq!(root.get("n").unwrap().as_str().unwrap(), "hi");
    assert_eq!(root.get("i").unwrap().int_array().unwrap().collect::<Vec<_>>(), [1, -2]);
    assert_eq!(root.get("l").unwrap().element(1).unwrap().as_i8(), Some(8));
    assert_eq!(write(doc, &mut table).unwrap(), doc);
    assert_eq!(read_in(Form::Java, doc), Err(Refusal::DataEnds(Place::Byte(3))));
    assert_eq!((read_in(Form::Java, doc), Form::default()), (read(doc), Form::Java));
}

#[test]
fn every_value_of_the_samples() {
    let mut kinds = [false; 13];
    for java in common::samples() {
        let whole = read(&java).unwrap();
        let doc = pocket(&java);
        let mut table = read_in(Form::Pocket, &doc).unwrap();
        assert_eq!((table.consumed(), table.len(), table.form()), (doc.len(), whole.len(), Form::Pocket));
        assert_eq!(tree(&table, &doc), tree(&whole, &java));
        assert_eq!(write(&doc, &mut table).unwrap(), doc);
        // lines hold the words alone: the form is said again
        let lines = table.to_lines(doc.len()).unwrap();
        let kept = Table::from_lines_in(Form::Pocket, &lines, doc.len()).unwrap();
        assert_eq!((kept.form(), tree(&kept, &doc)), (Form::Pocket, tree(&table, &doc)));
        assert_eq!(write(&doc, &mut Table::from_words_in(Form::Pocket, table.words().to_vec())).unwrap(), doc);
        whole.root(&java).unwrap().walk().for_each(|(_, node)| kinds[usize::from(node.kind().id())] = true);
    }
    assert!(kinds[1..].iter().all(|&there| there), "{kinds:?}");
}

#[test]
fn a_table_takes_the_form_of_what_is_read_last() {
    let (java, pocket) = both("{a: 258}");
    let mut table = Table::new();
    for _ in 0..2 {
        table.read_in(Form::Pocket, &pocket).unwrap();
        assert_eq!((table.form(), table.root(&pocket).unwrap().get("a").unwrap().as_i32()), (Form::Pocket, Some(258)));
        table.read(&java).unwrap();
        assert_eq!((table.form(), table.root(&java).unwrap().get("a").unwrap().as_i32()), (Form::Java, Some(258)));
        assert_eq!(table, read(&java).unwrap());
    }
    assert_ne!(read_in(Form::Pocket, b"\x0A\0\0\0").unwrap(), read(b"\x0A\0\0\0").unwrap());
    assert_eq!(Table::from_words(table.words().to_vec()).form(), Form::Java);
}

/// Each refusal of the reader, in both forms: the same fault has the same place.
#[test]
fn refusals_keep_number_and_place() {
    for (java, pocket, number, place) in [
        (&b""[..], &b""[..], 1, 0),
        (b"\x0A\0", b"\x0A\0", 1, 1),
        (b"\x0A\x01\0", b"\x0A\0\x01", 1, 3),
        (b"\x09\0\0", b"\x09\0\0", 2, 0),
        (b"\x0A\0\0\x0D\0\x01", b"\x0A\0\0\x0D\x01\0", 1, 6),
        (b"\x0A\0\0\x0D\0\x01a", b"\x0A\0\0\x0D\x01\0a", 3, 3),
        (b"\x0A\0\x02a\xFF", b"\x0A\x02\0a\xFF", 4, 4),
        (b"\x0A\0\0\x09\0\0\x01\x80\0\0\0", b"\x0A\0\0\x09\0\0\x01\0\0\0\x80", 5, 7),
        (b"\x0A\0\0\x07\0\0\xFF\xFF\xFF\xFE", b"\x0A\0\0\x07\0\0\xFE\xFF\xFF\xFF", 5, 6),
        (b"\x0A\0\0\x07\0\0\0\0\0\x80", b"\x0A\0\0\x07\0\0\x80\0\0\0", 1, 10),
        (b"\x0A\0\0\x01\0\x01b\x01\x01\0\x01b\x02\0", b"\x0A\0\0\x01\x01\0b\x01\x01\x01\0b\x02\0", 6, 8),
    ] {
        let (one, other) = (read(java).unwrap_err(), read_in(Form::Pocket, pocket).unwrap_err());
        assert_eq!((one.number(), one.place()), (number, Place::Byte(place)), "{java:X?}");
        assert_eq!((other.number(), other.place()), (number, Place::Byte(place)), "{pocket:X?}");
    }
    let deep = b"\x0A\0\0".repeat(513);
    assert_eq!(read_in(Form::Pocket, &deep), Err(Refusal::TooDeep(Place::Byte(3 * 513))));
    let mut one = [7; 17];
    assert_eq!(read_in_into(Form::Pocket, b"\x0A\0\0\x01\x01\0b\x07\0", &mut one), Err(Refusal::TableFull(Place::Byte(7))));
    assert_eq!(one, [0; 17]);
    assert_eq!(read_in(Form::Pocket, &vec![0; tikfazrul::MAX_DOCUMENT + 1]), Err(Refusal::OverLimit(Place::Whole)));
}

/// Names with U+0000 and a character above U+FFFF, in which the two rules part.
const RARE: &str = "reef\0\u{1F600}";

#[test]
fn rare_names_in_both_forms() {
    let (java, pocket) = both(r#"{"reef\u0000😀": {"a/b": 1b}, clouds: "😀\u0000"}"#);
    let mut found = Vec::new();
    for (form, doc, name) in [(Form::Java, &java, &b"reef\xC0\x80\xED\xA0\xBD\xED\xB8\x80"[..]), (Form::Pocket, &pocket, RARE.as_bytes())] {
        let table = read_in(form, doc).unwrap();
        let root = table.root(doc).unwrap();
        let rare = root.get(RARE).unwrap();
        assert_eq!((rare.name().unwrap().as_ref(), rare.name_bytes().unwrap()), (RARE, name));
        assert_eq!(root.get("clouds").unwrap().as_str().unwrap(), "\u{1F600}\0");
        let path = rare.get("a/b").unwrap().path();
        assert_eq!(path, "root/\"reef\\u0000\u{1F600}\"/\"a/b\"");
        // a path that was made for either form finds it
        for query in [path.parse().unwrap(), Query::parse_in(Form::Pocket, &path).unwrap()] {
            assert_eq!(table.find(doc, &query).unwrap().iter().map(Node::path).collect::<Vec<_>>(), [&path[..]]);
        }
        // bytes are the caller's own, and must be in the document's strings
        let bytes = [&[1, 0, name.len() as u8], name].concat();
        found.push((query(doc, &table, &bytes), bytes));
        assert_eq!(found.last().unwrap().0, Ok(vec![rare.record() as u32]));
    }
    let malformed = Err(Refusal::MalformedQuery(Place::Query(0)));
    assert_eq!(query(&java, &read(&java).unwrap(), &found[1].1), malformed);
    assert_eq!(query(&pocket, &read_in(Form::Pocket, &pocket).unwrap(), &found[0].1), malformed);
}

#[test]
fn lengths_and_indices_of_a_query_are_big_endian() {
    let (java, pocket) = both("{t: [1b, 2b, 3b], ab: 4b}");
    for (form, doc) in [(Form::Java, &java), (Form::Pocket, &pocket)] {
        let table = read_in(form, doc).unwrap();
        assert_eq!(query(doc, &table, b"\x01\0\x02ab"), Ok(vec![5]));
        assert_eq!(query(doc, &table, b"\x01\0\x01t\x02\0\0\0\x02"), Ok(vec![4]));
        assert_eq!(query(doc, &table, b"\x01\0\x01t\x02\x02\0\0\0"), Ok(vec![]));
        assert_eq!(query(doc, &table, b"\x01\x02\0ab"), Err(Refusal::MalformedQuery(Place::Query(0))));
        assert_eq!(query(doc, &table, b"\x02\0\0\0\x80"), Ok(vec![]));
        assert_eq!(query(doc, &table, b"\x02\x80\0\0\0"), Err(Refusal::MalformedQuery(Place::Query(0))));
    }
}

#[test]
fn a_query_is_spelt_in_either_form() {
    let path = format!("**/{}[7]/*/[2147483647]/plain/é€", tikfazrul::quoted(RARE));
    let (java, pocket) = (path.parse::<Query>().unwrap(), Query::parse_in(Form::Pocket, &path).unwrap());
    assert_eq!((java.form(), pocket.form(), java.steps(), pocket.steps()), (Form::Java, Form::Pocket, 7, 7));
    let tail = b"\x02\0\0\0\x07\x03\x02\x7F\xFF\xFF\xFF\x01\0\x05plain\x01\0\x05\xC3\xA9\xE2\x82\xAC";
    assert_eq!(java.as_bytes(), [&b"\x04\x01\0\x0Creef\xC0\x80\xED\xA0\xBD\xED\xB8\x80"[..], tail].concat());
    assert_eq!(pocket.as_bytes(), [&b"\x04\x01\0\x09reef\0\xF0\x9F\x98\x80"[..], tail].concat());
    assert_eq!((java.in_form(Form::Pocket).unwrap().as_ref(), pocket.in_form(Form::Java).unwrap().as_ref()), (&pocket, &java));
    assert_eq!((java.in_form(Form::Java).unwrap().as_ref(), Query::new_in(Form::Java)), (&java, Query::new()));
    let error = Query::parse_in(Form::Pocket, "a//b").unwrap_err();
    assert_eq!((error.fault(), error.character()), (Fault::Missing, Some(2)));
}

/// 65,535 bytes in UTF-8 are more in modified UTF-8, but of plain letters.
#[test]
fn the_longest_names() {
    let (plain, java) = (read(b"\x0A\0\0\x01\0\x01n\x07\0").unwrap(), b"\x0A\0\0\x01\0\x01n\x07\0");
    for (character, in_java) in [("\0", false), ("\u{1F600}", false), ("n", true)] {
        let name = character.repeat(MAX_NAME / character.len());
        let doc = [&b"\x0A\0\0\x01"[..], &string(&name), b"\x07\0"].concat();
        let table = read_in(Form::Pocket, &doc).unwrap();
        let path = table.root(&doc).unwrap().get(&name).unwrap().path();
        let query = Query::parse_in(Form::Pocket, &path).unwrap();
        assert_eq!(table.find(&doc, &query).unwrap().len(), 1);
        let long = Query::new_in(Form::Pocket).name(&format!("{name}{character}")).unwrap_err();
        assert_eq!((long.fault(), long.character()), (Fault::LongName, None));
        assert_eq!(path.parse::<Query>().is_ok(), in_java);
        assert_eq!(query.in_form(Form::Java).is_ok(), in_java);
        // no entry of Java's form has such a name, and what is wrong with a table is said all the same
        assert_eq!(plain.find(java, &query).unwrap().len(), 0);
        assert_eq!(Table::from_words(vec![7; 9]).find(b"", &query).err(), Some(Refusal::NoTable(Place::Whole)));
        assert_eq!(chain(512).find(b"", &query).unwrap().len(), 0);
        assert_eq!(chain(513).find(b"", &query).err(), Some(Refusal::TooDeep(Place::Record(512))));
    }
}

/// A table of the root and lists within it, so many containers deep, over any document.
fn chain(deep: u32) -> Table {
    let record = |n: u32| match n {
        0 => [10, 0, 0, 0, 0, 1, 0, deep, 0],
        _ if n + 1 == deep => [9, 0, 0, 0, 0, 0, 0, deep, n - 1],
        _ => [9, 0, 0, 0, 0, 1, 9, deep, n - 1],
    };
    Table::from_words((0..deep).flat_map(record).collect())
}

/// Names that are strings of one form, in tables of the other.
#[test]
fn a_name_that_cannot_be_read_is_shown_as_far_as_it_can_be() {
    let words = [[10, 0, 0, 0, 0, 1, 0, 2, 0], [1, 0, 3, 0, 1, 0, 0, 2, 0]].concat();
    for (form, doc, path) in [
        (Form::Java, b"a\xC0\x80", "root/\"a\\u0000\""),
        (Form::Pocket, b"a\xC0\x80", "root/a\u{FFFD}\u{FFFD}"),
        (Form::Pocket, b"a\0b", "root/\"a\\u0000b\""),
        (Form::Java, b"a\0b", "root/\"a\\u0000b\""),
    ] {
        let table = Table::from_words_in(form, words.clone());
        let node = table.root(doc).unwrap().children().next().unwrap();
        assert_eq!((node.path().as_str(), node.name().is_some(), node.form()), (path, check_string(form, doc).is_ok(), form));
    }
}

/// Bytes at the edges of every range of either rule.
const EDGES: [u8; 22] =
    [0x00, 0x01, 0x7F, 0x80, 0x8F, 0x90, 0x9F, 0xA0, 0xBF, 0xC0, 0xC1, 0xC2, 0xDF, 0xE0, 0xE1, 0xED, 0xEF, 0xF0, 0xF1, 0xF4, 0xF5, 0xFF];

/// The library's check, the crate's decoding and, of UTF-8, the language's own agree.
fn agree(bytes: &[u8]) {
    for form in [Form::Java, Form::Pocket] {
        let (checked, decoded) = (check_string(form, bytes), form.decode(bytes));
        assert_eq!(checked.err(), decoded.as_ref().err().copied(), "{form:?} {bytes:X?}");
        if let Ok(text) = decoded {
            assert_eq!(&*form.encode(&text), bytes, "{form:?}");
        }
    }
    let utf8 = std::str::from_utf8(bytes).map(|_| ()).map_err(|error| Refusal::InvalidPocketString(Place::Byte(error.valid_up_to())));
    assert_eq!(check_string(Form::Pocket, bytes), utf8, "{bytes:X?}");
}

#[test]
fn strings_of_both_rules() {
    let pairs = EDGES.iter().flat_map(|&a| EDGES.iter().map(move |&b| [a, b]));
    agree(&[]);
    for [a, b] in pairs {
        agree(&[a]);
        agree(&[a, b]);
        for c in EDGES {
            agree(&[a, b, c]);
            // below E0 the first two bytes are whole or broken by themselves
            EDGES.iter().filter(|_| a >= 0xE0).for_each(|&d| agree(&[a, b, c, d]));
        }
    }
    for c in ['\0', '\u{7F}', '\u{80}', '\u{7FF}', '\u{800}', '\u{D7FF}', '\u{E000}', '\u{FFFF}', '\u{10000}', '\u{10FFFF}'] {
        for form in [Form::Java, Form::Pocket] {
            assert_eq!(check_string(form, &form.encode(&format!("a{c}b"))), Ok(()), "{form:?} {c:?}");
        }
    }
    assert_eq!(check_string(Form::Java, b"a\0"), Err(Refusal::InvalidString(Place::Byte(1))));
    assert_eq!(check_string(Form::Pocket, b"a\xC0\x80"), Err(Refusal::InvalidPocketString(Place::Byte(1))));
    let words = "at byte 1, where the first sequence that can't be read begins (refusal 4)";
    assert_eq!(Refusal::InvalidPocketString(Place::Byte(1)).to_string(), format!("a string is not UTF-8, {words}"));
}

/// What a rescue says: its document, laid out in the pocket edition's form if it is not, and what was open.
fn saved(rescued: Result<Rescued, Refusal>, form: Form) -> Result<(Vec<u8>, Vec<String>), Refusal> {
    let rescued = rescued?;
    assert_eq!((rescued.table.form(), read_in(form, &rescued.document).as_ref()), (form, Ok(&rescued.table)));
    let open = rescued.changes().map(|change| format!("{change:?}")).collect();
    Ok((if form == Form::Java { pocket(&rescued.document) } else { rescued.document }, open))
}

/// Cut at each byte, a document in either form is refused alike, and the same is saved of it.
#[test]
fn a_cut_saves_the_same_in_both_forms() {
    let mut cuts = 0;
    for java in common::samples() {
        let java = &java[..read(&java).unwrap().consumed()];
        let doc = pocket(java);
        // where strings have other lengths a cut falls elsewhere
        if doc.len() != java.len() {
            continue;
        }
        for cut in 0..=doc.len() {
            assert_eq!(read_in(Form::Pocket, &doc[..cut]).err(), read(&java[..cut]).err());
            assert_eq!(saved(rescue_in(Form::Pocket, &doc[..cut]), Form::Pocket), saved(rescue(&java[..cut]), Form::Java));
            cuts += 1;
        }
    }
    assert!(cuts > 700, "{cuts}");
}

#[test]
fn a_rescue_by_hand() {
    // a list of three ints, of which the second is cut
    let doc = b"\x0A\x01\0t\x09\x01\0l\x03\x03\0\0\0\x01\x02\x03\x04\x05\x06";
    let whole = b"\x0A\x01\0t\x09\x01\0l\x03\x01\0\0\0\x01\x02\x03\x04\0";
    let rescued = rescue_in(Form::Pocket, doc).unwrap();
    assert_eq!(rescued.document, whole);
    assert_eq!(rescued.table.root(whole).unwrap().get("l").unwrap().element(0).unwrap().as_i32(), Some(0x04030201));
    let (mut words, mut out, mut changes) = ([9; 36], [0xAA; 19], [0xAA; 7]);
    let answer = rescue_in_into(Form::Pocket, doc, &mut words, &mut out, &mut changes);
    assert_eq!(answer, Ok(Saved { bytes: 18, changes: 2 }));
    assert_eq!((words, changes), ([0; 36], [0, 0, 1, 1, 3, 1, 0xAA]));
    assert_eq!(out, [&whole[..], b"\xAA"].concat()[..]);
    // in Java's form the root's name has 256 bytes
    assert_eq!(rescue(doc), Err(Refusal::RootCut(Place::Byte(3))));
    assert_eq!(rescue_in(Form::Pocket, whole), Err(Refusal::NotCut(Place::Whole)));
    assert_eq!(rescue_in(Form::Pocket, b"\x0A\x02\0\xC0\x80"), Err(Refusal::InvalidPocketString(Place::Byte(3))));
}

/// Every byte of a document changed to every other: nothing crashes, places lie in it, and what is accepted is written and read again.
#[test]
fn any_byte_changed() {
    let (_, doc) = both("{tile: [{s: ab}], i: [I; 7], l: 2L}");
    let mut accepted = 0;
    for at in 0..doc.len() {
        for value in 0..=255 {
            let mut changed = doc.clone();
            changed[at] = value;
            match read_in(Form::Pocket, &changed) {
                Err(refusal) => {
                    assert!(refusal.place().number() <= doc.len() && refusal.window(&changed).is_some_and(|shown| shown.contains("^^")));
                }
                Ok(mut table) => {
                    let written = write(&changed, &mut table).unwrap();
                    assert_eq!(tree(&read_in(Form::Pocket, &written).unwrap(), &written), tree(&table, &changed));
                    accepted += 1;
                }
            }
        }
    }
    assert!(accepted > 1_000, "{accepted}");
}
