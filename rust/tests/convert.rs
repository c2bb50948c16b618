//! Documents of one form written in the other (02, [2]): laid out by hand in both, there and back, and what is refused.
use tikfazrul::{
    convert, read, read_in, read_in_into, write, write_in, write_in_into, write_into, Form, Part, Place, Refusal, Table, MAX_DEPTH,
    MAX_DOCUMENT, MAX_NAME,
};

mod common;
#[path = "common/pocket.rs"]
mod layout;

use layout::{pocket, string};

const FORMS: [Form; 2] = [Form::Java, Form::Pocket];

fn to_java(doc: &[u8]) -> Result<Vec<u8>, Refusal> {
    convert(Form::Pocket, Form::Java, doc)
}

fn to_pocket(doc: &[u8]) -> Result<Vec<u8>, Refusal> {
    convert(Form::Java, Form::Pocket, doc)
}

fn sample(name: &str) -> Vec<u8> {
    std::fs::read(format!("{}/../samples/{name}", env!("CARGO_MANIFEST_DIR"))).expect(name)
}

/// A document in both forms, from the layout: the root t; in it the short s of 258, the int i, the long l, the bytes B, the ints I, the longs J,
/// the list L of two shorts, the compound C with the byte x, and a list E of no floats.
const JAVA: &[u8] = b"\x0A\0\x01t\x02\0\x01s\x01\x02\x03\0\x01i\x81\x02\x03\x04\x04\0\x01l\x01\x02\x03\x04\x05\x06\x07\x88\
\x07\0\x01B\0\0\0\x03\x01\x02\x03\x0B\0\x01I\0\0\0\x02\x01\x02\x03\x04\x05\x06\x07\x08\x0C\0\x01J\0\0\0\x01\x01\x02\x03\x04\x05\x06\x07\x08\
\x09\0\x01L\x02\0\0\0\x02\x01\x02\x03\x04\x0A\0\x01C\x01\0\x01x\x09\0\x09\0\x01E\0\0\0\0\0\0";
const POCKET: &[u8] = b"\x0A\x01\0t\x02\x01\0s\x02\x01\x03\x01\0i\x04\x03\x02\x81\x04\x01\0l\x88\x07\x06\x05\x04\x03\x02\x01\
\x07\x01\0B\x03\0\0\0\x01\x02\x03\x0B\x01\0I\x02\0\0\0\x04\x03\x02\x01\x08\x07\x06\x05\x0C\x01\0J\x01\0\0\0\x08\x07\x06\x05\x04\x03\x02\x01\
\x09\x01\0L\x02\x02\0\0\0\x02\x01\x04\x03\x0A\x01\0C\x01\x01\0x\x09\0\x09\x01\0E\0\0\0\0\0\0";

#[test]
fn a_document_laid_out_by_hand() {
    assert_eq!(to_pocket(JAVA).unwrap(), POCKET);
    assert_eq!(to_java(POCKET).unwrap(), JAVA);
    // an empty list forgets its id, and what follows the root is left out
    let id = JAVA.len() - 6;
    for (doc, from, to, wanted) in [(JAVA, Form::Java, Form::Pocket, POCKET), (POCKET, Form::Pocket, Form::Java, JAVA)] {
        let mut other = [doc, b"more"].concat();
        other[id] = 5;
        assert_eq!(convert(from, to, &other).unwrap(), wanted);
        assert_eq!(convert(from, from, &other).unwrap(), doc);
    }
}

/// Floats by their bits: NaNs with a payload, quiet and signalling, infinities and zeros of both signs, and the least above 0.
#[test]
fn floats_keep_their_bits() {
    let floats = [0x7FC0_0001, 0x7F80_0001, 0xFFC1_2345, 0xFFBF_FFFF, 0x7F80_0000, 0xFF80_0000, 0x8000_0000, 0, 1u32];
    let doubles =
        [0x7FF8_0000_0000_0001, 0x7FF0_0000_0000_0001, 0xFFF8_DEAD_BEEF_0102, 0xFFF7_FFFF_FFFF_FFFF, 0x7FF0_0000_0000_0000, 1 << 63, 1u64];
    let list = |kind: u8, count: usize, order: fn(u32) -> [u8; 4]| [&[kind][..], &order(count as u32)].concat();
    let laid_out = |name: fn(u8) -> [u8; 3], single: fn(u32) -> [u8; 4], double: fn(u64) -> [u8; 8]| {
        let mut doc = [&b"\x0A\0\0\x09"[..], &name(b'f'), &list(5, floats.len(), single)].concat();
        doc.extend(floats.iter().flat_map(|&bits| single(bits)));
        doc.extend([&b"\x09"[..], &name(b'd'), &list(6, doubles.len(), single)].concat());
        doc.extend(doubles.iter().flat_map(|&bits| double(bits)));
        doc.push(0);
        doc
    };
    let java = laid_out(|letter| [0, 1, letter], u32::to_be_bytes, u64::to_be_bytes);
    let pocket = laid_out(|letter| [1, 0, letter], u32::to_le_bytes, u64::to_le_bytes);
    assert_eq!(to_pocket(&java).unwrap(), pocket);
    assert_eq!(to_java(&pocket).unwrap(), java);
    let (table, root) = (read_in(Form::Pocket, &pocket).unwrap(), read(&java).unwrap());
    assert_eq!(table.len(), floats.len() + doubles.len() + 3);
    let bits: Vec<u64> = root.root(&java).unwrap().get("d").unwrap().children().map(|node| node.as_f64().unwrap().to_bits()).collect();
    assert_eq!(bits, doubles);
}

/// Strings in both forms, and in each place where a document has one: as the root's name, as an entry's, as its value and as an element.
#[test]
fn characters_take_more_bytes_or_fewer() {
    for (java, pocket) in [
        (&b""[..], &b""[..]),
        (b"\xC0\x80", b"\0"),
        (b"a\xC0\x80b\xC0\x80", b"a\0b\0"),
        (b"\xED\xA0\xBD\xED\xB8\x80", b"\xF0\x9F\x98\x80"),
        (b"\xED\xA0\x80\xED\xB0\x80\xED\xAF\xBF\xED\xBF\xBF", b"\xF0\x90\x80\x80\xF4\x8F\xBF\xBF"),
        (b"\xED\xA0\xBD\xED\xB8\x80\xC0\x80\xC3\xA9", b"\xF0\x9F\x98\x80\0\xC3\xA9"),
        (
            b"\x7F\xC2\x80\xDF\xBF\xE0\xA0\x80\xED\x9F\xBF\xEE\x80\x80\xEF\xBF\xBF",
            b"\x7F\xC2\x80\xDF\xBF\xE0\xA0\x80\xED\x9F\xBF\xEE\x80\x80\xEF\xBF\xBF",
        ),
    ] {
        let (j, p) = ([&[0, java.len() as u8], java].concat(), [&[pocket.len() as u8, 0], pocket].concat());
        let java = [&b"\x0A"[..], &j, b"\x08", &j, &j, b"\x09\0\x01l\x08\0\0\0\x02", &j, &j, b"\0"].concat();
        let pocket = [&b"\x0A"[..], &p, b"\x08", &p, &p, b"\x09\x01\0l\x08\x02\0\0\0", &p, &p, b"\0"].concat();
        assert_eq!(to_pocket(&java).unwrap(), pocket);
        assert_eq!(to_java(&pocket).unwrap(), java);
    }
}

/// Arrays have no such limit as strings.
#[test]
fn long_arrays() {
    let count = 100_000u32;
    let laid_out = |order: fn(u32) -> [u8; 4], length: fn(u8) -> [u8; 3]| {
        let mut doc = [&b"\x0A\0\0\x07"[..], &length(b'b'), &order(count), &vec![7; count as usize]].concat();
        doc.extend([&b"\x0B"[..], &length(b'i'), &order(count)].concat());
        doc.extend((0..count).flat_map(order));
        doc.push(0);
        doc
    };
    let (java, pocket) = (laid_out(u32::to_be_bytes, |name| [0, 1, name]), laid_out(u32::to_le_bytes, |name| [1, 0, name]));
    assert_eq!(to_pocket(&java).unwrap(), pocket);
    assert_eq!(to_java(&pocket).unwrap(), java);
}

#[test]
fn a_sample_is_made_of_its_twin() {
    for (java, pocket) in [("reef.nbt", "pocket-reef.nbt"), ("rare-name.nbt", "pocket-rare-name.nbt")] {
        let (java, pocket) = (sample(java), sample(pocket));
        assert_eq!(to_pocket(&java).unwrap(), pocket);
        assert_eq!(to_java(&pocket).unwrap(), java);
    }
    assert_ne!(sample("rare-name.nbt").len(), sample("pocket-rare-name.nbt").len());
}

#[test]
fn there_and_back_is_what_is_written() {
    for java in common::samples() {
        let mut table = read(&java).unwrap();
        let written = write(&java, &mut table).unwrap();
        let there = to_pocket(&java).unwrap();
        assert_eq!(there, pocket(&written));
        assert_eq!(to_java(&there).unwrap(), written);
        assert_eq!(to_pocket(&written).unwrap(), there);
    }
}

#[test]
fn a_table_is_written_in_each_form_and_stays_as_it_was() {
    for (form, doc) in [(Form::Java, JAVA), (Form::Pocket, POCKET)] {
        let mut table = read_in(form, doc).unwrap();
        for (to, wanted) in [(Form::Java, JAVA), (Form::Pocket, POCKET), (Form::Java, JAVA)] {
            assert_eq!(write_in(to, doc, &mut table).unwrap(), wanted);
            assert_eq!(table, read_in(form, doc).unwrap());
        }
        assert_eq!(write(doc, &mut table).unwrap(), doc);
        // words from elsewhere are told their form, and that is the one converted from
        let mut words = Table::from_words_in(form, table.words().to_vec());
        assert_eq!(write_in(Form::Pocket, doc, &mut words).unwrap(), POCKET);
    }
}

/// Every room that is too short, and what is more than enough: no byte changes but those that are written.
#[test]
fn lent_bytes() {
    let rare = (sample("rare-name.nbt"), sample("pocket-rare-name.nbt"));
    for (java, pocket) in [(JAVA, POCKET), (&rare.0, &rare.1)] {
        for (from, to, doc, wanted) in [(Form::Java, Form::Pocket, java, pocket), (Form::Pocket, Form::Java, pocket, java)] {
            let mut table = read_in(from, doc).unwrap();
            for room in 0..wanted.len() {
                let mut out = vec![0xAA; room];
                assert_eq!(write_in_into(to, doc, &mut table, &mut out), Err(Refusal::OutputFull(Place::Whole)));
                assert_eq!(out, vec![0xAA; room]);
            }
            for more in [0, 1, 200] {
                let mut out = vec![0xAA; wanted.len() + more];
                assert_eq!(write_in_into(to, doc, &mut table, &mut out), Ok(wanted.len()));
                assert_eq!(out, [wanted, &vec![0xAA; more]].concat());
            }
            assert_eq!(table, read_in(from, doc).unwrap());
        }
    }
}

/// A document in the pocket edition's form: the root t, in it the byte b and a string of this name and content.
fn named(name: &str, content: &str) -> Vec<u8> {
    [&b"\x0A\x01\0t\x01\x01\0b\x07\x08"[..], &string(name), &string(content), b"\0"].concat()
}

/// Characters that grow, to the most that Java's form has, and one byte beyond.
#[test]
fn the_longest_strings() {
    let (zeros, pairs) = ("\0".repeat(32_767), "\u{1F600}".repeat(10_922));
    for (text, in_java) in [
        (format!("{zeros}a"), 65_535),
        (format!("{zeros}ab"), 65_536),
        ("\0".repeat(32_768), 65_536),
        ("\0".repeat(MAX_NAME), 131_070),
        (format!("{pairs}abc"), 65_535),
        (format!("{pairs}a\0"), 65_535),
        (format!("{pairs}abcd"), 65_536),
        (format!("{pairs}ab\0"), 65_536),
        ("n".repeat(MAX_NAME), 65_535),
    ] {
        let (name, value) = (named(&text, "v"), named("n", &text));
        assert_eq!(Form::Java.encode(&text).len(), in_java);
        for (doc, part, path) in [(&name, Part::Name, "root"), (&value, Part::String, "root/n")] {
            let mut table = read_in(Form::Pocket, doc).unwrap();
            let written = write_in(Form::Java, doc, &mut table);
            if in_java <= MAX_NAME {
                assert_eq!(to_pocket(&written.unwrap()).unwrap(), *doc);
                continue;
            }
            let refusal = written.unwrap_err();
            assert_eq!((refusal, refusal.number()), (Refusal::StringTooLongInJava(Place::Record(2)), 12));
            let broken = refusal.broken_in(doc, &table).unwrap();
            assert_eq!((broken.path.as_str(), broken.part, &doc[broken.bytes]), (path, part, text.as_bytes()));
        }
    }
}

#[test]
fn a_long_root_name_is_named_too() {
    let doc = [&b"\x0A"[..], &string(&"\0".repeat(40_000)), b"\0"].concat();
    let table = read_in(Form::Pocket, &doc).unwrap();
    let refusal = to_java(&doc).unwrap_err();
    assert_eq!(refusal.to_string(), "a name or string would have more than 65,535 bytes in Java's form, at record 0 (refusal 12)");
    let broken = refusal.broken_in(&doc, &table).unwrap();
    assert_eq!((broken.to_string().as_str(), broken.part, broken.bytes), ("in the root's name", Part::RootName, 3..40_003));
    // in its own form it is written
    assert_eq!(convert(Form::Pocket, Form::Pocket, &doc).unwrap(), doc);
    // of another table, nothing is said
    assert_eq!(refusal.broken_in(JAVA, &read(JAVA).unwrap()), None);
    assert_eq!(refusal.broken_in(POCKET, &read_in(Form::Pocket, POCKET).unwrap()), None);
    // nor of one in Java's form, which is converted into no longer one
    let words = table.words().to_vec();
    assert!(refusal.broken_in(&doc, &Table::from_words_in(Form::Pocket, words.clone())).is_some());
    assert_eq!(refusal.broken_in(&doc, &Table::from_words(words)), None);
}

/// A string of 65,535 bytes in Java's form has fewer in the pocket edition's.
#[test]
fn the_longest_strings_of_java() {
    for (character, few) in [("\0", 32_768), ("\u{1F600}", 43_691), ("n", 65_535)] {
        let mut text = character.repeat(MAX_NAME / Form::Java.encode(character).len());
        text.push_str(&"a".repeat(MAX_NAME - Form::Java.encode(&text).len()));
        let java = [&b"\x0A\0\0\x08\0\x01s\xFF\xFF"[..], &Form::Java.encode(&text), b"\0"].concat();
        let pocket = [&b"\x0A\0\0\x08\x01\0s"[..], &string(&text), b"\0"].concat();
        assert_eq!((java.len(), text.len()), (9 + MAX_NAME + 1, few), "{character:?}");
        assert_eq!(to_pocket(&java).unwrap(), pocket);
        assert_eq!(to_java(&pocket).unwrap(), java);
    }
}

/// The root, and in it strings of these spans of a document, each named by the span before.
fn table_of(form: Form, strings: &[[u32; 4]]) -> Table {
    let count = strings.len() as u32;
    let root = [10, 0, 0, 0, 0, count, 0, count + 1, 0];
    let record = |(n, &[name, name_length, start, length]): (u32, &[u32; 4])| [8, name, name_length, start, length, 0, 0, n + 2, 0];
    Table::from_words_in(form, [root].into_iter().chain((0..).zip(strings).map(record)).flatten().collect())
}

/// Whether both ways of writing a table in the other form refuse it so, and change nothing.
fn is_refused(table: &mut Table, doc: &[u8], room: usize, refusal: Refusal) {
    let (before, mut out) = (table.clone(), vec![0xAA; room]);
    let to = if table.form() == Form::Java { Form::Pocket } else { Form::Java };
    assert_eq!(write_in_into(to, doc, table, &mut out), Err(refusal));
    assert_eq!((&*table, out), (&before, vec![0xAA; room]));
    assert_eq!(write_in(to, doc, table), Err(refusal));
}

/// Words from elsewhere: a string that is too long where it stands, one that can't be read, and one that is too long in Java's form, in turn.
#[test]
fn words_are_judged_by_record() {
    let long = |place| Refusal::StringTooLong(Place::Record(place));
    let in_java = |place| Refusal::StringTooLongInJava(Place::Record(place));
    let broken = |byte, record| Refusal::InvalidPocketString(Place::In { byte, record });
    // zero bytes, a name of two letters, and what is no UTF-8
    let doc = [&[0; 70_000][..], b"ab\xFF"].concat();
    let [zeros, letters, bad, both] = [[0, 65_535], [70_000, 2], [70_002, 1], [30_000, 40_003]];
    let of = |strings: &[[[u32; 2]; 2]]| {
        table_of(Form::Pocket, &strings.iter().map(|[name, value]| [name[0], name[1], value[0], value[1]]).collect::<Vec<_>>())
    };
    for (strings, refusal) in [
        (&[[[0, 65_536], letters]][..], long(1)),
        (&[[letters, [0, 65_536]]], long(1)),
        (&[[zeros, letters]], in_java(1)),
        (&[[letters, zeros]], in_java(1)),
        (&[[bad, zeros]], broken(70_002, 1)),
        (&[[zeros, bad]], in_java(1)),
        (&[[[0, 65_536], bad]], long(1)),
        // too long in Java's form and broken: broken
        (&[[letters, both]], broken(70_002, 1)),
        (&[[both, letters]], broken(70_002, 1)),
        // the first record that is refused
        (&[[letters, zeros], [[70_000, 1], bad]], in_java(1)),
        (&[[letters, bad], [[70_000, 1], zeros]], broken(70_002, 1)),
        // a name twice comes before its string
        (&[[letters, letters], [letters, zeros]], Refusal::RepeatedName(Place::Record(2))),
        (&[[letters, letters], [[70_000, 1], zeros]], in_java(2)),
    ] {
        for room in [0, 20, 200_000] {
            is_refused(&mut of(strings), &doc, room, refusal);
        }
    }
    is_refused(&mut Table::from_words_in(Form::Pocket, vec![7; 9]), &doc, 99, Refusal::NoTable(Place::Whole));
    is_refused(&mut table_of(Form::Java, &[]), &vec![0; MAX_DOCUMENT + 1], 99, Refusal::OverLimit(Place::Whole));
}

/// In Java's form the same string is judged by modified UTF-8, and is 12 only where it stands too long.
#[test]
fn words_over_a_document_of_java() {
    let doc = [&b"\xC0\x80".repeat(40_000)[..], b"n\0"].concat();
    let mut table = table_of(Form::Java, &[[80_000, 1, 0, 65_534]]);
    let wanted = [&b"\x0A\0\0\x08\x01\0n\xFF\x7F"[..], &[0; 32_767], b"\0"].concat();
    assert_eq!(write_in(Form::Pocket, &doc, &mut table).unwrap(), wanted);
    // 32,768 bytes in the pocket edition's form, but 65,536 where it stands
    is_refused(&mut table_of(Form::Java, &[[80_000, 1, 0, 65_536]]), &doc, 99, Refusal::StringTooLong(Place::Record(1)));
    let refusal = Refusal::InvalidString(Place::In { byte: 80_001, record: 1 });
    let mut table = table_of(Form::Java, &[[80_000, 2, 0, 2]]);
    is_refused(&mut table, &doc, 99, refusal);
    let broken = refusal.broken_in(&doc, &table).unwrap();
    assert_eq!((broken.path.as_str(), broken.part, broken.bytes), ("root", Part::Name, 80_001..80_002));
}

/// A late 12 comes before a 13 that an earlier record would cause.
#[test]
fn a_string_too_long_comes_before_a_room_too_short() {
    let doc = named("n", &"\0".repeat(32_768));
    let mut table = read_in(Form::Pocket, &doc).unwrap();
    is_refused(&mut table, &doc, 0, Refusal::StringTooLongInJava(Place::Record(2)));
    let doc = named("n", &"\0".repeat(32_767));
    let mut table = read_in(Form::Pocket, &doc).unwrap();
    assert_eq!(write_in_into(Form::Java, &doc, &mut table, &mut []), Err(Refusal::OutputFull(Place::Whole)));
}

/// What is read of bytes is refused as a read does.
#[test]
fn bytes_that_are_no_document() {
    for doc in [&b""[..], b"\x0A\0", b"\x09\0\0", b"\x0A\0\0\x0D\0\0", b"\x0A\0\0\x08\0\0\0\x01\0", JAVA, POCKET] {
        for from in FORMS {
            let Err(refusal) = read_in(from, doc) else { continue };
            assert!(FORMS.iter().all(|&to| convert(from, to, doc) == Err(refusal)), "{doc:X?}");
        }
    }
    assert_eq!(to_java(JAVA), Err(Refusal::DataEnds(Place::Byte(3))));
    assert_eq!(to_pocket(POCKET), Err(Refusal::DataEnds(Place::Byte(3))));
    assert_eq!(to_java(b"\x0A\x02\0\xC0\x80\0"), Err(Refusal::InvalidPocketString(Place::Byte(3))));
    assert_eq!(to_pocket(b"\x0A\0\x01\0\0"), Err(Refusal::InvalidString(Place::Byte(3))));
}

/// A document that grows beyond what one may have: 300 strings of 32,767 zero bytes each.
#[test]
fn a_document_too_long_in_java() {
    let one = [&32_767u16.to_le_bytes()[..], &[0; 32_767]].concat();
    let doc = [&b"\x0A\0\0\x09\0\0\x08\x2C\x01\0\0"[..], &one.repeat(300), b"\0"].concat();
    let mut table = read_in(Form::Pocket, &doc).unwrap();
    let length = 11 + 300 * 65_536 + 1;
    assert!(doc.len() < MAX_DOCUMENT && length > MAX_DOCUMENT);
    assert_eq!(to_java(&doc), Err(Refusal::OutputFull(Place::Whole)));
    let mut out = vec![0; length];
    assert_eq!(write_in_into(Form::Java, &doc, &mut table, &mut out), Ok(length));
    assert_eq!(write_in_into(Form::Java, &doc, &mut table, &mut out[1..]), Err(Refusal::OutputFull(Place::Whole)));
    assert_eq!(out[..15], *b"\x0A\0\0\x09\0\0\x08\0\0\x01\x2C\xFF\xFE\xC0\x80");
    assert!(out[13..11 + 65_536].chunks(2).all(|pair| pair == b"\xC0\x80"));
    // in its own form it is a document still
    assert_eq!(write_into(&doc, &mut table, &mut out), Ok(doc.len()));
}

/// The deepest that a document is, on the smallest stack that the crate asks for.
#[test]
fn the_deepest_on_a_stack_of_256_kib() {
    let compounds = [&b"\x0A\0\0".repeat(MAX_DEPTH)[..], &[0; MAX_DEPTH]].concat();
    let lists = |head: &[u8], last: &[u8]| [&b"\x0A\0\0\x09\0\0"[..], &head.repeat(MAX_DEPTH - 2), last, b"\0"].concat();
    let java = lists(b"\x09\0\0\0\x01", b"\x01\0\0\0\x01\x07");
    let pocket = lists(b"\x09\x01\0\0\0", b"\x01\x01\0\0\0\x07");
    for (java, pocket) in [(compounds.clone(), compounds), (java, pocket)] {
        let small = std::thread::Builder::new().stack_size(256 << 10);
        let thread = small.spawn(move || {
            assert_eq!(to_pocket(&java).unwrap(), pocket);
            assert_eq!(to_java(&pocket).unwrap(), java);
        });
        thread.unwrap().join().unwrap();
    }
}

/// Every byte of a document changed to every other, in each form: nothing crashes, and what is accepted is there and back what is written.
#[test]
fn any_byte_changed() {
    for (from, to, doc) in [
        (Form::Java, Form::Pocket, sample("rare-name.nbt")),
        (Form::Pocket, Form::Java, sample("pocket-rare-name.nbt")),
        (Form::Java, Form::Pocket, JAVA.to_vec()),
        (Form::Pocket, Form::Java, POCKET.to_vec()),
    ] {
        let (mut accepted, mut words) = (0, vec![0; 9 * 64]);
        for at in 0..doc.len() {
            for value in 0..=255 {
                let mut changed = doc.clone();
                changed[at] = value;
                let read = read_in_into(from, &changed, &mut words);
                let Ok(there) = convert(from, to, &changed) else {
                    assert!(read.is_err());
                    continue;
                };
                let mut table = read_in(from, &changed).unwrap();
                assert_eq!(convert(to, from, &there).unwrap(), write(&changed, &mut table).unwrap());
                accepted += 1;
            }
        }
        assert!(accepted > 5_000, "{accepted}");
    }
}

/// Every word of a table set to every odd value: a table is converted where it is written, to what gives the same back, and else refused alike.
#[test]
fn any_word_changed() {
    for (from, to, doc) in [(Form::Java, Form::Pocket, JAVA), (Form::Pocket, Form::Java, POCKET)] {
        let whole = read_in(from, doc).unwrap().into_words();
        let (mut converted, mut refused) = (0, 0);
        for at in 0..whole.len() {
            for value in [0, 1, 2, 3, 4, 7, 8, 9, 10, 11, 13, 40, 0x7FFF_FFFF, 0x8000_0000, u32::MAX] {
                let mut words = whole.clone();
                words[at] = value;
                let mut table = Table::from_words_in(from, words.clone());
                let (there, written) = (write_in(to, doc, &mut table), write(doc, &mut table));
                assert_eq!(there.as_ref().err(), written.as_ref().err(), "{at} {value}");
                assert_eq!(table.words(), words);
                match there {
                    Ok(there) => {
                        assert_eq!(convert(to, from, &there), written, "{at} {value}");
                        converted += 1;
                    }
                    Err(_) => refused += 1,
                }
            }
        }
        assert!(converted > 100 && refused > 1_000, "{converted} {refused}");
    }
}
