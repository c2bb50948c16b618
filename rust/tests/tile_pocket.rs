//! The command `tile` on documents in the pocket edition's form, and on its level files (02, [2]).
#[path = "common/command.rs"]
mod command;

use command::{fed, said, sample, tile};
use std::path::PathBuf;

fn scratch(name: &str) -> String {
    PathBuf::from(env!("CARGO_TARGET_TMPDIR")).join(name).to_str().unwrap().to_owned()
}

/// The same answer, of another file.
fn of_reef((out, err, status): (String, String, i32)) -> (String, String, i32) {
    let rename = |text: String| text.replace("pocket-reef.nbt", "reef.nbt").replace("\"form\":\"pocket\",", "");
    (rename(out), rename(err), status)
}

#[test]
fn the_pocket_reef_is_answered_as_the_reef() {
    for args in [
        &["check"][..],
        &["check", "--json"],
        &["list"],
        &["list", "--json", "--full"],
        &["query", "Origin*"],
        &["query", "**/OriginLon"],
        &["query", "--json", "root/Footprint"],
        &["lines"],
        &["list", "--lines", "reef.nbt.lines"],
        &["query", "OriginLat", "--lines", "reef.nbt.lines"],
        &["check", "--lines", "reef.nbt.lines"],
        &["rescue", "-o", "nowhere/x"],
    ] {
        let pocket = tile(&[args, &["--pocket", "pocket-reef.nbt"]].concat());
        assert_eq!(of_reef(pocket), tile(&[args, &["reef.nbt"]].concat()), "{args:?}");
    }
    for args in [&["write", "-o", "-"][..], &["write", "-o", "-", "--lines", "reef.nbt.lines"]] {
        let longer = [sample("pocket-reef.nbt"), b"more".to_vec()].concat();
        assert_eq!(fed(&[args, &["--pocket", "-"]].concat(), &longer), (sample("pocket-reef.nbt"), String::new(), 0));
    }
    let (out, _, _) = tile(&["check", "--json", "--pocket", "pocket-reef.nbt"]);
    let wanted = r#"{"file":"pocket-reef.nbt","ok":true,"form":"pocket","bytes":110,"count":5,"inflated":false}"#;
    assert_eq!(out, format!("{wanted}\n"));
}

const WITH: &str = "  the file is accepted in the pocket edition's form, with --pocket\n";
const WITHOUT: &str = "  the file is accepted in Java's form, without --pocket\n";

#[test]
fn what_the_other_form_accepts_is_told() {
    let ends = "refused: the data ends before the document does, at byte 3, where the field that is not whole begins (refusal 1)\n";
    for (file, option, hint, json) in
        [("pocket-reef.nbt", None, WITH, r#""accepted_in":"pocket"}"#), ("reef.nbt", Some("--pocket"), WITHOUT, r#""accepted_in":"java"}"#)]
    {
        let option: Vec<&str> = option.into_iter().collect();
        let (out, err, status) = tile(&[&["check", file], &option[..]].concat());
        assert!(out.starts_with(&format!("{file}: {ends}")) && out.ends_with(hint), "{out}");
        assert_eq!((out.matches("accepted").count(), err.as_str(), status), (1, "", 1));
        // so say all that would read it
        for args in [&["list"][..], &["query", "root"], &["lines"], &["write", "-o", "-"]] {
            let answer = tile(&[args, &[file], &option[..]].concat());
            assert_eq!(answer, (String::new(), format!("tile: {out}"), 1), "{args:?}");
        }
        for args in [&["check"][..], &["list"], &["query", "root"]] {
            let (out, _, status) = tile(&[args, &["--json", file], &option[..]].concat());
            assert!(out.contains(r#""refusal":1,"place":3,"of":"byte","#) && out.ends_with(&format!("{json}\n")), "{out}");
            assert_eq!((out.matches("accepted_in").count(), out.contains(r#""form":"pocket""#), status), (1, !option.is_empty(), 1));
        }
    }
}

#[test]
fn what_neither_form_accepts_is_told_of_one() {
    for (option, doc) in [
        (None, &b"\x0A\0\x01t\x01\0\x01b\x01\x01\0\x01b\x02\0"[..]),
        (Some("--pocket"), b"\x0A\x01\0t\x01\x01\0b\x01\x01\x01\0b\x02\0"),
        (Some("--pocket"), b"\x09\0\0"),
        (None, b""),
    ] {
        let option: Vec<&str> = option.into_iter().collect();
        let (out, _, status) = said(&[&["check", "-"], &option[..]].concat(), doc);
        assert!(out.contains("refused: ") && !out.contains("accepted"), "{out}");
        let (json, _, _) = said(&[&["check", "--json", "-"], &option[..]].concat(), doc);
        assert!(!json.contains("accepted_in"), "{json}");
        assert_eq!(status, 1);
    }
    // accepted in both, nothing is told of the other
    for args in [&["check", "-"][..], &["check", "--pocket", "-"]] {
        assert_eq!(said(args, b"\x0A\0\0\0").0, "standard input: accepted: 4 bytes, 1 record\n");
    }
}

/// A document of one form that seems cut in the other: its root has no name, and its first entry's name seems long.
#[test]
fn a_rescue_in_the_wrong_form_is_not_advised() {
    let file = scratch("wrong-form.nbt");
    for (option, doc, hint) in
        [(None, b"\x0A\0\0\x08\x01\0s\x03\0abc\0", WITH), (Some("--pocket"), b"\x0A\0\0\x08\0\x01s\0\x03abc\0", WITHOUT)]
    {
        let option: Vec<&str> = option.into_iter().collect();
        let (out, _, _) = said(&[&["check", "-"], &option[..]].concat(), doc);
        assert!(out.ends_with(hint) && !out.contains("tile rescue"), "{out}");
        // and where it is done all the same, that is told
        let (out, _, status) = said(&[&["rescue", "-", "-o", &file], &option[..]].concat(), doc);
        let kept = "standard input: saved 4 bytes, 1 record; open where the data ends:\n  root  Compound  0 entries kept\n";
        assert_eq!((out, status), (format!("{kept}{hint}"), 0));
        let (out, _, _) = said(&[&["rescue", "--json", "-", "-o", &file], &option[..]].concat(), doc);
        assert!(out.contains(r#"],"accepted_in":""#), "{out}");
        // whole in each form, it is only said that it is whole
        let (_, err, status) = said(&[&["rescue", "-", "-o", &file], &option[..]].concat(), b"\x0A\0\0\0");
        let whole = "tile: standard input: refused: the document is whole: there is nothing to rescue (refusal 31)\n";
        assert_eq!((err.as_str(), status), (whole, 1));
    }
    std::fs::remove_file(file).unwrap();
}

#[test]
fn a_cut_document_is_rescued_in_its_form() {
    let file = scratch("pocket-rescued.nbt");
    let cut = &sample("pocket-reef.nbt")[..60];
    let (out, _, status) = said(&["check", "--pocket", "-"], cut);
    assert!(out.ends_with("\n  tile rescue --pocket - -o … saves the tags that came whole\n"), "{out}");
    assert_eq!(status, 1);
    let wanted = "standard input: saved 54 bytes, 3 records; open where the data ends:\n  root  Compound  2 entries kept\n";
    assert_eq!(said(&["rescue", "--pocket", "-", "-o", &file], cut), (wanted.to_owned(), String::new(), 0));
    assert_eq!(std::fs::read(&file).unwrap(), [&cut[..53], b"\0"].concat());
    let (out, _, _) = said(&["rescue", "--json", "--pocket", "-", "-o", &file], cut);
    assert!(
        out.starts_with(r#"{"file":"-","ok":true,"form":"pocket","bytes":54,"count":3,"inflated":false,"open":[{"record":0,"#),
        "{out}"
    );
    std::fs::remove_file(file).unwrap();
}

#[test]
fn a_string_is_judged_by_its_form() {
    let words = "\
pocket-name.nbt: refused: a string is not UTF-8, at byte 29, where the first sequence that can't be read begins (refusal 4), in the name of \
an entry of root
  00000000  0A 04 00 74 69 6C 65 08  07 00 53 63 65 6E 65 49  |...tile...SceneI|
  00000010  64 03 00 53 32 42 01 06  00 72 65 65 66 C0 80 01  |d..S2B...reef...|
                                                    ^^ ^^
  00000020  00                                                |.|
";
    assert_eq!(tile(&["check", "--pocket", "pocket-name.nbt"]), (words.to_owned(), String::new(), 1));
    let (out, _, _) = tile(&["list", "--json", "--pocket", "pocket-name.nbt"]);
    assert!(
        out.starts_with(r#"{"file":"pocket-name.nbt","ok":false,"form":"pocket","refusal":4,"place":29,"of":"byte","message":"#),
        "{out}"
    );
    assert!(out.ends_with("(refusal 4)\",\"path\":\"root\",\"part\":\"name\",\"length\":2}\n"), "{out}");
    // a zero byte and four bytes, in a name and in a string
    let doc = b"\x0A\x04\0tile\x08\x09\0reef\0\xF0\x9F\x98\x80\x02\0a\0\0";
    let (out, _, status) = said(&["query", "--pocket", "\"reef\\u0000😀\"", "-"], doc);
    assert_eq!((out.as_str(), status), ("root/\"reef\\u0000😀\"  String  \"a\\0\"\n", 0));
    let (out, _, _) = said(&["query", "--json", "--pocket", "*", "-"], doc);
    assert!(out.contains(r#""path":"root/\"reef\\u0000😀\"","kind":"String","name":"reef\u0000😀","value":"a\u0000"}"#), "{out}");
    // a name that is longer in modified UTF-8 than a name may be
    let path = "😀".repeat(10_923);
    assert_eq!(said(&["query", "--pocket", &path, "-"], doc), ("standard input: 0 found\n".to_owned(), String::new(), 0));
    assert_eq!(said(&["query", &path, "-"], doc).2, 2);
}

/// The words that tell of a level file's head.
fn head(length: &str) -> String {
    format!("the 8 bytes of a level file (version 10, length {length}) before the document are passed over")
}

#[test]
fn a_level_file_is_answered_as_its_document() {
    let (list, _, _) = tile(&["list", "--pocket", "pocket-reef.nbt"]);
    let wanted = list.replace("pocket-reef.nbt: 110 bytes, 5 records", &format!("pocket-level.nbt: 110 bytes, 5 records; {}", head("110")));
    assert_eq!(tile(&["list", "--pocket", "pocket-level.nbt"]), (wanted, String::new(), 0));
    let accepted = format!("pocket-level.nbt: accepted: 110 bytes, 5 records; {}\n", head("110"));
    assert_eq!(tile(&["check", "--pocket", "pocket-level.nbt"]), (accepted, String::new(), 0));
    let note = |more: &str| format!("pocket-level.nbt: {}{more}\n", head("110"));
    let found = "root/OriginLon  Int  48952000\n".to_owned();
    assert_eq!(tile(&["query", "--pocket", "OriginLon", "pocket-level.nbt"]), (found, note(""), 0));
    let lines = String::from_utf8(sample("reef.nbt.lines")).unwrap();
    let from = ", and the lines count bytes from behind them on";
    assert_eq!(tile(&["lines", "--pocket", "pocket-level.nbt"]), (lines, note(from), 0));
    let written = (sample("pocket-reef.nbt"), note(", and not written"), 0);
    assert_eq!(fed(&["write", "--pocket", "pocket-level.nbt", "-o", "-"], b""), written);
    assert_eq!(fed(&["write", "--pocket", "--lines", "reef.nbt.lines", "pocket-level.nbt", "-o", "-"], b""), written);
    let (out, _, status) = tile(&["check", "--pocket", "--lines", "reef.nbt.lines", "pocket-level.nbt"]);
    assert_eq!((out, status), (format!("pocket-level.nbt: accepted: 110 bytes, 5 records; {}; the lines are its own\n", head("110")), 0));
    let (out, _, _) = tile(&["list", "--pocket", "--lines", "reef.nbt.lines", "pocket-level.nbt"]);
    assert!(out.starts_with(&format!("pocket-level.nbt: 5 records, from lines; {}\n", head("110"))), "{out}");
    let json = r#""ok":true,"form":"pocket","level_file":{"version":10,"length":110},"#;
    for (args, more) in [
        (&["check"][..], r#""bytes":110,"count":5,"inflated":false}"#),
        (
            &["query", "OriginLon"],
            r#""matches":[{"record":2,"parent":0,"path":"root/OriginLon","kind":"Int","name":"OriginLon","value":48952000}]}"#,
        ),
    ] {
        let wanted = format!("{{\"file\":\"pocket-level.nbt\",{json}{more}\n");
        assert_eq!(tile(&[args, &["--json", "--pocket", "pocket-level.nbt"]].concat()), (wanted, String::new(), 0));
    }
}

#[test]
fn hex_shows_a_level_file_at_its_places() {
    let (out, _, _) = tile(&["hex", "pocket-level.nbt"]);
    assert!(out.starts_with("00000000  0A 00 00 00 6E 00 00 00  0A 04 00 74 69 6C 65 08  |....n......tile.|\n"), "{out}");
}

/// A level file of this version before these bytes.
fn level(version: u32, document: &[u8]) -> Vec<u8> {
    [&version.to_le_bytes()[..], &(document.len() as u32).to_le_bytes(), document].concat()
}

#[test]
fn places_in_a_level_file_are_the_files() {
    let file = level(10, &sample("pocket-name.nbt"));
    let words = format!(
        "\
standard input: refused: a string is not UTF-8, at byte 37, where the first sequence that can't be read begins (refusal 4), in the name of an \
entry of root; {}
  00000010  07 00 53 63 65 6E 65 49  64 03 00 53 32 42 01 06  |..SceneId..S2B..|
  00000020  00 72 65 65 66 C0 80 01  00                       |.reef....|
                           ^^ ^^
",
        head("33")
    );
    assert_eq!(said(&["check", "--pocket", "-"], &file), (words, String::new(), 1));
    let (out, _, _) = said(&["check", "--json", "--pocket", "-"], &file);
    let json = r#"{"file":"-","ok":false,"form":"pocket","level_file":{"version":10,"length":33},"refusal":4,"place":37,"of":"byte","#;
    assert!(out.starts_with(json) && out.contains("at byte 37, where"), "{out}");
    assert!(out.ends_with("\"path\":\"root\",\"part\":\"name\",\"length\":2}\n"), "{out}");
    // any other refusal
    let (out, _, _) = said(&["check", "--pocket", "-"], &level(10, b"\x0A\0\0\x0D\0\0\0"));
    let words = format!(
        "\
standard input: refused: no tag has this id: ids are 1 to 12, at byte 11, the id (refusal 3); {}
  00000000  0A 00 00 00 07 00 00 00  0A 00 00 0D 00 00 00     |...............|
                                              ^^
",
        head("7")
    );
    assert_eq!(out, words);
    // the document's own faults, and no form that would do better
    let (out, _, _) = said(&["check", "--pocket", "-"], &level(9, b"\x09\0\0"));
    assert!(
        out.contains("the root is no compound: a document begins with 0A, at byte 8 (refusal 2)") && !out.contains("accepted"),
        "{out}"
    );
}

/// Spans lie in the document, which ends eight bytes before the file's length.
#[test]
fn lines_of_a_level_file_are_judged_by_its_document() {
    let lines = String::from_utf8(sample("reef.nbt.lines")).unwrap();
    let ends_at = |start: &str| lines.replace("0000005500000018", &format!("{start}00000018"));
    for (start, status) in [("00000056", 0), ("00000057", 1), ("0000005e", 1)] {
        let (_, err, answered) = fed(&["write", "--pocket", "--lines", "-", "pocket-level.nbt", "-o", "-"], ends_at(start).as_bytes());
        assert_eq!((answered, err.contains("(refusal 10)")), (status, status == 1), "{start}: {err}");
    }
    let (_, err, _) = tile(&["list", "--pocket", "--lines", "reef-old.lines", "pocket-level.nbt"]);
    assert!(err.ends_with("\n  tile lines --up --length 110 reef-old.lines -o … brings them along\n"), "{err}");
    // the longest document there is, with eight bytes before it
    let longest = 16_777_216;
    let mut document = [b"\x0A\0\0\x07\0\0", &u32::to_le_bytes(longest - 11)[..]].concat();
    document.resize(longest as usize, 0);
    let (out, err, status) = said(&["lines", "--pocket", "-"], &level(10, &document));
    assert_eq!((out.lines().count(), status), (2, 0), "{err}");
    document.push(0);
    assert_eq!(said(&["check", "--json", "--pocket", "-"], &level(10, &document)).0.matches("\"refusal\":9,").count(), 1);
}

/// Record 1 has its name from byte 10 on, and there stands what is no UTF-8.
#[test]
fn lines_that_do_not_fit_a_level_file_name_the_files_place() {
    let mut document = sample("pocket-reef.nbt");
    document[12] = 0xFF;
    let (out, err, status) = said(&["write", "--pocket", "--lines", "reef.nbt.lines", "-", "-o", "-"], &level(10, &document));
    let words = "\
tile: standard input: refused: the lines in reef.nbt.lines don't fit: a string is not UTF-8, at byte 20, in record 1, where the first sequence \
that can't be read begins (refusal 4), in the name of an entry of root
  00000000  0A 00 00 00 6E 00 00 00  0A 04 00 74 69 6C 65 08  |....n......tile.|
  00000010  07 00 53 63 FF 6E 65 49  64 12 00 53 32 42 5F 33  |..Sc.neId..S2B_3|
                        ^^
  00000020  31 55 46 55 5F 32 30 32  36 31 31 30 33 03 09 00  |1UFU_20261103...|
";
    assert_eq!((out.as_str(), err.as_str(), status), ("", words, 1));
    let (out, _, _) = said(&["list", "--pocket", "--lines", "reef.nbt.lines", "-"], &level(10, &document));
    assert!(out.contains("     1  String      (not UTF-8)  \"S2B_31UFU_20261103\"\n"), "{out}");
}

#[test]
fn a_cut_level_file_is_rescued() {
    let file = scratch("cut-level.nbt");
    let cut = &sample("pocket-level.nbt")[..68];
    let (out, _, status) = said(&["check", "--pocket", "-"], cut);
    let passed = head("110, of which 60 came");
    let ends = "the data ends before the document does, at byte 64, where the field that is not whole begins (refusal 1)";
    assert!(out.starts_with(&format!("standard input: refused: {ends}; {passed}\n")), "{out}");
    assert!(out.ends_with("\n  tile rescue --pocket - -o … saves the tags that came whole\n"), "{out}");
    assert_eq!(status, 1);
    let open = "open where the data ends:\n  root  Compound  2 entries kept\n";
    let saved = format!("standard input: saved 54 bytes, 3 records; {passed}, and not written; {open}");
    assert_eq!(said(&["rescue", "--pocket", "-", "-o", &file], cut), (saved, String::new(), 0));
    assert_eq!(std::fs::read(&file).unwrap(), [&sample("pocket-reef.nbt")[..53], b"\0"].concat());
    let (out, _, _) = said(&["rescue", "--json", "--pocket", "-", "-o", &file], cut);
    assert!(out.contains(r#""form":"pocket","level_file":{"version":10,"length":110},"bytes":54,"#), "{out}");
    std::fs::remove_file(file).unwrap();
}

#[test]
fn a_level_file_is_seen_without_the_option() {
    // its version 10 is a root without a tag in each form
    let (out, _, status) = tile(&["check", "pocket-level.nbt"]);
    let words = "accepted: 4 bytes, 1 record; 114 more after the root's end: with --pocket it is a level file\n";
    assert_eq!((out, status), (format!("pocket-level.nbt: {words}"), 0));
    // any other version is refused, and the other form is named
    let (out, _, status) = said(&["check", "-"], &level(9, &sample("pocket-reef.nbt")));
    assert!(out.contains("(refusal 2)\n") && out.ends_with(WITH), "{out}");
    assert_eq!(status, 1);
    // a length that is another is no head
    let mut other = sample("pocket-level.nbt");
    other[4] += 1;
    for option in [&["check", "-"][..], &["check", "--pocket", "-"]] {
        assert_eq!(said(option, &other).0, "standard input: accepted: 4 bytes, 1 record; 114 more after the root's end\n");
    }
    let mut cut = sample("pocket-level.nbt");
    cut.push(0);
    assert_eq!(said(&["check", "--pocket", "-"], &cut).0, "standard input: accepted: 4 bytes, 1 record; 115 more after the root's end\n");
}

#[test]
fn a_wrong_use_of_pocket_says_what_is_right() {
    let goes = "--pocket goes with list, check, query, write, convert, rescue and lines";
    for (args, words) in [
        (&["text", "--pocket", "reef.snbt", "-o", "-"][..], goes),
        (&["hex", "--pocket", "pocket-reef.nbt"], goes),
        (
            &["lines", "--up", "--length", "110", "--pocket", "reef-old.lines"],
            "--up takes lines, which are the same in each form, so --pocket has no place beside it",
        ),
    ] {
        assert_eq!(tile(args), (String::new(), format!("tile: {words}\ntile --help tells what there is\n"), 2), "{args:?}");
    }
    // a text makes a document in Java's form, whatever the others are in
    for args in [&["list"][..], &["check"], &["query", "deep/clouds"], &["lines"]] {
        assert_eq!(tile(&[args, &["--pocket", "rare-name.snbt"]].concat()), tile(&[args, &["rare-name.snbt"]].concat()));
    }
    let words = "tile: reef.snbt: is a text, which makes a document in Java's form: --pocket has no place beside it\n";
    assert_eq!(tile(&["write", "--pocket", "reef.snbt", "-o", "-"]), (String::new(), words.to_owned(), 2));
}

#[test]
fn help_tells_of_pocket() {
    for args in [
        &["--help"][..],
        &["list", "--help"],
        &["check", "--help"],
        &["query", "--help"],
        &["write", "--help"],
        &["convert", "--help"],
        &["rescue", "--help"],
        &["lines", "--help"],
    ] {
        assert!(tile(args).0.contains("--pocket"), "{args:?}");
    }
    assert!(["text", "hex"].iter().all(|command| !tile(&[command, "--help"]).0.contains("--pocket")));
}
