//! The command `tile convert` (02, [2]): documents of one form written in the other.
#[path = "common/command.rs"]
mod command;

use command::{fed, said, sample, samples, tile};
use std::path::{Path, PathBuf};

/// An empty folder of this name, for what is written.
fn scratch(name: &str) -> PathBuf {
    let folder = PathBuf::from(env!("CARGO_TARGET_TMPDIR")).join(name);
    let _ = std::fs::remove_dir_all(&folder);
    std::fs::create_dir_all(&folder).unwrap();
    folder
}

/// The names in a folder, in order.
fn names(folder: &Path) -> Vec<String> {
    let mut names: Vec<String> =
        std::fs::read_dir(folder).unwrap().map(|entry| entry.unwrap().file_name().into_string().unwrap()).collect();
    names.sort();
    names
}

/// What is said of a document in the pocket edition's form.
const ALONE: &str = "; a document alone, without the 8 bytes that a level file has before it";
const HEAD: &str = "; the 8 bytes of a level file (version 10, length 110) before the document are passed over, and not written";

#[test]
fn a_sample_becomes_its_twin() {
    let folder = scratch("convert-twins");
    let file = folder.join("made.nbt");
    let into = file.to_str().unwrap();
    for (java, pocket, (in_java, in_pocket, records)) in
        [("reef.nbt", "pocket-reef.nbt", (110, 110, 5)), ("rare-name.nbt", "pocket-rare-name.nbt", (66, 60, 4))]
    {
        let words = format!("{java}: converted into the pocket edition's form: {in_pocket} bytes, {records} records{ALONE}\n");
        assert_eq!(tile(&["convert", "--to", "pocket", java, "-o", into]), (words.clone(), String::new(), 0));
        assert_eq!(std::fs::read(&file).unwrap(), sample(pocket));
        // on standard output the document stands alone
        assert_eq!(fed(&["convert", "--to", "pocket", java, "-o", "-"], b""), (sample(pocket), words, 0));
        let words = format!("{pocket}: converted into Java's form: {in_java} bytes, {records} records\n");
        assert_eq!(tile(&["convert", "--to", "java", pocket, "-o", into]), (words.clone(), String::new(), 0));
        assert_eq!(std::fs::read(&file).unwrap(), sample(java));
        // that it is in the pocket edition's form need not be said, but may be
        assert_eq!(tile(&["convert", "--pocket", "--to", "java", pocket, "-o", into]), (words, String::new(), 0));
    }
    std::fs::remove_dir_all(folder).unwrap();
}

#[test]
fn there_and_back_is_what_write_writes() {
    let empty_list = b"\x0A\0\0\x09\0\x01l\x05\0\0\0\0\0".to_vec();
    let documents = ["reef.nbt", "kinds.nbt", "mosaic.nbt", "rare-name.nbt", "smallest.nbt"].map(sample);
    for java in documents.into_iter().chain([empty_list]) {
        let longer = [&java[..], b"more"].concat();
        let (pocket, err, status) = fed(&["convert", "--to", "pocket", "-", "-o", "-"], &longer);
        assert!(err.ends_with("; 4 more after the root's end, not written\n"), "{err}");
        assert_eq!(status, 0);
        let (back, _, status) = fed(&["convert", "--to", "java", "-", "-o", "-"], &pocket);
        assert_eq!((back, status), (fed(&["write", "-", "-o", "-"], &longer).0, 0));
        // and what is listed is the same, but for the file's size
        let listed = |args: &[&str], doc: &[u8]| said(args, doc).0.split_once('\n').unwrap().1.to_owned();
        assert_eq!(listed(&["list", "--full", "--pocket", "-"], &pocket), listed(&["list", "--full", "-"], &java));
    }
}

#[test]
fn compressed_files_texts_and_level_files() {
    for (to, file, wanted, words) in [
        ("pocket", "reef.nbt.gz", "pocket-reef.nbt", format!("110 bytes, 5 records, inflated from gzip{ALONE}")),
        ("java", "pocket-level.nbt", "reef.nbt", format!("110 bytes, 5 records{HEAD}")),
    ] {
        let (out, err, status) = fed(&["convert", "--to", to, file, "-o", "-"], b"");
        assert_eq!((out, status), (sample(wanted), 0));
        assert!(err.starts_with(&format!("{file}: converted into ")) && err.ends_with(&format!("form: {words}\n")), "{err}");
    }
    // a text makes a document in Java's form
    let (pocket, _, status) = fed(&["convert", "--to", "pocket", "rare-name.snbt", "-o", "-"], b"");
    let text = fed(&["text", "rare-name.snbt", "-o", "-"], b"").0;
    assert_eq!((fed(&["convert", "--to", "java", "-", "-o", "-"], &pocket).0, status), (text, 0));
    let words = "tile: reef.snbt: is a text, which makes a document in Java's form: tile text writes it\n";
    assert_eq!(tile(&["convert", "--to", "java", "reef.snbt", "-o", "-"]), (String::new(), words.to_owned(), 2));
    let (_, err, status) = tile(&["convert", "--to", "pocket", "trailing-comma.snbt", "-o", "-"]);
    assert!(err.contains("(refusal 21)"), "{err}");
    assert_eq!(status, 1);
    let (_, err, status) = tile(&["convert", "--to", "pocket", "reef.nbt.zlib", "-o", "-"]);
    assert!(err.contains("zlib data (78 01)"), "{err}");
    assert_eq!(status, 1);
}

#[test]
fn what_is_in_that_form_already_is_told() {
    let folder = scratch("convert-already");
    let file = folder.join("kept.nbt");
    std::fs::write(&file, b"kept").unwrap();
    let into = file.to_str().unwrap();
    let ends = "refused: the data ends before the document does, at byte 3, where the field that is not whole begins (refusal 1)\n";
    for (to, name, form) in [("java", "reef.nbt", "Java's form"), ("pocket", "pocket-reef.nbt", "the pocket edition's form")] {
        let (out, err, status) = tile(&["convert", "--to", to, name, "-o", into]);
        assert!(err.starts_with(&format!("tile: {name}: {ends}")), "{err}");
        assert!(err.ends_with(&format!("\n  the file is accepted in {form}, so there is nothing to convert\n")), "{err}");
        assert_eq!((out.as_str(), status), ("", 1));
        let (out, _, status) = tile(&["convert", "--json", "--to", to, name, "-o", into]);
        assert!(out.contains(r#""ok":false,"#) && out.ends_with(&format!(",\"accepted_in\":\"{to}\"}}\n")), "{out}");
        assert_eq!(status, 1);
    }
    // its version 10 would be a root without a tag in Java's form, and all else be lost
    let words = "this is a level file, whose document is in the pocket edition's form already, so there is nothing to convert";
    let answer = tile(&["convert", "--to", "pocket", "pocket-level.nbt", "-o", into]);
    assert_eq!(answer, (String::new(), format!("tile: pocket-level.nbt: refused: {words}\n"), 1));
    let json = format!(r#"{{"file":"pocket-level.nbt","ok":false,"message":"{words}","accepted_in":"pocket"}}"#);
    let answer = tile(&["convert", "--json", "--to", "pocket", "pocket-level.nbt", "-o", into]);
    assert_eq!(answer, (format!("{json}\n"), String::new(), 1));
    // any other version is no root
    let level = [&[9, 0, 0, 0, 110, 0, 0, 0], &sample("pocket-reef.nbt")[..]].concat();
    let (_, err, status) = said(&["convert", "--to", "pocket", "-", "-o", into], &level);
    assert!(err.contains("(refusal 2)") && err.ends_with("so there is nothing to convert\n"), "{err}");
    assert_eq!((status, std::fs::read(&file).unwrap()), (1, b"kept".to_vec()));
    std::fs::remove_dir_all(folder).unwrap();
}

/// A document in the pocket edition's form: the root t, in it the compound Scene with a string of this name and content.
fn scene(name: &[u8], content: &[u8]) -> Vec<u8> {
    let string = |bytes: &[u8]| [&(bytes.len() as u16).to_le_bytes()[..], bytes].concat();
    [&b"\x0A\x01\0t\x0A\x05\0Scene\x08"[..], &string(name), &string(content), b"\0\0"].concat()
}

#[test]
fn a_string_too_long_in_java_is_named() {
    let folder = scratch("convert-long");
    let file = folder.join("kept.nbt");
    std::fs::write(&file, b"kept").unwrap();
    let into = file.to_str().unwrap();
    let zeros = vec![0; 65_535];
    let words = "a name or string would have more than 65,535 bytes in Java's form, at record 2 (refusal 12)";
    let root = [&b"\x0A\xFF\xFF"[..], &zeros, b"\0"].concat();
    for (doc, words, json) in [
        (scene(b"SceneId", &zeros), format!("{words}, in root/Scene/SceneId"), r#""path":"root/Scene/SceneId","part":"string""#),
        (scene(&zeros, b"S2B"), format!("{words}, in the name of an entry of root/Scene"), r#""path":"root/Scene","part":"name""#),
        (root, format!("{}, in the root's name", words.replace("record 2", "record 0")), r#""path":"root","part":"root name""#),
    ] {
        let answer = said(&["convert", "--to", "java", "-", "-o", into], &doc);
        assert_eq!(answer, (String::new(), format!("tile: standard input: refused: {words}\n"), 1));
        let (out, _, status) = said(&["convert", "--json", "--to", "java", "-", "-o", into], &doc);
        assert!(
            out.contains(r#""ok":false,"form":"pocket","refusal":12,"place":"#) && out.contains(r#","of":"record","message":"a name"#),
            "{out}"
        );
        assert!(out.ends_with(&format!(",{json},\"length\":65535}}\n")), "{out}");
        assert_eq!((status, std::fs::read(&file).unwrap()), (1, b"kept".to_vec()));
        // in its own form it is written
        assert_eq!(fed(&["write", "--pocket", "-", "-o", "-"], &doc), (doc, String::new(), 0));
    }
    // half as many are as many as there may be
    let (out, _, status) = said(&["convert", "--to", "java", "-", "-o", into], &scene(b"SceneId", &zeros[..32_767]));
    assert_eq!((out.as_str(), status), ("standard input: converted into Java's form: 65560 bytes, 3 records\n", 0));
    std::fs::remove_dir_all(folder).unwrap();
}

#[test]
fn several_files_go_into_a_folder() {
    let folder = scratch("convert-several");
    let into = folder.to_str().unwrap();
    let files = ["reef.nbt.gz", "kinds.nbt", "second-origin.nbt", "rare-name.snbt", "nowhere.nbt", "pocket-reef.nbt"];
    let (out, err, status) = tile(&[&["convert", "--to", "pocket", "-o", into], &files[..]].concat());
    let line = |name: &str, size: &str| format!("{name}: converted into the pocket edition's form: {size}{ALONE}\n");
    let said: String = [
        line("reef.nbt.gz", "110 bytes, 5 records, inflated from gzip"),
        line("kinds.nbt", "262 bytes, 24 records"),
        line("rare-name.snbt", "68 bytes, 6 records"),
    ]
    .concat();
    assert_eq!((out, status), (said, 2), "{err}");
    for words in ["second-origin.nbt: refused: ", "(refusal 6)", "nowhere.nbt: can't be read", "pocket-reef.nbt: refused: "] {
        assert!(err.contains(words), "{err}");
    }
    assert_eq!(names(&folder), ["kinds.nbt", "rare-name.nbt", "reef.nbt"]);
    assert_eq!(std::fs::read(folder.join("reef.nbt")).unwrap(), sample("pocket-reef.nbt"));
    // and back, beside them
    let back = folder.join("back");
    std::fs::create_dir(&back).unwrap();
    let made = ["kinds.nbt", "reef.nbt"].map(|name| folder.join(name).to_str().unwrap().to_owned());
    let (_, err, status) = tile(&["convert", "--to", "java", &made[0], &made[1], "-o", back.to_str().unwrap()]);
    assert_eq!((err.as_str(), status), ("", 0));
    for name in ["kinds.nbt", "reef.nbt"] {
        assert_eq!(std::fs::read(back.join(name)).unwrap(), sample(name));
    }
    std::fs::remove_dir_all(folder).unwrap();
}

#[test]
fn a_file_is_not_written_over_itself() {
    let folder = scratch("convert-itself");
    let file = folder.join("reef.nbt");
    std::fs::copy(samples().join("reef.nbt"), &file).unwrap();
    let file = file.to_str().unwrap();
    for into in [file, folder.to_str().unwrap()] {
        let (out, err, status) = tile(&["convert", "--to", "pocket", file, "-o", into]);
        assert_eq!((out.as_str(), status), ("", 2));
        assert!(err.ends_with("reef.nbt: is not written over itself\n"), "{err}");
    }
    assert_eq!(std::fs::read(file).unwrap(), sample("reef.nbt"));
    let (_, err, status) = tile(&["convert", "--to", "pocket", "reef.nbt", "-o", "nowhere/reef.nbt"]);
    assert!(err.starts_with("tile: reef.nbt: can't be written: "), "{err}");
    assert_eq!(status, 2);
    std::fs::remove_dir_all(folder).unwrap();
}

#[test]
fn json_tells_what_was_written() {
    let folder = scratch("convert-json");
    let into = folder.to_str().unwrap();
    let (out, err, status) = tile(&["convert", "--json", "--to", "java", "pocket-level.nbt", "pocket-rare-name.nbt", "-o", into]);
    let wanted = r#"{"file":"pocket-level.nbt","ok":true,"form":"pocket","level_file":{"version":10,"length":110},"to":"java","bytes":110,"count":5,"inflated":false}
{"file":"pocket-rare-name.nbt","ok":true,"form":"pocket","to":"java","bytes":66,"count":4,"inflated":false}
"#;
    assert_eq!((out.as_str(), err.as_str(), status), (wanted, "", 0));
    let (out, _, _) = tile(&["convert", "--json", "--to", "pocket", "--lines", "reef.nbt.lines", "reef.nbt", "-o", into]);
    assert_eq!(out, "{\"file\":\"reef.nbt\",\"ok\":true,\"lines\":true,\"to\":\"pocket\",\"bytes\":110,\"count\":5,\"inflated\":false}\n");
    assert_eq!(std::fs::read(folder.join("reef.nbt")).unwrap(), sample("pocket-reef.nbt"));
    std::fs::remove_dir_all(folder).unwrap();
}

#[test]
fn a_table_is_taken_from_lines() {
    for (to, file, wanted) in
        [("pocket", "reef.nbt", "pocket-reef.nbt"), ("java", "pocket-reef.nbt", "reef.nbt"), ("java", "pocket-level.nbt", "reef.nbt")]
    {
        let (out, err, status) = fed(&["convert", "--to", to, "--lines", "reef.nbt.lines", file, "-o", "-"], b"");
        assert_eq!((out, status), (sample(wanted), 0), "{err}");
    }
    // what is wrong with a string of the table is the lines' fault, and the place the file's
    let mut document = sample("pocket-reef.nbt");
    document[12] = 0xFF;
    let (_, err, status) = fed(&["convert", "--to", "java", "--lines", "reef.nbt.lines", "-", "-o", "-"], &document);
    let words =
        "tile: standard input: refused: the lines in reef.nbt.lines don't fit: a string is not UTF-8, at byte 12, in record 1, where";
    assert!(err.starts_with(words), "{err}");
    assert_eq!(status, 1);
    let (_, err, status) = tile(&["convert", "--to", "java", "--lines", "reef-old.lines", "pocket-reef.nbt", "-o", "-"]);
    assert!(err.contains("(refusal 29)"), "{err}");
    assert_eq!(status, 1);
    // but not that it is too long in Java's form
    let (doc, lines) = (scene(b"SceneId", &[0; 40_000]), scratch("convert-lines").join("scene.lines"));
    let made = fed(&["lines", "--pocket", "-"], &doc).0;
    std::fs::write(&lines, made).unwrap();
    let (_, err, status) = fed(&["convert", "--to", "java", "--lines", lines.to_str().unwrap(), "-", "-o", "-"], &doc);
    assert!(
        err.starts_with("tile: standard input: refused: a name or string would have") && err.ends_with("root/Scene/SceneId\n"),
        "{err}"
    );
    assert_eq!(status, 1);
    std::fs::remove_dir_all(lines.parent().unwrap()).unwrap();
}

#[test]
fn a_wrong_use_says_what_is_right() {
    let form = "--to wants a form: pocket or java";
    for (args, words) in [
        (&["convert", "reef.nbt", "-o", "x"][..], "--to says which form is to be written: --to pocket or --to java"),
        (&["convert", "--to", "bedrock", "reef.nbt", "-o", "x"], form),
        (&["convert", "reef.nbt", "-o", "x", "--to"], form),
        (&["write", "--to", "java", "reef.nbt", "-o", "x"], "--to goes with convert"),
        (&["list", "--to", "pocket", "reef.nbt"], "--to goes with convert"),
        (&["convert", "--to", "pocket", "reef.nbt"], "-o FILE says where to write; -o - is standard output"),
        (&["convert", "--to", "pocket", "-o", "x"], "no file is given; - is standard input"),
        (&["convert", "--to", "pocket", "reef.nbt", "kinds.nbt", "-o", "-"], "several files want a folder that is there: -o FOLDER"),
        (&["convert", "--to", "pocket", "reef.nbt", "-o", "nowhere/"], "there is no folder nowhere/"),
        (&["convert", "--to", "pocket", "reef.nbt", "reef.nbt.gz", "-o", "."], "two files would be saved as reef.nbt"),
        (&["convert", "--to", "pocket", "reef.nbt", "reef.snbt", "-o", "."], "two files would be saved as reef.nbt"),
        (&["convert", "--to", "pocket", "-", "-o", "."], "standard input has no name to be saved under in a folder"),
        (&["convert", "--json", "--to", "pocket", "reef.nbt", "-o", "-"], "--json speaks on standard output, so -o wants a file"),
        (&["convert", "--full", "--to", "pocket", "reef.nbt", "-o", "-"], "--full goes with list and query"),
        (
            &["convert", "--pocket", "--to", "pocket", "pocket-reef.nbt", "-o", "x"],
            "--to pocket takes documents in Java's form, so --pocket has no place beside it: tile write --pocket writes one again",
        ),
    ] {
        assert_eq!(tile(args), (String::new(), format!("tile: {words}\ntile --help tells what there is\n"), 2), "{args:?}");
    }
    assert!(!samples().join("x").exists());
}
