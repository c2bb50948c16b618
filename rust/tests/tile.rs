//! The command `tile`, run on the samples.
use std::fs::Permissions;
use std::io::Write;
use std::os::unix::fs::{MetadataExt, PermissionsExt};
use std::path::{Path, PathBuf};
use std::process::{Command, Output, Stdio};
use tikfazrul::{Place, Refusal};

fn samples() -> PathBuf {
    PathBuf::from(env!("CARGO_MANIFEST_DIR")).join("../samples")
}

fn scratch(name: &str) -> PathBuf {
    PathBuf::from(env!("CARGO_TARGET_TMPDIR")).join(name)
}

/// Runs in the samples folder, with these bytes on standard input.
fn fed(args: &[&str], input: &[u8]) -> Output {
    let mut tile = Command::new(env!("CARGO_BIN_EXE_tile"));
    let tile = tile.args(args).current_dir(samples()).stdin(Stdio::piped()).stdout(Stdio::piped()).stderr(Stdio::piped());
    let mut child = tile.spawn().expect("tile runs");
    child.stdin.take().expect("piped").write_all(input).expect("tile reads its input");
    child.wait_with_output().expect("tile ends")
}

/// Standard output, standard error and status.
fn tile(args: &[&str]) -> (String, String, i32) {
    let output =
        Command::new(env!("CARGO_BIN_EXE_tile")).args(args).current_dir(samples()).stdin(Stdio::null()).output().expect("tile runs");
    let text = |bytes| String::from_utf8(bytes).expect("UTF-8");
    (text(output.stdout), text(output.stderr), output.status.code().expect("a status"))
}

#[test]
fn list_is_aligned() {
    let wanted = "\
reef.nbt: 110 bytes, 5 records
record  kind      name         value
     0  Compound  tile         4 entries
     1  String      SceneId    \"S2B_31UFU_20261103\"
     2  Int         OriginLon  48952000
     3  Int         OriginLat  523702000
     4  IntArray    Footprint  [48952000, 523702000, 49152000, 523702000, 49152000, 523902000]
";
    assert_eq!(tile(&["list", "reef.nbt"]), (wanted.to_owned(), String::new(), 0));
}

#[test]
fn check_says_what_and_where() {
    let wanted = "\
second-origin.nbt: refused: a name stands twice in one compound, at byte 23, the later entry (refusal 6)
  00000000  0A 00 04 74 69 6C 65 03  00 09 4F 72 69 67 69 6E  |...tile...Origin|
  00000010  4C 6F 6E 00 00 00 01 03  00 09 4F 72 69 67 69 6E  |Lon.......Origin|
                                 ^^
  00000020  4C 6F 6E 00 00 00 02 00                           |Lon.....|
reef.nbt: accepted: 110 bytes, 5 records
";
    let (out, err, status) = tile(&["check", "second-origin.nbt", "reef.nbt"]);
    assert_eq!((out.as_str(), err.as_str(), status), (wanted, "2 files, 1 refused\n", 1));
    assert_eq!(tile(&["check", "reef.nbt", "rare-name.nbt"]).2, 0);
}

#[test]
fn a_file_that_is_missing_is_no_refusal() {
    let (out, err, status) = tile(&["check", "nowhere.nbt", "reef.nbt"]);
    assert_eq!((out.as_str(), status), ("reef.nbt: accepted: 110 bytes, 5 records\n", 2));
    assert!(err.starts_with("tile: nowhere.nbt: can't be read: "), "{err}");
    assert_eq!(tile(&["list", "."]).2, 2);
    // the worst of all stands, whatever comes after it
    assert_eq!(tile(&["check", "nowhere.nbt", "second-origin.nbt"]).2, 2);
    assert_eq!(tile(&["check", "second-origin.nbt", "nowhere.nbt"]).2, 2);
}

#[test]
fn query_follows_a_path() {
    let (out, _, status) = tile(&["query", "root/Tiles[3]/**/SceneId", "mosaic.nbt"]);
    assert_eq!((out.as_str(), status), ("root/Tiles[3]/Scene/SceneId  String  \"S2B_03\"\n", 0));
    let (out, _, status) = tile(&["query", "**/SceneId", "mosaic.nbt", "smallest.nbt"]);
    assert_eq!((out.lines().count(), status), (8, 0));
    assert!(out.ends_with("smallest.nbt: 0 found\n"), "{out}");
    let (out, _, _) = tile(&["query", "\"Origin/Lon [°]\"", "rare-name.nbt"]);
    assert_eq!(out, "root/\"Origin/Lon [°]\"  Int  48952000\n");
}

#[test]
fn a_wrong_path_is_pointed_at() {
    let (out, err, status) = tile(&["query", "Tiles[x]", "mosaic.nbt"]);
    assert_eq!((out.as_str(), status), ("", 2));
    assert!(err.ends_with("  Tiles[x]\n        ^\n"), "{err}");
}

#[test]
fn gzip_is_inflated_and_zlib_refused_with_words() {
    let (out, _, status) = tile(&["check", "reef.nbt.gz"]);
    assert_eq!((out.as_str(), status), ("reef.nbt.gz: accepted: 110 bytes, 5 records, inflated from gzip\n", 0));
    let (out, _, status) = tile(&["check", "reef.nbt.zlib"]);
    assert!(out.contains("zlib data (78 01)") && out.contains("inflate it first"), "{out}");
    assert_eq!(status, 1);
}

#[test]
fn a_cut_gzip_file_and_a_missing_gzip_are_refused_with_words() {
    let whole = std::fs::read(samples().join("reef.nbt.gz")).unwrap();
    let cut = fed(&["check", "-"], &whole[..60]);
    let words = String::from_utf8(cut.stdout).unwrap();
    assert!(words.contains("can't be inflated whole: gzip:"), "{words}");
    assert_eq!(cut.status.code(), Some(1));
    let lone =
        Command::new(env!("CARGO_BIN_EXE_tile")).args(["check", "reef.nbt.gz"]).current_dir(samples()).env("PATH", "").output().unwrap();
    let words = String::from_utf8(lone.stdout).unwrap();
    assert!(words.contains("install gzip"), "{words}");
    assert_eq!(lone.status.code(), Some(1));
}

#[test]
fn a_gzip_file_that_inflates_beyond_the_limit_is_refused() {
    let zeros = scratch("zeros");
    std::fs::write(&zeros, vec![0; 64 << 20]).unwrap();
    let packed = Command::new("gzip").arg("-1c").arg(&zeros).output().unwrap().stdout;
    std::fs::remove_file(&zeros).unwrap();
    let answer = fed(&["check", "--json", "-"], &packed);
    let words = String::from_utf8(answer.stdout).unwrap();
    assert!(words.starts_with("{\"file\":\"-\",\"ok\":false,\"refusal\":9,"), "{words}");
}

#[test]
fn standard_input_is_a_file() {
    let answer = fed(&["list", "-"], b"\x0A\0\x01a\x01\0\x01b\xFF\0rest");
    let text = String::from_utf8(answer.stdout).unwrap();
    assert!(text.starts_with("standard input: 10 bytes, 2 records; 4 more after the root's end\n"), "{text}");
    assert!(text.ends_with("     1  Byte        b   -1\n"), "{text}");
}

#[test]
fn json_is_a_line_for_each_file() {
    let (out, err, status) = tile(&["list", "--json", "rare-name.nbt", "second-origin.nbt", "nowhere"]);
    let lines: Vec<&str> = out.lines().collect();
    assert_eq!((lines.len(), err.as_str(), status), (3, "", 2));
    assert!(
        lines[0].starts_with(
            r#"{"file":"rare-name.nbt","ok":true,"bytes":66,"count":4,"inflated":false,"records":[{"record":0,"parent":null,"path":"root","#
        ),
        "{out}"
    );
    assert!(lines[0].contains(r#""name":"reef\u0000😀","count":3}"#), "{out}");
    assert!(lines[1].starts_with(r#"{"file":"second-origin.nbt","ok":false,"refusal":6,"place":23,"of":"byte","message":""#), "{out}");
    assert!(lines[2].starts_with(r#"{"file":"nowhere","ok":false,"error":""#), "{out}");
    let (out, _, _) = tile(&["query", "--json", "doubles/*", "kinds.nbt"]);
    assert!(out.contains(r#""value":"NaN"}"#) && out.contains(r#""value":"-inf"}"#) && out.contains(r#""value":-0.0}"#), "{out}");
}

/// Records and parents, in the order in which JSON has them.
fn parents(json: &str) -> Vec<(String, String)> {
    let number = |text: &str| text.split([',', '}']).next().unwrap_or_default().to_owned();
    let pair = |tag: &str| tag.split_once(",\"parent\":").map(|(record, rest)| (number(record), number(rest)));
    json.split("{\"record\":").skip(1).map(|tag| pair(tag).expect(tag)).collect()
}

#[test]
fn json_has_each_parent() {
    let pairs = |wanted: &[(&str, &str)]| -> Vec<(String, String)> { wanted.iter().map(|&(a, b)| (a.to_owned(), b.to_owned())).collect() };
    let (out, _, status) = tile(&["query", "--json", "**/Clouds", "mosaic.nbt"]);
    assert_eq!((parents(&out), status), (pairs(&[("6", "4"), ("11", "9"), ("16", "14"), ("21", "19"), ("26", "24")]), 0));
    assert!(
        out.contains(r#"{"record":6,"parent":4,"path":"root/Tiles[0]/Scene/Clouds","kind":"Byte","name":"Clouds","value":0}"#),
        "{out}"
    );
    let (out, _, _) = tile(&["list", "--json", "reef.nbt"]);
    assert_eq!(parents(&out), pairs(&[("0", "null"), ("1", "0"), ("2", "0"), ("3", "0"), ("4", "0")]));
    let (out, _, _) = tile(&["query", "--json", "root", "smallest.nbt"]);
    assert_eq!(parents(&out), pairs(&[("0", "null")]));
    // lists in a list, and elements
    let (out, _, _) = tile(&["query", "--json", "grid/**", "kinds.nbt"]);
    assert_eq!(parents(&out), pairs(&[("18", "0"), ("19", "18"), ("20", "19"), ("21", "19"), ("22", "18"), ("23", "22")]));
    assert!(out.contains(r#"{"record":23,"parent":22,"path":"root/grid[1][0]","kind":"Byte","value":3}"#), "{out}");
}

#[test]
fn write_gives_the_document_back() {
    let file = scratch("again.nbt");
    let (out, err, status) = tile(&["write", "reef.nbt.gz", "-o", file.to_str().unwrap()]);
    assert_eq!((out.as_str(), err.as_str(), status), ("", "", 0));
    assert_eq!(std::fs::read(&file).unwrap(), std::fs::read(samples().join("reef.nbt")).unwrap());
    std::fs::remove_file(&file).unwrap();
    assert_eq!(tile(&["write", "second-origin.nbt", "-o", file.to_str().unwrap()]).2, 1);
    assert!(!file.exists(), "nothing is written of what is refused");
    let (_, err, status) = tile(&["write", "reef.nbt", "-o", "nowhere/reef.nbt"]);
    assert!(err.starts_with("tile: reef.nbt: can't be written: "), "{err}");
    assert_eq!(status, 2);
    assert_eq!(fed(&["write", "-", "-o", "-"], b"\x0A\0\0\0more").stdout, b"\x0A\0\0\0");
}

#[test]
fn hex_shows_the_bytes() {
    let (out, _, _) = tile(&["hex", "smallest.nbt"]);
    assert_eq!(out, "00000000  0A 00 00 00                                       |....|\n");
    let (line, _, _) = tile(&["hex", "--line", "reef.nbt", "second-origin.nbt", "plain-emoji.nbt"]);
    assert_eq!(line, std::fs::read_to_string(samples().join("tile.hex")).unwrap());
    assert_eq!(tile(&["hex", "reef.nbt.gz"]).0, tile(&["hex", "reef.nbt"]).0);
    assert!(tile(&["hex", "reef.nbt.zlib"]).0.starts_with("00000000  78 01"));
}

#[test]
fn wrong_command_lines_say_so() {
    for args in [
        &[][..],
        &["lsit"],
        &["list"],
        &["list", "--jsno", "reef.nbt"],
        &["query"],
        &["query", "a"],
        &["write", "reef.nbt"],
        &["write", "reef.nbt", "kinds.nbt", "-o", "-"],
        &["write", "reef.nbt", "-o"],
        &["list", "reef.nbt", "-o", "x"],
        &["hex", "--json", "reef.nbt"],
        &["check", "--full", "reef.nbt"],
        &["list", "--line", "reef.nbt"],
        &["rescue", "cut.nbt"],
        &["rescue", "cut.nbt", "cut-list.nbt", "-o", "nowhere/"],
        &["rescue", "cut.nbt", "cut-list.nbt", "-o", "-"],
        &["rescue", "cut.nbt", "cut.nbt", "-o", "."],
        &["rescue", "-", "-o", "."],
        &["rescue", "--json", "cut.nbt", "-o", "-"],
        &["rescue", "cut.nbt", "-o", "nowhere/"],
        &["lines"],
        &["lines", "reef.nbt", "kinds.nbt"],
        &["lines", "reef.nbt", "kinds.nbt", "-o", "-"],
        &["lines", "reef.nbt", "kinds.nbt", "-o", "nowhere"],
        &["lines", "reef.nbt", "-o", "nowhere/"],
        &["lines", "reef.nbt", "reef.nbt.gz", "-o", "."],
        &["lines", "-", "-o", "."],
        &["lines", "--json", "reef.nbt"],
        &["lines", "--full", "reef.nbt"],
        &["list", "--lines"],
        &["list", "--lines", "reef.nbt.lines"],
        &["list", "--lines", "reef.nbt.lines", "reef.nbt", "kinds.nbt"],
        &["list", "--lines", "nowhere/", "reef.nbt"],
        &["list", "--lines", ".", "-"],
        &["list", "--lines", "-", "-"],
        &["text", "--lines", "reef.nbt.lines", "reef.snbt", "-o", "-"],
        &["rescue", "--lines", "reef.nbt.lines", "cut.nbt", "-o", "-"],
        &["hex", "--lines", "reef.nbt"],
    ] {
        let (out, err, status) = tile(args);
        assert_eq!((out.as_str(), status), ("", 2), "{args:?}");
        assert!(err.contains("tile"), "{args:?}: {err}");
    }
}

#[test]
fn a_wrong_use_of_lines_says_what_is_right() {
    for (args, words) in [
        (&["hex", "--lines", "reef.nbt"][..], "--lines goes with list, check, query, write, convert and lines"),
        (&["list", "--lines"], "--lines wants a file or a folder"),
        (&["list", "--lines", "reef.nbt.lines", "reef.nbt", "kinds.nbt"], "several files want a folder that is there: --lines FOLDER"),
        (&["list", "--lines", "nowhere/", "reef.nbt"], "there is no folder nowhere/"),
        (&["list", "--lines", ".", "-"], "standard input has no name to find lines by in a folder"),
        (&["list", "--lines", "-", "-"], "standard input is the document or its lines, not both"),
        (&["lines", "reef.nbt", "kinds.nbt"], "several files want a folder that is there: -o FOLDER"),
        (&["lines", "reef.nbt", "reef.nbt.gz", "-o", "."], "two files would be saved as reef.nbt.lines"),
    ] {
        let wanted = format!("tile: {words}\ntile --help tells what there is\n");
        assert_eq!(tile(args), (String::new(), wanted, 2), "{args:?}");
    }
}

/// `tile lines` with these words is wrong, and says so.
fn wrong_lines(args: &[&str], words: &str) {
    let wanted = format!("tile: {words}\ntile --help tells what there is\n");
    assert_eq!(tile(&[&["lines"], args].concat()), (String::new(), wanted, 2), "{args:?}");
}

#[test]
fn a_move_wants_one_way_and_a_length() {
    let length = "--length wants the number of bytes that the document has";
    let both = "lines are moved --up or --down, not both";
    for (args, words) in [
        (&["--up", "reef-old.lines"][..], "--up wants to know how many bytes the document has: --length N"),
        (&["--down", "reef.nbt.lines"], "--down wants to know how many bytes the document has: --length N"),
        (&["--up"], "--up wants to know how many bytes the document has: --length N"),
        (&["--up", "--down", "--length", "110", "reef-old.lines"], both),
        (&["--down", "--length", "110", "reef-old.lines", "--up"], both),
        (&["--length", "110", "reef.nbt"], "--length goes with lines --up and lines --down"),
        (&["--in-place", "reef.nbt"], "--in-place goes with lines --up and lines --down"),
        (&["--up", "reef-old.lines", "--length"], length),
        (&["--up", "--length", "", "reef-old.lines"], length),
        (&["--up", "--length", "-110", "reef-old.lines"], length),
        (&["--up", "--length", "+110", "reef-old.lines"], length),
        (&["--up", "--length", "0x6e", "reef-old.lines"], length),
        (&["--up", "--length", "reef-old.lines"], length),
    ] {
        wrong_lines(args, words);
    }
    for (option, command) in [("--up", "check"), ("--down", "list")] {
        let wanted = format!("tile: {option} goes with lines\ntile --help tells what there is\n");
        assert_eq!(tile(&[command, option, "--length", "110", "reef.nbt"]), (String::new(), wanted, 2));
    }
}

#[test]
fn a_move_wants_lines_and_places_to_go_to() {
    let two_places = "the moved lines go into the same file (--in-place) or where -o says, not both";
    for (args, words) in [
        (&[][..], "no file is given; - is standard input"),
        (&["--lines", "reef-old.lines", "reef.nbt"], "--up takes each file itself as lines, so --lines has no place beside it"),
        (&["--in-place", "reef-old.lines", "-o", "x"], two_places),
        (&["--in-place", "reef-old.lines", "-o", "-"], two_places),
        (&["--in-place", "reef-old.lines", "-"], "standard input is no file that could be replaced: --in-place wants files"),
        (&["reef-old.lines", "a.lines"], "several files want a folder that is there: -o FOLDER"),
        (&["reef-old.lines", "-o", "nowhere/"], "there is no folder nowhere/"),
        (&["reef-old.lines", "./reef-old.lines", "-o", "."], "two files would be saved as reef-old.lines"),
        (&["-", "-o", "."], "standard input has no name to be saved under in a folder"),
        (&["--json", "reef-old.lines"], "--json goes with list, check, query, convert and rescue"),
        (&["--full", "reef-old.lines"], "--full goes with list and query"),
    ] {
        wrong_lines(&[&["--up", "--length", "110"], args].concat(), words);
    }
}

#[test]
fn help_teaches() {
    let (help, err, status) = tile(&["--help"]);
    assert_eq!((err.as_str(), status), ("", 0));
    for command in ["list", "check", "query", "text", "write", "convert", "rescue", "lines", "hex"] {
        assert!(help.contains(&format!("tile {command} ")), "{command}");
        let (about, _, status) = tile(&[command, "--help"]);
        assert_eq!(status, 0);
        assert!(about.starts_with(&format!("tile {command} ")), "{about}");
    }
    for text in [help, tile(&["lines", "--help"]).0] {
        assert!(["--up", "--down", "--length N", "--in-place"].into_iter().all(|option| text.contains(option)), "{text}");
    }
}

#[test]
fn long_values_are_cut_unless_all_is_asked_for() {
    let mut doc = b"\x0A\0\0\x08\0\x01s\0\xC8".to_vec();
    doc.extend([b'x'; 200]);
    doc.extend(b"\x07\0\x01b\0\0\0\x64");
    doc.extend([5; 100]);
    doc.push(0);
    let show = |args: &[&str]| String::from_utf8(fed(args, &doc).stdout).unwrap();
    let cut = show(&["list", "-"]);
    assert!(cut.contains("… 200 characters\n") && cut.contains("[5, 5, 5, 5, 5, 5, 5, 5, …] 100 elements\n"), "{cut}");
    let full = show(&["list", "--full", "-"]);
    assert!(full.contains(&"x".repeat(200)) && full.contains(&["5"; 100].join(", ")), "{full}");
}

#[test]
fn a_text_is_made_a_document() {
    let file = scratch("text.nbt");
    assert_eq!(tile(&["text", "reef.snbt", "-o", file.to_str().unwrap()]), (String::new(), String::new(), 0));
    let made = std::fs::read(&file).unwrap();
    std::fs::remove_file(&file).unwrap();
    let tile_of = std::fs::read(samples().join("reef.nbt")).unwrap();
    assert_eq!((&made[..3], &made[3..]), (&b"\x0A\0\0"[..], &tile_of[7..]), "all but the root's name");
    assert_eq!(fed(&["text", "-", "-o", "-"], b"{clouds: 7b}").stdout, b"\x0A\0\0\x01\0\x06clouds\x07\0");
}

#[test]
fn a_refused_text_shows_its_place() {
    let wanted = "\
trailing-comma.snbt: refused: nothing follows a comma, at byte 42 of the text (refusal 21), line 1, column 43
  00000010  32 30 30 30 2C 20 4F 72  69 67 69 6E 4C 61 74 3A  |2000, OriginLat:|
  00000020  20 35 32 33 37 30 32 30  30 30 2C 7D 0A           | 523702000,}.|
                                           ^^
";
    assert_eq!(tile(&["check", "trailing-comma.snbt"]), (wanted.to_owned(), String::new(), 1));
    let late = fed(&["text", "-", "-o", "-"], "{é:\n é€ é,}".as_bytes());
    assert!(String::from_utf8(late.stderr).unwrap().contains("(refusal 21), line 2, column 6\n"));
    assert_eq!(tile(&["query", "deep/clouds", "rare-name.snbt"]).0, "root/deep/clouds  Byte  7\n");
    assert_eq!(tile(&["text", "second-origin.snbt", "-o", "-"]).2, 1);
    let array = fed(&["text", "-", "-o", "-"], b"{a:[L;1]}");
    let words = "(refusal 11), line 1, column 7; an array [L;…] takes longs: write 1L\n";
    assert!(String::from_utf8(array.stderr).unwrap().contains(words));
}

#[test]
fn any_element_is_asked_for_in_brackets() {
    let (out, _, status) = tile(&["query", "root/Tiles[*]/Scene/SceneId", "mosaic.nbt"]);
    assert_eq!((out.lines().count() > 1, status), (true, 0), "{out}");
    assert_eq!(out, tile(&["query", "root/Tiles/*/Scene/SceneId", "mosaic.nbt"]).0);
}

#[test]
fn a_cut_document_is_rescued() {
    let file = scratch("rescued.nbt");
    let wanted = "\
cut-list.nbt: saved 156 bytes, 15 records; open where the data ends:
  root                 Compound  2 entries kept
  root/Tiles           List      3 of 5 elements kept
  root/Tiles[2]        Compound  1 entry kept
  root/Tiles[2]/Scene  Compound  0 entries kept
";
    assert_eq!(tile(&["rescue", "cut-list.nbt", "-o", file.to_str().unwrap()]), (wanted.to_owned(), String::new(), 0));
    let saved = std::fs::read(&file).unwrap();
    assert!(tile(&["check", file.to_str().unwrap()]).0.ends_with(": accepted: 156 bytes, 15 records\n"));
    // on standard output the document stands alone
    let piped = fed(&["rescue", "cut-list.nbt", "-o", "-"], b"");
    assert_eq!((piped.stdout, piped.stderr, piped.status.code()), (saved, wanted.as_bytes().to_vec(), Some(0)));
    let (out, err, status) = tile(&["rescue", "--json", "cut-list.nbt", "-o", file.to_str().unwrap()]);
    assert!(
        out.starts_with(r#"{"file":"cut-list.nbt","ok":true,"bytes":156,"count":15,"inflated":false,"open":[{"record":0,"path":"root","#)
    );
    assert!(out.contains(r#"{"record":2,"path":"root/Tiles","kind":"List","promised":5,"kept":3},"#), "{out}");
    assert_eq!((err.as_str(), status), ("", 0));
    std::fs::remove_file(&file).unwrap();
}

#[test]
fn what_cannot_be_rescued_changes_no_file() {
    let file = scratch("kept.nbt");
    std::fs::write(&file, b"kept").unwrap();
    let (whole, root) = (scratch("whole.nbt"), scratch("root.nbt"));
    std::fs::copy(samples().join("reef.nbt"), &whole).unwrap();
    std::fs::write(&root, b"\x0A\0").unwrap();
    for (from, words) in [
        (whole.to_str().unwrap(), "the document is whole: there is nothing to rescue (refusal 31)"),
        (root.to_str().unwrap(), "the data ends in the root's id or name, and nothing can be rescued, at byte 1, where the field"),
        ("second-origin.nbt", "a name stands twice in one compound, at byte 23, the later entry (refusal 6)"),
        ("reef.nbt.zlib", "zlib data (78 01)"),
    ] {
        let (out, err, status) = tile(&["rescue", from, "-o", file.to_str().unwrap()]);
        assert_eq!((out.as_str(), status), ("", 1), "{err}");
        assert!(err.contains(words), "{err}");
    }
    assert_eq!(std::fs::read(&file).unwrap(), b"kept");
    // a file is not written over itself
    std::fs::copy(samples().join("cut.nbt"), &file).unwrap();
    let (_, err, status) = tile(&["rescue", file.to_str().unwrap(), "-o", file.to_str().unwrap()]);
    assert!(err.contains("is not written over itself"), "{err}");
    assert_eq!((std::fs::read(&file).unwrap().len(), status), (60, 2));
    for used in [file, whole, root] {
        std::fs::remove_file(used).unwrap();
    }
}

#[test]
fn several_files_are_rescued_into_a_folder() {
    let folder = scratch("rescued");
    std::fs::create_dir_all(&folder).unwrap();
    // cut in the stored bytes, and in what follows them
    let whole = std::fs::read(samples().join("reef.nbt.gz")).unwrap();
    let (packed, tail) = (scratch("cut-gzip.nbt.gz"), scratch("cut-tail.nbt.gz"));
    std::fs::write(&packed, &whole[..80]).unwrap();
    std::fs::write(&tail, &whole[..whole.len() - 3]).unwrap();
    let into = folder.to_str().unwrap();
    let (out, err, status) = tile(&["rescue", "cut.nbt", packed.to_str().unwrap(), tail.to_str().unwrap(), "reef.nbt", "-o", into]);
    assert_eq!(status, 1, "reef.nbt is whole");
    assert!(out.contains("cut.nbt: saved 54 bytes, 3 records; open where the data ends:\n  root  Compound  2 entries kept\n"), "{out}");
    assert!(out.contains("cut-gzip.nbt.gz: saved 54 bytes, 3 records, inflated from gzip; open"), "{out}");
    assert!(out.contains("cut-tail.nbt.gz: saved 110 bytes, 5 records, inflated from gzip; every tag came\n"), "{out}");
    assert!(err.contains("reef.nbt: refused: the document is whole"), "{err}");
    let saved = |name: &str| std::fs::read(folder.join(name)).unwrap();
    assert_eq!(saved("cut.nbt"), saved("cut-gzip.nbt"));
    assert_eq!(saved("cut-tail.nbt"), std::fs::read(samples().join("reef.nbt")).unwrap());
    assert_eq!(std::fs::read_dir(&folder).unwrap().count(), 3);
    std::fs::remove_dir_all(&folder).unwrap();
    for used in [packed, tail] {
        std::fs::remove_file(used).unwrap();
    }
}

#[test]
fn check_names_the_rescue_where_there_is_one() {
    let (out, _, status) = tile(&["check", "cut.nbt"]);
    assert!(out.ends_with("\n  tile rescue cut.nbt -o … saves the tags that came whole\n"), "{out}");
    assert_eq!(status, 1);
    for (bytes, named) in [(&b"\x0A\0\0"[..], true), (b"\x0A\0", false), (b"\x0A\0\0\x0D\0\0", false)] {
        let out = String::from_utf8(fed(&["check", "-"], bytes).stdout).unwrap();
        assert_eq!(out.contains("\n  tile rescue - -o … saves"), named, "{out}");
    }
    let whole = std::fs::read(samples().join("reef.nbt.gz")).unwrap();
    let out = String::from_utf8(fed(&["check", "-"], &whole[..60]).stdout).unwrap();
    assert!(out.ends_with("; `tile rescue` takes what can be inflated\n"), "{out}");
}

/// The lines of reef.nbt, from the sample.
fn reef_lines() -> String {
    std::fs::read_to_string(samples().join("reef.nbt.lines")).unwrap()
}

/// The same as they were before records had a parent.
fn old_lines() -> String {
    reef_lines().lines().map(|line| format!("{}\n", &line[..64])).collect()
}

#[test]
fn lines_are_written() {
    let whole = (reef_lines(), String::new(), 0);
    for args in [&["lines", "reef.nbt"][..], &["lines", "reef.nbt.gz", "-o", "-"], &["lines", "--lines", "reef.nbt.lines", "reef.nbt"]] {
        assert_eq!(tile(args), whole, "{args:?}");
    }
    assert_eq!(fed(&["lines", "-"], &std::fs::read(samples().join("reef.nbt")).unwrap()).stdout, whole.0.as_bytes());
    let file = scratch("reef.lines");
    assert_eq!(tile(&["lines", "reef.nbt", "-o", file.to_str().unwrap()]), (String::new(), String::new(), 0));
    assert_eq!(std::fs::read_to_string(&file).unwrap(), whole.0);
    // a refused document leaves what is there, and nothing on standard output
    for args in [&["lines", "second-origin.nbt", "-o", file.to_str().unwrap()][..], &["lines", "second-origin.nbt"]] {
        let (out, err, status) = tile(args);
        assert!(err.starts_with("tile: second-origin.nbt: refused: a name stands twice"), "{err}");
        assert_eq!((out.as_str(), status), ("", 1));
    }
    assert_eq!(std::fs::read_to_string(&file).unwrap(), whole.0);
    std::fs::remove_file(&file).unwrap();
}

#[test]
fn a_folder_of_lines_is_kept_and_asked() {
    let folder = scratch("kept");
    std::fs::create_dir_all(&folder).unwrap();
    let kept = folder.to_str().unwrap();
    let (out, err, status) = tile(&["lines", "mosaic.nbt", "reef.nbt.gz", "second-origin.nbt", "rare-name.snbt", "-o", kept]);
    assert_eq!((out.as_str(), status), ("", 1));
    assert!(err.starts_with("tile: second-origin.nbt: refused: "), "{err}");
    assert_eq!(std::fs::read_to_string(folder.join("reef.nbt.lines")).unwrap(), reef_lines());
    assert_eq!(std::fs::read_dir(&folder).unwrap().count(), 3);
    let slash = format!("{kept}/");
    let files = ["mosaic.nbt", "reef.nbt", "reef.nbt.gz", "rare-name.snbt"];
    let query = |more: &[&str]| tile(&[&["query", "**/SceneId"], more, &files[..]].concat());
    assert_eq!(query(&["--lines", &slash]), query(&[]));
    let wanted = "\
mosaic.nbt: accepted: 308 bytes, 28 records; the lines are its own
reef.nbt: accepted: 110 bytes, 5 records; the lines are its own
reef.nbt.gz: accepted: 110 bytes, 5 records, inflated from gzip; the lines are its own
rare-name.snbt: accepted: 71 bytes, 6 records; the lines are its own
";
    let (out, err, status) = tile(&[&["check", "--lines", kept], &files[..]].concat());
    assert_eq!((out.as_str(), err.as_str(), status), (wanted, "4 files, 0 refused\n", 0));
    // lines that are missing are a file that can't be read, and the others are asked all the same
    let (out, err, status) = tile(&["query", "**/SceneId", "--lines", kept, "kinds.nbt", "reef.nbt"]);
    assert!(err.starts_with(&format!("tile: kinds.nbt: the lines in {kept}/kinds.nbt.lines can't be read: ")), "{err}");
    assert_eq!((out.as_str(), status), ("reef.nbt: 1 found\nroot/SceneId  String  \"S2B_31UFU_20261103\"\n", 2));
    std::fs::remove_dir_all(&folder).unwrap();
}

#[test]
fn a_table_is_taken_from_lines() {
    let (read, _, _) = tile(&["list", "reef.nbt"]);
    let (kept, err, status) = tile(&["list", "--lines", "reef.nbt.lines", "reef.nbt"]);
    assert_eq!((kept, err.as_str(), status), (read.replace("110 bytes, 5 records", "5 records, from lines"), "", 0));
    assert!(tile(&["list", "--lines", ".", "reef.nbt.gz"]).0.starts_with("reef.nbt.gz: 5 records, from lines, inflated from gzip\n"));
    // nothing is said of bytes after the root's end, which lines don't know
    let longer = [std::fs::read(samples().join("reef.nbt")).unwrap(), b"rest".to_vec()].concat();
    let text = String::from_utf8(fed(&["list", "--lines", "reef.nbt.lines", "-"], &longer).stdout).unwrap();
    assert!(text.starts_with("standard input: 5 records, from lines\nrecord"), "{text}");
    let written = fed(&["write", "--lines", "reef.nbt.lines", "-", "-o", "-"], &longer);
    assert_eq!(written.stdout, longer[..110]);
    // lines on standard input
    let piped = fed(&["query", "OriginLon", "--lines", "-", "reef.nbt"], reef_lines().as_bytes());
    assert_eq!(piped.stdout, b"root/OriginLon  Int  48952000\n");
    // a text's document has a table of its own
    let (lines, _, _) = tile(&["lines", "reef.snbt"]);
    assert_ne!(lines, reef_lines());
    let text = String::from_utf8(fed(&["list", "--lines", "-", "reef.snbt"], lines.as_bytes()).stdout).unwrap();
    assert_eq!(text, tile(&["list", "reef.snbt"]).0.replace("106 bytes, 5 records", "5 records, from lines"));
}

#[test]
fn json_says_that_lines_were_taken() {
    let (read, _, _) = tile(&["list", "--json", "reef.nbt"]);
    let (kept, _, _) = tile(&["list", "--json", "--lines", "reef.nbt.lines", "reef.nbt"]);
    assert_eq!(kept, read.replace(r#""bytes":110"#, r#""lines":true"#));
    let (out, _, _) = tile(&["query", "--json", "OriginLon", "--lines", "reef.nbt.lines", "reef.nbt"]);
    assert!(out.starts_with(r#"{"file":"reef.nbt","ok":true,"lines":true,"matches":[{"record":2,"#), "{out}");
    let (out, _, _) = tile(&["check", "--json", "--lines", "reef.nbt.lines", "reef.nbt"]);
    assert_eq!(out, "{\"file\":\"reef.nbt\",\"ok\":true,\"lines\":true,\"bytes\":110,\"count\":5,\"inflated\":false}\n");
    let answer = |lines: &str| {
        let answer = fed(&["check", "--json", "--lines", "-", "reef.nbt"], lines.as_bytes());
        assert_eq!(answer.status.code(), Some(1));
        String::from_utf8(answer.stdout).unwrap()
    };
    for (lines, wanted) in [
        (
            reef_lines().to_uppercase(),
            r#""lines":true,"refusal":29,"place":1,"of":"line","message":"the lines on standard input are bad: a line is not"#,
        ),
        (
            String::new(),
            r#""lines":true,"refusal":10,"place":0,"of":"whole","message":"the lines on standard input don't fit: the words form no"#,
        ),
        (
            reef_lines().replace("00000031", "00000030"),
            r#""lines":true,"place":3,"of":"line","message":"the lines on standard input are not this document's: the first that"#,
        ),
    ] {
        assert!(answer(&lines).starts_with(&[r#"{"file":"reef.nbt","ok":false,"#, wanted].concat()), "{}", answer(&lines));
    }
    let (out, _, status) = tile(&["list", "--json", "--lines", "nowhere", "reef.nbt"]);
    assert!(out.starts_with(r#"{"file":"reef.nbt","ok":false,"error":"the lines in nowhere can't be read: "#), "{out}");
    assert_eq!(status, 2);
}

/// Every command that takes these lines, in a file of this name, for those of reef.nbt says these words, in which WRONG is the file.
fn refused_lines(file: &str, lines: &str, words: &str) {
    let file = scratch(file);
    let wrong = file.to_str().unwrap();
    std::fs::write(&file, lines).unwrap();
    let words = words.replace("WRONG", wrong);
    assert_eq!(tile(&["check", "--lines", wrong, "reef.nbt"]), (words.clone(), String::new(), 1));
    for args in [&["list"][..], &["query", "root"], &["lines"], &["write", "-o", "-"]] {
        let answer = tile(&[args, &["--lines", wrong, "reef.nbt"]].concat());
        assert_eq!(answer, (String::new(), format!("tile: {words}"), 1), "{args:?}");
    }
    std::fs::remove_file(&file).unwrap();
}

const NO_TABLE: &str = "reef.nbt: refused: the lines in WRONG don't fit: the words form no table over this document (refusal 10)\n";

#[test]
fn lines_that_do_not_fit_are_refused_with_words() {
    let capital = "\
reef.nbt: refused: the lines in WRONG are bad: a line is not 72 digits (0 to 9, a to f) and a line feed, at line 2 (refusal 29)
  000000080000000A00000007000000130000001200000000000000000000000200000000
                 ^ a capital
";
    let shorter: String = reef_lines().lines().take(4).map(|line| format!("{line}\n")).collect();
    let many = "0\n".repeat(1_048_577);
    let over = "\
reef.nbt: refused: the lines in WRONG don't fit: the input is over a limit: a document has at most 16,777,216 bytes, a text 1,048,576, a \
table 1,048,576 records or lines (refusal 9)
";
    let second = reef_lines().replace("0000000a00000007", "0000000A00000007");
    for (lines, words) in [(second, capital), (String::new(), NO_TABLE), (shorter, NO_TABLE), (many, over)] {
        refused_lines("wrong.lines", &lines, words);
    }
    // no more is read than lines can have
    assert!(tile(&["check", "--lines", "/dev/zero", "reef.nbt"]).0.contains("at line 1 (refusal 29)\n  ....."));
    for args in [&["list"][..], &["query", "root"], &["lines"], &["write", "-o", "-"], &["check"]] {
        let (out, err, status) = tile(&[args, &["--lines", "nowhere.lines", "reef.nbt"]].concat());
        assert!(err.starts_with("tile: reef.nbt: the lines in nowhere.lines can't be read: "), "{err}");
        assert_eq!((out.as_str(), status), ("", 2));
    }
}

#[test]
fn lines_without_parents_and_with_wrong_ones_are_refused_with_words() {
    // what was kept when a record had eight words
    let before = "\
reef.nbt: refused: the lines in WRONG are bad: a line is not 72 digits (0 to 9, a to f) and a line feed, at line 1 (refusal 29)
  0000000a00000003000000040000000000000000000000040000000000000005
                                                                  ^ 64 digits of 72: eight words, as lines had before parents were added
";
    let along = "  tile lines --up --length 110 WRONG -o … brings them along\n";
    refused_lines("old.lines", &old_lines(), &[before, along].concat());
    // a move is named only where it would do: not of both widths, and not of what forms no table
    let both = [&old_lines()[..65], &reef_lines()[73..]].concat();
    refused_lines("both.lines", &both, before);
    refused_lines("fewer.lines", &old_lines()[..260], before);
    // Footprint in SceneId, and in itself
    let all_but_the_last = reef_lines().strip_suffix("0\n").unwrap().to_owned();
    refused_lines("sister.lines", &format!("{all_but_the_last}1\n"), NO_TABLE);
    refused_lines("itself.lines", &format!("{all_but_the_last}4\n"), NO_TABLE);
}

#[test]
fn lines_of_another_document_are_found_by_a_check() {
    let (out, _, status) = tile(&["check", "--lines", "reef.nbt.lines", "mosaic.nbt"]);
    let words = "refused: the lines in reef.nbt.lines are not this document's: the first that differs is line";
    assert_eq!((out, status), (format!("mosaic.nbt: {words} 1\n"), 1));
    let moved = reef_lines().replace("00000031", "00000030");
    let out = String::from_utf8(fed(&["check", "--lines", "-", "reef.nbt"], moved.as_bytes()).stdout).unwrap();
    assert_eq!(out, "reef.nbt: refused: the lines on standard input are not this document's: the first that differs is line 3\n");
    // what is wrong with the document itself comes first, and a rescue is named as ever
    let (out, _, status) = tile(&["check", "--lines", "reef.nbt.lines", "cut.nbt"]);
    assert!(out.starts_with("cut.nbt: refused: the data ends") && out.ends_with(" saves the tags that came whole\n"), "{out}");
    assert_eq!(status, 1);
    // elsewhere they are taken as they are; what can't be shown is not shown as something else, and what is refused is their fault
    let (out, _, status) = tile(&["list", "--lines", "reef.nbt.lines", "mosaic.nbt"]);
    assert!(out.contains("     1  String      (not modified UTF-8)  (not modified UTF-8)\n"), "{out}");
    assert_eq!(status, 0);
    let (out, _, _) = tile(&["list", "--json", "--lines", "reef.nbt.lines", "mosaic.nbt"]);
    assert!(out.contains(r#""kind":"String","name":null,"value":null}"#), "{out}");
    let (out, err, status) = tile(&["write", "--lines", "reef.nbt.lines", "mosaic.nbt", "-o", "-"]);
    // record 1 has its name from byte 10 on, where the mosaic has the two bytes of a length
    let words = "\
the lines in reef.nbt.lines don't fit: a string is not modified UTF-8, at byte 10, in record 1, where the first sequence that can't be read \
begins (refusal 4), in the name of an entry of root
  00000000  0A 00 06 6D 6F 73 61 69  63 08 00 07 53 63 65 6E  |...mosaic...Scen|
                                           ^^
  00000010  65 49 64 00 03 61 6C 6C  09 00 05 54 69 6C 65 73  |eId..all...Tiles|
";
    assert_eq!((out.as_str(), err, status), ("", format!("tile: mosaic.nbt: refused: {words}"), 1));
}

/// The words for a string that can't be read, up to the path.
fn unreadable(at: usize) -> String {
    format!("a string is not modified UTF-8, at byte {at}, where the first sequence that can't be read begins (refusal 4)")
}

#[test]
fn a_broken_character_is_marked_and_its_tag_named() {
    // the last scene's name begins at byte 72, and its dash 25 bytes later
    let words = format!(
        "\
broken-character.nbt: refused: {}, in root/Tiles[2]/SceneId
  00000050  65 20 6C 61 20 47 72 61  6E 64 65 20 C3 8E 6C 65  |e la Grande ..le|
  00000060  20 E2 80 20 63 C3 B4 74  C3 A9 20 76 65 6E 74 20  | .. c..t.. vent |
               ^^ ^^
  00000070  33 20 C3 A0 20 39 00 00                           |3 .. 9..|
",
        unreadable(97)
    );
    assert_eq!(tile(&["check", "broken-character.nbt"]), (words.clone(), String::new(), 1));
    for args in [&["list"][..], &["query", "**/SceneId"], &["lines"], &["write", "-o", "-"], &["rescue", "-o", "-"]] {
        assert_eq!(tile(&[args, &["broken-character.nbt"]].concat()), (String::new(), format!("tile: {words}"), 1), "{args:?}");
    }
    let (out, _, _) = tile(&["check", "broken-name.nbt"]);
    assert!(out.starts_with(&format!("broken-name.nbt: refused: {}, in the name of an entry of root/Scene\n", unreadable(33))), "{out}");
    assert!(out.ends_with("\n               ^^ ^^ ^^\n"), "{out}");
    let out = String::from_utf8(fed(&["check", "-"], b"\x0A\0\x03S2\xFF\0").stdout).unwrap();
    assert!(out.starts_with(&format!("standard input: refused: {}, in the root's name\n", unreadable(5))), "{out}");
}

#[test]
fn json_tells_which_string_is_broken() {
    let json = |at, message: &str, more: &str| {
        format!("\"refusal\":4,\"place\":{at},\"of\":\"byte\",{more}}}\n").replace("MESSAGE", &format!("\"message\":\"{message}\""))
    };
    for (file, at, more) in [
        ("broken-character.nbt", 97, r#"MESSAGE,"path":"root/Tiles[2]/SceneId","part":"string","length":2"#),
        ("broken-name.nbt", 33, r#"MESSAGE,"path":"root/Scene","part":"name","length":3"#),
        ("plain-emoji.nbt", 24, r#"MESSAGE,"path":"root/SceneId","part":"string","length":4"#),
    ] {
        let wanted = format!("{{\"file\":\"{file}\",\"ok\":false,{}", json(at, &unreadable(at), more));
        for args in [&["check"][..], &["list"], &["query", "root"]] {
            assert_eq!(tile(&[args, &["--json", file]].concat()), (wanted.clone(), String::new(), 1));
        }
    }
    let out = String::from_utf8(fed(&["check", "--json", "-"], b"\x0A\0\x03S2\xFF\0").stdout).unwrap();
    assert!(out.ends_with(&json(5, &unreadable(5), r#"MESSAGE,"path":"root","part":"root name","length":1"#)), "{out}");
}

#[test]
fn lines_take_the_place_of_nothing_that_they_are_made_from() {
    let folder = scratch("places");
    std::fs::create_dir_all(&folder).unwrap();
    let (doc, lines) = (folder.join("reef.nbt"), folder.join("reef.nbt.lines"));
    std::fs::copy(samples().join("reef.nbt"), &doc).unwrap();
    std::fs::copy(samples().join("reef.nbt.lines"), &lines).unwrap();
    let (doc, lines) = (doc.to_str().unwrap(), lines.to_str().unwrap());
    for (args, words) in [
        (&["lines", doc, "-o", doc][..], "is not written over itself"),
        (&["lines", "--lines", lines, doc, "-o", doc], "is not written over itself"),
        (&["write", "--lines", lines, doc, "-o", lines], "is not written over its lines"),
    ] {
        assert_eq!(tile(args), (String::new(), format!("tile: {doc}: {words}\n"), 2));
    }
    assert_eq!(std::fs::read(doc).unwrap(), std::fs::read(samples().join("reef.nbt")).unwrap());
    assert_eq!(std::fs::read_to_string(lines).unwrap(), reef_lines());
    std::fs::remove_dir_all(&folder).unwrap();
}

/// A folder of its own, with these files in it.
fn folder_of(name: &str, files: &[(&str, &str)]) -> PathBuf {
    let folder = scratch(name);
    let _ = std::fs::remove_dir_all(&folder);
    std::fs::create_dir_all(&folder).unwrap();
    for (file, content) in files {
        std::fs::write(folder.join(file), content).unwrap();
    }
    folder
}

/// The names and the contents of all files in a folder.
fn contents(folder: &Path) -> Vec<(String, String)> {
    let one = |entry: std::fs::DirEntry| (entry.file_name().into_string().unwrap(), std::fs::read_to_string(entry.path()).unwrap());
    let mut files: Vec<_> = std::fs::read_dir(folder).unwrap().map(|entry| one(entry.unwrap())).collect();
    files.sort();
    files
}

fn named(files: &[(&str, &str)]) -> Vec<(String, String)> {
    files.iter().map(|&(name, content)| (name.to_owned(), content.to_owned())).collect()
}

#[test]
fn lines_are_moved_up_and_down() {
    let (old, new) = (old_lines(), reef_lines());
    assert_eq!(tile(&["lines", "--up", "--length", "110", "reef-old.lines"]), (new.clone(), String::new(), 0));
    assert_eq!(tile(&["lines", "reef.nbt.lines", "--down", "--length", "110", "-o", "-"]), (old.clone(), String::new(), 0));
    assert_eq!(fed(&["lines", "--up", "--length", "110", "-"], old.as_bytes()).stdout, new.as_bytes());
    assert_eq!(fed(&["lines", "--down", "--length", "0110", "-"], new.as_bytes()).stdout, old.as_bytes());
    // a file is written, and a folder holds the moved lines under the names that they had
    let folder = folder_of("moved", &[]);
    let (into, file) = (folder.to_str().unwrap(), folder.join("up.lines"));
    assert_eq!(tile(&["lines", "--up", "--length", "110", "reef-old.lines", "-o", file.to_str().unwrap()]).2, 0);
    let (out, err, status) = tile(&["lines", "--up", "--length", "110", "reef-old.lines", "reef.nbt.lines", "-o", into]);
    assert_eq!((out.as_str(), status), ("", 1));
    assert!(err.starts_with("tile: reef.nbt.lines: refused: a line is not 64 digits"), "{err}");
    assert_eq!(contents(&folder), named(&[("reef-old.lines", &new), ("up.lines", &new)]));
    assert_eq!(tile(&["check", "--lines", file.to_str().unwrap(), "reef.nbt"]).2, 0);
    // and is not read and written at once
    let up = file.to_str().unwrap();
    let (_, err, status) = tile(&["lines", "--down", "--length", "110", up, "-o", up]);
    assert_eq!((err, status), (format!("tile: {up}: is not written over itself; --in-place replaces it\n"), 2));
    let (_, err, status) = tile(&["lines", "--up", "--length", "110", "nowhere.lines"]);
    assert!(err.starts_with("tile: nowhere.lines: can't be read: "), "{err}");
    assert_eq!(status, 2);
    std::fs::remove_dir_all(&folder).unwrap();
}

#[test]
fn lines_that_cannot_be_moved_are_refused_with_words() {
    let (old, new) = (old_lines(), reef_lines());
    let nine = "\
a line is not 64 digits (0 to 9, a to f) and a line feed, at line 3 (refusal 29)
  000000030000002800000009000000310000000400000000000000000000000300000000
                                                                  ^ 72 digits for 64: nine words, as lines have since parents were added
";
    let eight = "\
a line is not 72 digits (0 to 9, a to f) and a line feed, at line 1 (refusal 29)
  0000000a00000003000000040000000000000000000000040000000000000005
                                                                  ^ 64 digits of 72: eight words, as lines had before parents were added
";
    let unended = "\
a line is not 64 digits (0 to 9, a to f) and a line feed, at line 5 (refusal 29)
  0000000b00000048000000090000005500000018000000060000000000000005
                                                                  ^ no line feed
";
    let over = Refusal::OverLimit(Place::Whole).to_string() + "\n";
    let none = |length| format!("the words form no table over this document (refusal 10), which has {length} by --length\n");
    let mixed = [&old[..130], &new[146..219], &old[195..]].concat();
    let wrong = new.replacen("0500000000\n", "0500000001\n", 1);
    for (way, length, lines, words) in [
        ("--up", "110", &mixed, nine),
        ("--down", "110", &old, eight),
        ("--up", "110", &old[..324].to_owned(), unended),
        ("--up", "110", &String::new(), &none("110 bytes")),
        ("--up", "108", &old, &none("108 bytes")),
        ("--down", "1", &new, &none("1 byte")),
        ("--down", "110", &wrong, &none("110 bytes")),
        ("--up", "16777217", &old, &over),
        ("--down", "99999999999999999999999", &new, &over),
    ] {
        let answer = fed(&["lines", way, "--length", length, "-"], lines.as_bytes());
        assert_eq!(String::from_utf8(answer.stderr).unwrap(), format!("tile: standard input: refused: {words}"));
        assert_eq!((answer.stdout.len(), answer.status.code()), (0, Some(1)));
    }
    // the payload of Footprint ends at byte 109
    assert_eq!(tile(&["lines", "--up", "--length", "109", "reef-old.lines"]).2, 0);
}

#[test]
fn files_are_replaced_by_their_moved_lines() {
    let (old, new) = (old_lines(), reef_lines());
    let folder = folder_of("in-place", &[("a.lines", &old), ("b.lines", &new), ("c.lines", &old), ("d.lines", &old[..324])]);
    let path = |name: &str| folder.join(name).to_str().unwrap().to_owned();
    let link = scratch("in-place-link");
    let _ = std::fs::remove_file(&link);
    std::os::unix::fs::symlink(path("c.lines"), &link).unwrap();
    for (name, mode) in [("a.lines", 0o640), ("b.lines", 0o400), ("c.lines", 0o604)] {
        std::fs::set_permissions(path(name), Permissions::from_mode(mode)).unwrap();
    }
    // only a superuser may give files away
    let given = std::os::unix::fs::chown(path("a.lines"), Some(1234), Some(2345)).is_ok();
    let before = |name: &str| std::fs::metadata(path(name)).unwrap();
    let (b, d) = (before("b.lines"), before("d.lines"));
    let files = [&path("a.lines"), &path("b.lines"), link.to_str().unwrap(), &path("d.lines")];
    let (out, err, status) = tile(&[&["lines", "--up", "--length", "110", "--in-place"], &files[..]].concat());
    assert_eq!((out.as_str(), status), ("", 1));
    assert_eq!(err.matches(": refused: a line is not 64 digits").count(), 2, "{err}");
    // two are replaced, two are the very files that they were, and nothing is left over
    let wanted = [("a.lines", &new[..]), ("b.lines", &new), ("c.lines", &new), ("d.lines", &old[..324])];
    assert_eq!(contents(&folder), named(&wanted));
    for (name, mode) in [("a.lines", 0o640), ("b.lines", 0o400), ("c.lines", 0o604)] {
        assert_eq!(before(name).mode() & 0o7777, mode, "{name}");
    }
    assert_eq!((before("a.lines").uid(), before("a.lines").gid()) == (1234, 2345), given);
    for (then, name) in [(b, "b.lines"), (d, "d.lines")] {
        let now = before(name);
        assert_eq!((then.ino(), then.mtime(), then.mtime_nsec()), (now.ino(), now.mtime(), now.mtime_nsec()), "{name}");
    }
    assert!(std::fs::symlink_metadata(&link).unwrap().is_symlink());
    // and back
    assert_eq!(tile(&["lines", "--down", "--length", "110", "--in-place", files[0], files[2]]), (String::new(), String::new(), 0));
    assert_eq!(contents(&folder)[..3], named(&[("a.lines", &old), ("b.lines", &new), ("c.lines", &old)]));
    std::fs::remove_dir_all(&folder).unwrap();
    std::fs::remove_file(&link).unwrap();
}

/// Where the new file can't be written, as on a full disk.
#[test]
fn a_file_stays_where_its_moved_lines_cannot_be_written() {
    let folder = folder_of("no-room", &[("a.lines", &old_lines())]);
    let file = folder.join("a.lines");
    let then = std::fs::metadata(&file).unwrap();
    // no file may grow, and a write beyond that is an error and not the end
    let script = "trap '' XFSZ; ulimit -f 0; exec \"$0\" lines --up --length 110 --in-place \"$1\"";
    let tile = Command::new("sh").args(["-c", script, env!("CARGO_BIN_EXE_tile")]).arg(&file).output().expect("sh");
    let words = String::from_utf8(tile.stderr).unwrap();
    assert!(words.starts_with(&format!("tile: {}: can't be written: ", file.display())), "{words}");
    assert_eq!((tile.stdout.len(), tile.status.code()), (0, Some(2)));
    assert_eq!(contents(&folder), named(&[("a.lines", &old_lines())]));
    let now = std::fs::metadata(&file).unwrap();
    assert_eq!((then.ino(), then.mode(), then.mtime_nsec()), (now.ino(), now.mode(), now.mtime_nsec()));
    std::fs::remove_dir_all(&folder).unwrap();
}
