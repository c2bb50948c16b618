//! The answers that samples/README.md tells are the library's.
use std::path::PathBuf;
use tikfazrul::{read, read_in, Form, Refusal, Table};

fn samples() -> PathBuf {
    PathBuf::from(env!("CARGO_MANIFEST_DIR")).join("../samples")
}

/// The rows of the table: file and answer.
fn rows() -> Vec<(String, String)> {
    let text = std::fs::read_to_string(samples().join("README.md")).expect("samples/README.md");
    let row = |line: &str| {
        let cells: Vec<&str> = line.split(" | ").collect();
        let file = cells[0].trim_start_matches("| ").trim_matches('`').to_owned();
        (file, cells[cells.len() - 1].trim_end_matches(" |").to_owned())
    };
    text.lines().filter(|line| line.starts_with("| `")).map(row).collect()
}

fn answer(file: &str, form: Form, document: impl Fn(Vec<u8>) -> Result<Vec<u8>, Refusal>) -> String {
    let bytes = std::fs::read(samples().join(file)).expect(file);
    match document(bytes).and_then(|bytes| read_in(form, &bytes)) {
        Ok(table) => format!("accepted: {} bytes, {} records", table.consumed(), table.len()),
        Err(refusal) => format!("refused with {} at {}", refusal.number(), refusal.place().number()),
    }
}

/// Whether the file is answered so.
fn is_answered(file: &str, told: &str, form: Form, document: impl Fn(Vec<u8>) -> Result<Vec<u8>, Refusal>) {
    let told = told.replace("1 record", "1 records").replace(',', "");
    let answer = answer(file, form, document).replace(',', "");
    assert!(told.starts_with(&answer), "{file}: told {told}, answered {answer}");
}

const POCKET: &str = "pocket-";

/// Whether every file whose name has this ending is answered as told, and there are so many.
fn as_told(ending: &str, count: usize, document: impl Fn(Vec<u8>) -> Result<Vec<u8>, Refusal>) {
    let of_java = |file: &str| file.contains(ending) && !file.ends_with(".lines") && !file.starts_with(POCKET);
    let rows: Vec<_> = rows().into_iter().filter(|(file, _)| of_java(file)).collect();
    assert_eq!(rows.len(), count);
    for (file, told) in rows {
        is_answered(&file, &told, Form::Java, &document);
    }
}

#[test]
fn every_document_is_answered_as_told() {
    as_told(".nbt", 15, Ok);
}

/// Of a document in the pocket edition's form it is told how it is answered in both.
#[test]
fn every_pocket_document_is_answered_as_told() {
    let rows: Vec<_> = rows().into_iter().filter(|(file, _)| file.starts_with(POCKET)).collect();
    assert_eq!(rows.len(), 4);
    for (file, told) in rows {
        for (form, label) in [(Form::Pocket, "pocket: "), (Form::Java, "Java: ")] {
            let told = told.split("; ").find_map(|part| part.strip_prefix(label)).expect(&file);
            is_answered(&file, told, form, Ok);
        }
    }
}

#[test]
fn the_pocket_reef_is_the_reef() {
    let sample = |name: &str| std::fs::read(samples().join(name)).expect(name);
    let (reef, pocket, level) = (sample("reef.nbt"), sample("pocket-reef.nbt"), sample("pocket-level.nbt"));
    let tree = |form, doc: &[u8]| -> Vec<String> {
        let table = read_in(form, doc).unwrap();
        let value =
            |node: tikfazrul::Node| (node.as_str().map(|text| text.into_owned()), node.as_whole(), node.wholes().map(Vec::from_iter));
        table.root(doc).unwrap().walk().map(|(_, node)| format!("{node:?} {:?} {:?}", node.name(), value(node))).collect()
    };
    assert_eq!(tree(Form::Pocket, &pocket), tree(Form::Java, &reef));
    assert_eq!(level, [&[10, 0, 0, 0, pocket.len() as u8, 0, 0, 0], &pocket[..]].concat());
}

#[test]
fn every_text_is_answered_as_told() {
    as_told(".snbt", 5, |text| tikfazrul::parse(&text).map(|parsed| parsed.document));
}

#[test]
fn the_lines_hold_the_table() {
    let sample = |name: &str| std::fs::read(samples().join(name)).expect(name);
    let (doc, lines) = (sample("reef.nbt"), sample("reef.nbt.lines"));
    let table = read(&doc).unwrap();
    assert_eq!(table.to_lines(doc.len()).unwrap(), lines);
    assert_eq!(Table::from_lines(&lines, doc.len()).unwrap().words(), table.words());
    assert!(rows().contains(&("reef.nbt.lines".to_owned(), format!("{} records over `reef.nbt`", table.len()))));
}

#[test]
fn the_old_lines_are_the_same_without_parents() {
    let sample = |name: &str| std::fs::read_to_string(samples().join(name)).expect(name);
    let cut: String = sample("reef.nbt.lines").lines().map(|line| format!("{}\n", &line[..64])).collect();
    let old = sample("reef-old.lines");
    assert_eq!(old, cut);
    let refusal = Table::from_lines(old.as_bytes(), 110).unwrap_err();
    let told = format!("refused with {} at {} where lines of nine words are wanted", refusal.number(), refusal.place().number());
    assert!(rows().contains(&("reef-old.lines".to_owned(), told)));
}

#[test]
fn every_file_is_told_of() {
    let mut told: Vec<String> = rows().into_iter().map(|(file, _)| file).collect();
    let names =
        std::fs::read_dir(samples()).expect("samples").map(|entry| entry.expect("an entry").file_name().into_string().expect("UTF-8"));
    let mut there: Vec<String> = names.filter(|name| name != "README.md" && name != "make").collect();
    told.sort();
    there.sort();
    assert_eq!(told, there);
}
