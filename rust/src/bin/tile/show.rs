//! Tags and refusals in words for people.
use crate::head::Head;
use crate::input::{Input, Trouble};
use std::ffi::OsStr;
use std::io::{self, Write};
use tikfazrul::{hex, quoted, Change, Form, Kind, Link, Node, Place, Refusal, Rescued};

/// How many characters of a string, and elements of an array, are shown unless all are asked for.
const CHARACTERS: usize = 60;
const ELEMENTS: usize = 8;
/// The widest that a column is made for the sake of alignment.
const WIDEST: usize = 48;
/// The deepest that names are indented.
const INDENTED: usize = 16;

/// What is shown of a string or a name that can't be, as only tables from lines have.
fn unreadable(node: &Node) -> String {
    let rule = if node.form() == Form::Java { "modified UTF-8" } else { "UTF-8" };
    format!("(not {rule})")
}

/// A file by its name.
pub fn name(file: &OsStr) -> String {
    if file == "-" {
        return "standard input".to_owned();
    }
    // a name with a line feed must not look like two files
    file.to_string_lossy().chars().map(|c| if c.is_control() { '\u{FFFD}' } else { c }).collect()
}

/// The lines in a file, by its name.
pub fn lines(file: &OsStr) -> String {
    format!("the lines {} {}", if file == "-" { "on" } else { "in" }, name(file))
}

fn plural(count: usize, one: &str, many: &str) -> String {
    format!("{count} {}", if count == 1 { one } else { many })
}

pub fn size(bytes: usize, records: usize) -> String {
    format!("{}, {}", plural(bytes, "byte", "bytes"), count(records))
}

pub fn count(records: usize) -> String {
    plural(records, "record", "records")
}

pub fn gzip(input: &Input) -> &'static str {
    if input.inflated {
        ", inflated from gzip"
    } else {
        ""
    }
}

/// That a level file's head was passed over.
pub fn passed_over(head: Head) -> String {
    format!("the {head} before the document are passed over")
}

pub fn form(form: Form) -> &'static str {
    match form {
        Form::Java => "Java's form",
        Form::Pocket => "the pocket edition's form",
    }
}

/// What to do where a document is refused in one form and accepted in this, in which it is to be written if it is converted.
pub fn accepted_in(accepted: Form, converted: bool) -> String {
    let way_out = match accepted {
        _ if converted => "so there is nothing to convert",
        Form::Java => "without --pocket",
        Form::Pocket => "with --pocket",
    };
    format!("the file is accepted in {}, {way_out}", form(accepted))
}

/// That a level file of the pocket edition is to be converted into that form.
pub const LEVEL: &str = "this is a level file, whose document is in the pocket edition's form already, so there is nothing to convert";

/// A tag's value on one line.
pub fn value(node: &Node, full: bool) -> String {
    match node.kind() {
        Kind::Compound => plural(node.len(), "entry", "entries"),
        Kind::List => match node.list_kind() {
            Some(kind) => format!("{} of {kind}", plural(node.len(), "element", "elements")),
            None => "0 elements".to_owned(),
        },
        Kind::String => node.as_str().map_or_else(|| unreadable(node), |text| string(&text, full)),
        Kind::Float => format!("{:?}", node.as_f32().unwrap_or_default()),
        Kind::Double => format!("{:?}", node.as_f64().unwrap_or_default()),
        Kind::ByteArray | Kind::IntArray | Kind::LongArray => array(node, full),
        _ => node.as_whole().unwrap_or_default().to_string(),
    }
}

fn string(text: &str, full: bool) -> String {
    match text.char_indices().nth(CHARACTERS) {
        Some((at, _)) if !full => format!("{:?}… {} characters", &text[..at], text.chars().count()),
        _ => format!("{text:?}"),
    }
}

fn array(node: &Node, full: bool) -> String {
    let most = if full { usize::MAX } else { ELEMENTS };
    let shown: Vec<String> = node.wholes().into_iter().flatten().take(most).map(|n| n.to_string()).collect();
    if shown.len() < node.len() {
        return format!("[{}, …] {} elements", shown.join(", "), node.len());
    }
    format!("[{}]", shown.join(", "))
}

/// A tag's name as a list shows it, indented by its depth.
fn label(depth: usize, node: &Node) -> String {
    let indent = "  ".repeat(depth.min(INDENTED));
    let deep = if depth > INDENTED { format!("({depth}) ") } else { String::new() };
    match node.link() {
        Link::Element(index) => format!("{indent}{deep}[{index}]"),
        _ => format!("{indent}{deep}{}", node.name().map_or_else(|| unreadable(node), |name| quoted(&name).into_owned())),
    }
}

/// Every tag below the root, aligned.
pub fn tree(out: &mut dyn Write, root: Node, full: bool) -> io::Result<()> {
    let name = root.walk().map(|(depth, node)| label(depth, &node).chars().count().min(WIDEST)).max().unwrap_or(0).max(4);
    let number = root.end().saturating_sub(1).to_string().len().max(6);
    let kind = root.walk().map(|(_, node)| node.kind().tag_name().len()).max().unwrap_or(0).max(4);
    writeln!(out, "{:>number$}  {:kind$}  {:name$}  value", "record", "kind", "name")?;
    for (depth, node) in root.walk() {
        writeln!(out, "{:>number$}  {:kind$}  {:name$}  {}", node.record(), node.kind(), label(depth, &node), value(&node, full))?;
    }
    Ok(())
}

/// The tags that a query found, with their paths, aligned.
pub fn matches(out: &mut dyn Write, found: &[(String, Node)], full: bool) -> io::Result<()> {
    let path = found.iter().map(|(path, _)| path.chars().count().min(WIDEST)).max().unwrap_or(0);
    let kind = found.iter().map(|(_, node)| node.kind().tag_name().len()).max().unwrap_or(0);
    for (text, node) in found {
        writeln!(out, "{text:path$}  {:kind$}  {}", node.kind(), value(node, full))?;
    }
    Ok(())
}

/// The lists and compounds that were open where the data ends, a line each, aligned.
pub fn open(rescued: Option<&Rescued>) -> String {
    let Some(rescued) = rescued else {
        return "every tag came".to_owned();
    };
    let path = rescued.changes().map(|change| change.path.chars().count().min(WIDEST)).max().unwrap_or(0);
    let line = |change: Change| format!("\n  {:path$}  {:8}  {}", change.path, change.kind, kept(&change));
    format!("open where the data ends:{}", rescued.changes().map(line).collect::<String>())
}

fn kept(change: &Change) -> String {
    match change.kind {
        Kind::List => format!("{} of {} kept", change.kept, plural(change.promised, "element", "elements")),
        _ => format!("{} kept", plural(change.kept, "entry", "entries")),
    }
}

/// Why there is no document, and the bytes where the trouble is.
pub fn trouble(trouble: &Trouble) -> String {
    match trouble {
        Trouble::Io(words) => words.clone(),
        Trouble::Packed(words) => format!("refused: {words}"),
        Trouble::Long(refusal, _, long) => format!("refused: {refusal}, {long}"),
        Trouble::Level => format!("refused: {LEVEL}"),
        Trouble::Lines(lines, refusal, bytes) => format!("refused: {}{}", unfit(lines, refusal), window(refusal, bytes)),
        Trouble::Unreadable(lines, refusal, bytes, broken) => {
            format!("refused: {}, {broken}\n{}", unfit(lines, refusal), hex::window_of(bytes, broken.bytes.clone()))
        }
        Trouble::OldLines(lines, refusal, bytes, command) => {
            format!("refused: {}{}\n{command} brings them along", unfit(lines, refusal), window(refusal, bytes))
        }
        Trouble::Unmoved(refusal, bytes, length) => format!("refused: {refusal}{}{}", said(refusal, *length), window(refusal, bytes)),
        Trouble::Foreign(lines, first) => format!("refused: {}", foreign(lines, *first)),
        Trouble::Text(refusal, bytes) => format!("refused: {refusal}{}{}", whereabouts(refusal, bytes), window(refusal, bytes)),
        Trouble::Refused(refusal, input) => format!("refused: {}", refused(refusal, input)),
    }
}

/// What the text tells beside the refusal: where it is in lines, and what would be taken there.
fn whereabouts(refusal: &Refusal, text: &[u8]) -> String {
    let position = match refusal.place() {
        Place::Text(at) => position(text, at),
        _ => String::new(),
    };
    let hint = refusal.hint(text).map_or(String::new(), |hint| format!("; {hint}"));
    format!("{position}{hint}")
}

/// Why a document is refused, which name or string can't be read, and the bytes. Places are the file's, whatever stands before the document.
fn refused(refusal: &Refusal, input: &Input) -> String {
    let (document, before) = (input.document(), input.before());
    let broken = refusal.broken(document).map_or(String::new(), |broken| format!(", {broken}"));
    let head = input.head.map_or(String::new(), |head| format!("; {}", passed_over(head)));
    let window = refusal.marked(document).map(|bytes| hex::window_of(&input.bytes, bytes.start + before..bytes.end + before));
    let window = window.map_or(String::new(), |window| format!("\n{window}"));
    format!("{}{broken}{head}{window}", refusal.behind(before))
}

/// What to look at where lines form no table: the length that they were judged by.
fn said(refusal: &Refusal, length: usize) -> String {
    match refusal {
        Refusal::NoTable(_) => format!(", which has {} by --length", plural(length, "byte", "bytes")),
        _ => String::new(),
    }
}

fn window(refusal: &Refusal, bytes: &[u8]) -> String {
    refusal.window(bytes).map_or(String::new(), |window| format!("\n{window}"))
}

/// Why lines are of no use for a document.
pub fn unfit(lines: &str, refusal: &Refusal) -> String {
    let verdict = if matches!(refusal, Refusal::BadLine(_)) { "are bad" } else { "don't fit" };
    format!("{lines} {verdict}: {refusal}")
}

pub fn foreign(lines: &str, first: usize) -> String {
    format!("{lines} are not this document's: the first that differs is line {first}")
}

/// A place of a text as an editor counts: lines and characters from 1.
fn position(text: &[u8], at: usize) -> String {
    let before = String::from_utf8_lossy(&text[..at.min(text.len())]);
    let column = before.rsplit('\n').next().map_or(0, |line| line.chars().count());
    format!(", line {}, column {}", before.matches('\n').count() + 1, column + 1)
}

#[cfg(test)]
mod tests {
    use super::position;

    #[test]
    fn lines_and_columns_count_from_1() {
        let text = "{é:\n €x\n".as_bytes();
        assert_eq!(position(text, 0), ", line 1, column 1");
        assert_eq!(position(text, 3), ", line 1, column 3");
        assert_eq!(position(text, 9), ", line 2, column 3");
        assert_eq!(position(text, text.len()), ", line 3, column 1");
    }
}
