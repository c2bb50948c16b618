//! The same for machines: one JSON object for each file.
use crate::head::Head;
use crate::input::{Input, Trouble};
use crate::load::Loaded;
use crate::show;
use std::fmt::Write;
use tikfazrul::{Broken, Change, Form, Kind, Node, Part, Place, Refusal, Rescued, Trail};

pub fn string(text: &str) -> String {
    let mut json = String::from("\"");
    for c in text.chars() {
        match c {
            '"' | '\\' => json.extend(['\\', c]),
            c if c.is_control() => write!(json, "\\u{:04X}", c as u32).expect("a String takes all"),
            c => json.push(c),
        }
    }
    json.push('"');
    json
}

/// What a string or a name is that can't be read, as only tables from lines have.
const UNREADABLE: &str = "null";

/// JSON has no NaN and no infinities: they are strings.
fn float(finite: bool, shown: String) -> String {
    if finite {
        shown
    } else {
        string(&shown)
    }
}

fn value(node: &Node) -> Option<String> {
    match node.kind() {
        Kind::Compound | Kind::List => None,
        Kind::String => Some(node.as_str().map_or(UNREADABLE.to_owned(), |text| string(&text))),
        Kind::Float => node.as_f32().map(|n| float(n.is_finite(), format!("{n:?}"))),
        Kind::Double => node.as_f64().map(|n| float(n.is_finite(), format!("{n:?}"))),
        Kind::ByteArray | Kind::IntArray | Kind::LongArray => {
            let elements: Vec<String> = node.wholes()?.map(|n| n.to_string()).collect();
            Some(format!("[{}]", elements.join(",")))
        }
        _ => node.as_whole().map(|n| n.to_string()),
    }
}

/// A tag: where it is, and its value, or how many tags a list or compound has. The root has no parent, though its record's word is 0.
pub fn node(node: &Node, path: &str) -> String {
    let parent = node.parent().map_or("null".to_owned(), |parent| parent.record().to_string());
    let (record, path, kind) = (node.record(), string(path), string(node.kind().tag_name()));
    let mut json = format!("{{\"record\":{record},\"parent\":{parent},\"path\":{path},\"kind\":{kind}");
    if node.name_bytes().is_some() {
        json += &format!(",\"name\":{}", node.name().map_or(UNREADABLE.to_owned(), |name| string(&name)));
    }
    match value(node) {
        Some(value) => json += &format!(",\"value\":{value}"),
        None => json += &format!(",\"count\":{}", node.len()),
    }
    if let Some(kind) = node.list_kind() {
        json += &format!(",\"of\":{}", string(kind.tag_name()));
    }
    json + "}"
}

/// Every tag below the root.
pub fn records(root: Node) -> String {
    let mut trail = Trail::new();
    let records: Vec<String> = root.walk().map(|(_, found)| node(&found, trail.step(&found))).collect();
    format!("\"records\":[{}]", records.join(","))
}

/// The lists and compounds that were open where the data ends.
pub fn open(rescued: Option<&Rescued>) -> String {
    let one = |change: Change| {
        let (path, kind) = (string(change.path), string(change.kind.tag_name()));
        let (record, promised, kept) = (change.record, change.promised, change.kept);
        format!("{{\"record\":{record},\"path\":{path},\"kind\":{kind},\"promised\":{promised},\"kept\":{kept}}}")
    };
    let open: Vec<String> = rescued.into_iter().flat_map(Rescued::changes).map(one).collect();
    format!("\"open\":[{}]", open.join(","))
}

/// An object for a file: its name, whether it is accepted, and what else there is.
pub fn file(name: &str, ok: bool, more: &str) -> String {
    let comma = if more.is_empty() { "" } else { "," };
    format!("{{\"file\":{},\"ok\":{ok}{comma}{more}}}", string(name))
}

/// The form of a document that is not in Java's, and what stands before it in a level file; a comma behind each.
pub fn form(input: &Input) -> String {
    let form = match input.form {
        Form::Java => "",
        Form::Pocket => "\"form\":\"pocket\",",
    };
    let head = |head: Head| format!("\"level_file\":{{\"version\":{},\"length\":{}}},", head.version, head.length);
    form.to_owned() + &input.head.map_or(String::new(), head)
}

/// A form by its name.
fn form_name(form: Form) -> &'static str {
    match form {
        Form::Java => "java",
        Form::Pocket => "pocket",
    }
}

/// The form in which a document is accepted that is refused in another.
pub fn accepted_in(form: Option<Form>) -> String {
    form.map_or(String::new(), |form| format!(",\"accepted_in\":{}", string(form_name(form))))
}

/// What was written of a document in another form, so many bytes.
pub fn converted(loaded: &Loaded, to: Form, bytes: usize) -> String {
    let Loaded { input, table, lines } = loaded;
    let from = format!("{}{}", form(input), if lines.is_some() { "\"lines\":true," } else { "" });
    format!("{from}\"to\":{},\"bytes\":{bytes},\"count\":{},\"inflated\":{}", string(form_name(to)), table.len(), input.inflated)
}

pub fn trouble(trouble: &Trouble) -> String {
    match trouble {
        Trouble::Io(words) => format!("\"error\":{}", string(words)),
        Trouble::Packed(words) => format!("\"message\":{}", string(words)),
        Trouble::Level => format!("\"message\":{}{}", string(show::LEVEL), accepted_in(Some(Form::Pocket))),
        Trouble::Long(refusal, input, long) => {
            format!("{}{}{}", form(input), refused(refusal, &refusal.to_string()), unreadable(long))
        }
        Trouble::Refused(refusal, input) => {
            let broken = refusal.broken(input.document()).map_or(String::new(), |broken| unreadable(&broken));
            // places are the file's, whatever stands before the document
            let refusal = refusal.behind(input.before());
            format!("{}{}{broken}{}", form(input), refused(&refusal, &refusal.to_string()), accepted_in(trouble.other_form()))
        }
        Trouble::Text(refusal, _) | Trouble::Unmoved(refusal, ..) => refused(refusal, &refusal.to_string()),
        Trouble::Unreadable(lines, refusal, _, broken) => {
            format!("\"lines\":true,{}{}", refused(refusal, &show::unfit(lines, refusal)), unreadable(broken))
        }
        Trouble::Lines(lines, refusal, _) | Trouble::OldLines(lines, refusal, ..) => {
            format!("\"lines\":true,{}", refused(refusal, &show::unfit(lines, refusal)))
        }
        Trouble::Foreign(lines, first) => format!("\"lines\":true,{}", at(Place::Line(*first), &show::foreign(lines, *first))),
    }
}

fn refused(refusal: &Refusal, message: &str) -> String {
    format!("\"refusal\":{},{}", refusal.number(), at(refusal.place(), message))
}

fn at(place: Place, message: &str) -> String {
    let record = match place {
        Place::In { record, .. } => format!("\"record\":{record},"),
        _ => String::new(),
    };
    format!("\"place\":{},\"of\":{},{record}\"message\":{}", place.number(), string(sort(place)), string(message))
}

/// Which name or string it is that can't be read, and the bytes at fault: the first is the place.
fn unreadable(broken: &Broken) -> String {
    let part = match broken.part {
        Part::RootName => "root name",
        Part::Name => "name",
        Part::String => "string",
    };
    format!(",\"path\":{},\"part\":{},\"length\":{}", string(&broken.path), string(part), broken.bytes.len())
}

/// What a place counts.
fn sort(place: Place) -> &'static str {
    match place {
        Place::Byte(_) | Place::In { .. } => "byte",
        Place::Record(_) => "record",
        Place::Query(_) => "query",
        Place::Text(_) => "text",
        Place::Line(_) => "line",
        Place::Whole => "whole",
    }
}

#[cfg(test)]
mod tests {
    use super::*;

    /// What only a write refuses so, of a table from lines.
    #[test]
    fn a_record_stands_beside_its_byte() {
        let refusal = Refusal::InvalidString(Place::In { byte: 23, record: 1 });
        let broken = Broken { path: "root/a".to_owned(), part: Part::String, bytes: 23..25 };
        let json = trouble(&Trouble::Unreadable("the lines in x".to_owned(), refusal, Vec::new(), Box::new(broken)));
        assert!(
            json.starts_with(r#""lines":true,"refusal":4,"place":23,"of":"byte","record":1,"message":"the lines in x don't fit: "#),
            "{json}"
        );
        assert!(json.ends_with(r#"(refusal 4)","path":"root/a","part":"string","length":2"#), "{json}");
    }
}
