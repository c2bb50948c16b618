//! Names and strings that can't be read: which they are, and the bytes of the sequence at fault (02, [3]). And those that are too long in
//! another form.
use crate::form::{check_string, Form};
use crate::node::{Kind, Node};
use crate::path::MAX_NAME;
use crate::refusal::{Place, Refusal};
use crate::rescue::{rescue_in, Rescued};
use crate::table::{read_in, Table};
use std::fmt;
use std::ops::Range;

/// Which string it is that can't be read.
#[derive(Clone, Copy, Debug, PartialEq, Eq, Hash)]
pub enum Part {
    /// The root's own name.
    RootName,
    /// The name of an entry of a compound.
    Name,
    /// A string that is a tag's value.
    String,
}

/// A name or a string that is not modified UTF-8, or in the pocket edition's form not UTF-8: what a refusal 4 speaks of. Or one that is too
/// long in Java's form, into which a document is converted: what 12 then speaks of.
#[derive(Clone, Debug, PartialEq, Eq)]
pub struct Broken {
    /// Where it is, as a path that [`Query`](crate::Query) reads: of the tag whose value it is, of the compound in which the entry stands
    /// that has it as its name, or of the root.
    pub path: String,
    /// Which string it is.
    pub part: Part,
    /// The bytes of the document that make up the sequence: its lead, and the continuation bytes that belong to it. Of a string that is too
    /// long, all.
    pub bytes: Range<usize>,
}

/// In words that follow those of the refusal.
impl fmt::Display for Broken {
    fn fmt(&self, f: &mut fmt::Formatter) -> fmt::Result {
        match self.part {
            Part::RootName => write!(f, "in the root's name"),
            Part::Name => write!(f, "in the name of an entry of {}", self.path),
            Part::String => write!(f, "in {}", self.path),
        }
    }
}

impl Refusal {
    /// The name or the string that can't be read, where [`read`](crate::read) or [`read_in`](crate::read_in) refuses `doc` so. The refusal
    /// itself says by which form it was judged, and not which it is; that is found by rescuing what came before. `None` for every other refusal
    /// and document, and where what came before can't be rescued within [`MAX_DOCUMENT`](crate::MAX_DOCUMENT).
    ///
    /// ```
    /// use tikfazrul::{read, Part};
    /// let doc = b"\x0A\0\0\x09\0\x05Tiles\x08\0\0\0\x02\0\x03S2B\0\x05S2\xE2\x82B\0";
    /// let broken = read(doc).unwrap_err().broken(doc).unwrap();
    /// assert_eq!((broken.path.as_str(), broken.part, broken.bytes.clone()), ("root/Tiles[1]", Part::String, 25..27));
    /// assert_eq!(broken.to_string(), "in root/Tiles[1]");
    ///
    /// let doc = b"\x0A\0\0\x0A\0\x05Scene\x01\0\x02a\xFF\x07\0\0";
    /// let broken = read(doc).unwrap_err().broken(doc).unwrap();
    /// assert_eq!((broken.path.as_str(), broken.part, broken.bytes.clone()), ("root/Scene", Part::Name, 15..16));
    /// assert_eq!(broken.to_string(), "in the name of an entry of root/Scene");
    /// ```
    pub fn broken(&self, doc: &[u8]) -> Option<Broken> {
        let content = content(self, doc)?;
        let at = self.place().number();
        let (path, part) = found(self.broken_form()?, doc, content.start, at)?;
        Some(Broken { path, part, bytes: at..at + width(&doc[at..content.end]) })
    }

    /// The name or the string that can't be read, or is too long in Java's form, where [`write()`](crate::write()) or
    /// [`write_in`](crate::write_in) refuses this table over `doc` so. `None` for every other refusal, table and document.
    ///
    /// ```
    /// use tikfazrul::{write, Part, Place, Refusal, Table};
    /// // a root without a name, and in it the string of the bytes 0 to 2, whose name is empty
    /// let mut table = Table::from_words([[10, 0, 0, 0, 0, 1, 0, 2, 0], [8, 0, 0, 0, 3, 0, 0, 2, 0]].concat());
    /// let doc = b"S2\xE2\x82";
    /// let refusal = write(doc, &mut table).unwrap_err();
    /// assert_eq!(refusal, Refusal::InvalidString(Place::In { byte: 2, record: 1 }));
    /// let broken = refusal.broken_in(doc, &table).unwrap();
    /// assert_eq!((broken.path.as_str(), broken.part, broken.bytes), ("root/\"\"", Part::String, 2..3));
    /// ```
    pub fn broken_in(&self, doc: &[u8], table: &Table) -> Option<Broken> {
        let record = self.place().record().filter(|&record| record < table.len())?;
        let node = table.root(doc).ok()?.at(record);
        let form = table.form();
        let (path, part, bytes) = match (*self, self.place()) {
            (Refusal::StringTooLongInJava(_), _) => which(&node, |string| form == Form::Pocket && is_long_in_java(&doc[string]))?,
            (_, Place::In { byte, .. }) if self.broken_form() == Some(form) => {
                let (path, part, string) = which(&node, |string| breaks(form, doc, string, byte))?;
                (path, part, byte..byte + width(&doc[byte..string.end]))
            }
            _ => return None,
        };
        Some(Broken { path, part, bytes })
    }
}

/// The name of a tag, or else the string that is its value, of which that holds: where it is, which it is, and its bytes.
fn which(node: &Node, holds: impl Fn(Range<usize>) -> bool) -> Option<(String, Part, Range<usize>)> {
    let (name, payload) = (node.name_range(), node.payload_range());
    // rule 8: a name is judged before the string
    match node.parent() {
        None if holds(name.clone()) => Some((node.path(), Part::RootName, name)),
        Some(parent) if holds(name.clone()) => Some((parent.path(), Part::Name, name)),
        _ if node.kind() == Kind::String && holds(payload.clone()) => Some((node.path(), Part::String, payload)),
        _ => None,
    }
}

/// Whether a string of the pocket edition's form has more bytes in Java's than one may have.
fn is_long_in_java(string: &[u8]) -> bool {
    Form::Pocket.decode(string).is_ok_and(|text| Form::Java.encode(&text).len() > MAX_NAME)
}

/// Whether what stands there is refused at that byte of the document.
fn breaks(form: Form, doc: &[u8], string: Range<usize>, byte: usize) -> bool {
    let start = string.start;
    let refused = check_string(form, &doc[string]).err();
    refused.is_some_and(|refusal| start + refusal.place().number() == byte)
}

/// The content of the string for which a read refuses a document so, if it does.
fn content(refusal: &Refusal, doc: &[u8]) -> Option<Range<usize>> {
    let (Place::Byte(at), Some(form)) = (refusal.place(), refusal.broken_form()) else {
        return None;
    };
    if read_in(form, doc).err() != Some(*refusal) {
        return None;
    }
    // rule 4: a string's content is one field, so a document that is cut in it is refused where it begins; its length stands before it
    let Err(Refusal::DataEnds(Place::Byte(start))) = read_in(form, &doc[..at]) else {
        return None;
    };
    let length = doc[..start].last_chunk().map(|&length| u16::from_be_bytes(form.ordered(length)))?;
    Some(start..start + usize::from(length))
}

/// Which string of a document begins at `start` and can't be read from `at` on. Everything before it is lawful.
fn found(form: Form, doc: &[u8], start: usize, at: usize) -> Option<(String, Part)> {
    let before = match rescue_in(form, &doc[..at]) {
        Ok(before) => before,
        Err(Refusal::RootCut(_)) => return Some(("root".to_owned(), Part::RootName)),
        Err(_) => return None,
    };
    // 02, [11]: made no longer than what can be read of it, a value is whole and its tag kept; after a name, which may then be refused itself,
    // no string is
    let length = form.ordered(u16::try_from(at - start).ok()?.to_be_bytes());
    let value = match rescue_in(form, &[&doc[..start - length.len()], &length, &doc[start..at]].concat()) {
        Err(Refusal::OutputFull(_)) => return None,
        after => after.ok().and_then(|after| new_string(&before, &after)),
    };
    match value {
        Some(path) => Some((path, Part::String)),
        None => Some((before.changes().last()?.path.to_owned(), Part::Name)),
    }
}

/// The path of the string that a rescue keeps as its last tag, if one that ended before it keeps no such tag.
fn new_string(before: &Rescued, after: &Rescued) -> Option<String> {
    let last = after.table.root(&after.document).ok()?.at(after.table.len() - 1);
    (after.table.len() > before.table.len() && last.kind() == Kind::String).then(|| last.path())
}

/// The bytes of the sequence that begins there: up to the string's end where it is known, else the bytes' end.
pub(crate) fn sequence(refusal: &Refusal, bytes: &[u8], at: usize) -> Range<usize> {
    let end = content(refusal, bytes).map_or(bytes.len(), |content| content.end);
    let at = at.min(end);
    at..at + width(&bytes[at..end])
}

/// How many bytes from the first on belong together: a lead, and what follows it of the continuation bytes that it asks for. Any other byte
/// stands by itself.
fn width(bytes: &[u8]) -> usize {
    let most = match bytes.first() {
        Some(0xC0..=0xDF) => 2,
        Some(0xE0..=0xEF) => 3,
        Some(0xF0..=0xF7) => 4,
        _ => 1,
    };
    1 + bytes.iter().take(most).skip(1).take_while(|&&byte| byte & 0xC0 == 0x80).count()
}
