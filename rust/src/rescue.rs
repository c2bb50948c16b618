//! What is saved of documents that were cut in transfer.
use crate::ffi;
use crate::form::Form;
use crate::node::{Kind, Trail};
use crate::refusal::{Place, Refusal};
use crate::table::{read_in, Table, MAX_DOCUMENT, MAX_RECORDS, WORDS};

/// The most lists and compounds in each other, the root among them.
pub const MAX_DEPTH: usize = 512;
/// The words of a line in the list of changes: record, promised, kept.
pub const CHANGE: usize = 3;

/// A whole document with every tag that was completely read before the cut, and what was open there.
#[derive(Clone, Debug, PartialEq, Eq)]
pub struct Rescued {
    /// The document.
    pub document: Vec<u8>,
    /// Its table.
    pub table: Table,
    lines: Vec<Line>,
    /// The path of the innermost container that was open. The others' are its starts.
    path: String,
}

#[derive(Clone, Copy, Debug, PartialEq, Eq)]
struct Line {
    record: usize,
    kind: Kind,
    promised: usize,
    kept: usize,
    /// How much of the path is its own.
    path: usize,
}

/// A list or a compound that was open where the data ends.
#[derive(Clone, Copy, Debug, PartialEq, Eq)]
pub struct Change<'a> {
    /// Its record in the new document.
    pub record: usize,
    /// Where it is, as a path that [`Query`](crate::Query) reads.
    pub path: &'a str,
    /// A list or a compound.
    pub kind: Kind,
    /// The elements that a list promised; 0 for a compound, which promises no number.
    pub promised: usize,
    /// The children that were kept.
    pub kept: usize,
}

impl Rescued {
    /// The containers that were open, outermost first. The root is always one.
    pub fn changes(&self) -> impl ExactSizeIterator<Item = Change<'_>> {
        let of = |line: &Line| Change {
            record: line.record,
            path: &self.path[..line.path],
            kind: line.kind,
            promised: line.promised,
            kept: line.kept,
        };
        self.lines.iter().map(of)
    }
}

/// What an accepted rescue says.
#[derive(Clone, Copy, Debug, PartialEq, Eq)]
pub struct Saved {
    /// The bytes written.
    pub bytes: usize,
    /// The lines of the list of changes, of [`CHANGE`] words each.
    pub changes: usize,
}

/// Makes a whole document of one that is refused with 1. Containers that are open are closed, lists keep the elements they got, and the entry
/// that is cut vanishes. Refused with 31 where the document is whole, with 32 where the data ends in the root's id or name, and as
/// [`read`](crate::read) refuses it otherwise. What would be over [`MAX_DOCUMENT`], and so could not be read again, is refused with 13;
/// [`rescue_into`] writes longer ones.
///
/// ```
/// // a list of three shorts, cut in the second
/// let rescued = tikfazrul::rescue(b"\x0A\0\0\x09\0\x01l\x02\0\0\0\x03\0\x07\0")?;
/// assert_eq!(rescued.document, b"\x0A\0\0\x09\0\x01l\x02\0\0\0\x01\0\x07\0");
/// let open: Vec<_> = rescued.changes().map(|change| (change.path, change.promised, change.kept)).collect();
/// assert_eq!(open, [("root", 0, 1), ("root/l", 3, 1)]);
/// # Ok::<(), tikfazrul::Refusal>(())
/// ```
pub fn rescue(doc: &[u8]) -> Result<Rescued, Refusal> {
    rescue_in(Form::Java, doc)
}

/// Makes a whole document, in the same form, of one in a form that [`read_in`](crate::read_in) refuses with 1. All else is as in [`rescue`].
///
/// ```
/// use tikfazrul::{rescue_in, Form};
/// // a list of three shorts, cut in the second
/// let rescued = rescue_in(Form::Pocket, b"\x0A\0\0\x09\x01\0l\x02\x03\0\0\0\x07\0\x08")?;
/// assert_eq!(rescued.document, b"\x0A\0\0\x09\x01\0l\x02\x01\0\0\0\x07\0\0");
/// assert_eq!(rescued.table.form(), Form::Pocket);
/// # Ok::<(), tikfazrul::Refusal>(())
/// ```
pub fn rescue_in(form: Form, doc: &[u8]) -> Result<Rescued, Refusal> {
    // closing takes a byte for each container at the most
    let mut document = vec![0; doc.len().saturating_add(MAX_DEPTH).min(MAX_DOCUMENT)];
    let mut changes = [0; CHANGE * MAX_DEPTH];
    let saved = growing(form, doc, &mut document, &mut changes)?;
    document.truncate(saved.bytes);
    let table = read_in(form, &document)?;
    let (lines, path) = lines(&document, &table, &changes[..CHANGE * saved.changes])?;
    Ok(Rescued { document, table, lines, path })
}

/// Rescues with a table of its own: where it is full (8) the rescue is tried again with more room, up to [`MAX_RECORDS`].
fn growing(form: Form, doc: &[u8], out: &mut [u8], changes: &mut [u32]) -> Result<Saved, Refusal> {
    let mut room = (doc.len() / 16).clamp(16, MAX_RECORDS);
    loop {
        match rescue_in_into(form, doc, &mut vec![0; room * WORDS], out, changes) {
            Err(Refusal::TableFull(_)) if room < MAX_RECORDS => room = (room * 4).min(MAX_RECORDS),
            answer => return answer,
        }
    }
}

/// The lines of the list, and the path of the last. Each container is a child of the one before it.
fn lines(doc: &[u8], table: &Table, changes: &[u32]) -> Result<(Vec<Line>, String), Refusal> {
    let root = table.root(doc)?;
    let mut trail = Trail::new();
    let mut lines = Vec::with_capacity(changes.len() / CHANGE);
    let mut path = "";
    for line in changes.chunks_exact(CHANGE) {
        let [record, promised, kept] = [line[0], line[1], line[2]].map(|word| word as usize);
        let open = root.at(record);
        path = trail.step(&open);
        lines.push(Line { record, kind: open.kind(), promised, kept, path: path.len() });
    }
    Ok((lines, path.to_owned()))
}

/// Rescues into memory that the caller lends: words for a table of the read, bytes for the document, and [`CHANGE`] words for each container
/// that is open. Bytes for the document and [`MAX_DEPTH`] more, and as many lines, are always enough. Refused: bytes and changes are as they
/// were, and 24 says how many lines there are. The words are 0 but after 31, where they hold the document's records.
///
/// ```
/// let (mut words, mut out, mut changes) = ([9; 18], [0xAA; 5], [0xAA; 4]);
/// let saved = tikfazrul::rescue_into(b"\x0A\0\0\x01\0", &mut words, &mut out, &mut changes)?;
/// assert_eq!((saved.bytes, saved.changes), (4, 1));
/// assert_eq!((out, changes, words), ([0x0A, 0, 0, 0, 0xAA], [0, 0, 0, 0xAA], [0; 18]));
/// # Ok::<(), tikfazrul::Refusal>(())
/// ```
pub fn rescue_into(doc: &[u8], words: &mut [u32], out: &mut [u8], changes: &mut [u32]) -> Result<Saved, Refusal> {
    rescue_in_into(Form::Java, doc, words, out, changes)
}

/// The same of a document in a form.
pub fn rescue_in_into(form: Form, doc: &[u8], words: &mut [u32], out: &mut [u8], changes: &mut [u32]) -> Result<Saved, Refusal> {
    let answer = ffi::rescue_in(form.number(), doc, words, out, changes);
    let place: fn(usize) -> Place = if matches!(answer[0], 13 | 31) { |_| Place::Whole } else { Place::Byte };
    match Refusal::check_in(form, &answer, place) {
        Ok(()) => Ok(Saved { bytes: answer[2] as usize, changes: answer[3] as usize }),
        Err(Refusal::MoreMatches(count)) => Err(Refusal::MoreChanges(count)),
        Err(refusal) => Err(refusal),
    }
}
