//! Tables kept as lines of hexadecimal, one record a line.
use crate::ffi;
use crate::form::Form;
use crate::hex;
use crate::refusal::{Place, Refusal};
use crate::table::{Table, MAX_RECORDS, WORDS};

/// The digits of a word.
const WORD: usize = 8;
/// The digits of a record's line.
pub(crate) const DIGITS: usize = WORD * WORDS;
// 02, [7]: the same of lines that were kept before records had a parent
pub(crate) const OLD_DIGITS: usize = WORD * (WORDS - 1);
/// The bytes of a record's line: its digits and a line feed.
pub const LINE: usize = DIGITS + 1;
/// How many bytes of a bad line are shown beyond its digits. What is wrong with it stands at the place of its line feed at the latest.
const BEYOND: usize = WORD;

impl Table {
    /// The table as lines, [`LINE`] bytes for each record: its nine words, of eight digits 0 to 9 and a to f each, and a line feed.
    /// Refused with 10 where the words form no table over a document of so many bytes, and with 9 as [`Table::is_table`] is.
    ///
    /// ```
    /// let table = tikfazrul::read(b"\x0A\0\0\0")?;
    /// assert_eq!(table.to_lines(4)?, b"0000000a0000000300000000000000000000000000000000000000000000000100000000\n");
    /// # Ok::<(), tikfazrul::Refusal>(())
    /// ```
    pub fn to_lines(&self, doc_len: usize) -> Result<Vec<u8>, Refusal> {
        let mut out = vec![0; self.len().min(MAX_RECORDS) * LINE];
        let length = lines_into(doc_len, self, &mut out)?;
        out.truncate(length);
        Ok(out)
    }

    /// The table that lines hold, judged over a document of so many bytes: its spans lie in such a document, and its records form a tree,
    /// in which each names its parent. Whether it is the table of the very document that it is meant for, only reading that document tells.
    /// [`Table::consumed`] is 0. Refused with 9 where there are more than [`MAX_RECORDS`] lines, 29 at a bad line, 9 where the document is
    /// over [`MAX_DOCUMENT`](crate::MAX_DOCUMENT), and 10 where the words form no table over it. Lines that were kept before records had a
    /// parent are bad, and [`lines_up`](crate::lines_up) brings them along.
    ///
    /// ```
    /// use tikfazrul::{Place, Refusal, Table};
    /// let line = b"0000000a0000000300000000000000000000000000000000000000000000000100000000\n";
    /// assert_eq!(Table::from_lines(line, 4)?.words(), [10, 3, 0, 0, 0, 0, 0, 1, 0]);
    /// assert_eq!(Table::from_lines(line, 2), Err(Refusal::NoTable(Place::Whole)));
    /// assert_eq!(Table::from_lines(&line.to_ascii_uppercase(), 4), Err(Refusal::BadLine(Place::Line(1))));
    /// # Ok::<(), Refusal>(())
    /// ```
    pub fn from_lines(lines: &[u8], doc_len: usize) -> Result<Table, Refusal> {
        Table::from_lines_in(Form::Java, lines, doc_len)
    }

    /// The same, of a document in that form: lines don't tell it.
    ///
    /// ```
    /// use tikfazrul::{read_in, Form, Table};
    /// let doc = b"\x0A\0\0\x02\x01\0s\x02\x01\0";
    /// let lines = read_in(Form::Pocket, doc)?.to_lines(doc.len())?;
    /// let table = Table::from_lines_in(Form::Pocket, &lines, doc.len())?;
    /// assert_eq!(table.root(doc)?.get("s").unwrap().as_i16(), Some(258));
    /// # Ok::<(), tikfazrul::Refusal>(())
    /// ```
    pub fn from_lines_in(form: Form, lines: &[u8], doc_len: usize) -> Result<Table, Refusal> {
        // never full (8): a line that wants room has LINE bytes, as has each before it, and above MAX_RECORDS lines 9 comes first
        let mut words = vec![0; (lines.len() / LINE).min(MAX_RECORDS) * WORDS];
        let records = read_lines_into(lines, &mut words)?;
        words.truncate(records * WORDS);
        Table::judged(form, words, doc_len)
    }
}

/// Writes a table's lines into bytes that the caller lends, and says how many. Refused with 9, with 10, and with 13 where there is no room:
/// the bytes are as they were.
///
/// ```
/// let table = tikfazrul::read(b"\x0A\0\0\0")?;
/// let mut out = [0xAA; tikfazrul::LINE + 1];
/// assert_eq!(tikfazrul::lines_into(4, &table, &mut out)?, tikfazrul::LINE);
/// assert!(out.starts_with(b"0000000a00000003") && out.ends_with(b"0000000100000000\n\xAA"));
/// # Ok::<(), tikfazrul::Refusal>(())
/// ```
pub fn lines_into(doc_len: usize, table: &Table, out: &mut [u8]) -> Result<usize, Refusal> {
    let answer = ffi::write_lines(doc_len, table.words(), out);
    Refusal::check(&answer, |_| Place::Whole)?;
    Ok(answer[2] as usize)
}

/// Reads lines into words that the caller lends, with room for one record for each nine, and says how many records: none where there is
/// no line. Whether the words form a table is not asked. Accepted: no other word changes. Refused with 9, or at the first line that is bad
/// (29) or has no room (8): every word is 0.
///
/// ```
/// use tikfazrul::{read_lines_into, Place, Refusal};
/// let line = b"0000000a0000000300000000000000000000000000000000000000000000000100000000\n";
/// let mut words = [7; 11];
/// assert_eq!(read_lines_into(line, &mut words)?, 1);
/// assert_eq!(words, [10, 3, 0, 0, 0, 0, 0, 1, 0, 7, 7]);
/// assert_eq!(read_lines_into(&line.repeat(2), &mut words), Err(Refusal::TableFull(Place::Line(2))));
/// # Ok::<(), Refusal>(())
/// ```
pub fn read_lines_into(lines: &[u8], words: &mut [u32]) -> Result<usize, Refusal> {
    let answer = ffi::read_lines(lines, words);
    Refusal::check(&answer, Place::Line)?;
    Ok(answer[2] as usize)
}

/// The line of this number, from 1, cut where it is long; a mark below what is wrong with it as a line of so many digits, and what that is.
/// `None` for a good line.
pub(crate) fn window(lines: &[u8], number: usize, digits: usize) -> Option<String> {
    let line = lines.split_inclusive(|&byte| byte == b'\n').nth(number.checked_sub(1)?)?;
    let (at, what) = flaw(line, digits)?;
    let line = line.strip_suffix(b"\n").unwrap_or(line);
    let shown = digits + BEYOND;
    let more = if line.len() > shown { "…" } else { "" };
    Some(format!("{}{more}\n{}^ {what}", hex::ascii(&line[..line.len().min(shown)]), " ".repeat(at)))
}

/// Where a line, given with its line feed, parts from the form of so many digits, and how.
fn flaw(line: &[u8], digits: usize) -> Option<(usize, String)> {
    let good = |line: &[u8]| line.iter().take_while(|byte| matches!(byte, b'0'..=b'9' | b'a'..=b'f')).count();
    let at = good(&line[..line.len().min(digits)]);
    let what = match line.get(at) {
        Some(b'\n') if at == digits => return None,
        Some(b'\n') if at == OLD_DIGITS => format!("{at} digits of {digits}: eight words, as lines had before parents were added"),
        Some(b'\n') => format!("the line ends after {at} of {digits} digits"),
        Some(b'\r') => "a carriage return".to_owned(),
        Some(b' ') => "a blank".to_owned(),
        Some(_) if at == digits && line.len() == LINE && line.ends_with(b"\n") && good(line) == DIGITS => {
            format!("{DIGITS} digits for {digits}: nine words, as lines have since parents were added")
        }
        Some(_) if at == digits => format!("the line goes on after {digits} digits"),
        Some(b'A'..=b'F') => "a capital".to_owned(),
        Some(byte) => format!("no digit (byte {byte:02X})"),
        None if at == digits => "no line feed".to_owned(),
        None => format!("the lines end after {at} of {digits} digits"),
    };
    Some((at, what))
}
