//! The proved library's entry points on slices: those of the Rust crate, with texts as text.
#[path = "../../rust/src/ffi.rs"]
mod ffi;

pub use ffi::{
    check_mutf8, check_utf8, convert, lines_down, lines_up, query, read, read_in, read_lines, rescue, write, write_in, write_lines, Answer,
};

/// The words of a record.
pub const WORDS: usize = 9;
/// The bytes of a record's line.
pub const LINE: usize = 8 * WORDS + 1;
/// The same before records had a parent.
pub const OLD_LINE: usize = LINE - 8;
/// The records that a table may have.
pub const MOST_RECORDS: usize = 1_048_576;
/// The bytes that a text may have.
pub const MOST_TEXT: usize = 1_048_576;

#[inline]
pub fn is_table(doc: &[u8], table: &[u32]) -> Answer {
    ffi::is_table(doc.len(), table)
}

#[inline]
pub fn token(text: &str, start: usize, stops: u32) -> Answer {
    ffi::token(text.as_bytes(), start, stops)
}

#[inline]
pub fn content(text: &str, start: usize, end: usize, quoted: bool, out: &mut [u8]) -> Answer {
    ffi::content(text.as_bytes(), start, end, quoted, out)
}

#[inline]
pub fn parse(text: &str, out: &mut [u8]) -> Answer {
    ffi::parse(text.as_bytes(), out)
}
