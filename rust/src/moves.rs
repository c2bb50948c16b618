//! Tables that were kept before records had a parent, brought along, and back.
// 02, [8]
use crate::ffi::{self, Answer};
use crate::lines::{LINE, OLD_DIGITS};
use crate::refusal::{Place, Refusal};
use crate::table::MAX_RECORDS;

/// The bytes of a line that was kept before records had a parent: the digits of its eight words and a line feed.
pub const OLD_LINE: usize = OLD_DIGITS + 1;

/// Moves lines of eight words, as they were kept before records had a parent, to lines of nine: the same records, each with the number of
/// its parent, which is worked out. These are the lines that [`Table::to_lines`](crate::Table::to_lines) makes of that table, and
/// [`lines_down`] gives the first ones back. `doc_len` is the length of the document that the table is of. Refused with 9 where there are
/// more than [`MAX_RECORDS`] lines or the document is over [`MAX_DOCUMENT`](crate::MAX_DOCUMENT), 29 at the first line that is not
/// [`OLD_LINE`] bytes of that form, so also at one of nine words, and 10 where the words form no table over such a document; no lines form
/// none.
///
/// ```
/// use tikfazrul::{lines_up, read, Place, Refusal};
/// let old = b"0000000a00000003000000010000000000000000000000010000000000000002\n\
///             0000000100000007000000010000000800000001000000000000000000000002\n";
/// let new = lines_up(old, 10)?;
/// assert_eq!(new, read(b"\x0A\0\x01a\x01\0\x01b\xFF\0")?.to_lines(10)?);
/// assert_eq!(lines_up(&new, 10), Err(Refusal::BadOldLine(Place::Line(1))));
/// assert_eq!(lines_up(old, 8), Err(Refusal::NoTable(Place::Whole)));
/// # Ok::<(), Refusal>(())
/// ```
pub fn lines_up(lines: &[u8], doc_len: usize) -> Result<Vec<u8>, Refusal> {
    // never short (13): lines that are accepted are OLD_LINE bytes each
    let mut out = vec![0; (lines.len() / OLD_LINE).min(MAX_RECORDS) * LINE];
    let length = lines_up_into(doc_len, lines, &mut out)?;
    out.truncate(length);
    Ok(out)
}

/// Moves lines of nine words back to lines of eight, for whoever reads no others: the parents are dropped, and [`lines_up`] gives the
/// first lines back. Refused as [`lines_up`] is, with 29 at the first line that is not [`LINE`] bytes of that form, so also at one of
/// eight words, and with 10 also where a record names a wrong parent.
///
/// ```
/// use tikfazrul::{lines_down, read, Place, Refusal, OLD_LINE};
/// let new = read(b"\x0A\0\0\0")?.to_lines(4)?;
/// let old = lines_down(&new, 4)?;
/// assert_eq!(old, b"0000000a00000003000000000000000000000000000000000000000000000001\n");
/// assert_eq!(old.len(), OLD_LINE);
/// assert_eq!(lines_down(&old, 4), Err(Refusal::BadLine(Place::Line(1))));
/// # Ok::<(), Refusal>(())
/// ```
pub fn lines_down(lines: &[u8], doc_len: usize) -> Result<Vec<u8>, Refusal> {
    // never short (13): lines that are accepted are LINE bytes each
    let mut out = vec![0; (lines.len() / LINE).min(MAX_RECORDS) * OLD_LINE];
    let length = lines_down_into(doc_len, lines, &mut out)?;
    out.truncate(length);
    Ok(out)
}

/// Moves lines of eight words to lines of nine, as [`lines_up`] does, into bytes that the caller lends, and says how many. Refused with 9,
/// 29 and 10 as there, and then with 13 where there is no room: the bytes are as they were.
///
/// ```
/// use tikfazrul::{lines_up_into, Place, Refusal, LINE};
/// let old = b"0000000a00000003000000000000000000000000000000000000000000000001\n";
/// let mut out = [0xAA; LINE + 1];
/// assert_eq!(lines_up_into(4, old, &mut out[..LINE - 1]), Err(Refusal::OutputFull(Place::Whole)));
/// assert_eq!(out, [0xAA; LINE + 1]);
/// assert_eq!(lines_up_into(4, old, &mut out)?, LINE);
/// assert!(out.starts_with(b"0000000a00000003") && out.ends_with(b"0000000100000000\n\xAA"));
/// # Ok::<(), Refusal>(())
/// ```
pub fn lines_up_into(doc_len: usize, lines: &[u8], out: &mut [u8]) -> Result<usize, Refusal> {
    moved(&ffi::lines_up(doc_len, lines, out)).map_err(|refusal| match refusal {
        // a bad line is told by the width that was asked for
        Refusal::BadLine(place) => Refusal::BadOldLine(place),
        refusal => refusal,
    })
}

/// Moves lines of nine words back to lines of eight, as [`lines_down`] does, into bytes that the caller lends, and says how many. Refused
/// with 9, 29 and 10 as there, and then with 13 where there is no room: the bytes are as they were.
///
/// ```
/// use tikfazrul::{lines_down_into, OLD_LINE};
/// let new = b"0000000a0000000300000000000000000000000000000000000000000000000100000000\n";
/// let mut out = [0xAA; OLD_LINE + 1];
/// assert_eq!(lines_down_into(4, new, &mut out)?, OLD_LINE);
/// assert!(out.starts_with(b"0000000a00000003") && out.ends_with(b"0000000000000001\n\xAA"));
/// # Ok::<(), tikfazrul::Refusal>(())
/// ```
pub fn lines_down_into(doc_len: usize, lines: &[u8], out: &mut [u8]) -> Result<usize, Refusal> {
    moved(&ffi::lines_down(doc_len, lines, out))
}

/// The bytes that a move has written. 29 is a line's; every other refusal is the whole's.
fn moved(answer: &Answer) -> Result<usize, Refusal> {
    let place: fn(usize) -> Place = if answer[0] == 29 { Place::Line } else { |_| Place::Whole };
    Refusal::check(answer, place)?;
    Ok(answer[2] as usize)
}
