//! Bytes shown in hexadecimal.
use std::fmt::Write;
use std::ops::Range;

/// How many bytes a line shows.
pub const ACROSS: usize = 16;

/// One line: the offset, up to sixteen bytes, and the same in ASCII with a dot for what can't be shown.
///
/// ```
/// assert_eq!(tikfazrul::hex::line(&[0x0A, 0, 4, b't'], 32), "00000020  0A 00 04 74                                       |...t|");
/// ```
pub fn line(bytes: &[u8], offset: usize) -> String {
    let bytes = &bytes[..bytes.len().min(ACROSS)];
    let mut shown = format!("{offset:08X} ");
    for column in 0..ACROSS {
        if column == ACROSS / 2 {
            shown.push(' ');
        }
        match bytes.get(column) {
            Some(byte) => write!(shown, " {byte:02X}").expect("a String takes all"),
            None => shown.push_str("   "),
        }
    }
    format!("{shown}  |{}|", ascii(bytes))
}

/// Bytes in ASCII, with a dot for what can't be shown.
pub(crate) fn ascii(bytes: &[u8]) -> String {
    bytes.iter().map(|&b| if (0x20..0x7F).contains(&b) { b as char } else { '.' }).collect()
}

/// All the bytes, a line for each sixteen; no line for none.
pub fn dump(bytes: &[u8]) -> impl Iterator<Item = String> + '_ {
    bytes.chunks(ACROSS).enumerate().map(|(n, chunk)| line(chunk, n * ACROSS))
}

/// The line of bytes that `at` lies in, with the ones before and after, and a mark below the byte. `at` may be the bytes' length, where
/// they end too early, or beyond.
pub fn window(bytes: &[u8], at: usize) -> String {
    let at = at.min(bytes.len());
    window_of(bytes, at..at + 1)
}

/// The same of several bytes, which may stand on more than one line: a mark below each.
///
/// ```
/// assert_eq!(tikfazrul::hex::window_of(b"S2B \xE2\x82 and more of it", 4..6), "\
/// 00000000  53 32 42 20 E2 82 20 61  6E 64 20 6D 6F 72 65 20  |S2B .. and more |
///                       ^^ ^^
/// 00000010  6F 66 20 69 74                                    |of it|");
/// ```
pub fn window_of(bytes: &[u8], span: Range<usize>) -> String {
    let start = span.start.min(bytes.len());
    // at the least one mark, which may stand behind the last byte
    let end = span.end.min(bytes.len()).max(start + 1);
    let marked = start / ACROSS..=(end - 1) / ACROSS;
    let mut lines = Vec::new();
    for row in marked.start().saturating_sub(1)..=marked.end() + 1 {
        let first = row * ACROSS;
        // an empty line is shown only where the mark needs it
        if first < bytes.len() || marked.contains(&row) {
            lines.push(line(&bytes[first.min(bytes.len())..], first));
        }
        if marked.contains(&row) {
            lines.push(marks(start.max(first) - first..(end - first).min(ACROSS)));
        }
    }
    lines.join("\n")
}

fn marks(columns: Range<usize>) -> String {
    let mut shown = String::new();
    for column in columns {
        let before = "00000000  ".len() + 3 * column + usize::from(column >= ACROSS / 2);
        shown = format!("{shown:before$}^^");
    }
    shown
}

#[cfg(test)]
mod tests {
    use super::*;

    /// Where the mark stands, and what it marks.
    fn marked(bytes: &[u8], at: usize) -> String {
        let shown = window(bytes, at);
        let lines: Vec<&str> = shown.lines().collect();
        let mark = lines.iter().position(|l| l.ends_with('^')).expect("a mark");
        let column = lines[mark].len() - 2;
        lines[mark - 1][column..column + 2].to_owned()
    }

    #[test]
    fn the_mark_is_below_its_byte() {
        let bytes: Vec<u8> = (0..=255).collect();
        for at in 0..256 {
            assert_eq!(marked(&bytes, at), format!("{at:02X}"));
        }
    }

    /// The bytes above the marks, as they are shown.
    fn all_marked(bytes: &[u8], span: Range<usize>) -> String {
        let shown = window_of(bytes, span);
        let lines: Vec<&str> = shown.lines().collect();
        let above = |pair: &[&str]| -> String {
            let row = pair[0].chars().chain(std::iter::repeat(' '));
            row.zip(pair[1].chars()).filter(|&(_, mark)| mark == '^').map(|(shown, _)| shown).collect()
        };
        lines.windows(2).filter(|pair| pair[1].ends_with('^')).map(above).collect()
    }

    #[test]
    fn each_byte_of_a_span_has_its_mark() {
        let bytes: Vec<u8> = (0..=255).collect();
        for start in 0..256usize {
            for length in 1..40usize.min(257 - start) {
                let wanted: String = bytes[start..start + length].iter().map(|byte| format!("{byte:02X}")).collect();
                assert_eq!(all_marked(&bytes, start..start + length), wanted);
            }
            assert_eq!(all_marked(&bytes, start..start), format!("{start:02X}"));
        }
    }

    #[test]
    fn a_span_across_two_lines_has_a_mark_line_below_each() {
        let wanted = "\
00000010  10 11 12 13 14 15 16 17  18 19 1A 1B 1C 1D 1E 1F  |................|
00000020  20 21 22 23 24 25 26 27  28 29 2A 2B 2C 2D 2E 2F  | !\"#$%&'()*+,-./|
                                                     ^^ ^^
00000030  30 31 32 33 34 35 36 37  38 39 3A 3B 3C 3D 3E 3F  |0123456789:;<=>?|
          ^^
00000040  40 41 42                                          |@AB|";
        let bytes: Vec<u8> = (0..0x43).collect();
        assert_eq!(window_of(&bytes, 0x2E..0x31), wanted);
        // no more is marked than there is
        assert_eq!(window_of(&bytes[..0x2F], 0x2E..0x31), window(&bytes[..0x2F], 0x2E));
        assert_eq!(window_of(&bytes, 0x50..0x60), window(&bytes, 0x43));
    }

    #[test]
    fn a_place_past_the_end_is_marked_behind_the_last_byte() {
        for length in 0..40usize {
            let bytes = vec![0xAA; length];
            assert_eq!(marked(&bytes, length), "  ", "{length}");
            assert_eq!(window(&bytes, length + 100), window(&bytes, length));
        }
    }

    #[test]
    fn lines_around_the_place_are_shown() {
        let bytes = [7; 64];
        let count = |at| window(&bytes, at).lines().count();
        assert_eq!((count(0), count(16), count(63)), (3, 4, 3));
        assert_eq!(dump(&bytes[..33]).count(), 3);
        assert_eq!(dump(&[]).count(), 0);
    }
}
