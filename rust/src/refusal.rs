//! Why something is refused, and where.
use crate::ffi::Answer;
use crate::form::Form;
use crate::{broken, hex, lines};
use std::fmt;
use std::ops::Range;

/// What a place counts.
#[derive(Clone, Copy, Debug, PartialEq, Eq, Hash)]
pub enum Place {
    /// A byte of the document, from 0.
    Byte(usize),
    /// A record of the table, from 0.
    Record(usize),
    /// A byte of the document, in the name or the string of a record of the table, both from 0.
    In {
        /// The byte.
        byte: usize,
        /// The record.
        record: usize,
    },
    /// A byte of the query, from 0.
    Query(usize),
    /// A byte of the text, from 0.
    Text(usize),
    /// A line of a table's lines, from 1.
    Line(usize),
    /// The whole input: no one place is at fault.
    Whole,
}

impl Place {
    /// The place as a bare number, as the library gives it: the byte where a record stands beside it, 0 for the whole.
    pub fn number(self) -> usize {
        match self {
            Place::Byte(n) | Place::Record(n) | Place::Query(n) | Place::Text(n) | Place::Line(n) => n,
            Place::In { byte, .. } => byte,
            Place::Whole => 0,
        }
    }

    /// The same place where so many other bytes stand before the document: a byte of it is counted from the first of those on.
    fn behind(self, bytes: usize) -> Place {
        match self {
            Place::Byte(n) => Place::Byte(n + bytes),
            Place::In { byte, record } => Place::In { byte: byte + bytes, record },
            other => other,
        }
    }

    /// The record that it is, or in which it is.
    ///
    /// ```
    /// use tikfazrul::Place;
    /// assert_eq!(Place::In { byte: 23, record: 1 }.record(), Some(1));
    /// assert_eq!(Place::Byte(23).record(), None);
    /// ```
    pub fn record(self) -> Option<usize> {
        match self {
            Place::Record(record) | Place::In { record, .. } => Some(record),
            _ => None,
        }
    }
}

impl fmt::Display for Place {
    fn fmt(&self, f: &mut fmt::Formatter) -> fmt::Result {
        match self {
            Place::Byte(n) => write!(f, "at byte {n}"),
            Place::Record(n) => write!(f, "at record {n}"),
            Place::In { byte, record } => write!(f, "at byte {byte}, in record {record}"),
            Place::Query(n) => write!(f, "at byte {n} of the query"),
            Place::Text(n) => write!(f, "at byte {n} of the text"),
            Place::Line(n) => write!(f, "at line {n}"),
            Place::Whole => write!(f, "as a whole"),
        }
    }
}

/// Writes the enum, its numbers and its words from one table, so that they can't part.
macro_rules! refusals {
    ($($number:literal $case:ident $what:literal, $byte:literal;)*) => {
        /// Why a call is refused: a case for each number of the library, with the place.
        #[derive(Clone, Copy, Debug, PartialEq, Eq, Hash)]
        #[non_exhaustive]
        pub enum Refusal {
            $(#[doc = concat!($number, ": ", $what, ".")] $case(Place),)*
            /// 24: there are more matches than the list has room for. The true number of them.
            MoreMatches(usize),
            /// 24: more containers are open than the list of changes has room for. The true number of them.
            MoreChanges(usize),
            /// 4 in the pocket edition's form: a string is not UTF-8.
            InvalidPocketString(Place),
            /// 12 where a document in the pocket edition's form is written in Java's: a name or string would have more than 65,535 bytes there.
            StringTooLongInJava(Place),
            /// 29 where lines of eight words are asked for: a line is not 64 digits (0 to 9, a to f) and a line feed.
            BadOldLine(Place),
            /// A number that the library does not give.
            Unknown(u64, Place),
        }

        impl Refusal {
            /// The library's number of this refusal.
            pub fn number(&self) -> u64 {
                match self {
                    $(Refusal::$case(_) => $number,)*
                    Refusal::MoreMatches(_) | Refusal::MoreChanges(_) => 24,
                    Refusal::InvalidPocketString(_) => 4,
                    Refusal::StringTooLongInJava(_) => 12,
                    Refusal::BadOldLine(_) => 29,
                    Refusal::Unknown(number, _) => *number,
                }
            }

            /// Where it is.
            pub fn place(&self) -> Place {
                match self {
                    $(Refusal::$case(place) => *place,)*
                    Refusal::MoreMatches(_) | Refusal::MoreChanges(_) => Place::Whole,
                    Refusal::InvalidPocketString(place)
                    | Refusal::StringTooLongInJava(place)
                    | Refusal::BadOldLine(place)
                    | Refusal::Unknown(_, place) => *place,
                }
            }

            /// What is wrong, in plain words and without the place.
            pub fn what(&self) -> &'static str {
                match self {
                    $(Refusal::$case(_) => $what,)*
                    Refusal::MoreMatches(_) => "there are more matches than the list has room for",
                    Refusal::MoreChanges(_) => "more containers are open than the list of changes has room for",
                    Refusal::InvalidPocketString(_) => "a string is not UTF-8",
                    Refusal::StringTooLongInJava(_) => "a name or string would have more than 65,535 bytes in Java's form",
                    Refusal::BadOldLine(_) => "a line is not 64 digits (0 to 9, a to f) and a line feed",
                    Refusal::Unknown(..) => "the library gave a number that this wrapper does not know",
                }
            }

            /// What stands at the place, where that is a byte of a document; empty where nothing is to be added.
            fn at_byte(&self) -> &'static str {
                match self {
                    $(Refusal::$case(_) => $byte,)*
                    Refusal::InvalidPocketString(place) => Refusal::InvalidString(*place).at_byte(),
                    _ => "",
                }
            }

            /// The same refusal of a document that stands in a file with so many other bytes before it: its place, where that is a byte, is
            /// counted from the file's first byte on.
            ///
            /// ```
            /// use tikfazrul::{Place, Refusal};
            /// assert_eq!(Refusal::DataEnds(Place::Byte(3)).behind(8), Refusal::DataEnds(Place::Byte(11)));
            /// ```
            pub fn behind(self, bytes: usize) -> Refusal {
                match self {
                    $(Refusal::$case(place) => Refusal::$case(place.behind(bytes)),)*
                    Refusal::InvalidPocketString(place) => Refusal::InvalidPocketString(place.behind(bytes)),
                    other => other,
                }
            }

            fn of(number: u64, place: Place) -> Refusal {
                match number {
                    $($number => Refusal::$case(place),)*
                    _ => Refusal::Unknown(number, place),
                }
            }
        }
    };
}

refusals! {
    1 DataEnds "the data ends before the document does", "where the field that is not whole begins";
    2 MissingRootTag "the root is no compound: a document begins with 0A", "";
    3 InvalidTagId "no tag has this id: ids are 1 to 12", "the id";
    4 InvalidString "a string is not modified UTF-8", "where the first sequence that can't be read begins";
    5 NegativeCount "a count is below 0", "where the count begins";
    6 RepeatedName "a name stands twice in one compound", "the later entry";
    7 TooDeep "lists and compounds are more than 512 deep", "where the payload of the innermost begins";
    8 TableFull "the table has no room for another record", "where that record's payload begins";
    9 OverLimit "the input is over a limit: a document has at most 16,777,216 bytes, a text 1,048,576, a table 1,048,576 records or lines", "";
    10 NoTable "the words form no table over this document", "";
    11 NonHomogenousList "a list holds tags of more than one kind", "";
    12 StringTooLong "a name or string has more than 65,535 bytes", "";
    13 OutputFull "the output has no room for all that is to be written", "";
    14 MalformedQuery "the query has a step that can't be read, or more than sixteen", "";
    15 NotUtf8 "the text is not UTF-8, or the start is within a character or past its end", "";
    16 UnmatchedQuote "a quote is opened and not closed", "";
    17 UnknownEscapeSequence "there is no such escape", "";
    18 InvalidNumber "a number can't be read", "";
    19 UnexpectedToken "something else is expected here", "";
    20 UnexpectedEos "the text ends where more is due", "";
    21 TrailingComma "nothing follows a comma", "";
    22 UnmatchedBrace "a brace or bracket is opened and not closed", "";
    23 UnheldDecimal "a decimal has more digits, or a larger exponent, than is read exactly", "";
    29 BadLine "a line is not 72 digits (0 to 9, a to f) and a line feed", "";
    31 NotCut "the document is whole: there is nothing to rescue", "";
    32 RootCut "the data ends in the root's id or name, and nothing can be rescued", "where the field that is not whole begins";
}

impl Refusal {
    /// The refusal that an answer holds, if it holds one. `place` says what the call's places count.
    pub(crate) fn check(answer: &Answer, place: impl Fn(usize) -> Place) -> Result<(), Refusal> {
        match answer[0] {
            0 => Ok(()),
            24 => Err(Refusal::MoreMatches(answer[2] as usize)),
            9 | 10 => Err(Refusal::of(answer[0], Place::Whole)),
            number => Err(Refusal::of(number, place(answer[1] as usize))),
        }
    }

    /// The same where a document, or a string, is in a form: of a string, 4 says by which rule it was judged.
    pub(crate) fn check_in(form: Form, answer: &Answer, place: impl Fn(usize) -> Place) -> Result<(), Refusal> {
        match (form, Refusal::check(answer, place)) {
            (Form::Pocket, Err(Refusal::InvalidString(place))) => Err(Refusal::InvalidPocketString(place)),
            (_, checked) => checked,
        }
    }

    /// The form whose rule a string breaks, where that is what is refused.
    pub(crate) fn broken_form(&self) -> Option<Form> {
        match self {
            Refusal::InvalidString(_) => Some(Form::Java),
            Refusal::InvalidPocketString(_) => Some(Form::Pocket),
            _ => None,
        }
    }

    /// The bytes around the place, in hexadecimal with a mark below the place, where the place is a byte of `bytes`: of the document, the
    /// query or the text that was refused. Where it is a line of `bytes`, that line, with a mark below what is wrong with it and words that
    /// say what. `None` where the place is a record or the whole, and where nothing is wrong with the line.
    ///
    /// ```
    /// let refusal = tikfazrul::read(b"\x0A\0\0\x0D\0\0").unwrap_err();
    /// assert_eq!(refusal.window(b"\x0A\0\0\x0D\0\0").unwrap(), "\
    /// 00000000  0A 00 00 0D 00 00                                 |......|
    ///                    ^^");
    /// ```
    ///
    /// Of a string that can't be read (4) the whole sequence is marked: its lead and the continuation bytes that belong to it. Where `bytes`
    /// is the document that [`read`](crate::read) or [`read_in`](crate::read_in) refused, it ends with the string at the latest; elsewhere
    /// with `bytes`, for a refusal does not know the string's length: [`Refusal::broken_in`] finds it in a table.
    ///
    /// ```
    /// let doc = b"\x0A\0\x08S2B \xE2\x82 x\0";
    /// let refusal = tikfazrul::read(doc).unwrap_err();
    /// assert_eq!(refusal.window(doc).unwrap(), "\
    /// 00000000  0A 00 08 53 32 42 20 E2  82 20 78 00              |...S2B .. x.|
    ///                                ^^  ^^");
    /// ```
    pub fn window(&self, bytes: &[u8]) -> Option<String> {
        match self.place() {
            Place::Line(number) => lines::window(bytes, number, self.digits()),
            _ => self.marked(bytes).map(|marked| hex::window_of(bytes, marked)),
        }
    }

    /// The bytes that [`Refusal::window`] marks, for whoever shows them otherwise: one, but of a string that can't be read the whole sequence.
    /// It may be the one behind the last. `None` where the place is no byte.
    ///
    /// ```
    /// let doc = b"\x0A\0\x08S2B \xE2\x82 x\0";
    /// assert_eq!(tikfazrul::read(doc).unwrap_err().marked(doc), Some(7..9));
    /// ```
    pub fn marked(&self, bytes: &[u8]) -> Option<Range<usize>> {
        match self.place() {
            Place::Byte(at) | Place::In { byte: at, .. } if self.broken_form().is_some() => Some(broken::sequence(self, bytes, at)),
            Place::Byte(at) | Place::In { byte: at, .. } | Place::Query(at) | Place::Text(at) => {
                let at = at.min(bytes.len());
                Some(at..at + 1)
            }
            Place::Line(_) | Place::Record(_) | Place::Whole => None,
        }
    }

    /// What would be taken in place of what was refused, in words, where the text around the place tells: inside an array of a text, which
    /// numbers that array takes.
    ///
    /// ```
    /// let refusal = tikfazrul::parse(b"{a:[L;1]}").unwrap_err();
    /// assert_eq!(refusal.hint(b"{a:[L;1]}").unwrap(), "an array [L;…] takes longs: write 1L");
    /// ```
    pub fn hint(&self, text: &[u8]) -> Option<&'static str> {
        let Refusal::NonHomogenousList(Place::Text(at)) = *self else {
            return None;
        };
        // what an array has before a token that it refuses is numbers and commas, so the nearest bracket is its own
        let before = text.get(..at)?;
        let opened = before.iter().rposition(|&b| b == b'[')?;
        let head = before[opened + 1..].trim_ascii_start();
        let rest = head.get(1..)?.trim_ascii_start().strip_prefix(b";")?;
        if !rest.iter().all(|b| b.is_ascii_alphanumeric() || b.is_ascii_whitespace() || b"+-.,".contains(b)) {
            return None;
        }
        match head[0] {
            b'B' => Some("an array [B;…] takes bytes, -128 to 127: write 1b"),
            b'I' => Some("an array [I;…] takes ints, -2147483648 to 2147483647: write 1"),
            b'L' => Some("an array [L;…] takes longs: write 1L"),
            _ => None,
        }
    }

    /// The digits of a line of the width that was asked for.
    fn digits(&self) -> usize {
        match self {
            Refusal::BadOldLine(_) => lines::OLD_DIGITS,
            _ => lines::DIGITS,
        }
    }
}

impl fmt::Display for Refusal {
    fn fmt(&self, f: &mut fmt::Formatter) -> fmt::Result {
        write!(f, "{}", self.what())?;
        if let Refusal::MoreMatches(count) | Refusal::MoreChanges(count) = self {
            write!(f, ": {count} in all")?;
        }
        if self.place() != Place::Whole {
            write!(f, ", {}", self.place())?;
        }
        if matches!(self.place(), Place::Byte(_) | Place::In { .. }) && !self.at_byte().is_empty() {
            write!(f, ", {}", self.at_byte())?;
        }
        write!(f, " (refusal {})", self.number())
    }
}

impl std::error::Error for Refusal {}

#[cfg(test)]
mod tests {
    use super::*;

    #[test]
    fn each_number_has_its_case() {
        for number in (1..=23).chain([29, 31, 32]) {
            let refusal = Refusal::of(number, Place::Byte(7));
            assert_eq!((refusal.number(), refusal.place()), (number, Place::Byte(7)));
            assert!(!matches!(refusal, Refusal::Unknown(..)), "{number}");
        }
        assert_eq!(Refusal::of(25, Place::Whole), Refusal::Unknown(25, Place::Whole));
    }

    #[test]
    fn the_words_say_what_and_where() {
        let twice = Refusal::RepeatedName(Place::Byte(23));
        assert_eq!(twice.to_string(), "a name stands twice in one compound, at byte 23, the later entry (refusal 6)");
        let record = Refusal::RepeatedName(Place::Record(2));
        assert_eq!(record.to_string(), "a name stands twice in one compound, at record 2 (refusal 6)");
        let broken = |place| Refusal::InvalidString(place).to_string();
        let words = "where the first sequence that can't be read begins (refusal 4)";
        assert_eq!(broken(Place::Byte(23)), format!("a string is not modified UTF-8, at byte 23, {words}"));
        assert_eq!(broken(Place::In { byte: 23, record: 1 }), format!("a string is not modified UTF-8, at byte 23, in record 1, {words}"));
        let line = Refusal::BadLine(Place::Line(3));
        assert_eq!(line.to_string(), "a line is not 72 digits (0 to 9, a to f) and a line feed, at line 3 (refusal 29)");
        let old = Refusal::BadOldLine(Place::Line(3));
        assert_eq!(old.to_string(), "a line is not 64 digits (0 to 9, a to f) and a line feed, at line 3 (refusal 29)");
        for line in [line, old] {
            assert!(line.what().contains(&format!(" {} digits ", line.digits())));
        }
        let long = Refusal::StringTooLong(Place::Record(2));
        assert_eq!(long.to_string(), "a name or string has more than 65,535 bytes, at record 2 (refusal 12)");
        let long = Refusal::StringTooLongInJava(Place::Record(2));
        assert_eq!((long.number(), long.place()), (12, Place::Record(2)));
        assert_eq!(long.to_string(), "a name or string would have more than 65,535 bytes in Java's form, at record 2 (refusal 12)");
        let full = Refusal::TableFull(Place::Line(3));
        assert_eq!(full.to_string(), "the table has no room for another record, at line 3 (refusal 8)");
        assert_eq!(Refusal::NoTable(Place::Whole).to_string(), "the words form no table over this document (refusal 10)");
        assert!(Refusal::MoreMatches(3).to_string().contains("3 in all"));
        assert!(Refusal::MoreChanges(3).to_string().contains("3 in all"));
    }

    #[test]
    fn a_string_says_by_which_form_it_was_judged() {
        let place = Place::In { byte: 23, record: 1 };
        let mut answer = [0; 8];
        (answer[0], answer[1]) = (4, 23);
        for (form, refusal) in [(Form::Java, Refusal::InvalidString(place)), (Form::Pocket, Refusal::InvalidPocketString(place))] {
            assert_eq!(Refusal::check_in(form, &answer, |byte| Place::In { byte, record: 1 }), Err(refusal));
            assert_eq!((refusal.number(), refusal.place(), refusal.broken_form()), (4, place, Some(form)));
            let words = "at byte 31, in record 1, where the first sequence that can't be read begins (refusal 4)";
            assert_eq!(refusal.behind(8).to_string(), format!("{}, {words}", refusal.what()));
        }
        // every other is the same in each form
        answer[0] = 6;
        assert_eq!(Refusal::check_in(Form::Pocket, &answer, Place::Byte), Err(Refusal::RepeatedName(Place::Byte(23))));
        assert_eq!(Refusal::RepeatedName(place).broken_form(), None);
    }

    #[test]
    fn only_bytes_of_the_document_are_counted_from_elsewhere() {
        for place in [Place::Record(3), Place::Query(3), Place::Text(3), Place::Line(3), Place::Whole] {
            assert_eq!(Refusal::RepeatedName(place).behind(8), Refusal::RepeatedName(place));
        }
        assert_eq!(Refusal::RepeatedName(Place::Byte(3)).behind(8), Refusal::RepeatedName(Place::Byte(11)));
        assert_eq!(Refusal::MoreMatches(3).behind(8), Refusal::MoreMatches(3));
        assert_eq!(Refusal::BadOldLine(Place::Line(3)).behind(8), Refusal::BadOldLine(Place::Line(3)));
    }

    #[test]
    fn an_array_says_which_numbers_it_takes() {
        let hint = |text: &str, at| Refusal::NonHomogenousList(Place::Text(at)).hint(text.as_bytes());
        assert!(hint("{a:[L;1]}", 6).unwrap().contains("1L"));
        assert!(hint("{a:[ B ; 1b, -2B,x]}", 17).unwrap().contains("bytes"));
        assert!(hint("{a:[I;1,2s]}", 8).unwrap().contains("ints"));
        for (text, at) in [("{a:[1,2b]}", 6), ("{a:[\"[L;\",1]}", 10), ("{a:[Q;1]}", 6), ("", 0), ("[", 1), ("[L", 2), ("[L;1]", 99)] {
            assert_eq!(hint(text, at), None, "{text}");
        }
        assert_eq!(Refusal::TrailingComma(Place::Text(6)).hint(b"{a:[L;1]}"), None);
    }

    #[test]
    fn a_record_and_the_whole_have_no_window() {
        assert_eq!(Refusal::RepeatedName(Place::Record(0)).window(b"abc"), None);
        assert_eq!(Refusal::NoTable(Place::Whole).window(b"abc"), None);
    }
}
