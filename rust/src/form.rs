//! The forms that documents are in: the order of a number's bytes, and the rule that strings keep.
// 02, [2]
use crate::ffi;
use crate::mutf8;
use crate::refusal::{Place, Refusal};
use std::borrow::Cow;

/// The form that a document is in. Its tags are the same in each, and so is what the words of its table mean.
///
/// A table remembers the form that it was read in, and all that is done with it follows that: the values of its tags, what is written unless
/// [`write_in`](crate::write_in) is told otherwise, and the names that are looked for.
///
/// ```
/// use tikfazrul::{read, read_in, Form};
/// let java = b"\x0A\0\x01t\x03\0\x09OriginLon\x02\xEA\xF2\xC0\0";
/// let pocket = b"\x0A\x01\0t\x03\x09\0OriginLon\xC0\xF2\xEA\x02\0";
/// let (one, other) = (read(java)?, read_in(Form::Pocket, pocket)?);
/// assert_eq!((one.form(), other.form()), (Form::Java, Form::Pocket));
/// for root in [one.root(java)?, other.root(pocket)?] {
///     assert_eq!(root.get("OriginLon").unwrap().as_i32(), Some(48_952_000));
/// }
/// # Ok::<(), tikfazrul::Refusal>(())
/// ```
#[derive(Clone, Copy, Debug, Default, PartialEq, Eq, Hash)]
pub enum Form {
    /// Java's: numbers, counts and lengths big-endian, strings in modified UTF-8.
    #[default]
    Java,
    /// The pocket edition's: numbers, counts and lengths little-endian, strings in UTF-8.
    Pocket,
}

impl Form {
    /// The number that the library knows it by.
    pub(crate) fn number(self) -> u32 {
        match self {
            Form::Java => 0,
            Form::Pocket => 2,
        }
    }

    /// The text that a string of this form stands for, borrowed where it is the same bytes. Refused as by [`check_string`].
    ///
    /// ```
    /// use tikfazrul::Form;
    /// assert_eq!(Form::Java.decode(b"a\xC0\x80").unwrap(), "a\0");
    /// assert_eq!(Form::Pocket.decode(b"a\0").unwrap(), "a\0");
    /// ```
    pub fn decode(self, bytes: &[u8]) -> Result<Cow<'_, str>, Refusal> {
        match (self, std::str::from_utf8(bytes)) {
            (Form::Java, _) => mutf8::decode(bytes),
            (Form::Pocket, Ok(text)) => Ok(Cow::Borrowed(text)),
            (Form::Pocket, Err(error)) => Err(Refusal::InvalidPocketString(Place::Byte(error.valid_up_to()))),
        }
    }

    /// The string of this form that stands for a text, borrowed where it is the same bytes.
    ///
    /// ```
    /// use tikfazrul::Form;
    /// assert_eq!(&*Form::Java.encode("\u{1F600}"), b"\xED\xA0\xBD\xED\xB8\x80");
    /// assert_eq!(&*Form::Pocket.encode("\u{1F600}"), b"\xF0\x9F\x98\x80");
    /// ```
    pub fn encode(self, text: &str) -> Cow<'_, [u8]> {
        match self {
            Form::Java => mutf8::encode(text),
            Form::Pocket => Cow::Borrowed(text.as_bytes()),
        }
    }

    /// A number's bytes with the highest first, of such as a document has them; and the other way round.
    pub(crate) fn ordered<const N: usize>(self, mut bytes: [u8; N]) -> [u8; N] {
        if self == Form::Pocket {
            bytes.reverse();
        }
        bytes
    }
}

/// Whether bytes are a string of a form, by the proved library: modified UTF-8 in Java's, UTF-8 in the pocket edition's. Refused with 4, at the
/// place where the first sequence that can't be read begins.
///
/// ```
/// use tikfazrul::{check_string, Form, Place, Refusal};
/// assert_eq!(check_string(Form::Java, b"reef\xC0\x80"), Ok(()));
/// assert_eq!(check_string(Form::Java, b"reef\0"), Err(Refusal::InvalidString(Place::Byte(4))));
/// assert_eq!(check_string(Form::Pocket, b"reef\0"), Ok(()));
/// assert_eq!(check_string(Form::Pocket, b"reef\xC0\x80"), Err(Refusal::InvalidPocketString(Place::Byte(4))));
/// ```
pub fn check_string(form: Form, bytes: &[u8]) -> Result<(), Refusal> {
    Refusal::check_in(form, &ffi::check_string(form.number(), bytes), Place::Byte)
}
