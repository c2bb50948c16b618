//! Modified UTF-8, in which documents hold names and strings, to and from UTF-8.
//!
//! It is UTF-8 but for two things: U+0000 is C0 80, and a character above U+FFFF is its two surrogates in three bytes each.
use crate::ffi;
use crate::refusal::{Place, Refusal};
use std::borrow::Cow;

/// Whether the bytes are modified UTF-8, by the proved library. The refusal's place is where the first sequence that can't be read begins.
///
/// ```
/// use tikfazrul::{mutf8, Place, Refusal};
/// assert_eq!(mutf8::check(b"reef \xED\xA0\xBD\xED\xB8\x80"), Ok(()));
/// assert_eq!(mutf8::check("reef \u{1F600}".as_bytes()), Err(Refusal::InvalidString(Place::Byte(5))));
/// ```
pub fn check(bytes: &[u8]) -> Result<(), Refusal> {
    Refusal::check(&ffi::check_mutf8(bytes), Place::Byte)
}

/// Whether the bytes are UTF-8, by the proved library.
///
/// ```
/// use tikfazrul::{mutf8, Place, Refusal};
/// assert_eq!(mutf8::check_utf8("reef \u{1F600}".as_bytes()), Ok(()));
/// assert_eq!(mutf8::check_utf8(b"a\xFF"), Err(Refusal::NotUtf8(Place::Byte(1))));
/// ```
pub fn check_utf8(bytes: &[u8]) -> Result<(), Refusal> {
    Refusal::check(&ffi::check_utf8(bytes), Place::Byte)
}

/// The text that modified UTF-8 stands for, borrowed where it is the same bytes. Refused as by [`check`].
///
/// ```
/// use tikfazrul::mutf8;
/// assert_eq!(mutf8::decode(b"a\xC0\x80b").unwrap(), "a\0b");
/// assert_eq!(mutf8::decode(b"\xED\xA0\xBD\xED\xB8\x80").unwrap(), "\u{1F600}");
/// ```
pub fn decode(bytes: &[u8]) -> Result<Cow<'_, str>, Refusal> {
    match std::str::from_utf8(bytes) {
        Ok(text) if same_in_both(text) => Ok(Cow::Borrowed(text)),
        _ => rewrite(bytes).map(Cow::Owned),
    }
}

/// The modified UTF-8 of a text, borrowed where it is the same bytes.
///
/// ```
/// use tikfazrul::mutf8;
/// assert_eq!(&*mutf8::encode("OriginLon"), b"OriginLon");
/// assert_eq!(&*mutf8::encode("\0\u{1F600}"), b"\xC0\x80\xED\xA0\xBD\xED\xB8\x80");
/// ```
pub fn encode(text: &str) -> Cow<'_, [u8]> {
    if same_in_both(text) {
        return Cow::Borrowed(text.as_bytes());
    }
    let mut bytes = Vec::with_capacity(text.len() + text.len() / 2);
    for unit in text.encode_utf16() {
        match unit {
            1..=0x7F => bytes.push(unit as u8),
            0 | 0x80..=0x7FF => bytes.extend([0xC0 | (unit >> 6) as u8, trail(unit)]),
            _ => bytes.extend([0xE0 | (unit >> 12) as u8, trail(unit >> 6), trail(unit)]),
        }
    }
    Cow::Owned(bytes)
}

/// Whether UTF-8 and modified UTF-8 write this text alike.
fn same_in_both(text: &str) -> bool {
    text.bytes().all(|byte| byte != 0 && byte < 0xF0)
}

fn trail(bits: u16) -> u8 {
    0x80 | (bits & 0x3F) as u8
}

fn rewrite(bytes: &[u8]) -> Result<String, Refusal> {
    let mut text = String::with_capacity(bytes.len());
    let mut at = 0;
    while at < bytes.len() {
        let (scalar, width) = scalar(&bytes[at..]).ok_or(Refusal::InvalidString(Place::Byte(at)))?;
        text.push(scalar);
        at += width;
    }
    Ok(text)
}

/// The first character and its width, if there is one: a unit that is no surrogate, or a high one and a low one.
fn scalar(bytes: &[u8]) -> Option<(char, usize)> {
    let (first, width) = unit(bytes)?;
    if !(0xD800..0xE000).contains(&first) {
        return Some((char::from_u32(first)?, width));
    }
    let (second, more) = unit(&bytes[width..])?;
    if first >= 0xDC00 || !(0xDC00..0xE000).contains(&second) {
        return None;
    }
    let scalar = 0x10000 + ((first - 0xD800) << 10) + (second - 0xDC00);
    Some((char::from_u32(scalar)?, width + more))
}

/// The first 16-bit unit and its width, in the one form that is allowed for it.
fn unit(bytes: &[u8]) -> Option<(u32, usize)> {
    let low = |n: usize| bytes.get(n).filter(|&&b| b & 0xC0 == 0x80).map(|&b| u32::from(b & 0x3F));
    let lead = u32::from(*bytes.first()?);
    match lead {
        0x01..=0x7F => Some((lead, 1)),
        0xC0..=0xDF => {
            let unit = (lead & 0x1F) << 6 | low(1)?;
            (unit == 0 || unit >= 0x80).then_some((unit, 2))
        }
        0xE0..=0xEF => {
            let unit = (lead & 0xF) << 12 | low(1)? << 6 | low(2)?;
            (unit >= 0x800).then_some((unit, 3))
        }
        _ => None,
    }
}
