//! The conversions of names against the proved library's own check.
use tikfazrul::{mutf8, Refusal};

/// Where each of the two finds a fault, if it does, and that what is accepted comes back.
fn agree(bytes: &[u8]) {
    let decoded = mutf8::decode(bytes);
    assert_eq!(decoded.as_ref().err(), mutf8::check(bytes).as_ref().err(), "{bytes:02X?}");
    if let Ok(text) = decoded {
        assert_eq!(&*mutf8::encode(&text), bytes, "{bytes:02X?}");
    }
}

#[test]
fn every_one_and_two_bytes() {
    agree(&[]);
    for first in 0..=255 {
        agree(&[first]);
        for second in 0..=255 {
            agree(&[first, second]);
        }
    }
}

/// Bytes at the edges of every range of the rule.
const EDGES: [u8; 24] = [
    0x00, 0x01, 0x41, 0x7F, 0x80, 0x81, 0x9F, 0xA0, 0xAF, 0xB0, 0xBF, 0xC0, 0xC1, 0xC2, 0xDF, 0xE0, 0xE1, 0xEC, 0xED, 0xEE, 0xEF, 0xF0,
    0xF4, 0xFF,
];

#[test]
fn up_to_four_bytes_at_the_edges() {
    for a in EDGES {
        for b in EDGES {
            for c in EDGES {
                agree(&[a, b, c]);
                EDGES.iter().for_each(|&d| agree(&[a, b, c, d]));
            }
        }
    }
}

#[test]
fn pairs_of_surrogates_and_halves() {
    for second in [0x9F, 0xA0, 0xAF, 0xB0, 0xBF] {
        for fifth in [0x9F, 0xA0, 0xAF, 0xB0, 0xBF] {
            for lead in [0xEC, 0xED, 0xEE] {
                agree(&[b'a', 0xED, second, 0x80, lead, fifth, 0xBF, b'z']);
                agree(&[b'a', 0xED, second, 0x80, lead, fifth]);
            }
        }
    }
}

#[test]
fn every_character_comes_back() {
    for c in (0..=0x10FFFF).filter_map(char::from_u32) {
        let text = c.to_string();
        let bytes = mutf8::encode(&text).into_owned();
        assert_eq!(mutf8::decode(&bytes).as_deref(), Ok(&*text));
        assert_eq!(mutf8::check(&bytes), Ok(()), "{c:?}");
    }
}

#[test]
fn plain_names_are_borrowed() {
    use std::borrow::Cow;
    assert!(matches!(mutf8::decode(b"OriginLon"), Ok(Cow::Borrowed(_))));
    assert!(matches!(mutf8::decode("Längengrad €".as_bytes()), Ok(Cow::Borrowed(_))));
    assert!(matches!(mutf8::decode(b"\xC0\x80"), Ok(Cow::Owned(_))));
    assert!(matches!(mutf8::decode(b"\xF0\x9F\x98\x80"), Err(Refusal::InvalidString(_))));
}
