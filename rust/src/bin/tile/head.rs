//! The eight bytes that level files of the pocket edition have before the document.
// 02, [2]
use std::fmt;
use tikfazrul::{read_in, Form, Refusal};

/// How many bytes they are.
pub const HEAD: usize = 8;

/// A version and the document's length, both little-endian.
#[derive(Clone, Copy, Debug, PartialEq, Eq)]
pub struct Head {
    pub version: u32,
    pub length: u32,
    /// How many bytes follow.
    came: usize,
}

impl Head {
    /// What these bytes begin with, if it is such a head: its length is that of the rest, or more where the rest is a document that is cut.
    pub fn of(bytes: &[u8]) -> Option<Head> {
        let (version, rest) = bytes.split_first_chunk()?;
        let (length, document) = rest.split_first_chunk()?;
        let (version, length, came) = (u32::from_le_bytes(*version), u32::from_le_bytes(*length), document.len());
        // no document that has a tag in its root begins so: without 0A it is none, and 0A000000 is the whole of one
        let free = bytes[0] != 0x0A || version == 0x0A;
        let fits = length as usize == came || length as usize > came && is_cut(document);
        (free && came > 0 && fits).then_some(Head { version, length, came })
    }
}

fn is_cut(document: &[u8]) -> bool {
    matches!(read_in(Form::Pocket, document), Err(Refusal::DataEnds(_)))
}

impl fmt::Display for Head {
    fn fmt(&self, f: &mut fmt::Formatter) -> fmt::Result {
        write!(f, "{HEAD} bytes of a level file (version {}, length {}", self.version, self.length)?;
        if self.came < self.length as usize {
            write!(f, ", of which {} came", self.came)?;
        }
        write!(f, ")")
    }
}

#[cfg(test)]
mod tests {
    use super::*;

    /// A head of this version and length before a document.
    fn file(version: u32, length: u32, document: &[u8]) -> Vec<u8> {
        [&version.to_le_bytes()[..], &length.to_le_bytes(), document].concat()
    }

    /// The root t with the byte b in it.
    const TILE: &[u8] = b"\x0A\x01\0t\x01\x01\0b\x07\0";

    #[test]
    fn a_head_has_the_length_of_the_rest() {
        for version in [0, 1, 8, 9, 10, 11, 0x0102, 0x0A00, 0xFFFF_FFFF] {
            assert_eq!(Head::of(&file(version, 10, TILE)), Some(Head { version, length: 10, came: 10 }), "{version}");
            for other in [0, 9, 11, 18, 0x0A00_0000, u32::MAX] {
                assert_eq!(Head::of(&file(version, other, TILE)), None, "{version} {other}");
            }
        }
        // the length is the rest's whatever that is, but not of nothing
        assert_eq!(Head::of(&file(10, 3, b"abc")), Some(Head { version: 10, length: 3, came: 3 }));
        assert_eq!(Head::of(&file(10, 0, b"")), None);
        for few in 0..8 {
            assert_eq!(Head::of(&file(10, 10, TILE)[..few]), None);
        }
    }

    #[test]
    fn a_document_with_tags_is_no_head() {
        // an int of 2560, which cut anywhere leaves a root that is cut behind eight bytes
        let int = b"\x0A\0\0\x03\x01\0b\0\x0A\0\0\0".to_vec();
        // 1,789 bytes in a root whose name is 00 02, so that the length of the rest, 0x702, stands where a head has it
        let bytes = [&b"\x0A\x02\0\0\x02\x07\0\0\xFD\x06\0\0"[..], &[0; 1790]].concat();
        for document in [int, bytes, b"\x0A\0\0\x01\0\0\0\0".to_vec()] {
            assert_eq!(read_in(Form::Pocket, &document).unwrap().len(), 2);
            for length in 0..=document.len() {
                assert_eq!(Head::of(&document[..length]), None, "{length}");
            }
        }
        assert_eq!(Head::of(&file(0x010A, 10, TILE)), None);
    }

    #[test]
    fn a_cut_document_has_a_length_of_more() {
        for came in 1..TILE.len() {
            let head = Head::of(&file(10, 10, &TILE[..came])).unwrap();
            assert_eq!(head.to_string(), format!("8 bytes of a level file (version 10, length 10, of which {came} came)"));
            assert_eq!(Head::of(&file(10, 1, &TILE[..came])).is_some(), came == 1);
        }
        // refused for something else it is not cut
        assert_eq!(Head::of(&file(10, 10, b"\x0A\0\0\x0D\0\0")), None);
    }
}
