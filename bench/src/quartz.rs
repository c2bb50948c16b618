//! The crate's two builds, which have the same names and different types. What they make is dropped within the time, as it must be some day.
use std::hint::black_box;
use std::io::Cursor;

macro_rules! build {
    ($map:ident, $quartz:ident) => {
        pub mod $map {
            use super::*;
            use $quartz::io::{read_nbt, write_nbt, Flavor};
            use $quartz::snbt::parse_and_size;

            /// Makes the tree of a document.
            pub fn read(doc: &[u8]) {
                drop(black_box(read_nbt(&mut Cursor::new(doc), Flavor::Uncompressed).unwrap()));
            }

            /// Writes the tree of a document, which is made here, at each call into the same memory.
            pub fn writer(doc: &[u8]) -> impl FnMut() {
                let (tree, name) = read_nbt(&mut Cursor::new(doc), Flavor::Uncompressed).unwrap();
                let (mut out, length): (Vec<u8>, usize) = (Vec::with_capacity(doc.len()), doc.len());
                move || {
                    out.clear();
                    write_nbt(&mut out, Some(&name), black_box(&tree), Flavor::Uncompressed).unwrap();
                    assert_eq!(black_box(&out).len(), length);
                }
            }

            /// Makes the tree of a text, all of which it is to take.
            pub fn parse(text: &str) {
                assert_eq!(black_box(parse_and_size(text).unwrap()).1, text.len());
            }
        }
    };
}

build!(hash, quartz_hash);
build!(index, quartz_index);

pub use quartz_hash::snbt::probe::walk;
