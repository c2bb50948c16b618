//! NBT read, written, asked and parsed from text by a proved library.
//!
//! Every answer comes from `libnbt.a`, whose functions are proved to answer as its rules say on every input, to touch no memory that they
//! weren't lent, and to return. This crate wraps its C calls: the one module with `unsafe` is `ffi`, and nothing here crashes on any
//! input, on a stack of 256 KiB or more; a document 512 deep takes some 165 KB of it. (A thread of Rust's has 2 MiB unless told otherwise.)
//! [`parse`] takes a thread of its own for the stack of a long or deep text, and panics where the system gives none.
//!
//! ```
//! use tikfazrul::{read, Kind, Query};
//!
//! let doc = b"\x0A\0\x04tile\x08\0\x07SceneId\0\x03S2B\x03\0\x09OriginLon\x02\xEA\xF2\xC0\0";
//! let table = read(doc)?;
//! let root = table.root(doc)?;
//! assert_eq!(root.get("SceneId").unwrap().as_str().unwrap(), "S2B");
//! assert_eq!(root.get("OriginLon").unwrap().as_i32(), Some(48_952_000));
//!
//! let query: Query = "root/**/OriginLon".parse()?;
//! for node in table.find(doc, &query)? {
//!     assert_eq!((node.kind(), node.path().as_str()), (Kind::Int, "root/OriginLon"));
//!     assert_eq!(node.parent().unwrap().name().unwrap(), "tile");
//! }
//! # Ok::<(), Box<dyn std::error::Error>>(())
//! ```
//!
//! A refusal says what and where, and can show the bytes:
//!
//! ```
//! let doc = b"\x0A\0\0\x01\0\x01b\x01\x01\0\x01b\x02\0";
//! let refusal = tikfazrul::read(doc).unwrap_err();
//! assert_eq!(refusal.to_string(), "a name stands twice in one compound, at byte 8, the later entry (refusal 6)");
//! assert_eq!(refusal.window(doc).unwrap(), "\
//! 00000000  0A 00 00 01 00 01 62 01  01 00 01 62 02 00        |......b....b..|
//!                                    ^^");
//! ```
//!
//! Of a name or a string that can't be read (4) the place is where the first sequence begins that is no character, and [`Refusal::broken`]
//! tells which tag it is:
//!
//! ```
//! let doc = b"\x0A\0\x04tile\x08\0\x07SceneId\0\x06S2B \xE2\x82\0";
//! let refusal = tikfazrul::read(doc).unwrap_err();
//! assert_eq!(refusal.place(), tikfazrul::Place::Byte(23));
//! assert_eq!(refusal.broken(doc).unwrap().path, "root/SceneId");
//! ```
//!
//! A document that was cut in transfer is refused with 1; [`rescue()`] makes a whole one of what came:
//!
//! ```
//! let cut = b"\x0A\0\x04tile\x08\0\x07SceneId\0\x03S2B\x03\0\x09Origin";
//! let rescued = tikfazrul::rescue(cut)?;
//! assert_eq!(rescued.document, b"\x0A\0\x04tile\x08\0\x07SceneId\0\x03S2B\0");
//! # Ok::<(), tikfazrul::Refusal>(())
//! ```
//!
//! A table can be kept as lines of hexadecimal ([`Table::to_lines`]), so that a document that is asked every night is read once:
//!
//! ```
//! use tikfazrul::{read, Table};
//!
//! let doc = b"\x0A\0\x01a\x01\0\x01b\xFF\0";
//! let lines = read(doc)?.to_lines(doc.len())?;
//! let table = Table::from_lines(&lines, doc.len())?;
//! assert_eq!(table.root(doc)?.get("b").unwrap().as_i8(), Some(-1));
//! # Ok::<(), tikfazrul::Refusal>(())
//! ```
//!
//! Lines that were kept before records had a parent are brought along by [`lines_up`], and [`lines_down`] makes such lines for whoever stays
//! behind:
//!
//! ```
//! use tikfazrul::{lines_down, lines_up, read};
//!
//! let doc = b"\x0A\0\x01a\x01\0\x01b\xFF\0";
//! let lines = read(doc)?.to_lines(doc.len())?;
//! let old = lines_down(&lines, doc.len())?;
//! assert_eq!(lines_up(&old, doc.len())?, lines);
//! # Ok::<(), tikfazrul::Refusal>(())
//! ```
//!
//! Documents of the pocket edition, with little-endian numbers and strings in UTF-8, are read by [`read_in`] with their [`Form`]; the table
//! remembers it, and what is written, asked and walked follows:
//!
//! ```
//! use tikfazrul::{read_in, write, Form};
//!
//! let doc = b"\x0A\x04\0tile\x03\x09\0OriginLon\xC0\xF2\xEA\x02\0";
//! let mut table = read_in(Form::Pocket, doc)?;
//! assert_eq!(table.root(doc)?.get("OriginLon").unwrap().as_i32(), Some(48_952_000));
//! assert_eq!(write(doc, &mut table)?, doc);
//! # Ok::<(), tikfazrul::Refusal>(())
//! ```
//!
//! [`convert`] takes a document from one form into the other with all values kept, and [`write_in`] does so with a table that is there:
//!
//! ```
//! use tikfazrul::{convert, Form};
//!
//! let pocket = b"\x0A\x04\0tile\x03\x09\0OriginLon\xC0\xF2\xEA\x02\0";
//! let java = convert(Form::Pocket, Form::Java, pocket)?;
//! assert_eq!(java, b"\x0A\0\x04tile\x03\0\x09OriginLon\x02\xEA\xF2\xC0\0");
//! assert_eq!(convert(Form::Java, Form::Pocket, &java)?, pocket);
//! # Ok::<(), tikfazrul::Refusal>(())
//! ```
//!
//! # Coming from quartz_nbt
//!
//! | there | here |
//! |---|---|
//! | `io::read_nbt` | [`read`]; the root's name is [`Node::name`] of [`Table::root`] |
//! | `io::write_nbt` | [`write()`] |
//! | `NbtTag` | [`Node`], a view of a record; [`Kind`] names its variants |
//! | `NbtTag::Int(n)`, `i32::try_from(tag)` | [`Node::as_i32`] and its like |
//! | `NbtCompound::get`, `contains_key`, `len`, `inner().iter()` | [`Node::get`], [`Node::contains_key`], [`Node::len`], [`Node::children`] |
//! | `NbtList::get` | [`Node::element`] |
//! | `NbtIoError`, `ParserErrorType` | [`Refusal`]: `MissingRootTag`, `InvalidTagId`, `NonHomogenousList`, `UnmatchedQuote`, … mean the same |
//! | `snbt::parse_and_size` | [`parse`] |
#![deny(unsafe_code, missing_docs)]

mod broken;
mod ffi;
mod form;
pub mod hex;
mod lines;
mod moves;
pub mod mutf8;
mod node;
mod path;
mod refusal;
mod rescue;
mod table;
mod text;

pub use broken::{Broken, Part};
pub use form::{check_string, Form};
pub use lines::{lines_into, read_lines_into, LINE};
pub use moves::{lines_down, lines_down_into, lines_up, lines_up_into, OLD_LINE};
pub use node::{Children, Kind, Link, Node, Trail, Walk};
pub use path::{quoted, Fault, PathError, Query, MAX_NAME, MAX_STEPS};
pub use refusal::{Place, Refusal};
pub use rescue::{rescue, rescue_in, rescue_in_into, rescue_into, Change, Rescued, Saved, CHANGE, MAX_DEPTH};
pub use table::{
    convert, query, query_into, read, read_in, read_in_into, read_into, write, write_in, write_in_into, write_into, Read, Table,
    MAX_DOCUMENT, MAX_RECORDS, WORDS,
};
pub use text::{content, parse, token, Parsed, Stops, Token, TokenData, MAX_TEXT};
