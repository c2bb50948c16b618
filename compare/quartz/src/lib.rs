//! quartz_nbt 0.2.9 as far as its source is at hand: io, raw, snbt and tag are the crate's own files, copied unchanged by build.rs. repr is a
//! stand-in, since the original is missing; the `compound!` macro and the serde half are left out.
#![allow(missing_docs, unexpected_cfgs, dead_code, unused)]

include!(concat!(env!("OUT_DIR"), "/modules.rs"));
mod repr;

pub use repr::*;
pub use tag::*;
