//! The layout of the pocket edition's form, by hand.
use tikfazrul::{read, Kind, Node};

pub fn string(text: &str) -> Vec<u8> {
    [&u16::try_from(text.len()).unwrap().to_le_bytes()[..], text.as_bytes()].concat()
}

fn counted(count: usize, elements: Vec<u8>) -> Vec<u8> {
    [&u32::try_from(count).unwrap().to_le_bytes()[..], &elements].concat()
}

/// A payload in the pocket edition's form.
fn payload(node: &Node) -> Vec<u8> {
    let children = |of: fn(&Node) -> Vec<u8>| node.children().flat_map(|child| of(&child)).collect::<Vec<u8>>();
    match node.kind() {
        Kind::Byte => node.as_i8().unwrap().to_le_bytes().to_vec(),
        Kind::Short => node.as_i16().unwrap().to_le_bytes().to_vec(),
        Kind::Int => node.as_i32().unwrap().to_le_bytes().to_vec(),
        Kind::Long => node.as_i64().unwrap().to_le_bytes().to_vec(),
        Kind::Float => node.as_f32().unwrap().to_bits().to_le_bytes().to_vec(),
        Kind::Double => node.as_f64().unwrap().to_bits().to_le_bytes().to_vec(),
        Kind::ByteArray => counted(node.len(), node.byte_array().unwrap().flat_map(i8::to_le_bytes).collect()),
        Kind::IntArray => counted(node.len(), node.int_array().unwrap().flat_map(i32::to_le_bytes).collect()),
        Kind::LongArray => counted(node.len(), node.long_array().unwrap().flat_map(i64::to_le_bytes).collect()),
        Kind::String => string(&node.as_str().unwrap()),
        Kind::List => [vec![node.list_kind().map_or(0, Kind::id)], counted(node.len(), children(payload))].concat(),
        Kind::Compound => [children(tag), vec![0]].concat(),
    }
}

fn tag(node: &Node) -> Vec<u8> {
    [vec![node.kind().id()], string(&node.name().unwrap()), payload(node)].concat()
}

/// A document in the pocket edition's form, with the values of one in Java's.
pub fn pocket(java: &[u8]) -> Vec<u8> {
    tag(&read(java).unwrap().root(java).unwrap())
}
