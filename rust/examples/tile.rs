//! tile [--pocket] FILE…: lists the records of documents, in Java's form or the pocket edition's (02, [2]): record, kind, name, value.
//! examples/tile.c prints the same, character by character (tests/rust/run compares them). `cargo run --example tile ../samples/reef.nbt`
use std::process::ExitCode;
use tikfazrul::{read_in, Form, Kind, Node};

/// Bytes that ASCII can show as they are, others as \xNN.
fn shown(bytes: &[u8]) -> String {
    let one = |&b: &u8| match b {
        b'"' | b'\\' => format!("\\x{b:02X}"),
        0x20..=0x7E => (b as char).to_string(),
        _ => format!("\\x{b:02X}"),
    };
    format!("\"{}\"", bytes.iter().map(one).collect::<String>())
}

fn value(node: &Node) -> String {
    match node.kind() {
        Kind::Float => format!("{:.9}", node.as_f32().unwrap_or_default()),
        Kind::Double => format!("{:.9}", node.as_f64().unwrap_or_default()),
        Kind::String => shown(node.payload()),
        Kind::ByteArray | Kind::IntArray | Kind::LongArray => {
            let elements: Vec<String> = node.wholes().into_iter().flatten().map(|n| n.to_string()).collect();
            format!("[{}]", elements.join(", "))
        }
        Kind::List | Kind::Compound => node.len().to_string(),
        _ => node.as_whole().unwrap_or_default().to_string(),
    }
}

/// 0 if the document is accepted, 1 if it is refused, 2 if there is none.
fn list(name: &str, form: Form) -> u8 {
    let Ok(doc) = std::fs::read(name) else {
        eprintln!("{name}: can't be read");
        return 2;
    };
    let table = match read_in(form, &doc) {
        Ok(table) => table,
        Err(refusal) => {
            println!("{name} refused {} {}", refusal.number(), refusal.place().number());
            return 1;
        }
    };
    println!("{name} ok {} {}", table.consumed(), table.len());
    for (_, node) in table.root(&doc).expect("a table that was read").walk() {
        let name = node.name_bytes().map_or("-".to_owned(), shown);
        println!("{} {} {name} {}", node.record(), node.kind(), value(&node));
    }
    0
}

fn main() -> ExitCode {
    let mut names: Vec<String> = std::env::args().skip(1).collect();
    let form = if names.first().is_some_and(|name| name == "--pocket") { Form::Pocket } else { Form::Java };
    names.drain(..usize::from(form == Form::Pocket));
    ExitCode::from(names.iter().map(|name| list(name, form)).max().unwrap_or(0))
}
