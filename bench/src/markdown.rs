//! Markdown on standard output, a row as soon as it is known.
use std::io::Write;

/// A line; where nobody reads on, nothing more is measured.
fn line(text: &str) {
    let mut out = std::io::stdout().lock();
    if writeln!(out, "{text}").and_then(|()| out.flush()).is_err() {
        std::process::exit(1);
    }
}

/// A heading, with the command that prints its section.
pub fn section(title: &str, name: &str) {
    line(&format!("\n## {title}: `bench/run {name}`"));
}

pub fn heading(title: &str) {
    line(&format!("\n## {title}"));
}

pub fn caption(text: &str) {
    line(&format!("\n{text}"));
}

pub fn head(columns: &[&str]) {
    line(&format!("\n| {} |\n|{}", columns.join(" | "), "---|".repeat(columns.len())));
}

pub fn row(cells: &[String]) {
    line(&format!("| {} |", cells.join(" | ")));
}

/// 1000000 as 1,000,000.
pub fn grouped(n: usize) -> String {
    let digits = n.to_string();
    let groups: Vec<&str> = digits.as_bytes().rchunks(3).rev().map(|c| std::str::from_utf8(c).unwrap()).collect();
    groups.join(",")
}
