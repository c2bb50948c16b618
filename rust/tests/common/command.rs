//! The command `tile`, run on the samples.
use std::io::Write;
use std::path::PathBuf;
use std::process::{Command, Stdio};

pub fn samples() -> PathBuf {
    PathBuf::from(env!("CARGO_MANIFEST_DIR")).join("../samples")
}

pub fn sample(name: &str) -> Vec<u8> {
    std::fs::read(samples().join(name)).expect(name)
}

/// Standard output, standard error and status, in the samples folder and with these bytes on standard input.
pub fn fed(args: &[&str], input: &[u8]) -> (Vec<u8>, String, i32) {
    let mut tile = Command::new(env!("CARGO_BIN_EXE_tile"));
    let tile = tile.args(args).current_dir(samples()).stdin(Stdio::piped()).stdout(Stdio::piped()).stderr(Stdio::piped());
    let mut child = tile.spawn().expect("tile runs");
    child.stdin.take().expect("piped").write_all(input).expect("tile reads its input");
    let output = child.wait_with_output().expect("tile ends");
    (output.stdout, String::from_utf8(output.stderr).expect("UTF-8"), output.status.code().expect("a status"))
}

pub fn said(args: &[&str], input: &[u8]) -> (String, String, i32) {
    let (out, err, status) = fed(args, input);
    (String::from_utf8(out).expect("UTF-8"), err, status)
}

pub fn tile(args: &[&str]) -> (String, String, i32) {
    said(args, b"")
}
