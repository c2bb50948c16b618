//! Asks quartz_nbt: reads questions from standard input, one a line, and prints one answer line each. `compare/ask` builds and runs it.
//!
//! | line | answer |
//! |---|---|
//! | `read HEX` | `ok CONSUMED TREE`, or `err VARIANT DETAIL PLACE` |
//! | `rewrite HEX` | `ok CONSUMED HEX` (read, then write_nbt with the root's name), or as `read` |
//! | `snbt HEX` | `ok SIZE HEXDOC` (parse_and_size, then write_nbt without a name), or `err KIND INDEX REACH` |
//! | `lex STOPS START HEX` | `tok KIND VALUE INDEX WIDTH NEXT`, `end NEXT`, or `err KIND INDEX REACH` |
//!
//! Also `panic MESSAGE`, `abort alloc`, `abort stack`, `bad hex`, `bad utf8`, `bad line`, `bad start`. The crate keeps no place for some
//! refusals: PLACE is worked out from the fields that it read, and within a string by the stand-in for cesu8; INDEX is `-` where there is
//! none; REACH is how far its lexer had come.
//! Two processes: a supervisor, and a worker with a large stack under a limit of memory; if that dies, the answer says so.
use quartz_nbt::{io, io::Flavor, io::NbtIoError, snbt, NbtCompound, NbtTag};
use std::{
    fmt::Write as _,
    io::{BufRead, BufReader, Read, Write},
    panic,
    process::{Child, ChildStdin, ChildStdout, Command, Stdio},
};

fn env_mb(name: &str, default: usize) -> usize {
    std::env::var(name).ok().and_then(|s| s.parse().ok()).unwrap_or(default) << 20
}

fn main() {
    if std::env::args().nth(1).as_deref() == Some("--worker") {
        worker()
    } else {
        supervisor()
    }
}

// ---------------------------------------------------------------- supervisor

struct Worker {
    child: Child,
    to: ChildStdin,
    from: BufReader<ChildStdout>,
}

impl Worker {
    fn start() -> Worker {
        let mut child = Command::new(std::env::current_exe().unwrap())
            .arg("--worker")
            .env("RUST_BACKTRACE", "0")
            .stdin(Stdio::piped())
            .stdout(Stdio::piped())
            .stderr(Stdio::piped())
            .spawn()
            .expect("cannot start worker");
        let to = child.stdin.take().unwrap();
        let from = BufReader::new(child.stdout.take().unwrap());
        Worker { child, to, from }
    }

    /// The answer, or why there is none.
    fn ask(&mut self, line: &str) -> Result<String, String> {
        let mut answer = String::new();
        let sent = self.to.write_all(line.as_bytes()).and_then(|_| self.to.write_all(b"\n"));
        if sent.is_ok() && self.from.read_line(&mut answer).is_ok() && answer.ends_with('\n') {
            answer.pop();
            return Ok(answer);
        }
        let mut log = String::new();
        let _ = self.child.stderr.take().unwrap().read_to_string(&mut log);
        let status = self.child.wait();
        Err(if log.contains("memory allocation of") {
            "abort alloc".into()
        } else if log.contains("overflowed its stack") {
            "abort stack".into()
        } else {
            format!("abort other {status:?}").replace('\n', " ")
        })
    }
}

fn supervisor() {
    let mut worker = Worker::start();
    let out = std::io::stdout();
    let mut out = std::io::BufWriter::new(out.lock());
    for line in std::io::stdin().lock().lines() {
        let line = line.expect("input is not UTF-8 lines");
        match worker.ask(&line) {
            Ok(answer) => writeln!(out, "{answer}").unwrap(),
            Err(why) => {
                writeln!(out, "{why}").unwrap();
                worker = Worker::start();
            }
        }
        if std::env::var_os("ORACLE_FLUSH").is_some() {
            out.flush().unwrap();
        }
    }
    drop(worker.to);
    let _ = worker.child.wait();
}

// -------------------------------------------------------------------- worker

fn worker() {
    let stack = env_mb("ORACLE_STACK_MB", 4096);
    let heap = env_mb("ORACLE_HEAP_MB", 2048);
    let limit = (stack + heap + (256 << 20)) as u64;
    let limit = libc::rlimit { rlim_cur: limit, rlim_max: limit };
    unsafe {
        libc::setrlimit(libc::RLIMIT_AS, &limit);
        let none = libc::rlimit { rlim_cur: 0, rlim_max: 0 };
        libc::setrlimit(libc::RLIMIT_CORE, &none);
    }
    panic::set_hook(Box::new(|_| {}));
    let job = || {
        let out = std::io::stdout();
        for line in std::io::stdin().lock().lines() {
            let line = match line {
                Ok(line) => line,
                Err(_) => break,
            };
            let answer = match panic::catch_unwind(|| answer(&line)) {
                Ok(answer) => answer,
                Err(what) => {
                    let text = what
                        .downcast_ref::<String>()
                        .cloned()
                        .or_else(|| what.downcast_ref::<&str>().map(|s| s.to_string()))
                        .unwrap_or_default();
                    let text: String =
                        text.chars().map(|c| if c.is_control() { ' ' } else { c }).take(200).collect();
                    format!("panic {text}").trim_end().to_string()
                }
            };
            let mut out = out.lock();
            if out.write_all(answer.as_bytes()).and_then(|_| out.write_all(b"\n")).and_then(|_| out.flush()).is_err() {
                break;
            }
        }
    };
    std::thread::Builder::new().stack_size(stack).spawn(job).unwrap().join().unwrap();
}

fn unhex(s: &str) -> Option<Vec<u8>> {
    let s = if s == "-" { "" } else { s };
    if s.len() % 2 != 0 || !s.is_ascii() {
        return None;
    }
    (0..s.len() / 2).map(|i| u8::from_str_radix(&s[2 * i..2 * i + 2], 16).ok()).collect()
}

fn hex_into(out: &mut String, b: &[u8]) {
    const D: &[u8; 16] = b"0123456789ABCDEF";
    for x in b {
        out.push(D[(x >> 4) as usize] as char);
        out.push(D[(x & 15) as usize] as char);
    }
}

fn hex(b: &[u8]) -> String {
    let mut s = String::with_capacity(2 * b.len());
    hex_into(&mut s, b);
    s
}

fn answer(line: &str) -> String {
    let mut words = line.split_ascii_whitespace();
    let command = words.next().unwrap_or("");
    let words: Vec<&str> = words.collect();
    let last = words.last().copied().unwrap_or("");
    let bytes = match unhex(last) {
        Some(b) => b,
        None => return "bad hex".into(),
    };
    match (command, words.len()) {
        ("read", 0 | 1) => match read(&bytes) {
            Ok((root, name, consumed)) => {
                let mut s = format!("ok {consumed} ");
                hex_into(&mut s, name.as_bytes());
                s.push('=');
                show_compound(&mut s, &root);
                s
            }
            Err(e) => e,
        },
        ("rewrite", 0 | 1) => match read(&bytes) {
            Ok((root, name, consumed)) => match write(Some(&name), &root) {
                Ok(out) => format!("ok {consumed} {}", hex(&out)),
                Err(e) => e,
            },
            Err(e) => e,
        },
        ("snbt", 0 | 1) => match std::str::from_utf8(&bytes) {
            Err(_) => "bad utf8".into(),
            Ok(text) => {
                // The public function first; the probe only tells more of an error.
                let public = snbt::parse_and_size(text);
                let probed = snbt::probe::parse_and_size(text);
                match (public, probed) {
                    (Ok((root, size)), Ok((root2, size2))) => {
                        assert!(size == size2, "probe differs");
                        drop(root2);
                        match write(None, &root) {
                            Ok(out) => format!("ok {size} {}", hex(&out)),
                            Err(e) => e,
                        }
                    }
                    (Err(_), Err(e)) => e,
                    _ => "probe differs".into(),
                }
            }
        },
        // lex STOPS START HEX
        ("lex", 2 | 3) => {
            let (stops, start) = (snbt::probe::stops(words[0]), words[1].parse::<usize>());
            let bytes = if words.len() == 3 { bytes } else { Vec::new() };
            match (stops, start, std::str::from_utf8(&bytes)) {
                (Some(stops), Ok(start), Ok(text)) => snbt::probe::lex(text, start, stops),
                (_, _, Err(_)) => "bad utf8".into(),
                _ => "bad line".into(),
            }
        }
        _ => "bad line".into(),
    }
}

// ------------------------------------------------------------ binary documents

/// A reader that remembers where its last three fields began; each field of the
/// crate's reader is one `read_exact`.
struct Fields<'a> {
    data: &'a [u8],
    at: usize,
    last: [(usize, usize); 3], // (start, length), newest first
}

impl Read for Fields<'_> {
    fn read(&mut self, buf: &mut [u8]) -> std::io::Result<usize> {
        let n = buf.len().min(self.data.len() - self.at);
        buf[..n].copy_from_slice(&self.data[self.at..self.at + n]);
        self.at += n;
        Ok(n)
    }

    fn read_exact(&mut self, buf: &mut [u8]) -> std::io::Result<()> {
        self.last = [(self.at, buf.len()), self.last[0], self.last[1]];
        if self.data.len() - self.at < buf.len() {
            return Err(std::io::ErrorKind::UnexpectedEof.into());
        }
        buf.copy_from_slice(&self.data[self.at..self.at + buf.len()]);
        self.at += buf.len();
        Ok(())
    }
}

fn read(bytes: &[u8]) -> Result<(NbtCompound, String, usize), String> {
    let mut r = Fields { data: bytes, at: 0, last: [(0, 0); 3] };
    match io::read_nbt(&mut r, Flavor::Uncompressed) {
        Ok((root, name)) => Ok((root, name, r.at)),
        Err(e) => Err(describe(&e, bytes, &r.last)),
    }
}

/// The length of the longest start of a string that the stand-in for cesu8 takes: there the first sequence that can't be read begins.
fn readable(s: &[u8]) -> usize {
    (0..=s.len()).rev().find(|&n| cesu8::from_java_cesu8(&s[..n]).is_ok()).unwrap()
}

/// `err VARIANT DETAIL PLACE`: PLACE is worked out from the fields read.
fn describe(e: &NbtIoError, data: &[u8], last: &[(usize, usize); 3]) -> String {
    match e {
        NbtIoError::StdIo(e) => format!("err StdIo {:?} {}", e.kind(), last[0].0),
        NbtIoError::InvalidCesu8String => {
            let (start, len) = last[0];
            format!("err InvalidCesu8String - {}", start + readable(&data[start..start + len]))
        }
        NbtIoError::TagTypeMismatch { found, .. } => format!("err TagTypeMismatch {found} {}", last[0].0),
        NbtIoError::InvalidTagId(id) => {
            // A list's id and count, or an entry's id, length and name.
            let place = if last[1].1 == 1 && last[0].1 == 4 { last[1].0 } else { last[2].0 };
            format!("err InvalidTagId {id} {place}")
        }
        e => format!("err {}", format!("{e:?}").replace('\n', " ")),
    }
}

fn write(name: Option<&str>, root: &NbtCompound) -> Result<Vec<u8>, String> {
    let mut out = Vec::new();
    match io::write_nbt(&mut out, name, root, Flavor::Uncompressed) {
        Ok(()) => Ok(out),
        Err(e) => Err(format!("err write {}", format!("{e:?}").replace('\n', " "))),
    }
}

fn show_compound(s: &mut String, c: &NbtCompound) {
    s.push('{');
    for (i, (name, tag)) in c.inner().iter().enumerate() {
        if i > 0 {
            s.push(',');
        }
        hex_into(s, name.as_bytes());
        s.push('=');
        show(s, tag);
    }
    s.push('}');
}

fn show(s: &mut String, tag: &NbtTag) {
    fn row<T: std::fmt::Display>(s: &mut String, letter: char, v: &[T]) {
        s.push(letter);
        s.push('[');
        for (i, x) in v.iter().enumerate() {
            if i > 0 {
                s.push(',');
            }
            write!(s, "{x}").unwrap();
        }
        s.push(']');
    }
    match tag {
        NbtTag::Byte(x) => write!(s, "b{x}").unwrap(),
        NbtTag::Short(x) => write!(s, "s{x}").unwrap(),
        NbtTag::Int(x) => write!(s, "i{x}").unwrap(),
        NbtTag::Long(x) => write!(s, "l{x}").unwrap(),
        NbtTag::Float(x) => write!(s, "f{:08X}", x.to_bits()).unwrap(),
        NbtTag::Double(x) => write!(s, "d{:016X}", x.to_bits()).unwrap(),
        NbtTag::ByteArray(v) => row(s, 'B', v),
        NbtTag::IntArray(v) => row(s, 'I', v),
        NbtTag::LongArray(v) => row(s, 'L', v),
        NbtTag::String(x) => {
            s.push('t');
            hex_into(s, x.as_bytes());
        }
        NbtTag::List(list) => {
            s.push('[');
            for (i, x) in list.iter().enumerate() {
                if i > 0 {
                    s.push(',');
                }
                show(s, x);
            }
            s.push(']');
        }
        NbtTag::Compound(c) => show_compound(s, c),
    }
}
