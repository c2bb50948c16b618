//! Files and standard input, inflated where they are gzip'd.
use crate::args::other;
use crate::head::{Head, HEAD};
use std::ffi::OsStr;
use std::fs::File;
use std::io::{self, Read, Write};
use std::process::{Child, Command, Stdio};
use tikfazrul::{read_in, Broken, Form, Refusal, LINE, MAX_DOCUMENT, MAX_RECORDS};

/// Why there is no document to be had from a file.
pub enum Trouble {
    /// It can't be read, or what it makes can't be written: the words that say so.
    Io(String),
    /// It is compressed, and can't be inflated here: the words that say what to do.
    Packed(String),
    /// The library refuses the document in it; the place counts the document's bytes.
    Refused(Refusal, Input),
    /// The library refuses to write this name or string of the document in it, which is too long in the form to be written.
    Long(Refusal, Input, Box<Broken>),
    /// It is a level file of the pocket edition, and to be converted into that form.
    Level,
    /// The library refuses it as a text; with the bytes that the place counts.
    Text(Refusal, Vec<u8>),
    /// The library refuses these lines, or what is done with their table; with the bytes that the place counts.
    Lines(String, Refusal, Vec<u8>),
    /// The table of these lines has a name or a string that can't be read; with the file's bytes, which the place counts, and which it is.
    Unreadable(String, Refusal, Vec<u8>, Box<Broken>),
    /// These lines have eight words each, and the library can move them to nine; with the bytes that the place counts, and the command.
    OldLines(String, Refusal, Vec<u8>, String),
    /// The library refuses to move these lines; with their bytes, and how many the document is said to have.
    Unmoved(Refusal, Vec<u8>, usize),
    /// These lines are another document's: the first that differs, from 1.
    Foreign(String, usize),
}

impl Trouble {
    pub fn unread(error: io::Error) -> Trouble {
        Trouble::Io(format!("can't be read: {error}"))
    }

    pub fn unwritten(error: io::Error) -> Trouble {
        Trouble::Io(format!("can't be written: {error}"))
    }

    /// The other form, if the document that is refused is accepted in that.
    pub fn other_form(&self) -> Option<Form> {
        match self {
            // whole in one form, there is nothing to rescue in the other
            Trouble::Refused(Refusal::NotCut(_), _) => None,
            Trouble::Refused(_, input) => input.other_form(),
            _ => None,
        }
    }
}

/// What stands in a file.
#[derive(Clone)]
pub struct Input {
    pub bytes: Vec<u8>,
    pub inflated: bool,
    /// What gzip says where its bytes end too soon, and these are what came before.
    pub cut: Option<String>,
    /// The form that its document is in.
    pub form: Form,
    /// What stands before the document in a level file.
    pub head: Option<Head>,
}

impl Input {
    pub fn plain(bytes: Vec<u8>) -> Input {
        Input { bytes, inflated: false, cut: None, form: Form::Java, head: None }
    }

    fn unpacked(bytes: Vec<u8>, cut: Option<String>) -> Input {
        Input { inflated: true, cut, ..Input::plain(bytes) }
    }

    /// The same, with a document in that form.
    pub fn in_form(self, form: Form) -> Input {
        let head = self.head_in(form);
        Input { form, head, ..self }
    }

    fn head_in(&self, form: Form) -> Option<Head> {
        Some(form).filter(|&form| form == Form::Pocket).and_then(|_| Head::of(&self.bytes))
    }

    /// How many bytes stand before the document.
    pub fn before(&self) -> usize {
        self.head.map_or(0, |_| HEAD)
    }

    pub fn document(&self) -> &[u8] {
        &self.bytes[self.before()..]
    }

    /// The other form, if a document in that is accepted.
    pub fn other_form(&self) -> Option<Form> {
        // of a level file Java's form takes the version 10 alone, as a root without a tag
        if self.head.is_some() {
            return None;
        }
        let other = other(self.form);
        let before = self.head_in(other).map_or(0, |_| HEAD);
        read_in(other, &self.bytes[before..]).is_ok().then_some(other)
    }

    /// Whether it is taken for one of Java's form, and begins as a level file of the pocket edition does.
    pub fn is_level_file(&self) -> bool {
        self.form == Form::Java && self.head_in(Form::Pocket).is_some()
    }
}

/// A little over what any document has, so that a longer one is refused for its length without being held whole.
const ENOUGH: u64 = MAX_DOCUMENT as u64 + 65_536;

/// A byte more than any lines that are accepted have: longer ones are refused for what is in so many.
const ENOUGH_LINES: u64 = (LINE * MAX_RECORDS) as u64 + 1;

fn whole(file: &OsStr, most: u64) -> io::Result<Vec<u8>> {
    let mut bytes = Vec::new();
    if file == "-" {
        io::stdin().lock().take(most).read_to_end(&mut bytes)?;
    } else {
        File::open(file)?.take(most).read_to_end(&mut bytes)?;
    }
    Ok(bytes)
}

/// The bytes as they stand in the file.
pub fn raw(file: &OsStr) -> Result<Vec<u8>, Trouble> {
    whole(file, ENOUGH).map_err(Trouble::unread)
}

/// The lines that stand in a file.
pub fn lines(file: &OsStr) -> io::Result<Vec<u8>> {
    whole(file, ENOUGH_LINES)
}

/// All the bytes, inflated if that can be done.
pub fn shown(file: &OsStr) -> Result<Input, Trouble> {
    let bytes = whole(file, u64::MAX).map_err(Trouble::unread)?;
    match unpack(bytes.clone()) {
        Ok(input) if input.cut.is_none() => Ok(input),
        _ => Ok(Input::plain(bytes)),
    }
}

/// The document that stands in a file.
pub fn document(file: &OsStr) -> Result<Input, Trouble> {
    let input = arrived(file)?;
    match input.cut {
        Some(why) => Err(Trouble::Packed(format!("{}; `tile rescue` takes what can be inflated", not_whole(&why)))),
        None => Ok(input),
    }
}

/// What came of the document that stands in a file: of a gzip'd one that ends too soon, what can be inflated.
pub fn arrived(file: &OsStr) -> Result<Input, Trouble> {
    unpack(raw(file)?)
}

fn unpack(bytes: Vec<u8>) -> Result<Input, Trouble> {
    match bytes[..] {
        [0x1F, 0x8B, ..] => inflate(bytes),
        // no document begins with 78, so none is lost; the pair is a multiple of 31 in every zlib head
        [0x78, second, ..] if (0x7800 + u32::from(second)) % 31 == 0 => Err(Trouble::Packed(format!(
            "this is zlib data (78 {second:02X}), as region files hold it, and no document; inflate it first, for instance with \
             `pigz -dz` or `zlib-flate -uncompress`"
        ))),
        _ => Ok(Input::plain(bytes)),
    }
}

/// What the system's gzip makes of the bytes. It runs beside us, and so is fed by a thread of its own.
fn inflate(bytes: Vec<u8>) -> Result<Input, Trouble> {
    let gzip = Command::new("gzip").arg("-dc").stdin(Stdio::piped()).stdout(Stdio::piped()).stderr(Stdio::piped()).spawn();
    let mut gzip = gzip.map_err(|error| {
        Trouble::Packed(format!(
            "this is a gzip'd file (1F 8B), and the command gzip that would inflate it can't be run ({error}); install gzip, or \
             inflate the file by other means"
        ))
    })?;
    let mut feed = gzip.stdin.take().expect("it is piped");
    // gzip may stop reading before all is fed: it says why itself
    let feeder = std::thread::spawn(move || drop(feed.write_all(&bytes)));
    let result = collect(&mut gzip);
    // a second end does nothing
    let _ = gzip.kill();
    let _ = gzip.wait();
    let _ = feeder.join();
    result
}

fn collect(gzip: &mut Child) -> Result<Input, Trouble> {
    let mut bytes = Vec::new();
    let out = gzip.stdout.take().expect("it is piped");
    out.take(ENOUGH).read_to_end(&mut bytes).map_err(Trouble::unread)?;
    if bytes.len() as u64 == ENOUGH {
        // too long for any document: there is no need for the rest
        return Ok(Input::unpacked(bytes, None));
    }
    let mut said = String::new();
    let _ = gzip.stderr.take().expect("it is piped").take(4096).read_to_string(&mut said);
    let status = gzip.wait().map_err(Trouble::unread)?;
    // 2 is a warning: bytes that follow the gzip'd ones
    if matches!(status.code(), Some(0 | 2)) {
        return Ok(Input::unpacked(bytes, None));
    }
    let why = said.lines().map(str::trim).find(|line| !line.is_empty()).unwrap_or("no reason given").to_owned();
    // then gzip has put out all that it could inflate
    if why.ends_with("unexpected end of file") {
        return Ok(Input::unpacked(bytes, Some(why)));
    }
    Err(Trouble::Packed(not_whole(&why)))
}

fn not_whole(why: &str) -> String {
    format!("this is a gzip'd file (1F 8B) that can't be inflated whole: {why}")
}
