//! Documents with their tables: read, or taken from lines that were kept.
use crate::args::{is_text, Args, Command};
use crate::input::{self, Input, Trouble};
use crate::show;
use std::ffi::OsStr;
use tikfazrul::{lines_up, read_in, Broken, Form, Refusal, Table, WORDS};

/// A document with its table.
pub struct Loaded {
    pub input: Input,
    pub table: Table,
    /// What names the lines that the table comes from, or was compared with.
    pub lines: Option<String>,
}

impl Loaded {
    pub fn read(input: Input) -> Result<Loaded, Trouble> {
        match read_in(input.form, input.document()) {
            Ok(table) => Ok(Loaded { input, table, lines: None }),
            Err(refusal) => Err(Trouble::Refused(refusal, input)),
        }
    }

    /// What is refused of a table that was taken from lines is the lines' fault, but for a string that is too long in the form to be written.
    pub fn refused(&self, refusal: Refusal) -> Trouble {
        let before = self.input.before();
        match (&self.lines, refusal.broken_in(self.input.document(), &self.table)) {
            (_, Some(long)) if matches!(refusal, Refusal::StringTooLongInJava(_)) => {
                Trouble::Long(refusal, self.input.clone(), Box::new(long))
            }
            (Some(lines), Some(broken)) => {
                let broken = Broken { bytes: broken.bytes.start + before..broken.bytes.end + before, ..broken };
                Trouble::Unreadable(lines.clone(), refusal.behind(before), self.input.bytes.clone(), Box::new(broken))
            }
            (Some(lines), None) => Trouble::Lines(lines.clone(), refusal, Vec::new()),
            (None, _) => Trouble::Refused(refusal, self.input.clone()),
        }
    }
}

/// The document in a file with its table, from lines where these are to be taken. A check reads the document, and compares.
pub fn load(args: &Args, file: &OsStr) -> Result<Loaded, Trouble> {
    let input = document(args, file)?;
    let Some(kept) = args.lines_of(file) else {
        return Loaded::read(input);
    };
    let lines = Some(show::lines(&kept));
    if args.command == Command::Check {
        let loaded = Loaded::read(input)?;
        compare(&loaded, &kept)?;
        return Ok(Loaded { lines, ..loaded });
    }
    let table = table(&kept, &input)?;
    Ok(Loaded { input, table, lines })
}

/// A name that ends in .snbt is a text's, which makes a document in Java's form.
fn document(args: &Args, file: &OsStr) -> Result<Input, Trouble> {
    if !is_text(file) {
        return Ok(input::document(file)?.in_form(args.form));
    }
    let way_out = match args.command {
        Command::Write => "--pocket has no place beside it",
        Command::Convert => "tile text writes it",
        _ => "",
    };
    if args.form != Form::Java && !way_out.is_empty() {
        return Err(Trouble::Io(format!("is a text, which makes a document in Java's form: {way_out}")));
    }
    Ok(Input::plain(input::raw(file).and_then(parsed)?))
}

pub fn parsed(text: Vec<u8>) -> Result<Vec<u8>, Trouble> {
    match tikfazrul::parse(&text) {
        Ok(parsed) => Ok(parsed.document),
        Err(refusal) => Err(Trouble::Text(refusal, text)),
    }
}

/// The table that was kept in a file of lines.
fn table(kept: &OsStr, input: &Input) -> Result<Table, Trouble> {
    let lines = input::lines(kept).map_err(|error| Trouble::Io(format!("{} can't be read: {error}", show::lines(kept))))?;
    let length = input.document().len();
    Table::from_lines_in(input.form, &lines, length).map_err(|refusal| unfit(kept, refusal, lines, length))
}

/// Lines that are of no use for a document of so many bytes. Where a move of old ones would help, it is named.
fn unfit(kept: &OsStr, refusal: Refusal, lines: Vec<u8>, length: usize) -> Trouble {
    let name = show::lines(kept);
    // 02, [8]: not so of lines of both widths, nor of those that form no table
    if !matches!(refusal, Refusal::BadLine(_)) || lines_up(&lines, length).is_err() {
        return Trouble::Lines(name, refusal, lines);
    }
    let file = if kept == "-" { "-".to_owned() } else { show::name(kept) };
    Trouble::OldLines(name, refusal, lines, format!("tile lines --up --length {length} {file} -o …"))
}

/// Whether the table that was kept in a file of lines is the one that was read.
fn compare(loaded: &Loaded, kept: &OsStr) -> Result<(), Trouble> {
    let table = table(kept, &loaded.input)?;
    // tables of different lengths differ in their first records already, which say where the root ends
    let mut pairs = loaded.table.words().chunks(WORDS).zip(table.words().chunks(WORDS));
    match pairs.position(|(read, kept)| read != kept) {
        Some(record) => Err(Trouble::Foreign(show::lines(kept), record + 1)),
        None => Ok(()),
    }
}
