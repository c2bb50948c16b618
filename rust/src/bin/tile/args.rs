//! What the command line asks for.
use std::collections::HashSet;
use std::ffi::{OsStr, OsString};
use std::path::{Path, PathBuf};
use tikfazrul::{Form, Query};

#[derive(Clone, Copy, PartialEq, Eq)]
pub enum Command {
    List,
    Check,
    Query,
    Text,
    Write,
    Convert,
    Rescue,
    Lines,
    Hex,
}

/// Which way lines are moved: from eight words to nine, or back.
#[derive(Clone, Copy, PartialEq, Eq)]
pub enum Way {
    Up,
    Down,
}

pub struct Args {
    pub command: Command,
    pub query: Query,
    pub files: Vec<OsString>,
    pub out: Option<OsString>,
    pub lines: Option<OsString>,
    way: Option<Way>,
    length: Option<usize>,
    pub in_place: bool,
    /// The form that documents are in.
    pub form: Form,
    /// The form that they are converted into.
    pub to: Option<Form>,
    pub json: bool,
    pub full: bool,
    pub line: bool,
}

/// What to do instead of a command.
pub enum Instead {
    Say(String),
    Fault(String),
}

pub const HELP: &str = "\
tile: looks into NBT documents, with every answer from a proved library.

  tile list FILE…             every tag: record, kind, name, value
  tile check FILE…            accepted, or refused: what, where, and the bytes there
  tile query PATH FILE…       the tags that a path leads to
  tile text FILE -o FILE      a text (SNBT) made a document
  tile write FILE -o FILE     a document read and written again
  tile convert FILE… -o FILE  a document of Java's form in the pocket edition's (--to pocket), or the other way round (--to java)
  tile rescue FILE… -o FILE   a whole document of one that was cut in transfer
  tile lines FILE… [-o FILE]  the table as lines of digits, to be kept
  tile lines --up|--down …    lines that were kept before they named parents, brought along, or back
  tile hex FILE…              the bytes

  -o FILE       where to write; - is standard output; a folder holds what is rescued or converted, and lines, under the names of the files
  --lines FILE  lines that were kept, taken in place of reading the document (list, query, write, convert, lines), or compared with it
                (check); of a folder, its NAME.lines
  --pocket      documents are in the pocket edition's form: numbers little-endian, strings in UTF-8 (list, check, query, write, rescue,
                lines; convert --to java takes them so by itself); a level file's eight bytes before the document are passed over
  --to FORM     the form that documents are converted into, pocket or java; they are in the other (convert)
  --length N    how many bytes the document has that the lines to be moved are of (lines --up and --down)
  --in-place    the moved lines take the place of the old ones, in the same file (lines --up and --down)
  --json        one JSON object for each file, on a line of its own (list, check, query, convert, rescue)
  --full        strings and arrays whole, however long (list, query)
  --line        the bytes as one line of digits (hex)
  --help        this; tile COMMAND --help tells more

FILE is a document, a gzip'd document (the system's gzip inflates it), or a text if its name ends in .snbt; - is a document on standard
input. Exit status: 0 all is well, 1 something was refused, 2 a file could not be read or the command line is wrong.

Try, on the samples:

  tile list samples/reef.nbt
  tile check samples/*.nbt
  tile query 'root/Tiles[3]/**/SceneId' samples/mosaic.nbt
  tile list --pocket samples/pocket-reef.nbt
";

const ABOUT_LIST: &str = "\
tile list [--pocket] [--json] [--full] [--lines FILE] FILE…

Lists every tag in file order: its record in the table, its kind, its name (indented by level; [n] for a list's elements) and its value.
Names with blanks or other odd characters stand in quotes, as a path wants them. Long strings and arrays are cut unless --full is given.
With --json each has its path too, and the record of its parent: null for the root, which has none.
With --lines the table is not read but taken from lines, which must be the document's own: tile lines --help tells more.

  tile list samples/kinds.nbt
  tile list --json world/*.dat | jq '.records[] | select(.kind == \"Int\")'
";

const ABOUT_CHECK: &str = "\
tile check [--pocket] [--json] [--lines FILE] FILE…

Says of each file whether it is a lawful document, in Java's form or, with --pocket, in the pocket edition's: numbers, counts and lengths
little-endian, strings in UTF-8. Where it is refused in that form and accepted in the other, this is said too; with --json, accepted_in.

A refusal has a number, words, a place, and the bytes around the place with a mark below it. Of a name or a string that can't be read, all
bytes of the broken character are marked, and the path tells which it is; with --json, path, part (string, name or root name; a name has
the path of the compound that its entry stands in) and length. Places in gzip'd files count inflated bytes. Where the data ends too soon,
tile rescue saves what came. With --lines the document is read all the same, and refused too if the lines are not exactly those of its own
table. Exit status 1 if any file is refused.

Level files of the pocket edition have eight bytes before the document: a version and a length, both little-endian. With --pocket they are
passed over by each command, which says so, where the length is that of the rest, or more and the rest is cut. Places of refusals count
them: they are places in the file.

  tile check samples/second-origin.nbt
  tile check samples/broken-character.nbt
  tile check --pocket samples/pocket-*.nbt
  find world -name '*.dat' -print0 | xargs -0 tile check >report.txt
";

const ABOUT_QUERY: &str = "\
tile query [--pocket] [--json] [--full] [--lines FILE] PATH FILE…

Shows the tags that a path leads to, in file order, each with its own path, which tells what it sits in. A path begins at the root; its
steps are parted by /:

  SceneId       the entry of a compound so named; an odd name stands in \"quotes\" or 'quotes',
                with the escapes \\\\ \\\" \\' \\n \\r \\t \\uXXXX
  [3]           that element of a list, from 0
  *  or  [*]     any one child
  **            zero or more levels, whatever they are

The first step may be root, the root tag itself, whatever its name. Sixteen steps at the most. Array elements are not tags.
With --json each match has its record in the table too, and that of its parent: null for the root, which has none.
With --lines the table is not read but taken from lines, which must be the document's own: tile lines --help tells more.

  tile query 'Tiles[3]/Scene' samples/mosaic.nbt
  tile query 'root/**/SceneId' samples/*.nbt
  tile query --json '**/Clouds' samples/mosaic.nbt | jq '.matches[] | [.record, .parent]'
";

const ABOUT_TEXT: &str = "\
tile text FILE -o FILE

Makes a document of a text (SNBT), with an empty root name. Nothing is written if the text is refused.

  tile text samples/reef.snbt -o reef.nbt
  echo '{clouds: 7b}' | tile text - -o - | tile list -
";

const ABOUT_WRITE: &str = "\
tile write [--pocket] [--lines FILE] FILE -o FILE

Reads a document and writes it again, in the form that it is in: inflated, without bytes that follow the root or, in a level file, that
stand before it, with the id of empty lists 0. Nothing is written if the document is refused. With --lines the table is not read but taken
from lines, which must be the document's own: tile lines --help tells more.

  tile write samples/reef.nbt.gz -o reef.nbt
";

const ABOUT_CONVERT: &str = "\
tile convert --to pocket|java [--json] [--lines FILE] FILE… -o FILE

Writes a document in the other form with all values kept: with --to pocket one that is in Java's form, with --to java one that is in the
pocket edition's, for which --pocket need not be said. Integers stay the same integers, floats the same bits, and strings the same
characters, which may take more bytes or fewer: U+0000 is C0 80 in Java's form and 00 in the pocket edition's, a character above U+FFFF six
bytes and four. So a name or string of the pocket edition's form may be too long for Java's, over 65,535 bytes: it is refused with 12.

What is written is a document alone: inflated, without bytes that follow the root, with the id of empty lists 0, and without the eight
bytes that a level file has before its document. With --to java they are passed over; with --to pocket none are made. Nothing is written of
a document that is refused, or that is already in the form asked for: exit status 1. A text (.snbt) makes a document in Java's
form, so --to pocket takes it too. Several files are saved in a folder, under their own names without .gz, a text's ending in .nbt. With
--lines the table is not read but taken from lines, which must be the document's own: tile lines --help tells more.

  tile convert --to java samples/pocket-reef.nbt -o reef.nbt
  tile convert --to pocket world/*.dat -o pocket/
";

const ABOUT_RESCUE: &str = "\
tile rescue [--pocket] [--json] FILE… -o FILE

Makes a whole document of one that was cut in transfer, in the form that it is in and without a level file's eight bytes before it: with
every tag that came whole, in file order and with the value it had. Says which lists and compounds were open where the data ends, how many
elements a list promised, and how many children each has kept. Of a gzip'd file that is cut, what can be inflated is taken. Nothing is
written of a document that is whole, that is refused for anything else, or that ends before the root's name does: exit status 1. Several
files are saved in a folder, under their own names without .gz.

  tile rescue samples/cut-list.nbt -o saved.nbt
  tile rescue inbox/*.nbt.gz -o saved/
";

const ABOUT_LINES: &str = "\
tile lines [--pocket] [--lines FILE] FILE… [-o FILE]
tile lines --up|--down --length N FILE… [-o FILE | --in-place]

Writes a document's table as lines, to be kept: for each tag the nine words of its record, each as eight digits 0 to 9 and a to f, and a
line feed. They go to standard output unless -o says where. A folder holds them as NAME.lines, NAME being the file's own name without .gz;
several files want one. Nothing is written of a document that is refused, and nothing over the document itself. Lines don't tell the
document's form: where it is the pocket edition's, --pocket goes with them too. They count bytes of the document, so not a level file's
eight bytes before it.

With --lines, list, query, write, convert and lines take the table from such lines and do not read the document; of a folder, from its
NAME.lines. Lines that are bad, or that form no table over a document of this length, are refused: exit status 1. No more than that is
asked of them (rule 7: every name and payload lies in the document, and the records form a tree, in which each names its parent). So they
must be the document's own, as it is now; tile check --lines reads it, and tells whether they are. Lines of eight words, as they were
before they named parents, are bad: tile lines --up brings them along, and tile lines makes new ones of the document.

With --up or --down, FILE is no document but such lines. --up moves lines of eight words to lines of nine, with the parents worked out;
--down drops the parents, for whoever still reads eight words. Up and down again, or down and up, gives the first lines. --length N is how
many bytes the document has (inflated, if it is gzip'd), by which names and payloads are judged; it holds for every FILE. Lines of another
width than the one that is moved, or of both widths, and lines that form no table are refused, and nothing is written of them. The others
go to standard output or where -o says; a folder holds them under the files' own names. With --in-place each file is replaced by its moved
lines at one stroke, once they are written whole in a new file beside it; it keeps its owner and permissions. A file that is refused, or
whose lines can't be written, stays as it was.

  tile lines tiles/*.nbt -o kept/
  tile query --lines kept/ 'root/**/SceneId' tiles/*.nbt
  tile lines --up --length 110 samples/reef-old.lines
  tile lines --up --length $(wc -c <tiles/reef.nbt) kept/reef.nbt.lines --in-place
";

const ABOUT_HEX: &str = "\
tile hex [--line] FILE…

Shows the bytes, sixteen on a line, at the places that refusals speak of: gzip'd files are inflated first. With --line, all of them as one
line of digits, as ./run reads.

  tile hex samples/rare-name.nbt
";

impl Command {
    fn named(name: &str) -> Option<Command> {
        match name {
            "list" => Some(Command::List),
            "check" => Some(Command::Check),
            "query" => Some(Command::Query),
            "text" => Some(Command::Text),
            "write" => Some(Command::Write),
            "convert" => Some(Command::Convert),
            "rescue" => Some(Command::Rescue),
            "lines" => Some(Command::Lines),
            "hex" => Some(Command::Hex),
            _ => None,
        }
    }

    fn about(self) -> &'static str {
        match self {
            Command::List => ABOUT_LIST,
            Command::Check => ABOUT_CHECK,
            Command::Query => ABOUT_QUERY,
            Command::Text => ABOUT_TEXT,
            Command::Write => ABOUT_WRITE,
            Command::Convert => ABOUT_CONVERT,
            Command::Rescue => ABOUT_RESCUE,
            Command::Lines => ABOUT_LINES,
            Command::Hex => ABOUT_HEX,
        }
    }

    /// Whether it writes files.
    pub fn writes(self) -> bool {
        matches!(self, Command::Text | Command::Write) || self.fills_folders()
    }

    /// Whether it makes something of several files, in a folder.
    pub fn fills_folders(self) -> bool {
        matches!(self, Command::Convert | Command::Rescue | Command::Lines)
    }

    /// Whether it takes documents.
    fn takes_documents(self) -> bool {
        !matches!(self, Command::Text | Command::Hex)
    }

    /// Whether it can do with a table from lines.
    fn takes_lines(self) -> bool {
        !matches!(self, Command::Text | Command::Rescue | Command::Hex)
    }
}

fn fault<T>(words: String) -> Result<T, Instead> {
    Err(Instead::Fault(format!("{words}\ntile --help tells what there is")))
}

/// What the words after the program's name ask for.
pub fn parse(words: impl Iterator<Item = OsString>) -> Result<Args, Instead> {
    let mut words = words;
    let first = words.next().ok_or_else(|| Instead::Fault(HELP.to_owned()))?;
    let command = match first.to_str() {
        Some("--help" | "-h" | "help") => return Err(Instead::Say(HELP.to_owned())),
        Some("--version" | "-V") => return Err(Instead::Say(format!("tile {}\n", env!("CARGO_PKG_VERSION")))),
        Some(name) => Command::named(name),
        None => None,
    };
    let Some(command) = command else {
        return fault(format!("there is no command {}", first.to_string_lossy()));
    };
    let mut args = Args {
        command,
        query: Query::new(),
        files: Vec::new(),
        out: None,
        lines: None,
        way: None,
        length: None,
        in_place: false,
        form: Form::Java,
        to: None,
        json: false,
        full: false,
        line: false,
    };
    options(&mut args, words)?;
    conversion(&mut args)?;
    path(&mut args)?;
    complete(args)
}

/// Sorts the words into options and files.
fn options(args: &mut Args, mut words: impl Iterator<Item = OsString>) -> Result<(), Instead> {
    while let Some(word) = words.next() {
        match word.to_str() {
            Some("--") => args.files.extend(words.by_ref()),
            Some("--help" | "-h") => return Err(Instead::Say(args.command.about().to_owned())),
            Some("--json") => args.json = true,
            Some("--full") => args.full = true,
            Some("--line") => args.line = true,
            Some("--pocket") => args.form = Form::Pocket,
            Some("--to") => args.to = Some(form(words.next())?),
            Some("-o" | "--output") => args.out = Some(given(words.next(), "-o wants a file")?),
            Some("--up") => way(args, Way::Up)?,
            Some("--down") => way(args, Way::Down)?,
            Some("--length") => args.length = Some(length(words.next())?),
            Some("--in-place") => args.in_place = true,
            Some("--lines") => args.lines = Some(given(words.next(), "--lines wants a file or a folder")?),
            Some(option) if option.starts_with('-') && option != "-" => return fault(format!("there is no option {option}")),
            _ => args.files.push(word),
        }
    }
    Ok(())
}

fn given(word: Option<OsString>, wanted: &str) -> Result<OsString, Instead> {
    word.map_or_else(|| fault(wanted.to_owned()), Ok)
}

fn way(args: &mut Args, way: Way) -> Result<(), Instead> {
    if args.way.is_some_and(|other| other != way) {
        return fault("lines are moved --up or --down, not both".to_owned());
    }
    args.way = Some(way);
    Ok(())
}

/// A number of bytes. One that is beyond every limit is one all the same, and refused as such.
fn length(word: Option<OsString>) -> Result<usize, Instead> {
    match word.as_deref().and_then(OsStr::to_str) {
        Some(digits) if !digits.is_empty() && digits.bytes().all(|byte| byte.is_ascii_digit()) => Ok(digits.parse().unwrap_or(usize::MAX)),
        _ => fault("--length wants the number of bytes that the document has".to_owned()),
    }
}

/// A form by its name.
fn form(word: Option<OsString>) -> Result<Form, Instead> {
    match word.as_deref().and_then(OsStr::to_str) {
        Some("java") => Ok(Form::Java),
        Some("pocket") => Ok(Form::Pocket),
        _ => fault("--to wants a form: pocket or java".to_owned()),
    }
}

/// What is converted into one form is in the other.
fn conversion(args: &mut Args) -> Result<(), Instead> {
    match (args.command, args.to) {
        (Command::Convert, None) => fault("--to says which form is to be written: --to pocket or --to java".to_owned()),
        (Command::Convert, Some(Form::Pocket)) if args.form == Form::Pocket => fault(
            "--to pocket takes documents in Java's form, so --pocket has no place beside it: tile write --pocket writes one again"
                .to_owned(),
        ),
        (Command::Convert, Some(to)) => {
            args.form = other(to);
            Ok(())
        }
        (_, Some(_)) => fault("--to goes with convert".to_owned()),
        (_, None) => Ok(()),
    }
}

/// The other form.
pub fn other(form: Form) -> Form {
    match form {
        Form::Java => Form::Pocket,
        Form::Pocket => Form::Java,
    }
}

/// Takes a query's path from the front of the files.
fn path(args: &mut Args) -> Result<(), Instead> {
    if args.command != Command::Query {
        return Ok(());
    }
    if args.files.is_empty() {
        return fault("tile query wants a path and files".to_owned());
    }
    let path = args.files.remove(0);
    let Some(path) = path.to_str() else {
        return fault("the path is not UTF-8".to_owned());
    };
    match Query::parse_in(args.form, path) {
        Ok(query) => args.query = query,
        Err(error) => return Err(Instead::Fault(format!("the path can't be read: {error}"))),
    }
    Ok(())
}

impl Args {
    /// The folder that -o names, where what is made of several files goes.
    fn folder(&self) -> Option<&Path> {
        self.out.as_deref().filter(|_| self.command.fills_folders()).and_then(as_folder)
    }

    /// Where what is made of a file goes; `None` is standard output.
    pub fn target(&self, file: &OsStr) -> Option<PathBuf> {
        match (self.folder(), self.out.as_ref()?) {
            (Some(folder), _) => Some(folder.join(self.saved_name(file))),
            (None, out) => (out != "-").then(|| PathBuf::from(out)),
        }
    }

    /// Which way lines are to be moved, and the length of their document.
    pub fn moving(&self) -> Option<(Way, usize)> {
        Some((self.way?, self.length?))
    }

    /// The name that what is made of a file has in a folder.
    fn saved_name(&self, file: &OsStr) -> OsString {
        match self.command {
            Command::Lines if self.way.is_some() => Path::new(file).file_name().unwrap_or_default().to_owned(),
            Command::Lines => lines_name(file),
            Command::Convert if is_text(file) => Path::new(&own_name(file)).with_extension("nbt").into_os_string(),
            _ => own_name(file),
        }
    }

    /// Where the lines of a file are, if lines are to be taken.
    pub fn lines_of(&self, file: &OsStr) -> Option<OsString> {
        let lines = self.lines.as_ref()?;
        Some(as_folder(lines).map_or(lines.clone(), |folder| folder.join(lines_name(file)).into_os_string()))
    }
}

/// Whether a file is a text by its name.
pub fn is_text(file: &OsStr) -> bool {
    file.to_string_lossy().to_lowercase().ends_with(".snbt")
}

/// A folder that is there.
fn as_folder(name: &OsStr) -> Option<&Path> {
    Some(Path::new(name)).filter(|path| path.is_dir())
}

/// A file's own name, without .gz.
fn own_name(file: &OsStr) -> OsString {
    let path = Path::new(file);
    match path.extension() {
        Some(end) if end.eq_ignore_ascii_case("gz") => path.file_stem(),
        _ => path.file_name(),
    }
    .unwrap_or_default()
    .to_owned()
}

/// The name of a file's lines.
fn lines_name(file: &OsStr) -> OsString {
    let mut name = own_name(file);
    name.push(".lines");
    name
}

/// Whether what is no folder is enough: not for several files, and not under a name that ends as a folder's.
fn not_a_folder(option: &str, name: Option<&OsStr>, files: usize) -> Result<(), Instead> {
    match name {
        Some(name) if name.as_encoded_bytes().ends_with(b"/") => fault(format!("there is no folder {}", name.to_string_lossy())),
        _ if files > 1 => fault(format!("several files want a folder that is there: {option} FOLDER")),
        _ => Ok(()),
    }
}

/// Whether what is made of the files has places to go to, and each its own.
fn folder(args: &Args) -> Result<(), Instead> {
    if !args.command.fills_folders() || args.in_place {
        return Ok(());
    }
    if args.folder().is_none() {
        return not_a_folder("-o", args.out.as_deref(), args.files.len());
    }
    let mut names = HashSet::new();
    for file in &args.files {
        if file == "-" {
            return fault("standard input has no name to be saved under in a folder".to_owned());
        }
        if !names.insert(args.saved_name(file)) {
            return fault(format!("two files would be saved as {}", args.saved_name(file).to_string_lossy()));
        }
    }
    Ok(())
}

/// Whether the lines to be taken can be found.
fn lines(args: &Args) -> Result<(), Instead> {
    let Some(lines) = &args.lines else {
        return Ok(());
    };
    let fed = args.files.iter().any(|file| file == "-");
    match as_folder(lines) {
        Some(_) if fed => fault("standard input has no name to find lines by in a folder".to_owned()),
        Some(_) => Ok(()),
        None if fed && lines == "-" => fault("standard input is the document or its lines, not both".to_owned()),
        None => not_a_folder("--lines", Some(lines), args.files.len()),
    }
}

/// Whether lines are to be moved, and all is said that a move wants.
fn moves(args: &Args) -> Result<(), Instead> {
    let Some(way) = args.way else {
        return match (args.length, args.in_place) {
            (Some(_), _) => fault("--length goes with lines --up and lines --down".to_owned()),
            (None, true) => fault("--in-place goes with lines --up and lines --down".to_owned()),
            (None, false) => Ok(()),
        };
    };
    let way = if way == Way::Up { "--up" } else { "--down" };
    if args.command != Command::Lines {
        return fault(format!("{way} goes with lines"));
    }
    if args.lines.is_some() {
        return fault(format!("{way} takes each file itself as lines, so --lines has no place beside it"));
    }
    if args.form != Form::Java {
        return fault(format!("{way} takes lines, which are the same in each form, so --pocket has no place beside it"));
    }
    if args.length.is_none() {
        return fault(format!("{way} wants to know how many bytes the document has: --length N"));
    }
    in_place(args)
}

/// Whether the files can be replaced, if that is asked for.
fn in_place(args: &Args) -> Result<(), Instead> {
    if args.in_place && args.out.is_some() {
        return fault("the moved lines go into the same file (--in-place) or where -o says, not both".to_owned());
    }
    if args.in_place && args.files.iter().any(|file| file == "-") {
        return fault("standard input is no file that could be replaced: --in-place wants files".to_owned());
    }
    Ok(())
}

/// Whether -o is there where it must be, and only where it may.
fn output(args: &Args) -> Result<(), Instead> {
    let writes = args.command.writes();
    if writes && args.files.len() > 1 && !args.command.fills_folders() {
        return fault("one file at a time is written".to_owned());
    }
    if writes && args.out.is_none() && args.command != Command::Lines {
        return fault("-o FILE says where to write; -o - is standard output".to_owned());
    }
    if !writes && args.out.is_some() {
        return fault("-o goes with text, write, convert, rescue and lines alone".to_owned());
    }
    folder(args)
}

fn complete(args: Args) -> Result<Args, Instead> {
    if args.lines.is_some() && !args.command.takes_lines() {
        return fault("--lines goes with list, check, query, write, convert and lines".to_owned());
    }
    if args.form != Form::Java && !args.command.takes_documents() {
        return fault("--pocket goes with list, check, query, write, convert, rescue and lines".to_owned());
    }
    moves(&args)?;
    if args.files.is_empty() {
        return fault("no file is given; - is standard input".to_owned());
    }
    output(&args)?;
    lines(&args)?;
    if args.json && matches!(args.command, Command::Text | Command::Write | Command::Lines | Command::Hex) {
        return fault("--json goes with list, check, query, convert and rescue".to_owned());
    }
    if args.json && args.out.as_deref() == Some(OsStr::new("-")) {
        return fault("--json speaks on standard output, so -o wants a file".to_owned());
    }
    if args.full && !matches!(args.command, Command::List | Command::Query) {
        return fault("--full goes with list and query".to_owned());
    }
    if args.line && args.command != Command::Hex {
        return fault("--line goes with hex".to_owned());
    }
    Ok(args)
}
