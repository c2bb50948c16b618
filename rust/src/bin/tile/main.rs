//! tile: looks into NBT documents. `tile --help` teaches it.
mod args;
mod convert;
mod head;
mod input;
mod json;
mod load;
mod moves;
mod progress;
mod show;

use args::{Args, Command, Instead};
use input::{Input, Trouble};
use load::{load, Loaded};
use show::name;
use std::ffi::OsStr;
use std::io::{self, BufWriter, Write};
use std::path::Path;
use std::process::ExitCode;
use tikfazrul::{hex, rescue_in, Form, Node, Refusal, Rescued, Trail};

fn main() -> ExitCode {
    let args = match args::parse(std::env::args_os().skip(1)) {
        Ok(args) => args,
        Err(Instead::Say(words)) => {
            let _ = write!(io::stdout(), "{words}");
            return ExitCode::SUCCESS;
        }
        Err(Instead::Fault(words)) => {
            grumble(&format!("tile: {}", words.trim_end()));
            return ExitCode::from(2);
        }
    };
    let mut out = BufWriter::new(io::stdout().lock());
    let done = each(&args, &mut out).and_then(|status| out.flush().map(|()| status));
    match done {
        Ok(status) => ExitCode::from(status),
        // whoever read us wants no more: tile list … | head
        Err(error) if error.kind() == io::ErrorKind::BrokenPipe => ExitCode::SUCCESS,
        Err(error) => {
            grumble(&format!("tile: can't write: {error}"));
            ExitCode::from(2)
        }
    }
}

/// A line on standard error. If no one reads that, there is no one to tell.
fn grumble(words: &str) {
    let _ = writeln!(io::stderr(), "{words}");
}

/// Does what is asked to each file. The exit status: 0, 1 where something is refused, 2 where a file can't be read.
fn each(args: &Args, out: &mut dyn Write) -> io::Result<u8> {
    let mut progress = progress::Progress::new(args.files.len());
    let mut refused = 0;
    let mut status = 0;
    for (done, file) in args.files.iter().enumerate() {
        progress.step(done);
        let mut said = Vec::new();
        if let Err(trouble) = one(args, file, &mut said) {
            let unread = matches!(trouble, Trouble::Io(_));
            refused += usize::from(!unread);
            status = status.max(if unread { 2 } else { 1 });
            if let Some(words) = complaint(args, file, &trouble, &mut said)? {
                // what was said before stands before
                out.flush()?;
                progress.clear();
                grumble(&format!("tile: {words}"));
            }
        }
        progress.say(out, &said)?;
    }
    progress.clear();
    if args.command == Command::Check && args.files.len() > 1 && !args.json {
        out.flush()?;
        grumble(&format!("{} files, {refused} refused", args.files.len()));
    }
    Ok(status)
}

/// Why a file is of no use: said where the answers go if that is the answer, else handed back for standard error.
fn complaint(args: &Args, file: &OsStr, trouble: &Trouble, said: &mut Vec<u8>) -> io::Result<Option<String>> {
    if args.json {
        writeln!(said, "{}", json::file(&file.to_string_lossy(), false, &json::trouble(trouble)))?;
        return Ok(None);
    }
    let other = trouble.other_form();
    let hint = other.map_or(String::new(), |form| format!("\n{}", show::accepted_in(form, args.to.is_some())));
    let words = format!("{}: {}{hint}", name(file), show::trouble(trouble)).replace('\n', "\n  ");
    if args.command == Command::Check && !matches!(trouble, Trouble::Io(_)) {
        writeln!(said, "{words}")?;
        if other.is_none() && can_be_rescued(trouble) {
            let file = if file == "-" { "-".to_owned() } else { name(file) };
            let pocket = if args.form == Form::Pocket { "--pocket " } else { "" };
            writeln!(said, "  tile rescue {pocket}{file} -o … saves the tags that came whole")?;
        }
        return Ok(None);
    }
    Ok(Some(words))
}

fn can_be_rescued(trouble: &Trouble) -> bool {
    matches!(trouble, Trouble::Refused(Refusal::DataEnds(_), input) if rescue_in(input.form, input.document()).is_ok())
}

/// Does what is asked to one file.
fn one(args: &Args, file: &OsStr, said: &mut Vec<u8>) -> Result<(), Trouble> {
    over_itself(args, file)?;
    match args.command {
        Command::Hex => dump(args, &input::shown(file)?, said),
        Command::Text => save(args, file, &load::parsed(input::raw(file)?)?, said)?,
        Command::Write => make(args, file, again, said)?,
        Command::Convert => convert::bring(args, file, said)?,
        Command::Rescue => salvage(args, file, input::arrived(file)?.in_form(args.form), said)?,
        Command::Lines => match args.moving() {
            Some((way, length)) => moves::bring(args, file, way, length, said)?,
            None => make(args, file, lines, said)?,
        },
        Command::List | Command::Check | Command::Query => answer(args, file, &load(args, file)?, said)?,
    }
    Ok(())
}

/// Saves what is made of a document.
fn make(args: &Args, file: &OsStr, made: fn(&mut Loaded) -> Result<Vec<u8>, Trouble>, said: &mut Vec<u8>) -> Result<(), Trouble> {
    let mut loaded = load(args, file)?;
    save(args, file, &made(&mut loaded)?, said)?;
    passed_over(args, file, &loaded.input);
    Ok(())
}

fn again(loaded: &mut Loaded) -> Result<Vec<u8>, Trouble> {
    tikfazrul::write(loaded.input.document(), &mut loaded.table).map_err(|refusal| loaded.refused(refusal))
}

fn lines(loaded: &mut Loaded) -> Result<Vec<u8>, Trouble> {
    loaded.table.to_lines(loaded.input.document().len()).map_err(|refusal| loaded.refused(refusal))
}

/// Says on standard error that a level file's head was passed over, where no line about the file says so.
fn passed_over(args: &Args, file: &OsStr, input: &Input) {
    let more = match args.command {
        Command::Write => ", and not written",
        Command::Lines => ", and the lines count bytes from behind them on",
        _ => "",
    };
    if let Some(head) = input.head {
        grumble(&format!("{}: {}{more}", name(file), show::passed_over(head)));
    }
}

fn save(args: &Args, file: &OsStr, made: &[u8], said: &mut Vec<u8>) -> Result<(), Trouble> {
    match args.target(file) {
        Some(target) => std::fs::write(target, made).map_err(Trouble::unwritten)?,
        None => said.extend_from_slice(made),
    }
    Ok(())
}

/// Saves what came of a document that is cut, and says what was open. Of a whole one there is nothing to rescue, but where the gzip'd bytes
/// around it are cut.
fn salvage(args: &Args, file: &OsStr, input: Input, said: &mut Vec<u8>) -> Result<(), Trouble> {
    match rescue_in(input.form, input.document()) {
        Ok(rescued) => {
            save(args, file, &rescued.document, said)?;
            report(args, file, &input, (rescued.document.len(), rescued.table.len()), Some(&rescued), said)
        }
        Err(Refusal::NotCut(_)) if input.cut.is_some() => {
            let mut loaded = Loaded::read(input)?;
            let document = again(&mut loaded)?;
            save(args, file, &document, said)?;
            report(args, file, &loaded.input, (document.len(), loaded.table.len()), None, said)
        }
        Err(refusal) => Err(Trouble::Refused(refusal, input)),
    }
}

/// What is rescued or converted, and lines, never take the place of what they are made from; nothing takes that of the lines it is made from.
fn over_itself(args: &Args, file: &OsStr) -> Result<(), Trouble> {
    let real = |path: &Path| std::fs::canonicalize(path).ok();
    let Some(target) = args.target(file).and_then(|target| real(&target)) else {
        return Ok(());
    };
    if args.command.fills_folders() && real(Path::new(file)).as_ref() == Some(&target) {
        let way_out = if args.moving().is_some() { "; --in-place replaces it" } else { "" };
        return Err(Trouble::Io(format!("is not written over itself{way_out}")));
    }
    match args.lines_of(file).and_then(|lines| real(Path::new(&lines))) {
        Some(lines) if lines == target => Err(Trouble::Io("is not written over its lines".to_owned())),
        _ => Ok(()),
    }
}

/// Says what was saved, so many bytes and records: on standard error where the document itself is on standard output.
fn report(
    args: &Args,
    file: &OsStr,
    input: &Input,
    (bytes, records): (usize, usize),
    rescued: Option<&Rescued>,
    said: &mut Vec<u8>,
) -> Result<(), Trouble> {
    // what is whole in the other form was not cut
    let other = rescued.and_then(|_| input.other_form());
    if args.json {
        let size = format!("\"bytes\":{bytes},\"count\":{records},\"inflated\":{}", input.inflated);
        let more = format!("{}{size},{}{}", json::form(input), json::open(rescued), json::accepted_in(other));
        return writeln!(said, "{}", json::file(&file.to_string_lossy(), true, &more)).map_err(Trouble::unwritten);
    }
    let hint = other.map_or(String::new(), |form| format!("\n  {}", show::accepted_in(form, false)));
    let head = input.head.map_or(String::new(), |head| format!("; {}, and not written", show::passed_over(head)));
    let size = format!("{}{}{head}", show::size(bytes, records), show::gzip(input));
    let words = format!("{}: saved {size}; {}{hint}", name(file), show::open(rescued));
    match args.target(file) {
        Some(_) => writeln!(said, "{words}").map_err(Trouble::unwritten)?,
        None => grumble(&words),
    }
    Ok(())
}

fn dump(args: &Args, input: &Input, said: &mut Vec<u8>) {
    if args.line {
        said.extend(input.bytes.iter().flat_map(|byte| format!("{byte:02X}").into_bytes()));
        said.push(b'\n');
        return;
    }
    for line in hex::dump(&input.bytes) {
        said.extend(line.into_bytes());
        said.push(b'\n');
    }
}

/// A document that is accepted, and what was found in it.
struct Accepted<'a> {
    loaded: &'a Loaded,
    root: Node<'a>,
    found: Vec<(String, Node<'a>)>,
}

/// Says what is asked of a document that is accepted.
fn answer(args: &Args, file: &OsStr, loaded: &Loaded, said: &mut Vec<u8>) -> Result<(), Trouble> {
    let accepted = accepted(args, loaded).map_err(|refusal| loaded.refused(refusal))?;
    if args.command == Command::Query && !args.json {
        passed_over(args, file, &loaded.input);
    }
    let written = match args.json {
        true => writeln!(said, "{}", json::file(&file.to_string_lossy(), true, &object(args, &accepted))),
        false => words(args, file, &accepted, said),
    };
    written.map_err(Trouble::unwritten)
}

/// The root, and for a query the tags that match, with their paths.
fn accepted<'a>(args: &Args, loaded: &'a Loaded) -> Result<Accepted<'a>, Refusal> {
    let (bytes, table) = (loaded.input.document(), &loaded.table);
    let root = table.root(bytes)?;
    let found = if args.command == Command::Query { table.find(bytes, &args.query)? } else { Vec::new() };
    let mut trail = Trail::new();
    let found = found.into_iter().map(|node| (trail.step(&node).to_owned(), node)).collect();
    Ok(Accepted { loaded, root, found })
}

fn object(args: &Args, a: &Accepted) -> String {
    let Loaded { input, table, lines } = a.loaded;
    let from = format!("{}{}", json::form(input), if lines.is_some() { "\"lines\":true," } else { "" });
    // a root takes four bytes or more where it is read; lines don't say how many
    let bytes = if table.consumed() > 0 { format!("\"bytes\":{},", table.consumed()) } else { String::new() };
    let size = format!("{from}{bytes}\"count\":{},\"inflated\":{}", table.len(), input.inflated);
    match args.command {
        Command::List => format!("{size},{}", json::records(a.root)),
        Command::Query => {
            let matches: Vec<String> = a.found.iter().map(|(path, node)| json::node(node, path)).collect();
            format!("{from}\"matches\":[{}]", matches.join(","))
        }
        _ => size,
    }
}

/// How large a document is, and where its table comes from.
fn size(loaded: &Loaded) -> String {
    let Loaded { input, table, lines } = loaded;
    let head = input.head.map_or(String::new(), |head| format!("; {}", show::passed_over(head)));
    let gzip = show::gzip(input);
    // only a table that was read knows where the root ends, four bytes from the start or more
    if table.consumed() == 0 {
        return format!("{}, from lines{gzip}{head}", show::count(table.len()));
    }
    let more = match input.document().len() - table.consumed() {
        0 => String::new(),
        more if input.is_level_file() => format!("; {more} more after the root's end: with --pocket it is a level file"),
        more => format!("; {more} more after the root's end"),
    };
    let compared = if lines.is_some() { "; the lines are its own" } else { "" };
    format!("{}{gzip}{head}{more}{compared}", show::size(table.consumed(), table.len()))
}

fn words(args: &Args, file: &OsStr, a: &Accepted, said: &mut Vec<u8>) -> io::Result<()> {
    let size = size(a.loaded);
    match args.command {
        Command::Check => writeln!(said, "{}: accepted: {size}", name(file)),
        Command::Query => {
            if args.files.len() > 1 || a.found.is_empty() {
                writeln!(said, "{}: {} found", name(file), a.found.len())?;
            }
            show::matches(said, &a.found, args.full)
        }
        _ => {
            writeln!(said, "{}: {size}", name(file))?;
            show::tree(said, a.root, args.full)
        }
    }
}
