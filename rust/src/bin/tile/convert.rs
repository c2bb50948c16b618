//! Documents of one form written in the other.
// 02, [2]
use crate::args::{other, Args};
use crate::head::HEAD;
use crate::input::Trouble;
use crate::load::{load, Loaded};
use crate::{grumble, json, save, show};
use std::ffi::OsStr;
use std::io::Write;
use tikfazrul::{write_in, Form};

/// Writes a document in the form that is asked for, and says so.
pub fn bring(args: &Args, file: &OsStr, said: &mut Vec<u8>) -> Result<(), Trouble> {
    let to = other(args.form);
    let mut loaded = load(args, file)?;
    // taken for one of Java's form, its version 10 is a root without a tag
    if loaded.input.is_level_file() {
        return Err(Trouble::Level);
    }
    let made = write_in(to, loaded.input.document(), &mut loaded.table).map_err(|refusal| loaded.refused(refusal))?;
    save(args, file, &made, said)?;
    if args.json {
        let object = json::file(&file.to_string_lossy(), true, &json::converted(&loaded, to, made.len()));
        return writeln!(said, "{object}").map_err(Trouble::unwritten);
    }
    let words = format!("{}: {}", show::name(file), converted(&loaded, to, made.len()));
    match args.target(file) {
        Some(_) => writeln!(said, "{words}").map_err(Trouble::unwritten)?,
        // the document itself is on standard output
        None => grumble(&words),
    }
    Ok(())
}

/// What was written, so many bytes, and what was left out.
fn converted(loaded: &Loaded, to: Form, bytes: usize) -> String {
    let Loaded { input, table, .. } = loaded;
    // only a table that was read knows where the root ends
    let more = match table.consumed() {
        0 => 0,
        consumed => input.document().len() - consumed,
    };
    let more = if more > 0 { format!("; {more} more after the root's end, not written") } else { String::new() };
    let head = match input.head {
        Some(head) => format!("; {}, and not written", show::passed_over(head)),
        None if to == Form::Pocket => format!("; a document alone, without the {HEAD} bytes that a level file has before it"),
        None => String::new(),
    };
    format!("converted into {}: {}{}{head}{more}", show::form(to), show::size(bytes, table.len()), show::gzip(input))
}
