//! Lines moved from eight words to nine, or back, and files replaced by them.
use crate::args::{Args, Way};
use crate::input::{self, Trouble};
use crate::save;
use std::ffi::OsStr;
use std::fs::{self, File, Metadata, OpenOptions};
use std::io::{self, Write};
use std::os::unix::fs::{fchown, MetadataExt, OpenOptionsExt};
use std::path::{Path, PathBuf};
use tikfazrul::{lines_down, lines_up};

/// How many names are tried for a new file. Another has one of them only where a run was ended before it could clear up.
const NAMES: usize = 100;

/// Moves the lines in a file, and puts them where they are to go.
pub fn bring(args: &Args, file: &OsStr, way: Way, length: usize, said: &mut Vec<u8>) -> Result<(), Trouble> {
    // 02, [8]; no more is read than lines can have: those that are accepted are all that the file has
    let lines = input::lines(file).map_err(Trouble::unread)?;
    let moved = match way {
        Way::Up => lines_up(&lines, length),
        Way::Down => lines_down(&lines, length),
    };
    match moved {
        Ok(moved) if args.in_place => replace(Path::new(file), &moved).map_err(Trouble::unwritten),
        Ok(moved) => save(args, file, &moved, said),
        Err(refusal) => Err(Trouble::Unmoved(refusal, lines, length)),
    }
}

/// Replaces a file at one stroke: a new one in the same folder is written whole, and then takes its name. Where anything fails the old one
/// is as it was, and the new one is gone.
fn replace(file: &Path, content: &[u8]) -> io::Result<()> {
    // what a link leads to is replaced, and not the link
    let file = fs::canonicalize(file)?;
    let old = fs::metadata(&file)?;
    let folder = file.parent().filter(|_| old.is_file()).ok_or_else(|| io::Error::other("this is no file that could be replaced"))?;
    let (path, new) = beside(folder)?;
    let replaced = fill(new, content, &old).and_then(|()| fs::rename(&path, &file));
    if replaced.is_err() {
        let _ = fs::remove_file(&path);
        return replaced;
    }
    // so that the new file is there after a power cut too; where this fails it may be the old one that is, and either is whole
    let _ = File::open(folder).and_then(|folder| folder.sync_all());
    Ok(())
}

/// A new file in a folder, for no one else to read as yet.
fn beside(folder: &Path) -> io::Result<(PathBuf, File)> {
    let mut names = (0..NAMES).map(|number| folder.join(format!(".tile-{}-{number}.new", std::process::id())));
    let open = |path: PathBuf| match OpenOptions::new().write(true).create_new(true).mode(0o600).open(&path) {
        Err(error) if error.kind() == io::ErrorKind::AlreadyExists => None,
        opened => Some(opened.map(|file| (path, file))),
    };
    names.find_map(open).unwrap_or_else(|| Err(io::ErrorKind::AlreadyExists.into()))
}

/// Writes what a new file is to have, down to the disk, with the owner and the permissions of the old one.
fn fill(mut new: File, content: &[u8], old: &Metadata) -> io::Result<()> {
    new.write_all(content)?;
    let own = new.metadata()?;
    if (own.uid(), own.gid()) != (old.uid(), old.gid()) {
        fchown(&new, Some(old.uid()), Some(old.gid()))?;
    }
    // after the owner, since a change of that takes some permissions away
    new.set_permissions(old.permissions())?;
    new.sync_all()
}
