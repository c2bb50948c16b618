//! A line on the terminal that says how far it is, when it takes long.
use std::io::{self, IsTerminal, Write};
use std::time::{Duration, Instant};

/// No line is shown in the first second, and then ten in each.
const PATIENCE: Duration = Duration::from_secs(1);
const PAUSE: Duration = Duration::from_millis(100);

pub struct Progress {
    files: usize,
    next: Instant,
    shown: bool,
    /// Whether standard error is a terminal; the line is for no one else.
    watched: bool,
    /// Whether the answers go to a terminal too, and so across the line.
    shared: bool,
}

impl Progress {
    pub fn new(files: usize) -> Progress {
        let (watched, shared) = (io::stderr().is_terminal(), io::stdout().is_terminal());
        Progress { files, next: Instant::now() + PATIENCE, shown: false, watched, shared }
    }

    /// Before file number `done`, from 0.
    pub fn step(&mut self, done: usize) {
        if self.watched && Instant::now() >= self.next {
            let _ = write!(io::stderr(), "\r\x1B[K{done} of {} files", self.files);
            self.shown = true;
            self.next = Instant::now() + PAUSE;
        }
    }

    /// Takes the line away before something is said on standard error.
    pub fn clear(&mut self) {
        if self.shown {
            let _ = write!(io::stderr(), "\r\x1B[K");
            self.shown = false;
        }
    }

    /// Says something on standard output, at once where someone watches it.
    pub fn say(&mut self, out: &mut dyn Write, said: &[u8]) -> io::Result<()> {
        if self.shared && !said.is_empty() {
            self.clear();
            out.write_all(said)?;
            return out.flush();
        }
        out.write_all(said)
    }
}
