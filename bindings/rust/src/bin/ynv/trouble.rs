//! What can go wrong, and the status that says so.

use std::fmt::{self, Display};
use std::io;
use std::path::Path;
use ynv::Refusal;

/// Why a verb did not do its work.
#[derive(Debug)]
pub enum Trouble {
    /// The library, or the crate before it, turned a cell away.
    Refused(Refusal),
    /// The same, with the file that holds the cell.
    RefusedFile(String, Refusal),
    /// A file can't be used: its name and what is wrong.
    File(String),
    /// The arguments make no sense.
    Usage(String),
    /// Whoever read standard output has left, which is no matter for words.
    NobodyReads,
}

impl Trouble {
    /// A file can't be used, and why.
    pub fn file(path: &Path, why: impl Display) -> Self {
        Trouble::File(format!("{}: {why}", path.display()))
    }

    /// Standard output can't be written to.
    pub fn output(error: io::Error) -> Self {
        match error.kind() {
            io::ErrorKind::BrokenPipe => Trouble::NobodyReads,
            _ => Trouble::File(format!("standard output: {error}")),
        }
    }

    /// A refusal gets the name of its file; other trouble has it.
    pub fn of(self, path: &Path) -> Self {
        match self {
            Trouble::Refused(refusal) => Trouble::RefusedFile(path.display().to_string(), refusal),
            other => other,
        }
    }

    /// The exit status: 1 for a refusal, 2 otherwise. Lack of memory says nothing of the cell.
    pub fn status(&self) -> u8 {
        match self {
            Trouble::Refused(refusal) | Trouble::RefusedFile(_, refusal) if refusal.number != Refusal::NO_MEMORY => 1,
            _ => 2,
        }
    }
}

impl From<Refusal> for Trouble {
    fn from(refusal: Refusal) -> Self {
        Trouble::Refused(refusal)
    }
}

impl Display for Trouble {
    fn fmt(&self, f: &mut fmt::Formatter<'_>) -> fmt::Result {
        match self {
            Trouble::Refused(refusal) => write!(f, "{refusal} {}", refusal.advice()),
            Trouble::RefusedFile(name, refusal) => write!(f, "{name}: {refusal} {}", refusal.advice()),
            Trouble::File(said) => f.write_str(said),
            Trouble::Usage(said) => write!(f, "{said}\nTry `ynv --help`."),
            Trouble::NobodyReads => Ok(()),
        }
    }
}
