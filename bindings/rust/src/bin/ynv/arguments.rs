//! The command line. Arguments are taken as the system gives them, so that every file name works.

use crate::files::Kind;
use crate::trouble::Trouble;
use std::ffi::{OsStr, OsString};
use std::path::PathBuf;

/// What `--help` says.
pub const HELP: &str = "\
ynv: navmesh cells, by a proved library

  ynv info FILE...         what a cell is: its record, counts, box, areas and portals
  ynv check FILE...        would it save? One line for each file, with what to do where it wouldn't
  ynv seams FILE...        how many halves of edges lead to a neighbouring cell
  ynv pick X Y FILE...     the polygon at a position
  ynv reach N FILE...      where a walker can get to from polygon N: how many, and which
  ynv draw FILE SVG        a picture of the cell seen from above
  ynv obj FILE OBJ         the polygons as Wavefront OBJ text, for a modelling program
  ynv read PAGES STRIP     pages to a strip
  ynv write STRIP PAGES    a strip to pages
  ynv where X Y            the cell of the map's grid at a position

A FILE holds pages, the unpacked system section of a .ynv, or a strip, the cell's 32-bit words, little-endian. Names
that end in .pages or .strip say which; otherwise the file's first word does. `-` is standard input or output.

  --pages, --strip    take every FILE as this
  --numbers           draw: the polygons' numbers
  --same-file         the output may be the input, which it replaces
  --                  no option follows
  --help, --version

A result replaces its file whole or not at all. Status: 0 done, 1 a cell is refused, 2 trouble with a file or the
arguments. Many files: `find DIR -name '*.pages' -print0 | xargs -0 -P 8 -n 50 ynv check`
";

/// Options, which may stand anywhere.
#[derive(Debug, Default)]
pub struct Options {
    pub kind: Option<Kind>,
    pub numbers: bool,
    pub same_file: bool,
    pub help: bool,
    pub version: bool,
}

/// Options, and the words that are none.
pub fn split(arguments: impl Iterator<Item = OsString>) -> Result<(Options, Vec<OsString>), Trouble> {
    let (mut options, mut words, mut open) = (Options::default(), Vec::new(), true);
    for argument in arguments {
        match argument.to_str() {
            Some("--") if open => open = false,
            Some(name) if open && is_option(name) => options.take(name)?,
            _ => words.push(argument),
        }
    }
    Ok((options, words))
}

/// A dash alone is a file, and one before a digit a number below zero.
fn is_option(word: &str) -> bool {
    word.strip_prefix('-')
        .is_some_and(|rest| !rest.is_empty() && !rest.starts_with(|c: char| c.is_ascii_digit() || c == '.'))
}

impl Options {
    fn take(&mut self, name: &str) -> Result<(), Trouble> {
        match name {
            "--pages" => self.kind = Some(Kind::Pages),
            "--strip" => self.kind = Some(Kind::Strip),
            "--numbers" => self.numbers = true,
            "--same-file" => self.same_file = true,
            "--help" | "-h" => self.help = true,
            "--version" | "-V" => self.version = true,
            _ => return Err(Trouble::Usage(format!("there is no option {name}"))),
        }
        Ok(())
    }
}

/// A verb with its words.
#[derive(Debug)]
pub enum Verb {
    Info(Vec<PathBuf>),
    Check(Vec<PathBuf>),
    Seams(Vec<PathBuf>),
    Pick(f32, f32, Vec<PathBuf>),
    Reach(usize, Vec<PathBuf>),
    Draw(PathBuf, PathBuf),
    Obj(PathBuf, PathBuf),
    Read(PathBuf, PathBuf),
    Write(PathBuf, PathBuf),
    Where(f32, f32),
}

impl Verb {
    /// The verb that these words make.
    pub fn of(words: &[OsString]) -> Result<Verb, Trouble> {
        let usage = |said: String| Err(Trouble::Usage(said));
        let [verb, rest @ ..] = words else { return usage("ynv takes a verb".into()) };
        let verb = verb.to_string_lossy();
        let paths = |words: &[OsString]| words.iter().map(PathBuf::from).collect();
        match (&*verb, rest) {
            ("info", [_, ..]) => Ok(Verb::Info(paths(rest))),
            ("check", [_, ..]) => Ok(Verb::Check(paths(rest))),
            ("seams", [_, ..]) => Ok(Verb::Seams(paths(rest))),
            ("pick", [x, y, files @ ..]) if !files.is_empty() => Ok(Verb::Pick(number(x)?, number(y)?, paths(files))),
            ("reach", [start, files @ ..]) if !files.is_empty() => Ok(Verb::Reach(polygon(start)?, paths(files))),
            ("draw", [from, to]) => Ok(Verb::Draw(from.into(), to.into())),
            ("obj", [from, to]) => Ok(Verb::Obj(from.into(), to.into())),
            ("read", [from, to]) => Ok(Verb::Read(from.into(), to.into())),
            ("write", [from, to]) => Ok(Verb::Write(from.into(), to.into())),
            ("where", [x, y]) => Ok(Verb::Where(number(x)?, number(y)?)),
            (verb, _) => match HELP.lines().find(|line| line.starts_with(&format!("  ynv {verb} "))) {
                Some(line) => usage(format!("usage: {}", line.trim())),
                None => usage(format!("there is no verb {verb}")),
            },
        }
    }
}

/// A polygon's number.
fn polygon(word: &OsStr) -> Result<usize, Trouble> {
    let refused = || Trouble::Usage(format!("{} is no polygon's number", word.to_string_lossy()));
    word.to_str().and_then(|text| text.parse().ok()).ok_or_else(refused)
}

/// A coordinate.
fn number(word: &OsStr) -> Result<f32, Trouble> {
    let parsed = word.to_str().and_then(|text| text.parse::<f32>().ok());
    let refused = || Trouble::Usage(format!("{} is no coordinate", word.to_string_lossy()));
    parsed.filter(|number| number.is_finite()).ok_or_else(refused)
}
