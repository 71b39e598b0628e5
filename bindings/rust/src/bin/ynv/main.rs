//! The tool `ynv`: what a cell is, whether it would save, pages to strips and back, where a walker can
//! get to, a picture, a drawing for modelling programs.
//!
//! `ynv --help` has its verbs. Status: 0 done, 1 a cell is refused, 2 trouble with a file or the arguments.

#![deny(unsafe_code)]

mod arguments;
mod draw;
mod files;
mod legend;
mod report;
mod trouble;
mod view;

use arguments::{Options, Verb, HELP};
use files::Kind;
use std::env;
use std::io::{self, IsTerminal, Write};
use std::path::{Path, PathBuf};
use std::process::ExitCode;
use trouble::Trouble;

fn main() -> ExitCode {
    match run() {
        Ok(status) => ExitCode::from(status),
        Err(trouble) => ExitCode::from(complain(&trouble)),
    }
}

/// Says what went wrong, and returns the status that says so.
fn complain(trouble: &Trouble) -> u8 {
    if !matches!(trouble, Trouble::NobodyReads) {
        eprintln!("ynv: {trouble}");
    }
    trouble.status()
}

fn run() -> Result<u8, Trouble> {
    let (options, words) = arguments::split(env::args_os().skip(1))?;
    if options.help {
        return say(HELP);
    }
    if options.version {
        return say(concat!("ynv ", env!("CARGO_PKG_VERSION"), "\n"));
    }
    match Verb::of(&words)? {
        Verb::Info(paths) => each(&paths, |path| report::info(path, &files::load(path, options.kind, None)?)),
        Verb::Check(paths) => each(&paths, |path| report::check(path, files::load(path, options.kind, None))),
        Verb::Seams(paths) => each(&paths, |path| report::seams(path, &files::load(path, options.kind, None)?)),
        Verb::Pick(x, y, paths) => {
            each(&paths, |path| report::pick(path, &files::load(path, options.kind, None)?, x, y))
        }
        Verb::Reach(start, paths) => {
            each(&paths, |path| report::reach(path, &files::load(path, options.kind, None)?, start))
        }
        Verb::Draw(from, to) => draw(&options, &from, &to).map_err(|trouble| trouble.of(&from)),
        Verb::Obj(from, to) => obj(&options, &from, &to).map_err(|trouble| trouble.of(&from)),
        Verb::Read(from, to) => read(&options, &from, &to).map_err(|trouble| trouble.of(&from)),
        Verb::Write(from, to) => write(&options, &from, &to).map_err(|trouble| trouble.of(&from)),
        Verb::Where(x, y) => say(&report::location(x, y)?),
    }
}

fn say(text: &str) -> Result<u8, Trouble> {
    let mut output = io::stdout().lock();
    output.write_all(text.as_bytes()).and_then(|()| output.flush()).map_err(Trouble::output)?;
    Ok(0)
}

/// An answer's text and its status.
type Answer = (String, u8);

/// Answers for each file in turn, whatever became of those before it; the greatest status is the whole's.
fn each(paths: &[PathBuf], answer: impl Fn(&Path) -> Result<Answer, Trouble>) -> Result<u8, Trouble> {
    // A count on the terminal, for those who wait; its line is wiped before anything else is said.
    let counts = paths.len() > 1 && io::stderr().is_terminal();
    let mut worst = 0;
    for (done, path) in paths.iter().enumerate() {
        if counts {
            eprint!("\r\x1b[K{done} of {}", paths.len());
        }
        let answered = answer(path);
        if counts {
            eprint!("\r\x1b[K");
        }
        let status = match answered {
            Ok((text, status)) => say(&text).map(|_| status)?,
            Err(trouble) => complain(&trouble.of(path)),
        };
        worst = worst.max(status);
    }
    Ok(worst)
}

/// Where a result goes: not over what it was made from, unless that is asked for.
fn put(options: &Options, from: &Path, to: &Path, bytes: &[u8]) -> Result<(), Trouble> {
    if !options.same_file {
        files::differ(from, to)?;
    }
    files::save(to, bytes)
}

/// What is said about a result; nothing where the result itself takes standard output.
fn done(to: &Path, said: String) -> Result<u8, Trouble> {
    if files::is_standard(to) {
        Ok(0)
    } else {
        say(&said)
    }
}

fn read(options: &Options, from: &Path, to: &Path) -> Result<u8, Trouble> {
    let loaded = files::load(from, options.kind, Some(Kind::Pages))?;
    put(options, from, to, &files::bytes_of(&loaded.strip)?)?;
    done(to, report::counts(&loaded))
}

fn write(options: &Options, from: &Path, to: &Path) -> Result<u8, Trouble> {
    let loaded = files::load(from, options.kind, Some(Kind::Strip))?;
    let saved = ynv::serialize_ynv(&loaded.cell()?)?;
    put(options, from, to, &saved.pages)?;
    // What was lost is said in any case: on the error output where the pages take standard output.
    if let Some(lost) = report::losses(&saved).filter(|_| files::is_standard(to)) {
        eprintln!("ynv: {}: {lost}", from.display());
    }
    done(to, format!("{}\n", report::saved(&saved)))
}

fn draw(options: &Options, from: &Path, to: &Path) -> Result<u8, Trouble> {
    let loaded = files::load(from, options.kind, None)?;
    let picture = draw::svg(&loaded.cell()?, options.numbers);
    put(options, from, to, picture.as_bytes())?;
    done(to, format!("bytes {}\n", picture.len()))
}

fn obj(options: &Options, from: &Path, to: &Path) -> Result<u8, Trouble> {
    let loaded = files::load(from, options.kind, None)?;
    let text = ynv::export_obj(&loaded.strip)?;
    put(options, from, to, text.as_bytes())?;
    done(to, format!("bytes {}\n", text.len()))
}
