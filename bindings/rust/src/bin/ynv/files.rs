//! Files: cells in, told apart by what they are; results out, whole or not at all.

use crate::trouble::Trouble;
use std::fs::{self, File, OpenOptions};
use std::io::{self, Read, Write};
use std::path::{Path, PathBuf};
use std::process;
use ynv::{Counts, Refusal, Ynv};

/// What a file holds.
#[derive(Debug, Clone, Copy, PartialEq, Eq)]
pub enum Kind {
    /// The words of a strip, little-endian.
    Strip,
    /// An unpacked system section.
    Pages,
}

/// A cell as it was loaded.
pub struct Loaded {
    pub kind: Kind,
    /// The file's length.
    pub bytes: usize,
    pub strip: Vec<u32>,
    /// What reading pages counted; a strip has no sectors.
    pub counts: Option<Counts>,
}

impl Loaded {
    /// The typed cell.
    pub fn cell(&self) -> Result<Ynv, Trouble> {
        Ok(Ynv::from_strip(&self.strip)?)
    }
}

/// The name that stands for standard input or standard output.
pub fn is_standard(path: &Path) -> bool {
    path.as_os_str() == "-"
}

/// Loads a cell from a file of the kind that an option or the verb says; without one, the name's end says it, or else
/// the file's first word.
pub fn load(path: &Path, option: Option<Kind>, verb: Option<Kind>) -> Result<Loaded, Trouble> {
    let bytes = read(path, option.is_none())?;
    let kind = option.or(verb).or_else(|| kind_by_name(path)).unwrap_or_else(|| kind_by_content(&bytes));
    decoded(path, kind, bytes).map_err(|trouble| trouble.of(path))
}

fn decoded(path: &Path, kind: Kind, bytes: Vec<u8>) -> Result<Loaded, Trouble> {
    let length = bytes.len();
    let (strip, counts) = match kind {
        Kind::Strip => (words_of(path, bytes)?, None),
        Kind::Pages => ynv::parse(&bytes, &[]).map(|(strip, counts)| (strip, Some(counts)))?,
    };
    Ok(Loaded { kind, bytes: length, strip, counts })
}

fn kind_by_name(path: &Path) -> Option<Kind> {
    match path.extension()?.to_str()? {
        "strip" => Some(Kind::Strip),
        "pages" => Some(Kind::Pages),
        _ => None,
    }
}

/// A strip begins with the first word of a cell's record, and pages with their vft, which is another number in every
/// cell of the game.
fn kind_by_content(bytes: &[u8]) -> Kind {
    match bytes {
        [0, 0, 0, 0x10, ..] => Kind::Strip,
        _ => Kind::Pages,
    }
}

/// A file's bytes. A packed resource is told apart by its first four, before the rest is read, unless an option says
/// what the file is: pages may begin with any number.
fn read(path: &Path, may_be_packed: bool) -> Result<Vec<u8>, Trouble> {
    let fail = |error| Trouble::file(path, said(&error));
    let mut file = open(path)?;
    let mut bytes = Vec::new();
    file.by_ref().take(4).read_to_end(&mut bytes).map_err(fail)?;
    if may_be_packed && bytes == b"RSC7" {
        let said = "this is a packed resource; unpack it first (rage-formats: `prepare_rsc7`)";
        return Err(Trouble::file(path, said));
    }
    file.read_to_end(&mut bytes).map_err(fail)?;
    Ok(bytes)
}

fn open(path: &Path) -> Result<Box<dyn Read>, Trouble> {
    if is_standard(path) {
        return Ok(Box::new(io::stdin()));
    }
    let fail = |error| Trouble::file(path, said(&error));
    let file = File::open(path).map_err(fail)?;
    if file.metadata().map_err(fail)?.is_dir() {
        return Err(Trouble::file(path, "is a directory"));
    }
    Ok(Box::new(file))
}

/// An error in words, for those that people meet.
fn said(error: &io::Error) -> String {
    match error.kind() {
        io::ErrorKind::NotFound => "no such file".into(),
        io::ErrorKind::PermissionDenied => "permission denied".into(),
        io::ErrorKind::OutOfMemory => "not enough memory to read it".into(),
        _ => error.to_string(),
    }
}

/// The words of a strip file. It takes the bytes, so that they are gone before memory is asked for again.
fn words_of(path: &Path, bytes: Vec<u8>) -> Result<Vec<u32>, Trouble> {
    let quads = bytes.chunks_exact(4);
    if !quads.remainder().is_empty() {
        return Err(Trouble::file(
            path,
            format!("a strip file has four bytes for each word; this one has {}", bytes.len()),
        ));
    }
    let mut words = room(quads.len())?;
    words.extend(quads.map(|quad| u32::from_le_bytes([quad[0], quad[1], quad[2], quad[3]])));
    Ok(words)
}

/// The bytes of a strip file.
pub fn bytes_of(words: &[u32]) -> Result<Vec<u8>, Trouble> {
    let mut bytes = room(4 * words.len())?;
    bytes.extend(words.iter().flat_map(|word| word.to_le_bytes()));
    Ok(bytes)
}

/// A vector with room for so many items: where there is no memory, that is said.
fn room<T>(items: usize) -> Result<Vec<T>, Trouble> {
    let mut list = Vec::new();
    list.try_reserve_exact(items).map_err(|_| Refusal::new(Refusal::NO_MEMORY, 0))?;
    Ok(list)
}

/// Refuses an output that is the input, by another name too.
pub fn differ(input: &Path, output: &Path) -> Result<(), Trouble> {
    if is_standard(input) || is_standard(output) || !is_same(input, output) {
        return Ok(());
    }
    Err(Trouble::file(output, format!("is the input, {}; say --same-file to replace it", input.display())))
}

#[cfg(unix)]
fn is_same(one: &Path, other: &Path) -> bool {
    use std::os::unix::fs::MetadataExt;
    let identity = |path| fs::metadata(path).map(|about| (about.dev(), about.ino())).ok();
    identity(one).is_some_and(|found| Some(found) == identity(other))
}

#[cfg(not(unix))]
fn is_same(one: &Path, other: &Path) -> bool {
    let identity = |path| fs::canonicalize(path).ok();
    identity(one).is_some_and(|found| Some(found) == identity(other))
}

/// Writes a result to a file, or to standard output.
pub fn save(path: &Path, bytes: &[u8]) -> Result<(), Trouble> {
    if is_standard(path) {
        let mut output = io::stdout().lock();
        return output.write_all(bytes).and_then(|()| output.flush()).map_err(Trouble::output);
    }
    let target = target_of(path)?;
    replace(&target, bytes).map_err(|error| Trouble::file(path, format!("can't be written: {}", said(&error))))
}

/// The file that a name stands for: behind a link, the file itself. A device or a pipe is no target, since what is
/// renamed over it would take its place.
fn target_of(path: &Path) -> Result<PathBuf, Trouble> {
    let is_link = fs::symlink_metadata(path).is_ok_and(|about| about.is_symlink());
    match fs::metadata(path) {
        Ok(about) if about.is_dir() => Err(Trouble::file(path, "is a directory")),
        Ok(about) if !about.is_file() => Err(Trouble::file(path, "is no regular file; `-` is standard output")),
        Err(_) if is_link => Err(Trouble::file(path, "is a link to nothing")),
        Ok(_) if is_link => fs::canonicalize(path).map_err(|error| Trouble::file(path, said(&error))),
        _ => Ok(path.to_path_buf()),
    }
}

/// Puts a file with these bytes in the target's place: it is written beside it, synced, then renamed. Until the rename
/// the old file is as it was, and no failure leaves the new one behind.
fn replace(target: &Path, bytes: &[u8]) -> io::Result<()> {
    let folder = target.parent().filter(|folder| !folder.as_os_str().is_empty()).unwrap_or(Path::new("."));
    let (temporary, mut file) = create_in(folder)?;
    let written = fill(&mut file, target, bytes).and_then(|()| fs::rename(&temporary, target));
    if written.is_err() {
        let _ = fs::remove_file(&temporary);
        return written;
    }
    // The file is whole by now. That its name outlives a loss of power takes a synced folder, which not every system
    // offers: where it fails, there is nothing to take back.
    if let Ok(folder) = File::open(folder) {
        let _ = folder.sync_all();
    }
    Ok(())
}

/// A new file in a folder. The number keeps apart programs on other machines that share the folder, and files that a
/// killed program left.
fn create_in(folder: &Path) -> io::Result<(PathBuf, File)> {
    let mut number = 0u32;
    loop {
        let path = folder.join(format!(".ynv-{}-{number}.tmp", process::id()));
        match OpenOptions::new().write(true).create_new(true).open(&path) {
            Err(error) if error.kind() == io::ErrorKind::AlreadyExists && number < 10_000 => number += 1,
            opened => return opened.map(|file| (path, file)),
        }
    }
}

/// Writes the bytes, takes over the old file's permissions, and waits until all of it is stored.
fn fill(file: &mut File, target: &Path, bytes: &[u8]) -> io::Result<()> {
    file.write_all(bytes)?;
    if let Ok(old) = fs::metadata(target) {
        file.set_permissions(old.permissions())?;
    }
    file.sync_all()
}
