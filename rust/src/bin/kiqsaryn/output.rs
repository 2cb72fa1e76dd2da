//! Where output goes. A file is written whole or not at all: the bytes go to a new file beside it, which takes its name at the end.

use crate::args::Source;
use crate::recording::{metadata, same_file};
use crate::standard;
use std::fs::{self, File, Metadata, OpenOptions, Permissions};
use std::io::{self, BufWriter, ErrorKind, Write};
use std::os::unix::fs::{fchown, FileTypeExt, MetadataExt, OpenOptionsExt, PermissionsExt};
use std::path::{Path, PathBuf};

/// Linux follows no more symbolic links in one path.
const LINKS: usize = 40;
/// The bytes of a block that is written at once.
const BLOCK: usize = 1 << 16;
/// How many names for the new file are tried, where other files have them.
const NAMES: usize = 1000;

/// Where a command writes.
pub enum Place<'a> {
    Output,
    Error,
    File(&'a Path),
}

/// Whether output to this place would overwrite the trace. Terminals and pipes keep nothing to overwrite.
pub fn overwrites(trace: &Source, place: &Place) -> bool {
    let output = match place {
        Place::Output => standard::output().and_then(|f| f.metadata()),
        Place::Error => standard::error().and_then(|f| f.metadata()),
        Place::File(path) => fs::metadata(path),
    };
    match (metadata(trace), output) {
        (Ok(t), Ok(o)) => (o.is_file() || o.file_type().is_block_device()) && same_file(&t, &o),
        _ => false,
    }
}

pub fn to_standard(bytes: &[u8]) -> io::Result<()> {
    standard::output()?.write_all(bytes)
}

/// Why writing block by block ended early: a failure to write, or a sentence.
pub enum Failed {
    Write(io::Error),
    Sentence(String),
}

impl From<io::Error> for Failed {
    fn from(e: io::Error) -> Failed {
        Failed::Write(e)
    }
}

impl From<String> for Failed {
    fn from(sentence: String) -> Failed {
        Failed::Sentence(sentence)
    }
}

/// Standard output, written block by block: what is written need not be held as a whole. Where nothing is written, nothing fails.
#[derive(Default)]
pub struct Blocks {
    out: Option<BufWriter<File>>,
}

impl Write for Blocks {
    fn write(&mut self, bytes: &[u8]) -> io::Result<usize> {
        let out = match self.out.take() {
            Some(out) => out,
            None => BufWriter::with_capacity(BLOCK, standard::output()?),
        };
        self.out.insert(out).write(bytes)
    }

    fn flush(&mut self) -> io::Result<()> {
        self.out.as_mut().map_or(Ok(()), BufWriter::flush)
    }
}

/// Whether a path names the file that standard output is.
pub fn is_standard(path: &Path) -> bool {
    match (fs::metadata(path), standard::output().and_then(|f| f.metadata())) {
        (Ok(file), Ok(standard)) => same_file(&file, &standard),
        _ => false,
    }
}

/// Writes a file. A device, a pipe or an open descriptor by its name is written to as it stands, and standard output at its place.
pub fn to_file(path: &Path, bytes: &[u8]) -> io::Result<()> {
    let old = match fs::metadata(path) {
        Err(e) if e.kind() == ErrorKind::NotFound => None,
        old => Some(old?),
    };
    match &old {
        Some(_) if is_standard(path) => to_standard(bytes),
        Some(old) if !old.is_file() => write_at(path, bytes),
        _ => match followed(path)? {
            Some(path) => replace(&path, old.as_ref(), bytes),
            None => write_at(path, bytes),
        },
    }
}

fn write_at(path: &Path, bytes: &[u8]) -> io::Result<()> {
    OpenOptions::new().write(true).truncate(true).open(path)?.write_all(bytes)
}

/// The folder that a path's last name stands in.
fn folder(path: &Path) -> &Path {
    match path.parent() {
        Some(folder) if folder != Path::new("") => folder,
        _ => Path::new("."),
    }
}

/// The path behind symbolic links, whether or not a file is there. `None`: the path names an open descriptor (`/dev/fd/3`), whose link need
/// not hold a name of its file.
fn followed(path: &Path) -> io::Result<Option<PathBuf>> {
    let mut path = path.to_path_buf();
    for _ in 0..LINKS {
        if !fs::symlink_metadata(&path).is_ok_and(|m| m.is_symlink()) {
            return Ok(Some(path));
        }
        if fs::canonicalize(folder(&path))?.starts_with("/proc") {
            return Ok(None);
        }
        path = folder(&path).join(fs::read_link(&path)?);
    }
    Err(io::Error::other("too many symbolic links"))
}

/// Puts a new file with these bytes in the place of a path. It has the mode of the old file, and its owner and group where the user may
/// give them.
fn replace(path: &Path, old: Option<&Metadata>, bytes: &[u8]) -> io::Result<()> {
    if old.is_some() {
        // A file that the user may not write is not replaced either.
        OpenOptions::new().write(true).open(path)?;
    }
    let mut new = NewFile::beside(path, if old.is_some() { 0o600 } else { 0o666 })?;
    new.file.write_all(bytes)?;
    if let Some(old) = old {
        let _ = fchown(&new.file, None, Some(old.gid()));
        let _ = fchown(&new.file, Some(old.uid()), None);
        new.file.set_permissions(Permissions::from_mode(old.mode() & 0o777))?;
    }
    new.file.sync_all()?;
    new.take_place(path)
}

/// A new file, removed again unless it takes the place of another.
struct NewFile {
    file: File,
    path: PathBuf,
    placed: bool,
}

impl NewFile {
    /// Makes it in the folder of a path, under a name that no file has.
    fn beside(path: &Path, mode: u32) -> io::Result<NewFile> {
        let mut options = OpenOptions::new();
        options.write(true).create_new(true).mode(mode);
        for k in 0..NAMES {
            let path = folder(path).join(format!(".kiqsaryn-{}-{k}", std::process::id()));
            match options.open(&path) {
                Ok(file) => return Ok(NewFile { file, path, placed: false }),
                Err(e) if e.kind() == ErrorKind::AlreadyExists => {}
                Err(e) => return Err(io::Error::other(format!("no new file can be made beside it: {e}"))),
            }
        }
        Err(io::Error::other("no new file can be made beside it: the names for it are taken"))
    }

    fn take_place(mut self, path: &Path) -> io::Result<()> {
        fs::rename(&self.path, path)?;
        self.placed = true;
        Ok(())
    }
}

impl Drop for NewFile {
    fn drop(&mut self) {
        if !self.placed {
            let _ = fs::remove_file(&self.path);
        }
    }
}
