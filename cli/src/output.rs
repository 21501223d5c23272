//! A file that is written, or standard output, whose name is `-`. Nothing is lost by it:
//!
//! - A file is written beside its place and renamed when all of it is there, so that a failure, a full disk say, leaves
//!   what stood there before.
//! - A file that is read, by whatever name, is not written over.
//! - A link leads to its file, which is replaced; the link stays. A device or a pipe is written as it is.

use crate::input::{FileId, Input};
use std::fs::{self, File, OpenOptions, Permissions};
use std::io::{self, BufWriter, ErrorKind, IsTerminal, Write};
use std::os::fd::AsFd;
use std::path::{Path, PathBuf};
use std::process;
use std::sync::atomic::{AtomicUsize, Ordering};

/// An output whose place was looked at, and that is not written yet.
pub struct Output {
    /// As it is called in a line.
    pub name: String,
    place: Place,
}

enum Place {
    Standard,
    /// A device or a pipe.
    Through(PathBuf),
    /// A file, its links followed, and the permissions of the one that stands there.
    File(PathBuf, Option<Permissions>),
}

impl Output {
    /// Looks at a place before the work begins. It may not be one of the inputs, a folder, or a file that must not be
    /// written; a failure is a line that begins with its name.
    pub fn plan(path: &Path, inputs: &[&Input]) -> Result<Output, String> {
        let standard = path.as_os_str() == "-";
        let name = if standard { "standard output".to_string() } else { path.display().to_string() };
        let (place, id) =
            if standard { standard_output() } else { found(path) }.map_err(|why| format!("{name}: {why}"))?;
        match inputs.iter().find(|input| id.is_some() && input.id == id) {
            Some(input) if input.name == name => Err(format!("{name}: it is read, and is not written over")),
            Some(input) => {
                Err(format!("{name}: it is the file {}, which is read, and is not written over", input.name))
            }
            None => Ok(Output { name, place }),
        }
    }

    /// Is what is said to stand elsewhere than on standard output?
    pub fn takes_standard_output(&self) -> bool {
        matches!(self.place, Place::Standard)
    }

    /// Writes what `fill` writes; a failure is a line that begins with the output's name.
    pub fn write(self, fill: impl FnOnce(&mut dyn Write) -> io::Result<()>) -> Result<(), String> {
        let written = match self.place {
            Place::Standard => through(io::stdout().lock(), fill),
            Place::Through(path) => OpenOptions::new().write(true).open(path).and_then(|file| through(file, fill)),
            Place::File(path, permissions) => beside(&path, permissions, fill),
        };
        written.map_err(|why| format!("{}: {why}", self.name))
    }
}

fn standard_output() -> io::Result<(Place, Option<FileId>)> {
    if io::stdout().is_terminal() {
        return Err(io::Error::other("it is a terminal"));
    }
    let about = File::from(io::stdout().as_fd().try_clone_to_owned()?).metadata()?;
    Ok((Place::Standard, FileId::of(&about)))
}

/// The place of a path, and which file stands there.
fn found(path: &Path) -> io::Result<(Place, Option<FileId>)> {
    let path = followed(path)?;
    match fs::metadata(&path) {
        Ok(about) if about.is_dir() => Err(io::Error::from(ErrorKind::IsADirectory)),
        Ok(about) if about.is_file() => {
            // an older file that must not be written is not replaced either
            OpenOptions::new().write(true).open(&path)?;
            Ok((Place::File(path, Some(about.permissions())), FileId::of(&about)))
        }
        Ok(_) => Ok((Place::Through(path), None)),
        Err(why) if why.kind() == ErrorKind::NotFound => {
            // its folder must be there
            fs::metadata(folder(&path))?;
            Ok((Place::File(path, None), None))
        }
        Err(why) => Err(why),
    }
}

/// Where a path leads when each link at its end is followed, also where nothing stands there.
fn followed(path: &Path) -> io::Result<PathBuf> {
    let mut path = path.to_path_buf();
    for _ in 0..40 {
        match fs::symlink_metadata(&path) {
            Ok(about) if about.is_symlink() => path = folder(&path).join(fs::read_link(&path)?),
            _ => return Ok(path),
        }
    }
    Err(io::Error::other("its links lead to no end"))
}

fn folder(path: &Path) -> &Path {
    path.parent().filter(|parent| !parent.as_os_str().is_empty()).unwrap_or(Path::new("."))
}

fn through(to: impl Write, fill: impl FnOnce(&mut dyn Write) -> io::Result<()>) -> io::Result<()> {
    let mut to = BufWriter::new(to);
    fill(&mut to)?;
    to.flush()
}

/// Writes a file beside its place and renames it.
fn beside(
    path: &Path,
    permissions: Option<Permissions>,
    fill: impl FnOnce(&mut dyn Write) -> io::Result<()>,
) -> io::Result<()> {
    let (part, file) = Part::new(folder(path))?;
    through(&file, fill)?;
    if let Some(permissions) = permissions {
        file.set_permissions(permissions)?;
    }
    file.sync_all()?;
    part.becomes(path)
}

/// A file that is not whole yet, which goes again unless it gets its name.
struct Part(PathBuf);

impl Part {
    fn new(folder: &Path) -> io::Result<(Part, File)> {
        static NEXT: AtomicUsize = AtomicUsize::new(0);
        loop {
            let name = format!(".zopredil-{}-{}.part", process::id(), NEXT.fetch_add(1, Ordering::Relaxed));
            let path = folder.join(name);
            match OpenOptions::new().write(true).create_new(true).open(&path) {
                Ok(file) => return Ok((Part(path), file)),
                Err(why) if why.kind() == ErrorKind::AlreadyExists => {}
                Err(why) => return Err(why),
            }
        }
    }

    fn becomes(self, path: &Path) -> io::Result<()> {
        fs::rename(&self.0, path)
    }
}

impl Drop for Part {
    /// After a renaming there is nothing of the name any more.
    fn drop(&mut self) {
        let _ = fs::remove_file(&self.0);
    }
}
