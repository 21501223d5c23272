//! A file that is read, or standard input, whose name is `-`.

use std::fs::{File, Metadata};
use std::io::{self, Read};
use std::os::fd::AsFd;
use std::os::unix::fs::MetadataExt;
use std::path::Path;

/// What tells a file from every other, whatever its names: its device and its inode.
#[derive(Debug, Clone, Copy, PartialEq, Eq)]
pub struct FileId {
    device: u64,
    inode: u64,
}

impl FileId {
    /// That of a regular file; pipes, terminals and devices have none.
    pub fn of(about: &Metadata) -> Option<FileId> {
        about.is_file().then(|| FileId { device: about.dev(), inode: about.ino() })
    }
}

/// A file that is open for reading.
pub struct Input {
    /// As it is called in a line.
    pub name: String,
    pub id: Option<FileId>,
    /// Bytes of a regular file that is read from its start.
    pub length: Option<u64>,
    file: File,
}

impl Input {
    /// Opens a file; a failure is a line that begins with its name.
    pub fn open(path: &Path) -> Result<Input, String> {
        let standard = path.as_os_str() == "-";
        let name = if standard { "standard input".to_string() } else { path.display().to_string() };
        let opened = || -> io::Result<(File, Metadata)> {
            let file = if standard { File::from(io::stdin().as_fd().try_clone_to_owned()?) } else { File::open(path)? };
            let about = file.metadata()?;
            Ok((file, about))
        };
        let (file, about) = opened().map_err(|why| format!("{name}: {why}"))?;
        let length = (!standard && about.is_file()).then_some(about.len());
        Ok(Input { name, id: FileId::of(&about), length, file })
    }
}

impl Read for Input {
    fn read(&mut self, out: &mut [u8]) -> io::Result<usize> {
        self.file.read(out)
    }
}
