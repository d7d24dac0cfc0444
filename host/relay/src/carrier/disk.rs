//! A record in a file. It is written beside the old one and then put in its place: after a crash there is the one or the other, whole.

use std::fs::{self, File};
use std::io::{self, Write};
use std::path::{Path, PathBuf};

pub struct Record {
    path: PathBuf,
    beside: PathBuf,
    folder: File,
    /// Wait until the disk has it? Without, a crash of the process loses nothing, and one of the machine may.
    sync: bool,
}

impl Record {
    pub fn new(folder: &Path, name: &str, sync: bool) -> io::Result<Record> {
        fs::create_dir_all(folder)?;
        Ok(Record {
            path: folder.join(name),
            beside: folder.join(format!("{name}.new")),
            folder: File::open(folder)?,
            sync,
        })
    }

    /// None if it was never written.
    pub fn read(&self) -> io::Result<Option<Vec<u8>>> {
        match fs::read(&self.path) {
            Ok(bytes) => Ok(Some(bytes)),
            Err(error) if error.kind() == io::ErrorKind::NotFound => Ok(None),
            Err(error) => Err(error),
        }
    }

    pub fn write(&self, bytes: &[u8]) -> io::Result<()> {
        let mut file = File::create(&self.beside)?;
        file.write_all(bytes)?;
        if self.sync {
            file.sync_data()?;
        }
        fs::rename(&self.beside, &self.path)?;
        if self.sync {
            self.folder.sync_all()?;
        }
        Ok(())
    }
}
