//! A file under a temporary name beside its target, until it is complete.

use std::fs::{self, File, OpenOptions, Permissions};
use std::io;
use std::path::{Path, PathBuf};
use std::process;

/// A file beside its target, removed unless it is finished.
pub struct Draft {
    path: PathBuf,
    pub file: File,
    finished: bool,
}

impl Draft {
    pub fn new(target: &Path) -> io::Result<Self> {
        target.file_name().ok_or(io::ErrorKind::IsADirectory)?;
        // A killed command may have left a name with the same number.
        for again in 0.. {
            let path = target.with_file_name(draft_name(again));
            let file = OpenOptions::new().write(true).create_new(true).open(&path);
            match file {
                Err(error) if error.kind() == io::ErrorKind::AlreadyExists && again < 100 => {}
                file => {
                    return Ok(Draft {
                        file: file?,
                        path,
                        finished: false,
                    });
                }
            }
        }
        unreachable!("the last try returns")
    }

    /// Takes the place of a file, and its permissions.
    pub fn replace(mut self, target: &Path, permissions: Permissions) -> io::Result<()> {
        self.file.set_permissions(permissions)?;
        fs::rename(&self.path, target)?;
        self.finished = true;
        Ok(())
    }

    /// Takes a place that is free. A second name is given only where there is
    /// none, also where a file came in between; the first is then removed.
    pub fn place(mut self, target: &Path) -> io::Result<()> {
        match fs::hard_link(&self.path, target) {
            Err(error) if error.kind() != io::ErrorKind::AlreadyExists => {
                // Not every file system has second names.
                fs::rename(&self.path, target)?;
                self.finished = true;
                Ok(())
            }
            placed => placed,
        }
    }
}

impl Drop for Draft {
    fn drop(&mut self) {
        if !self.finished {
            let _ = fs::remove_file(&self.path);
        }
    }
}

/// A name that no other running command has.
fn draft_name(again: u32) -> String {
    match (process::id(), again) {
        (id, 0) => format!(".xcf-{id}.tmp"),
        (id, again) => format!(".xcf-{id}-{again}.tmp"),
    }
}
