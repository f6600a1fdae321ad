//! The files that programs write: each gets its name only when it is whole.

use crate::files::shown;
use crate::standard::Ended;
use std::ffi::OsStr;
use std::fs::{self, File, Metadata};
use std::io::{self, Write};
use std::os::unix::fs::MetadataExt;
use std::path::PathBuf;

/// A file that can be written, and what is there under its name.
pub struct NewFile {
    path: PathBuf,
    there: Option<Metadata>,
}

impl NewFile {
    /// A name that is free or a file's, and not that of the source, under whatever name; `-` as source is standard
    /// input.
    pub fn at(name: &OsStr, source: &OsStr) -> Result<NewFile, Ended> {
        let there = fs::metadata(name).ok();
        if there.as_ref().is_some_and(|there| !there.is_file()) {
            return Err(Ended::unusable(format!("{} is there and is no file", shown(name))));
        }
        if there.as_ref().is_some_and(|there| is_source(source, there)) {
            return Err(Ended::unusable(format!("{} and {} are the same file", shown(source), shown(name))));
        }
        Ok(NewFile { path: PathBuf::from(name), there })
    }

    /// Writes the file whole, under another name in its folder first; one that is there keeps its permissions, and
    /// stays as it is where something fails.
    pub fn write(self, bytes: &[u8]) -> Result<(), Ended> {
        let path = fs::canonicalize(&self.path).unwrap_or_else(|_| self.path.clone());
        let new = path.with_file_name(format!(".new.{}", std::process::id()));
        let written = File::create_new(&new).and_then(|mut file| {
            let filled = fill(&mut file, self.there, bytes).and_then(|()| fs::rename(&new, &path));
            filled.inspect_err(|_| {
                let _ = fs::remove_file(&new);
            })
        });
        written.map_err(|fault| Ended::unusable(format!("{} can't be written: {fault}", self.path.display())))
    }
}

/// Whether the source is this file.
fn is_source(source: &OsStr, there: &Metadata) -> bool {
    let source = if source == "-" { OsStr::new("/dev/stdin") } else { source };
    fs::metadata(source).is_ok_and(|source| (source.dev(), source.ino()) == (there.dev(), there.ino()))
}

/// Fills the file that is to have the name in the end.
fn fill(new: &mut File, there: Option<Metadata>, bytes: &[u8]) -> io::Result<()> {
    new.write_all(bytes)?;
    if let Some(there) = there {
        new.set_permissions(there.permissions())?;
    }
    new.sync_all()
}
