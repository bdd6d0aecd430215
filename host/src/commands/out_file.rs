//! Files that a command writes: whole, or not at all.

use std::ffi::{OsStr, OsString};
use std::fs::{self, File, OpenOptions};
use std::io::{self, BufWriter, Write};
use std::os::unix::ffi::OsStrExt;
use std::path::{Path, PathBuf};

use crate::commands::failure::{shown, Failure};
use crate::commands::input::Input;

/// Refuses an output that is a file of the input, since that would be lost.
pub fn is_no_input(file: &OsStr, input: &Input) -> Result<(), Failure> {
    let Ok(output) = fs::canonicalize(file) else { return Ok(()) };
    let same = |other: &&OsStr| fs::canonicalize(other).is_ok_and(|other| other == output);
    match input.files().into_iter().find(same) {
        Some(_) => Err(Failure::Usage(format!("--output {} is a file of the input, which is not written to; name another", shown(file.as_bytes())))),
        None => Ok(()),
    }
}

/// Writes a file by what is given. It is written to a new file beside it, which then takes its name, so that whatever fails leaves the old file,
/// or none.
pub fn write<T>(file: &OsStr, put: impl FnOnce(&mut BufWriter<&File>) -> Result<T, Failure>) -> Result<T, Failure> {
    let unwritable = |error: io::Error| {
        let advice = "name a file in a folder that can be written to, or leave --output out";
        Failure::Draw(format!("{} cannot be written: {error}; {advice}", shown(file.as_bytes())))
    };
    // Behind a link the file that it leads to is replaced, and the link stays.
    let path = fs::canonicalize(file).unwrap_or_else(|_| PathBuf::from(file));
    let old = fs::metadata(&path).ok();
    if old.as_ref().is_some_and(|old| !old.is_file()) {
        return Err(unwritable(io::Error::other("it is there and is no file")));
    }
    // The folder's rights alone would let a file be replaced that may not be written to.
    if old.as_ref().is_some_and(|old| old.permissions().readonly()) {
        return Err(unwritable(io::Error::other("its rights do not let it be written to")));
    }
    if old.is_some() {
        OpenOptions::new().append(true).open(&path).map_err(unwritable)?;
    }
    let (beside, new) = beside(&path).map_err(unwritable)?;
    let mut writer = BufWriter::with_capacity(1 << 16, &new);
    let written = put(&mut writer).and_then(|given| {
        writer.flush()?;
        new.sync_all()?;
        old.map_or(Ok(()), |old| new.set_permissions(old.permissions()))?;
        fs::rename(&beside, &path)?;
        Ok(given)
    });
    written.map_err(|failure| {
        let _ = fs::remove_file(&beside);
        if let Failure::Io(error) = failure { unwritable(error) } else { failure }
    })
}

/// A new file beside the one that is to be replaced.
fn beside(path: &Path) -> io::Result<(PathBuf, File)> {
    let name = path.file_name().ok_or_else(|| io::Error::other("it is no name of a file"))?;
    let mut hidden = OsString::from(".");
    hidden.push(name);
    hidden.push(format!(".{}.new", std::process::id()));
    let beside = path.with_file_name(hidden);
    let file = OpenOptions::new().write(true).create_new(true).open(&beside)?;
    Ok((beside, file))
}
