//! Replacing a file whole or not at all: the new bytes are written beside it, flushed to the disk, and take its name in one step. Killed
//! at any moment, the old file or the new one stands there, whole; a file of the name NAME.PID-TIME.new may be left beside it.

use crate::files::shown;
use crate::status::Status;
use crate::trouble::{reason, Outcome, Trouble};
use std::fs::{self, File, OpenOptions};
use std::io::{self, ErrorKind, Write};
use std::path::{Path, PathBuf};
use std::time::{SystemTime, UNIX_EPOCH};

/// Puts the bytes in the file's place.
pub fn replace(path: &Path, bytes: &[u8]) -> Outcome<()> {
    let failed = |why: io::Error| unwritten(path, &why);
    let place = real_place(path).map_err(failed)?;
    let beside = beside(&place);
    let done = write_new(&beside, &place, bytes).and_then(|_| fs::rename(&beside, &place));
    if done.is_err() {
        let _ = fs::remove_file(&beside);
    }
    done.map_err(failed)?;
    flush_folder(&place);
    Ok(())
}

/// Whether a file can stand there, as far as that can be told before.
pub fn look(path: &Path) -> Outcome<()> {
    let place = real_place(path).map_err(|why| unwritten(path, &why))?;
    fs::metadata(folder_of(&place)).map_err(|why| unwritten(path, &why)).map(|_| ())
}

fn unwritten(path: &Path, why: &io::Error) -> Trouble {
    let trouble = Trouble::new(Status::File, format!("{} could not be written: {}", shown(path), reason(why)));
    let folder = folder_of(path);
    if why.kind() == ErrorKind::NotFound && !folder.exists() {
        trouble.advise(format!("there is no folder {}: make it first", shown(folder)))
    } else if path.exists() {
        trouble.advise("it is as it was before")
    } else {
        trouble
    }
}

pub fn folder_of(place: &Path) -> &Path {
    match place.parent() {
        Some(folder) if folder != Path::new("") => folder,
        _ => Path::new("."),
    }
}

/// The file that a path stands for, behind links. Only a file is replaced: a device or a folder is not.
fn real_place(path: &Path) -> io::Result<PathBuf> {
    match fs::metadata(path) {
        Ok(about) if about.is_file() => path.canonicalize(),
        Ok(_) => Err(io::Error::new(ErrorKind::Other, "it is no regular file")),
        Err(why) if why.kind() == ErrorKind::NotFound && !is_link(path) => Ok(path.to_path_buf()),
        Err(why) => Err(why),
    }
}

/// A link that leads nowhere is left alone.
fn is_link(path: &Path) -> bool {
    fs::symlink_metadata(path).map_or(false, |about| about.file_type().is_symlink())
}

fn beside(place: &Path) -> PathBuf {
    let now = SystemTime::now().duration_since(UNIX_EPOCH).map_or(0, |since| since.subsec_nanos());
    let mut name = place.file_name().unwrap_or_default().to_os_string();
    name.push(format!(".{}-{}.new", std::process::id(), now));
    place.with_file_name(name)
}

/// The new file, on the disk, with the rights of the old one.
fn write_new(beside: &Path, place: &Path, bytes: &[u8]) -> io::Result<()> {
    let mut file = OpenOptions::new().write(true).create_new(true).open(beside)?;
    if let Ok(about) = fs::metadata(place) {
        file.set_permissions(about.permissions())?;
    }
    file.write_all(bytes)?;
    file.sync_all()
}

/// That the name is on the disk too. Not every file system can say so, and the file is whole in either case.
pub fn flush_folder(place: &Path) {
    let _ = File::open(folder_of(place)).and_then(|folder| folder.sync_all());
}
