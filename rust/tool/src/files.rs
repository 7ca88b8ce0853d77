//! Reading files: a block, a state or a names file never further than it may be long, so that no size is too large.

use crate::layout::{BLOCK_MOST, STATE};
use crate::status::Status;
use crate::trouble::{Outcome, Trouble};
use std::ffi::OsStr;
use std::fs::File;
use std::io::{self, ErrorKind, Read};
use std::path::{Component, Path, PathBuf};

/// The block's file in a folder.
const BLOCK: &str = "block.bin";
/// The text's file in a folder.
const TEXT: &str = "block.strl";
/// A text is read up to here: the longest that the library writes has a hundredth of it.
const TEXT_MOST: usize = 1 << 24;
/// The word for standard input.
pub const STDIN: &str = "-";

/// A path as it is shown.
pub fn shown(path: &Path) -> String {
    match path.to_str() {
        Some(STDIN) => "standard input".to_string(),
        _ => printable(&path.to_string_lossy()),
    }
}

/// A text with ? for what would move the cursor of a terminal.
pub fn printable(text: &str) -> String {
    text.chars().map(|c| if c.is_control() { '?' } else { c }).collect()
}

pub fn open(path: &Path) -> io::Result<Box<dyn Read>> {
    if path == Path::new(STDIN) {
        return Ok(Box::new(io::stdin()));
    }
    Ok(Box::new(File::open(path)?))
}

/// The first bytes of a file, `most` at most.
pub fn first(path: &Path, most: usize) -> io::Result<Vec<u8>> {
    let mut bytes = Vec::new();
    open(path)?.take(most as u64).read_to_end(&mut bytes)?;
    Ok(bytes)
}

/// The file that a word names: itself, or where it is a folder the block in it.
pub fn block_path(word: &OsStr) -> PathBuf {
    let path = PathBuf::from(word);
    if path.is_dir() {
        path.join(BLOCK)
    } else {
        path
    }
}

/// The text's file that a word names: itself, or where it is a folder the text in it.
pub fn text_path(word: &OsStr) -> PathBuf {
    let path = PathBuf::from(word);
    if path.is_dir() {
        path.join(TEXT)
    } else {
        path
    }
}

/// The bytes of a text.
pub fn text(path: &Path) -> Outcome<Vec<u8>> {
    let bytes = first(path, TEXT_MOST + 1).map_err(|why| unread(path, &why))?;
    if bytes.len() > TEXT_MOST {
        return Err(Trouble::new(Status::File, format!("{} has over 16 megabytes: it is no block's text", shown(path))));
    }
    Ok(bytes)
}

/// The bytes of a block: one more than it may have is enough to refuse it for its size.
pub fn block(path: &Path) -> Outcome<Vec<u8>> {
    first(path, BLOCK_MOST + 1).map_err(|why| unread(path, &why))
}

/// The bytes of a state, and one more where there are more.
pub fn state(path: &Path) -> Outcome<Vec<u8>> {
    first(path, STATE + 1).map_err(|why| unread(path, &why))
}

/// A file that could not be read, with what to look at.
pub fn unread(path: &Path, why: &io::Error) -> Trouble {
    let trouble = Trouble::file(shown(path), why);
    match why.kind() {
        ErrorKind::NotFound if is_folder_without_block(path) => trouble.advise("the folder is there, and it has no block.bin: name the block's file"),
        ErrorKind::NotFound => trouble.advise("look at the spelling; a path is taken from the folder you are in"),
        ErrorKind::PermissionDenied => trouble.advise("ask for the right to read it, or copy it elsewhere"),
        _ => trouble,
    }
}

/// Whether this is the block of a folder that is there.
fn is_folder_without_block(path: &Path) -> bool {
    path.file_name() == Some(OsStr::new(BLOCK)) && path.parent().map_or(false, Path::is_dir)
}

/// How many bytes a file has, where it is one that has an end.
pub fn size(path: &Path) -> Option<u64> {
    std::fs::metadata(path).ok().filter(|about| about.is_file()).map(|about| about.len())
}

/// Whether two paths name one file, be it there or not.
pub fn same(a: &Path, b: &Path) -> bool {
    real(a) == real(b)
}

/// The way from a folder to a file, where that can stand on a line of text.
pub fn way(folder: &Path, file: &Path) -> Option<String> {
    let (from, to) = (real(folder), real(file));
    let common = from.components().zip(to.components()).take_while(|(a, b)| a == b).count();
    let up = from.components().skip(common).map(|_| Component::ParentDir);
    let way: PathBuf = up.chain(to.components().skip(common)).collect();
    way.to_str().filter(|way| printable(way) == *way && way.trim() == *way && !way.is_empty()).map(str::to_string)
}

/// A path without links and dots, as far as it is there.
fn real(path: &Path) -> PathBuf {
    path.canonicalize().unwrap_or_else(|_| match (path.parent(), path.file_name()) {
        (Some(folder), Some(name)) => {
            let folder = if folder == Path::new("") { Path::new(".") } else { folder };
            folder.canonicalize().unwrap_or_else(|_| folder.to_path_buf()).join(name)
        }
        _ => path.to_path_buf(),
    })
}
