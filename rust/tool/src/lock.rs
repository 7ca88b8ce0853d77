//! One writer at a time on a file that is replaced. The lock is the system's, on the file itself: it ends with the program however that ends, so
//! a kill leaves none over, and no file has to stand beside it. A writer puts another file in this one's place, so who gets the lock looks
//! whether the file is still the one of that name, and asks again where it is not.

use crate::files::shown;
use crate::status::Status;
use crate::system;
use crate::trouble::{reason, Outcome, Trouble};
use std::fs::{self, File, OpenOptions};
use std::io::{self, ErrorKind};
use std::os::unix::fs::MetadataExt;
use std::path::Path;
use std::thread::sleep;
use std::time::{Duration, Instant};

/// How long a writer waits for the others, each of which takes some milliseconds.
const WAIT: Duration = Duration::from_secs(5);
const PAUSE: Duration = Duration::from_millis(5);

/// Held as long as it is kept.
pub struct Lock {
    _file: File,
}

/// Takes the lock of a file that is there, once those who have it are done.
pub fn take(path: &Path) -> Outcome<Lock> {
    let failed = |why: io::Error| Trouble::new(Status::File, format!("{} could not be locked: {}", shown(path), reason(&why)));
    let until = Instant::now() + WAIT;
    loop {
        let file = OpenOptions::new().read(true).write(true).open(path).map_err(failed)?;
        if !file.metadata().map_err(failed)?.is_file() {
            return Err(failed(io::Error::new(ErrorKind::Other, "it is no regular file")));
        }
        if system::lock(&file).map_err(failed)? && is_in_place(&file, path) {
            return Ok(Lock { _file: file });
        }
        if Instant::now() >= until {
            let said = format!("{} is being written by another program", shown(path));
            return Err(Trouble::new(Status::File, said).advise("it is as it was before; try again when the other is done"));
        }
        sleep(PAUSE);
    }
}

/// Whether the open file is the one that has the name now.
fn is_in_place(file: &File, path: &Path) -> bool {
    let which = |about: fs::Metadata| (about.dev(), about.ino());
    match (file.metadata().map(which), fs::metadata(path).map(which)) {
        (Ok(open), Ok(named)) => open == named,
        _ => false,
    }
}

/// Puts an empty file where none is, for whoever then takes its lock; answers whether it did.
pub fn make(path: &Path) -> Outcome<bool> {
    match OpenOptions::new().write(true).create_new(true).open(path) {
        Ok(_) => Ok(true),
        Err(why) if why.kind() == ErrorKind::AlreadyExists => Ok(false),
        Err(why) => Err(Trouble::new(Status::File, format!("{} could not be written: {}", shown(path), reason(&why)))),
    }
}

#[cfg(test)]
mod tests {
    use super::*;

    #[test]
    fn a_file_that_was_replaced_is_not_the_one_of_its_name() {
        let name = |what: &str| std::env::temp_dir().join(format!("foldheron-lock-{}-{}", std::process::id(), what));
        let (place, other) = (name("place"), name("other"));
        assert!(make(&place).unwrap() && !make(&place).unwrap() && make(&other).unwrap());
        let old = File::open(&place).unwrap();
        assert!(is_in_place(&old, &place) && take(&place).is_ok());
        fs::rename(&other, &place).unwrap();
        assert!(!is_in_place(&old, &place) && take(&place).is_ok());
        fs::remove_file(&place).unwrap();
        assert!(!is_in_place(&old, &place) && take(&place).is_err());
    }
}
