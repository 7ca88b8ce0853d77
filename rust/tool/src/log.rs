//! A log: records one after the other. Read one at a time, or appended to.

use crate::files::{self, shown};
use crate::labels::Labels;
use crate::layout::{begins_state, record_length, Header, LogRecord, HEAD, LOG_KIND, OLD_STATE, RECORD, STATE};
use crate::replace::flush_folder;
use crate::sets::sentence;
use crate::status::Status;
use crate::trouble::{reason, Outcome, Trouble};
use crate::walk::{counted, grouped};
use std::fs::{File, OpenOptions};
use std::io::{self, BufReader, ErrorKind, Read, Seek, SeekFrom, Write};
use std::path::{Path, PathBuf};

/// How many records are kept before they are written.
const KEPT: usize = 1024;

/// A log that records are put behind.
pub struct Log {
    path: PathBuf,
    file: File,
    /// How long it was before; none of what has no length, as a pipe.
    before: Option<u64>,
    /// Whether it was not there before.
    is_new: bool,
    kept: Vec<u8>,
}

impl Log {
    /// Opens a log, or begins one. What is there has to be a log of whole records, and nothing in it may show that it is another block's.
    pub fn open(path: &Path, labels: &Labels) -> Outcome<Log> {
        let failed = |why: io::Error| unwritten(path, &why);
        let is_new = std::fs::symlink_metadata(path).is_err();
        let mut file = OpenOptions::new().read(true).append(true).create(true).open(path).map_err(failed)?;
        let about = file.metadata().map_err(failed)?;
        let before = Some(about.len()).filter(|_| about.is_file());
        if let Some(length) = before {
            look_at(path, &mut file, length, labels)?;
        }
        Ok(Log { path: path.to_path_buf(), file, before, is_new, kept: Vec::with_capacity(KEPT * RECORD) })
    }

    pub fn append(&mut self, record: &[u8]) -> Outcome<()> {
        self.kept.extend_from_slice(record);
        if self.kept.len() < KEPT * RECORD {
            return Ok(());
        }
        self.write()
    }

    fn write(&mut self) -> Outcome<()> {
        let written = self.file.write_all(&self.kept);
        self.kept.clear();
        written.map_err(|why| unwritten(&self.path, &why))
    }

    /// Writes what is kept, and sees that it is on the disk.
    pub fn flush(&mut self) -> Outcome<()> {
        self.write()?;
        if self.is_new {
            flush_folder(&self.path);
        }
        match self.file.sync_data() {
            Err(why) if why.kind() != ErrorKind::InvalidInput => Err(unwritten(&self.path, &why)),
            _ => Ok(()),
        }
    }

    /// Takes back what this run wrote; answers how that went.
    pub fn take_back(self) -> String {
        if self.is_new && std::fs::remove_file(&self.path).is_ok() {
            return format!("{} was not there before, and is not now", shown(&self.path));
        }
        match self.before.map(|length| self.file.set_len(length)) {
            Some(Ok(())) => format!("{} is as long as it was before", shown(&self.path)),
            Some(Err(why)) => format!("{} could not be cut back to its {}: {}", shown(&self.path), bytes(self.before), reason(&why)),
            None => format!("what was written to {} stays", shown(&self.path)),
        }
    }
}

fn bytes(count: Option<u64>) -> String {
    counted(count.unwrap_or(0), "byte")
}

fn unwritten(path: &Path, why: &io::Error) -> Trouble {
    Trouble::new(Status::File, format!("the log {} could not be written: {}", shown(path), reason(why)))
}

/// Why a record cannot be one of a block with these signals; none where it can, which is no proof that it is.
pub fn cannot_be(record: &LogRecord, labels: &Labels) -> Option<String> {
    let (inputs, outputs) = (labels.all_inputs(), labels.all_outputs());
    let told = record.inputs | record.absent.unwrap_or(0);
    let both = record.inputs & record.absent.unwrap_or(0);
    let has = || format!("the block has {} and {}", counted(labels.inputs().len() as u64, "input"), counted(labels.outputs().len() as u64, "output"));
    if told & !inputs != 0 {
        Some(format!("it has {} among its inputs, and {}", sentence(told & !inputs, |n| format!("signal {}", n)), has()))
    } else if record.outputs & !outputs != 0 {
        Some(format!("it has {} among its outputs, and {}", sentence(record.outputs & !outputs, |n| format!("signal {}", n)), has()))
    } else if both != 0 {
        Some(format!("it has {} as present and as absent", sentence(both, |n| labels.input(n))))
    } else if record.code > 1 {
        Some(format!("it has the code {}, and a block gives 0 or 1", record.code))
    } else {
        None
    }
}

/// A log that is not appended to, for one of its records is another block's.
fn foreign(path: &Path, number: u64, why: &str) -> Trouble {
    Trouble::new(Status::Refused, format!("{} is left as it is: record {} cannot be this block's: {}", shown(path), grouped(number), why))
        .advise("a log does not name its block: name this block's log, or another file, which begins a new one")
}

/// That the first and the last records of a log of new records alone may be the block's.
fn ends_may_be(path: &Path, file: &mut File, length: u64, labels: &Labels) -> Outcome<()> {
    let most = (KEPT * RECORD) as u64;
    for start in [0, length.saturating_sub(most)] {
        file.seek(SeekFrom::Start(start)).map_err(|why| files::unread(path, &why))?;
        let mut records = Records::new(BufReader::new(&mut *file).take(most), path);
        while let Next::Record(record) = records.next()? {
            if let Some(why) = cannot_be(&record, labels) {
                return Err(foreign(path, start / RECORD as u64 + records.number, &why));
            }
        }
    }
    Ok(())
}

/// That a file which is appended to is a log of whole records, none of them another block's as far as it shows. One of new records alone is told by
/// its ends; any other is read from the front, for its records have two lengths.
fn look_at(path: &Path, file: &mut File, length: u64, labels: &Labels) -> Outcome<()> {
    let failed = |why: io::Error| files::unread(path, &why);
    let none = |why: String| Trouble::new(Status::Refused, format!("{} is left as it is: {}", shown(path), why));
    let is_told = length == 0 || length % RECORD as u64 == 0 && has_new_ends(file, length).map_err(failed)?;
    if is_told {
        return ends_may_be(path, file, length, labels);
    }
    file.seek(SeekFrom::Start(0)).map_err(failed)?;
    let mut records = Records::new(BufReader::new(file), path);
    loop {
        match records.next()? {
            Next::Record(record) => match cannot_be(&record, labels) {
                Some(why) => return Err(foreign(path, records.number, &why)),
                None => {}
            },
            Next::End => return Ok(()),
            Next::Strange(_) if records.number == 0 => return Err(none("it is no log".to_string())),
            Next::Strange(_) => return Err(none(format!("record {}, at offset {}, is no log record", grouped(records.number + 1), grouped(records.at)))),
            Next::Short(torn) => {
                return Err(none(format!("its last record is cut off, {}", counted(torn.len() as u64, "byte")))
                    .advise("a run was killed while it wrote; what came before is whole")
                    .advise(format!("to cut the rest off: truncate -s {} {}", records.at, shown(path))))
            }
        }
    }
}

/// Whether a new record's head stands at the front, and where the last record would begin.
fn has_new_ends(file: &mut File, length: u64) -> io::Result<bool> {
    for at in [0, length - RECORD as u64] {
        let mut head = [0; HEAD];
        file.seek(SeekFrom::Start(at))?;
        file.read_exact(&mut head)?;
        if record_length(&head) != Some(RECORD) {
            return Ok(false);
        }
    }
    Ok(true)
}

/// What comes next in a log that is read.
pub enum Next {
    Record(LogRecord),
    /// The first bytes of a record that is not whole.
    Short(Vec<u8>),
    /// Some bytes that begin no log record.
    Strange(Vec<u8>),
    End,
}

/// The records of a log, new and old ones as they come.
pub struct Records<'a, R> {
    reader: R,
    path: &'a Path,
    /// How many records were read, and how many bytes they have.
    pub number: u64,
    pub at: u64,
}

impl<'a, R: Read> Records<'a, R> {
    pub fn new(reader: R, path: &'a Path) -> Records<'a, R> {
        Records { reader, path, number: 0, at: 0 }
    }

    pub fn next(&mut self) -> Outcome<Next> {
        let mut bytes = Vec::with_capacity(RECORD);
        self.fill(&mut bytes, HEAD)?;
        let length = record_length(&bytes);
        if bytes.len() == HEAD {
            self.fill(&mut bytes, length.unwrap_or(RECORD))?;
        }
        Ok(match (length, LogRecord::of(&bytes)) {
            _ if bytes.is_empty() => Next::End,
            (Some(length), Some(record)) => {
                self.number += 1;
                self.at += length as u64;
                Next::Record(record)
            }
            (None, _) if bytes.len() >= HEAD => Next::Strange(bytes),
            _ => Next::Short(bytes),
        })
    }

    /// Reads up to so many bytes in all, or as many as there are.
    fn fill(&mut self, bytes: &mut Vec<u8>, most: usize) -> Outcome<()> {
        let more = (most - bytes.len()) as u64;
        self.reader.by_ref().take(more).read_to_end(bytes).map(|_| ()).map_err(|why| files::unread(self.path, &why))
    }
}

/// What a file is that begins with these bytes in the place of its first record, where that can be told, and what shows it.
pub fn other_file(number: u64, bytes: &[u8]) -> Option<(&'static str, &'static str)> {
    if number != 1 {
        None
    } else if Header::of(bytes).is_some() {
        Some(("a block", "show"))
    } else if begins_state(bytes, STATE as u64) || begins_state(bytes, OLD_STATE as u64) {
        Some(("a state", "state"))
    } else {
        None
    }
}

/// A file that is something else than a log.
pub fn no_log(path: &Path, (what, shows): (&str, &str)) -> Trouble {
    Trouble::new(Status::Refused, format!("{} is no log: this is {}", shown(path), what)).advise(format!("foldheron {} shows it; name the log here", shows))
}

/// A record of a log that is none, with its number and where it begins.
pub fn no_record(path: &Path, number: u64, at: u64, record: &[u8]) -> Trouble {
    if let Some(other) = other_file(number, record) {
        return no_log(path, other);
    }
    let bytes: Vec<String> = record.iter().take(8).map(|byte| format!("{:02X}", byte)).collect();
    let said = format!("{}: record {}, at offset {}, is no log record", shown(path), grouped(number), grouped(at));
    Trouble::new(Status::Refused, said)
        .advise(format!("it begins with {}, and a record with {:02X} 00 {:02X} 00: length {}, kind {}", bytes.join(" "), RECORD, LOG_KIND, RECORD, LOG_KIND))
        .advise("look whether this is the log you mean; records after it cannot be told")
}
