//! Sets of inputs as they come: 8 bytes each from a file or a pipe, of which every input is heard, or all at hand. Memory is constant.

use crate::files::{self, open};
use crate::layout::SET;
use crate::sets::Given;
use crate::trouble::Outcome;
use std::io::{self, ErrorKind, Read};
use std::path::{Path, PathBuf};

pub enum Next {
    Set(Given),
    /// The stream ends within a set, after so many of its bytes.
    Short(usize),
    End,
}

pub enum Source {
    Sets(std::vec::IntoIter<Given>),
    Stream(Stream),
}

pub struct Stream {
    path: PathBuf,
    reader: Box<dyn Read>,
    buffer: Vec<u8>,
    /// Where in the buffer the bytes that are not yet taken begin and end.
    start: usize,
    end: usize,
}

impl Source {
    pub fn of_sets(sets: Vec<Given>) -> Source {
        Source::Sets(sets.into_iter())
    }

    pub fn open(path: &Path) -> io::Result<Source> {
        let reader = open(path)?;
        Ok(Source::Stream(Stream { path: path.to_path_buf(), reader, buffer: vec![0; 1 << 16], start: 0, end: 0 }))
    }

    /// How many sets there are, where that can be told beforehand.
    pub fn total(&self) -> Option<u64> {
        match self {
            Source::Sets(sets) => Some(sets.len() as u64),
            Source::Stream(stream) => files::size(&stream.path).map(|bytes| bytes / SET as u64),
        }
    }

    /// Whether the next set is at hand, so that nothing has to be waited for.
    pub fn is_ready(&self) -> bool {
        match self {
            Source::Sets(_) => true,
            Source::Stream(stream) => stream.end - stream.start >= SET,
        }
    }

    pub fn next(&mut self) -> Outcome<Next> {
        match self {
            Source::Sets(sets) => Ok(sets.next().map_or(Next::End, Next::Set)),
            Source::Stream(stream) => stream.next(),
        }
    }
}

impl Stream {
    fn next(&mut self) -> Outcome<Next> {
        while self.end - self.start < SET {
            if self.read()? == 0 {
                let left = self.end - self.start;
                self.start = self.end;
                return Ok(if left == 0 { Next::End } else { Next::Short(left) });
            }
        }
        let mut set = [0; SET];
        set.copy_from_slice(&self.buffer[self.start..self.start + SET]);
        self.start += SET;
        Ok(Next::Set(Given::heard(u64::from_le_bytes(set))))
    }

    /// Reads some more bytes; none at the end.
    fn read(&mut self) -> Outcome<usize> {
        self.buffer.copy_within(self.start..self.end, 0);
        self.end -= self.start;
        self.start = 0;
        loop {
            match self.reader.read(&mut self.buffer[self.end..]) {
                Err(why) if why.kind() == ErrorKind::Interrupted => {}
                Err(why) => return Err(files::unread(&self.path, &why)),
                Ok(more) => {
                    self.end += more;
                    return Ok(more);
                }
            }
        }
    }
}
