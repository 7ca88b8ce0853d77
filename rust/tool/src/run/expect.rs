//! A run held to the lines that are expected, which are those of the run program: the first that differs ends it.

use super::plain::{self, block_line};
use super::style::{Step, Style, Tally};
use crate::block::Report;
use crate::files;
use crate::labels::{members, Labels};
use crate::output::{put_error, warn, Out};
use crate::status::Status;
use crate::trouble::{Outcome, Trouble};
use crate::walk::{counted, grouped};
use std::io::{BufRead, BufReader, Read};
use std::path::{Path, PathBuf};

/// A line of a run is shorter.
const LONGEST: usize = 126;

pub struct Expect<'a> {
    path: PathBuf,
    expected: BufReader<Box<dyn Read>>,
    /// What is printed besides.
    form: Option<Box<dyn Style + 'a>>,
    labels: Option<&'a Labels>,
    lines: u64,
}

impl<'a> Expect<'a> {
    pub fn open(path: &Path, form: Option<Box<dyn Style + 'a>>, labels: Option<&'a Labels>) -> Outcome<Expect<'a>> {
        let file = files::open(path).map_err(|why| files::unread(path, &why))?;
        Ok(Expect { path: path.to_path_buf(), expected: BufReader::new(file), form, labels, lines: 0 })
    }

    /// The next line that is expected, without its end, or as much of it as a line can have; none at the end.
    fn next(&mut self) -> Outcome<Option<String>> {
        let mut line = Vec::new();
        loop {
            let here = self.expected.fill_buf().map_err(|why| files::unread(&self.path, &why))?;
            let end = here.iter().position(|byte| *byte == b'\n');
            let some = &here[..end.unwrap_or(here.len())];
            line.extend_from_slice(&some[..some.len().min(LONGEST.saturating_sub(line.len()))]);
            let (taken, last) = (end.map_or(here.len(), |at| at + 1), here.is_empty());
            self.expected.consume(taken);
            if last && line.is_empty() {
                return Ok(None);
            }
            if last || end.is_some() || line.len() == LONGEST {
                return Ok(Some(String::from_utf8_lossy(&line).trim_end_matches('\r').to_string()));
            }
        }
    }

    /// Compares a line that the run has, or that it has none more.
    fn compare(&mut self, got: Option<&str>) -> Outcome<()> {
        let expected = self.next()?;
        if expected.is_none() && self.lines == 0 {
            warn(format!("{} has no line: there is nothing to compare", files::shown(&self.path)), "it wants the lines of a run that was looked at, as --plain prints them");
        }
        if expected.as_deref() == got {
            self.lines += u64::from(got.is_some());
            return Ok(());
        }
        let quoted = |line: Option<&str>, none: &str| line.map_or(none.to_string(), |line| format!("'{}'", files::printable(line)));
        let said = format!("not as expected: line {} of {} is the first that differs", grouped(self.lines + 1), files::shown(&self.path));
        let trouble = Trouble::new(Status::NotExpected, said)
            .advise(format!("expected: {}", quoted(expected.as_deref(), "no line more")))
            .advise(format!("the run:  {}", quoted(got, "no line more")));
        let fields = expected.zip(got).map_or(Vec::new(), |(expected, got)| self.fields(&expected, got));
        Err(fields.into_iter().fold(trouble, Trouble::advise))
    }

    /// Which of the six numbers of a line differ.
    fn fields(&self, expected: &str, got: &str) -> Vec<String> {
        let names = ["instant", "refusal", "code", "outputs", "active pauses", "rounds"];
        let numbers = |line: &str| line.split(' ').map(|word| word.parse().ok()).collect::<Option<Vec<u64>>>().filter(|all| all.len() == 6);
        let (expected, got) = match (numbers(expected), numbers(got)) {
            (Some(expected), Some(got)) => (expected, got),
            _ => return Vec::new(),
        };
        let told = |n: usize, number: u64| if n == 3 { self.outputs(number) } else { number.to_string() };
        let differ = (0..6).filter(|n| expected[*n] != got[*n]);
        differ.map(|n| format!("{}: expected {}, got {}", names[n], told(n, expected[n]), told(n, got[n]))).collect()
    }

    fn outputs(&self, set: u64) -> String {
        let names: Vec<String> = members(set).map(|n| self.labels.map_or(format!("o{}", n), |labels| labels.output(n))).collect();
        format!("{} ({})", set, if names.is_empty() { "none".to_string() } else { names.join(" ") })
    }

    /// That every line was as expected: on standard error where something else is printed.
    fn good(&self, out: &mut Out) -> Outcome<()> {
        let said = format!("as expected: {}", counted(self.lines, "line"));
        if self.form.is_none() {
            return out.line(&said);
        }
        put_error(&format!("foldheron: {}\n", said));
        Ok(())
    }
}

impl Style for Expect<'_> {
    fn begin(&mut self, out: &mut Out) -> Outcome<()> {
        self.form.as_mut().map_or(Ok(()), |form| form.begin(out))
    }

    fn step(&mut self, step: &Step, out: &mut Out) -> Outcome<()> {
        if let Some(form) = self.form.as_mut() {
            form.step(step, out)?;
        }
        self.compare(Some(&plain::line(step)))
    }

    fn is_silent(&self) -> bool {
        self.form.is_none()
    }

    fn end(&mut self, tally: &Tally, out: &mut Out) -> Outcome<()> {
        if let Some(form) = self.form.as_mut() {
            form.end(tally, out)?;
        }
        if tally.short > 0 {
            self.compare(Some(plain::SHORT))?;
        }
        self.compare(None)?;
        self.good(out)
    }

    fn refused(&mut self, report: &Report, out: &mut Out) -> Outcome<()> {
        if let Some(form) = self.form.as_mut() {
            form.refused(report, out)?;
        }
        self.compare(Some(&block_line(report)))?;
        self.compare(None)?;
        self.good(out)
    }
}
