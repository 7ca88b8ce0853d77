//! The subcommands. A new one is a module, and a line in the list.

use crate::args::{nearest, Opt, Words};
use crate::output::Out;
use crate::status::Status;
use crate::trouble::{Outcome, Trouble};

pub mod build;
pub mod check;
pub mod convert;
pub mod copies;
pub mod excerpt;
pub mod fmt;
pub mod help;
pub mod log;
pub mod maze;
pub mod names;
pub mod report;
pub mod same;
pub mod shelf;
pub mod show;
pub mod state;

pub struct Command {
    pub name: &'static str,
    /// What it does, in a line.
    pub does: &'static str,
    /// How it is called, after its name.
    pub call: &'static str,
    pub options: &'static [Opt],
    /// What the help says besides.
    pub more: &'static str,
    pub run: fn(&Words, &mut Out) -> Outcome<Status>,
}

pub static COMMANDS: [&Command; 17] = [
    &check::COMMAND,
    &build::COMMAND,
    &fmt::COMMAND,
    &show::COMMAND,
    &crate::run::COMMAND,
    &crate::why::COMMAND,
    &maze::COMMAND,
    &report::COMMAND,
    &excerpt::COMMAND,
    &same::COMMAND,
    &copies::COMMAND,
    &convert::COMMAND,
    &state::COMMAND,
    &log::COMMAND,
    &names::COMMAND,
    &shelf::COMMAND,
    &help::COMMAND,
];

pub fn find(name: &str) -> Outcome<&'static Command> {
    COMMANDS.iter().copied().find(|command| command.name == name).ok_or_else(|| unknown(name))
}

pub fn unknown(name: &str) -> Trouble {
    let trouble = Trouble::call(format!("there is no subcommand '{}'", name));
    let same = COMMANDS.iter().map(|command| command.name).find(|other| other.eq_ignore_ascii_case(name));
    match same.or_else(|| nearest(name, COMMANDS.iter().map(|command| command.name))) {
        Some(near) => trouble.advise(format!("is '{}' meant?", near)),
        None => trouble.advise(help::one_line()),
    }
}
