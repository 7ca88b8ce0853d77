//! What the program is, how each subcommand is called, and the exit statuses.

use super::{find, Command, COMMANDS};
use crate::args::Words;
use crate::layout::{BLOCK_MOST, RECORD, STATE};
use crate::output::Out;
use crate::status::{list, Status};
use crate::trouble::Outcome;
use crate::walk::grouped;

pub static COMMAND: Command = Command {
    name: "help",
    does: "says how the program, or a subcommand, is called",
    call: "[SUBCOMMAND]",
    options: &[],
    more: "",
    run,
};

fn run(words: &Words, out: &mut Out) -> Outcome<Status> {
    if words.free.is_empty() {
        return all(out);
    }
    let [word] = words.exactly(["a subcommand"])?;
    one(find(&word.to_string_lossy())?, out)
}

/// The names of all, for a line of advice.
pub fn one_line() -> String {
    let names: Vec<&str> = COMMANDS.iter().map(|command| command.name).collect();
    format!("the subcommands: {}", names.join(", "))
}

/// The first digits of the SHA-256 of the library that is linked, as tools/tool gives them to the compiler.
const LIBRARY: Option<&str> = option_env!("FOLDHERON_LIBRARY");

pub fn version(out: &mut Out) -> Outcome<Status> {
    let most = grouped(BLOCK_MOST as u64);
    out.line(&format!("foldheron {}", foldheron::VERSION))?;
    out.line(&format!("blocks of edition 1, and of edition 2 to convert, up to {} bytes; states of {} bytes; log records of {} bytes", most, STATE, RECORD))?;
    out.line(&library())?;
    Ok(Status::Good)
}

/// Which library is linked.
pub fn library() -> String {
    match LIBRARY {
        Some(digits) => format!("the static library that it was linked with: SHA-256 {}..", digits),
        None => "the static library that it was linked with was not told when it was compiled".to_string(),
    }
}

pub fn all(out: &mut Out) -> Outcome<Status> {
    out.text("foldheron: builds, checks, shows and runs logic blocks written in kernel Esterel\n\n")?;
    for command in COMMANDS {
        out.line(&format!("  foldheron {:8} {}", command.name, command.does))?;
    }
    out.text("\nfoldheron help SUBCOMMAND, or foldheron SUBCOMMAND --help, says more; foldheron --version says which this is.\n")?;
    out.text("Where a block's file is asked for, a folder stands for the block.bin in it, and - for standard input. -o is short for --to.\n\n")?;
    statuses(out)
}

fn statuses(out: &mut Out) -> Outcome<Status> {
    out.text("Exit statuses, the same for every subcommand; of several that apply 5 comes before the others, then the lowest:\n")?;
    out.text(&list())?;
    Ok(Status::Good)
}

pub fn one(command: &Command, out: &mut Out) -> Outcome<Status> {
    out.line(&format!("foldheron {} {}", command.name, command.call))?;
    out.line(&format!("  {}", command.does))?;
    if !command.options.is_empty() {
        out.text("\n")?;
    }
    for option in command.options {
        let name = option.value.map_or(option.name.to_string(), |value| format!("{} {}", option.name, value));
        out.line(&format!("  {:15} {}", name, option.help.replace('\n', &format!("\n{}", " ".repeat(18)))))?;
    }
    if !command.more.is_empty() {
        out.text("\n")?;
        out.text(command.more)?;
    }
    out.text("\n")?;
    statuses(out)
}
