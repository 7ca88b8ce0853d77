//! `foldheron`: builds, checks, shows and runs blocks in words. Each subcommand is a module under `commands`; what they share stands beside this file.

mod args;
mod block;
mod carried;
mod cause;
mod commands;
mod draw;
mod everyday;
mod files;
mod grown;
mod hash;
mod json;
mod labels;
mod layout;
mod lock;
mod log;
mod names;
mod output;
mod refusal;
mod replace;
mod run;
mod saved;
mod sets;
mod shelf;
mod status;
mod system;
mod table;
mod text;
mod tree;
mod trouble;
mod walk;
mod why;

use commands::{find, help, unknown, Command};
use output::{say, Out};
use status::Status;
use std::ffi::OsString;
use trouble::{Outcome, Trouble};

/// A fault of the program, or a library that is not the one it is for, ends with a status too.
fn on_fault(said: &str) {
    say(&["the program has a fault, or was built with another library than its own".to_string(), said.replace('\n', " ")]);
    std::process::exit(Status::File.number().into());
}

fn main() {
    std::panic::set_hook(Box::new(|info| on_fault(&info.to_string())));
    let words: Vec<OsString> = std::env::args_os().skip(1).collect();
    let mut out = Out::new();
    let ended = called(&words, &mut out).and_then(|status| out.flush().map(|_| status));
    let status = ended.unwrap_or_else(|trouble| {
        // What was printed before comes first. Where it cannot be written that is told by now, or is the lesser trouble.
        let _ = out.flush();
        say(&trouble.lines);
        trouble.status
    });
    std::process::exit(status.number().into());
}

fn called(words: &[OsString], out: &mut Out) -> Outcome<Status> {
    let (first, rest) = match words.split_first() {
        Some(parts) => parts,
        None => return Err(Trouble::call("name a subcommand").advise(help::one_line()).advise("foldheron help says more")),
    };
    match first.to_str() {
        Some("--version" | "-V") => help::version(out),
        Some("--help" | "-h") => help::all(out),
        Some(name) => started(find(name)?, rest, out),
        None => Err(unknown(&first.to_string_lossy())),
    }
}

/// Runs a subcommand, or prints its help where that is asked for anywhere before a `--`.
fn started(command: &'static Command, rest: &[OsString], out: &mut Out) -> Outcome<Status> {
    let asked = rest.iter().take_while(|word| *word != "--").any(|word| word == "--help" || word == "-h");
    if asked {
        return help::one(command, out);
    }
    let ended = args::sort(command.options, rest).and_then(|words| (command.run)(&words, out));
    ended.map_err(|trouble| match trouble.status {
        Status::WrongCall => trouble.advise(format!("foldheron help {} says how it is called", command.name)),
        _ => trouble,
    })
}
