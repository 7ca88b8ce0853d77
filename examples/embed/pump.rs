//! Runs a block on sets of inputs, as the run program does, and keeps a log of it: pump FOLDER reads FOLDER/block.bin and
//! FOLDER/inputs.bin and prints a line an instant: its number, the refusal or 0, the code, the present outputs, the active pauses (of
//! a 13, the undecided outputs), the rounds. Last, on standard error, how long the log is. A file that is missing or cannot be read ends it
//! with 1, after a line there.

use foldheron::{Instant, RECORD, STATE};
use std::io::Write;
use std::path::Path;

/// The numbers of a line from the code on.
fn line(answer: Instant) -> (u16, u64, u16, u16) {
    match answer {
        Instant::Answered(r) => (r.code, r.present, r.active, r.rounds),
        Instant::NotConstructive(d) => (0, d.present, d.undecided, d.rounds),
        Instant::Clash(_, _) | Instant::Refused(_) => (0, 0, 0, 0),
    }
}

/// Runs every set of inputs from fresh; refused, an instant leaves state and log as they were, and the log's end with them.
fn run(block: &[u8], inputs: &[u8], state: &mut [u8; STATE], out: &mut dyn Write) -> std::io::Result<()> {
    let mut log = vec![0; inputs.len() / 8 * RECORD];
    let mut end = 0;
    for (n, set) in inputs.chunks_exact(8).enumerate() {
        let mut bytes = [0; 8];
        bytes.copy_from_slice(set);
        let logged = foldheron::instant_logged(block, state, u64::from_le_bytes(bytes), &mut log, end);
        if let Instant::Answered(_) = logged.answer {
            end = logged.end;
        }
        let (code, present, count, rounds) = line(logged.answer);
        writeln!(out, "{} {} {} {} {} {}", n + 1, logged.answer.number(), code, present, count, rounds)?;
    }
    if inputs.len() % 8 != 0 {
        writeln!(out, "short")?;
    }
    eprintln!("{} bytes of log", end);
    Ok(())
}

/// The bytes of a file of the folder, or its path and the system's reason.
fn read(folder: &Path, name: &str) -> Result<Vec<u8>, String> {
    let path = folder.join(name);
    std::fs::read(&path).map_err(|why| format!("{}: {}", path.display(), why))
}

fn run_folder(folder: &Path) -> Result<(), String> {
    let block = read(folder, "block.bin")?;
    let mut state = [0; STATE];
    let mut out = std::io::BufWriter::new(std::io::stdout());
    let written = match foldheron::fresh(&block, &mut state) {
        Ok(()) => run(&block, &read(folder, "inputs.bin")?, &mut state, &mut out),
        Err(refusal) => writeln!(out, "block {} {}", refusal.number, refusal.place),
    };
    written.and_then(|_| out.flush()).map_err(|why| format!("standard output: {}", why))
}

fn main() {
    let folders: Vec<_> = std::env::args_os().skip(1).collect();
    if folders.len() != 1 {
        eprintln!("pump: name one folder that holds block.bin and inputs.bin");
        std::process::exit(2);
    }
    if let Err(why) = run_folder(Path::new(&folders[0])) {
        eprintln!("pump: {}", why);
        std::process::exit(1);
    }
}
