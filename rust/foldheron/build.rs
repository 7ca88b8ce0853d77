//! Links the archive for who builds with Cargo: FOLDHERON_ARCHIVE names libfoldheron.a or the folder that holds it. With rustc alone this is not
//! run, and the archive is named on the command line.

use std::ffi::OsStr;
use std::fs::File;
use std::io::{ErrorKind, Read};
use std::path::Path;

const WANTED: &str = "FOLDHERON_ARCHIVE must be the full path of libfoldheron.a or of the folder that holds it; \
                      `tools/archive` proves it and writes it to target/staticlib";

/// The folder that the variable names, by itself or by the file in it, or what is wrong with it.
fn folder() -> Result<String, String> {
    let folder = std::env::var("FOLDHERON_ARCHIVE").map_err(|why| match why {
        std::env::VarError::NotPresent => "it is not set".to_string(),
        std::env::VarError::NotUnicode(_) => "it is no text in UTF-8, which Cargo needs".to_string(),
    })?;
    let path = Path::new(&folder);
    if path.is_relative() {
        // Cargo runs this in the wrapper's own folder, so a short path would not be taken from where the user is.
        return Err(format!("it is '{}', which is no full path", folder));
    }
    let place = match path.parent() {
        Some(parent) if path.is_file() && path.file_name() == Some(OsStr::new("libfoldheron.a")) => parent,
        _ if path.is_file() => return Err(format!("it is '{}', a file that is not called libfoldheron.a", folder)),
        _ => path,
    };
    let mut head = [0; 7];
    match File::open(place.join("libfoldheron.a")).and_then(|mut file| file.read_exact(&mut head)) {
        Ok(()) if &head == b"!<arch>" => Ok(place.display().to_string()),
        Err(why) if why.kind() != ErrorKind::UnexpectedEof => Err(format!("it is '{}', and libfoldheron.a cannot be read there: {}", folder, why)),
        _ => Err(format!("it is '{}', and libfoldheron.a there is no static library: it does not begin with !<arch>", folder)),
    }
}

fn main() {
    println!("cargo:rerun-if-env-changed=FOLDHERON_ARCHIVE");
    match folder() {
        Ok(folder) => {
            println!("cargo:rerun-if-changed={}/libfoldheron.a", folder);
            println!("cargo:rustc-link-search=native={}", folder);
            println!("cargo:rustc-link-lib=static=foldheron");
        }
        Err(why) => {
            eprintln!("{} ({})", WANTED, why);
            std::process::exit(1);
        }
    }
}
