//! `replay FILE`, or `replay` with the session file on standard input: the report goes to
//! standard output.

use std::env;
use std::ffi::OsString;
use std::fs;
use std::io::{self, Read, Write};
use std::process::ExitCode;

use reference::files::report;

fn main() -> ExitCode {
    match run() {
        Ok(()) => ExitCode::SUCCESS,
        Err(message) => {
            eprintln!("replay: {message}");
            ExitCode::from(2)
        }
    }
}

fn run() -> Result<(), String> {
    let arguments: Vec<OsString> = env::args_os().skip(1).collect();
    let file = match &arguments[..] {
        [] => standard_input().map_err(|error| format!("standard input: {error}"))?,
        [path] => fs::read(path).map_err(|error| format!("{}: {error}", path.to_string_lossy()))?,
        _ => return Err("usage: replay [FILE]".to_string()),
    };
    let mut output = io::stdout().lock();
    output
        .write_all(report(&file).as_bytes())
        .and_then(|()| output.flush())
        .map_err(|error| format!("standard output: {error}"))
}

fn standard_input() -> io::Result<Vec<u8>> {
    let mut file = Vec::new();
    io::stdin().lock().read_to_end(&mut file)?;
    Ok(file)
}
