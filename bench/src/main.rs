//! Measures the proved gateway through its static library beside the reference gateway.
//! docs/BENCHMARKS.md says how to run it and what it measures.

#![deny(unsafe_code)]

#[allow(unsafe_code)]
mod clock;
mod document;
mod figures;
mod gateways;
mod instructions;
mod play;
mod plot;
mod report;
mod stack;
mod sweep;
mod timing;
mod workloads;

use std::path::Path;
use std::process::ExitCode;

const ROUNDS: usize = 300;

const USAGE: &str = "\
usage: bench [ROUNDS]                   the table of times
       bench --instructions             the table of instructions, by callgrind
       bench --stack                    the stack that a call needs, by objdump
       bench --plot FILE.svg [ROUNDS]   the plot of a call's cost by its octets
       bench --document FILE [ROUNDS]   all of these: a document's figures, and the plot beside it
       bench --help                     this text";

enum Failure {
    Misused,
    /// With what went wrong: the gateways differ, or a file can't be written.
    Failed(String),
}

impl From<String> for Failure {
    fn from(message: String) -> Failure {
        Failure::Failed(message)
    }
}

fn main() -> ExitCode {
    let arguments: Vec<String> = std::env::args().skip(1).collect();
    let arguments: Vec<&str> = arguments.iter().map(String::as_str).collect();
    let (message, status) = match perform(&arguments) {
        Ok(()) => return ExitCode::SUCCESS,
        Err(Failure::Failed(message)) => (message, 1),
        Err(Failure::Misused) => (USAGE.to_string(), 2),
    };
    eprintln!("{message}");
    ExitCode::from(status)
}

fn perform(arguments: &[&str]) -> Result<(), Failure> {
    match arguments {
        ["--help" | "-h", ..] => println!("{USAGE}"),
        ["--instructions"] => print!("{}", report::instructions()?),
        ["--stack"] => println!("{}", report::stack()),
        ["--plot", file, rounds @ ..] => report::plot(Path::new(file), read_rounds(rounds)?)?,
        ["--document", file, rounds @ ..] => {
            report::document(Path::new(file), read_rounds(rounds)?)?;
        }
        // How the instructions are counted: the program runs itself like this.
        ["--run", gateway, workload, cycles] => {
            let run = instructions::run(gateway, read(workload)?, read(cycles)?);
            run.ok_or(Failure::Misused)?;
        }
        rounds => report::times(read_rounds(rounds)?, |part| print!("{part}"))?,
    }
    Ok(())
}

fn read(word: &str) -> Result<usize, Failure> {
    word.parse().map_err(|_| Failure::Misused)
}

fn read_rounds(words: &[&str]) -> Result<usize, Failure> {
    match words {
        [] => Ok(ROUNDS),
        [word] if *word != "0" => read(word),
        _ => Err(Failure::Misused),
    }
}
