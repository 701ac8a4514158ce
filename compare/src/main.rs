//! Compares the proved gateway with the independent one: call by call through the static library,
//! report by report through the program `replay`. A difference is shown with its seed and on the
//! smallest session that still has it, as a text that `./session-file` reads where one can say it.
//! Forged records, which the independent one can't have, are held to the rule of number 4 alone.

#![forbid(unsafe_code)]

mod checks;
mod damage;
mod findings;
#[cfg(test)]
mod foreign;
mod gateways;
mod generate;
mod layout;
mod lines;
#[cfg(test)]
mod multi_line;
mod options;
mod random;
mod records;
mod replay;
mod samples;
mod session;
mod shrink;
mod states;
mod telnet;
#[cfg(test)]
mod telnet_cases;
mod text;

use std::process::ExitCode;

use options::Options;

fn main() -> ExitCode {
    if std::env::args().any(|argument| argument == "--help" || argument == "-h") {
        println!("{}", options::USAGE);
        return ExitCode::SUCCESS;
    }
    let options = match Options::read(std::env::args().skip(1)) {
        Ok(options) => options,
        Err(message) => {
            eprintln!("compare: {message}\n{}", options::USAGE);
            return ExitCode::from(2);
        }
    };
    match checks::all(&options) {
        Ok(summary) => {
            println!("{summary}");
            ExitCode::SUCCESS
        }
        Err(checks::Failure::Differs(finding)) => {
            println!("{finding}");
            ExitCode::from(1)
        }
        Err(checks::Failure::Broken(message)) => {
            eprintln!("compare: {message}");
            ExitCode::from(2)
        }
    }
}
