//! The program `replay`, one process for each session file.

use std::io::{self, Write};
use std::path::{Path, PathBuf};
use std::process::{Command, Output, Stdio};

pub struct Replay {
    program: PathBuf,
}

impl Replay {
    pub fn new(program: &Path) -> Replay {
        let program = program.to_path_buf();
        Replay { program }
    }

    /// The report on a named file.
    pub fn of_path(&self, path: &Path) -> io::Result<Vec<u8>> {
        let done = Command::new(&self.program).arg(path).output()?;
        Ok(written(done))
    }

    /// The report on a file handed in by standard input.
    pub fn of_octets(&self, file: &[u8]) -> io::Result<Vec<u8>> {
        let mut child = Command::new(&self.program)
            .stdin(Stdio::piped())
            .stdout(Stdio::piped())
            .stderr(Stdio::piped())
            .spawn()?;
        if let Some(mut input) = child.stdin.take() {
            // A program that ends before it has read all of it shows that in its report.
            let _ = input.write_all(file);
        }
        Ok(written(child.wait_with_output()?))
    }

    /// What the program writes, if it is not what the reference does.
    pub fn difference(&self, file: &[u8]) -> io::Result<Option<Vec<u8>>> {
        let ours = self.of_octets(file)?;
        let theirs = reference::files::report(file);
        Ok((ours != theirs.as_bytes()).then_some(ours))
    }
}

/// A program that fails or complains has no report: what it says stands in its place.
fn written(done: Output) -> Vec<u8> {
    if done.status.success() && done.stderr.is_empty() {
        return done.stdout;
    }
    let said = String::from_utf8_lossy(&done.stderr);
    let written = String::from_utf8_lossy(&done.stdout);
    format!("{written}[{}, and said: {said}]", done.status).into_bytes()
}
