//! Runs the scripts of its standard input, each preceded by its length in four octets, high first,
//! and writes the results of each, preceded by theirs.

use std::io::{self, Read, Write};

use reference::calls::run_calls;

fn main() -> io::Result<()> {
    let mut input = Vec::new();
    io::stdin().read_to_end(&mut input)?;
    let mut output = io::stdout().lock();
    let mut rest = &input[..];
    while let Some((length, after)) = rest.split_first_chunk() {
        let length = u32::from_be_bytes(*length) as usize;
        let Some((script, after)) = after.split_at_checked(length) else {
            break;
        };
        let results = run_calls(script);
        output.write_all(&(results.len() as u32).to_be_bytes())?;
        output.write_all(&results)?;
        rest = after;
    }
    Ok(())
}
