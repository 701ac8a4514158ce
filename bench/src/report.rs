//! What the program prints and writes.

use std::fs;
use std::path::Path;

use crate::document::with_figures;
use crate::gateways::{Ours, Reference};
use crate::workloads::{self, Workload};
use crate::{figures, instructions, play, plot, stack, sweep, timing};

const TITLE: &str = "The cost of a call by the octets that it brings";

/// The plot that stands beside a document.
const PLOT: &str = "benchmarks.svg";

/// Figures of a gateway that writes the wrong octets would say nothing, so this comes first.
pub fn compare(workloads: &[Workload]) -> Result<(), String> {
    workloads
        .iter()
        .try_for_each(play::agree::<Ours, Reference>)
}

/// The table of times, handed on row by row.
pub fn times(rounds: usize, mut print: impl FnMut(&str)) -> Result<(), String> {
    let workloads = workloads::all();
    compare(&workloads)?;
    print("Both gateways do and write the same in every call.\n");
    print(&format!(
        "Processor time, the least of at most {rounds} rounds, on {}.\n\n",
        processor()
    ));
    print(&figures::times_heading());
    for workload in &workloads {
        let times = timing::measure(workload, rounds);
        print(&figures::times_row(workload, &times));
    }
    Ok(())
}

/// The name of the processor, where the system tells it.
fn processor() -> String {
    let about = fs::read_to_string("/proc/cpuinfo").unwrap_or_default();
    let model = about.lines().find(|line| line.starts_with("model name"));
    let name = model.and_then(|line| line.split_once(": "));
    name.map_or("a processor without a name", |(_, name)| name)
        .to_string()
}

/// The table of instructions, or a line that says why there is none.
pub fn instructions() -> Result<String, String> {
    let workloads = workloads::all();
    compare(&workloads)?;
    if !instructions::can_count() {
        return Ok("Instructions were not counted: there is no valgrind.\n".to_string());
    }
    let mut table = figures::instructions_heading();
    for (number, workload) in workloads.iter().enumerate() {
        let counts = instructions::count(number, workload)
            .map_err(|error| format!("{}: {error}", workload.name))?;
        table += &figures::instructions_row(workload, &counts);
    }
    Ok(table)
}

/// The stack of a call, or why it is not known.
pub fn stack() -> String {
    match stack::of_a_call() {
        Ok(octets) => format!("stack of a call: {octets} octets"),
        Err(reason) => format!("stack of a call: not known: {reason}"),
    }
}

pub fn plot(file: &Path, rounds: usize) -> Result<(), String> {
    let panels = sweep::panels(rounds)?;
    write(file, &plot::svg(TITLE, &panels))
}

/// Puts the figures between the document's marks, and writes the plot beside it.
pub fn document(file: &Path, rounds: usize) -> Result<(), String> {
    let name = file.display();
    let document = fs::read_to_string(file).map_err(|error| format!("{name}: {error}"))?;
    let unmarked = || format!("{name}: there are no marks for figures");
    with_figures(&document, "").ok_or_else(unmarked)?;
    let mut figures = String::new();
    times(rounds, |part| figures += part)?;
    figures += &format!("\n{}\n`{}`\n", instructions()?, stack());
    let document = with_figures(&document, &figures).ok_or_else(unmarked)?;
    write(file, &document)?;
    plot(&file.with_file_name(PLOT), rounds)
}

fn write(file: &Path, text: &str) -> Result<(), String> {
    fs::write(file, text).map_err(|error| format!("{}: {error}", file.display()))
}
