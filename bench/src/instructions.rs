//! Instructions a call, counted by valgrind's callgrind where it is installed. Unlike times they
//! are the same in every run.
//!
//! The program runs itself under callgrind, twice for each gateway and workload, with two numbers
//! of cycles: the difference is the cycles' own, without start-up, set-up and opening.

use std::env;
use std::io;
use std::process::Command;

use crate::gateways::{Buffers, Gateway, Ours, Reference};
use crate::play::Sessions;
use crate::workloads::{self, Workload};

/// The octets to be counted at least, so that a cycle of few calls is counted some times.
const COUNTED: usize = 16384;

/// Cold records take no more instructions than warm ones.
const MOST_SESSIONS: usize = 100;

/// Instructions of a call.
pub struct Instructions {
    pub ours: f64,
    pub reference: f64,
}

/// What `bench --run GATEWAY WORKLOAD CYCLES` does: the program that is counted.
pub fn run(gateway: &str, workload: usize, cycles: usize) -> Option<()> {
    let workloads = workloads::all();
    let workload = workloads.get(workload)?;
    match gateway {
        "ours" => cycle::<Ours>(workload, cycles),
        "reference" => cycle::<Reference>(workload, cycles),
        _ => return None,
    }
    Some(())
}

fn cycle<G: Gateway>(workload: &Workload, cycles: usize) {
    let buffers = &mut Buffers::filled(0);
    let mut sessions = Sessions::<G>::open(workload, MOST_SESSIONS, buffers);
    sessions.play(&workload.cycle, cycles, buffers);
}

/// Whether callgrind is there.
pub fn can_count() -> bool {
    let version = Command::new("valgrind").arg("--version").output();
    version.is_ok_and(|output| output.status.success())
}

pub fn count(number: usize, workload: &Workload) -> io::Result<Instructions> {
    let sessions = workload.sessions.min(MOST_SESSIONS);
    let cycles = COUNTED.div_ceil(sessions * workload.cycle.octets());
    let calls = (cycles * sessions * workload.cycle.calls()) as f64;
    let of = |gateway| -> io::Result<f64> {
        let more = collected(gateway, number, 1 + cycles)?;
        Ok((more - collected(gateway, number, 1)?) as f64 / calls)
    };
    Ok(Instructions {
        ours: of("ours")?,
        reference: of("reference")?,
    })
}

/// The instructions of a whole run.
fn collected(gateway: &str, workload: usize, cycles: usize) -> io::Result<u64> {
    let output = Command::new("valgrind")
        .args(["--tool=callgrind", "--callgrind-out-file=/dev/null"])
        .arg(env::current_exe()?)
        .args(["--run", gateway])
        .args([workload.to_string(), cycles.to_string()])
        .output()?;
    let report = String::from_utf8_lossy(&output.stderr);
    let missing = || io::Error::other(format!("callgrind counted nothing:\n{report}"));
    total(&report).ok_or_else(missing)
}

/// The number of the line `==1== Collected : 12345`.
fn total(report: &str) -> Option<u64> {
    let line = report.lines().find(|line| line.contains("Collected"))?;
    line.rsplit(' ').next()?.parse().ok()
}

#[cfg(test)]
mod tests {
    use super::*;

    #[test]
    fn the_total_is_read_from_callgrinds_report() {
        let report = "==7== Events    : Ir\n==7== Collected : 4711\n==7== \n";
        assert_eq!(total(report), Some(4711));
        assert_eq!(total("==7== killed\n"), None);
    }

    #[test]
    fn an_unknown_gateway_or_workload_is_not_run() {
        assert!(run("theirs", 0, 1).is_none());
        assert!(run("ours", 99, 1).is_none());
    }
}
