//! One call by the octets that it brings: 1, 2, 4 and so on.

use crate::gateways::ROOM;
use crate::plot::Panel;
use crate::report::compare;
use crate::timing::measure;
use crate::workloads::{self, Workload, LONGEST_HELD_LINE};

/// Octets that pass as they come, up to a whole buffer, and lines that are held.
pub fn panels(rounds: usize) -> Result<[Panel; 2], String> {
    let passing = doubled(ROOM, |octets| workloads::passing("after AUTH", octets));
    let held = doubled(LONGEST_HELD_LINE, |octets| {
        workloads::held("held line", octets)
    });
    Ok([
        panel("octets that pass, after AUTH", &passing, rounds)?,
        panel("a line that is held, a line a call", &held, rounds)?,
    ])
}

/// A workload for each number of octets up to the most.
fn doubled(most: usize, workload: impl Fn(usize) -> Workload) -> Vec<Workload> {
    (0..=most.ilog2())
        .map(|power| workload(1 << power))
        .collect()
}

fn panel(title: &'static str, workloads: &[Workload], rounds: usize) -> Result<Panel, String> {
    compare(workloads)?;
    let points = workloads.iter().map(|workload| {
        let octets = workload.octets() / workload.calls();
        (octets, measure(workload, rounds))
    });
    Ok(Panel {
        title,
        points: points.collect(),
    })
}
