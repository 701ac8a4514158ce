//! Workloads run through a gateway: call by call to compare two, and in a bare loop to be timed.

use std::hint::black_box;

use crate::gateways::{Buffers, Called, Gateway};
use crate::workloads::{Traffic, Workload};

/// The cycles of a comparison: more than replies may be owed, so that a cycle which left one owed
/// would be found.
const COMPARED_CYCLES: usize = 20;

/// The sessions of a workload after its opening.
pub struct Sessions<G> {
    sessions: Vec<G>,
    step: usize,
}

impl<G: Gateway> Sessions<G> {
    /// The sessions of a workload, or fewer where their number does not matter.
    pub fn open(workload: &Workload, most: usize, buffers: &mut Buffers) -> Sessions<G> {
        let mut session = G::setup();
        for (direction, octets) in workload.opening.arrivals() {
            session.arrive(direction, octets, buffers);
        }
        let count = workload.sessions.min(most);
        Sessions {
            sessions: vec![session; count],
            step: workload.step % count,
        }
    }

    /// Runs a cycle a number of times. Nobody reads what is written, but the compiler can't know.
    /// Gives the octets taken, by which it is seen that no call was refused or stopped.
    pub fn play(&mut self, cycle: &Traffic, times: usize, buffers: &mut Buffers) -> usize {
        let arrivals: Vec<(u8, &[u8])> = cycle.arrivals().collect();
        let (count, mut taken) = (self.sessions.len(), 0);
        for _ in 0..times {
            for &(direction, octets) in &arrivals {
                let mut turn = 0;
                for _ in 0..count {
                    let session = &mut self.sessions[turn];
                    taken += session.arrive(direction, octets, buffers).taken;
                    black_box(&mut *buffers);
                    turn += self.step;
                    if turn >= count {
                        turn -= count;
                    }
                }
            }
        }
        taken
    }
}

/// All that a host sees of a call.
#[derive(Debug, PartialEq, Eq)]
struct Seen<'a> {
    called: Called,
    to_server: &'a [u8],
    to_client: &'a [u8],
}

/// A call into buffers that were filled just before, with another octet for each gateway: what a
/// gateway counts and does not write is a difference then.
fn see<'a>(
    session: &mut impl Gateway,
    (direction, octets): (u8, &[u8]),
    fill: u8,
    buffers: &'a mut Buffers,
) -> Seen<'a> {
    buffers.to_server.fill(fill);
    buffers.to_client.fill(fill);
    let called = session.arrive(direction, octets, buffers);
    Seen {
        called,
        to_server: &buffers.to_server[..called.to_server],
        to_client: &buffers.to_client[..called.to_client],
    }
}

/// Whether two gateways do the same in each call of a workload, and take all of its octets:
/// otherwise the first call that differs, in words.
pub fn agree<A: Gateway, B: Gateway>(workload: &Workload) -> Result<(), String> {
    let (mut ours, mut reference) = (A::setup(), B::setup());
    let (mut our_buffers, mut reference_buffers) = (Buffers::filled(0), Buffers::filled(0));
    let cycles = (0..COMPARED_CYCLES).flat_map(|_| workload.cycle.arrivals());
    for (number, arrival) in workload.opening.arrivals().chain(cycles).enumerate() {
        let ours = see(&mut ours, arrival, 0, &mut our_buffers);
        let reference = see(&mut reference, arrival, 255, &mut reference_buffers);
        if let Some(fault) = fault(&ours, &reference, arrival.1.len()) {
            return Err(format!("{}: call {}: {fault}", workload.name, number + 1));
        }
    }
    Ok(())
}

/// What is wrong with a call that brought so many octets.
fn fault(ours: &Seen, reference: &Seen, octets: usize) -> Option<String> {
    let (called, other) = (ours.called, reference.called);
    if called != other {
        Some(format!("ours gives {called:?}, the reference {other:?}"))
    } else if ours != reference {
        Some(format!("the gateways write different octets, {called:?}"))
    } else if (called.answer, called.taken) != (0, octets) {
        Some(format!("not all of {octets} octets are taken: {called:?}"))
    } else {
        None
    }
}

#[cfg(test)]
mod tests {
    use super::*;
    use crate::gateways::{Copying, Ours, Reference};
    use crate::workloads;

    #[test]
    fn every_workload_is_taken_whole_by_both() {
        let held = [1, 2, 512].map(|octets| workloads::held("held", octets));
        let passing = [1, 16384].map(|octets| workloads::passing("passing", octets));
        for workload in workloads::all().into_iter().chain(held).chain(passing) {
            assert_eq!(agree::<Ours, Reference>(&workload), Ok(()));
        }
    }

    #[test]
    fn a_gateway_that_writes_something_else_is_noticed() {
        let session = &workloads::all()[1];
        let fault = agree::<Ours, Copying>(session).unwrap_err();
        assert!(fault.contains(session.name), "{fault}");
    }

    #[test]
    fn each_session_has_its_turn_once() {
        #[derive(Clone)]
        struct Counting(usize);
        impl Gateway for Counting {
            fn setup() -> Counting {
                Counting(0)
            }
            fn arrive(&mut self, _: u8, octets: &[u8], _: &mut Buffers) -> Called {
                self.0 += 1;
                Called {
                    answer: 0,
                    taken: octets.len(),
                    to_server: 0,
                    to_client: 0,
                }
            }
        }
        for workload in workloads::all() {
            let mut buffers = Buffers::filled(0);
            let mut sessions = Sessions::<Counting>::open(&workload, usize::MAX, &mut buffers);
            let before = sessions.sessions[0].0;
            let taken = sessions.play(&workload.cycle, 1, &mut buffers);
            assert_eq!(taken, workload.octets());
            let calls = before + workload.cycle.calls();
            assert!(sessions.sessions.iter().all(|session| session.0 == calls));
        }
    }
}
