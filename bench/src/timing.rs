//! Processor time a call: the gateways take turns, and the least of the rounds counts, since
//! whatever else the machine does can only add to a round.

use crate::clock::thread_time;
use crate::gateways::{Buffers, Copying, Gateway, Ours, Reference};
use crate::play::Sessions;
use crate::workloads::Workload;

/// A round of a gateway lasts at least so many nanoseconds, so that reading the clock is nothing.
const ROUND: u64 = 500_000;

/// No workload has further rounds once it has taken so many nanoseconds.
const BUDGET: u64 = 5_000_000_000;

/// The least time of a call, in nanoseconds.
#[derive(Clone, Copy)]
pub struct Times {
    pub ours: f64,
    pub reference: f64,
    pub memcpy: f64,
}

/// A gateway with the sessions of a workload, ready to be timed.
struct Timed<'a, G> {
    workload: &'a Workload,
    sessions: Sessions<G>,
    /// How often the cycle is run in a round.
    times: usize,
    /// The least time of a call so far.
    least: f64,
}

impl<G: Gateway> Timed<'_, G> {
    /// Opens the sessions and finds out how long a cycle takes, which warms everything up.
    fn new<'a>(workload: &'a Workload, buffers: &mut Buffers) -> Timed<'a, G> {
        let mut timed = Timed {
            workload,
            sessions: Sessions::open(workload, usize::MAX, buffers),
            times: 1,
            least: f64::INFINITY,
        };
        while timed.time(buffers) < ROUND {
            timed.times *= 2;
        }
        timed
    }

    fn time(&mut self, buffers: &mut Buffers) -> u64 {
        let start = thread_time();
        let cycle = &self.workload.cycle;
        let taken = self.sessions.play(cycle, self.times, buffers);
        let time = thread_time() - start;
        let name = self.workload.name;
        assert_eq!(taken, self.times * self.workload.octets(), "{name}");
        time
    }

    fn round(&mut self, buffers: &mut Buffers) {
        let calls = self.times * self.workload.calls();
        let time = self.time(buffers) as f64 / calls as f64;
        self.least = self.least.min(time);
    }
}

/// Rounds of the three in turn, with the same buffers for all.
pub fn measure(workload: &Workload, rounds: usize) -> Times {
    let start = thread_time();
    let buffers = &mut Buffers::filled(0);
    let mut ours = Timed::<Ours>::new(workload, buffers);
    let mut reference = Timed::<Reference>::new(workload, buffers);
    let mut memcpy = Timed::<Copying>::new(workload, buffers);
    for round in 0..rounds {
        if round > 0 && thread_time() - start > BUDGET {
            break;
        }
        ours.round(buffers);
        reference.round(buffers);
        memcpy.round(buffers);
    }
    Times {
        ours: ours.least,
        reference: reference.least,
        memcpy: memcpy.least,
    }
}
