//! The two gateways behind one interface, and the first call on which they differ.

use fashlemor::raw;
use reference::Gateway as ReferenceGateway;

use crate::layout;
use crate::session::{Call, Rooms, Session, Setup, What, FULL_ROOM};
use crate::text::octets_text;

/// All that can be seen of a call.
#[derive(Clone, Debug, PartialEq, Eq)]
pub struct Seen {
    pub answer: u8,
    pub taken: usize,
    pub to_server: Vec<u8>,
    pub to_client: Vec<u8>,
    pub totals: Totals,
    /// Something touched that must not be, or said that cannot be.
    pub fault: Option<&'static str>,
}

/// What the record tells of each direction after a call.
#[derive(Clone, Copy, Debug, PartialEq, Eq)]
pub struct Totals {
    pub offsets: [u32; 2],
    /// The octets of subnegotiations removed, in 32 bits that wrap.
    pub removed: [u32; 2],
}

impl Seen {
    /// A setup takes and writes nothing.
    fn of_setup(answer: u8, totals: Totals, fault: Option<&'static str>) -> Seen {
        Seen {
            answer,
            taken: 0,
            to_server: Vec::new(),
            to_client: Vec::new(),
            totals,
            fault,
        }
    }

    /// Whether another gateway may have done the same: a fault is none that two may share.
    fn agrees(&self, other: &Seen) -> bool {
        self == other && self.fault.is_none()
    }

    /// The result in words, on lines of their own.
    pub fn text(&self) -> String {
        let mut text = format!("    answer {}, taken {}\n", self.answer, self.taken);
        text += &format!("    to the server {}\n", octets_text(&self.to_server));
        text += &format!("    to the client {}\n", octets_text(&self.to_client));
        let Totals { offsets, removed } = self.totals;
        text += &format!("    offsets {} and {}\n", offsets[0], offsets[1]);
        text += &format!("    octets removed {} and {}\n", removed[0], removed[1]);
        if let Some(fault) = self.fault {
            text += &format!("    {fault}\n");
        }
        text
    }
}

pub trait Gateway: Sized {
    fn setup(setup: &Setup) -> (Self, Seen);
    fn call(&mut self, call: &Call) -> Seen;
}

/// Where two gateways differ: the call's number, 0 for the setup, and what each did.
#[derive(Clone, Debug, PartialEq, Eq)]
pub struct Difference {
    pub call: usize,
    pub ours: Seen,
    pub theirs: Seen,
}

pub fn difference<A: Gateway, B: Gateway>(session: &Session) -> Option<Difference> {
    let (mut one, ours) = A::setup(&session.setup);
    let (mut other, theirs) = B::setup(&session.setup);
    if !ours.agrees(&theirs) {
        let call = 0;
        return Some(Difference { call, ours, theirs });
    }
    for (index, call) in session.calls.iter().enumerate() {
        let (ours, theirs) = (one.call(call), other.call(call));
        if !ours.agrees(&theirs) {
            let call = index + 1;
            return Some(Difference { call, ours, theirs });
        }
    }
    None
}

/// The independent gateway in safe Rust.
pub struct Reference {
    gateway: ReferenceGateway,
    lent: Buffers,
}

impl Reference {
    fn totals(&self) -> Totals {
        Totals {
            offsets: [0, 1].map(|direction| self.gateway.offset(direction)),
            removed: [0, 1].map(|direction| self.gateway.removed(direction)),
        }
    }

    fn called(&mut self, call: &Call) -> Counts {
        let (to_server, to_client) = self.lent.lend(call.rooms);
        let outcome = match &call.what {
            What::Arrival(octets) => {
                let gateway = &mut self.gateway;
                gateway.arrive(call.direction, octets, to_server, to_client)
            }
            What::End => self.gateway.end(call.direction, to_server, to_client),
        };
        Counts {
            answer: outcome.answer,
            taken: outcome.taken,
            to_server: outcome.to_server,
            to_client: outcome.to_client,
        }
    }
}

impl Gateway for Reference {
    fn setup(setup: &Setup) -> (Reference, Seen) {
        let (gateway, answer) =
            ReferenceGateway::setup(setup.client, setup.mapped, setup.flags, setup.server);
        let lent = Buffers::new();
        let reference = Reference { gateway, lent };
        let seen = Seen::of_setup(answer, reference.totals(), None);
        (reference, seen)
    }

    fn call(&mut self, call: &Call) -> Seen {
        let before = self.gateway.clone();
        let counts = self.called(call);
        let fault = self.lent.fault(call, counts, before != self.gateway);
        self.lent.seen(counts, self.totals(), fault)
    }
}

/// Octets behind what is lent: nobody may write there.
const GUARD: usize = 64;

/// The proved gateway, through the static library.
pub struct Ours {
    record: Vec<u8>,
    lent: Buffers,
}

impl Ours {
    /// A gateway that goes on from a record, whatever its octets.
    pub fn of_record(record: &[u8]) -> Ours {
        let mut guarded = record.to_vec();
        guarded.extend(&PATTERN[..GUARD]);
        Ours {
            record: guarded,
            lent: Buffers::new(),
        }
    }

    pub fn record(&self) -> &[u8] {
        &self.record[..self.record.len() - GUARD]
    }

    /// Memory too short for a record is read as that of a refused setup, which removed nothing.
    pub fn totals(&self) -> Totals {
        let offset = |direction| raw::offset(self.record(), direction);
        let removed = |place| layout::number(self.record(), place);
        Totals {
            offsets: [raw::CLIENT, raw::SERVER].map(|side| offset(side).unwrap_or(u32::MAX)),
            removed: layout::REMOVED.map(|place| removed(place).unwrap_or(0)),
        }
    }

    fn is_written_behind(&self) -> bool {
        self.record[self.record.len() - GUARD..] != PATTERN[..GUARD]
    }

    fn called(&mut self, call: &Call) -> Counts {
        let record_length = self.record.len() - GUARD;
        let record = &mut self.record[..record_length];
        let (to_server, to_client) = self.lent.lend(call.rooms);
        let direction = call.direction.into();
        let called = match &call.what {
            What::Arrival(octets) => raw::arrive(record, direction, octets, to_server, to_client),
            What::End => raw::end(record, direction, to_server, to_client),
        };
        Counts {
            answer: called.answer,
            taken: called.taken,
            to_server: called.to_server,
            to_client: called.to_client,
        }
    }
}

const WRITTEN_BEHIND: &str = "octets behind the record were written";

impl Gateway for Ours {
    fn setup(setup: &Setup) -> (Ours, Seen) {
        let mut ours = Ours::of_record(&PATTERN[..fashlemor::RECORD]);
        let record = &mut ours.record[..fashlemor::RECORD];
        let answer = raw::setup(record, &setup.octets());
        let dead = ours.record().iter().all(|&octet| octet == 0);
        let fault = if ours.is_written_behind() {
            Some(WRITTEN_BEHIND)
        } else if dead != (answer != raw::DONE) {
            Some("the record is all zero exactly when the setup is refused: not here")
        } else {
            None
        };
        let seen = Seen::of_setup(answer, ours.totals(), fault);
        (ours, seen)
    }

    fn call(&mut self, call: &Call) -> Seen {
        let before = self.record().to_vec();
        let counts = self.called(call);
        let fault = if self.is_written_behind() {
            Some(WRITTEN_BEHIND)
        } else {
            self.lent.fault(call, counts, before != self.record())
        };
        self.lent.seen(counts, self.totals(), fault)
    }
}

/// What a call says it did.
#[derive(Clone, Copy)]
struct Counts {
    answer: u8,
    taken: usize,
    to_server: usize,
    to_client: usize,
}

/// The buffers that are lent for the octets to each side.
struct Buffers {
    to_server: Lent,
    to_client: Lent,
}

impl Buffers {
    fn new() -> Buffers {
        Buffers {
            to_server: Lent::new(),
            to_client: Lent::new(),
        }
    }

    fn lend(&mut self, rooms: Rooms) -> (&mut [u8], &mut [u8]) {
        let to_server = &mut self.to_server.0[..rooms.server];
        let to_client = &mut self.to_client.0[..rooms.client];
        (to_server, to_client)
    }

    /// What a gateway may not have done in a call.
    fn fault(&self, call: &Call, counts: Counts, record_changed: bool) -> Option<&'static str> {
        let ended = call.what == What::End && counts.answer == reference::DONE;
        let (server_room, client_room) = (call.rooms.server, call.rooms.client);
        if record_changed && counts.taken == 0 && !ended {
            Some("nothing was taken, but the record is another")
        } else if counts.taken > call.octets().len() {
            Some("more octets are said to be taken than there were")
        } else if (self.to_server).is_touched_behind(counts.to_server, server_room) {
            Some("the server's buffer was touched beyond the octets written")
        } else if (self.to_client).is_touched_behind(counts.to_client, client_room) {
            Some("the client's buffer was touched beyond the octets written")
        } else {
            None
        }
    }

    fn seen(&mut self, counts: Counts, totals: Totals, fault: Option<&'static str>) -> Seen {
        Seen {
            answer: counts.answer,
            taken: counts.taken,
            to_server: self.to_server.take(counts.to_server),
            to_client: self.to_client.take(counts.to_client),
            totals,
            fault,
        }
    }
}

/// A buffer with a known pattern in it, longer than any room that is lent of it.
struct Lent(Vec<u8>);

impl Lent {
    fn new() -> Lent {
        Lent(PATTERN.to_vec())
    }

    fn is_touched_behind(&self, written: usize, room: usize) -> bool {
        written > room || self.0[written..] != PATTERN[written..]
    }

    /// The octets written; the pattern comes back in their place.
    fn take(&mut self, written: usize) -> Vec<u8> {
        let written = written.min(self.0.len());
        let octets = self.0[..written].to_vec();
        self.0[..written].copy_from_slice(&PATTERN[..written]);
        octets
    }
}

/// Octets that depend on their place, so that one moved is seen too.
static PATTERN: [u8; FULL_ROOM + GUARD] = made_pattern();

const fn made_pattern() -> [u8; FULL_ROOM + GUARD] {
    let mut octets = [0; FULL_ROOM + GUARD];
    let mut place = 0;
    while place < octets.len() {
        octets[place] = (place % 251) as u8 ^ 0xa5;
        place += 1;
    }
    octets
}

#[cfg(test)]
mod tests {
    use super::*;

    /// What is found after a call that says it wrote one octet to the server.
    fn fault(touch: impl FnOnce(&mut [u8], &mut [u8])) -> Option<&'static str> {
        let call = Call::end(0);
        let counts = Counts {
            answer: reference::DONE,
            taken: 0,
            to_server: 1,
            to_client: 0,
        };
        let mut buffers = Buffers::new();
        let (to_server, to_client) = buffers.lend(call.rooms);
        touch(to_server, to_client);
        buffers.fault(&call, counts, true)
    }

    #[test]
    fn an_octet_beyond_the_count_is_a_fault() {
        assert_eq!(fault(|to_server, _| to_server[0] ^= 1), None);
        assert!(fault(|to_server, _| to_server[1] ^= 1).is_some());
        assert!(fault(|_, to_client| to_client[0] ^= 1).is_some());
        assert!(fault(|_, to_client| to_client[FULL_ROOM - 1] ^= 1).is_some());
    }

    /// Two gateways with the same fault do not agree.
    #[test]
    fn a_fault_is_a_difference() {
        let totals = Totals {
            offsets: [0, 0],
            removed: [0, 0],
        };
        let sound = Seen::of_setup(0, totals, None);
        let faulty = Seen::of_setup(0, totals, Some("a fault"));
        assert!(sound.agrees(&sound.clone()));
        assert!(!faulty.agrees(&faulty.clone()));
        assert!(!sound.agrees(&faulty));
    }

    /// The reference, but of a side it tells one octet removed too few.
    struct Miscounting<const SIDE: usize>(Reference);

    impl<const SIDE: usize> Gateway for Miscounting<SIDE> {
        fn setup(setup: &Setup) -> (Self, Seen) {
            let (gateway, seen) = Reference::setup(setup);
            (Miscounting(gateway), seen)
        }

        fn call(&mut self, call: &Call) -> Seen {
            let mut seen = self.0.call(call);
            let removed = &mut seen.totals.removed[SIDE];
            *removed = removed.saturating_sub(1);
            seen
        }
    }

    /// The octets removed from each direction, after each call.
    fn removed<A: Gateway>(session: &Session) -> Vec<[u32; 2]> {
        let (mut gateway, _) = A::setup(&session.setup);
        let seen = session.calls.iter().map(|call| gateway.call(call));
        seen.map(|seen| seen.totals.removed).collect()
    }

    #[test]
    fn octets_removed_are_compared() {
        let session = Session {
            setup: Setup {
                client: [0; 16],
                mapped: [0; 4],
                flags: 0,
                server: [0; 4],
            },
            calls: vec![
                Call::arrival(0, &[255, 250, 24, 255]),
                Call::arrival(1, &[b'2', 255]),
                Call::arrival(1, &[250, 255, 255, 240, b'x']),
                Call::arrival(0, &[240, b'x']),
                Call::end(1),
            ],
        };
        let counts = [[4, 0], [4, 0], [4, 6], [5, 6], [5, 6]];
        assert_eq!(removed::<Ours>(&session), counts);
        assert_eq!(removed::<Reference>(&session), counts);
        let client = difference::<Miscounting<0>, Reference>(&session);
        assert_eq!(client.map(|found| found.call), Some(1));
        let server = difference::<Miscounting<1>, Reference>(&session);
        assert_eq!(server.map(|found| found.call), Some(3));
    }
}
