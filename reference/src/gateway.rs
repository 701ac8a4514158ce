//! The session: setup, arrivals, ends, and the offset of each direction.

use crate::client::Client;
use crate::commands::{Addresses, Switches};
use crate::output::{Output, Outputs};
use crate::server::Server;
use crate::side::{Place, Side};
use crate::telnet::State;

/// Direction of what the client sends.
pub const CLIENT: u8 = 0;
/// Direction of what the server sends.
pub const SERVER: u8 = 1;

/// Setup flag bit 3: the strict form, in which a foreign address in a 227 is refused.
const STRICT: u8 = 8;

/// The numbers of the table of answers.
pub const DONE: u8 = 0;
pub const QUEUE_FULL: u8 = 1;
pub const NO_ROOM: u8 = 2;
pub const NO_DIRECTION: u8 = 3;
pub const NOT_LIVE: u8 = 4;
pub const BAD_FLAGS: u8 = 5;
pub const HAS_ENDED: u8 = 6;

/// What a call answers, how many octets it took, and how many it wrote to the front of each
/// buffer.
#[derive(Clone, Copy, Debug, Default, PartialEq, Eq)]
pub struct Outcome {
    pub answer: u8,
    pub taken: usize,
    pub to_server: usize,
    pub to_client: usize,
}

impl Outcome {
    /// An answer with nothing taken and nothing written.
    pub fn answered(answer: u8) -> Outcome {
        Outcome {
            answer,
            ..Outcome::default()
        }
    }
}

/// A session with its counters. A refused setup leaves no session.
#[derive(Clone, Debug, PartialEq, Eq)]
pub struct Gateway {
    session: Option<Session>,
    counters: [Counter; 2],
}

impl Gateway {
    /// Begins a session. The answer is 0, or 5 for flags that are none. The server's address is
    /// looked at with flag bit 3 alone.
    pub fn setup(client: [u8; 16], mapped: [u8; 4], flags: u8, server: [u8; 4]) -> (Gateway, u8) {
        let addresses = Addresses { client, mapped };
        let only = (flags & STRICT != 0).then_some(server);
        let switches = Switches::of_flags(flags & !STRICT);
        let session = switches.map(|switches| Session::fresh(addresses, switches, only));
        let answer = if session.is_some() { DONE } else { BAD_FLAGS };
        let counters = [Counter::default(); 2];
        (Gateway { session, counters }, answer)
    }

    /// Takes octets of a direction up to the first that has to wait, and writes what they give
    /// to the front of the buffers. "Buffers keep their old contents beyond the written count."
    pub fn arrive(
        &mut self,
        direction: u8,
        octets: &[u8],
        to_server: &mut [u8],
        to_client: &mut [u8],
    ) -> Outcome {
        self.call(direction, to_server, to_client, |session, outputs| {
            session.take(direction, octets, outputs)
        })
    }

    /// Ends a direction: its held octets pass, and a Telnet command that is unfinished.
    pub fn end(&mut self, direction: u8, to_server: &mut [u8], to_client: &mut [u8]) -> Outcome {
        self.call(direction, to_server, to_client, |session, outputs| {
            let fits = match direction {
                CLIENT => session.client.side.end(&mut outputs.to_server),
                _ => session.server.side.end(&mut outputs.to_client),
            };
            (if fits { DONE } else { NO_ROOM }, 0)
        })
    }

    /// Octets written minus octets taken, modulo 2^32: direction 0 is taken from the client and
    /// written to the server, direction 1 the other way, own answers and Telnet answers included.
    pub fn offset(&self, direction: u8) -> u32 {
        let counter = self.counters.get(usize::from(direction));
        counter.map_or(0, Counter::offset)
    }

    /// Octets of the direction's subnegotiations that were removed, modulo 2^32.
    pub fn removed(&self, direction: u8) -> u32 {
        self.side(direction).map_or(0, Side::removed)
    }

    /// The Telnet state of the direction: clear where it has ended or passes at once.
    pub fn telnet(&self, direction: u8) -> State {
        self.side(direction)
            .map_or(State::Clear, |side| side.telnet)
    }

    fn side(&self, direction: u8) -> Option<&Side> {
        let session = self.session.as_ref()?;
        (direction <= SERVER).then(|| session.side(direction))
    }

    /// Refuses a call, or lets it act on the session and counts what it took and wrote. "Order:
    /// 3, 4, 6." The act gives the answer and the octets taken.
    fn call(
        &mut self,
        direction: u8,
        to_server: &mut [u8],
        to_client: &mut [u8],
        act: impl FnOnce(&mut Session, &mut Outputs) -> (u8, usize),
    ) -> Outcome {
        if direction != CLIENT && direction != SERVER {
            return Outcome::answered(NO_DIRECTION);
        }
        let Some(session) = &mut self.session else {
            return Outcome::answered(NOT_LIVE);
        };
        if session.side(direction).place == Place::Ended {
            return Outcome::answered(HAS_ENDED);
        }
        let mut outputs = Outputs {
            to_server: Output::new(to_server),
            to_client: Output::new(to_client),
        };
        let (answer, taken) = act(session, &mut outputs);
        let outcome = Outcome {
            answer,
            taken,
            to_server: outputs.to_server.written(),
            to_client: outputs.to_client.written(),
        };
        self.count(direction, &outcome);
        outcome
    }

    fn count(&mut self, direction: u8, outcome: &Outcome) {
        self.counters[usize::from(direction)].take(outcome.taken);
        self.counters[usize::from(CLIENT)].write(outcome.to_server);
        self.counters[usize::from(SERVER)].write(outcome.to_client);
    }
}

/// "Each direction counts octets taken and written in 32 bits that wrap."
#[derive(Clone, Copy, Debug, Default, PartialEq, Eq)]
struct Counter {
    taken: u32,
    written: u32,
}

impl Counter {
    fn take(&mut self, octets: usize) {
        self.taken = self.taken.wrapping_add(octets as u32);
    }

    fn write(&mut self, octets: usize) {
        self.written = self.written.wrapping_add(octets as u32);
    }

    fn offset(&self) -> u32 {
        self.written.wrapping_sub(self.taken)
    }
}

#[derive(Clone, Debug, PartialEq, Eq)]
struct Session {
    client: Client,
    server: Server,
}

impl Session {
    fn fresh(addresses: Addresses, switches: Switches, only: Option<[u8; 4]>) -> Session {
        Session {
            client: Client::fresh(addresses, switches),
            server: Server::fresh(only),
        }
    }

    fn side(&self, direction: u8) -> &Side {
        match direction {
            CLIENT => &self.client.side,
            _ => &self.server.side,
        }
    }

    /// Takes octets up to the first that has to wait, "octet by octet 1 before 2": the answer
    /// and how many. Within a step nothing is owed until its last octet, so number 1 is asked of
    /// every octet by asking it before each step.
    fn take(&mut self, direction: u8, octets: &[u8], outputs: &mut Outputs) -> (u8, usize) {
        let mut taken = 0;
        while taken < octets.len() {
            let rest = &octets[taken..];
            let step = match direction {
                CLIENT if self.client_waits() => return (QUEUE_FULL, taken),
                CLIENT => self.client.step(rest, &mut self.server, outputs),
                _ => self.server.step(rest, outputs),
            };
            taken += step.taken;
            if step.waits {
                return (NO_ROOM, taken);
            }
        }
        (DONE, taken)
    }

    /// "No AUTH yet, 16 replies owed": from AUTH on the client's octets pass at once.
    fn client_waits(&self) -> bool {
        self.server.owes_most() && self.client.side.place != Place::PassingAtOnce
    }
}

#[cfg(test)]
mod tests {
    use super::*;

    #[test]
    fn counters_wrap() {
        let mut counter = Counter {
            taken: u32::MAX - 1,
            written: 5,
        };
        assert_eq!(counter.offset(), 7);
        counter.take(3);
        assert_eq!((counter.taken, counter.offset()), (1, 4));
        counter.write(u32::MAX as usize);
        assert_eq!((counter.written, counter.offset()), (4, 3));
    }
}
