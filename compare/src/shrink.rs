//! The smallest thing that still shows a difference: smaller ones are tried until none shows it.

use crate::session::{
    Call, Session, Setup, What, CLIENT_ADDRESS, FULL_ROOMS, MAPPED_ADDRESS, SERVER_ADDRESS,
};

/// How often a smaller one is tried before the smallest so far has to do.
const MOST_TRIES: usize = 100_000;

/// What can be made smaller. Each step leaves out something or puts the plainest thing in its
/// place, so no list of steps goes on for ever.
pub trait Shrink: Sized {
    fn smaller(&self) -> Box<dyn Iterator<Item = Self> + '_>;
}

pub fn smallest<T: Shrink>(found: T, differs: impl Fn(&T) -> bool) -> T {
    let mut smallest = found;
    let mut tries = 0;
    loop {
        let mut next = None;
        for smaller in smallest.smaller() {
            tries += 1;
            if differs(&smaller) {
                next = Some(smaller);
                break;
            }
        }
        match next {
            Some(smaller) if tries < MOST_TRIES => smallest = smaller,
            Some(smaller) => return smaller,
            None => return smallest,
        }
    }
}

/// The pieces of a list that may be left out or made plain, the largest first.
fn pieces(length: usize) -> impl Iterator<Item = (usize, usize)> {
    let sizes = std::iter::successors(Some(length), |size| Some(size / 2));
    let sizes = sizes.take_while(|&size| size > 0);
    sizes.flat_map(move |size| {
        let starts = (0..length).step_by(size);
        starts.map(move |start| (start, (start + size).min(length)))
    })
}

fn without<T: Clone>(list: &[T], start: usize, end: usize) -> Vec<T> {
    [&list[..start], &list[end..]].concat()
}

impl Shrink for Session {
    fn smaller(&self) -> Box<dyn Iterator<Item = Session> + '_> {
        let fewer = pieces(self.calls.len()).map(|(start, end)| self.without_calls(start, end));
        let joined = (1..self.calls.len()).filter_map(|place| self.joined_at(place));
        let calls = (0..self.calls.len()).flat_map(|place| self.with_smaller_call(place));
        let setups = smaller_setups(self.setup).map(|setup| self.with_setup(setup));
        Box::new(fewer.chain(joined).chain(calls).chain(setups))
    }
}

impl Session {
    fn without_calls(&self, start: usize, end: usize) -> Session {
        let calls = without(&self.calls, start, end);
        Session { calls, ..*self }
    }

    fn with_setup(&self, setup: Setup) -> Session {
        let calls = self.calls.clone();
        Session { setup, calls }
    }

    /// Two neighbours become one arrival.
    fn joined_at(&self, place: usize) -> Option<Session> {
        let (one, next) = (&self.calls[place - 1], &self.calls[place]);
        let alike = one.direction == next.direction && one.rooms == next.rooms;
        if !alike || one.what == What::End || next.what == What::End {
            return None;
        }
        let whole = one.with_octets(&[one.octets(), next.octets()].concat());
        let mut calls = without(&self.calls, place, place + 1);
        calls[place - 1] = whole;
        Some(Session { calls, ..*self })
    }

    fn with_smaller_call(&self, place: usize) -> impl Iterator<Item = Session> + '_ {
        smaller_calls(&self.calls[place]).map(move |call| {
            let mut calls = self.calls.clone();
            calls[place] = call;
            Session { calls, ..*self }
        })
    }
}

fn smaller_calls(call: &Call) -> impl Iterator<Item = Call> + '_ {
    let octets = call.octets();
    let shorter = pieces(octets.len()).map(|(start, end)| without(octets, start, end));
    let plainer = pieces(octets.len()).filter_map(|(start, end)| plainer(octets, start, end));
    let smaller = shorter
        .chain(plainer)
        .chain(capitals(octets))
        .map(|octets| call.with_octets(&octets));
    let full = (call.rooms != FULL_ROOMS).then(|| Call {
        rooms: FULL_ROOMS,
        ..call.clone()
    });
    full.into_iter().chain(smaller)
}

/// `x` is the plainest octet.
fn plainer(octets: &[u8], start: usize, end: usize) -> Option<Vec<u8>> {
    if octets[start..end].iter().all(|&octet| octet == b'x') {
        return None;
    }
    let mut plainer = octets.to_vec();
    plainer[start..end].fill(b'x');
    Some(plainer)
}

/// Capital letters are plainer than small ones, but for `x`.
fn capitals(octets: &[u8]) -> Option<Vec<u8>> {
    let is_small = |octet: u8| octet.is_ascii_lowercase() && octet != b'x';
    if !octets.iter().any(|&octet| is_small(octet)) {
        return None;
    }
    let capital = octets
        .iter()
        .map(|&octet| if is_small(octet) { octet ^ 32 } else { octet });
    Some(capital.collect())
}

/// Fewer flags, then the usual addresses.
fn smaller_setups(setup: Setup) -> impl Iterator<Item = Setup> {
    let set = (0..8)
        .map(|bit| 1 << bit)
        .filter(move |bit| setup.flags & bit != 0);
    let fewer = set.map(move |bit| Setup {
        flags: setup.flags & !bit,
        ..setup
    });
    let usual = Setup {
        client: CLIENT_ADDRESS,
        mapped: MAPPED_ADDRESS,
        ..setup
    };
    // It may be the only one that matters.
    let usual_server = Setup {
        server: SERVER_ADDRESS,
        ..setup
    };
    let addresses = [usual, usual_server].into_iter();
    fewer.chain(addresses.filter(move |usual| *usual != setup))
}

/// The octets of a file.
impl Shrink for Vec<u8> {
    fn smaller(&self) -> Box<dyn Iterator<Item = Vec<u8>> + '_> {
        let shorter = pieces(self.len()).map(|(start, end)| without(self, start, end));
        let zeroed = pieces(self.len()).filter_map(|(start, end)| zeroed(self, start, end));
        Box::new(shorter.chain(zeroed))
    }
}

fn zeroed(octets: &[u8], start: usize, end: usize) -> Option<Vec<u8>> {
    if octets[start..end].iter().all(|&octet| octet == 0) {
        return None;
    }
    let mut zeroed = octets.to_vec();
    zeroed[start..end].fill(0);
    Some(zeroed)
}

#[cfg(test)]
mod tests {
    use super::*;
    use crate::gateways::{difference, Gateway, Reference, Seen};
    use crate::generate;
    use crate::text::session_text;

    /// The reference with a seeded fault: an arrival that brings `EPSV 1` loses its last octet to
    /// the client.
    struct Faulty(Reference);

    impl Gateway for Faulty {
        fn setup(setup: &Setup) -> (Faulty, Seen) {
            let (gateway, seen) = Reference::setup(setup);
            (Faulty(gateway), seen)
        }

        fn call(&mut self, call: &Call) -> Seen {
            let mut seen = self.0.call(call);
            let netprt = call.octets().windows(6).any(|part| part == b"EPSV 1");
            if netprt && call.direction == 0 {
                seen.to_client.pop();
            }
            seen
        }
    }

    fn differs(session: &Session) -> bool {
        difference::<Faulty, Reference>(session).is_some()
    }

    #[test]
    fn the_smallest_session_of_a_seeded_difference_is_found() {
        let found: Vec<Session> = (1..=3000)
            .map(generate::session)
            .filter(differs)
            .take(3)
            .collect();
        assert_eq!(found.len(), 3, "the generator does not bring it up");
        for session in found {
            let small = smallest(session, differs);
            let text = session_text(&small);
            let lines: Vec<&str> = text.lines().collect();
            assert_eq!(lines.len(), 3, "not the smallest:\n{text}");
            let setup = "setup 2001:db8:2::31 192.0.2.31 198.51.100.7 epsv";
            assert_eq!(lines[0], setup);
            // any final code and its LF: the greeting
            assert_eq!(small.calls[0].octets().len(), 4);
            assert_eq!(lines[2], "client \"EPSV 1\\n\"");
        }
    }

    #[test]
    fn nothing_smaller_differs() {
        let session = generate::session(7);
        let length = |session: &Session| session.calls.iter().map(|c| c.octets().len()).sum();
        let long = |session: &Session| -> bool {
            let octets: usize = length(session);
            octets >= 3
        };
        let found = smallest(session, long);
        assert_eq!(length(&found), 3);
        assert_eq!(found.calls.len(), 1);
        assert_eq!(found.calls[0].octets(), b"xxx");
        assert_eq!(found.setup.flags, 0);
    }

    #[test]
    fn files_shrink_too() {
        let file = generate::session(5).file().expect("it has a file");
        let found = smallest(file, |file: &Vec<u8>| file.len() >= 4 && file[0] == 0);
        assert_eq!(found, [0; 4]);
    }
}
