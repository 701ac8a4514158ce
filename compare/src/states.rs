//! Every Telnet state of either side, and in it every octet, an end and AUTH: each in a call of its
//! own, first with room that lacks an octet, then with just the room that it needs.

use crate::gateways::{Gateway, Reference};
use crate::session::{Call, Rooms, Session, Setup, CLIENT_ADDRESS, MAPPED_ADDRESS, SERVER_ADDRESS};
use crate::telnet::DOUBLED;

const CLIENT: u8 = 0;
const SERVER: u8 = 1;

const SETUP: Setup = Setup {
    client: CLIENT_ADDRESS,
    mapped: MAPPED_ADDRESS,
    flags: 7,
    server: SERVER_ADDRESS,
};

/// What leads to each: nothing, a 255, WILL, WONT, DO and DONT behind it, a subnegotiation, and a
/// 255 inside one.
const STATES: [&[u8]; 8] = [
    b"",
    b"\xff",
    b"\xff\xfb",
    b"\xff\xfc",
    b"\xff\xfd",
    b"\xff\xfe",
    b"\xff\xfa\x18",
    b"\xff\xfa\x18\xff",
];

pub fn sessions() -> impl Iterator<Item = Session> {
    states().into_iter().flat_map(|(side, calls)| {
        let next = following(side);
        next.map(move |next| session(side, calls.clone(), &next))
    })
}

/// The calls that lead a side to each state, wherever its line stands.
fn states() -> Vec<(u8, Vec<Call>)> {
    let mut states = Vec::new();
    for side in [CLIENT, SERVER] {
        for line in lines(side) {
            for state in STATES {
                states.push((side, leading(side, &line, state)));
            }
        }
    }
    states
}

/// A line at its start, one that is held, one that lacks an octet of 512, and one that flows.
fn lines(side: u8) -> [Vec<u8>; 4] {
    let (held, flowing) = match side {
        CLIENT => (b"AUTH ", b"NOOP "),
        _ => (b"200 x", b"200 x"),
    };
    let filled = |start: &[u8; 5], length| {
        let filler = vec![b'x'; length - start.len() - 1];
        [start, &DOUBLED[..], &filler].concat()
    };
    [
        Vec::new(),
        filled(held, 6),
        filled(held, 511),
        filled(flowing, 512),
    ]
}

/// After the greeting nothing is owed, so that AUTH would be next. Each octet that leads to the
/// state comes alone.
fn leading(side: u8, line: &[u8], state: &[u8]) -> Vec<Call> {
    let mut calls = vec![
        Call::arrival(SERVER, b"220 hi\r\n"),
        Call::arrival(1 - side, b"AUTH\r"),
        Call::arrival(side, line),
    ];
    calls.extend(state.iter().map(|&octet| Call::arrival(side, &[octet])));
    calls
}

/// Any octet, the end, and the LF of the other side, which is AUTH where that is the client.
fn following(side: u8) -> impl Iterator<Item = Call> {
    let octets = (0..=255).map(move |octet| Call::arrival(side, &[octet]));
    octets.chain([Call::end(side), Call::arrival(1 - side, b"\n")])
}

/// The last call ends a subnegotiation that is still open, and the line.
fn session(side: u8, mut calls: Vec<Call>, next: &Call) -> Session {
    let needed = needed(&calls, next);
    let server = needed.server.checked_sub(1);
    let client = needed.client.checked_sub(1);
    let less = [
        server.map(|server| Rooms { server, ..needed }),
        client.map(|client| Rooms { client, ..needed }),
    ];
    let rooms = less.into_iter().flatten().chain([needed]);
    calls.extend(rooms.map(|rooms| Call {
        rooms,
        ..next.clone()
    }));
    calls.push(Call::arrival(side, b"\xff\xf0 x\r\n"));
    Session {
        setup: SETUP,
        calls,
    }
}

/// The room that a call needs behind others.
fn needed(calls: &[Call], next: &Call) -> Rooms {
    let (mut reference, _) = Reference::setup(&SETUP);
    for call in calls {
        reference.call(call);
    }
    let seen = reference.call(next);
    Rooms {
        server: seen.to_server.len(),
        client: seen.to_client.len(),
    }
}

#[cfg(test)]
mod tests {
    use super::*;
    use crate::telnet_cases;
    use std::collections::BTreeSet;

    #[test]
    fn every_state_comes_to_everything() {
        let met: BTreeSet<String> = sessions()
            .flat_map(|session| telnet_cases::met(&session))
            .collect();
        let cases = [
            telnet_cases::cases_of_states(),
            telnet_cases::cases_of_rooms(),
        ];
        let missing = cases.concat().into_iter();
        let missing: Vec<String> = missing.filter(|case| !met.contains(case)).collect();
        assert!(missing.is_empty(), "{missing:?}");
    }
}
