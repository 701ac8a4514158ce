//! What a session comes to in the Telnet layer: told octet by octet from the state that the
//! independent gateway says it is in, and from what it writes.

use std::collections::BTreeSet;

use reference::telnet::State;
use reference::{Gateway, Outcome, DONE, NO_ROOM, QUEUE_FULL};

use crate::session::{Call, Rooms, Session, What};

const CLIENT: u8 = 0;
const SERVER: u8 = 1;

const UNFINISHED: [State; 7] = [
    State::Iac,
    State::Will,
    State::Wont,
    State::Do,
    State::Dont,
    State::Within,
    State::WithinIac,
];

fn name(side: u8) -> &'static str {
    ["the client", "the server"][usize::from(side)]
}

/// Octets that may do something of their own.
fn class(octet: u8) -> &'static str {
    match octet {
        b'\n' => "LF",
        240 => "240",
        250 => "250",
        251 | 253 => "an offer",
        252 | 254 => "a refusal",
        255 => "255",
        _ => "another octet",
    }
}

fn octet_case(side: u8, state: State, octet: u8) -> String {
    format!("{} in {state:?}: {}", name(side), class(octet))
}

/// The octets that come, the ends, the cuts and AUTH in each state.
pub fn cases_of_states() -> Vec<String> {
    let mut cases = Vec::new();
    for state in UNFINISHED {
        for side in [CLIENT, SERVER] {
            let who = name(side);
            for octet in [b'\n', 240, 250, 251, 252, 255, b'x'] {
                cases.push(octet_case(side, state, octet));
            }
            cases.push(format!("{who} ends in {state:?}"));
            cases.push(format!("{who} is cut in {state:?}"));
        }
        cases.push(format!("AUTH reaches the server in {state:?}"));
    }
    cases
}

/// The cases that every kind of session has to come to.
pub fn cases() -> Vec<String> {
    let mut cases = cases_of_states();
    for side in [CLIENT, SERVER] {
        let who = name(side);
        for what in [
            "doubles a 255 in a held line",
            "doubles a 255 in a flowing line",
            "doubles a 255 as the 512th octet",
            "is answered after the other's end",
            "ends in a command with a 255 held",
        ] {
            cases.push(format!("{who} {what}"));
        }
    }
    cases.push("AUTH at a doubled 255".into());
    cases.push("the client's 255 is stopped by number 1".into());
    cases.push("1,024 octets to the server".into());
    cases
}

/// The cases that lists with small rooms have to come to beside these.
pub fn cases_of_rooms() -> Vec<String> {
    let mut cases = Vec::new();
    for side in [CLIENT, SERVER] {
        for state in [State::Iac, State::Will, State::Do] {
            cases.push(format!("{} waits in {state:?}", name(side)));
        }
        for state in [State::Iac, State::Will, State::Wont, State::Do, State::Dont] {
            cases.push(format!("{}'s end waits in {state:?}", name(side)));
        }
    }
    cases.push("AUTH waits for the server's command".into());
    cases
}

/// The cases that a session comes to.
pub fn met(session: &Session) -> BTreeSet<String> {
    let setup = &session.setup;
    let (gateway, answer) = Gateway::setup(setup.client, setup.mapped, setup.flags, setup.server);
    let mut follower = Follower {
        gateway,
        ended: [false; 2],
        met: BTreeSet::new(),
    };
    let known = session.calls.iter().filter(|call| call.direction < 2);
    if answer == DONE {
        known.for_each(|call| follower.call(call));
    }
    follower.met
}

struct Follower {
    gateway: Gateway,
    ended: [bool; 2],
    met: BTreeSet<String>,
}

impl Follower {
    fn meets(&mut self, case: String) {
        self.met.insert(case);
    }

    fn call(&mut self, call: &Call) {
        let side = call.direction;
        match &call.what {
            What::End => self.end(side, call.rooms),
            What::Arrival(octets) => {
                let mut rooms = call.rooms;
                let taken = octets
                    .iter()
                    .take_while(|&&o| self.octet(side, o, &mut rooms));
                if taken.count() == octets.len() {
                    let state = self.gateway.telnet(side);
                    self.meets(format!("{} is cut in {state:?}", name(side)));
                }
            }
        }
    }

    fn end(&mut self, side: u8, rooms: Rooms) {
        let (who, state) = (name(side), self.gateway.telnet(side));
        let mut buffers = (vec![0; rooms.server], vec![0; rooms.client]);
        let outcome = self.gateway.end(side, &mut buffers.0, &mut buffers.1);
        match outcome.answer {
            DONE => {
                self.ended[usize::from(side)] = true;
                self.meets(format!("{who} ends in {state:?}"));
                let written = [
                    &buffers.0[..outcome.to_server],
                    &buffers.1[..outcome.to_client],
                ];
                let unfinished = state.unfinished();
                let held = written[usize::from(side)].strip_suffix(unfinished);
                let doubled = held.is_some_and(|held| held.contains(&255));
                if doubled && !unfinished.is_empty() {
                    self.meets(format!("{who} ends in a command with a 255 held"));
                }
            }
            NO_ROOM => self.meets(format!("{who}'s end waits in {state:?}")),
            _ => {}
        }
    }

    /// Takes one octet with what room is left, and says whether it was taken.
    fn octet(&mut self, side: u8, octet: u8, rooms: &mut Rooms) -> bool {
        let before = [CLIENT, SERVER].map(|side| self.gateway.telnet(side));
        let mut buffers = (vec![0; rooms.server], vec![0; rooms.client]);
        let (to_server, to_client) = (&mut buffers.0[..], &mut buffers.1[..]);
        let outcome = self.gateway.arrive(side, &[octet], to_server, to_client);
        rooms.server -= outcome.to_server;
        rooms.client -= outcome.to_client;
        let state = before[usize::from(side)];
        match outcome.answer {
            DONE => self.taken(side, state, octet, &outcome, &buffers.0),
            NO_ROOM => {
                self.meets(format!("{} waits in {state:?}", name(side)));
                let unfinished = before[1].unfinished();
                if side == CLIENT && state == State::Clear && !unfinished.is_empty() {
                    self.waits_for_auth(octet, rooms);
                }
            }
            QUEUE_FULL if octet == 255 => {
                self.meets("the client's 255 is stopped by number 1".into());
            }
            _ => {}
        }
        let lets_go = side == CLIENT && self.gateway.telnet(SERVER) != before[1];
        if lets_go {
            self.meets(format!("AUTH reaches the server in {:?}", before[1]));
        }
        outcome.taken == 1
    }

    /// Whether the server's command would have passed, were there room for it.
    fn waits_for_auth(&mut self, octet: u8, rooms: &Rooms) {
        let (mut to_server, mut to_client) = (vec![0; rooms.server], vec![0; 1791]);
        let mut roomy = self.gateway.clone();
        roomy.arrive(CLIENT, &[octet], &mut to_server, &mut to_client);
        if roomy.telnet(SERVER) != self.gateway.telnet(SERVER) {
            self.meets("AUTH waits for the server's command".into());
        }
    }

    fn taken(&mut self, side: u8, state: State, octet: u8, outcome: &Outcome, to_server: &[u8]) {
        let who = name(side);
        self.meets(octet_case(side, state, octet));
        let [onward, back] = match side {
            CLIENT => [outcome.to_server, outcome.to_client],
            _ => [outcome.to_client, outcome.to_server],
        };
        let other_ended = self.ended[usize::from(1 - side)];
        if matches!(state, State::Will | State::Do) && back == 3 && other_ended {
            self.meets(format!("{who} is answered after the other's end"));
        }
        if state == State::Iac && octet == 255 {
            let line = match onward {
                0 => "in a held line",
                2 => "in a flowing line",
                _ => "as the 512th octet",
            };
            self.meets(format!("{who} doubles a 255 {line}"));
            let start = &to_server[..outcome.to_server.min(5)];
            if side == CLIENT && start.eq_ignore_ascii_case(b"AUTH ") {
                self.meets("AUTH at a doubled 255".into());
            }
        }
        if outcome.to_server == 1024 {
            self.meets("1,024 octets to the server".into());
        }
    }
}
