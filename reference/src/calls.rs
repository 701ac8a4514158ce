//! A list of calls in octets and its results in octets, to set two gateways side by side.
//!
//! Script: 25 octets of setup (the client's address, its mapped address, the flags, the server's
//! address), then calls: kind (0 arrival, 1 end), direction, server room (2 octets, high first),
//! client room (2), length (2), and that many octets, which an end does not look at. A call that is
//! cut short or of another kind ends the script.
//!
//! Result: the answer of the setup, then per call its answer, and in 4 octets each, high first,
//! the octets taken, written to the server and written to the client; those written, first the
//! server's; and in 4 octets each the offsets of direction 0 and 1.

use crate::gateway::{Gateway, Outcome, CLIENT, SERVER};

/// The most room that two octets say.
const MOST_ROOM: usize = 65535;

/// The results of a script. One with no whole setup has none.
pub fn run_calls(script: &[u8]) -> Vec<u8> {
    let mut script = Script(script);
    let Some((mut gateway, answer)) = script.setup() else {
        return Vec::new();
    };
    let mut results = vec![answer];
    let (mut to_server, mut to_client) = ([0; MOST_ROOM], [0; MOST_ROOM]);
    while let Some(call) = script.call() {
        let outcome = call.run(&mut gateway, &mut to_server, &mut to_client);
        write_result(&mut results, &gateway, &outcome, &to_server, &to_client);
    }
    results
}

/// What is left to read of a script.
struct Script<'script>(&'script [u8]);

impl<'script> Script<'script> {
    fn octets(&mut self, count: usize) -> Option<&'script [u8]> {
        let (octets, rest) = self.0.split_at_checked(count)?;
        self.0 = rest;
        Some(octets)
    }

    fn array<const COUNT: usize>(&mut self) -> Option<[u8; COUNT]> {
        self.octets(COUNT)?.try_into().ok()
    }

    fn octet(&mut self) -> Option<u8> {
        self.array().map(|[octet]| octet)
    }

    fn number(&mut self) -> Option<usize> {
        self.array().map(u16::from_be_bytes).map(usize::from)
    }

    fn setup(&mut self) -> Option<(Gateway, u8)> {
        let client = self.array()?;
        let mapped = self.array()?;
        let flags = self.octet()?;
        let server = self.array()?;
        Some(Gateway::setup(client, mapped, flags, server))
    }

    fn call(&mut self) -> Option<Call<'script>> {
        let is_end = match self.octet()? {
            0 => false,
            1 => true,
            _ => return None,
        };
        let direction = self.octet()?;
        let server_room = self.number()?;
        let client_room = self.number()?;
        let length = self.number()?;
        let octets = self.octets(length)?;
        Some(Call {
            is_end,
            direction,
            server_room,
            client_room,
            octets,
        })
    }
}

struct Call<'script> {
    is_end: bool,
    direction: u8,
    server_room: usize,
    client_room: usize,
    octets: &'script [u8],
}

impl Call<'_> {
    /// Runs the call with as much of the buffers as it says.
    fn run(&self, gateway: &mut Gateway, to_server: &mut [u8], to_client: &mut [u8]) -> Outcome {
        let to_server = &mut to_server[..self.server_room];
        let to_client = &mut to_client[..self.client_room];
        if self.is_end {
            gateway.end(self.direction, to_server, to_client)
        } else {
            gateway.arrive(self.direction, self.octets, to_server, to_client)
        }
    }
}

fn write_result(
    results: &mut Vec<u8>,
    gateway: &Gateway,
    outcome: &Outcome,
    to_server: &[u8],
    to_client: &[u8],
) {
    results.push(outcome.answer);
    for count in [outcome.taken, outcome.to_server, outcome.to_client] {
        results.extend((count as u32).to_be_bytes());
    }
    results.extend(&to_server[..outcome.to_server]);
    results.extend(&to_client[..outcome.to_client]);
    results.extend(gateway.offset(CLIENT).to_be_bytes());
    results.extend(gateway.offset(SERVER).to_be_bytes());
}
