//! Sessions written as steps, each with what it gives.

pub const CLIENT: u8 = 0;
pub const SERVER: u8 = 1;

/// 2001:db8:2::31
pub const CLIENT_ADDRESS: [u8; 16] = [0x20, 1, 0xd, 0xb8, 0, 2, 0, 0, 0, 0, 0, 0, 0, 0, 0, 0x31];
pub const MAPPED: [u8; 4] = [192, 0, 2, 31];
pub const SERVER_ADDRESS: [u8; 4] = [198, 51, 100, 7];

/// Setup flags.
pub const ALL_OFF: u8 = 0;
pub const EPSV_ON: u8 = 1;
pub const EPRT_SUPPORTED: u8 = 2;
pub const EPRT_ON: u8 = 6;
pub const ALL_ON: u8 = 7;
pub const STRICT: u8 = 8;

/// Room that no test fills, but for those that say a room of their own.
pub const PLENTY: usize = 8192;

pub const NOT_SUPPORTED: &str = "522 Network protocol not supported\r\n";
pub const NOT_IMPLEMENTED: &str = "504 Command not implemented for that parameter\r\n";
pub const PASSIVE: &str = "227 Entering Passive Mode (192,0,2,31,237,19)\r\n";
pub const EXTENDED_PASSIVE: &str = "229 Entering Extended Passive Mode (|||60691|)\r\n";
pub const NO_CONNECTION: &str = "425 Can't open data connection.\r\n";

/// What a call answers, how many octets it took, and those it wrote for each side.
#[derive(Clone, Debug, Default, PartialEq, Eq)]
pub struct Outcome {
    pub answer: u8,
    pub taken: usize,
    pub to_server: Vec<u8>,
    pub to_client: Vec<u8>,
}

impl Outcome {
    /// An answer with nothing taken and nothing written.
    pub fn answered(answer: u8) -> Outcome {
        Outcome {
            answer,
            ..Outcome::default()
        }
    }
}

/// The gateway, lent buffers of just the rooms said.
#[derive(Clone, Debug, PartialEq, Eq)]
pub struct Gateway(reference::Gateway);

impl Gateway {
    pub fn setup(client: [u8; 16], mapped: [u8; 4], flags: u8, server: [u8; 4]) -> (Gateway, u8) {
        let (gateway, answer) = reference::Gateway::setup(client, mapped, flags, server);
        (Gateway(gateway), answer)
    }

    #[track_caller]
    pub fn arrive(
        &mut self,
        direction: u8,
        octets: &[u8],
        server_room: usize,
        client_room: usize,
    ) -> Outcome {
        lend(server_room, client_room, |to_server, to_client| {
            self.0.arrive(direction, octets, to_server, to_client)
        })
    }

    #[track_caller]
    pub fn end(&mut self, direction: u8, server_room: usize, client_room: usize) -> Outcome {
        lend(server_room, client_room, |to_server, to_client| {
            self.0.end(direction, to_server, to_client)
        })
    }

    pub fn offset(&self, direction: u8) -> u32 {
        self.0.offset(direction)
    }

    pub fn removed(&self, direction: u8) -> u32 {
        self.0.removed(direction)
    }

    pub fn telnet(&self, direction: u8) -> reference::telnet::State {
        self.0.telnet(direction)
    }
}

/// What stands in a buffer before it is lent.
const OLD: u8 = 0xa5;

/// Lends buffers to a call. "Buffers keep their old contents beyond the written count."
#[track_caller]
fn lend(
    server_room: usize,
    client_room: usize,
    call: impl FnOnce(&mut [u8], &mut [u8]) -> reference::Outcome,
) -> Outcome {
    let (mut to_server, mut to_client) = (vec![OLD; server_room], vec![OLD; client_room]);
    let outcome = call(&mut to_server, &mut to_client);
    for rest in [
        to_server.split_off(outcome.to_server),
        to_client.split_off(outcome.to_client),
    ] {
        let kept = rest.iter().fold(true, |kept, &octet| kept & (octet == OLD));
        assert!(kept, "octets beyond the written count are others");
    }
    Outcome {
        answer: outcome.answer,
        taken: outcome.taken,
        to_server,
        to_client,
    }
}

#[derive(Debug)]
pub enum Step<'text> {
    Client(&'text str),
    Server(&'text str),
    ClientEnd,
    ServerEnd,
}

/// A step, what it gives to the server, and what to the client.
pub type Expected<'text> = (Step<'text>, &'text str, &'text str);

/// Runs steps on a fresh session; each must answer 0, take all and give what is expected.
#[track_caller]
pub fn check_fresh(flags: u8, steps: &[Expected]) {
    check(&mut fresh(flags), steps);
}

/// As `check_fresh`, after the greeting.
#[track_caller]
pub fn check_greeted(flags: u8, steps: &[Expected]) {
    check(&mut greeted(flags), steps);
}

#[track_caller]
pub fn check(gateway: &mut Gateway, steps: &[Expected]) {
    for (number, (step, to_server, to_client)) in steps.iter().enumerate() {
        let (outcome, length) = run(gateway, step);
        let given = (text(&outcome.to_server), text(&outcome.to_client));
        let expected = (to_server.to_string(), to_client.to_string());
        assert_eq!(given, expected, "step {number}: {step:?}");
        assert_eq!(
            (outcome.answer, outcome.taken),
            (0, length),
            "step {number}: {step:?}"
        );
    }
}

fn run(gateway: &mut Gateway, step: &Step) -> (Outcome, usize) {
    match step {
        Step::Client(said) => (arrive(gateway, CLIENT, said), octets(said).len()),
        Step::Server(said) => (arrive(gateway, SERVER, said), octets(said).len()),
        Step::ClientEnd => (gateway.end(CLIENT, PLENTY, PLENTY), 0),
        Step::ServerEnd => (gateway.end(SERVER, PLENTY, PLENTY), 0),
    }
}

pub fn arrive(gateway: &mut Gateway, direction: u8, said: &str) -> Outcome {
    gateway.arrive(direction, &octets(said), PLENTY, PLENTY)
}

#[track_caller]
pub fn fresh(flags: u8) -> Gateway {
    fresh_with(flags, SERVER_ADDRESS)
}

#[track_caller]
pub fn fresh_with(flags: u8, server: [u8; 4]) -> Gateway {
    let (gateway, answer) = Gateway::setup(CLIENT_ADDRESS, MAPPED, flags, server);
    assert_eq!(answer, 0);
    gateway
}

#[track_caller]
pub fn greeted(flags: u8) -> Gateway {
    let mut gateway = fresh(flags);
    let greeting = "220 hi\r\n";
    check(&mut gateway, &[(Step::Server(greeting), "", greeting)]);
    gateway
}

/// A text whose octets 255 are data of a line, as it arrives and as it leaves.
pub fn doubled(text: &str) -> String {
    text.replace('\u{ff}', "\u{ff}\u{ff}")
}

/// One octet for each character, and back.
pub fn octets(text: &str) -> Vec<u8> {
    text.chars()
        .map(|character| u8::try_from(u32::from(character)).expect("a character of one octet"))
        .collect()
}

pub fn text(octets: &[u8]) -> String {
    octets.iter().map(|&octet| char::from(octet)).collect()
}
