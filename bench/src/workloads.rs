//! What is sent through the gateways.
//!
//! A workload is an opening, which is not timed, and a cycle, which is run again and again: its
//! end leaves a session as its start found it, but for the counters, so that a set-up and
//! whatever it costs stays outside the measurement.

use std::ops::Range;

use crate::gateways::{CLIENT, SERVER};

/// The octets of a packet on an Ethernet path.
const PACKET: usize = 1460;

/// The longest line that is judged whole, LF included: all but its LF are held.
pub const LONGEST_HELD_LINE: usize = 512;

/// How many sessions take turns where their records have to be cold.
const MANY_SESSIONS: usize = 100_000;

/// From a session to the one that has the next turn where a record must not be the neighbour that
/// the processor has fetched already. It is prime to the number of sessions.
const SCATTERED: usize = 61_803;

/// A login, a listing and a transfer each way of making the data connection, with the replies of
/// an ordinary server; the greeting has been sent. Each line is from the client (`>`) or from the
/// server (`<`). ALGS is answered by the gateway itself.
const SESSION: &str = "\
> USER anonymous
< 331 Please specify the password.
> PASS me@example.com
< 230 Login successful.
> SYST
< 215 UNIX Type: L8
> FEAT
< 211-Features:
<  EPRT
<  EPSV
<  MDTM
<  PASV
<  REST STREAM
<  SIZE
<  UTF8
< 211 End
> PWD
< 257 \"/\" is the current directory
> TYPE I
< 200 Switching to Binary mode.
> ALGS STATUS64
> CWD /pub/documents
< 250 Directory successfully changed.
> EPSV
< 227 Entering Passive Mode (192,0,2,31,237,19)
> LIST
< 150 Here comes the directory listing.
< 226 Directory send OK.
> SIZE rfc6384.txt
< 213 36494
> EPRT |2|2001:db8:2::31|5282|
< 200 PORT command successful. Consider using PASV.
> RETR rfc6384.txt
< 150 Opening BINARY mode data connection for rfc6384.txt (36494 bytes).
< 226 Transfer complete.
> QUIT
< 221 Goodbye.
";

/// Commands that a client may send without waiting, each with its reply.
const EXCHANGES: [(&str, &str); 8] = [
    ("USER anonymous\r\n", "331 Send your address.\r\n"),
    ("PASS me@example.com\r\n", "230 Logged in.\r\n"),
    ("CWD /pub\r\n", "250 Directory changed.\r\n"),
    ("TYPE I\r\n", "200 Type set to I.\r\n"),
    (
        "EPSV\r\n",
        "227 Entering Passive Mode (192,0,2,31,237,19)\r\n",
    ),
    ("SIZE file.txt\r\n", "213 4711\r\n"),
    (
        "EPRT |2|2001:db8:2::31|5282|\r\n",
        "200 PORT command successful.\r\n",
    ),
    ("RETR file.txt\r\n", "226 Transfer complete.\r\n"),
];

struct Arrival {
    direction: u8,
    octets: Range<usize>,
}

/// Arrivals in order. Their octets lie one after the other, as in the buffer of a host.
#[derive(Default)]
pub struct Traffic {
    text: Vec<u8>,
    arrivals: Vec<Arrival>,
}

impl Traffic {
    fn sends(&mut self, direction: u8, octets: &[u8]) {
        let start = self.text.len();
        self.text.extend(octets);
        let octets = start..self.text.len();
        self.arrivals.push(Arrival { direction, octets });
    }

    /// The octets in arrivals of at most so many.
    fn sends_cut(&mut self, direction: u8, octets: &[u8], most: usize) {
        for piece in octets.chunks(most) {
            self.sends(direction, piece);
        }
    }

    /// Each arrival's direction and octets.
    pub fn arrivals(&self) -> impl Iterator<Item = (u8, &[u8])> {
        let arrivals = self.arrivals.iter();
        arrivals.map(|arrival| (arrival.direction, &self.text[arrival.octets.clone()]))
    }

    pub fn calls(&self) -> usize {
        self.arrivals.len()
    }

    pub fn octets(&self) -> usize {
        self.text.len()
    }
}

pub struct Workload {
    pub name: &'static str,
    /// How many sessions take turns, each with an arrival before the first has its next.
    pub sessions: usize,
    /// From a session to the one that has the next turn.
    pub step: usize,
    pub opening: Traffic,
    pub cycle: Traffic,
}

impl Workload {
    /// A session that has been greeted, so that nothing is owed.
    fn greeted(name: &'static str) -> Workload {
        let mut opening = Traffic::default();
        opening.sends(SERVER, b"220 Ready.\r\n");
        Workload {
            name,
            sessions: 1,
            step: 1,
            opening,
            cycle: Traffic::default(),
        }
    }

    /// A session after AUTH and its reply: everything passes at once.
    fn authenticated(name: &'static str) -> Workload {
        let mut workload = Workload::greeted(name);
        workload.opening.sends(CLIENT, b"AUTH TLS\r\n");
        workload.opening.sends(SERVER, b"234 Proceed.\r\n");
        workload
    }

    /// The calls of a cycle, of all sessions together.
    pub fn calls(&self) -> usize {
        self.sessions * self.cycle.calls()
    }

    /// The octets that arrive in a cycle, of all sessions together.
    pub fn octets(&self) -> usize {
        self.sessions * self.cycle.octets()
    }
}

/// The rows of the table.
pub fn all() -> Vec<Workload> {
    vec![
        short_commands("8-octet command a call"),
        lines_of_a_session(),
        pipelined_commands(),
        long_lines(),
        line_that_flows(),
        passing("16 KiB arrivals after AUTH", 16384),
        octets_of_a_session(),
        many_sessions("100,000 sessions in turn, 8 octets a call", 1),
        many_sessions("100,000 sessions scattered, 8 octets a call", SCATTERED),
    ]
}

/// A command, its reply, each of 8 octets.
fn short_commands(name: &'static str) -> Workload {
    let mut workload = Workload::greeted(name);
    workload.cycle.sends(CLIENT, b"TYPE I\r\n");
    workload.cycle.sends(SERVER, b"200 Ok\r\n");
    workload
}

/// The same in so many sessions that no record is still in the caches at its next turn.
fn many_sessions(name: &'static str, step: usize) -> Workload {
    Workload {
        sessions: MANY_SESSIONS,
        step,
        ..short_commands(name)
    }
}

/// The lines of [`SESSION`], as they are sent.
fn session_lines() -> impl Iterator<Item = (u8, String)> {
    SESSION.lines().map(|line| {
        let (mark, text) = line.split_at(2);
        let direction = if mark == "> " { CLIENT } else { SERVER };
        (direction, format!("{text}\r\n"))
    })
}

fn lines_of_a_session() -> Workload {
    let mut workload = Workload::greeted("a whole session, a line a call");
    for (direction, line) in session_lines() {
        workload.cycle.sends(direction, line.as_bytes());
    }
    workload
}

fn octets_of_a_session() -> Workload {
    let mut workload = Workload::greeted("a whole session, an octet a call");
    for (direction, line) in session_lines() {
        workload.cycle.sends_cut(direction, line.as_bytes(), 1);
    }
    workload
}

/// As many commands at once as replies may be owed, then their replies at once.
fn pipelined_commands() -> Workload {
    let mut workload = Workload::greeted("16 commands a call, 16 replies a call");
    let commands: String = EXCHANGES.map(|(command, _)| command).concat();
    let replies: String = EXCHANGES.map(|(_, reply)| reply).concat();
    workload.cycle.sends(CLIENT, commands.repeat(2).as_bytes());
    workload.cycle.sends(SERVER, replies.repeat(2).as_bytes());
    workload
}

/// A line of a length, CR LF included.
fn line(start: &str, length: usize) -> Vec<u8> {
    let mut line = start.as_bytes().to_vec();
    line.resize(length - 2, b'x');
    line.extend(b"\r\n");
    line
}

/// Lines that are held whole and then pass.
fn long_lines() -> Workload {
    let mut workload = Workload::greeted("400-octet line a call");
    workload.cycle.sends(CLIENT, &line("SITE ", 400));
    workload.cycle.sends(SERVER, &line("200 ", 400));
    workload
}

/// A line too long to be held, from the client and then from the server.
fn line_that_flows() -> Workload {
    let mut workload = Workload::greeted("64 KiB line in arrivals of 1,460");
    let (command, reply) = (line("SITE ", 65536), line("200 ", 65536));
    workload.cycle.sends_cut(CLIENT, &command, PACKET);
    workload.cycle.sends_cut(SERVER, &reply, PACKET);
    workload
}

/// Arrivals of so many octets after AUTH, one each way.
pub fn passing(name: &'static str, octets: usize) -> Workload {
    let mut workload = Workload::authenticated(name);
    let arrival: Vec<u8> = (0..octets).map(|place| (place * 7 % 251) as u8).collect();
    workload.cycle.sends(CLIENT, &arrival);
    workload.cycle.sends(SERVER, &arrival);
    workload
}

/// A line of so many octets, LF included, inside a reply that the workload's opening leaves open:
/// all but its LF are held, and it owes and answers nothing, however short it is.
pub fn held(name: &'static str, octets: usize) -> Workload {
    let mut workload = Workload::greeted(name);
    workload.opening.sends(SERVER, b"214-Help.\r\n");
    let mut line = vec![b'x'; octets - 1];
    line.push(b'\n');
    workload.cycle.sends(SERVER, &line);
    workload
}
