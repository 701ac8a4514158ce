//! Reads vectors from standard input, one on each line, and writes what this reference makes of
//! each: a letter says which reading, then a space and the text. Empty lines and those that begin
//! with `#` are left out.
//!
//! - `6 TEXT`: the sixteen octets of an IPv6 text in hexadecimal, or `-`
//! - `C LINE`: what becomes of a client line, everything on
//! - `R CONTENT`: what a server line is where no reply is unfinished
//! - `I CONTENT`: what it is inside a reply opened with `214-`
//! - `J CONTENT`: what it is inside a reply opened with `150-`
//! - `P CONTENT`: the 229 that a 227 becomes, whatever its address
//! - `T STATE OCTET`: the Telnet state after the octet, and what it does
//! - `A`: sums of the PORT and 229 lines of all ports

use reference::address;
use reference::commands::{judge, Addresses, Switches};
use reference::output::Given;
use reference::queue::Owed;
use reference::replies::{extended_passive, Code, Role};
use reference::telnet::{Does, State};
use std::io::{self, Read, Write};

const ADDRESSES: Addresses = Addresses {
    client: [
        0x20, 0x01, 0x0d, 0xb8, 0, 2, 0, 0, 0, 0, 0, 0, 0, 0, 0, 0x31,
    ],
    mapped: [192, 0, 2, 31],
};

/// EPSV on, EPRT supported and on.
const ALL_ON: u8 = 7;

fn main() -> io::Result<()> {
    let mut vectors = Vec::new();
    io::stdin().read_to_end(&mut vectors)?;
    let mut out = io::stdout().lock();
    for vector in vectors.split(|&octet| octet == b'\n') {
        let written = match vector {
            [] | [b'#', ..] => continue,
            [b'A'] => sums(),
            [b'6', b' ', text @ ..] => address(text),
            [b'C', b' ', line @ ..] => command(line),
            [b'R', b' ', content @ ..] => reply_line(content, None),
            [b'I', b' ', content @ ..] => reply_line(content, opened_with(b"214-")),
            [b'J', b' ', content @ ..] => reply_line(content, opened_with(b"150-")),
            [b'P', b' ', content @ ..] => passive_reply(content),
            [b'T', b' ', text @ ..] => telnet(text),
            other => panic!("no such vector: {}", other.escape_ascii()),
        };
        out.write_all(&written)?;
    }
    Ok(())
}

fn address(text: &[u8]) -> Vec<u8> {
    let written = match address::read(text) {
        Some(octets) => octets.iter().map(|octet| format!("{octet:02x}")).collect(),
        None => "-".to_string(),
    };
    (written + "\n").into_bytes()
}

fn command(text: &[u8]) -> Vec<u8> {
    let switches = Switches::of_flags(ALL_ON).expect("defined flags");
    let judged = judge(text, &ADDRESSES, switches);
    match (judged.given, judged.owed) {
        (Given::Made(line), _) => line.to_vec(),
        (_, Owed::Own(answer)) => answer.line().to_vec(),
        (_, Owed::Auth) => b"passes, AUTH\n".to_vec(),
        _ => b"passes\n".to_vec(),
    }
}

fn opened_with(content: &[u8]) -> Option<Code> {
    Role::of(content, None).unfinished()
}

fn reply_line(content: &[u8], unfinished: Option<Code>) -> Vec<u8> {
    match Role::of(content, unfinished) {
        Role::Opens(code) => [b"opens ", &code.digits()[..], b"\n"].concat(),
        Role::Belongs(_) => b"belongs\n".to_vec(),
        Role::Ends(code) if code.is_final() => b"final\n".to_vec(),
        Role::Ends(_) => b"preliminary\n".to_vec(),
        Role::StandsAlone => b"stands alone\n".to_vec(),
    }
}

fn passive_reply(content: &[u8]) -> Vec<u8> {
    match extended_passive(content, None) {
        Some(line) => line.to_vec(),
        None => b"passes\n".to_vec(),
    }
}

const STATES: [State; 8] = [
    State::Clear,
    State::Iac,
    State::Will,
    State::Wont,
    State::Do,
    State::Dont,
    State::Within,
    State::WithinIac,
];

fn telnet(text: &[u8]) -> Vec<u8> {
    let text = text.escape_ascii().to_string();
    let (name, octet) = text.split_once(' ').expect("a state and an octet");
    let state = STATES.iter().find(|state| format!("{state:?}") == name);
    let octet = octet.parse().expect("an octet");
    let (after, does) = state.expect("a state").take(octet);
    let does = match does {
        Does::Data(octet) => format!("data {octet}"),
        Does::Nothing => "nothing".to_string(),
        Does::Answers([a, b, c]) => format!("answers {a} {b} {c}"),
        Does::Passes([a, b]) => format!("passes {a} {b}"),
        Does::Removes(count) => format!("removes {count}"),
    };
    format!("{after:?} {does}\n").into_bytes()
}

/// Port 0 is no port that a line may be read from, so its two lines are written out here.
fn sums() -> Vec<u8> {
    let mut ports = b"PORT 192,0,2,31,0,0\r\n".to_vec();
    let mut passive = b"229 Entering Extended Passive Mode (|||0|)\r\n".to_vec();
    for port in 1..=65535 {
        let (high, low) = (port / 256, port % 256);
        let eprt = format!("EPRT |2|2001:db8:2::31|{port}|");
        let reply = format!("227 (192,0,2,31,{high},{low})");
        ports.extend(command(eprt.as_bytes()));
        passive.extend(passive_reply(reply.as_bytes()));
    }
    format!("{} {}\n", adler32(&ports), adler32(&passive)).into_bytes()
}

fn adler32(octets: &[u8]) -> u32 {
    let (a, b) = octets.iter().fold((1, 0), |(a, b), &octet| {
        let a = (a + u32::from(octet)) % 65521;
        (a, (b + a) % 65521)
    });
    b * 65536 + a
}
