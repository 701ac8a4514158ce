//! The FTP control channel gateway (RFC 6384) from Rust: safe functions over the static library
//! that `./library` makes. `relay/fashlemor.h` says what each one does, and `docs/HOST.md` how to
//! write a host.
//!
//! A host keeps a [`Session`] for each control connection and hands in whatever arrives:
//!
//! ```
//! use fashlemor::{Direction, Session, Setup, Stop, ROOM};
//!
//! # fn main() -> Result<(), fashlemor::Refused> {
//! let client = "2001:db8:2::31".parse().unwrap();
//! let mapped = "192.0.2.31".parse().unwrap();
//! let server = "198.51.100.7".parse().unwrap();
//! let mut session = Session::setup(&Setup { client, mapped, flags: fashlemor::EPSV, server })?;
//!
//! let (mut to_server, mut to_client) = ([0; ROOM], [0; ROOM]);
//! let call = session.arrive(Direction::Server, b"220 hi\r\n", &mut to_server, &mut to_client)?;
//! assert_eq!(&to_client[..call.to_client], b"220 hi\r\n");
//!
//! let call = session.arrive(Direction::Client, b"EPSV\r\n", &mut to_server, &mut to_client)?;
//! assert_eq!(&to_server[..call.to_server], b"PASV\r\n");
//!
//! let passive = b"227 Entering Passive Mode (192,0,2,31,237,19)\r\n";
//! let call = session.arrive(Direction::Server, passive, &mut to_server, &mut to_client)?;
//! assert_eq!((call.stop, call.taken), (Stop::Done, passive.len()));
//! let extended = b"229 Entering Extended Passive Mode (|||60691|)\r\n";
//! assert_eq!(&to_client[..call.to_client], extended);
//!
//! // The record can be kept, and taken up again.
//! let kept = *session.record();
//! assert_eq!(Session::from_record(&kept)?, session);
//! # Ok(())
//! # }
//! ```
//!
//! [`embed`] and [`extract`] work addresses out by a prefix (RFC 6052), with no session.

#![deny(unsafe_code)]

#[allow(unsafe_code)]
mod ffi;
mod prefix;
pub mod raw;

pub use prefix::{embed, extract, PrefixRefused};

use std::error::Error;
use std::fmt;
use std::net::{Ipv4Addr, Ipv6Addr};

/// The octets of a record.
pub const RECORD: usize = 1111;

/// The octets of a setup: the client's two addresses, the flags and the server's address.
pub const SETUP: usize = 25;

/// With this much room in each buffer an arrival that is not refused, and not stopped by
/// [`Stop::QueueFull`], takes at least one of its octets.
pub const ROOM: usize = 1791;

/// With this much room in the buffer that it goes to, an end never stops for room.
pub const END_ROOM: usize = 1024;

/// The flags of a setup: EPSV translation is on.
pub const EPSV: u8 = 1;
/// EPRT is supported.
pub const EPRT_SUPPORTED: u8 = 2;
/// EPRT translation is on; only where it is supported.
pub const EPRT: u8 = 4;
/// A 227 for a translated EPSV that names another address than the server's becomes a 425; without
/// it the server's address is not looked at.
pub const STRICT: u8 = 8;

/// Whose octets arrive or end.
#[derive(Clone, Copy, Debug, PartialEq, Eq, Hash)]
pub enum Direction {
    Client,
    Server,
}

impl Direction {
    fn number(self) -> u64 {
        match self {
            Direction::Client => raw::CLIENT,
            Direction::Server => raw::SERVER,
        }
    }
}

/// What a setup gives: the client's address, its mapped address, a sum of the flags, and the
/// server's address.
#[derive(Clone, Copy, Debug, PartialEq, Eq, Hash)]
pub struct Setup {
    pub client: Ipv6Addr,
    pub mapped: Ipv4Addr,
    pub flags: u8,
    pub server: Ipv4Addr,
}

impl Setup {
    /// Its octets, in their order.
    pub fn octets(&self) -> [u8; SETUP] {
        let mut octets = [0; SETUP];
        octets[..16].copy_from_slice(&self.client.octets());
        octets[16..20].copy_from_slice(&self.mapped.octets());
        octets[20] = self.flags;
        octets[21..].copy_from_slice(&self.server.octets());
        octets
    }
}

/// Why a call ended.
#[derive(Clone, Copy, Debug, PartialEq, Eq, Hash)]
pub enum Stop {
    /// All octets were taken.
    Done,
    /// Sixteen replies are owed to the client: the rest waits in the host until the server's octets
    /// were handed in. After the server's end it never clears: drop what waits, and close the client.
    QueueFull,
    /// The next octet's output has no room: the rest is to be handed in with empty buffers.
    NoRoom,
}

/// Why a call was refused: nothing was taken or written, and the record is as it was.
#[derive(Clone, Copy, Debug, PartialEq, Eq, Hash)]
pub enum Refused {
    BadRecord,
    BadSetup,
    DirectionEnded,
}

impl fmt::Display for Refused {
    fn fmt(&self, f: &mut fmt::Formatter<'_>) -> fmt::Result {
        f.write_str(match self {
            Refused::BadRecord => "these octets are no record of a session",
            Refused::BadSetup => "the flags are undefined, or EPRT is on and not supported",
            Refused::DirectionEnded => "that direction has ended",
        })
    }
}

impl Error for Refused {}

/// What an arrival or an end did: why it ended, how many octets it took, and how many it wrote to
/// the front of each buffer. A host that drops it loses octets.
#[must_use]
#[derive(Clone, Copy, Debug, PartialEq, Eq, Hash)]
pub struct Called {
    pub stop: Stop,
    pub taken: usize,
    pub to_server: usize,
    pub to_client: usize,
}

/// A session: its record and nothing else, laid so that most calls need few cache lines of it.
#[derive(Clone, PartialEq, Eq)]
#[repr(align(64))]
pub struct Session {
    record: [u8; RECORD],
}

impl Session {
    /// A fresh session.
    pub fn setup(setup: &Setup) -> Result<Session, Refused> {
        let mut record = [0; RECORD];
        match raw::setup(&mut record, &setup.octets()) {
            raw::DONE => Ok(Session { record }),
            _ => Err(Refused::BadSetup),
        }
    }

    /// Octets of a direction arrive. What was not taken is to be handed in again. The octets of
    /// either side may write to both.
    pub fn arrive(
        &mut self,
        direction: Direction,
        octets: &[u8],
        to_server: &mut [u8],
        to_client: &mut [u8],
    ) -> Result<Called, Refused> {
        let number = direction.number();
        called(raw::arrive(
            &mut self.record,
            number,
            octets,
            to_server,
            to_client,
        ))
    }

    /// A direction ends, when nothing of it waits in the host: the held octets of its unfinished line
    /// are written to the other side, and behind them what has come of a Telnet command, but for a
    /// subnegotiation. Where they have no room, nothing was changed.
    pub fn end(
        &mut self,
        direction: Direction,
        to_server: &mut [u8],
        to_client: &mut [u8],
    ) -> Result<Called, Refused> {
        called(raw::end(
            &mut self.record,
            direction.number(),
            to_server,
            to_client,
        ))
    }

    /// Octets written for a direction minus those taken from it, modulo 2^32.
    pub fn offset(&self, direction: Direction) -> u32 {
        raw::offset(&self.record, direction.number()).unwrap_or(0)
    }

    /// The record's octets. `docs/RECORD.md` says what each one tells.
    pub fn record(&self) -> &[u8; RECORD] {
        &self.record
    }

    /// The session of a record's octets, unless calls on it would be refused as a bad record.
    pub fn from_record(record: &[u8; RECORD]) -> Result<Session, Refused> {
        let mut session = Session { record: *record };
        match session.arrive(Direction::Client, &[], &mut [], &mut []) {
            Err(Refused::BadRecord) => Err(Refused::BadRecord),
            _ => Ok(session),
        }
    }
}

impl fmt::Debug for Session {
    /// Its offsets; the record's octets would say little.
    fn fmt(&self, f: &mut fmt::Formatter<'_>) -> fmt::Result {
        f.debug_struct("Session")
            .field("client_offset", &self.offset(Direction::Client))
            .field("server_offset", &self.offset(Direction::Server))
            .finish_non_exhaustive()
    }
}

/// A call by its number. A [`Session`] names no direction that there is not.
fn called(call: raw::Called) -> Result<Called, Refused> {
    let stop = match call.answer {
        raw::DONE => Stop::Done,
        raw::QUEUE_FULL => Stop::QueueFull,
        raw::NO_ROOM => Stop::NoRoom,
        raw::DIRECTION_ENDED => return Err(Refused::DirectionEnded),
        _ => return Err(Refused::BadRecord),
    };
    Ok(Called {
        stop,
        taken: call.taken,
        to_server: call.to_server,
        to_client: call.to_client,
    })
}
