//! The functions as C has them: numbers, and a record or addresses of any octets. For whoever keeps
//! records in memory of his own, and for tests.

pub use crate::ffi::{arrive, embed, end, extract, offset, setup};

/// Direction of what the client sends.
pub const CLIENT: u64 = 0;
/// Direction of what the server sends.
pub const SERVER: u64 = 1;

/// What a call answers.
pub const DONE: u8 = 0;
pub const QUEUE_FULL: u8 = 1;
pub const NO_ROOM: u8 = 2;
pub const UNKNOWN_DIRECTION: u8 = 3;
pub const BAD_RECORD: u8 = 4;
pub const BAD_SETUP: u8 = 5;
pub const DIRECTION_ENDED: u8 = 6;

/// What [`embed`] and [`extract`] answer, beside [`DONE`].
pub const BAD_LENGTH: u8 = 9;
pub const RESERVED_BITS: u8 = 10;

/// What an arrival or an end did: its answer, how many octets it took, and how many it wrote to
/// the front of each buffer.
#[must_use]
#[derive(Clone, Copy, Debug, PartialEq, Eq, Hash)]
pub struct Called {
    pub answer: u8,
    pub taken: usize,
    pub to_server: usize,
    pub to_client: usize,
}
