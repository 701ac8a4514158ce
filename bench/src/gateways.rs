//! What is measured: the proved gateway, the reference, and plain copying as the least that any
//! gateway could cost. All three are called alike and write into the same lent buffers.

use fashlemor::raw;

pub const CLIENT: u8 = 0;
pub const SERVER: u8 = 1;

const CLIENT_ADDRESS: [u8; 16] = [
    0x20, 0x01, 0x0d, 0xb8, 0, 2, 0, 0, 0, 0, 0, 0, 0, 0, 0, 0x31,
];
const MAPPED_ADDRESS: [u8; 4] = [192, 0, 2, 31];
const SERVER_ADDRESS: [u8; 4] = [198, 51, 100, 7];
/// EPSV on, EPRT supported and on.
const FLAGS: u8 = 7;

/// The octets of each lent buffer: the longest arrival passes whole.
pub const ROOM: usize = 16384;

/// What a call answers, and its counts of octets.
#[derive(Clone, Copy, Debug, PartialEq, Eq)]
pub struct Called {
    pub answer: u8,
    pub taken: usize,
    pub to_server: usize,
    pub to_client: usize,
}

/// The two lent buffers. Nothing is cleared between calls, since no gateway asks for that.
pub struct Buffers {
    pub to_server: Vec<u8>,
    pub to_client: Vec<u8>,
}

impl Buffers {
    /// Buffers full of an octet, so that their pages are there before anything is timed.
    pub fn filled(octet: u8) -> Buffers {
        Buffers {
            to_server: vec![octet; ROOM],
            to_client: vec![octet; ROOM],
        }
    }
}

pub trait Gateway: Clone {
    /// A fresh session.
    fn setup() -> Self;

    fn arrive(&mut self, direction: u8, octets: &[u8], buffers: &mut Buffers) -> Called;
}

/// The proved gateway: the C functions of the static library over the record's octets, which begin on
/// a cache line. The safe package adds three stores to a call, which set the counts that the library
/// then overwrites.
#[derive(Clone)]
#[repr(align(64))]
pub struct Ours([u8; fashlemor::RECORD]);

impl Gateway for Ours {
    fn setup() -> Ours {
        let setup = fashlemor::Setup {
            client: CLIENT_ADDRESS.into(),
            mapped: MAPPED_ADDRESS.into(),
            flags: FLAGS,
            server: SERVER_ADDRESS.into(),
        };
        let mut record = [0; fashlemor::RECORD];
        assert_eq!(raw::setup(&mut record, &setup.octets()), raw::DONE);
        Ours(record)
    }

    fn arrive(&mut self, direction: u8, octets: &[u8], buffers: &mut Buffers) -> Called {
        let (to_server, to_client) = (&mut buffers.to_server, &mut buffers.to_client);
        let called = raw::arrive(&mut self.0, direction.into(), octets, to_server, to_client);
        Called {
            answer: called.answer,
            taken: called.taken,
            to_server: called.to_server,
            to_client: called.to_client,
        }
    }
}

/// The reference, laid as ours is: each session begins on a cache line.
#[derive(Clone)]
#[repr(align(64))]
pub struct Reference(reference::Gateway);

impl Gateway for Reference {
    fn setup() -> Reference {
        let (gateway, answer) =
            reference::Gateway::setup(CLIENT_ADDRESS, MAPPED_ADDRESS, FLAGS, SERVER_ADDRESS);
        assert_eq!(answer, 0);
        Reference(gateway)
    }

    // A static library can't be inlined into its host; neither is the reference.
    #[inline(never)]
    fn arrive(&mut self, direction: u8, octets: &[u8], buffers: &mut Buffers) -> Called {
        let (to_server, to_client) = (&mut buffers.to_server, &mut buffers.to_client);
        let outcome = self.0.arrive(direction, octets, to_server, to_client);
        Called {
            answer: outcome.answer,
            taken: outcome.taken,
            to_server: outcome.to_server,
            to_client: outcome.to_client,
        }
    }
}

/// Every octet to the other side, with no session at all: `memcpy`.
#[derive(Clone)]
pub struct Copying;

impl Gateway for Copying {
    fn setup() -> Copying {
        Copying
    }

    fn arrive(&mut self, direction: u8, octets: &[u8], buffers: &mut Buffers) -> Called {
        let taken = octets.len();
        let (to_server, to_client) = if direction == CLIENT {
            buffers.to_server[..taken].copy_from_slice(octets);
            (taken, 0)
        } else {
            buffers.to_client[..taken].copy_from_slice(octets);
            (0, taken)
        };
        Called {
            answer: 0,
            taken,
            to_server,
            to_client,
        }
    }
}
