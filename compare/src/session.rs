//! A setup and the calls that follow it, and the session file that says the same.

/// "The replay uses 16,384 octets for each out buffer."
pub const FULL_ROOM: usize = 16384;
pub const FULL_ROOMS: Rooms = Rooms {
    server: FULL_ROOM,
    client: FULL_ROOM,
};

pub const MOST_ENTRIES: usize = 48;
pub const LONGEST_BODY: usize = 1024;

/// The addresses that document 01 uses.
pub const CLIENT_ADDRESS: [u8; 16] = [
    0x20, 0x01, 0x0d, 0xb8, 0, 2, 0, 0, 0, 0, 0, 0, 0, 0, 0, 0x31,
];
pub const MAPPED_ADDRESS: [u8; 4] = [192, 0, 2, 31];
/// The address that the 227s of document 01's exchanges name; it is the mapped one.
pub const PASSIVE_ADDRESS: [u8; 4] = MAPPED_ADDRESS;
/// Another, for the server.
pub const SERVER_ADDRESS: [u8; 4] = [198, 51, 100, 7];

/// Setup flag bit 3: of a 227 only the server's address is taken.
pub const STRICT: u8 = 8;

#[derive(Clone, Copy, Debug, PartialEq, Eq)]
pub struct Setup {
    pub client: [u8; 16],
    pub mapped: [u8; 4],
    pub flags: u8,
    pub server: [u8; 4],
}

impl Setup {
    /// As a session file and the library have it.
    pub fn octets(&self) -> Vec<u8> {
        [&self.client[..], &self.mapped, &[self.flags], &self.server].concat()
    }
}

/// The octets free in the buffer for each side.
#[derive(Clone, Copy, Debug, PartialEq, Eq)]
pub struct Rooms {
    pub server: usize,
    pub client: usize,
}

#[derive(Clone, Debug, PartialEq, Eq)]
pub enum What {
    Arrival(Vec<u8>),
    End,
}

/// One call of a gateway.
#[derive(Clone, Debug, PartialEq, Eq)]
pub struct Call {
    pub direction: u8,
    pub what: What,
    pub rooms: Rooms,
}

impl Call {
    pub fn arrival(direction: u8, octets: &[u8]) -> Call {
        Call {
            direction,
            what: What::Arrival(octets.to_vec()),
            rooms: FULL_ROOMS,
        }
    }

    pub fn end(direction: u8) -> Call {
        Call {
            direction,
            what: What::End,
            rooms: FULL_ROOMS,
        }
    }

    /// The octets of an arrival; an end has none.
    pub fn octets(&self) -> &[u8] {
        match &self.what {
            What::Arrival(octets) => octets,
            What::End => &[],
        }
    }

    /// The same arrival of other octets.
    pub fn with_octets(&self, octets: &[u8]) -> Call {
        let what = What::Arrival(octets.to_vec());
        Call {
            what,
            ..self.clone()
        }
    }

    /// Whether a session file can have this call as an entry.
    fn is_entry(&self) -> bool {
        self.direction < 2 && self.octets().len() <= LONGEST_BODY && self.rooms == FULL_ROOMS
    }

    fn kind(&self) -> u8 {
        match self.what {
            What::Arrival(_) => self.direction,
            What::End => self.direction + 2,
        }
    }
}

#[derive(Clone, Debug, PartialEq, Eq)]
pub struct Session {
    pub setup: Setup,
    pub calls: Vec<Call>,
}

impl Session {
    /// The session file of these calls, if there can be one.
    pub fn file(&self) -> Option<Vec<u8>> {
        let fits = self.calls.len() < MOST_ENTRIES && self.calls.iter().all(Call::is_entry);
        fits.then(|| self.octets_of_file())
    }

    fn octets_of_file(&self) -> Vec<u8> {
        let setup = self.setup.octets();
        let mut entries = vec![(4, &setup[..])];
        entries.extend(self.calls.iter().map(|call| (call.kind(), call.octets())));
        let mut file = (entries.len() as u16).to_be_bytes().to_vec();
        for (kind, body) in &entries {
            file.extend([*kind, 0]);
            file.extend((body.len() as u16).to_be_bytes());
        }
        file.extend(entries.iter().flat_map(|(_, body)| *body));
        file
    }

    /// The session that a well-formed session file holds.
    pub fn of_file(file: &[u8]) -> Option<Session> {
        let count = usize::from(u16::from_be_bytes(*file.first_chunk()?));
        let (table, mut rest) = file.get(2..)?.split_at_checked(4 * count)?;
        let mut entries = Vec::new();
        for entry in table.chunks_exact(4) {
            let length = usize::from(u16::from_be_bytes([entry[2], entry[3]]));
            let (body, after) = rest.split_at_checked(length)?;
            entries.push((entry[0], body));
            rest = after;
        }
        let ((_, setup), calls) = entries.split_first()?;
        let session = Session {
            setup: setup_of(setup)?,
            calls: calls.iter().map(call_of).collect::<Option<_>>()?,
        };
        (session.file()? == file).then_some(session)
    }

    /// The same calls with the room that a replay has, and only those that a session file can
    /// have as entries; long arrivals are cut.
    pub fn with_full_rooms(&self) -> Session {
        let known = self.calls.iter().filter(|call| call.direction < 2);
        let calls = known.flat_map(Call::entries).collect();
        Session { calls, ..*self }
    }
}

impl Call {
    fn entries(&self) -> Vec<Call> {
        let whole = Call {
            rooms: FULL_ROOMS,
            ..self.clone()
        };
        if self.octets().len() <= LONGEST_BODY {
            return vec![whole];
        }
        let pieces = self.octets().chunks(LONGEST_BODY);
        pieces.map(|piece| whole.with_octets(piece)).collect()
    }
}

fn setup_of(body: &[u8]) -> Option<Setup> {
    Some(Setup {
        client: body.get(..16)?.try_into().ok()?,
        mapped: body.get(16..20)?.try_into().ok()?,
        flags: *body.get(20)?,
        server: body.get(21..)?.try_into().ok()?,
    })
}

fn call_of(&(kind, body): &(u8, &[u8])) -> Option<Call> {
    match kind {
        0 | 1 => Some(Call::arrival(kind, body)),
        2 | 3 => Some(Call::end(kind - 2)),
        _ => None,
    }
}
