//! The Telnet layer of RFC 854 below the lines: which octets of a direction are data, and what
//! becomes of the others. Quoted sentences are those of request 2 of document 02.

/// "Interpret as command": doubled it is a data octet.
pub const IAC: u8 = 255;

const SE: u8 = 240;
const SB: u8 = 250;
const WILL: u8 = 251;
const WONT: u8 = 252;
const DO: u8 = 253;
const DONT: u8 = 254;

/// What a direction's octets have left unfinished.
#[derive(Clone, Copy, Debug, Default, PartialEq, Eq)]
pub enum State {
    /// Nothing.
    #[default]
    Clear,
    Iac,
    Will,
    Wont,
    Do,
    Dont,
    /// A subnegotiation.
    Within,
    /// A subnegotiation, and in it a 255.
    WithinIac,
}

/// What an octet does.
#[derive(Clone, Copy, Debug, PartialEq, Eq)]
pub enum Does {
    /// It is one of a line, or makes one.
    Data(u8),
    Nothing,
    /// "WILL is answered to its sender with DONT, DO with WONT, and neither is relayed."
    Answers([u8; 3]),
    /// "255 and any other octet but 250 pass at once as a command, ahead of a held line."
    Passes([u8; 2]),
    /// So many octets of a subnegotiation, this one the last, are removed and counted.
    Removes(u32),
}

impl State {
    /// What the next octet does, and the state after it.
    pub fn take(self, octet: u8) -> (State, Does) {
        match self {
            State::Clear if octet == IAC => (State::Iac, Does::Nothing),
            State::Clear => (State::Clear, Does::Data(octet)),
            State::Iac => State::after_iac(octet),
            State::Will => (State::Clear, Does::Answers([IAC, DONT, octet])),
            State::Do => (State::Clear, Does::Answers([IAC, WONT, octet])),
            State::Wont | State::Dont => (State::Clear, Does::Nothing),
            State::Within if octet == IAC => (State::WithinIac, Does::Removes(1)),
            State::WithinIac if octet == SE => (State::Clear, Does::Removes(1)),
            State::Within | State::WithinIac => (State::Within, Does::Removes(1)),
        }
    }

    /// That a 255 begins a subnegotiation shows at the 250, which is removed together with it.
    fn after_iac(octet: u8) -> (State, Does) {
        match octet {
            IAC => (State::Clear, Does::Data(IAC)),
            SB => (State::Within, Does::Removes(2)),
            WILL => (State::Will, Does::Nothing),
            WONT => (State::Wont, Does::Nothing),
            DO => (State::Do, Does::Nothing),
            DONT => (State::Dont, Does::Nothing),
            _ => (State::Clear, Does::Passes([IAC, octet])),
        }
    }

    /// The octets of a command that is unfinished, other than a subnegotiation: "Where held octets
    /// pass at an end or for AUTH, any other command still unfinished passes after them."
    pub fn unfinished(self) -> &'static [u8] {
        match self {
            State::Clear | State::Within | State::WithinIac => &[],
            State::Iac => &[IAC],
            State::Will => &[IAC, WILL],
            State::Wont => &[IAC, WONT],
            State::Do => &[IAC, DO],
            State::Dont => &[IAC, DONT],
        }
    }
}
