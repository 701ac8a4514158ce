//! The Telnet layer of a direction read from its octets: a command is kept as it came until it is
//! known.

const IAC: u8 = 255;
const SE: u8 = 240;
const SB: u8 = 250;
const WILL: u8 = 251;
const WONT: u8 = 252;
const DO: u8 = 253;
const DONT: u8 = 254;

/// What an octet does below the lines.
#[derive(Clone, Debug, PartialEq, Eq)]
pub enum Does {
    Data(u8),
    Nothing,
    Answers(Vec<u8>),
    Passes(Vec<u8>),
    Removes(u32),
}

#[derive(Clone, Debug, Default)]
pub struct Layer {
    command: Vec<u8>,
}

impl Layer {
    pub fn take(&mut self, octet: u8) -> Does {
        if self.command.is_empty() && octet != IAC {
            return Does::Data(octet);
        }
        self.command.push(octet);
        let (does, finished) = match self.command[..] {
            [_] => (Does::Nothing, false),
            [_, IAC] => (Does::Data(IAC), true),
            [_, SB] => (Does::Removes(2), false),
            [_, SB, ..] => (Does::Removes(1), self.is_closed()),
            [_, WILL | WONT | DO | DONT] => (Does::Nothing, false),
            [_, WILL, option] => (Does::Answers(vec![IAC, DONT, option]), true),
            [_, DO, option] => (Does::Answers(vec![IAC, WONT, option]), true),
            [_, _, _] => (Does::Nothing, true),
            _ => (Does::Passes(self.command.clone()), true),
        };
        if finished {
            self.command.clear();
        }
        does
    }

    /// A subnegotiation is closed by a 240 behind an odd number of 255: each pair of them is data.
    fn is_closed(&self) -> bool {
        let Some((&SE, before)) = self.command.split_last() else {
            return false;
        };
        before.iter().rev().take_while(|&&o| o == IAC).count() % 2 == 1
    }

    pub fn is_within(&self) -> bool {
        matches!(self.command[..], [_, SB, ..])
    }

    /// What passes where the direction ends.
    pub fn unfinished(&self) -> &[u8] {
        match self.command[..] {
            [_, SB, ..] => &[],
            _ => &self.command,
        }
    }
}
