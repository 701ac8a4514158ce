//! Server lines: which of them open, hold and end a reply, and the 229 or 425 that a readable 227
//! becomes.

use crate::lines::octet_number;
use crate::made::MadeLine;

/// Code of a reply: "a digit 1 to 5, two digits".
#[derive(Clone, Copy, Debug, PartialEq, Eq)]
pub struct Code([u8; 3]);

impl Code {
    fn of_digits(digits: [u8; 3]) -> Option<Code> {
        let [first, ..] = digits;
        let reads = (b'1'..=b'5').contains(&first) && digits.iter().all(u8::is_ascii_digit);
        reads.then_some(Code(digits))
    }

    /// The three digits, as they came.
    pub fn digits(self) -> [u8; 3] {
        self.0
    }

    /// "First digit 2 to 5 also removes the first owed kind."
    pub fn is_final(self) -> bool {
        self.0[0] != b'1'
    }
}

/// What a server line is to the reply that it stands in, or to none.
#[derive(Clone, Copy, Debug, PartialEq, Eq)]
pub enum Role {
    /// The first line of "a reply opened with a code and a hyphen".
    Opens(Code),
    /// "Lines between, whatever their digits, belong to it": to the reply opened with this code.
    Belongs(Code),
    /// The last line of a reply, or a whole one.
    Ends(Code),
    /// "A line of none of these forms passes, ends at its LF and removes nothing."
    StandsAlone,
}

impl Role {
    /// The role of a line with this content, or of a flowing one with this start, where a reply
    /// opened with the code is unfinished, or none. Four octets are enough to tell: "A flowing
    /// line is judged by its first four octets."
    pub fn of(start: &[u8], unfinished: Option<Code>) -> Role {
        match unfinished {
            Some(code) => Role::inside(start, code),
            None => Role::outside(start),
        }
    }

    /// "A reply opened with a code and a hyphen ends only at the same code and a space", so a
    /// bare code does not end it, and no line opens another.
    fn inside(start: &[u8], code: Code) -> Role {
        let [a, b, c] = code.0;
        if start.first_chunk() == Some(&[a, b, c, b' ']) {
            Role::Ends(code)
        } else {
            Role::Belongs(code)
        }
    }

    /// "Outside such a reply a bare code is still a whole reply", and so is a code and a space.
    fn outside(start: &[u8]) -> Role {
        let Some((&digits, behind)) = start.split_first_chunk() else {
            return Role::StandsAlone;
        };
        match (Code::of_digits(digits), behind) {
            (Some(code), [] | [b' ', ..]) => Role::Ends(code),
            (Some(code), [b'-', ..]) => Role::Opens(code),
            _ => Role::StandsAlone,
        }
    }

    /// The opening code of the reply that is unfinished from the line's LF on.
    pub fn unfinished(self) -> Option<Code> {
        match self {
            Role::Opens(code) | Role::Belongs(code) => Some(code),
            Role::Ends(_) | Role::StandsAlone => None,
        }
    }

    /// Whether the line ends a reply whose first digit is 2 to 5.
    pub fn ends_final(self) -> bool {
        matches!(self, Role::Ends(code) if code.is_final())
    }
}

/// What a 227 becomes, if it can be read and its port, the fifth number times 256 plus the sixth,
/// is not 0: a 229, or a 425 where its address is not the only one that is taken. Without such a
/// one "the address is ignored".
pub fn extended_passive(content: &[u8], only: Option<[u8; 4]>) -> Option<MadeLine> {
    let [a, b, c, d, high, low] = passive_numbers(content)?;
    match u16::from_be_bytes([high, low]) {
        0 => None,
        _ if only.is_some_and(|only| only != [a, b, c, d]) => Some(MadeLine::NoConnection),
        port => Some(MadeLine::ExtendedPassive(port)),
    }
}

/// "Six numbers from the first digit after the code's space."
fn passive_numbers(content: &[u8]) -> Option<[u8; 6]> {
    let text = content.strip_prefix(b"227 ")?;
    let start = text.iter().position(u8::is_ascii_digit)?;
    six_numbers(&text[start..])
}

/// "Each a whole run of 1 to 3 digits, 0 to 255, single commas between; what follows the sixth
/// run is not looked at."
fn six_numbers(text: &[u8]) -> Option<[u8; 6]> {
    let mut numbers = [0; 6];
    let mut rest = text;
    for (index, number) in numbers.iter_mut().enumerate() {
        if index > 0 {
            rest = rest.strip_prefix(b",")?;
        }
        let run = rest.iter().take_while(|octet| octet.is_ascii_digit());
        let (run, after) = rest.split_at(run.count());
        *number = octet_number(run)?;
        rest = after;
    }
    Some(numbers)
}
