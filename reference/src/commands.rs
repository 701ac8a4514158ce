//! Client lines judged whole: what goes to the server, what is owed, and the switches.

use crate::address;
use crate::lines::{all_digits, content, number, same_word, without_spaces};
use crate::made::MadeLine;
use crate::output::Given;
use crate::queue::{Owed, OwnAnswer};

/// Which translations are on. Setup gives them, ALGS changes them.
#[derive(Clone, Copy, Debug, PartialEq, Eq)]
pub struct Switches(u8);

impl Switches {
    const EPSV: u8 = 1;
    const EPRT_SUPPORTED: u8 = 2;
    const EPRT: u8 = 4;

    /// "Bit 0 EPSV translation on, bit 1 EPRT supported, bit 2 EPRT translation on, other bits
    /// zero". Bit 3, the strict form, is no switch: whoever calls has cleared it. Refused are "an
    /// undefined flag bit, or EPRT on and not supported".
    pub fn of_flags(flags: u8) -> Option<Switches> {
        let switches = Switches(flags);
        let undefined = flags & !(Switches::EPSV | Switches::EPRT_SUPPORTED | Switches::EPRT) != 0;
        let unsupported = switches.eprt() && !switches.eprt_supported();
        (!undefined && !unsupported).then_some(switches)
    }

    pub fn epsv(self) -> bool {
        self.0 & Switches::EPSV != 0
    }

    pub fn eprt_supported(self) -> bool {
        self.0 & Switches::EPRT_SUPPORTED != 0
    }

    pub fn eprt(self) -> bool {
        self.0 & Switches::EPRT != 0
    }

    /// "ENABLE64 sets EPSV on and, if supported, EPRT on."
    fn enabled(self) -> Switches {
        let eprt = if self.eprt_supported() {
            Switches::EPRT
        } else {
            0
        };
        Switches(self.0 | Switches::EPSV | eprt)
    }

    /// "DISABLE64 sets both off."
    fn disabled(self) -> Switches {
        Switches(self.0 & Switches::EPRT_SUPPORTED)
    }
}

/// The client's IPv6 address and the IPv4 address it is mapped to.
#[derive(Clone, Copy, Debug, PartialEq, Eq)]
pub struct Addresses {
    pub client: [u8; 16],
    pub mapped: [u8; 4],
}

/// What becomes of a client line: what it gives to the server, the kind owed and the switches
/// after it.
#[derive(Clone, Copy, Debug)]
pub struct Judged {
    pub given: Given,
    pub owed: Owed,
    pub switches: Switches,
}

/// Judges a client line before AUTH, of which `text` stands before the LF. A line that no rule
/// takes hold of passes unchanged.
pub fn judge(text: &[u8], addresses: &Addresses, switches: Switches) -> Judged {
    let judged = |(given, owed)| Judged {
        given,
        owed,
        switches,
    };
    let passes = (Given::Line, Owed::Plain);
    let Some((word, argument)) = command(content(text)) else {
        return judged(passes);
    };
    match &word {
        b"EPSV" if switches.epsv() => judged(epsv(argument).unwrap_or(passes)),
        b"EPRT" if switches.eprt() => judged(eprt(argument, addresses).unwrap_or(passes)),
        b"ALGS" => algs(argument, switches),
        b"AUTH" => judged((Given::Line, Owed::Auth)),
        _ => judged(passes),
    }
}

/// A flowing line is AUTH "if its first five octets are AUTH and a space".
pub fn flowing_auth(start: &[u8; 5]) -> bool {
    same_word(start, b"AUTH ")
}

/// "A command word ends at the first space or the content's end." All words that a rule takes
/// hold of have four letters, so this gives the word if it may be one of them, in capitals, and
/// what follows it.
fn command(content: &[u8]) -> Option<([u8; 4], &[u8])> {
    let (word, rest) = content.split_first_chunk::<4>()?;
    let ends = matches!(rest, [] | [b' ', ..]);
    ends.then(|| (word.map(|octet| octet.to_ascii_uppercase()), rest))
}

fn epsv(argument: &[u8]) -> Option<(Given, Owed)> {
    let argument = without_spaces(argument);
    if same_word(argument, b"ALL") {
        return Some(answered(OwnAnswer::ParameterNotImplemented));
    }
    if !all_digits(argument) {
        return None;
    }
    if !argument.is_empty() && without_leading_zeros(argument) != b"2" {
        return Some(answered(OwnAnswer::ProtocolNotSupported));
    }
    Some((Given::Made(MadeLine::Pasv), Owed::TranslatedEpsv))
}

/// A line that goes nowhere.
fn answered(answer: OwnAnswer) -> (Given, Owed) {
    (Given::Nothing, Owed::Own(answer))
}

/// Some 500 digits fit into a line, so the value is compared as text.
fn without_leading_zeros(digits: &[u8]) -> &[u8] {
    let zeros = digits.iter().take_while(|&&digit| digit == b'0').count();
    &digits[zeros..]
}

/// "A translated EPRT is plain."
fn eprt(argument: &[u8], addresses: &Addresses) -> Option<(Given, Owed)> {
    let [protocol, address, port] = fields(without_spaces(argument))?;
    let port = number(port, 5, 65535)? as u16;
    if protocol != b"2" || port == 0 || address::read(address)? != addresses.client {
        return None;
    }
    let [high, low] = port.to_be_bytes();
    let [a, b, c, d] = addresses.mapped;
    let line = MadeLine::Port([a, b, c, d, high, low]);
    Some((Given::Made(line), Owed::Plain))
}

/// "The argument's first octet (33 to 126) is the delimiter; it must stand exactly four times,
/// first and last included." So it cuts the argument into five parts, the outer two empty.
fn fields(argument: &[u8]) -> Option<[&[u8]; 3]> {
    let delimiter = *argument.first()?;
    if !(33..=126).contains(&delimiter) {
        return None;
    }
    let mut parts = argument.split(|&octet| octet == delimiter);
    let mut part = || parts.next();
    match [part()?, part()?, part()?, part()?, part()?] {
        [b"", protocol, address, port, b""] if parts.next().is_none() => {
            Some([protocol, address, port])
        }
        _ => None,
    }
}

/// ALGS "in a line judged whole never goes to the server". "Other or no argument: the 504."
fn algs(argument: &[u8], before: Switches) -> Judged {
    let argument = without_spaces(argument);
    let after = if same_word(argument, b"STATUS64") {
        Some(before)
    } else if same_word(argument, b"ENABLE64") {
        Some(before.enabled())
    } else if same_word(argument, b"DISABLE64") {
        Some(before.disabled())
    } else {
        None
    };
    let answer = match after {
        Some(state) => OwnAnswer::state(state.epsv(), state.eprt()),
        None => OwnAnswer::ParameterNotImplemented,
    };
    let (given, owed) = answered(answer);
    let switches = after.unwrap_or(before);
    Judged {
        given,
        owed,
        switches,
    }
}
