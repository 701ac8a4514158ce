//! Foreign 227 lines that a strict session lets pass: told from the octets that a gateway took and
//! from those that it wrote.

use std::collections::BTreeSet;

use crate::gateways::Seen;
use crate::multi_line::finished;
use crate::session::{Call, Setup, What, STRICT};

/// Each has to be come to.
pub const CASES: [&str; 4] = [
    "a foreign 227 with port 0",
    "a foreign 227 for the client's own PASV",
    "a foreign 227 that flows",
    "a foreign 227 inside a reply",
];

/// What the client's last line asked for, until a reply ends.
#[derive(Default, PartialEq, Eq)]
enum Asked {
    #[default]
    Other,
    Passive,
    Translated,
}

/// Follows the lines until AUTH is sent.
#[derive(Default)]
pub struct Foreign {
    pub met: BTreeSet<&'static str>,
    /// None where the session is not strict.
    server: Option<[u8; 4]>,
    client_line: Vec<u8>,
    server_line: Vec<u8>,
    asked: Asked,
    open: Option<[u8; 3]>,
    over: bool,
}

/// The six numbers of a 227.
fn numbers(line: &[u8]) -> Option<[u8; 6]> {
    let text = std::str::from_utf8(line.strip_prefix(b"227 ")?).ok()?;
    let start = text.find(|letter: char| letter.is_ascii_digit())?;
    let mut numbers = text[start..].split(|letter: char| !letter.is_ascii_digit());
    let mut six = [0; 6];
    for number in &mut six {
        *number = numbers.next()?.parse().ok()?;
    }
    Some(six)
}

fn contains(octets: &[u8], text: &[u8]) -> bool {
    octets.windows(text.len()).any(|part| part == text)
}

impl Foreign {
    pub fn of(setup: &Setup) -> Foreign {
        Foreign {
            server: (setup.flags & STRICT != 0).then_some(setup.server),
            ..Foreign::default()
        }
    }

    pub fn look(&mut self, call: &Call, seen: &Seen) {
        let taken = &call.octets()[..seen.taken];
        match (call.direction, &call.what) {
            (0, What::Arrival(_)) if !self.over => self.client(taken, seen),
            (1, What::Arrival(_)) if !self.over => self.server(taken, seen),
            _ => {}
        }
    }

    fn client(&mut self, taken: &[u8], seen: &Seen) {
        self.client_line.extend(taken);
        let lines = self.client_line.to_ascii_uppercase();
        self.over = contains(&lines, b"AUTH");
        if let Some(lf) = taken.iter().rposition(|&octet| octet == b'\n') {
            self.asked = match contains(&seen.to_server, b"PASV\r\n") {
                true if lines.starts_with(b"PASV") => Asked::Passive,
                true => Asked::Translated,
                false => Asked::Other,
            };
            self.client_line = taken[lf + 1..].to_vec();
        }
    }

    fn server(&mut self, taken: &[u8], seen: &Seen) {
        for (line, piece) in finished(&mut self.server_line, taken) {
            self.finish(&line, piece, seen);
        }
    }

    /// A finished line, of which the call took a piece. One that flows is written piece by piece.
    fn finish(&mut self, line: &[u8], piece: &[u8], seen: &Seen) {
        let flows = line.len() > 512;
        let written = contains(&seen.to_client, if flows { piece } else { line });
        let foreign = numbers(line).filter(|six| self.server.is_some_and(|own| own != six[..4]));
        if let Some([.., high, low]) = foreign.filter(|_| written) {
            self.passes(flows, [high, low] == [0, 0]);
        }
        self.follow(line);
    }

    fn passes(&mut self, flows: bool, port_zero: bool) {
        let [zero, own, long, inside] = CASES;
        let case = match (&self.asked, self.open, flows, port_zero) {
            (Asked::Translated, Some(_), false, false) => inside,
            (Asked::Translated, None, true, false) => long,
            (Asked::Translated, None, false, true) => zero,
            (Asked::Passive, None, false, false) => own,
            _ => return,
        };
        self.met.insert(case);
    }

    /// A reply of several lines opens or ends, or one of a single line ends.
    fn follow(&mut self, line: &[u8]) {
        let Some((code, [next, ..])) = line.split_first_chunk::<3>() else {
            return;
        };
        let reads = (b'1'..=b'5').contains(&code[0]) && code.iter().all(u8::is_ascii_digit);
        let ends = match self.open {
            Some(open) => open == *code && *next == b' ',
            None => reads && *next != b'-',
        };
        if ends {
            self.open = None;
            self.asked = Asked::Other;
        } else if self.open.is_none() && reads {
            self.open = Some(*code);
        }
    }
}
