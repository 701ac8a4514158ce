//! What a session comes to under the rule that a reply of several lines ends by its own code: told
//! from the octets that a gateway took and from those that it wrote.

use std::collections::BTreeSet;

use crate::gateways::Seen;
use crate::session::{Call, What};

/// Each has to be come to.
pub const CASES: [&str; 26] = [
    "an opener",
    "a 1xx opener",
    "a flowing opener",
    "a last line",
    "a 1xx last line",
    "a flowing last line",
    "the same code bare inside",
    "the opener again inside",
    "another code and a space inside",
    "another code and a hyphen inside",
    "another code bare inside",
    "a line of no form inside",
    "a flowing line inside",
    "a flowing whole reply",
    "a flowing line of no form",
    "the server's end inside a reply",
    "an opener that the server's end cuts",
    "AUTH inside a reply",
    "an opener that AUTH cuts",
    "an own answer behind a reply of several lines",
    "an own answer at once behind a line of no form",
    "a 229 behind a line of no form",
    "a 229 behind a 1xx reply of several lines",
    "a 227 inside a reply before a translated EPSV's own",
    "a 227 that ends a reply for a translated EPSV",
    "a final reply removed behind a line of no form",
];

/// Lines of none of the forms that have to come outside a reply, each by itself.
pub const ALONE: [&[u8]; 9] = [
    b"hello", b"", b" 220 x", b"220x", b"2200 x", b"620 x", b"620-x", b"099-y", b"22",
];

/// The case of a line of none of the forms.
pub fn alone(line: &[u8]) -> String {
    format!("{} alone", line.escape_ascii())
}

const OWN_ANSWERS: [&[u8]; 3] = [b"522 Net", b"504 Com", b"216 "];

fn contains(octets: &[u8], text: &[u8]) -> bool {
    octets.windows(text.len()).any(|part| part == text)
}

fn code_of(content: &[u8]) -> Option<[u8; 3]> {
    let code: &[u8; 3] = content.first_chunk()?;
    let reads = (b'1'..=b'5').contains(&code[0]) && code.iter().all(u8::is_ascii_digit);
    reads.then_some(*code)
}

/// What the last server line was.
#[derive(Default, PartialEq, Eq)]
enum Last {
    #[default]
    Other,
    OfNoForm,
    PreliminaryOfSeveral,
}

/// Follows the lines until AUTH is sent or the server ends.
#[derive(Default)]
pub struct MultiLine {
    pub met: BTreeSet<String>,
    client_line: Vec<u8>,
    server_line: Vec<u8>,
    open: Option<[u8; 3]>,
    last: Last,
    /// A translated EPSV has no reply yet, if others before it have theirs.
    epsv_waits: bool,
    over: bool,
}

/// The lines that end in what a call took, each with the piece of it that the call took; what has no
/// LF yet stays begun.
pub fn finished<'a>(begun: &mut Vec<u8>, taken: &'a [u8]) -> Vec<(Vec<u8>, &'a [u8])> {
    let mut lines = Vec::new();
    for piece in taken.split_inclusive(|&octet| octet == b'\n') {
        begun.extend(piece);
        if piece.ends_with(b"\n") {
            lines.push((std::mem::take(begun), piece));
        }
    }
    lines
}

impl MultiLine {
    pub fn look(&mut self, call: &Call, seen: &Seen) {
        let taken = &call.octets()[..seen.taken];
        match (call.direction, &call.what) {
            (0, What::Arrival(_)) if !self.over => self.client(taken, seen),
            (1, What::Arrival(_)) if !self.over => self.server(taken, seen),
            (1, What::Arrival(_)) => self.passes(taken, seen),
            (1, What::End) if seen.answer == 0 => self.server_end(seen),
            _ => {}
        }
    }

    fn meets(&mut self, case: &'static str) {
        assert!(CASES.contains(&case), "{case}");
        self.met.insert(case.into());
    }

    fn meets_if(&mut self, met: bool, case: &'static str) {
        if met {
            self.meets(case);
        }
    }

    fn client(&mut self, taken: &[u8], seen: &Seen) {
        self.client_line.extend(taken);
        let lines = self.client_line.to_ascii_uppercase();
        let own = OWN_ANSWERS
            .iter()
            .any(|own| seen.to_client.starts_with(own));
        let at_once = own && self.last == Last::OfNoForm;
        self.meets_if(at_once, "an own answer at once behind a line of no form");
        self.epsv_waits |= contains(&seen.to_server, b"PASV\r\n") && !contains(&lines, b"PASV");
        if lines.starts_with(b"AUTH") || contains(&lines, b"\nAUTH") {
            self.auth(seen);
        }
        if let Some(lf) = taken.iter().rposition(|&octet| octet == b'\n') {
            self.client_line = taken[lf + 1..].to_vec();
        }
    }

    /// The client's AUTH, perhaps not yet finished.
    fn auth(&mut self, seen: &Seen) {
        let held = self.is_in_opener() && seen.to_client.ends_with(&self.server_line);
        self.meets_if(held, "an opener that AUTH cuts");
        self.over = true;
    }

    /// The unfinished server line would open a reply.
    fn is_in_opener(&self) -> bool {
        let code = code_of(&self.server_line);
        self.open.is_none() && code.is_some() && self.server_line.get(3) == Some(&b'-')
    }

    /// Octets behind an AUTH that was sent inside a reply that has not ended since: written before
    /// their LF.
    fn passes(&mut self, taken: &[u8], seen: &Seen) {
        self.server_line.extend(taken);
        let Some([a, b, c]) = self.open else {
            return;
        };
        if contains(&self.server_line, &[a, b, c, b' ']) {
            self.open = None;
            return;
        }
        let mut lines = self.server_line.rsplit(|&octet| octet == b'\n');
        let line = lines.next().unwrap_or_default();
        let at_once = (1..512).contains(&line.len()) && seen.to_client.ends_with(line);
        self.meets_if(at_once, "AUTH inside a reply");
    }

    fn server_end(&mut self, seen: &Seen) {
        if !self.over {
            let held = self.is_in_opener() && seen.to_client == self.server_line;
            self.meets_if(held, "an opener that the server's end cuts");
            self.meets_if(self.open.is_some(), "the server's end inside a reply");
        }
        self.over = true;
    }

    fn server(&mut self, taken: &[u8], seen: &Seen) {
        for (line, piece) in finished(&mut self.server_line, taken) {
            self.finish(&line, piece, seen);
        }
    }

    /// A finished line, of which the call took a piece.
    fn finish(&mut self, line: &[u8], piece: &[u8], seen: &Seen) {
        let flows = line.len() > 512;
        let text = &line[..line.len() - 1];
        let content = if flows {
            &line[..4]
        } else {
            text.strip_suffix(b"\r").unwrap_or(text)
        };
        match self.open {
            Some(code) => self.inside(code, content, flows, piece, seen),
            None => self.outside(content, flows, piece, seen),
        }
    }

    fn inside(&mut self, open: [u8; 3], content: &[u8], flows: bool, piece: &[u8], seen: &Seen) {
        if !contains(&seen.to_client, piece) {
            return;
        }
        let same = code_of(content) == Some(open);
        if same && content.get(3) == Some(&b' ') {
            return self.ends(open, flows, piece, seen);
        }
        self.meets_if(flows, "a flowing line inside");
        match (code_of(content), content.get(3)) {
            (Some(_), None) if same => self.meets("the same code bare inside"),
            (Some(_), Some(b'-')) if same => self.meets("the opener again inside"),
            (Some(code), Some(b' ')) => {
                self.meets("another code and a space inside");
                let passive = code == *b"227" && self.epsv_waits;
                self.meets_if(
                    passive,
                    "a 227 inside a reply before a translated EPSV's own",
                );
            }
            (Some(_), Some(b'-')) => self.meets("another code and a hyphen inside"),
            (Some(_), None) => self.meets("another code bare inside"),
            _ => self.meets("a line of no form inside"),
        }
    }

    fn ends(&mut self, code: [u8; 3], flows: bool, piece: &[u8], seen: &Seen) {
        let preliminary = code[0] == b'1';
        self.meets(if preliminary {
            "a 1xx last line"
        } else {
            "a last line"
        });
        self.meets_if(flows, "a flowing last line");
        let mut own = OWN_ANSWERS.iter().map(|own| [piece, own].concat());
        let own = own.any(|lines| contains(&seen.to_client, &lines));
        self.meets_if(own, "an own answer behind a reply of several lines");
        let passive = code == *b"227" && self.epsv_waits;
        self.meets_if(passive, "a 227 that ends a reply for a translated EPSV");
        self.open = None;
        self.epsv_waits &= preliminary;
        self.last = if preliminary {
            Last::PreliminaryOfSeveral
        } else {
            Last::Other
        };
    }

    fn outside(&mut self, content: &[u8], flows: bool, piece: &[u8], seen: &Seen) {
        match (code_of(content), content.get(3)) {
            (Some(code), Some(b'-')) => {
                self.meets(if code[0] == b'1' {
                    "a 1xx opener"
                } else {
                    "an opener"
                });
                self.meets_if(flows, "a flowing opener");
                self.open = Some(code);
                self.last = Last::Other;
            }
            (Some(code), Some(b' ') | None) => {
                self.meets_if(flows, "a flowing whole reply");
                self.whole_reply(code, piece, seen);
                self.last = Last::Other;
            }
            _ => {
                self.meets_if(flows, "a flowing line of no form");
                if !flows && ALONE.contains(&content) {
                    self.met.insert(alone(content));
                }
                self.last = Last::OfNoForm;
            }
        }
    }

    fn whole_reply(&mut self, code: [u8; 3], piece: &[u8], seen: &Seen) {
        let is_final = code[0] != b'1';
        let made = contains(&seen.to_client, b"229 Entering Extended");
        if code == *b"227" && made && !contains(&seen.to_client, piece) {
            let behind_none = self.last == Last::OfNoForm;
            self.meets_if(behind_none, "a 229 behind a line of no form");
            let behind_1xx = self.last == Last::PreliminaryOfSeveral;
            self.meets_if(behind_1xx, "a 229 behind a 1xx reply of several lines");
        }
        let mut own = OWN_ANSWERS.iter().map(|own| [piece, own].concat());
        let own = own.any(|lines| contains(&seen.to_client, &lines));
        let removed = is_final && own && self.last == Last::OfNoForm;
        self.meets_if(removed, "a final reply removed behind a line of no form");
        self.epsv_waits &= !is_final;
    }
}
