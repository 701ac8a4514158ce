//! IPv6 text: "groups of 1 to 4 hex digits, at most one `::` standing for at least one group,
//! and may end in four dotted numbers of 1 to 3 digits, 0 to 255; no zone, no prefix length."

use crate::lines::octet_number;

const GROUPS: usize = 8;

/// The address that a text stands for, if it is IPv6 text.
pub fn read(text: &[u8]) -> Option<[u8; 16]> {
    let mut groups = Groups::default();
    let mut rest = match text {
        [b':', b':', after @ ..] => {
            groups.open_gap()?;
            after
        }
        // A text of no octets has no groups.
        [] => return None,
        _ => text,
    };
    while !rest.is_empty() {
        rest = groups.read_one(rest)?;
    }
    groups.address()
}

/// The groups read so far, and how many of them stand before the `::`.
#[derive(Default)]
struct Groups {
    groups: [u16; GROUPS],
    count: usize,
    gap: Option<usize>,
}

impl Groups {
    /// Reads a group and the colons behind it, or the dotted numbers at the end, and gives what
    /// is left. A single colon has a group behind it.
    fn read_one<'text>(&mut self, text: &'text [u8]) -> Option<&'text [u8]> {
        let (group, after) = group(text)?;
        if let [b'.', ..] = after {
            let [high, low] = dotted(text)?;
            self.push(high)?;
            self.push(low)?;
            return Some(&[]);
        }
        self.push(group)?;
        match after {
            [] => Some(after),
            [b':', b':', rest @ ..] => {
                self.open_gap()?;
                Some(rest)
            }
            [b':', rest @ ..] if !rest.is_empty() => Some(rest),
            _ => None,
        }
    }

    fn push(&mut self, group: u16) -> Option<()> {
        *self.groups.get_mut(self.count)? = group;
        self.count += 1;
        Some(())
    }

    /// "At most one `::`."
    fn open_gap(&mut self) -> Option<()> {
        self.gap.replace(self.count).is_none().then_some(())
    }

    /// Eight groups, or fewer and a `::` "standing for at least one group".
    fn address(mut self) -> Option<[u8; 16]> {
        let left_out = GROUPS - self.count;
        match self.gap {
            // Zeros stand behind the groups read; they belong into the gap.
            Some(gap) if left_out > 0 => self.groups[gap..].rotate_right(left_out),
            None if left_out == 0 => {}
            _ => return None,
        }
        let mut octets = [0; 16];
        for (pair, group) in octets.as_chunks_mut().0.iter_mut().zip(self.groups) {
            *pair = group.to_be_bytes();
        }
        Some(octets)
    }
}

/// The value of 1 to 4 hex digits, and what follows them.
fn group(text: &[u8]) -> Option<(u16, &[u8])> {
    let mut value = 0;
    let mut rest = text;
    while let [digit, after @ ..] = rest {
        let Some(digit) = char::from(*digit).to_digit(16) else {
            break;
        };
        if text.len() - after.len() > 4 {
            return None;
        }
        value = value * 16 + digit as u16;
        rest = after;
    }
    (rest.len() < text.len()).then_some((value, rest))
}

/// Four dotted numbers count as two groups.
fn dotted(text: &[u8]) -> Option<[u16; 2]> {
    let mut parts = text.split(|&octet| octet == b'.');
    let mut number = || octet_number(parts.next()?);
    let high = u16::from_be_bytes([number()?, number()?]);
    let low = u16::from_be_bytes([number()?, number()?]);
    parts.next().is_none().then_some([high, low])
}
