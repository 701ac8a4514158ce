//! Where a run of octets stops, a line's content and argument, and the numbers that stand in it.

use crate::telnet::IAC;

/// "A line of up to 512 octets, LF included, is judged whole."
pub const LONGEST_JUDGED_WHOLE: usize = 512;

const BLOCK: usize = 64;
const SHORT: usize = 32;
const WORD: usize = size_of::<u64>();

/// The place of the first octet that a run of ordinary ones stops at: a LF ends a line, and a 255
/// begins a Telnet command.
pub fn find_stop(octets: &[u8]) -> Option<usize> {
    find::<b'\n', IAC>(octets)
}

/// The place of the first 255.
pub fn find_iac(octets: &[u8]) -> Option<usize> {
    find::<IAC, IAC>(octets)
}

/// The place of the first octet that is one of two. Most lines are short, so the first octets are
/// looked at by words. Behind them blocks without one are passed over as a whole, which the compiler
/// does with vectors. The last block reaches back over octets that are known to be none.
fn find<const ONE: u8, const OTHER: u8>(octets: &[u8]) -> Option<usize> {
    let Some(last) = octets.len().checked_sub(BLOCK) else {
        return find_by_words::<ONE, OTHER>(octets);
    };
    let (first, behind) = octets.split_at(SHORT);
    if let Some(place) = find_by_words::<ONE, OTHER>(first) {
        return Some(place);
    }
    let (blocks, _) = behind.as_chunks::<BLOCK>();
    let passed = blocks.iter().take_while(|block| !has::<ONE, OTHER>(block));
    let start = last.min(SHORT + BLOCK * passed.count());
    find_by_words::<ONE, OTHER>(&octets[start..][..BLOCK]).map(|place| start + place)
}

/// The last word, too, reaches back.
fn find_by_words<const ONE: u8, const OTHER: u8>(octets: &[u8]) -> Option<usize> {
    let (words, tail) = octets.as_chunks::<WORD>();
    for (index, word) in words.iter().enumerate() {
        if let Some(place) = find_in_word::<ONE, OTHER>(word) {
            return Some(WORD * index + place);
        }
    }
    match octets.last_chunk() {
        Some(last) => find_in_word::<ONE, OTHER>(last).map(|place| octets.len() - WORD + place),
        None => tail
            .iter()
            .position(|&octet| octet == ONE || octet == OTHER),
    }
}

/// Without a way out in the middle, so that all octets are compared at once.
fn has<const ONE: u8, const OTHER: u8>(block: &[u8; BLOCK]) -> bool {
    let found = block.iter().fold(0, |found, &octet| {
        found | u8::from(octet == ONE) | u8::from(octet == OTHER)
    });
    found != 0
}

fn find_in_word<const ONE: u8, const OTHER: u8>(word: &[u8; WORD]) -> Option<usize> {
    let word = u64::from_le_bytes(*word);
    let found = marks::<ONE>(word) | marks::<OTHER>(word);
    (found != 0).then(|| found.trailing_zeros() as usize / 8)
}

/// Octets that are wanted become 0, and the lowest 0 octet is the lowest whose high bit is
/// borrowed into when 1 is taken from each. Above it others may be marked too.
fn marks<const WANTED: u8>(word: u64) -> u64 {
    const ONES: u64 = u64::from_le_bytes([1; WORD]);
    const HIGH_BITS: u64 = ONES << 7;
    let word = word ^ (ONES * WANTED as u64);
    word.wrapping_sub(ONES) & !word & HIGH_BITS
}

/// A line's content, given the octets before its LF: "Its content leaves out that LF and one CR
/// just before it."
pub fn content(text: &[u8]) -> &[u8] {
    text.strip_suffix(b"\r").unwrap_or(text)
}

/// "The argument is what follows, with spaces at both ends removed." Only octet 32 is a space.
pub fn without_spaces(text: &[u8]) -> &[u8] {
    let mut argument = text;
    while let [b' ', rest @ ..] = argument {
        argument = rest;
    }
    while let [rest @ .., b' '] = argument {
        argument = rest;
    }
    argument
}

/// "Words are compared without regard to letter case": letters are a to z and A to Z alone.
pub fn same_word(one: &[u8], other: &[u8]) -> bool {
    one.eq_ignore_ascii_case(other)
}

pub fn all_digits(text: &[u8]) -> bool {
    text.iter().all(u8::is_ascii_digit)
}

/// The value of 1 to `most_digits` digits, leading zeros among them, if it is at most `largest`.
pub fn number(text: &[u8], most_digits: usize, largest: u32) -> Option<u32> {
    if text.is_empty() || text.len() > most_digits {
        return None;
    }
    let value = text.iter().try_fold(0, |value, digit| {
        let is_digit = digit.is_ascii_digit();
        is_digit.then(|| value * 10 + u32::from(digit - b'0'))
    });
    value.filter(|&value| value <= largest)
}

/// A number "of 1 to 3 digits, 0 to 255".
pub fn octet_number(text: &[u8]) -> Option<u8> {
    number(text, 3, 255).map(|value| value as u8)
}

#[cfg(test)]
mod tests {
    use super::*;

    /// Lengths about a word and about one and more blocks, one that is wanted at each place, and
    /// others behind it.
    #[test]
    fn the_first_is_found_at_every_place() {
        for length in (0..=2 * WORD + 1).chain(BLOCK - 2..=2 * BLOCK + SHORT + WORD + 1) {
            for other in [0, 9, 11, 0x0a ^ 0x80, b'x', 127, 254] {
                for (first, then) in [(b'\n', b'\n'), (b'\n', IAC), (IAC, b'\n'), (IAC, IAC)] {
                    let mut octets = vec![other; length];
                    assert_eq!(find_stop(&octets), None);
                    for place in (0..length).rev() {
                        octets[place] = first;
                        assert_eq!(find_stop(&octets), Some(place), "of {length}");
                        octets[place] = then;
                    }
                }
            }
        }
    }

    #[test]
    fn a_255_is_found_behind_a_lf() {
        for place in 0..2 * BLOCK {
            let mut octets = vec![b'\n'; 2 * BLOCK];
            assert_eq!(find_iac(&octets), None);
            octets[place] = IAC;
            assert_eq!(find_iac(&octets), Some(place));
        }
    }

    /// A borrow from the octet below must not make a VT look like a LF, nor a 254 like a 255.
    #[test]
    fn octets_near_a_stop_are_none() {
        for stop in [b'\n', IAC] {
            for octet in (0..=255).filter(|octet| ![b'\n', IAC].contains(octet)) {
                let mut octets = [octet; 9];
                octets[0] = stop;
                assert_eq!(find_stop(&octets), Some(0));
                assert_eq!(find_stop(&octets[1..]), None);
            }
        }
    }
}
