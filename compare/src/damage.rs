//! Session files damaged by seed: octets changed, cut off, put behind, and wrong table fields.

use crate::generate;
use crate::random::Random;

const COUNTS: [u16; 8] = [0, 1, 2, 47, 48, 49, 256, 65535];
const KINDS: [u8; 8] = [0, 1, 2, 3, 4, 5, 128, 255];
const LENGTHS: [u16; 11] = [0, 1, 21, 24, 25, 26, 1023, 1024, 1025, 32768, 65535];

pub fn file(seed: u64) -> Vec<u8> {
    let mut random = Random::new(seed ^ 0x0da3_a6ed);
    let session = generate::session(seed);
    let mut file = session.file().expect("a generated session has a file");
    for _ in 0..random.pick(&[1, 1, 1, 2, 3]) {
        damage(&mut random, &mut file);
    }
    file
}

fn damage(random: &mut Random, file: &mut Vec<u8>) {
    match random.below(8) {
        0 => change_octet(random, file),
        1 => cut(random, file),
        2 => lengthen(random, file),
        3 => set(file, 0, &random.pick(&COUNTS).to_be_bytes()),
        4 => set_field(random, file, 0, |random| vec![random.pick(&KINDS)]),
        5 => set_field(random, file, 1, |random| vec![random.pick(&[0, 1, 255])]),
        6 => set_field(random, file, 2, |random| {
            random.pick(&LENGTHS).to_be_bytes().to_vec()
        }),
        _ => move_octet_between_entries(random, file),
    }
}

fn change_octet(random: &mut Random, file: &mut [u8]) {
    if !file.is_empty() {
        let place = random.below(file.len());
        file[place] = random.octet();
    }
}

/// Anywhere, or near the table.
fn cut(random: &mut Random, file: &mut Vec<u8>) {
    let table = 2 + 4 * count(file);
    let length = match random.below(3) {
        0 => random.below(file.len() + 1),
        1 => random.below(table + 2),
        _ => file.len().saturating_sub(random.between(1, 3)),
    };
    file.truncate(length);
}

fn lengthen(random: &mut Random, file: &mut Vec<u8>) {
    let more = random.pick(&[1, 2, 4, 40, 60_000]);
    file.extend((0..more).map(|_| random.octet()));
}

fn count(file: &[u8]) -> usize {
    let count = file.first_chunk().copied().map_or(0, u16::from_be_bytes);
    usize::from(count)
}

fn set(file: &mut [u8], place: usize, octets: &[u8]) {
    if let Some(field) = file.get_mut(place..place + octets.len()) {
        field.copy_from_slice(octets);
    }
}

/// Sets a field of some entry of the table, `within` octets behind its start.
fn set_field(
    random: &mut Random,
    file: &mut [u8],
    within: usize,
    value: impl Fn(&mut Random) -> Vec<u8>,
) {
    let entry = random.below(count(file).max(1));
    let octets = value(random);
    set(file, 2 + 4 * entry + within, &octets);
}

/// One entry gets an octet longer and another one shorter: the total stays right.
fn move_octet_between_entries(random: &mut Random, file: &mut [u8]) {
    let (one, other) = (
        random.below(count(file).max(1)),
        random.below(count(file).max(1)),
    );
    for (entry, more) in [(one, 1), (other, 255)] {
        if let Some(low) = file.get_mut(2 + 4 * entry + 3) {
            *low = low.wrapping_add(more);
        }
    }
}

#[cfg(test)]
mod tests {
    use super::*;

    #[test]
    fn every_verdict_comes_up() {
        let mut refused = [0; 3];
        for seed in 1..=1000 {
            let report = reference::files::report(&file(seed));
            let verdict = ["REFUSED 7\n", "REFUSED 8\n"];
            let verdict = verdict.iter().position(|line| report == *line);
            refused[verdict.unwrap_or(2)] += 1;
        }
        assert!(refused.iter().all(|&files| files >= 150), "{refused:?}");
    }
}
