//! Telnet material by chance: commands finished and not, put anywhere into what a side says, and
//! lines of doubled 255.

use crate::random::Random;
use crate::session::{Call, What};

const IAC: u8 = 255;
const SE: u8 = 240;
const SB: u8 = 250;
/// WILL, WONT, DO, DONT.
const VERBS: [u8; 4] = [251, 252, 253, 254];
/// WILL and DO are offers, which are answered.
const OFFERS: [u8; 2] = [251, 253];
/// Options, and octets that mean something elsewhere.
const OPTIONS: [u8; 14] = [0, 1, 3, 24, 10, 13, 240, 241, 250, 251, 252, 254, 255, 255];
/// What makes a command of two octets, with octets that no paper names.
const COMMANDS: [u8; 14] = [
    240, 241, 242, 243, 244, 245, 249, 239, 10, 10, 13, 0, b'2', b'A',
];
/// What may stand in a subnegotiation: ordinary octets, a doubled 255, commands that are none there.
const INSIDE: [&[u8]; 17] = [
    b"",
    b"\x18\x01",
    b"x",
    b"\n",
    b"\r\n",
    b"AUTH\n",
    b"200 ok\r\n",
    b"\xf0",
    b"\xfa",
    b"\xfc\x01",
    b"\xfb\x01",
    b"\xff\xff",
    b"\xff\xff\xf0",
    b"\xff\xf1",
    b"\xff\xfa",
    b"\xff\xfb\x01",
    b"\xff\n",
];

/// Both octets of a data octet 255.
pub const DOUBLED: [u8; 2] = [IAC, IAC];

pub fn offer(random: &mut Random) -> Vec<u8> {
    vec![IAC, random.pick(&OFFERS), random.pick(&OPTIONS)]
}

/// A subnegotiation without its end.
pub fn open_subnegotiation(random: &mut Random) -> Vec<u8> {
    let mut octets = vec![IAC, SB];
    for _ in 0..random.below(4) {
        octets.extend(random.pick(&INSIDE));
    }
    octets
}

/// A finished command, or a doubled 255.
pub fn command(random: &mut Random) -> Vec<u8> {
    match random.below(10) {
        0 | 1 => DOUBLED.to_vec(),
        2 => DOUBLED.repeat(random.between(2, 5)),
        3 | 4 => offer(random),
        5 | 6 => vec![IAC, random.pick(&VERBS), random.pick(&OPTIONS)],
        7 => vec![IAC, random.pick(&VERBS), random.octet()],
        8 => vec![IAC, random.pick(&COMMANDS)],
        _ => [&open_subnegotiation(random)[..], &[IAC, SE]].concat(),
    }
}

/// A command that something is missing of, and what finishes it.
pub fn unfinished(random: &mut Random) -> (Vec<u8>, Vec<u8>) {
    match random.below(8) {
        0 | 1 => {
            let last = random.pick(&[IAC, IAC, 241, b'\n', 240]);
            (vec![IAC], vec![last])
        }
        2..=5 => {
            let option = random.pick(&OPTIONS);
            (vec![IAC, random.pick(&VERBS)], vec![option])
        }
        6 => (open_subnegotiation(random), vec![IAC, SE]),
        _ => {
            let inside = [&open_subnegotiation(random)[..], &[IAC]].concat();
            (inside, vec![SE])
        }
    }
}

/// A line with so many data octets in front of its end that it is about 512 long, or well beyond;
/// 255 stands among them anywhere, at the 510th to 514th, or in all places behind the start.
pub fn long_line(random: &mut Random, start: &[u8]) -> Vec<u8> {
    let length = match random.below(8) {
        0 => random.between(515, 700),
        _ => random.between(509, 514),
    };
    let start = &start[..start.len().min(500)];
    let often = random.pick(&[0, 1, 20, 100, 100]);
    let filler = random.pick(b"  x");
    let mut line = start.to_vec();
    for place in start.len() + 1..=length {
        let about_512 = (510..=514).contains(&place) && random.percent(50);
        if about_512 || random.percent(often) {
            line.extend(DOUBLED);
        } else {
            line.push(filler);
        }
    }
    line.extend(random.pick(&[&b"\r\n"[..], b"\n", b"\n", b""]));
    line
}

/// Puts commands into arrivals: anywhere, and more often about the end of a line.
pub fn sprinkle(random: &mut Random, calls: &mut [Call]) {
    let often = random.pick(&[0, 5, 15, 40]);
    for call in calls {
        let What::Arrival(octets) = &mut call.what else {
            continue;
        };
        while random.percent(often) {
            let place = place_in(random, octets);
            let command = if random.percent(4) {
                unfinished(random).0
            } else {
                command(random)
            };
            octets.splice(place..place, command);
        }
    }
}

fn place_in(random: &mut Random, octets: &[u8]) -> usize {
    let lf = octets.iter().rposition(|&octet| octet == b'\n');
    match lf {
        Some(lf) if random.percent(50) => random.between(lf.saturating_sub(1), lf + 1),
        _ => random.below(octets.len() + 1),
    }
}
