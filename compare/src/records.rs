//! Records that no session leads to. The reference has no record in octets, so here the rules
//! alone are asked: what number 4 lists is refused, and nothing is written or changed.

use fashlemor::raw;

use crate::gateways::{Gateway, Ours, Seen};
use crate::generate;
use crate::layout::{self, put};
use crate::random::Random;
use crate::session::{Call, Session, Setup};
use crate::text::call_text;

const LAST_KIND: u8 = 8;
const MOST_OWED: usize = 16;
const MOST_HELD: u32 = 511;

/// The record after some calls of a session.
fn reached(random: &mut Random, session: &Session) -> Vec<u8> {
    let (mut ours, _) = Ours::setup(&session.setup);
    for call in &session.calls[..random.below(session.calls.len() + 1)] {
        ours.call(call);
    }
    ours.record().to_vec()
}

/// Makes a record into one that number 4 refuses, and says what is wrong with it.
fn forge(random: &mut Random, record: &mut Vec<u8>) -> &'static str {
    match random.below(11) {
        0 => {
            record[layout::LIVE] = 0;
            "not live"
        }
        1 => {
            record[random.below(layout::MARKS)] = random.pick(&[2, 3, 128, 255]);
            "a mark that is neither 0 nor 1"
        }
        2 => {
            record[layout::CLIENT_PLACE + random.below(2)] = random.pick(&[4, 5, 128, 255]);
            "a place over 3"
        }
        3 => {
            record[random.pick(&layout::TELNET)] = random.pick(&[8, 9, 128, 255]);
            "a Telnet state over 7"
        }
        4 => {
            put(
                record,
                layout::OWED,
                random.pick(&[17, 18, 272, 65536, u32::MAX]),
            );
            "over 16 owed"
        }
        5 | 6 => forge_kind(random, record),
        7 | 8 => forge_held(random, record),
        9 => {
            record.truncate(random.pick(&[0, 1, 7, 500, fashlemor::RECORD - 1]));
            "too short"
        }
        _ => {
            record.fill(random.pick(&[0, 2, 255]));
            "one octet all over"
        }
    }
}

fn forge_kind(random: &mut Random, record: &mut [u8]) -> &'static str {
    let owed = random.between(1, MOST_OWED);
    put(record, layout::OWED, owed as u32);
    record[layout::KINDS + random.below(owed)] = random.pick(&[LAST_KIND + 1, 16, 128, 255]);
    "an owed kind that is not listed"
}

fn forge_held(random: &mut Random, record: &mut [u8]) -> &'static str {
    let (place, held) = random.pick(&[
        (layout::CLIENT_PLACE, layout::CLIENT_HELD),
        (layout::SERVER_PLACE, layout::SERVER_HELD),
    ]);
    if random.percent(40) {
        record[place] = 0;
        put(
            record,
            held,
            random.pick(&[MOST_HELD + 1, 513, 65536, u32::MAX]),
        );
        "over 511 octets held"
    } else {
        record[place] = random.pick(&[1, 2, 3]);
        put(record, held, random.pick(&[1, 5, MOST_HELD, u32::MAX]));
        "octets held where none can be"
    }
}

/// A call of either direction, by chance.
fn some_call(random: &mut Random, session: &Session) -> Call {
    let direction = random.below(2) as u8;
    match session.calls.get(random.below(session.calls.len() + 1)) {
        Some(call) => Call {
            direction,
            ..call.clone()
        },
        None => Call::end(direction),
    }
}

/// What is wrong with the answer to a forged record, if anything.
pub fn forged(seed: u64) -> Option<String> {
    let mut random = Random::new(seed);
    let session = generate::list(seed);
    let mut record = reached(&mut random, &session);
    let forgery = forge(&mut random, &mut record);
    let call = some_call(&mut random, &session);
    let unknown = Call {
        direction: random.pick(&[2, 255]),
        ..call.clone()
    };
    let mut ours = Ours::of_record(&record);
    let fault = not_refused(&mut ours, &call, raw::BAD_RECORD)
        .or_else(|| not_refused(&mut ours, &unknown, raw::UNKNOWN_DIRECTION));
    fault.map(|said| format!("a record with {forgery}\n{said}"))
}

/// What a call did that should have been refused with an answer, and everything left as it was.
fn not_refused(ours: &mut Ours, call: &Call, answer: u8) -> Option<String> {
    let wanted = Seen {
        answer,
        taken: 0,
        to_server: Vec::new(),
        to_client: Vec::new(),
        totals: ours.totals(),
        fault: None,
    };
    let seen = ours.call(call);
    let said = format!("{}\n{}", call_text(call), seen.text());
    (seen != wanted).then_some(said)
}

/// A record with octets changed by chance may be a good one: whatever it answers, it keeps to its
/// buffers, and a refusal changes nothing.
pub fn shaken(seed: u64) -> Option<String> {
    let mut random = Random::new(seed);
    let session = generate::list(seed);
    let mut record = reached(&mut random, &session);
    for _ in 0..random.between(1, 4) {
        let fields = random.pick(&[layout::KINDS, record.len()]);
        record[random.below(fields)] = random.octet();
    }
    let mut ours = Ours::of_record(&record);
    for _ in 0..3 {
        let call = some_call(&mut random, &session);
        let seen = ours.call(&call);
        let refused = seen.answer >= raw::UNKNOWN_DIRECTION;
        let wrote = !seen.to_server.is_empty() || !seen.to_client.is_empty();
        if seen.fault.is_some() || (refused && (wrote || seen.taken > 0)) {
            let said = format!("{}\n{}", call_text(&call), seen.text());
            return Some(format!("a record with octets changed\n{said}"));
        }
    }
    None
}

/// Opening codes that no line writes.
const ODD_OPENINGS: [u32; 8] = [1, 99, 600, 999, 1000, 1214, 65536 + 214, u32::MAX];

/// Number 4 refuses no opening code, and no line ends a reply that an odd one opened: the answer
/// to ALGS waits for good.
pub fn odd_openings() -> Option<String> {
    let lines =
        b"001 x\r\n099 x\r\n214 x\r\n600 x\r\n999 x\r\n227 (1,2,3,4,5,6)\r\n200\r\nhello\r\n";
    ODD_OPENINGS.into_iter().find_map(|opening| {
        let mut record = [0; fashlemor::RECORD];
        raw::setup(&mut record, &[0; fashlemor::SETUP]);
        put(&mut record, layout::OPENING, opening);
        put(&mut record, layout::OWED, 0);
        let mut ours = Ours::of_record(&record);
        let asked = ours.call(&Call::arrival(0, b"ALGS STATUS64\r\n"));
        let answered = ours.call(&Call::arrival(1, lines));
        let waits = asked.answer == raw::DONE && asked.to_client.is_empty();
        let passed = answered.answer == raw::DONE && answered.to_client == lines;
        let said = format!("{}{}", asked.text(), answered.text());
        (!waits || !passed).then(|| format!("a record with the opening code {opening}\n{said}"))
    })
}

/// Memory that is longer than a record: its first octets are the record, the others stay.
pub fn longer(seed: u64) -> Option<String> {
    let session = generate::list(seed);
    let mut record = reached(&mut Random::new(seed), &session);
    let mut longer = [&record[..], &[9]].concat();
    let greeted = |record: &mut [u8]| {
        let (mut to_server, mut to_client) = ([0; 2048], [0; 2048]);
        let hi = b"220 hi\r\n";
        let called = raw::arrive(record, raw::SERVER, hi, &mut to_server, &mut to_client);
        (called, to_server, to_client)
    };
    let same = greeted(&mut record) == greeted(&mut longer);
    let kept = longer[..record.len()] == record && longer[record.len()..] == [9];
    (!same || !kept).then(|| "memory that is longer than its record is not used as one".into())
}

/// Five octets before the wrap.
const NEAR_WRAP: u32 = u32::MAX - 4;

/// Ours with all counters advanced by the same number, so that they wrap on the way: offsets are
/// differences, so nothing is seen of it there, and from the octets removed it is taken off again.
pub struct NearWrap {
    ours: Ours,
    advanced: u32,
}

impl NearWrap {
    /// For lists of two seeds in ten, an odd one and an even one: only those of odd ones hold
    /// Telnet material.
    pub fn is_tried(seed: u64) -> bool {
        seed % 10 < 2
    }
}

impl Gateway for NearWrap {
    /// The record of a refused setup stays as it is.
    fn setup(setup: &Setup) -> (NearWrap, Seen) {
        let (ours, seen) = Ours::setup(setup);
        let advanced = match seen.answer {
            raw::DONE => NEAR_WRAP,
            _ => 0,
        };
        let mut record = ours.record().to_vec();
        for counter in layout::COUNTERS.into_iter().chain(layout::REMOVED) {
            put(&mut record, counter, advanced);
        }
        let ours = Ours::of_record(&record);
        (NearWrap { ours, advanced }, seen)
    }

    fn call(&mut self, call: &Call) -> Seen {
        let mut seen = self.ours.call(call);
        for count in &mut seen.totals.removed {
            *count = count.wrapping_sub(self.advanced);
        }
        seen
    }
}

/// Setups of other lengths and records of other lengths, the offset of an unknown
/// direction: what `relay/fashlemor.h` says of them.
pub fn odd_lengths() -> Option<String> {
    let setup = [1; 2 * fashlemor::SETUP];
    for length in (0..setup.len()).filter(|&length| length != fashlemor::SETUP) {
        let mut record = [9; fashlemor::RECORD];
        let answer = raw::setup(&mut record, &setup[..length]);
        if answer != raw::BAD_SETUP || record != [0; fashlemor::RECORD] {
            return Some(format!("a setup of {length} octets is answered {answer}"));
        }
    }
    let mut short = [9; fashlemor::RECORD - 1];
    let answer = raw::setup(&mut short, &setup[..fashlemor::SETUP]);
    if answer != raw::BAD_SETUP || short != [9; fashlemor::RECORD - 1] {
        return Some(format!("a record that is too short is answered {answer}"));
    }
    UNKNOWN.into_iter().find_map(unknown_taken)
}

/// Directions that there are not; the wide ones would be 0 or 1 in an octet or in 32 bits.
const UNKNOWN: [u64; 6] = [2, 255, 256, 257, 1 << 32, u64::MAX];

/// What is wrong with the answers to a direction that there is not, if anything.
fn unknown_taken(side: u64) -> Option<String> {
    let mut record = [0; fashlemor::RECORD];
    let mut out = [0; fashlemor::ROOM];
    let mut back = out;
    raw::setup(&mut record, &[0; fashlemor::SETUP]);
    let fresh = record;
    let arrival = raw::arrive(&mut record, side, b"x\n", &mut out, &mut back).answer;
    let end = raw::end(&mut record, side, &mut out, &mut back).answer;
    if (arrival, end) != (raw::UNKNOWN_DIRECTION, raw::UNKNOWN_DIRECTION) || record != fresh {
        return Some(format!("direction {side} is answered {arrival} and {end}"));
    }
    let offset = raw::offset(&record, side);
    offset.map(|n| format!("there is an offset {n} of direction {side}"))
}

#[cfg(test)]
mod tests {
    use super::*;
    use crate::session::What;

    #[test]
    fn ends_are_among_the_calls() {
        let ends = (1..=400).filter(|&seed| {
            let session = generate::list(seed);
            some_call(&mut Random::new(seed), &session).what == What::End
        });
        assert!(ends.count() >= 20);
    }

    /// Whether the octets removed from each direction are so many that their count wraps.
    fn wraps(list: &Session) -> [bool; 2] {
        let (mut near, _) = NearWrap::setup(&list.setup);
        for call in &list.calls {
            near.call(call);
        }
        let removed = near.ours.totals().removed;
        removed.map(|count| count < near.advanced)
    }

    #[test]
    fn octets_removed_wrap() {
        let tried = (1..=2000).filter(|&seed| NearWrap::is_tried(seed));
        let lists: Vec<_> = tried.map(|seed| wraps(&generate::list(seed))).collect();
        for side in [0, 1] {
            let wrapped = lists.iter().filter(|wraps| wraps[side]).count();
            assert!(wrapped * 50 >= lists.len(), "{wrapped} of {}", lists.len());
        }
    }
}
