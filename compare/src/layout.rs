//! Where a record has its fields: the table in docs/RECORD.md.

pub const LIVE: usize = 0;
/// Five marks of 0 or 1, `live` first; two places of 0 to 3 and two Telnet states of 0 to 7
/// follow.
pub const MARKS: usize = 5;
pub const CLIENT_PLACE: usize = 5;
pub const SERVER_PLACE: usize = 6;
pub const TELNET: [usize; 2] = [7, 8];
/// Numbers of four octets, low octet first.
pub const OPENING: usize = 9;
pub const OWED: usize = 13;
pub const CLIENT_HELD: usize = 17;
pub const SERVER_HELD: usize = 21;
/// Taken and written of direction 0, then of direction 1.
pub const COUNTERS: [usize; 4] = [25, 29, 33, 37];
/// Octets of subnegotiations removed from each direction.
pub const REMOVED: [usize; 2] = [41, 45];
pub const KINDS: usize = 73;

pub fn put(record: &mut [u8], place: usize, number: u32) {
    record[place..place + 4].copy_from_slice(&number.to_le_bytes());
}

/// The number at a place, unless the record is too short for it.
pub fn number(record: &[u8], place: usize) -> Option<u32> {
    let octets = record.get(place..)?.first_chunk()?;
    Some(u32::from_le_bytes(*octets))
}

#[cfg(test)]
mod tests {
    use super::*;
    use fashlemor::raw;

    /// A forged number in another order might be refused all the same, so the layout is asked here.
    #[test]
    fn numbers_are_where_the_layout_has_them() {
        let mut record = [0; fashlemor::RECORD];
        raw::setup(&mut record, &[1; fashlemor::SETUP]);
        let subnegotiation = [255, 250, 24, 255, 240];
        let line = [&b"214-\n"[..], &[b'x'; 300], &subnegotiation, &[255, 253]].concat();
        let called = raw::arrive(&mut record, raw::SERVER, &line, &mut [], &mut [0; 5]);
        assert_eq!(called.answer, raw::DONE);
        let counters = COUNTERS.map(|counter| number(&record, counter));
        assert_eq!(counters, [0, 0, 312, 5].map(Some));
        let removed = REMOVED.map(|counter| number(&record, counter));
        assert_eq!(removed, [0, 5].map(Some));
        assert_eq!(TELNET.map(|mark| record[mark]), [0, 4]);
        assert_eq!(number(&record, SERVER_HELD), Some(300));
        assert_eq!(number(&record, OPENING), Some(214));
        assert_eq!(number(&record, OWED), Some(1));
    }
}
