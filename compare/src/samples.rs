//! The samples, and each of them cut at every place.

use std::fs;
use std::io;
use std::path::{Path, PathBuf};

use crate::session::{Call, Session, What, MOST_ENTRIES};

/// A session file of the samples, with the report stored beside it.
pub struct Sample {
    pub path: PathBuf,
    pub file: Vec<u8>,
    pub report: Vec<u8>,
}

impl Sample {
    /// The session, unless the file is a damaged one.
    pub fn session(&self) -> Option<Session> {
        Session::of_file(&self.file)
    }
}

/// Every `NAME.session` with its `NAME.report`, by name.
pub fn read(folder: &Path) -> io::Result<Vec<Sample>> {
    let mut paths = Vec::new();
    for entry in fs::read_dir(folder)? {
        let path = entry?.path();
        if path.extension().is_some_and(|ending| ending == "session") {
            paths.push(path);
        }
    }
    paths.sort();
    let samples = paths.into_iter().map(|path| {
        let file = fs::read(&path)?;
        let report = fs::read(path.with_extension("report"))?;
        Ok(Sample { path, file, report })
    });
    samples.collect()
}

/// Each arrival cut in two at each place, its ends included: a piece may be empty.
pub fn cut_in_two(session: &Session) -> impl Iterator<Item = Session> + '_ {
    (0..session.calls.len()).flat_map(move |place| {
        let call = &session.calls[place];
        let is_arrival = call.what != What::End;
        let ends = is_arrival.then_some(0..=call.octets().len());
        ends.into_iter().flatten().map(move |at| {
            let (before, after) = call.octets().split_at(at);
            with_pieces(session, place, [before, after])
        })
    })
}

fn with_pieces(session: &Session, place: usize, pieces: [&[u8]; 2]) -> Session {
    let call = &session.calls[place];
    let mut calls = session.calls.clone();
    calls.splice(place..=place, pieces.map(|piece| call.with_octets(piece)));
    Session { calls, ..*session }
}

/// Every octet in an arrival of its own.
pub fn cut_into_octets(session: &Session) -> Session {
    cut_into_octets_from(session, 0, usize::MAX)
}

/// Every octet from an entry on in an arrival of its own, as far as a session file has entries
/// left; what then follows stays whole.
pub fn cut_into_entries(session: &Session) -> impl Iterator<Item = Session> + '_ {
    let more = MOST_ENTRIES - 1 - session.calls.len();
    (0..session.calls.len()).map(move |first| cut_into_octets_from(session, first, more))
}

fn cut_into_octets_from(session: &Session, first: usize, more: usize) -> Session {
    let mut left = more;
    let mut calls = session.calls[..first].to_vec();
    for call in &session.calls[first..] {
        let alone = call.octets().len().saturating_sub(1).min(left);
        let (octets, rest) = call.octets().split_at(alone);
        calls.extend(octets.iter().map(|&octet| call.with_octets(&[octet])));
        calls.push(if alone > 0 {
            call.with_octets(rest)
        } else {
            Call::clone(call)
        });
        left -= alone;
    }
    Session { calls, ..*session }
}

#[cfg(test)]
mod tests {
    use super::*;
    use crate::generate;

    fn joined(session: &Session, direction: u8) -> Vec<u8> {
        let calls = session
            .calls
            .iter()
            .filter(|call| call.direction == direction);
        calls.flat_map(|call| call.octets().to_vec()).collect()
    }

    #[test]
    fn cuts_keep_the_octets() {
        for seed in 1..=5 {
            let session = generate::session(seed);
            let octets: usize = session.calls.iter().map(|call| call.octets().len()).sum();
            let arrivals = session.calls.iter().filter(|call| call.what != What::End);
            assert_eq!(cut_in_two(&session).count(), octets + arrivals.count());
            let all = cut_in_two(&session).chain(cut_into_entries(&session));
            for cut in all.chain([cut_into_octets(&session)]) {
                assert_eq!(joined(&cut, 0), joined(&session, 0));
                assert_eq!(joined(&cut, 1), joined(&session, 1));
            }
            assert!(cut_into_entries(&session).all(|cut| cut.file().is_some()));
            let single = cut_into_octets(&session);
            assert!(single.calls.iter().all(|call| call.octets().len() <= 1));
        }
    }
}
