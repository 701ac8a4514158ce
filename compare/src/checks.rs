//! Everything that is compared, and how much of each.

use std::io;

use crate::gateways::{difference, Gateway, Ours, Reference};
use crate::options::Options;
use crate::records::{self, NearWrap};
use crate::replay::Replay;
use crate::samples::{self, Sample};
use crate::session::Session;
use crate::{damage, findings, generate, states};

pub enum Failure {
    /// A difference, as it is to be shown.
    Differs(String),
    /// The comparison itself can't be made.
    Broken(String),
}

type Compared = Result<u64, Failure>;

/// Says at the end how many of each were compared. None of something is a failure.
pub fn all(options: &Options) -> Result<String, Failure> {
    let samples = samples::read(&options.samples)
        .map_err(|error| broken(&options.samples.display().to_string(), error))?;
    let replay = Replay::new(&options.replay);
    let counts = [
        (library_samples(&samples)?, "sessions of cut samples"),
        (library_states()?, "sessions of Telnet states"),
        (library_sessions(options)?, "sessions"),
        (library_lists(options)?, "lists of calls"),
        (library_records(options)?, "forged records"),
        (
            replay_samples(&replay, &samples)?,
            "reports on samples and their cuts",
        ),
        (replay_sessions(&replay, options)?, "reports on sessions"),
        (
            replay_damaged(&replay, options)?,
            "reports on damaged files",
        ),
    ];
    if let Some((_, what)) = counts.iter().find(|(count, _)| *count == 0) {
        return Err(Failure::Broken(format!("no {what} were compared")));
    }
    let counts = counts.map(|(count, what)| format!("{count} {what}"));
    let (seed, counts) = (options.seed, counts.join(", "));
    Ok(format!("no difference from seed {seed} on: {counts}"))
}

fn broken(what: &str, error: io::Error) -> Failure {
    Failure::Broken(format!("{what}: {error}"))
}

fn same_calls<A: Gateway>(name: impl Fn() -> String, session: Session) -> Result<(), Failure> {
    if difference::<A, Reference>(&session).is_none() {
        return Ok(());
    }
    let finding = findings::of_calls::<A, Reference>(&name(), session);
    Err(Failure::Differs(finding))
}

/// Each arrival cut in two at each place, and all of them cut into single octets.
fn library_samples(samples: &[Sample]) -> Compared {
    let mut count = 0;
    for sample in samples {
        let Some(session) = sample.session() else {
            continue;
        };
        let cuts = samples::cut_in_two(&session).chain([samples::cut_into_octets(&session)]);
        for cut in cuts {
            same_calls::<Ours>(|| sample.path.display().to_string(), cut)?;
            count += 1;
        }
    }
    Ok(count)
}

fn library_states() -> Compared {
    let mut count = 0;
    for session in states::sessions() {
        same_calls::<Ours>(|| "a session of Telnet states".into(), session)?;
        count += 1;
    }
    Ok(count)
}

fn library_sessions(options: &Options) -> Compared {
    for seed in seeds(options.seed, options.count) {
        let session = generate::session(seed);
        same_calls::<Ours>(|| format!("seed {seed}, a session"), session)?;
    }
    Ok(options.count)
}

/// Some with counters that wrap on the way too.
fn library_lists(options: &Options) -> Compared {
    for seed in seeds(options.seed, options.lists) {
        let list = generate::list(seed);
        if NearWrap::is_tried(seed) {
            let name = || format!("seed {seed}, a list of calls with counters near their wrap");
            same_calls::<NearWrap>(name, list.clone())?;
        }
        same_calls::<Ours>(|| format!("seed {seed}, a list of calls"), list)?;
    }
    Ok(options.lists)
}

fn library_records(options: &Options) -> Compared {
    for seed in seeds(options.seed, options.records) {
        let finding = records::forged(seed).or_else(|| records::shaken(seed));
        if let Some(finding) = finding.or_else(|| records::longer(seed)) {
            return Err(Failure::Differs(format!("seed {seed}: {finding}")));
        }
    }
    match records::odd_lengths().or_else(records::odd_openings) {
        Some(finding) => Err(Failure::Differs(finding)),
        None => Ok(options.records),
    }
}

fn seeds(first: u64, count: u64) -> impl Iterator<Item = u64> {
    (0..count).map(move |more| first.wrapping_add(more))
}

/// The samples by their names, with the reports stored beside them; then each cut as above, as
/// far as a session file has entries.
fn replay_samples(replay: &Replay, samples: &[Sample]) -> Compared {
    let mut count = 0;
    for sample in samples {
        let name = sample.path.display().to_string();
        let ours = replay.of_path(&sample.path);
        let ours = ours.map_err(|error| broken("replay", error))?;
        same_report(replay, &name, &sample.file)?;
        if ours != sample.report {
            let ours = String::from_utf8_lossy(&ours);
            return Err(Failure::Differs(format!("{name} is reported as\n{ours}")));
        }
        let session = sample.session();
        let cuts = session.iter().flat_map(|session| {
            samples::cut_in_two(session).chain(samples::cut_into_entries(session))
        });
        for file in cuts.filter_map(|cut| cut.file()) {
            same_report(replay, &name, &file)?;
            count += 1;
        }
        count += 1;
    }
    Ok(count)
}

fn same_report(replay: &Replay, name: &str, file: &[u8]) -> Result<(), Failure> {
    let difference = replay.difference(file);
    match difference.map_err(|error| broken("replay", error))? {
        None => Ok(()),
        Some(_) => Err(Failure::Differs(findings::of_file(name, replay, file))),
    }
}

fn replay_sessions(replay: &Replay, options: &Options) -> Compared {
    for seed in seeds(options.seed, options.replay_count) {
        let file = generate::session(seed).file();
        let file = file.ok_or(Failure::Broken(format!("seed {seed} makes no file")))?;
        same_report(replay, &format!("seed {seed}, a session"), &file)?;
    }
    Ok(options.replay_count)
}

fn replay_damaged(replay: &Replay, options: &Options) -> Compared {
    for seed in seeds(options.seed, options.damaged) {
        same_report(
            replay,
            &format!("seed {seed}, a damaged file"),
            &damage::file(seed),
        )?;
    }
    Ok(options.damaged)
}
