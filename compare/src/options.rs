//! The command line.

use std::path::PathBuf;

pub const USAGE: &str = "\
usage: compare [--seed N] [--count N] [--lists N] [--records N] [--replay-count N] [--damaged N]
               [--replay PROGRAM] [--samples FOLDER]
  --seed          the first seed; each session has one of its own, the next number  (1)
  --count         sessions through the static library                               (20000)
  --lists         lists of calls with small rooms through the static library        (20000)
  --records       forged records, and as many shaken ones                           (5000)
  --replay-count  sessions through the program replay, a process each               (3000)
  --damaged       damaged files through the program replay, a process each          (3000)
  --replay        that program                                                      (crates/replay/out/replay)
  --samples       the folder of session files with their reports                    (samples)";

pub struct Options {
    pub seed: u64,
    pub count: u64,
    pub lists: u64,
    pub records: u64,
    pub replay_count: u64,
    pub damaged: u64,
    pub replay: PathBuf,
    pub samples: PathBuf,
}

impl Options {
    fn usual() -> Options {
        Options {
            seed: 1,
            count: 20_000,
            lists: 20_000,
            records: 5_000,
            replay_count: 3_000,
            damaged: 3_000,
            replay: PathBuf::from("crates/replay/out/replay"),
            samples: PathBuf::from("samples"),
        }
    }

    pub fn read(mut arguments: impl Iterator<Item = String>) -> Result<Options, String> {
        let mut options = Options::usual();
        while let Some(name) = arguments.next() {
            let value = arguments.next().ok_or(format!("{name} has no value"))?;
            options.set(&name, &value)?;
        }
        Ok(options)
    }

    fn set(&mut self, name: &str, value: &str) -> Result<(), String> {
        let field = match name {
            "--seed" => &mut self.seed,
            "--count" => &mut self.count,
            "--lists" => &mut self.lists,
            "--records" => &mut self.records,
            "--replay-count" => &mut self.replay_count,
            "--damaged" => &mut self.damaged,
            "--replay" => {
                self.replay = PathBuf::from(value);
                return Ok(());
            }
            "--samples" => {
                self.samples = PathBuf::from(value);
                return Ok(());
            }
            _ => return Err(format!("unknown option {name}")),
        };
        *field = value.parse().map_err(|_| format!("bad number {value}"))?;
        Ok(())
    }
}
