//! The command line.

use crate::trial::Without;

pub const HELP: &str = "\
simulator PROGRAM --seed S [--runs N] [--seconds T] [--jobs J] [--until-failure] [--peaks] [--failures N] [--rates LIST]
simulator PROGRAM --seed S [--only LIST] [--without LIST] [--trace | --digest | --picture FILE]

Play the seeds S, S+1 and so on: N of them, 1 by default, or as many as fit into T seconds. The last line has the counts.

  --jobs J         play by J processes, 4 by default
  --until-failure  end at the first failing seed
  --failures N     shorten the schedules of the first N failing seeds of each process, 3 by default
  --rates LIST     let faults happen once in so many chances, as in repeat:2,kill:800, at no other rates
  --peaks          print the greatest heaps and the longest operation
  --without LIST   leave out faults and operations, as in loss:3,kill:*,op:2.1
  --only LIST      let happen these faults alone, as in loss:3,kill:0
  --trace          print each call and each datagram
  --digest         print the sum of all calls alone
  --picture FILE   draw the ladder of the run into FILE, as SVG
";

#[derive(Clone, Default, Debug)]
pub struct Options {
    pub program: String,
    pub seed: u64,
    pub runs: Option<u64>,
    pub seconds: Option<u64>,
    pub jobs: u64,
    pub failures: u64,
    pub is_traced: bool,
    pub is_digest: bool,
    pub ends_at_failure: bool,
    pub shows_peaks: bool,
    pub without: Without,
    pub picture: Option<String>,
    /// The process plays every so many seeds, for another that reads its lines.
    pub stride: Option<u64>,
    /// The words are read, and nothing is played.
    pub is_check: bool,
    pub is_help: bool,
}

impl Options {
    /// Reads the words behind the program's name; otherwise what is wrong with them.
    pub fn read(words: impl Iterator<Item = String>) -> Result<Self, String> {
        let mut options = Options { jobs: 4, failures: 3, ..Options::default() };
        let mut words = words;
        while let Some(word) = words.next() {
            match word.as_str() {
                "--help" => return Ok(Options { is_help: true, ..options }),
                "--check" => options.is_check = true,
                "--trace" => options.is_traced = true,
                "--digest" => options.is_digest = true,
                "--until-failure" => options.ends_at_failure = true,
                "--peaks" => options.shows_peaks = true,
                name if name.starts_with("--") => {
                    let value = words.next().ok_or(format!("{name} needs a value"))?;
                    options.take(name, value)?;
                }
                _ if options.program.is_empty() => options.program = word,
                _ => return Err(format!("{word} is one word too many")),
            }
        }
        if options.program.is_empty() {
            Err("PROGRAM is missing".into())
        } else {
            Ok(options)
        }
    }

    /// Takes an option with a value.
    fn take(&mut self, name: &str, value: String) -> Result<(), String> {
        let number = || value.parse::<u64>().map_err(|_| format!("{name} needs a number, not {value}"));
        match name {
            "--seed" => self.seed = number()?,
            "--runs" => self.runs = Some(number()?),
            "--seconds" => self.seconds = Some(number()?),
            "--jobs" => self.jobs = number()?.max(1),
            "--failures" => self.failures = number()?,
            "--stride" => self.stride = Some(number()?),
            "--without" => {
                let (only, rates) = (self.without.only.take(), self.without.rates.take());
                self.without = Without { only, rates, ..Without::read(&value).ok_or(format!("--without: {value} isn't such a list"))? };
            }
            "--only" => self.without.only = Some(Without::read(&value).ok_or(format!("--only: {value} isn't such a list"))?.faults),
            "--rates" => self.without.rates = Some(Without::read(&value).ok_or(format!("--rates: {value} isn't such a list"))?.faults),
            "--picture" => self.picture = Some(value),
            _ => return Err(format!("{name} is no option")),
        }
        Ok(())
    }

    /// Whether one run is looked at closely.
    pub fn is_close(&self) -> bool {
        self.is_traced || self.is_digest || self.picture.is_some() || self.without.leaves_out()
    }
}
