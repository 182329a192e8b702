//! Plays many seeds, by processes of the simulator itself: a run that never ends, or that ends its process, is found by its seed.

use crate::image::Image;
use crate::options::Options;
use crate::report;
use crate::trial::Trial;
use std::io::{BufRead, BufReader, Write};
use std::process::{Child, Command, Stdio};
use std::sync::atomic::{AtomicU64, Ordering};
use std::sync::mpsc::{channel, Receiver, RecvTimeoutError, Sender};
use std::time::{Duration, Instant};

/// A job that says nothing for so long is hung.
const HUNG: Duration = Duration::from_secs(60);

/// The seed that is played now, for the report of a panic.
static PLAYED: AtomicU64 = AtomicU64::new(0);

/// Writes a line for whoever began this job. Once nobody reads, the job is over.
fn say(line: &str) {
    let mut out = std::io::stdout().lock();
    if writeln!(out, "{line}").and_then(|()| out.flush()).is_err() {
        std::process::exit(0);
    }
}

/// Writes a line for the user. That nobody reads it changes nothing.
fn tell(line: &str) {
    let _ = writeln!(std::io::stdout(), "{line}");
}

/// Plays every so many seeds, and says what came of each: `b SEED` when it begins, `e STEPS` when it ended well, `f` and a line of the
/// report where it failed, and `x STEPS` behind that.
pub fn play_some(image: &'static Image, options: &Options) {
    std::panic::set_hook(Box::new(|info| say(&format!("f seed {}: the simulator panicked: {info}", PLAYED.load(Ordering::Relaxed)))));
    let begun = Instant::now();
    let (stride, mut peaks, mut failures) = (options.stride.unwrap_or(1), Peaks::default(), 0);
    let end = options.runs.map_or(u64::MAX, |runs| options.seed.saturating_add(runs.saturating_mul(stride)));
    for seed in (options.seed..end).step_by(stride as usize) {
        if options.seconds.is_some_and(|seconds| begun.elapsed() >= Duration::from_secs(seconds)) {
            break;
        }
        PLAYED.store(seed, Ordering::Relaxed);
        say(&format!("b {seed}"));
        let trial = Trial::of(image, seed, &options.without, false);
        peaks.take(&trial);
        let steps = trial.record.steps;
        if trial.judgement.complaints.is_empty() {
            say(&format!("e {steps}"));
            continue;
        }
        failures += 1;
        let lines = report::failure(image, options, seed, &trial, failures <= options.failures, &mut || say("s"));
        for line in lines.lines() {
            say(&format!("f {line}"));
        }
        say(&format!("x {steps}"));
        if options.ends_at_failure {
            break;
        }
    }
    say(&format!("p {} {} {} {} {} {}", peaks.server, peaks.client, peaks.longest, peaks.strain, peaks.hard, peaks.operations));
}

/// The greatest of what is bounded.
#[derive(Default)]
struct Peaks {
    server: u64,
    client: u64,
    longest: u64,
    strain: u64,
    hard: u64,
    operations: u64,
}

impl Peaks {
    fn take(&mut self, trial: &Trial) {
        for run in &trial.record.runs {
            let peak = if run.work.is_none() { &mut self.server } else { &mut self.client };
            *peak = (*peak).max(run.peak as u64);
        }
        self.longest = self.longest.max(trial.record.longest / 1_000_000);
        self.strain = self.strain.max(trial.record.strain);
        self.hard += u64::from(trial.judgement.is_too_hard);
        self.operations += trial.judgement.history.len() as u64;
    }

    /// Takes the numbers of a job's last line.
    fn read(&mut self, text: &str) {
        let numbers: Vec<u64> = text.split(' ').filter_map(|word| word.parse().ok()).collect();
        let [server, client, longest, strain, hard, operations] = numbers[..] else { return };
        self.server = self.server.max(server);
        self.client = self.client.max(client);
        self.longest = self.longest.max(longest);
        self.strain = self.strain.max(strain);
        self.hard += hard;
        self.operations += operations;
    }
}

/// A line of a job, or that it has none any more.
type Said = (usize, Option<String>);

struct Job {
    child: Child,
    /// The seed that it plays.
    seed: Option<u64>,
    next: u64,
    /// How many seeds it still has to begin; none where there is no such number.
    left: Option<u64>,
    heard: Instant,
    is_over: bool,
}

/// All jobs, and the counts.
struct Jobs<'a> {
    options: &'a Options,
    begun: Instant,
    jobs: Vec<Job>,
    sender: Sender<Said>,
    runs: u64,
    steps: u64,
    failed: u64,
    peaks: Peaks,
}

/// Plays all seeds. The result is whether none failed.
pub fn play_all(options: &Options) -> Result<bool, String> {
    crate::load(&options.program)?;
    let (sender, receiver) = channel();
    let mut all = Jobs { options, begun: Instant::now(), jobs: Vec::new(), sender, runs: 0, steps: 0, failed: 0, peaks: Peaks::default() };
    let runs = if options.seconds.is_some() { options.runs } else { Some(options.runs.unwrap_or(1)) };
    let jobs = runs.map_or(options.jobs, |runs| options.jobs.min(runs.max(1)));
    for place in 0..jobs {
        let left = runs.map(|runs| runs / jobs + u64::from(place < runs % jobs));
        let job = all.start(place as usize, options.seed + place, left, jobs)?;
        all.jobs.push(job);
    }
    all.listen(&receiver, jobs)?;
    all.finish()
}

impl Jobs<'_> {
    fn start(&self, place: usize, seed: u64, left: Option<u64>, stride: u64) -> Result<Job, String> {
        let program = std::env::current_exe().map_err(|error| format!("can't find the simulator: {error}"))?;
        let mut command = Command::new(program);
        command.arg(&self.options.program).args(["--seed", &seed.to_string(), "--stride", &stride.to_string()]);
        command.args(["--failures", &self.options.failures.to_string()]);
        if let Some(left) = left {
            command.args(["--runs", &left.to_string()]);
        }
        if let Some(seconds) = self.options.seconds {
            command.args(["--seconds", &seconds.saturating_sub(self.begun.elapsed().as_secs()).to_string()]);
        }
        command.args(self.options.without.rate_words());
        if self.options.ends_at_failure {
            command.arg("--until-failure");
        }
        let mut child =
            command.stdin(Stdio::null()).stdout(Stdio::piped()).spawn().map_err(|error| format!("can't begin a job: {error}"))?;
        let out = child.stdout.take().ok_or("a job has no output")?;
        let sender = self.sender.clone();
        std::thread::spawn(move || {
            for line in BufReader::new(out).lines().map_while(Result::ok) {
                let _ = sender.send((place, Some(line)));
            }
            let _ = sender.send((place, None));
        });
        Ok(Job { child, seed: None, next: seed, left, heard: Instant::now(), is_over: false })
    }

    /// Hears all jobs to their ends.
    fn listen(&mut self, receiver: &Receiver<Said>, stride: u64) -> Result<(), String> {
        while self.jobs.iter().any(|job| !job.is_over) {
            match receiver.recv_timeout(Duration::from_secs(1)) {
                Ok((place, Some(line))) => self.hear(place, &line, stride),
                Ok((place, None)) => self.end(place, stride)?,
                Err(RecvTimeoutError::Timeout) => {}
                Err(RecvTimeoutError::Disconnected) => return Ok(()),
            }
            for job in self.jobs.iter_mut().filter(|job| !job.is_over && job.heard.elapsed() > HUNG) {
                tell(&format!("seed {}: no progress for {} seconds", job.seed.unwrap_or(job.next), HUNG.as_secs()));
                job.heard = Instant::now();
                let _ = job.child.kill();
            }
            if self.options.ends_at_failure && self.failed > 0 {
                self.jobs.iter_mut().for_each(|job| drop(job.child.kill()));
                return Ok(());
            }
        }
        Ok(())
    }

    fn hear(&mut self, place: usize, line: &str, stride: u64) {
        let job = &mut self.jobs[place];
        job.heard = Instant::now();
        let (kind, rest) = line.split_once(' ').unwrap_or((line, ""));
        match kind {
            "b" => {
                job.seed = rest.parse().ok();
                job.next = job.seed.unwrap_or(job.next) + stride;
                job.left = job.left.map(|left| left.saturating_sub(1));
            }
            "e" | "x" => {
                job.seed = None;
                self.runs += 1;
                self.failed += u64::from(kind == "x");
                self.steps += rest.parse().unwrap_or(0);
            }
            "f" => tell(&format!("{rest}")),
            "p" => self.peaks.read(rest),
            _ => {}
        }
    }

    /// A job has ended. If a seed ended it, another job goes on behind that seed.
    fn end(&mut self, place: usize, stride: u64) -> Result<(), String> {
        let status = self.jobs[place].child.wait().map_err(|error| format!("can't wait for a job: {error}"))?;
        let Some(seed) = self.jobs[place].seed else {
            self.jobs[place].is_over = true;
            return Ok(());
        };
        tell(&format!("seed {seed}: its job ended with {status}\nreplay: simulator {} --seed {seed}", self.options.program));
        self.runs += 1;
        self.failed += 1;
        let (next, left) = (self.jobs[place].next, self.jobs[place].left);
        self.jobs[place] = self.start(place, next, left, stride)?;
        Ok(())
    }

    fn finish(&self) -> Result<bool, String> {
        let Peaks { server, client, longest, strain, hard, operations } = self.peaks;
        if self.options.shows_peaks {
            tell(&format!("peaks: {server} bytes of a server, {client} bytes of a client"));
            tell(&format!("{longest} ms of an operation, and {strain} hundredths of its bound"));
            tell(&format!("{operations} operations in histories, {hard} histories without a verdict"));
        }
        let seconds = self.begun.elapsed().as_secs_f64();
        tell(&format!("{} runs, {} steps, {} failed, {:.0} runs a second", self.runs, self.steps, self.failed, self.runs as f64 / seconds));
        Ok(self.failed == 0)
    }
}
