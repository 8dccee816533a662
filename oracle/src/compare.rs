//! Compares the port, through the entry points of crate `exports`, with the Rust encoder.

mod call;
mod entries;
mod lent;
mod named;
mod port;
mod reader;
mod wide;

// Parts of the oracle, of which not all is used here.
#[allow(dead_code)]
mod cases;
mod cut;
mod deep;
#[allow(dead_code)]
mod edges;
#[allow(dead_code)]
mod generate;
#[allow(dead_code)]
mod jobs;
mod picture;
mod random;
#[allow(dead_code)]
mod recorder;
mod tally;
mod unit;

use call::Call;
use edges::Wanted;
use entries::Entries;
use jobs::{OUTPUT, WORK};
use named::Named;
use picture::{Outcome, Rate};
use random::Random;
use std::collections::BTreeMap;
use std::error::Error;
use std::fs;
use std::io::{ErrorKind, Write};
use std::path::{Path, PathBuf};
use std::process::{Command, ExitCode, Stdio};
use std::time::{Duration, Instant};
use tally::Tally;

const USAGE: &str = "usage:
  compare run SEED COUNT FOLDER [JOB]
      compares COUNT jobs and all else; FOLDER gets the calls that differ, JOB is the job program
  compare cases SEED
      lists the named cases and the answer that each must have
  compare call FILE
      compares one call that differed";

type Done = Result<bool, Box<dyn Error>>;

/// So many differences are shown and written.
const SHOWN: u64 = 20;
/// One call in so many has very many slices.
const MANY_EVERY: u64 = 1_000;
/// Calls with more slices than this are not made again with other lengths of the lent slices.
const MANY_SLICES: u64 = 500;
/// Job n also goes to the job program where n divided by this leaves 0, `DEEP_AT` or `LAST_AT`, and
/// so do all malformed ones.
const JOB_EVERY: u64 = 20;
/// Job n is one of `deep` where n divided by the first leaves the second, and one around the last
/// index of low delay where it leaves the third, unless an edge has its first turn.
const TURNS: u64 = 10;
const DEEP_AT: u64 = 4;
const LAST_AT: u64 = 8;

struct Run {
    folder: PathBuf,
    job: Option<PathBuf>,
    differ: u64,
    calls: u64,
    job_runs: u64,
    /// Lossless pictures whose samples were read back, by the sum of the depths.
    read_back: BTreeMap<u64, u64>,
    port: Duration,
    oracle: Duration,
}

impl Run {
    fn differs(&mut self, name: &str, what: &str) -> bool {
        self.differ += 1;
        if self.differ <= SHOWN {
            println!("DIFFERS {name}: {what}");
        }
        self.differ <= SHOWN
    }

    /// Writes a file on a difference.
    fn keep(&self, name: &str, extension: &str, contents: &[u8]) {
        let plain = |c: char| if c.is_ascii_alphanumeric() { c } else { '-' };
        let name: String = name.chars().map(plain).collect();
        let path = self.folder.join(name).with_extension(extension);
        match fs::write(&path, contents) {
            Ok(()) => println!("  see {}", path.display()),
            Err(e) => println!("  {} is not written: {e}", path.display()),
        }
    }

    /// Makes a call that must come to `outcome`, and says whether it does.
    fn call(&mut self, name: &str, call: &Call, outcome: &Outcome) -> bool {
        self.calls += 1;
        let (found, time) = port::picture(call, outcome, self.calls << 4);
        self.port += time;
        if !found.is_empty() && self.differs(name, &found.join("; ")) {
            self.keep_call(name, call);
        }
        found.is_empty()
    }

    /// Makes a call that must come to `outcome`. If it does, the unit is the port's too, and is read
    /// back where this can be done.
    fn picture(&mut self, name: &str, call: &Call, outcome: &Outcome) {
        if !self.call(name, call, outcome) {
            return;
        }
        let Some(found) = read_back(call, outcome) else { return };
        let sum = call.settings().map_or(0, |s| s.depth_sum());
        *self.read_back.entry(sum).or_default() += 1;
        if let Err(message) = found
            && self.differs(name, &message)
        {
            self.keep_call(name, call);
        }
    }

    fn keep_call(&self, name: &str, call: &Call) {
        self.keep(name, "call", call.text().as_bytes());
        if let Some(job) = call.job() {
            self.keep(name, "job", &job);
        }
    }

    /// What a call must come to. The Rust may do otherwise than document 01 says.
    fn expected(&mut self, name: &str, call: &Call) -> Option<Outcome> {
        let begin = Instant::now();
        let expected = call.expected();
        self.oracle += begin.elapsed();
        match expected {
            Ok(outcome) => Some(outcome),
            Err(message) => {
                if self.differs(name, &message) {
                    self.keep_call(name, call);
                }
                None
            }
        }
    }

    /// Runs the job program, which must print `text`.
    fn job(&mut self, name: &str, bytes: &[u8], text: &str) {
        let Some(program) = &self.job else { return };
        self.job_runs += 1;
        let found = match printed(program, bytes) {
            Ok(printed) if printed == text.as_bytes() => return,
            Ok(printed) => {
                // Only the first line that differs is shown.
                let printed = String::from_utf8_lossy(&printed);
                let same = printed.lines().zip(text.lines()).take_while(|(a, b)| a == b).count();
                let line = |text: &str| text.lines().nth(same).map(String::from);
                let [got, wanted] = [line(&printed), line(text)];
                format!("line {} of the job program is {got:?}, not {wanted:?}", same + 1)
            }
            Err(e) => format!("the job program fails: {e}"),
        };
        if self.differs(name, &found) {
            self.keep(name, "job", bytes);
            self.keep(name, "out", text.as_bytes());
        }
    }

    fn entries(&mut self, name: &str, entries: Entries) {
        println!("{name}: {} calls, {} of them refused", entries.calls, entries.refused);
        for found in &entries.found {
            self.differs(name, found);
        }
    }

    fn named(&mut self, seed: u64) {
        let mut answers: BTreeMap<u32, u64> = BTreeMap::new();
        let cases = named::all(seed);
        for case in &cases {
            let Some(outcome) = self.expected(&case.name, &case.call) else { continue };
            *answers.entry(outcome.answer).or_default() += 1;
            if outcome.answer != case.answer {
                let what = format!("the oracle says {}, not {}", outcome.answer, case.answer);
                self.differs(&case.name, &what);
            }
            if let Some(wanted) = case.cut {
                self.cut_slices(case, &outcome, wanted);
            }
            self.picture(&case.name, &case.call, &outcome);
        }
        println!("named cases: {}, answers {}", cases.len(), tally::listed(&answers));
        println!("  not run: {}", named::NOT_RUN);
    }

    /// A case that is about slices of index 127 and cut slices, which goes to the job program too.
    fn cut_slices(&mut self, case: &Named, outcome: &Outcome, wanted: [u64; 2]) {
        let s = case.call.settings().expect("the words are settings");
        let read = unit::read(&outcome.unit, s.version_3()).expect("the unit was read before");
        let last = read.slices.iter().filter(|slice| slice.index == 127).count() as u64;
        if [last, outcome.cut] != wanted {
            let what = format!("{last} of index 127, {} cut, not {wanted:?}", outcome.cut);
            self.differs(&case.name, &what);
        }
        let bytes = case.call.job().expect("the call is a job's");
        match jobs::answer(&bytes) {
            Ok(answered) => self.job(&case.name, &bytes, &answered.text),
            Err(message) => {
                self.differs(&case.name, &message);
            }
        }
    }

    /// Jobs that only the job program is tried with.
    fn named_jobs(&mut self, seed: u64) {
        if self.job.is_none() {
            return;
        }
        let jobs = named::jobs(seed);
        for (name, bytes) in &jobs {
            match jobs::answer(bytes) {
                Ok(answered) => self.job(name, bytes, &answered.text),
                Err(message) => {
                    self.differs(name, &message);
                }
            }
        }
        println!("named jobs: {}", jobs.len());
    }

    fn large(&mut self, seed: u64) {
        println!("large pictures:");
        for n in 0..wide::LARGE {
            let rng = &mut sequence(seed, n as u64);
            let (what, mut call) = wide::large(rng, n);
            let [oracle, port] = [self.oracle, self.port];
            call.output = 1 << 28;
            let Some(outcome) = self.expected(&what, &call) else { continue };
            call.output = outcome.unit.len() + 1_000;
            let before = self.differ;
            self.picture(&what, &call, &outcome);
            let (short, refused) = call.with_room(&outcome, call.work - 1, call.output);
            self.call(&what, &short, &refused);
            println!(
                "  {what}: answer {}, {} bytes, {} cut, scaler {}, {:.1} s, oracle {:.1} s{}",
                outcome.answer,
                outcome.unit.len(),
                outcome.cut,
                outcome.scaler,
                (self.port - port).as_secs_f64(),
                (self.oracle - oracle).as_secs_f64(),
                if self.differ == before { "" } else { ", DIFFERS" }
            );
        }
    }

    fn jobs(&mut self, seed: u64, count: u64) {
        let mut tally = Tally::default();
        for n in 0..count {
            let rng = &mut sequence(seed, n);
            if n % MANY_EVERY == MANY_EVERY - 1 {
                let call = wide::many(rng);
                self.random_call(rng, n, &call, &mut tally);
            } else if n % 2 == 1 {
                let call = wide::nth(rng);
                self.random_call(rng, n, &call, &mut tally);
            } else {
                self.random_job(rng, n, &mut tally);
            }
            if (n + 1) % 1_000 == 0 {
                eprintln!("{} of {count} jobs, {} differ", n + 1, self.differ);
            }
        }
        println!("{tally}");
    }

    fn random_call(&mut self, rng: &mut Random, n: u64, call: &Call, tally: &mut Tally) {
        let name = format!("job {n}");
        let Some(outcome) = self.expected(&name, call) else { return };
        self.picture(&name, call, &outcome);
        self.with_other_room(rng, &name, call, &outcome);
        match call.settings() {
            Some(s) => tally.add(&s, &call.planes, &outcome),
            None => tally.add_answer(outcome.answer),
        }
    }

    fn random_job(&mut self, rng: &mut Random, n: u64, tally: &mut Tally) {
        let name = format!("job {n}");
        // While each edge has its first turn, jobs may be slow; later another one stands in.
        let first_turn = (n as usize) < 4 * edges::count();
        let (mut bytes, mut wanted) = match n % TURNS {
            DEEP_AT if !first_turn => deep::nth(rng, (n / TURNS) as usize),
            LAST_AT if !first_turn => generate::around_last_index(rng, 0),
            _ => generate::nth(rng, n as usize / 2),
        };
        while !first_turn && jobs::is_slow(&bytes) {
            (bytes, wanted) = generate::nth(rng, 1);
        }
        let begin = Instant::now();
        let answered = jobs::answer(&bytes);
        self.oracle += begin.elapsed();
        let answered = match answered {
            Ok(answered) => answered,
            Err(message) => {
                if self.differs(&name, &message) {
                    self.keep(&name, "job", &bytes);
                }
                return;
            }
        };
        let answer = answered.outcome.as_ref().map(|(_, outcome)| outcome.answer);
        if !wanted.is(answer) {
            self.differs(&name, &format!("the oracle says {answer:?}, not {wanted:?}"));
        }
        match &answered.outcome {
            None => tally.add_malformed(),
            Some((job, outcome)) => {
                let call = Call::of(job, WORK, OUTPUT);
                self.picture(&name, &call, outcome);
                self.with_other_room(rng, &name, &call, outcome);
                tally.add(&job.settings(), &job.planes, outcome);
            }
        }
        let turn = [0, DEEP_AT, LAST_AT].contains(&(n % JOB_EVERY));
        if answer.is_none() || first_turn && wanted != Wanted::Any || turn {
            self.job(&name, &bytes, &answered.text);
        }
    }

    /// Makes an accepted call once more with other lengths of the lent slices.
    fn with_other_room(&mut self, rng: &mut Random, name: &str, call: &Call, outcome: &Outcome) {
        let Some(s) = call.settings() else { return };
        if outcome.answer != 0 || s.slices() > MANY_SLICES {
            return;
        }
        let (needed, length) = (s.work_needed() as usize, outcome.unit.len());
        let (work, output) = match rng.below(4) {
            0 => (needed, length),
            1 => (needed + 1, length - 1),
            2 => (needed - 1, length),
            _ => (needed + rng.below(50) as usize, length + rng.below(300) as usize),
        };
        let (call, outcome) = call.with_room(outcome, work, output);
        self.call(&format!("{name} work {work} output {output}"), &call, &outcome);
    }
}

/// Whether the unit of a lossless picture of `reader`'s wavelets gives the samples back; nothing
/// for other calls.
fn read_back(call: &Call, outcome: &Outcome) -> Option<Result<(), String>> {
    let s = call.settings()?;
    if outcome.answer != 0 || s.rate != Rate::Lossless || !deep::allows_8(s.wavelet, s.wavelet_ho) {
        return None;
    }
    let read = unit::read(&outcome.unit, s.version_3());
    let planes = read.and_then(|unit| reader::samples(&outcome.unit, &unit, &s));
    Some(planes.and_then(|planes| {
        let wanted: [Vec<i64>; 3] =
            call.planes.each_ref().map(|plane| plane.iter().map(|&v| v as i64).collect());
        if planes == wanted { Ok(()) } else { Err("other samples are read back".into()) }
    }))
}

/// The random numbers of the `n`-th job.
fn sequence(seed: u64, n: u64) -> Random {
    Random::new(Random::new(seed).next() ^ Random::new(n).next())
}

/// What a program prints for this input.
fn printed(program: &Path, input: &[u8]) -> Result<Vec<u8>, Box<dyn Error>> {
    let mut child = Command::new(program).stdin(Stdio::piped()).stdout(Stdio::piped()).spawn()?;
    let mut stdin = child.stdin.take().ok_or("no standard input")?;
    match stdin.write_all(input) {
        // It may have read enough.
        Err(e) if e.kind() != ErrorKind::BrokenPipe => return Err(e.into()),
        _ => drop(stdin),
    }
    let output = child.wait_with_output()?;
    if output.status.success() { Ok(output.stdout) } else { Err(output.status.to_string().into()) }
}

fn run(seed: u64, count: u64, folder: &str, job: Option<&str>) -> Done {
    let begin = Instant::now();
    fs::create_dir_all(folder)?;
    let mut run = Run {
        folder: folder.into(),
        job: job.map(PathBuf::from),
        differ: 0,
        calls: 0,
        job_runs: 0,
        read_back: BTreeMap::new(),
        port: Duration::ZERO,
        oracle: Duration::ZERO,
    };
    let rng = &mut Random::new(seed);
    run.entries("code lengths", entries::code_lengths(rng, 200_000));
    run.entries("quantiser", entries::quantiser(rng, 400_000));
    run.entries("rows", entries::rows(rng, 20_000));
    run.named(seed);
    run.named_jobs(seed);
    run.jobs(seed, count);
    run.large(seed);
    match &run.job {
        Some(_) => println!("job program: run {} times", run.job_runs),
        None => println!("job program: not run, there is none"),
    }
    let read_back: Vec<String> =
        run.read_back.iter().map(|(sum, n)| format!("{sum}: {n}")).collect();
    println!("lossless pictures read back, by the sum of the depths: {}", read_back.join(", "));
    println!("picture calls: {}", run.calls);
    println!(
        "seconds: {:.0}, of these {:.0} in the port and {:.0} in the oracle",
        begin.elapsed().as_secs_f64(),
        run.port.as_secs_f64(),
        run.oracle.as_secs_f64()
    );
    println!("{} differ", run.differ);
    Ok(run.differ == 0)
}

fn list_cases(seed: u64) -> Done {
    for case in named::all(seed) {
        let cut = case.cut.map(|[last, cut]| format!(": {last} of index 127, {cut} cut"));
        println!("{:>3}  {}{}", case.answer, case.name, cut.unwrap_or_default());
    }
    Ok(true)
}

fn one_call(file: &str) -> Done {
    let call = Call::parse(&fs::read_to_string(file)?).ok_or("this is no call")?;
    let outcome = call.expected()?;
    let (mut found, _) = port::picture(&call, &outcome, 1);
    if let Some(Err(message)) = read_back(&call, &outcome) {
        found.push(message);
    }
    let told = [outcome.unit.len() as u64, outcome.cut, outcome.scaler];
    println!("must be: answer {}, length, cut slices, scaler {told:?}", outcome.answer);
    for line in &found {
        println!("DIFFERS: {line}");
    }
    Ok(found.is_empty())
}

fn command(args: &[&str]) -> Done {
    match *args {
        ["run", seed, count, folder] => run(seed.parse()?, count.parse()?, folder, None),
        ["run", seed, count, folder, job] => run(seed.parse()?, count.parse()?, folder, Some(job)),
        ["cases", seed] => list_cases(seed.parse()?),
        ["call", file] => one_call(file),
        _ => Err(USAGE.into()),
    }
}

fn main() -> ExitCode {
    let args: Vec<String> = std::env::args().skip(1).collect();
    let args: Vec<&str> = args.iter().map(String::as_str).collect();
    match command(&args) {
        Ok(true) => ExitCode::SUCCESS,
        Ok(false) => ExitCode::FAILURE,
        Err(e) => {
            eprintln!("{e}");
            ExitCode::from(2)
        }
    }
}
