//! Answers from the Rust encoder, for comparison with the port.

mod cases;
mod cut;
mod deep;
mod edges;
mod generate;
mod jobs;
mod picture;
mod random;
mod recorder;
mod tally;
mod unit;

use edges::Wanted;
use jobs::{Answered, is_slow};
use random::Random;
use recorder::{Recorder, packed};
use std::error::Error;
use std::fs;
use std::io::{self, BufWriter, Read, Write};
use std::path::Path;
use std::process::ExitCode;
use tally::Tally;

const USAGE: &str = "usage:
  oracle record SEED words|quantiser|rows|dwts|jobs|deep|last [COUNT]
      prints recorded cases: edges and random ones, COUNT in all
  oracle job
      reads a job and prints what the job program prints for it
  oracle jobs SEED COUNT DIR
  oracle deep SEED COUNT DIR
  oracle last SEED COUNT DIR
      writes DIR/0001.job and DIR/0001.out and so on
  oracle case uint_code_len V | sint_code_len V | quant_factor INDEX | quant_offset INDEX
  oracle case forward_quant COEFFICIENT INDEX | inverse_quant NUMBER INDEX
  oracle case oned_analysis WAVELET NUMBER..
  oracle case default_matrix WAVELET WAVELET_HO DEPTH DEPTH_HO
      prints one answer of the Rust";

type Done = Result<(), Box<dyn Error>>;

/// Makes the `n`-th job of a run, and says what it must print.
type Make = fn(&mut Random, usize) -> (Vec<u8>, Wanted);

/// Recorded cases hold a job as bytes and what is printed for it.
const JOB: u64 = 48;

fn record(seed: u64, what: &str, count: Option<u64>) -> Done {
    let mut rec = Recorder::new(BufWriter::new(io::stdout().lock()));
    let rng = &mut Random::new(seed);
    match what {
        "words" => cases::words(&mut rec, rng, count.unwrap_or(2_400))?,
        "quantiser" => cases::quantiser(&mut rec, rng, count.unwrap_or(6_600))?,
        "rows" => cases::rows(&mut rec, rng, count.unwrap_or(2_400))?,
        "dwts" => cases::dwts(&mut rec, rng, count.unwrap_or(400))?,
        "jobs" | "deep" | "last" => {
            let (make, usual): (Make, _) = match what {
                "jobs" => (generate::nth, 480),
                "deep" => (deep::nth, 60),
                _ => (generate::around_last_index, 40),
            };
            each_job(rng, count.unwrap_or(usual), false, make, |_, bytes, answered| {
                let text = answered.text.as_bytes();
                let mut payload = vec![bytes.len() as u64];
                payload.extend(packed(bytes));
                payload.push(text.len() as u64);
                payload.extend(packed(text));
                rec.case(JOB, &payload)
            })?
        }
        _ => return Err(USAGE.into()),
    }
    eprintln!("{what}: {}", rec.finish()?);
    Ok(())
}

fn write_jobs(seed: u64, count: u64, dir: &str, make: Make) -> Done {
    fs::create_dir_all(dir)?;
    let rng = &mut Random::new(seed);
    each_job(rng, count, true, make, |n, bytes, answered| {
        let name = |extension| Path::new(dir).join(format!("{n:04}.{extension}"));
        fs::write(name("job"), bytes)?;
        fs::write(name("out"), &answered.text)
    })
}

/// Makes `count` jobs, numbered from 1, and hands each with its answer to `take`; `slow` says
/// whether slow ones may be among them. Says on standard error what they cover, and fails where a
/// job is not answered as it must be.
fn each_job(
    rng: &mut Random,
    count: u64,
    slow: bool,
    make: Make,
    mut take: impl FnMut(u64, &[u8], &Answered) -> io::Result<()>,
) -> Done {
    let mut tally = Tally::default();
    let mut wrong = 0;
    let jobs = (0..).map(|n| make(rng, n)).filter(|(bytes, _)| slow || !is_slow(bytes));
    for (n, (bytes, wanted)) in (1..=count).zip(jobs) {
        let answered = match jobs::answer(&bytes) {
            Ok(answered) => answered,
            Err(message) => {
                eprintln!("job {n}: {message}");
                wrong += 1;
                continue;
            }
        };
        let answer = answered.outcome.as_ref().map(|(_, outcome)| outcome.answer);
        if !wanted.is(answer) {
            eprintln!("job {n}: wanted {wanted:?}, got {answer:?}");
            wrong += 1;
        }
        match &answered.outcome {
            None => tally.add_malformed(),
            Some((job, outcome)) => tally.add(&job.settings(), &job.planes, outcome),
        }
        take(n, &bytes, &answered)?;
    }
    eprintln!("{tally}");
    if wrong == 0 { Ok(()) } else { Err(format!("{wrong} jobs are not as they must be").into()) }
}

fn answer_job() -> Done {
    let mut bytes = Vec::new();
    io::stdin().lock().read_to_end(&mut bytes)?;
    io::stdout().write_all(jobs::answer(&bytes)?.text.as_bytes())?;
    Ok(())
}

fn single_case(name: &str, args: &[&str]) -> Done {
    let numbers: Vec<i64> = args.iter().map(|arg| arg.parse()).collect::<Result<_, _>>()?;
    println!("{}", cases::single(name, &numbers).ok_or(USAGE)?);
    Ok(())
}

fn number(text: &str) -> Result<u64, String> {
    text.parse().map_err(|_| format!("{text} is not a number\n{USAGE}"))
}

fn run(args: &[&str]) -> Done {
    match *args {
        ["record", seed, what] => record(number(seed)?, what, None),
        ["record", seed, what, count] => record(number(seed)?, what, Some(number(count)?)),
        ["job"] => answer_job(),
        ["jobs", seed, count, dir] => write_jobs(number(seed)?, number(count)?, dir, generate::nth),
        ["deep", seed, count, dir] => write_jobs(number(seed)?, number(count)?, dir, deep::nth),
        ["last", seed, count, dir] => {
            write_jobs(number(seed)?, number(count)?, dir, generate::around_last_index)
        }
        ["case", name, ref args @ ..] => single_case(name, args),
        _ => Err(USAGE.into()),
    }
}

fn main() -> ExitCode {
    let args: Vec<String> = std::env::args().skip(1).collect();
    let args: Vec<&str> = args.iter().map(String::as_str).collect();
    match run(&args) {
        Ok(()) => ExitCode::SUCCESS,
        Err(e) => {
            eprintln!("{e}");
            ExitCode::FAILURE
        }
    }
}
