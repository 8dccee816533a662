//! Times the picture calls of the port and of the Rust on the same pictures; see bench/run.

mod scene;

// Parts of the oracle, of which not all is used here.
#[allow(dead_code)]
#[path = "../../oracle/src/call.rs"]
mod call;
#[allow(dead_code)]
#[path = "../../oracle/src/cut.rs"]
mod cut;
#[allow(dead_code)]
#[path = "../../oracle/src/jobs.rs"]
mod jobs;
#[allow(dead_code)]
#[path = "../../oracle/src/lent.rs"]
mod lent;
#[allow(dead_code)]
#[path = "../../oracle/src/picture.rs"]
mod picture;
#[allow(dead_code)]
#[path = "../../oracle/src/port.rs"]
mod port;
#[allow(dead_code)]
#[path = "../../oracle/src/random.rs"]
mod random;
#[allow(dead_code)]
#[path = "../../oracle/src/unit.rs"]
mod unit;

use call::Call;
use jobs::*;
use random::Random;
use std::process::ExitCode;
use std::time::Duration;
use vc2::encoder::PictureInput;

const HEADING: &str = "\
Pictures are 4:2:2 of 10 bits, with shapes, texture and noise. Those of 1920x1080 and 3840x2160 have
120 x 68 slices and a target of 1300000 bytes, the one of 64x64 has 4 x 4 and 2568. Only the picture
call is timed: in the Rust encode_picture of an encoder made before, in the port vc2_encode_picture
on slices lent before. Both encode in turn, 9 times or more and until each has run for 2 s, but not
again after 20 s. The least time of each is shown, in seconds for which the processor ran the call, so
that other load counts little. The units are compared after each call. Ratio: seconds of the Rust
over those of the port. Lent bytes: the work slice, 8 bytes a number, and an output as long as the
unit. The speeds to reach, in the last lines, count 1920x1080 and 3840x2160 and not 64x64.";

/// The least number of runs of each side.
const LEAST_RUNS: u32 = 9;
/// The least time of all runs of a side together.
const LEAST_TIME: Duration = Duration::from_secs(2);
/// The time of a side's runs together after which no further run begins.
const MOST_TIME: Duration = Duration::from_secs(20);

/// Frames of at least this width count for the speeds to reach.
const LARGE: u32 = 1_920;

const SEED: u64 = 1;

/// C's `timespec` on 64-bit Linux.
#[repr(C)]
struct TimeSpec {
    seconds: i64,
    nanoseconds: i64,
}

/// The clock of the time for which the processor runs this thread.
const CLOCK_THREAD_CPUTIME_ID: i32 = 3;

unsafe extern "C" {
    fn clock_gettime(clock: i32, time: *mut TimeSpec) -> i32;
}

/// For how long the processor has run this thread.
fn now() -> Duration {
    let mut time = TimeSpec { seconds: 0, nanoseconds: 0 };
    // SAFETY: the pointer is to a timespec.
    let failed = unsafe { clock_gettime(CLOCK_THREAD_CPUTIME_ID, &mut time) };
    assert_eq!(failed, 0, "there is no clock of a thread's time");
    Duration::new(time.seconds as u64, time.nanoseconds as u32)
}

/// Frame, slice grid and byte target.
#[derive(Clone, Copy)]
struct Frame {
    width: u32,
    height: u32,
    across: u32,
    down: u32,
    target: u32,
}

impl Frame {
    const fn new(width: u32, height: u32, across: u32, down: u32, target: u32) -> Frame {
        Frame { width, height, across, down, target }
    }

    fn sides(&self) -> String {
        format!("{}x{}", self.width, self.height)
    }

    /// Samples of all three planes.
    fn samples(&self) -> u64 {
        2 * self.width as u64 * self.height as u64
    }

    fn planes(&self) -> [Vec<u16>; 3] {
        let rng = &mut Random::new(SEED);
        let [width, height] = [self.width as usize, self.height as usize];
        [(width, 940, 4), (width / 2, 960, 2), (width / 2, 960, 2)]
            .map(|(width, most, contrast)| scene::plane(rng, width, height, most, contrast))
    }
}

const SMALL: Frame = Frame::new(64, 64, 4, 4, 2_568);
const HD: Frame = Frame::new(1_920, 1_080, 120, 68, 1_300_000);
/// Slices and target are those of `HD`.
const UHD: Frame = Frame::new(3_840, 2_160, 120, 68, 1_300_000);

/// Slices of 16 x 16 luma samples, and a target that grows with the area.
const GROWING: [Frame; 4] = [
    Frame::new(480, 270, 30, 17, 81_250),
    Frame::new(960, 540, 60, 34, 325_000),
    HD,
    Frame::new(3_840, 2_160, 240, 135, 5_200_000),
];

struct Transform {
    name: &'static str,
    wavelet: u32,
    depth: u32,
    depth_ho: u32,
}

const LEGALL: Transform = Transform { name: "LeGall depth 3", wavelet: 1, depth: 3, depth_ho: 0 };
const DAUBECHIES: Transform =
    Transform { name: "Daubechies (9,7) depth 4", wavelet: 6, depth: 4, depth_ho: 0 };
const HORIZONTAL: Transform =
    Transform { name: "LeGall depth 2, 1 horizontal-only", wavelet: 1, depth: 2, depth_ho: 1 };

#[derive(Clone, Copy, PartialEq, Eq)]
enum Coding {
    Lossless,
    Target,
    Index,
    LowDelay,
}

use Coding::*;

impl Coding {
    fn name(self) -> &'static str {
        match self {
            Lossless => "high quality lossless",
            Target => "high quality target",
            Index => "high quality index 20",
            LowDelay => "low delay target",
        }
    }

    /// How many times the speed of the Rust the port must have.
    fn least_ratio(self) -> f64 {
        match self {
            Lossless | Target | Index => 3.0,
            LowDelay => 6.0,
        }
    }
}

const CASES: [(Frame, Transform, &[Coding]); 5] = [
    (HD, LEGALL, &[Lossless, Target, Index, LowDelay]),
    (UHD, LEGALL, &[Lossless, Target, Index, LowDelay]),
    (HD, DAUBECHIES, &[Lossless, Target, LowDelay]),
    (HD, HORIZONTAL, &[Lossless, Target, LowDelay]),
    (SMALL, LEGALL, &[Lossless, Target, Index, LowDelay]),
];

/// The call for a case, with all the work that it needs; the output is lent when it is made.
fn call(frame: &Frame, transform: &Transform, coding: Coding, planes: &[Vec<u16>; 3]) -> Call {
    let (rate, number) = match coding {
        Lossless => (0, 0),
        Index => (1, 20),
        Target | LowDelay => (2, frame.target),
    };
    let mut words = [0; SETTINGS];
    for (place, word) in [
        (KIND, (coding != LowDelay) as u32),
        (WAVELET, transform.wavelet),
        (WAVELET_HO, transform.wavelet),
        (DEPTH, transform.depth),
        (DEPTH_HO, transform.depth_ho),
        (ACROSS, frame.across),
        (DOWN, frame.down),
        (SCALER, 1),
        (RATE, rate),
        (RATE_NUMBER, number),
        (WIDTH, frame.width),
        (HEIGHT, frame.height),
        (FORMAT, 1),
        (LUMA_EXCURSION, 876),
        (COLOUR_EXCURSION, 896),
    ] {
        words[place] = word;
    }
    let work = settings_of(&words).work_needed() as usize;
    Call { words: words.to_vec(), matrix: Vec::new(), planes: planes.clone(), work, output: 0 }
}

/// The runs of one side.
#[derive(Clone, Copy)]
struct Times {
    runs: u32,
    all: Duration,
    least: Duration,
}

impl Times {
    const NONE: Times = Times { runs: 0, all: Duration::ZERO, least: Duration::MAX };

    fn add(&mut self, time: Duration) {
        self.runs += 1;
        self.all += time;
        self.least = self.least.min(time);
    }

    fn enough(&self) -> bool {
        self.runs >= LEAST_RUNS && self.all >= LEAST_TIME || self.all >= MOST_TIME
    }
}

struct Measured {
    /// Seconds.
    rust: f64,
    port: f64,
    lent: usize,
    /// What a call of the port has otherwise than the Rust.
    differs: Option<String>,
}

impl Measured {
    fn ratio(&self) -> f64 {
        self.rust / self.port
    }

    /// What stands behind the numbers of a line.
    fn remark(&self) -> String {
        self.differs.as_ref().map_or(String::new(), |what| format!("  DIFFERS: {what}"))
    }
}

fn measure(call: &Call) -> Result<Measured, String> {
    let refuses = |e| format!("the Rust refuses: {e:?}");
    let s = call.settings().ok_or("these are no settings")?;
    let mut encoder = picture::encoder(&s, &call.matrix).map_err(refuses)?;
    let [y, c1, c2] = &call.planes;
    let input = PictureInput::new(y, c1, c2);
    let mut work = vec![1; call.work];
    let [mut unit, mut output] = [Vec::new(), Vec::new()];
    let [mut rust, mut port] = [Times::NONE; 2];
    let mut differs = None;
    while !(rust.enough() && port.enough()) {
        if !rust.enough() {
            encoder.continue_sequence(s.picture_number, s.previous_length);
            let begin = now();
            let coded = encoder.encode_picture(&input);
            rust.add(now() - begin);
            unit = coded.map_err(refuses)?;
        }
        if !port.enough() {
            // A byte that is not written differs.
            output.clear();
            output.extend(unit.iter().map(|byte| !byte));
            let (answer, length, time) = run_port(call, &mut work, &mut output);
            port.add(time);
            if answer != 0 {
                differs = Some(format!("answer {answer}"));
            } else if length != unit.len() {
                differs = Some(format!("{length} bytes, not {}", unit.len()));
            } else if let Some(place) = (0..length).find(|&i| output[i] != unit[i]) {
                differs = Some(format!("byte {place} is {}, not {}", output[place], unit[place]));
            }
        }
    }
    let lent = size_of_val(&work[..]) + output.len();
    let [rust, port] = [rust, port].map(|times| times.least.as_secs_f64());
    Ok(Measured { rust, port, lent, differs })
}

/// The port's answer, the unit's length and the time taken.
fn run_port(call: &Call, work: &mut [i64], output: &mut [u8]) -> (u32, usize, Duration) {
    let [y, c1, c2] = &call.planes;
    let [mut length, mut cut, mut scaler] = [0; 3];
    let begin = now();
    // SAFETY: each pointer is to so many elements, or to one, and nothing else refers to those
    // that the call writes.
    let answer = unsafe {
        port::vc2_encode_picture(
            call.words.as_ptr(),
            call.words.len(),
            call.matrix.as_ptr(),
            call.matrix.len(),
            y.as_ptr(),
            y.len(),
            c1.as_ptr(),
            c1.len(),
            c2.as_ptr(),
            c2.len(),
            work.as_mut_ptr(),
            work.len(),
            output.as_mut_ptr(),
            output.len(),
            &mut length,
            &mut cut,
            &mut scaler,
        )
    };
    (answer, length as usize, now() - begin)
}

/// Runs the cases whose name has `only` in it: true if no unit differs and all speeds are reached.
fn run(only: &str) -> Result<bool, String> {
    let mut good = true;
    let mut cases = 0;
    // Ratios of large pictures.
    let mut ratios: Vec<(Coding, f64)> = Vec::new();

    println!("{HEADING}\n");
    println!("{:<66}{:>9}{:>9}{:>7}{:>12}", "case", "Rust", "port", "ratio", "lent bytes");
    for (frame, transform, codings) in &CASES {
        let name =
            |coding: Coding| format!("{} {}, {}", frame.sides(), transform.name, coding.name());
        let wanted: Vec<Coding> =
            codings.iter().copied().filter(|&coding| name(coding).contains(only)).collect();
        if wanted.is_empty() {
            continue;
        }
        let planes = frame.planes();
        for coding in wanted {
            let got = measure(&call(frame, transform, coding, &planes))?;
            println!(
                "{:<66}{:>9.5}{:>9.5}{:>7.2}{:>12}{}",
                name(coding),
                got.rust,
                got.port,
                got.ratio(),
                got.lent,
                got.remark()
            );
            good &= got.differs.is_none();
            cases += 1;
            if frame.width >= LARGE {
                ratios.push((coding, got.ratio()));
            }
        }
    }

    println!(
        "\nGrowth, {}: slices of 16 x 16 luma samples, the target grows with the area.",
        LEGALL.name
    );
    println!("{:<66}{:>9}{:>9}{:>7}{:>12}", "case", "Rust", "port", "ratio", "ns a sample");
    for coding in [Lossless, Target, LowDelay] {
        let mut seconds = Vec::new();
        for frame in &GROWING {
            let name = format!("growth {}, {}", frame.sides(), coding.name());
            if !name.contains(only) {
                continue;
            }
            let got = measure(&call(frame, &LEGALL, coding, &frame.planes()))?;
            println!(
                "{name:<66}{:>9.5}{:>9.5}{:>7.2}{:>12.2}{}",
                got.rust,
                got.port,
                got.ratio(),
                got.port * 1e9 / frame.samples() as f64,
                got.remark()
            );
            good &= got.differs.is_none();
            cases += 1;
            seconds.push((frame, got.port));
        }
        if let [(first, least), .., (last, most)] = seconds[..] {
            println!(
                "  {} has {} times the samples of {}, the port takes {:.1} times as long",
                last.sides(),
                last.samples() / first.samples(),
                first.sides(),
                most / least
            );
        }
    }

    println!("\nSpeeds to reach: the least ratio of 1920x1080 and 3840x2160, growth left out.");
    for coding in [Lossless, Index, Target, LowDelay] {
        let of_coding = ratios.iter().filter(|(c, _)| *c == coding).map(|(_, ratio)| *ratio);
        let Some(least) = of_coding.reduce(f64::min) else {
            println!("{:<24}not run", coding.name());
            continue;
        };
        let reached = least >= coding.least_ratio();
        let verdict = if reached { "reached" } else { "not reached" };
        println!(
            "{:<24}{least:>6.2}  must be {:.1}: {verdict}",
            coding.name(),
            coding.least_ratio()
        );
        good &= reached;
    }
    if cases == 0 {
        return Err(format!("no case has {only:?} in its name"));
    }
    Ok(good)
}

fn main() -> ExitCode {
    let only = std::env::args().nth(1).unwrap_or_default();
    match run(&only) {
        Ok(true) => ExitCode::SUCCESS,
        Ok(false) => ExitCode::FAILURE,
        Err(e) => {
            eprintln!("{e}");
            ExitCode::from(2)
        }
    }
}
