//! Counts over a run of jobs, so that its coverage can be seen.

use crate::picture::{Kind, Outcome, Rate, Settings};
use crate::unit;
use std::collections::BTreeMap;
use std::fmt;

#[derive(Default)]
pub struct Tally {
    jobs: u64,
    answers: BTreeMap<u32, u64>,
    malformed: u64,
    accepted: BTreeMap<String, u64>,
    largest_scaler: u64,
    longest_unit: usize,
    /// Luma width and height of the picture of most luma samples.
    largest_picture: [u64; 2],
    most_slices: u64,
}

impl Tally {
    /// A call of which only the answer counts.
    pub fn add_answer(&mut self, answer: u32) {
        self.jobs += 1;
        *self.answers.entry(answer).or_default() += 1;
    }

    pub fn add_malformed(&mut self) {
        self.jobs += 1;
        self.malformed += 1;
    }

    pub fn add<T: Copy + Into<u32>>(
        &mut self,
        s: &Settings,
        planes: &[Vec<T>; 3],
        outcome: &Outcome,
    ) {
        self.add_answer(outcome.answer);
        if outcome.answer == 0 {
            self.add_accepted(s, planes, outcome);
        }
    }

    fn count(&mut self, what: impl Into<String>, n: u64) {
        *self.accepted.entry(what.into()).or_default() += n;
    }

    fn add_accepted<T: Copy + Into<u32>>(
        &mut self,
        s: &Settings,
        planes: &[Vec<T>; 3],
        outcome: &Outcome,
    ) {
        let read = unit::read(&outcome.unit, s.version_3()).expect("the unit was read before");
        let low_delay = s.kind == Kind::LowDelay;
        self.count(if low_delay { "low delay" } else { "high quality" }, 1);
        self.count(format!("wavelet {}", s.wavelet), 1);
        self.count(format!("format {}", s.format), 1);
        self.count(format!("depth {}, {} horizontal-only", s.depth, s.depth_ho), 1);
        if s.depth_sum() > 5 {
            let kind = if low_delay { "low delay" } else { "high quality" };
            self.count(format!("depths sum to {}, {kind}", s.depth_sum()), 1);
            self.count(format!("sums above 5, wavelets {} and {}", s.wavelet, s.wavelet_ho), 1);
        }
        let [luma, colour] = s.sizes();
        let level_0 = s.padded(luma).width >> (s.depth + s.depth_ho);
        let bits = [s.luma_excursion, s.colour_excursion, s.colour_excursion];
        let above = |(plane, excursion): (&Vec<T>, u32)| {
            let depth = Settings::sample_depth(excursion);
            plane.iter().any(|&v| v.into() >> depth != 0)
        };
        let holds = |sample| planes.iter().any(|plane| plane.iter().any(|&v| v.into() == sample));
        let sides = [luma.width, luma.height, colour.width, colour.height];
        for (what, holds) in [
            ("mixed wavelets", s.wavelet != s.wavelet_ho),
            ("horizontal-only levels", s.depth_ho != 0),
            ("fields", s.mode == 1),
            ("extended", s.extended),
            ("custom matrix", s.custom),
            ("rate lossless", s.rate == Rate::Lossless),
            ("rate index", matches!(s.rate, Rate::Index(_))),
            ("rate bytes", matches!(s.rate, Rate::Bytes(_))),
            ("target 0", s.rate == Rate::Bytes(0)),
            ("sides of 1 to 3", sides.into_iter().any(|side| side <= 3)),
            ("padded luma", s.padded(luma).area() != luma.area()),
            ("slices without level-0 places", s.across as u64 > level_0),
            ("samples at 0 and 65,535", holds(0) && holds(65_535)),
            (
                "samples at 0 and 65,535, sums above 5",
                s.depth_sum() > 5 && holds(0) && holds(65_535),
            ),
            ("samples above the depth", planes.iter().zip(bits).any(above)),
            ("pictures with cut slices", outcome.cut != 0),
            ("raised scalers", outcome.scaler > s.scaler as u64),
            (
                "raised scalers at a byte target",
                outcome.scaler > s.scaler as u64 && matches!(s.rate, Rate::Bytes(_)),
            ),
        ] {
            self.count(what, holds as u64);
        }
        let last = read.slices.iter().filter(|x| low_delay && x.index == 127).count() as u64;
        // No other slice is cut: `cut::count` answers with an error.
        let fit = last - outcome.cut;
        self.count("low delay, pictures with slices of index 127 that fit", (fit != 0) as u64);
        self.count("low delay, slices of index 127 that fit", fit);
        self.count("slices", read.slices.len() as u64);
        self.count("cut slices", outcome.cut);
        let kept_zeros = read.slices.iter().filter(|x| x.luma_ends_in_zero).count();
        self.count("cut slices with a luma run that ends in 0", kept_zeros as u64);
        let one_byte = read.slices.iter().filter(|x| low_delay && x.length == 1).count();
        self.count("one-byte slices", one_byte as u64);
        self.largest_scaler = self.largest_scaler.max(outcome.scaler);
        self.longest_unit = self.longest_unit.max(outcome.unit.len());
        self.most_slices = self.most_slices.max(s.slices());
        if luma.area() > self.largest_picture[0] * self.largest_picture[1] {
            self.largest_picture = [luma.width, luma.height];
        }
    }
}

/// Answers and how often each was given.
pub fn listed(answers: &BTreeMap<u32, u64>) -> String {
    let answers: Vec<String> = answers.iter().map(|(a, n)| format!("{a}: {n}")).collect();
    answers.join(", ")
}

impl fmt::Display for Tally {
    fn fmt(&self, f: &mut fmt::Formatter) -> fmt::Result {
        writeln!(
            f,
            "{} jobs, {} malformed, answers {}",
            self.jobs,
            self.malformed,
            listed(&self.answers)
        )?;
        writeln!(f, "of the accepted ones:")?;
        for (what, n) in &self.accepted {
            writeln!(f, "  {what}: {n}")?;
        }
        let [width, height] = self.largest_picture;
        write!(
            f,
            "  largest picture {width} x {height}, most slices {}, largest scaler {}, longest unit {}",
            self.most_slices, self.largest_scaler, self.longest_unit
        )
    }
}
