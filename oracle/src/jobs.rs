//! The job program of document 01: reading a job, and what is printed for it.

use crate::picture::{self, Kind, Outcome, Rate, Settings};
use std::fmt::Write;

/// Places of the settings in a job.
pub const KIND: usize = 0;
pub const WAVELET: usize = 1;
pub const WAVELET_HO: usize = 2;
pub const DEPTH: usize = 3;
pub const DEPTH_HO: usize = 4;
pub const ACROSS: usize = 5;
pub const DOWN: usize = 6;
pub const PREFIX: usize = 7;
pub const SCALER: usize = 8;
pub const RATE: usize = 9;
pub const RATE_NUMBER: usize = 10;
pub const WIDTH: usize = 11;
pub const HEIGHT: usize = 12;
pub const FORMAT: usize = 13;
pub const MODE: usize = 14;
pub const LUMA_EXCURSION: usize = 15;
pub const COLOUR_EXCURSION: usize = 16;
pub const EXTENDED: usize = 17;
pub const CUSTOM: usize = 18;
pub const PICTURE_NUMBER: usize = 19;
pub const PREVIOUS_LENGTH: usize = 20;
pub const SETTINGS: usize = 21;

pub const MOST_MATRIX_WORDS: usize = 64;
pub const MOST_SAMPLE_WORDS: usize = 4_096;

/// Numbers in the job program's work slice, and bytes in its output.
pub const WORK: usize = 6_144;
pub const OUTPUT: usize = 8_192;

/// The largest content of a word.
pub const CONTENT: u32 = (1 << 28) - 1;
/// The last word of a job.
pub const END: u32 = 15 << 28;

/// The contents of a job's words.
#[derive(Debug, Clone)]
pub struct Job {
    pub settings: [u32; SETTINGS],
    pub matrix: Vec<u32>,
    pub planes: [Vec<u32>; 3],
}

impl Job {
    /// The job's words: each kind's in turn, and the last one.
    pub fn words(&self) -> Vec<u32> {
        let [y, c1, c2] = &self.planes;
        let parts: [&[u32]; 5] = [&self.settings, &self.matrix, y, c1, c2];
        let mut words = Vec::new();
        for (kind, contents) in parts.into_iter().enumerate() {
            words.extend(contents.iter().map(|content| (kind as u32) << 28 | content));
        }
        words.push(END);
        words
    }

    pub fn bytes(&self) -> Vec<u8> {
        to_bytes(&self.words())
    }

    pub fn settings(&self) -> Settings {
        settings_of(&self.settings)
    }

    /// The planes as samples of 16 bits.
    pub fn samples(&self) -> [Vec<u16>; 3] {
        self.planes.each_ref().map(|plane| plane.iter().map(|&v| v as u16).collect())
    }

    pub fn encode(&self, work_len: usize, output_len: usize) -> Result<Outcome, String> {
        let planes = self.samples();
        let planes = planes.each_ref().map(|plane| &plane[..]);
        picture::encode(&self.settings(), &self.matrix, &planes, work_len, output_len)
    }
}

/// The settings that these words are; meant for kind, rate, extended and custom in range.
pub fn settings_of(s: &[u32; SETTINGS]) -> Settings {
    let number = s[RATE_NUMBER] as u64;
    Settings {
        kind: if s[KIND] == 0 { Kind::LowDelay } else { Kind::HighQuality },
        wavelet: s[WAVELET],
        wavelet_ho: s[WAVELET_HO],
        depth: s[DEPTH],
        depth_ho: s[DEPTH_HO],
        across: s[ACROSS],
        down: s[DOWN],
        prefix: s[PREFIX],
        scaler: s[SCALER],
        rate: match s[RATE] {
            0 => Rate::Lossless,
            1 => Rate::Index(number),
            _ => Rate::Bytes(number),
        },
        width: s[WIDTH],
        height: s[HEIGHT],
        format: s[FORMAT],
        mode: s[MODE],
        luma_excursion: s[LUMA_EXCURSION],
        colour_excursion: s[COLOUR_EXCURSION],
        extended: s[EXTENDED] == 1,
        custom: s[CUSTOM] == 1,
        picture_number: s[PICTURE_NUMBER],
        previous_length: s[PREVIOUS_LENGTH],
    }
}

pub fn to_bytes(words: &[u32]) -> Vec<u8> {
    words.iter().flat_map(|word| word.to_be_bytes()).collect()
}

/// The job that these bytes are, or nothing if they are malformed.
pub fn parse(bytes: &[u8]) -> Option<Job> {
    let (chunks, []) = bytes.as_chunks::<4>() else { return None };
    let words: Vec<u32> = chunks.iter().map(|chunk| u32::from_be_bytes(*chunk)).collect();
    let (&last, mut rest) = words.split_last()?;
    if last != END {
        return None;
    }
    let mut parts: Vec<Vec<u32>> = Vec::new();
    for kind in 0..5 {
        let count = rest.iter().take_while(|&&word| word >> 28 == kind).count();
        let (part, after) = rest.split_at(count);
        parts.push(part.iter().map(|word| word & CONTENT).collect());
        rest = after;
    }
    let [settings, matrix, y, c1, c2]: [Vec<u32>; 5] = parts.try_into().ok()?;
    let job = Job { settings: settings.try_into().ok()?, matrix, planes: [y, c1, c2] };
    let s = &job.settings;
    let samples: usize = job.planes.iter().map(Vec::len).sum();
    let well_formed = rest.is_empty()
        && s[KIND] <= 1
        && s[RATE] <= 2
        && s[EXTENDED] <= 1
        && s[CUSTOM] <= 1
        && (s[RATE] != 0 || s[RATE_NUMBER] == 0)
        && (s[CUSTOM] == 1 || job.matrix.is_empty())
        && job.matrix.len() <= MOST_MATRIX_WORDS
        && samples <= MOST_SAMPLE_WORDS
        && job.matrix.iter().chain(job.planes.iter().flatten()).all(|&v| v <= 65_535);
    well_formed.then_some(job)
}

/// True for a job that no refusal keeps from coding more than 3,000 slices, which takes long.
pub fn is_slow(bytes: &[u8]) -> bool {
    let Some(job) = parse(bytes) else { return false };
    let (s, planes) = (job.settings(), job.samples());
    let planes = planes.each_ref().map(|plane| &plane[..]);
    s.slices() > 3_000 && picture::refusal(&s, &job.matrix, &planes, WORK) == 0
}

/// A job, its outcome if it is well formed, and what the job program prints.
pub struct Answered {
    pub outcome: Option<(Job, Outcome)>,
    pub text: String,
}

pub fn answer(bytes: &[u8]) -> Result<Answered, String> {
    let Some(job) = parse(bytes) else {
        return Ok(Answered { outcome: None, text: "job\n".into() });
    };
    let outcome =
        job.encode(WORK, OUTPUT).map_err(|e| format!("{e} (settings {:?})", job.settings))?;
    let text = text(&outcome);
    Ok(Answered { outcome: Some((job, outcome)), text })
}

fn text(outcome: &Outcome) -> String {
    if outcome.answer != 0 {
        return format!("{}\n", outcome.answer);
    }
    let mut text = format!("0 {} {} {}\n", outcome.unit.len(), outcome.cut, outcome.scaler);
    for line in outcome.unit.chunks(16) {
        for (i, byte) in line.iter().enumerate() {
            let space = if i == 0 { "" } else { " " };
            write!(text, "{space}{byte:02X}").expect("a string takes all text");
        }
        text.push('\n');
    }
    text
}
