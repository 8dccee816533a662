//! One picture call: what goes in, what must come out, and its text form.

use crate::jobs::{self, *};
use crate::picture::{self, Outcome, Settings};
use std::fmt::Write;

/// Words that are no settings.
pub const NO_SETTINGS: u32 = 100;

#[derive(Debug, Clone)]
pub struct Call {
    /// 21 settings in a job's order; any number of words may be tried.
    pub words: Vec<u32>,
    pub matrix: Vec<u32>,
    pub planes: [Vec<u16>; 3],
    /// Lengths of the lent slices.
    pub work: usize,
    pub output: usize,
}

impl Call {
    pub fn of(job: &Job, work: usize, output: usize) -> Call {
        let (words, matrix) = (job.settings.to_vec(), job.matrix.clone());
        Call { words, matrix, planes: job.samples(), work, output }
    }

    /// The settings, if the words are any.
    pub fn settings(&self) -> Option<Settings> {
        let words: &[u32; SETTINGS] = self.words.as_slice().try_into().ok()?;
        let known =
            words[KIND] <= 1 && words[RATE] <= 2 && words[EXTENDED] <= 1 && words[CUSTOM] <= 1;
        known.then(|| jobs::settings_of(words))
    }

    /// What the call must come to.
    pub fn expected(&self) -> Result<Outcome, String> {
        let Some(s) = self.settings() else {
            return Ok(Outcome { answer: NO_SETTINGS, ..Outcome::default() });
        };
        let planes = self.planes.each_ref().map(|plane| &plane[..]);
        picture::encode(&s, &self.matrix, &planes, self.work, self.output)
    }

    /// The same with other lengths of the lent slices, for a call that comes to `outcome` with
    /// enough of both.
    pub fn with_room(&self, outcome: &Outcome, work: usize, output: usize) -> (Call, Outcome) {
        let call = Call { work, output, ..self.clone() };
        let needed = self.settings().map_or(0, |s| s.work_needed());
        let answer = match outcome.answer {
            0 if (work as u64) < needed => 13,
            0 if output < outcome.unit.len() => 14,
            0 => return (call, outcome.clone()),
            answer => answer,
        };
        (call, Outcome { answer, ..Outcome::default() })
    }

    /// The job that has this call's settings, matrix and planes, if there is one.
    pub fn job(&self) -> Option<Vec<u8>> {
        let settings: [u32; SETTINGS] = self.words.as_slice().try_into().ok()?;
        if settings.iter().any(|&word| word > CONTENT) {
            return None;
        }
        let planes = self.planes.each_ref().map(|p| p.iter().map(|&v| v as u32).collect());
        let bytes = Job { settings, matrix: self.matrix.clone(), planes }.bytes();
        jobs::parse(&bytes).map(|_| bytes)
    }

    /// A line for each part: its name, then its numbers.
    pub fn text(&self) -> String {
        let wide = |plane: &[u16]| plane.iter().map(|&v| v as u32).collect();
        let [y, c1, c2] = self.planes.each_ref().map(|plane| wide(plane));
        let lent = [self.work, self.output].map(|len| vec![len as u32]);
        let parts = [&self.words, &self.matrix, &y, &c1, &c2, &lent[0], &lent[1]];
        let mut text = String::new();
        for (name, numbers) in PARTS.into_iter().zip(parts) {
            text.push_str(name);
            for number in numbers {
                write!(text, " {number}").expect("a string takes all text");
            }
            text.push('\n');
        }
        text
    }

    /// The call that `text` is of.
    pub fn parse(text: &str) -> Option<Call> {
        let lines: Vec<&str> = text.lines().collect();
        let lines: [&str; PARTS.len()] = lines.try_into().ok()?;
        let mut parts = Vec::new();
        for (name, line) in PARTS.into_iter().zip(lines) {
            let numbers = line.strip_prefix(name)?.split_whitespace();
            parts.push(numbers.map(|n| n.parse()).collect::<Result<Vec<u32>, _>>().ok()?);
        }
        let [words, matrix, y, c1, c2, work, output]: [_; PARTS.len()] = parts.try_into().ok()?;
        let planes = [y, c1, c2].map(|plane| plane.into_iter().map(|v| v as u16).collect());
        let [work, output] = [*work.first()? as usize, *output.first()? as usize];
        Some(Call { words, matrix, planes, work, output })
    }
}

const PARTS: [&str; 7] = ["settings", "matrix", "y", "c1", "c2", "work", "output"];
