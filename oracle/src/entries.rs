//! The other entry points: code lengths, the quantiser's four calls, row analysis.

use crate::cases::{self, LONGEST_ROW, ROW_MANNERS};
use crate::port::{self, Quant};
use crate::random::Random;
use vc2::bitio;
use vc2::quant;

/// How many calls were made, and what differed.
#[derive(Default)]
pub struct Entries {
    pub calls: u64,
    pub refused: u64,
    pub found: Vec<String>,
}

impl Entries {
    fn add(&mut self, name: impl FnOnce() -> String, refused: bool, found: Vec<String>) {
        self.calls += 1;
        self.refused += refused as u64;
        if !found.is_empty() {
            self.found.push(format!("{}: {}", name(), found.join("; ")));
        }
    }

    fn length(&mut self, name: &str, v: i64, got: u64, wanted: u64) {
        let found =
            if got == wanted { vec![] } else { vec![format!("length {got}, not {wanted}")] };
        self.add(|| format!("{name} of {v}"), false, found);
    }

    fn uint(&mut self, v: u32) {
        let wanted = bitio::uint_code_len(v as u64);
        self.length("uint_code_len", v as i64, port::uint_code_len(v), wanted);
    }

    fn sint(&mut self, v: i64) {
        self.length("sint_code_len", v, port::sint_code_len(v), bitio::sint_code_len(v));
    }

    fn quant(&mut self, call: Quant, index: u32) {
        let value = (index <= 255).then(|| match call {
            Quant::Factor => quant::quant_factor(index as u64),
            Quant::Offset => quant::quant_offset(index as u64),
            Quant::Forward(coefficient) => quant::forward_quant(coefficient, index as u64),
            Quant::Inverse(number) => quant::inverse_quant(number, index as u64),
        });
        let answer = if value.is_none() { 6 } else { 0 };
        let found = port::quant(call, index, answer, value);
        self.add(|| format!("{call:?} at index {index}"), answer != 0, found);
    }

    fn row(&mut self, wavelet: u32, row: &[i64]) {
        let (answer, after) = cases::analysed(wavelet, row);
        let found = port::row(wavelet, row, answer as u32, &after);
        let name = || {
            let first = &row[..row.len().min(12)];
            format!("a row of {} by wavelet {wavelet}, from {first:?} on", row.len())
        };
        self.add(name, answer != 0, found);
    }
}

pub fn code_lengths(rng: &mut Random, count: u64) -> Entries {
    let mut entries = Entries::default();
    for v in cases::unsigned_edges() {
        entries.uint(v);
    }
    for v in cases::signed_edges() {
        entries.sint(v);
    }
    while entries.calls < count {
        entries.uint(rng.sized(32) as u32);
        entries.sint(rng.signed(63));
        entries.sint(rng.next() as i64);
    }
    entries
}

pub fn quantiser(rng: &mut Random, count: u64) -> Entries {
    let mut entries = Entries::default();
    for index in (0..=300).chain([511, 512, 65_535, 65_536, 1 << 31, u32::MAX]) {
        entries.quant(Quant::Factor, index);
        entries.quant(Quant::Offset, index);
        for edge in cases::signed_edges() {
            entries.quant(Quant::Forward(edge), index);
            entries.quant(Quant::Inverse(edge), index);
        }
    }
    while entries.calls < count {
        let index = rng.below(258) as u32;
        let (coefficient, number) = match rng.below(4) {
            0 => (rng.next() as i64, rng.next() as i64),
            1 => (rng.signed(63), rng.signed(63)),
            2 => (cases::near_step(rng, index), cases::near_cap(rng, index)),
            _ => (rng.signed(51), rng.signed(20)),
        };
        entries.quant(Quant::Forward(coefficient), index);
        entries.quant(Quant::Inverse(number), index);
    }
    entries
}

pub fn rows(rng: &mut Random, count: u64) -> Entries {
    let mut entries = Entries::default();
    for wavelet in (0..=7).chain([8, 255, 256, 1 << 31, u32::MAX]) {
        for length in (0..=20).chain([31, 32, 33, 63, 64, 65, 300, 301]) {
            for extreme in [0, i64::MIN, i64::MAX] {
                entries.row(wavelet, &vec![extreme; length]);
            }
            for manner in 0..ROW_MANNERS {
                entries.row(wavelet, &cases::random_row(rng, manner, length));
            }
        }
        for length in [LONGEST_ROW - 1, LONGEST_ROW, LONGEST_ROW + 1, LONGEST_ROW + 2, 1 << 17] {
            let manner = rng.below(ROW_MANNERS);
            entries.row(wavelet, &cases::random_row(rng, manner, length));
        }
    }
    while entries.calls < count {
        let manner = rng.below(ROW_MANNERS);
        let length = rng.range(1, 100) as usize;
        let wavelet = rng.below(7) as u32;
        entries.row(wavelet, &cases::random_row(rng, manner, length));
    }
    entries
}
