//! One picture: document 01's refusals in their order, the unit from the Rust, and the numbers of
//! the answer: the unit's length, its cut slices, which `cut` counts, and the scaler, which in high
//! quality is read off the unit.

use crate::cut;
use crate::unit::{self, Unit};
use vc2::encoder::{EncoderConfig, PictureInput, RateControl, SequenceEncoder};
use vc2::params::ColorDiffFormat;
use vc2::quant::{self, MatrixLevel};
use vc2::transform::PictureKind;

#[derive(Debug, Clone, Copy, PartialEq, Eq)]
pub enum Kind {
    LowDelay,
    HighQuality,
}

#[derive(Debug, Clone, Copy, PartialEq, Eq)]
pub enum Rate {
    Lossless,
    Index(u64),
    Bytes(u64),
}

#[derive(Debug, Clone, Copy)]
pub struct Settings {
    pub kind: Kind,
    pub wavelet: u32,
    pub wavelet_ho: u32,
    pub depth: u32,
    pub depth_ho: u32,
    pub across: u32,
    pub down: u32,
    pub prefix: u32,
    pub scaler: u32,
    pub rate: Rate,
    pub width: u32,
    pub height: u32,
    pub format: u32,
    pub mode: u32,
    pub luma_excursion: u32,
    pub colour_excursion: u32,
    pub extended: bool,
    pub custom: bool,
    pub picture_number: u32,
    pub previous_length: u32,
}

/// What a picture call gives. A refused one (`answer` not 0) has an empty unit and zeros.
#[derive(Debug, Clone, PartialEq, Eq, Default)]
pub struct Outcome {
    pub answer: u32,
    pub unit: Vec<u8>,
    pub cut: u64,
    pub scaler: u64,
}

/// Width and height of a component.
#[derive(Debug, Clone, Copy)]
pub struct Size {
    pub width: u64,
    pub height: u64,
}

impl Size {
    pub fn area(self) -> u64 {
        self.width * self.height
    }
}

/// Bytes before the transform parameters: parse information and picture number.
const HEAD: u64 = 17;

/// The Rust is not run for units that are surely longer than the output and this.
const RUN_LIMIT: u64 = 1 << 18;

impl Settings {
    /// Luma and colour sizes, each halving rounding down; meant for format and mode in range.
    pub fn sizes(&self) -> [Size; 2] {
        let (mut width, mut height) = (self.width as u64, self.height as u64);
        let mut luma = Size { width, height };
        if self.format >= 1 {
            width /= 2;
        }
        if self.format == 2 {
            height /= 2;
        }
        if self.mode == 1 {
            luma.height /= 2;
            height /= 2;
        }
        [luma, Size { width, height }]
    }

    /// The most that the two depths may sum to: document 01, 2, and document 02, (iii).
    pub fn depth_limit(&self) -> u64 {
        let deep = |index| matches!(index, 1 | 3 | 4);
        if deep(self.wavelet) && deep(self.wavelet_ho) { 8 } else { 5 }
    }

    pub fn depth_sum(&self) -> u64 {
        self.depth as u64 + self.depth_ho as u64
    }

    /// A component's size padded up for the transform; meant for depths in range.
    pub fn padded(&self, size: Size) -> Size {
        Size {
            width: size.width.next_multiple_of(1 << (self.depth + self.depth_ho)),
            height: size.height.next_multiple_of(1 << self.depth),
        }
    }

    /// Numbers that the work slice must hold.
    pub fn work_needed(&self) -> u64 {
        let [luma, colour] = self.sizes().map(|size| self.padded(size).area());
        3 * (luma + 2 * colour)
    }

    pub fn matrix_count(&self) -> u64 {
        1 + self.depth_ho as u64 + 3 * self.depth as u64
    }

    pub fn slices(&self) -> u64 {
        self.across as u64 * self.down as u64
    }

    /// True for major version 3, which has the extended transform parameters.
    pub fn version_3(&self) -> bool {
        self.extended || self.wavelet != self.wavelet_ho || self.depth_ho != 0
    }

    /// Least d where 2^d is at least the excursion plus one.
    pub fn sample_depth(excursion: u32) -> u32 {
        unit::bits_for(excursion as u64 + 1)
    }

    pub fn has_default_matrix(&self) -> bool {
        quant::default_quant_matrix_full(
            self.wavelet as u64,
            self.wavelet_ho as u64,
            self.depth as u64,
            self.depth_ho as u64,
        )
        .is_some()
    }

    /// Bytes of parse information, picture number and transform parameters, with these as the
    /// numerator and denominator, or as prefix bytes and scaler.
    fn overhead(&self, matrix: &[u32], pair: [u64; 2]) -> u64 {
        let len = |v: u64| 2 * (v + 1).ilog2() as u64 + 1;
        let mut bits = len(self.wavelet as u64) + len(self.depth as u64);
        if self.version_3() {
            bits += 2;
            if self.wavelet != self.wavelet_ho {
                bits += len(self.wavelet_ho as u64);
            }
            if self.depth_ho != 0 {
                bits += len(self.depth_ho as u64);
            }
        }
        bits += len(self.across as u64) + len(self.down as u64) + len(pair[0]) + len(pair[1]) + 1;
        if self.custom {
            bits += matrix.iter().map(|&v| len(v as u64)).sum::<u64>();
        }
        HEAD + bits.div_ceil(8)
    }

    /// The low-delay numerator for this target.
    pub fn numerator(&self, matrix: &[u32], target: u64) -> u64 {
        let slices = self.slices();
        let next = |numerator: u64| {
            target.saturating_sub(self.overhead(matrix, [numerator, slices])).max(slices)
        };
        next(next(target))
    }

    /// A length that the unit has at least; in low delay it is the unit's length.
    fn least_length(&self, matrix: &[u32]) -> u64 {
        match (self.kind, self.rate) {
            (Kind::LowDelay, Rate::Bytes(target)) => {
                let numerator = self.numerator(matrix, target);
                self.overhead(matrix, [numerator, self.slices()]) + numerator
            }
            _ => {
                let pair = [self.prefix as u64, self.scaler as u64];
                self.overhead(matrix, pair) + self.slices() * (4 + self.prefix as u64)
            }
        }
    }
}

/// The first of refusals 1 to 13 that applies, or 0.
pub fn refusal(s: &Settings, matrix: &[u32], planes: &[&[u16]; 3], work_len: usize) -> u32 {
    let in_16_bits = |v: u32| (1..=65_535).contains(&v);
    if s.wavelet > 6 || s.wavelet_ho > 6 {
        return 1;
    }
    if s.depth_sum() > s.depth_limit() {
        return 2;
    }
    if !in_16_bits(s.across) || !in_16_bits(s.down) || s.slices() > 1_048_576 {
        return 3;
    }
    if !in_16_bits(s.scaler) || s.prefix > 255 {
        return 4;
    }
    if s.kind == Kind::LowDelay && !matches!(s.rate, Rate::Bytes(_)) {
        return 5;
    }
    if matches!(s.rate, Rate::Index(index) if index > 255) {
        return 6;
    }
    if matches!(s.rate, Rate::Bytes(bytes) if bytes > 1_073_741_824) {
        return 7;
    }
    let sides_and_excursions = [s.width, s.height, s.luma_excursion, s.colour_excursion];
    if s.format > 2 || s.mode > 1 || !sides_and_excursions.into_iter().all(in_16_bits) {
        return 8;
    }
    let [luma, colour] = s.sizes();
    if luma.area() == 0 || colour.area() == 0 {
        return 8;
    }
    if s.custom && (matrix.len() as u64 != s.matrix_count() || matrix.iter().any(|&v| v > 255)) {
        return 9;
    }
    if !s.custom && !s.has_default_matrix() {
        return 10;
    }
    if s.padded(luma).area() > 67_108_864 {
        return 11;
    }
    let areas = [luma.area(), colour.area(), colour.area()];
    if planes.iter().zip(areas).any(|(plane, area)| plane.len() as u64 != area) {
        return 12;
    }
    if (work_len as u64) < s.work_needed() {
        return 13;
    }
    0
}

/// The whole picture call, with a work slice and an output of these lengths. An error says
/// where the Rust does not do what document 01 says of it.
pub fn encode(
    s: &Settings,
    matrix: &[u32],
    planes: &[&[u16]; 3],
    work_len: usize,
    output_len: usize,
) -> Result<Outcome, String> {
    let refused = |answer| Ok(Outcome { answer, ..Outcome::default() });
    let answer = refusal(s, matrix, planes, work_len);
    if answer != 0 {
        return refused(answer);
    }
    let output_len = (output_len as u64).min(u32::MAX as u64);
    let least = s.least_length(matrix);
    if least > output_len.max(RUN_LIMIT) {
        return refused(14);
    }
    let message = |e| format!("the Rust refuses: {e:?}");
    let mut encoder = encoder(s, matrix).map_err(message)?;
    encoder.continue_sequence(s.picture_number, s.previous_length);
    let input = PictureInput::new(planes[0], planes[1], planes[2]);
    let bytes = encoder.encode_picture(&input).map_err(message)?;
    let read = unit::read(&bytes, s.version_3())?;
    check(s, matrix, &bytes, &read)?;
    if bytes.len() as u64 > output_len {
        return refused(14);
    }
    let indices: Vec<u64> = read.slices.iter().map(|slice| slice.index as u64).collect();
    let quantised = encoder.quantised(&input, &indices).map_err(message)?;
    let cut = cut::count(&bytes, &read, &quantised)?;
    let scaler = match s.kind {
        Kind::LowDelay => s.scaler as u64,
        Kind::HighQuality => read.pair[1],
    };
    Ok(Outcome { answer: 0, unit: bytes, cut, scaler })
}

/// The Rust's encoder for these settings.
pub fn encoder(s: &Settings, matrix: &[u32]) -> vc2::Result<SequenceEncoder> {
    let format = match s.format {
        0 => ColorDiffFormat::Yuv444,
        1 => ColorDiffFormat::Yuv422,
        _ => ColorDiffFormat::Yuv420,
    };
    let mut config = EncoderConfig::new(s.width as u64, s.height as u64, format, 8);
    let video = &mut config.video_parameters;
    video.luma_excursion = s.luma_excursion as u64;
    video.color_diff_excursion = s.colour_excursion as u64;
    // No preset signal range has these offsets, so the range alone never asks for version 3.
    // Colour primaries 4 do.
    video.luma_offset = 1;
    video.color_diff_offset = 1;
    if s.extended {
        video.color_primaries_index = 4;
    }
    config.picture_coding_mode = s.mode as u64;
    config.kind = match s.kind {
        Kind::LowDelay => PictureKind::LowDelay,
        Kind::HighQuality => PictureKind::HighQuality,
    };
    config.wavelet_index = s.wavelet as u64;
    config.wavelet_index_ho = s.wavelet_ho as u64;
    config.dwt_depth = s.depth as u64;
    config.dwt_depth_ho = s.depth_ho as u64;
    config.slices_x = s.across as u64;
    config.slices_y = s.down as u64;
    config.slice_prefix_bytes = s.prefix as u64;
    config.slice_size_scaler = s.scaler as u64;
    config.rate = match s.rate {
        Rate::Lossless => RateControl::Lossless,
        Rate::Index(index) => RateControl::FixedQuantIndex(index),
        Rate::Bytes(bytes) => RateControl::PictureBytes(bytes),
    };
    config.quant_matrix = s.custom.then(|| levels(s, matrix));
    SequenceEncoder::new(config)
}

/// A custom matrix in subband order, as the Rust takes it.
fn levels(s: &Settings, matrix: &[u32]) -> Vec<MatrixLevel> {
    let (flat, triples) = matrix.split_at(1 + s.depth_ho as usize);
    let mut levels = vec![MatrixLevel::Ll(flat[0] as i64)];
    levels.extend(flat[1..].iter().map(|&v| MatrixLevel::H(v as i64)));
    levels.extend(triples.chunks(3).map(|t| MatrixLevel::Ac {
        hl: t[0] as i64,
        lh: t[1] as i64,
        hh: t[2] as i64,
    }));
    levels
}

/// Every field of the unit's head is the call's, and lengths are document 01's.
fn check(s: &Settings, matrix: &[u32], bytes: &[u8], read: &Unit) -> Result<(), String> {
    let mut wrong = Vec::new();
    let mut expect = |what: &str, got: u64, wanted: u64| {
        if got != wanted {
            wrong.push(format!("{what} is {got}, not {wanted}"));
        }
    };
    let code = if s.kind == Kind::LowDelay { 0xC8 } else { 0xE8 };
    expect("parse code", read.code as u64, code);
    expect("next length", read.next as u64, bytes.len() as u64);
    expect("previous length", read.previous as u64, s.previous_length as u64);
    expect("picture number", read.number as u64, s.picture_number as u64);
    expect("wavelet", read.wavelet, s.wavelet as u64);
    expect("horizontal-only wavelet", read.wavelet_ho, s.wavelet_ho as u64);
    expect("depth", read.depth, s.depth as u64);
    expect("horizontal-only depth", read.depth_ho, s.depth_ho as u64);
    expect("slices across", read.across, s.across as u64);
    expect("slices down", read.down, s.down as u64);
    expect("custom matrix", read.matrix.is_some() as u64, s.custom as u64);
    for (&got, &wanted) in read.matrix.iter().flatten().zip(matrix) {
        expect("matrix value", got, wanted as u64);
    }
    match s.rate {
        Rate::Bytes(target) if s.kind == Kind::LowDelay => {
            expect("numerator", read.pair[0], s.numerator(matrix, target));
            expect("denominator", read.pair[1], s.slices());
            expect("length", bytes.len() as u64, s.least_length(matrix));
        }
        _ => {
            expect("prefix bytes", read.pair[0], s.prefix as u64);
            expect("raised scaler", (read.pair[1] >= s.scaler as u64) as u64, 1);
        }
    }
    if wrong.is_empty() { Ok(()) } else { Err(format!("unit: {}", wrong.join(", "))) }
}
