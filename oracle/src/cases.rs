//! Recorded cases of code words, quantiser, rows and transforms, answered by the Rust.
//!
//! The edge cases come first and do not depend on the seed; random ones follow up to the count.

use crate::random::Random;
use crate::recorder::{Recorder, packed};
use std::io::{self, Write};
use vc2::bitio::{BitWriter, sint_code_len, uint_code_len};
use vc2::quant::{self, MatrixLevel};
use vc2::transform::{self, TransformParameters};
use vc2::wavelet;

const UINT_CODE_LEN: u64 = 1;
const SINT_CODE_LEN: u64 = 2;
const PUT_UINT: u64 = 3;
const PUT_SINT: u64 = 4;
const PUT_NBITS: u64 = 5;
const QUANT_FACTOR: u64 = 16;
const QUANT_OFFSET: u64 = 17;
const FORWARD_QUANT: u64 = 18;
const INVERSE_QUANT: u64 = 19;
const DEFAULT_MATRIX: u64 = 20;
const ONED_ANALYSIS: u64 = 32;
const DWT: u64 = 33;
const LONG_ROW: u64 = 34;

/// Document 01's answers for the calls below the picture.
const WAVELET_REFUSED: u64 = 1;
const INDEX_REFUSED: u64 = 6;
const ROW_REFUSED: u64 = 15;
pub const LONGEST_ROW: usize = 65_536;

/// 0, the powers of two below 2^32 and their neighbours.
pub fn unsigned_edges() -> Vec<u32> {
    let mut edges: Vec<u64> = (0..=32).flat_map(|k| [(1 << k) - 1, 1 << k, (1 << k) + 1]).collect();
    edges.retain(|&v| v <= u32::MAX as u64);
    edges.sort();
    edges.dedup();
    edges.into_iter().map(|v| v as u32).collect()
}

/// 0, the powers of two and their neighbours with both signs, the least and the largest number.
pub fn signed_edges() -> Vec<i64> {
    let mut edges: Vec<i128> = (0..=63)
        .flat_map(|k| [(1i128 << k) - 1, 1 << k, (1 << k) + 1])
        .flat_map(|v| [v, -v])
        .collect();
    edges.retain(|&v| i64::MIN as i128 <= v && v <= i64::MAX as i128);
    edges.sort();
    edges.dedup();
    edges.into_iter().map(|v| v as i64).collect()
}

// Code words.

/// What `put` writes after `ones` one-bits: the count of all bits and the packed bytes.
fn written(ones: u64, put: impl FnOnce(&mut BitWriter)) -> Vec<u64> {
    let mut w = BitWriter::new();
    for _ in 0..ones {
        w.put_bit(1);
    }
    put(&mut w);
    let mut words = vec![w.bit_len()];
    words.extend(packed(&w.into_bytes()));
    words
}

fn put_uint<W: Write>(rec: &mut Recorder<W>, ones: u64, v: u32) -> io::Result<()> {
    let mut payload = vec![ones, v as u64];
    payload.extend(written(ones, |w| w.put_uint(v as u64)));
    rec.case(PUT_UINT, &payload)
}

fn put_sint<W: Write>(rec: &mut Recorder<W>, ones: u64, v: i64) -> io::Result<()> {
    let mut payload = vec![ones, v as u64];
    payload.extend(written(ones, |w| w.put_sint(v)));
    rec.case(PUT_SINT, &payload)
}

/// `v` may have bits above the `n` that are written.
fn put_nbits<W: Write>(rec: &mut Recorder<W>, ones: u64, n: u32, v: u64) -> io::Result<()> {
    let mut payload = vec![ones, n as u64, v];
    payload.extend(written(ones, |w| w.put_nbits(v, n)));
    rec.case(PUT_NBITS, &payload)
}

pub fn words<W: Write>(rec: &mut Recorder<W>, rng: &mut Random, count: u64) -> io::Result<()> {
    for (i, v) in unsigned_edges().into_iter().enumerate() {
        rec.case(UINT_CODE_LEN, &[v as u64, uint_code_len(v as u64)])?;
        put_uint(rec, i as u64 % 8, v)?;
    }
    for (i, v) in signed_edges().into_iter().enumerate() {
        rec.case(SINT_CODE_LEN, &[v as u64, sint_code_len(v)])?;
        put_sint(rec, i as u64 % 8, v)?;
    }
    for n in 0..=64u32 {
        let all = if n == 0 { 0 } else { u64::MAX >> (64 - n) };
        for v in [0, 1, all, all ^ (all >> 1), u64::MAX] {
            put_nbits(rec, (n as u64 + v) % 8, n, v)?;
        }
    }
    while rec.total() < count {
        let ones = rng.below(8);
        match rng.below(5) {
            0 => {
                let v = rng.sized(32);
                rec.case(UINT_CODE_LEN, &[v, uint_code_len(v)])?;
            }
            1 => {
                let v = rng.signed(63);
                rec.case(SINT_CODE_LEN, &[v as u64, sint_code_len(v)])?;
            }
            2 => put_uint(rec, ones, rng.sized(32) as u32)?,
            3 => put_sint(rec, ones, rng.signed(63))?,
            _ => put_nbits(rec, ones, rng.below(65) as u32, rng.sized(64))?,
        }
    }
    Ok(())
}

// Quantiser.

/// A quantiser call's answer and value: indices above 255 are refused.
fn answered(index: u32, value: impl FnOnce(u64) -> i64) -> [u64; 2] {
    if index > 255 { [INDEX_REFUSED, 0] } else { [0, value(index as u64) as u64] }
}

fn forward<W: Write>(rec: &mut Recorder<W>, coefficient: i64, index: u32) -> io::Result<()> {
    let [answer, value] = answered(index, |i| quant::forward_quant(coefficient, i));
    rec.case(FORWARD_QUANT, &[coefficient as u64, index as u64, answer, value])
}

fn inverse<W: Write>(rec: &mut Recorder<W>, number: i64, index: u32) -> io::Result<()> {
    let [answer, value] = answered(index, |i| quant::inverse_quant(number, i));
    rec.case(INVERSE_QUANT, &[number as u64, index as u64, answer, value])
}

/// A coefficient next to a step of the quantiser at this index.
pub fn near_step(rng: &mut Random, index: u32) -> i64 {
    let factor = quant::quant_factor(index.min(255) as u64) as i128;
    let most = (1i128 << 65) / factor;
    let steps = (rng.sized(63) as i128) % (most + 1);
    let size = (steps * factor / 4 + rng.below(3) as i128 - 1).clamp(0, 1 << 63);
    let signed = if rng.one_in(2) { -size } else { size.min(i64::MAX as i128) };
    signed as i64
}

/// A number next to where rebuilding at this index reaches a cap.
pub fn near_cap(rng: &mut Random, index: u32) -> i64 {
    let number = i64::MAX / quant::quant_factor(index.min(255) as u64) + rng.below(5) as i64 - 2;
    if rng.one_in(2) { -number } else { number }
}

/// Annex D's matrix as the Rust has it, in subband order; empty where there is none.
pub fn default_matrix(wavelet: u32, wavelet_ho: u32, depth: u32, depth_ho: u32) -> Vec<u64> {
    let levels = quant::default_quant_matrix_full(
        wavelet as u64,
        wavelet_ho as u64,
        depth as u64,
        depth_ho as u64,
    );
    let mut values = Vec::new();
    for level in levels.unwrap_or_default() {
        match level {
            MatrixLevel::Ll(v) | MatrixLevel::H(v) => values.push(v as u64),
            MatrixLevel::Ac { hl, lh, hh } => values.extend([hl as u64, lh as u64, hh as u64]),
        }
    }
    values
}

pub fn quantiser<W: Write>(rec: &mut Recorder<W>, rng: &mut Random, count: u64) -> io::Result<()> {
    let refused = [256, 257, u32::MAX];
    for index in (0..256).chain(refused) {
        let [answer, value] = answered(index, quant::quant_factor);
        rec.case(QUANT_FACTOR, &[index as u64, answer, value])?;
        let [answer, value] = answered(index, quant::quant_offset);
        rec.case(QUANT_OFFSET, &[index as u64, answer, value])?;
        for edge in [0, 1, -1, i64::MIN, i64::MAX] {
            forward(rec, edge, index)?;
            inverse(rec, edge, index)?;
        }
    }
    // Each edge meets one index of each quarter of the range and index 0.
    for (i, edge) in signed_edges().into_iter().enumerate() {
        let index = (i as u32 * 37) % 64 + (i as u32 % 4) * 64;
        forward(rec, edge, index)?;
        inverse(rec, edge, index)?;
        forward(rec, edge, 0)?;
    }
    for wavelet in 0..=6 {
        for wavelet_ho in 0..=6 {
            for depth in 0..=5 {
                for depth_ho in 0..=5.min(6 - depth) {
                    let values = default_matrix(wavelet, wavelet_ho, depth, depth_ho);
                    let mut payload: Vec<u64> =
                        [wavelet, wavelet_ho, depth, depth_ho].map(u64::from).into();
                    payload.push(values.len() as u64);
                    payload.extend(values);
                    rec.case(DEFAULT_MATRIX, &payload)?;
                }
            }
        }
    }
    let mut index = 0;
    while rec.total() < count {
        index = (index + 1) % 256;
        let (coefficient, number) = match rng.below(3) {
            0 => (rng.signed(63), rng.signed(63)),
            1 => (near_step(rng, index), near_cap(rng, index)),
            _ => (rng.signed(51), rng.signed(20)),
        };
        forward(rec, coefficient, index)?;
        inverse(rec, number, index)?;
    }
    Ok(())
}

// Rows.

/// What row analysis answers, and the row after it.
pub fn analysed(wavelet: u32, row: &[i64]) -> (u64, Vec<i64>) {
    let mut after = row.to_vec();
    match wavelet::wavelet_filter(wavelet as u64) {
        None => (WAVELET_REFUSED, after),
        Some(_) if row.len() > LONGEST_ROW => (ROW_REFUSED, after),
        Some(filter) => {
            wavelet::oned_analysis(&mut after, &filter);
            (0, after)
        }
    }
}

fn row_case<W: Write>(rec: &mut Recorder<W>, wavelet: u32, row: &[i64]) -> io::Result<()> {
    let (answer, after) = analysed(wavelet, row);
    let mut payload = vec![wavelet as u64, answer, row.len() as u64];
    payload.extend(row.iter().chain(&after).map(|&v| v as u64));
    rec.case(ONED_ANALYSIS, &payload)
}

/// Rows in several manners: small numbers, samples, numbers of all sizes, only extreme ones,
/// and edges.
pub fn random_row(rng: &mut Random, manner: u64, length: usize) -> Vec<i64> {
    let edges = signed_edges();
    (0..length)
        .map(|_| match manner {
            0 => rng.below(17) as i64 - 8,
            1 => rng.below(65_536) as i64 - 32_768,
            2 => rng.signed(63),
            3 => rng.next() as i64,
            4 => rng.pick(&[i64::MIN, i64::MAX, i64::MIN + 1, i64::MAX - 1]),
            _ => rng.pick(&edges),
        })
        .collect()
}

pub const ROW_MANNERS: u64 = 6;
const LONG_LENGTHS: [u64; 4] = [64, 65, 127, 300];

pub fn rows<W: Write>(rec: &mut Recorder<W>, rng: &mut Random, count: u64) -> io::Result<()> {
    for wavelet in 0..=6 {
        for length in 0..=40 {
            row_case(rec, wavelet, &vec![i64::MIN; length])?;
            row_case(rec, wavelet, &vec![i64::MAX; length])?;
            let manners = if length == 0 { 0..1 } else { 0..ROW_MANNERS };
            for manner in manners {
                row_case(rec, wavelet, &random_row(rng, manner, length))?;
            }
        }
        for length in LONG_LENGTHS {
            let manner = rng.below(ROW_MANNERS);
            row_case(rec, wavelet, &random_row(rng, manner, length as usize))?;
        }
    }
    for wavelet in [7, 8, 255, 256, u32::MAX] {
        for length in 0..4 {
            row_case(rec, wavelet, &random_row(rng, 3, length))?;
        }
    }
    for wavelet in [0, 1, 2, 3, 4, 5, 6, 7, u32::MAX] {
        for length in [LONGEST_ROW, LONGEST_ROW + 1] {
            let (answer, _) = analysed(wavelet, &vec![0; length]);
            rec.case(LONG_ROW, &[wavelet as u64, length as u64, answer])?;
        }
    }
    while rec.total() < count {
        let manner = rng.below(ROW_MANNERS);
        let length = rng.range(1, 40) as usize;
        row_case(rec, rng.below(7) as u32, &random_row(rng, manner, length))?;
    }
    Ok(())
}

// Transforms.

/// The settings that analysis of one component depends on.
struct Shape {
    wavelet: u32,
    wavelet_ho: u32,
    depth: u32,
    depth_ho: u32,
    width: u32,
    height: u32,
}

impl Shape {
    fn parameters(&self) -> TransformParameters {
        TransformParameters {
            wavelet_index: self.wavelet as u64,
            dwt_depth: self.depth as u64,
            wavelet_index_ho: self.wavelet_ho as u64,
            dwt_depth_ho: self.depth_ho as u64,
            asym_transform_index_flag: self.wavelet != self.wavelet_ho,
            asym_transform_flag: self.depth_ho != 0,
            slices_x: 1,
            slices_y: 1,
            slice_bytes_numerator: 1,
            slice_bytes_denominator: 1,
            slice_prefix_bytes: 0,
            slice_size_scaler: 1,
            quant_matrix: Vec::new(),
        }
    }

    fn padded_area(&self) -> u64 {
        let (across, down) = (1u64 << (self.depth + self.depth_ho), 1u64 << self.depth);
        (self.width as u64).next_multiple_of(across) * (self.height as u64).next_multiple_of(down)
    }
}

fn dwt_case<W: Write>(
    rec: &mut Recorder<W>,
    shape: &Shape,
    bits: u32,
    samples: &[u16],
) -> io::Result<()> {
    let tp = shape.parameters();
    let (w, h) = (shape.width as u64, shape.height as u64);
    let plane = transform::pad_component(samples, w, h, bits, &tp);
    let coefficients = transform::dwt(&plane, w, h, &tp).expect("the wavelets are below 7");
    let mut payload: Vec<u64> = [
        shape.wavelet,
        shape.wavelet_ho,
        shape.depth,
        shape.depth_ho,
        shape.width,
        shape.height,
        bits,
    ]
    .map(u64::from)
    .into();
    payload.extend(samples.iter().map(|&v| v as u64));
    for band in &coefficients.bands {
        payload.extend(band.data.iter().map(|&v| v as u64));
    }
    rec.case(DWT, &payload)
}

/// Samples in several manners: equal, within the depth, any, only extreme ones, a ramp.
fn random_samples(rng: &mut Random, bits: u32, width: u32, height: u32) -> Vec<u16> {
    let manner = rng.below(5);
    let equal = rng.next() as u16;
    let (step_x, step_y) = (rng.below(9), rng.below(9));
    (0..height as u64)
        .flat_map(|y| (0..width as u64).map(move |x| (x, y)))
        .map(|(x, y)| match manner {
            0 => equal,
            1 => (rng.next() & ((1 << bits) - 1)) as u16,
            2 => rng.next() as u16,
            3 => rng.pick(&[0, u16::MAX]),
            _ => (equal as u64 + x * step_x + y * step_y) as u16,
        })
        .collect()
}

fn random_dwt<W: Write>(rec: &mut Recorder<W>, rng: &mut Random, shape: &Shape) -> io::Result<()> {
    let bits = rng.range(1, 16) as u32;
    let samples = random_samples(rng, bits, shape.width, shape.height);
    dwt_case(rec, shape, bits, &samples)
}

/// The largest padded component among the usual cases.
const USUAL_AREA: u64 = 144;

pub fn dwts<W: Write>(rec: &mut Recorder<W>, rng: &mut Random, count: u64) -> io::Result<()> {
    // Every filter with both extreme planes at each depth, then every pair of filters.
    for wavelet in 0..=6 {
        for (depth, depth_ho) in [(0, 0), (1, 0), (2, 0), (0, 1), (1, 1), (0, 3)] {
            let side = 1 << depth;
            let shape = Shape {
                wavelet,
                wavelet_ho: wavelet,
                depth,
                depth_ho,
                width: side << depth_ho,
                height: side,
            };
            let area = (shape.width * shape.height) as usize;
            dwt_case(rec, &shape, 16, &vec![0; area])?;
            dwt_case(rec, &shape, 1, &vec![u16::MAX; area])?;
        }
    }
    for wavelet in 0..=6 {
        for wavelet_ho in 0..=6 {
            let shape = Shape { wavelet, wavelet_ho, depth: 1, depth_ho: 1, width: 7, height: 5 };
            random_dwt(rec, rng, &shape)?;
        }
    }
    // Every pair of depths that sum to 5, on small sides.
    for depth in 0..=4 {
        let (wavelet, wavelet_ho) = (rng.below(7) as u32, rng.below(7) as u32);
        let shape = Shape { wavelet, wavelet_ho, depth, depth_ho: 5 - depth, width: 3, height: 2 };
        random_dwt(rec, rng, &shape)?;
    }
    let deepest = Shape { wavelet: 6, wavelet_ho: 6, depth: 5, depth_ho: 0, width: 2, height: 3 };
    random_dwt(rec, rng, &deepest)?;
    while rec.total() < count {
        let total = rng.pick(&[0, 1, 1, 1, 2, 2, 2, 3, 3, 4]);
        let depth_ho = if rng.one_in(2) { 0 } else { rng.range(0, total) };
        let wavelet = rng.below(7) as u32;
        let shape = Shape {
            wavelet,
            wavelet_ho: if rng.one_in(2) { wavelet } else { rng.below(7) as u32 },
            depth: (total - depth_ho) as u32,
            depth_ho: depth_ho as u32,
            width: rng.range(1, 20) as u32,
            height: rng.range(1, 16) as u32,
        };
        let limit = if total == 4 { 256 } else { USUAL_AREA };
        if shape.padded_area() <= limit {
            random_dwt(rec, rng, &shape)?;
        }
    }
    Ok(())
}

// Single answers.

fn line(values: impl IntoIterator<Item = i64>) -> String {
    values.into_iter().map(|v| v.to_string()).collect::<Vec<_>>().join(" ")
}

/// The Rust's answer to one call, or nothing if there is no such call.
pub fn single(name: &str, args: &[i64]) -> Option<String> {
    Some(match (name, args) {
        ("uint_code_len", &[v]) => uint_code_len(v as u64).to_string(),
        ("sint_code_len", &[v]) => sint_code_len(v).to_string(),
        ("quant_factor", &[index]) => quant::quant_factor(index as u64).to_string(),
        ("quant_offset", &[index]) => quant::quant_offset(index as u64).to_string(),
        ("forward_quant", &[v, index]) => quant::forward_quant(v, index as u64).to_string(),
        ("inverse_quant", &[v, index]) => quant::inverse_quant(v, index as u64).to_string(),
        ("oned_analysis", &[wavelet, ref row @ ..]) => {
            let (answer, after) = analysed(wavelet as u32, row);
            line(std::iter::once(answer as i64).chain(after))
        }
        ("default_matrix", &[w, w_ho, d, d_ho]) => {
            let values = default_matrix(w as u32, w_ho as u32, d as u32, d_ho as u32);
            line(values.into_iter().map(|v| v as i64))
        }
        _ => return None,
    })
}
