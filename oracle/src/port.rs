//! The entry points of crate `exports`.

use crate::call::Call;
use crate::lent::Lent;
use crate::picture::Outcome;
use std::time::{Duration, Instant};

unsafe extern "C" {
    safe fn vc2_uint_code_len(v: u32) -> u32;
    safe fn vc2_sint_code_len(v: i64) -> u32;
    fn vc2_quant_factor(index: u32, value: *mut i64) -> u32;
    fn vc2_quant_offset(index: u32, value: *mut i64) -> u32;
    fn vc2_forward_quant(coeff: i64, index: u32, value: *mut i64) -> u32;
    fn vc2_inverse_quant(number: i64, index: u32, value: *mut i64) -> u32;
    fn vc2_oned_analysis(row: *mut i64, row_len: usize, index: u32) -> u32;
    pub fn vc2_encode_picture(
        settings: *const u32,
        settings_len: usize,
        matrix: *const u32,
        matrix_len: usize,
        y: *const u16,
        y_len: usize,
        c1: *const u16,
        c1_len: usize,
        c2: *const u16,
        c2_len: usize,
        work: *mut i64,
        work_len: usize,
        out: *mut u8,
        out_len: usize,
        written: *mut u32,
        cut_slices: *mut u32,
        slice_size_scaler: *mut u32,
    ) -> u32;
}

pub fn uint_code_len(v: u32) -> u64 {
    vc2_uint_code_len(v) as u64
}

pub fn sint_code_len(v: i64) -> u64 {
    vc2_sint_code_len(v) as u64
}

/// A quantiser call.
#[derive(Debug, Clone, Copy)]
pub enum Quant {
    Factor,
    Offset,
    Forward(i64),
    Inverse(i64),
}

/// What a quantiser call at this index has otherwise than it must: its answer, and its value or
/// nothing if it is refused.
pub fn quant(call: Quant, index: u32, answer: u32, value: Option<i64>) -> Vec<String> {
    let mut left = Lent::<i64>::filled(index as u64, 1);
    let at = left.start();
    // SAFETY: `at` is where a number stands that nothing else refers to.
    let got = unsafe {
        match call {
            Quant::Factor => vc2_quant_factor(index, at),
            Quant::Offset => vc2_quant_offset(index, at),
            Quant::Forward(coeff) => vc2_forward_quant(coeff, index, at),
            Quant::Inverse(number) => vc2_inverse_quant(number, index, at),
        }
    };
    let mut found = answers(got, answer);
    found.extend(left.unlike("value", |i| value.unwrap_or(left.old(i))));
    found
}

/// What row analysis has otherwise than it must: its answer and the row after it.
pub fn row(wavelet: u32, before: &[i64], answer: u32, after: &[i64]) -> Vec<String> {
    let mut row = Lent::holding(before.len() as u64, before);
    // SAFETY: so many numbers stand there, and nothing else refers to them.
    let got = unsafe { vc2_oned_analysis(row.start(), row.len(), wavelet) };
    let mut found = answers(got, answer);
    found.extend(row.unlike("row", |i| after[i]));
    found
}

fn answers(got: u32, wanted: u32) -> Vec<String> {
    if got == wanted { Vec::new() } else { vec![format!("answer {got}, not {wanted}")] }
}

/// What a picture call has otherwise than it must, and how long it took.
pub fn picture(call: &Call, wanted: &Outcome, salt: u64) -> (Vec<String>, Duration) {
    let mut words = Lent::holding(salt, &call.words);
    let mut matrix = Lent::holding(salt + 1, &call.matrix);
    let mut planes = [0, 1, 2].map(|i| Lent::holding(salt + 2 + i as u64, &call.planes[i]));
    let mut work = Lent::<i64>::filled(salt + 5, call.work);
    let mut output = Lent::<u8>::filled(salt + 6, call.output);
    let mut values = [7, 8, 9].map(|i| Lent::<u32>::filled(salt + i, 1));
    let [y, c1, c2] = &mut planes;
    let [written, cut, scaler] = &mut values;
    let begin = Instant::now();
    // SAFETY: each pointer is to so many elements, or to one, and nothing else refers to them.
    let answer = unsafe {
        vc2_encode_picture(
            words.start(),
            words.len(),
            matrix.start(),
            matrix.len(),
            y.start(),
            y.len(),
            c1.start(),
            c1.len(),
            c2.start(),
            c2.len(),
            work.start(),
            work.len(),
            output.start(),
            output.len(),
            written.start(),
            cut.start(),
            scaler.start(),
        )
    };
    let time = begin.elapsed();

    let mut found = answers(answer, wanted.answer);
    let accepted = wanted.answer == 0;
    let zeros = accepted || wanted.answer == 14;
    let told = [wanted.unit.len() as u64, wanted.cut, wanted.scaler].map(|v| v as u32);
    for (i, name) in ["written", "cut slices", "scaler"].into_iter().enumerate() {
        let value = &values[i];
        found.extend(value.unlike(name, |place| if accepted { told[i] } else { value.old(place) }));
    }
    found.extend(output.unlike("output", |place| match wanted.unit.get(place) {
        Some(&byte) => byte,
        None if wanted.answer == 14 => 0,
        None => output.old(place),
    }));
    found.extend(work.unlike("work", |place| if zeros { 0 } else { work.old(place) }));
    found.extend(words.unlike("settings", |i| call.words[i]));
    found.extend(matrix.unlike("matrix", |i| call.matrix[i]));
    for (i, name) in ["y", "c1", "c2"].into_iter().enumerate() {
        found.extend(planes[i].unlike(name, |place| call.planes[i][place]));
    }
    (found, time)
}
