//! Random picture calls beyond what a job can hold: larger pictures, deeper transforms on small
//! ones, all 32 bits of a word, many slices, lent slices of other lengths.

use crate::call::Call;
use crate::deep;
use crate::generate::{excursion, matrix, samples};
use crate::jobs::*;
use crate::picture::{Kind, Settings};
use crate::random::Random;

/// A unit of the Rust is kept below about this many bytes.
const MOST_BYTES: u64 = 1 << 24;
/// Bytes in the output of calls with many slices.
const MANY_OUTPUT: usize = 6 << 20;

/// A random call; none has more than a few thousand slices.
pub fn nth(rng: &mut Random) -> Call {
    match rng.below(32) {
        26..=31 => deep(rng),
        0..=3 => broken(rng),
        4 => thousands(rng),
        5..=7 => near_its_length(rng),
        24..=25 => raised(rng),
        8..=13 => small(rng),
        _ => general(rng),
    }
}

// Parts of a call.

/// Wavelet, horizontal-only wavelet, depth, horizontal-only depth.
type Transform = [u32; 4];

/// Depths that sum to at most 5, and one time in ten to 6, 7 or 8.
fn any_transform(rng: &mut Random) -> Transform {
    if rng.one_in(10) {
        return deep_transform(rng);
    }
    let wavelet = rng.below(7) as u32;
    let wavelet_ho = if rng.one_in(2) { wavelet } else { rng.below(7) as u32 };
    let total = rng.range(0, 5) as u32;
    let depth_ho = if rng.one_in(2) { 0 } else { rng.range(0, total as u64) as u32 };
    [wavelet, wavelet_ho, total - depth_ho, depth_ho]
}

/// Depths that sum to 6, 7 or 8: document 02, (iii).
fn deep_transform(rng: &mut Random) -> Transform {
    let [wavelet, wavelet_ho] = [rng.pick(&deep::WAVELETS), rng.pick(&deep::WAVELETS)];
    let total = rng.range(6, 8) as u32;
    let depth_ho = if rng.one_in(3) { 0 } else { rng.range(0, total as u64) as u32 };
    [wavelet, wavelet_ho, total - depth_ho, depth_ho]
}

/// Wavelets, depths and slices that are all in range, for a picture of such sides.
fn shape(
    rng: &mut Random,
    transform: fn(&mut Random) -> Transform,
    sides: impl Fn(&mut Random) -> [u64; 2],
    most_area: u64,
) -> Job {
    let mut job = Job { settings: [0; SETTINGS], matrix: Vec::new(), planes: Default::default() };
    loop {
        let s = &mut job.settings;
        s[KIND] = rng.below(2) as u32;
        [s[WAVELET], s[WAVELET_HO], s[DEPTH], s[DEPTH_HO]] = transform(rng);
        [s[WIDTH], s[HEIGHT]] = sides(rng).map(|side| side as u32);
        s[FORMAT] = rng.below(3) as u32;
        s[MODE] = rng.one_in(4) as u32;
        let s = job.settings();
        let [luma, colour] = s.sizes();
        if luma.area() > 0 && colour.area() > 0 && s.padded(luma).area() <= most_area {
            break;
        }
    }
    let s = &mut job.settings;
    s[ACROSS] = rng.pick(&[1, 1, 1, 2, 2, 3, 4, 5, 7, 9, 16]);
    s[DOWN] = rng.pick(&[1, 1, 1, 2, 2, 3, 4, 6, 11]);
    s[PREFIX] = rng.pick(&[0, 0, 0, 1, 2, 5, 17, 255]);
    s[SCALER] = match rng.below(3) {
        0 => rng.sized(16).max(1) as u32,
        1 => rng.range(1, 8) as u32,
        _ => 1,
    };
    s[LUMA_EXCURSION] = excursion(rng);
    s[COLOUR_EXCURSION] = if rng.one_in(2) { s[LUMA_EXCURSION] } else { excursion(rng) };
    s[EXTENDED] = rng.one_in(3) as u32;
    s[PICTURE_NUMBER] = rng.sized(32) as u32;
    s[PREVIOUS_LENGTH] = rng.sized(32) as u32;
    job
}

/// Gives the job a matrix, its planes and a rate.
fn fill(rng: &mut Random, job: &mut Job) {
    job.settings[CUSTOM] = (rng.one_in(2) || !job.settings().has_default_matrix()) as u32;
    let count = match job.settings[CUSTOM] {
        1 => job.settings().matrix_count(),
        // A default matrix stands whatever is lent beside it.
        _ if rng.one_in(8) => rng.below(20),
        _ => 0,
    };
    job.matrix = matrix(rng, count);
    let [luma, colour] = job.settings().sizes();
    let [e, f] = [job.settings[LUMA_EXCURSION], job.settings[COLOUR_EXCURSION]];
    for (i, (size, excursion)) in [(luma, e), (colour, f), (colour, f)].into_iter().enumerate() {
        job.planes[i] = samples(rng, excursion, size.width, size.height);
    }
    let s = job.settings();
    let rate = if s.kind == Kind::LowDelay { 2 } else { rng.below(3) as u32 };
    job.settings[RATE] = rate;
    job.settings[RATE_NUMBER] = match rate {
        // The rate number of lossless is not looked at.
        0 if rng.one_in(4) => rng.sized(32) as u32,
        0 => 0,
        1 if rng.one_in(2) => rng.below(256) as u32,
        1 => rng.below(60) as u32,
        _ => target(rng, &s) as u32,
    };
    let scaler = job.settings[SCALER] as u64;
    let parts = 3 * s.slices().min(s.work_needed());
    if parts * scaler > MOST_BYTES {
        job.settings[SCALER] = (MOST_BYTES / parts).max(1) as u32;
    }
}

fn target(rng: &mut Random, s: &Settings) -> u64 {
    let slices = s.slices();
    let numbers = s.work_needed() / 3;
    match rng.below(9) {
        0 => 0,
        1 => rng.range(1, 60),
        2 if s.kind == Kind::HighQuality => rng.pick(&[1 << 20, 1 << 28, 1 << 30]),
        2 | 3 => rng.below(4 * numbers + 40),
        4 => 40 + rng.below(numbers / 2 + 1),
        5 => 25 + (4 + s.prefix as u64) * slices + rng.below(2 * slices),
        _ => 25 + slices * (1 + rng.below(12)) + rng.below(slices),
    }
}

/// A call on enough work and an output of some length.
fn lent(rng: &mut Random, job: &Job) -> Call {
    let needed = job.settings().work_needed() as usize;
    let work = needed + rng.pick(&[0, 0, 1, 2, 100]);
    let output = rng.pick(&[OUTPUT, 1 << 14, 1 << 16, 1 << 18]);
    Call::of(job, work, output)
}

// Calls.

fn general(rng: &mut Random) -> Call {
    let most = rng.pick(&[12, 12, 30, 30, 70]);
    let sides = |rng: &mut Random| [rng.range(1, most), rng.range(1, most)];
    let mut job = shape(rng, any_transform, sides, 6_000);
    fill(rng, &mut job);
    lent(rng, &job)
}

/// One side of 1 to 3.
fn small(rng: &mut Random) -> Call {
    let long = rng.pick(&[3, 3, 3, 20, 90]);
    let sides = |rng: &mut Random| {
        let mut sides = [rng.range(1, 3), rng.range(1, long)];
        if rng.one_in(2) {
            sides.swap(0, 1);
        }
        sides
    };
    let mut job = shape(rng, any_transform, sides, 6_000);
    fill(rng, &mut job);
    lent(rng, &job)
}

/// Depths that sum to 6, 7 or 8; one call in 20 has another wavelet or one level more.
fn deep(rng: &mut Random) -> Call {
    let most = rng.pick(&[3, 12, 70, 200, 300]);
    let sides = |rng: &mut Random| [rng.range(1, most), rng.range(1, most)];
    let mut job = shape(rng, deep_transform, sides, 1 << 16);
    match rng.below(40) {
        0 => job.settings[rng.pick(&[WAVELET, WAVELET_HO])] = rng.below(7) as u32,
        1 => job.settings[rng.pick(&[DEPTH, DEPTH_HO])] += 1,
        _ => {}
    }
    fill(rng, &mut job);
    lent(rng, &job)
}

/// High quality with a target of just the bytes that a fixed index takes, or some more or less.
fn near_its_length(rng: &mut Random) -> Call {
    let sides = |rng: &mut Random| [rng.range(1, 16), rng.range(1, 16)];
    let mut job = shape(rng, any_transform, sides, 2_000);
    job.settings[KIND] = 1;
    job.settings[SCALER] = rng.range(1, 3) as u32;
    fill(rng, &mut job);
    job.settings[RATE] = 1;
    job.settings[RATE_NUMBER] = rng.pick(&[0, 0, 1, 2, 5, 9, 20, 40]);
    let work = job.settings().work_needed() as usize;
    if let Ok(outcome) = job.encode(work, 1 << 20) {
        let length = outcome.unit.len() as u64;
        job.settings[RATE] = 2;
        job.settings[RATE_NUMBER] = (length + rng.below(9)).saturating_sub(4) as u32;
    }
    lent(rng, &job)
}

/// High quality in one or two large slices, so that a component needs more than 255 scalers.
fn raised(rng: &mut Random) -> Call {
    let sides = |rng: &mut Random| [rng.range(20, 48), rng.range(20, 48)];
    let mut job = shape(rng, any_transform, sides, 6_000);
    let s = &mut job.settings;
    (s[KIND], s[ACROSS], s[DOWN]) = (1, 1, rng.range(1, 2) as u32);
    s[SCALER] = rng.pick(&[1, 1, 2, 3]);
    fill(rng, &mut job);
    (job.settings[RATE], job.settings[RATE_NUMBER]) = match rng.below(3) {
        0 => (0, 0),
        1 => (1, rng.below(12) as u32),
        _ => (2, rng.range(1_500, 12_000) as u32),
    };
    lent(rng, &job)
}

/// Up to 3,000 slices.
fn thousands(rng: &mut Random) -> Call {
    let sides = |rng: &mut Random| [rng.range(1, 40), rng.range(1, 40)];
    let mut job = shape(rng, any_transform, sides, 3_000);
    let across = 1 + rng.sized(11);
    job.settings[ACROSS] = across as u32;
    job.settings[DOWN] = rng.range(1, 3_000 / across) as u32;
    job.settings[PREFIX] = rng.pick(&[0, 0, 1, 3]);
    fill(rng, &mut job);
    lent(rng, &job)
}

/// Up to 1,048,576 slices, or 100,000 where high quality elects; seconds each.
pub fn many(rng: &mut Random) -> Call {
    let sides = |rng: &mut Random| [rng.range(1, 12), rng.range(1, 12)];
    let mut job = shape(rng, any_transform, sides, 300);
    job.settings[DEPTH] = job.settings[DEPTH].min(1);
    job.settings[DEPTH_HO] = job.settings[DEPTH_HO].min(1);
    job.settings[PREFIX] = 0;
    fill(rng, &mut job);
    let elects = job.settings[KIND] == 1 && job.settings[RATE] == 2;
    let (across, down) = match rng.below(3) {
        0 if !elects => rng.pick(&[(1_024, 1_024), (65_535, 16), (16, 65_535)]),
        1 => rng.pick(&[(65_535, 1), (1, 65_535)]),
        _ => {
            let across = rng.range(1, 4_000);
            (across, rng.range(1, (100_000 / across).min(65_535)))
        }
    };
    (job.settings[ACROSS], job.settings[DOWN]) = (across as u32, down as u32);
    if job.settings[RATE] == 2 {
        let slices = across * down;
        let bytes = [0, slices, slices + 300, 2 * slices, 4 * slices + 60, 5 * slices];
        job.settings[RATE_NUMBER] = rng.pick(&bytes) as u32;
    }
    let work = job.settings().work_needed() as usize;
    Call::of(&job, work, MANY_OUTPUT)
}

/// Something of a good call put out of range, once to three times.
fn broken(rng: &mut Random) -> Call {
    let mut call = if rng.one_in(2) { small(rng) } else { general(rng) };
    for _ in 0..rng.pick(&[1, 1, 2, 3]) {
        break_one(rng, &mut call);
    }
    call
}

#[rustfmt::skip]
const OUT_OF_RANGE: &[(usize, &[u32])] = &[
    (KIND, &[2, u32::MAX]),
    (WAVELET, &[7, 8, u32::MAX]),
    (WAVELET_HO, &[7, 8, u32::MAX]),
    (DEPTH, &[5, 6, 7, 8, 9, 31, 32, u32::MAX]),
    (DEPTH_HO, &[5, 6, 7, 8, 9, 31, 32, u32::MAX]),
    (ACROSS, &[0, 65_535, 65_536, u32::MAX]),
    (DOWN, &[0, 65_536, 1_048_577, u32::MAX]),
    (PREFIX, &[255, 256, u32::MAX]),
    (SCALER, &[0, 65_536, u32::MAX]),
    (RATE, &[0, 1, 2, 3, u32::MAX]),
    (RATE_NUMBER, &[255, 256, 1_073_741_825, u32::MAX]),
    (WIDTH, &[0, 1, 8_192, 65_535, 65_536, u32::MAX]),
    (HEIGHT, &[0, 1, 8_192, 65_535, 65_536, u32::MAX]),
    (FORMAT, &[0, 1, 2, 3, u32::MAX]),
    (MODE, &[0, 1, 2, u32::MAX]),
    (LUMA_EXCURSION, &[0, 65_536, u32::MAX]),
    (COLOUR_EXCURSION, &[0, 65_536, u32::MAX]),
    (EXTENDED, &[2, u32::MAX]),
    (CUSTOM, &[0, 1, 2, u32::MAX]),
];

fn break_one(rng: &mut Random, call: &mut Call) {
    match rng.below(12) {
        0 => {
            call.matrix.pop();
        }
        1 => call.matrix.push(rng.below(300) as u32),
        2 => {
            if let Some(last) = call.matrix.last_mut() {
                *last = rng.pick(&[255, 256, 65_536, u32::MAX]);
            }
        }
        3 => {
            call.planes[rng.below(3) as usize].pop();
        }
        4 => call.planes[rng.below(3) as usize].push(rng.next() as u16),
        5 => call.work = rng.below(call.work as u64 + 1) as usize,
        6 => call.output = rng.below(200) as usize,
        _ => {
            let (place, words) = rng.pick(OUT_OF_RANGE);
            call.words[place] = rng.pick(words);
        }
    }
}

// Large pictures.

/// How many large pictures there are.
pub const LARGE: usize = 16;

/// A large picture and what it is. The first ones are 1920 x 1080 with what is usual in a box,
/// then come some of any size below that, then depths that sum to more than 5: among them rows of
/// 65,535 samples, and the largest padded luma area, 67,108,864.
pub fn large(rng: &mut Random, n: usize) -> (String, Call) {
    let full = |_: &mut Random| [1_920, 1_080];
    let any = |rng: &mut Random| [rng.range(500, 1_920), rng.range(300, 1_080)];
    let row = |_: &mut Random| [65_535, 1];
    let most = |_: &mut Random| [65_535, 1_000];
    let mut job = match n {
        0..6 | 10 => shape(rng, any_transform, full, 1 << 24),
        11..15 => shape(rng, deep_transform, row, 1 << 24),
        15 => shape(rng, deep_transform, most, 1 << 26),
        _ => shape(rng, any_transform, any, 1 << 24),
    };
    // Kind, wavelets, depths, slices, rate, its number, format, mode.
    let fixed = match n {
        0 => [1, 1, 1, 3, 0, 60, 34, 0, 0, 1, 0],
        1 => [1, 0, 0, 2, 1, 120, 68, 1, 18, 2, 0],
        2 => [1, 1, 1, 2, 1, 120, 135, 2, 1_400_000, 1, 0],
        3 => [0, 1, 1, 3, 0, 60, 34, 2, 900_000, 1, 0],
        4 => [0, 0, 1, 2, 1, 40, 30, 2, 500_000, 2, 0],
        5 => [1, 6, 3, 4, 0, 30, 17, 2, 600_000, 0, 1],
        10 => [1, 1, 4, 6, 0, 40, 30, 0, 0, 1, 0],
        11 => [1, 1, 1, 8, 0, 64, 2, 0, 0, 1, 0],
        12 => [1, 3, 1, 7, 1, 64, 2, 1, 3, 1, 0],
        13 => [0, 4, 3, 4, 4, 256, 1, 2, 90_000, 1, 0],
        14 => [1, 1, 3, 6, 0, 100, 1, 2, 150_000, 1, 0],
        15 => [1, 1, 1, 8, 0, 256, 64, 0, 0, 2, 0],
        _ => {
            let s = job.settings();
            // Low delay at depth 0 or 1 takes the Rust minutes.
            let depth = if s.depth + s.depth_ho < 2 { 2 } else { s.depth };
            let kind = if n % 2 == 0 { 1 } else { 0 };
            let [across, down] = [rng.range(8, 60) as u32, rng.range(4, 40) as u32];
            let (rate, number) = match n {
                6 => (0, 0),
                8 => (1, rng.range(1, 50) as u32),
                // So few bytes that slices are cut.
                9 => (2, 3 * across * down),
                _ => (2, rng.range(40_000, 900_000) as u32),
            };
            [
                kind,
                s.wavelet,
                s.wavelet_ho,
                depth,
                s.depth_ho,
                across,
                down,
                rate,
                number,
                s.format,
                s.mode,
            ]
        }
    };
    let places =
        [KIND, WAVELET, WAVELET_HO, DEPTH, DEPTH_HO, ACROSS, DOWN, RATE, RATE_NUMBER, FORMAT, MODE];
    for (place, word) in places.into_iter().zip(fixed) {
        job.settings[place] = word;
    }
    job.settings[PREFIX] = rng.below(3) as u32;
    job.settings[SCALER] = rng.range(1, 4) as u32;
    let bits = rng.pick(&[8, 10, 10, 12]);
    let excursion = (1 << bits) - 1;
    (job.settings[LUMA_EXCURSION], job.settings[COLOUR_EXCURSION]) = (excursion, excursion);
    job.settings[CUSTOM] = (n == 9 || !job.settings().has_default_matrix()) as u32;
    job.fit_matrix(rng);
    if n == 9 {
        job.matrix.fill(255);
    }
    let s = job.settings();
    let [luma, colour] = s.sizes();
    for (i, size) in [luma, colour, colour].into_iter().enumerate() {
        job.planes[i] = scene(rng, bits, size.width, size.height);
    }
    let what = format!(
        "{} x {}, format {}, {:?}, wavelets {} and {}, depths {} and {}, {} x {} slices, {:?}",
        luma.width,
        luma.height,
        s.format,
        s.kind,
        s.wavelet,
        s.wavelet_ho,
        s.depth,
        s.depth_ho,
        s.across,
        s.down,
        s.rate
    );
    (what, Call::of(&job, s.work_needed() as usize, 0))
}

/// Something like a camera's picture: a slope, stripes, boxes with sharp sides, some noise.
fn scene(rng: &mut Random, bits: u32, width: u64, height: u64) -> Vec<u32> {
    let most = (1i64 << bits) - 1;
    let [slope_x, slope_y] = [rng.below(2_000) as i64 - 1_000, rng.below(2_000) as i64 - 1_000];
    let [stripe_x, stripe_y] = [rng.below(40) as i64, rng.below(40) as i64];
    let noise = rng.range(1, 1 << (bits - 5));
    let boxes: Vec<[u64; 5]> = (0..12)
        .map(|_| {
            let [x, y] = [rng.below(width), rng.below(height)];
            [x, y, x + rng.below(width / 3 + 1), y + rng.below(height / 3 + 1), rng.next()]
        })
        .collect();
    let mut plane = Vec::new();
    for y in 0..height {
        for x in 0..width {
            let mut v = most / 2;
            v += (x as i64 * slope_x / width as i64 + y as i64 * slope_y / height as i64) * most
                / 4_000;
            v += ((x as i64 * stripe_x + y as i64 * stripe_y) % 128 - 64).abs() * most / 2_048;
            for &[left, top, right, bottom, level] in &boxes {
                if (left..right).contains(&x) && (top..bottom).contains(&y) {
                    v += level as i64 % most / 3;
                }
            }
            v += rng.below(noise) as i64;
            plane.push(v.clamp(0, most) as u32);
        }
    }
    plane
}
