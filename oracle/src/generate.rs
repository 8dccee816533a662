//! Random jobs.

use crate::edges::{self, Wanted};
use crate::jobs::*;
use crate::picture::Settings;
use crate::random::Random;
use crate::unit;

/// The `n`-th job of a run. Edge jobs and random ones take turns until each edge has had one;
/// from then on every sixth job is an edge again.
pub fn nth(rng: &mut Random, n: usize) -> (Vec<u8>, Wanted) {
    let edges = edges::count();
    if n < 2 * edges && n % 2 == 0 {
        edges::nth(rng, n / 2)
    } else if n >= 2 * edges && n % 6 == 0 {
        edges::nth(rng, n / 6 % edges)
    } else if n % 6 == 1 && rng.one_in(3) {
        (edges::several(rng).bytes(), Wanted::Any)
    } else {
        (random_job(rng).bytes(), Wanted::Any)
    }
}

// Parts of a job.

/// Samples in several manners, some of them above the depth.
pub fn samples(rng: &mut Random, excursion: u32, width: u64, height: u64) -> Vec<u32> {
    let bits = Settings::sample_depth(excursion.clamp(1, 65_535));
    let (grey, within) = (1u32 << (bits - 1), (1u64 << bits) - 1);
    let manner = rng.below(9);
    let level = rng.range(0, within) as u32;
    let (step_x, step_y) = (rng.below(7) as u32, rng.below(7) as u32);
    let mut run = level;
    let mut plane = Vec::new();
    for y in 0..height as u32 {
        for x in 0..width as u32 {
            plane.push(match manner {
                0 => level,
                1 => grey,
                2 | 3 => rng.range(0, within) as u32,
                4 => rng.below(65_536) as u32,
                5 => rng.pick(&[0, within as u32, 65_535]),
                6 => (level + x * step_x + y * step_y) & 65_535,
                7 if rng.one_in(12) => rng.below(65_536) as u32,
                7 => grey,
                _ => {
                    if rng.one_in(4) {
                        run = rng.range(0, within) as u32;
                    }
                    run
                }
            });
        }
    }
    plane
}

/// A plane of equal numbers with a few jumps, so that most numbers of a slice are 0.
fn jumps(rng: &mut Random, width: u64, height: u64) -> Vec<u32> {
    let mut run = 128;
    let mut plane = Vec::new();
    for _ in 0..width * height {
        if rng.one_in(3) {
            run = rng.pick(&[127, 128, 129, 0, 255, 4_000, 65_535]);
        }
        plane.push(run);
    }
    plane
}

pub fn matrix(rng: &mut Random, count: u64) -> Vec<u32> {
    let manner = rng.below(6);
    (0..count)
        .map(|_| match manner {
            0 => 0,
            1 => 255,
            2 => rng.pick(&[0, 255]),
            3 => rng.below(256) as u32,
            _ => rng.below(14) as u32,
        })
        .collect()
}

pub fn excursion(rng: &mut Random) -> u32 {
    match rng.below(4) {
        0 => rng.pick(&[1, 2, 3, 127, 128, 219, 224, 254, 256, 876, 896, 1_023, 4_095]),
        1 => rng.pick(&[32_767, 32_768, 56_064, 57_344, 65_534, 65_535]),
        2 => rng.sized(16).max(1) as u32,
        _ => 255,
    }
}

/// A number of 28 bits, often an edge.
pub fn content(rng: &mut Random) -> u32 {
    if rng.one_in(4) { rng.pick(&[0, 1, 255, 256, CONTENT]) } else { rng.sized(28) as u32 }
}

impl Job {
    /// Makes the matrix anew for the settings, if a custom one is asked for.
    pub fn fit_matrix(&mut self, rng: &mut Random) {
        let s = self.settings();
        self.matrix.clear();
        if s.custom {
            self.matrix = matrix(rng, s.matrix_count().min(MOST_MATRIX_WORDS as u64));
        }
    }

    /// Makes the planes anew for the settings, if a job can hold them.
    pub fn fit_planes(&mut self, rng: &mut Random) {
        self.fit_planes_up_to(rng, MOST_SAMPLE_WORDS as u64);
    }

    /// Makes the planes anew for the settings, if they have no more than `most` samples.
    pub fn fit_planes_up_to(&mut self, rng: &mut Random, most: u64) {
        let s = self.settings();
        let [luma, colour] = s.sizes();
        let count = luma.area() as u128 + 2 * colour.area() as u128;
        if count <= most as u128 {
            let excursions = [s.luma_excursion, s.colour_excursion, s.colour_excursion];
            for (i, size) in [luma, colour, colour].into_iter().enumerate() {
                self.planes[i] = samples(rng, excursions[i], size.width, size.height);
            }
        }
    }

    /// True if sizes and work slice are in range; meant for settings that are so otherwise.
    pub fn fits(&self) -> bool {
        let s = self.settings();
        let [luma, colour] = s.sizes();
        luma.area() > 0 && colour.area() > 0 && s.work_needed() <= WORK as u64
    }

    /// The low-delay numerator at the job's target.
    fn numerator(&self) -> u64 {
        self.settings().numerator(&self.matrix, self.settings[RATE_NUMBER] as u64)
    }

    /// Sets a target that leaves each low-delay slice about this many bytes.
    fn target_for(&mut self, rng: &mut Random, slice_bytes: u64) {
        self.settings[RATE] = 2;
        let s = self.settings();
        let matrix_bytes = self.matrix.len() as u64;
        let target = 24 + matrix_bytes + s.slices() * slice_bytes + rng.below(s.slices() + 4);
        self.settings[RATE_NUMBER] = target as u32;
    }
}

// Random jobs.

fn random_job(rng: &mut Random) -> Job {
    match rng.below(12) {
        0 => cut(rng),
        1 => kept_zeros(rng),
        2 => fit_at_last_index(rng),
        3 => raised(rng),
        4 => many_slices(rng),
        _ => general(rng),
    }
}

/// Settings over the whole range that jobs can reach, one large picture among several small.
fn general(rng: &mut Random) -> Job {
    let large = rng.one_in(12);
    let mut job = Job { settings: [0; SETTINGS], matrix: Vec::new(), planes: Default::default() };
    loop {
        let s = &mut job.settings;
        s[KIND] = rng.below(2) as u32;
        s[WAVELET] = rng.below(7) as u32;
        s[WAVELET_HO] = match rng.below(8) {
            0..=4 => s[WAVELET],
            5 => {
                s[WAVELET] = 3;
                1
            }
            _ => rng.below(7) as u32,
        };
        let total = rng.pick(&[0, 0, 1, 1, 1, 2, 2, 2, 3, 3, 4, 5]);
        s[DEPTH_HO] = if rng.one_in(2) { 0 } else { rng.range(0, total) as u32 };
        s[DEPTH] = total as u32 - s[DEPTH_HO];
        let side = if large { 40 } else { 11 };
        s[WIDTH] = rng.range(1, side) as u32;
        s[HEIGHT] = rng.range(1, side) as u32;
        s[FORMAT] = rng.below(3) as u32;
        s[MODE] = rng.one_in(4) as u32;
        if job.fits() {
            break;
        }
    }
    fill(rng, &mut job);
    job
}

/// All settings of a job that has kind, wavelets, depths, sides, format and mode; its matrix and
/// its planes.
pub fn fill(rng: &mut Random, job: &mut Job) {
    let s = &mut job.settings;
    s[ACROSS] = rng.pick(&[1, 1, 1, 2, 2, 3, 4, 5, 7]);
    s[DOWN] = rng.pick(&[1, 1, 1, 2, 2, 3, 4, 6]);
    s[PREFIX] = rng.pick(&[0, 0, 0, 0, 1, 2, 5, 17]);
    s[SCALER] = rng.pick(&[1, 1, 1, 1, 2, 3, 4, 10, 30]);
    s[LUMA_EXCURSION] = excursion(rng);
    s[COLOUR_EXCURSION] = if rng.one_in(2) { s[LUMA_EXCURSION] } else { excursion(rng) };
    s[EXTENDED] = rng.one_in(3) as u32;
    s[CUSTOM] = rng.one_in(3) as u32;
    s[PICTURE_NUMBER] = content(rng);
    s[PREVIOUS_LENGTH] = content(rng);
    if !rng.one_in(30) && !job.settings().has_default_matrix() {
        job.settings[CUSTOM] = 1;
    }
    job.fit_matrix(rng);
    job.fit_planes(rng);
    let rate = if job.settings[KIND] == 0 { 2 } else { rng.below(4).min(2) as u32 };
    job.settings[RATE] = rate;
    if rate == 1 {
        job.settings[RATE_NUMBER] = match rng.below(4) {
            0 => rng.pick(&[0, 1, 2, 3, 4, 127, 128, 243, 244, 254, 255]),
            1 => rng.below(256) as u32,
            _ => rng.below(40) as u32,
        };
    }
    if rate == 2 {
        match rng.below(8) {
            0 => job.settings[RATE_NUMBER] = 0,
            1 => job.settings[RATE_NUMBER] = rng.range(1, 40) as u32,
            2 => job.settings[RATE_NUMBER] = rng.range(40, 600) as u32,
            n => {
                let least = if job.settings[KIND] == 0 { 1 } else { 4 };
                let bytes = least + rng.below(if n < 6 { 8 } else { 40 });
                job.target_for(rng, bytes);
            }
        }
    }
}

/// A job like `general`, of one kind.
fn general_of(rng: &mut Random, kind: u32) -> Job {
    loop {
        let job = general(rng);
        if job.settings[KIND] == kind {
            return job;
        }
    }
}

/// Low delay with bands that a matrix of high values holds at index 0, and few bytes.
fn cut(rng: &mut Random) -> Job {
    let mut job = general_of(rng, 0);
    job.settings[CUSTOM] = 1;
    let count = job.settings().matrix_count();
    let values = match rng.below(4) {
        0 => vec![255],
        1 => vec![255, 128, 127, 126],
        2 => vec![255, 0, 120],
        _ => (90..128).collect(),
    };
    job.matrix = (0..count).map(|_| rng.pick(&values)).collect();
    let bytes = rng.pick(&[0, 1, 1, 2, 3, 4, 6, 9, 15]);
    job.target_for(rng, bytes);
    if rng.one_in(4) {
        job.settings[RATE_NUMBER] = 0;
    }
    job
}

/// Low delay where a cut may fall just behind zeros.
fn kept_zeros(rng: &mut Random) -> Job {
    let mut job = cut(rng);
    if rng.one_in(2) {
        job.settings[DEPTH] = 0;
        job.settings[DEPTH_HO] = 0;
        job.matrix = vec![255];
    }
    let [luma, colour] = job.settings().sizes();
    for (i, size) in [luma, colour, colour].into_iter().enumerate() {
        job.planes[i] = jumps(rng, size.width, size.height);
    }
    let bytes = rng.pick(&[2, 3, 4, 5, 6, 8, 12]);
    job.target_for(rng, bytes);
    job
}

/// Low delay of a single slice, with a matrix by which its index is mostly 127: see
/// `put_at_last_index`.
fn fit_at_last_index(rng: &mut Random) -> Job {
    let mut job = general_of(rng, 0);
    (job.settings[ACROSS], job.settings[DOWN]) = (1, 1);
    put_at_last_index(&mut job, |_| 0);
    job
}

/// Low delay with a matrix by which the index of one slice, at random, is mostly 127: see
/// `put_at_last_index`. Others fit below, there, or not at all.
pub fn around_last_index(rng: &mut Random, _: usize) -> (Vec<u8>, Wanted) {
    let mut job = general_of(rng, 0);
    put_at_last_index(&mut job, |slices| rng.below(slices as u64) as usize);
    (job.bytes(), Wanted::Any)
}

/// Gives a job another matrix: a slice of index 127 has in each band the index that one slice has
/// with a matrix of zeros. `pick` gives that slice's number, by the count of slices.
fn put_at_last_index(job: &mut Job, pick: impl FnOnce(usize) -> usize) {
    job.settings[CUSTOM] = 1;
    let count = job.settings().matrix_count() as usize;
    job.matrix = vec![0; count];
    let numerator = job.numerator();
    let elected = match job.encode(WORK, OUTPUT) {
        Ok(outcome) if outcome.answer == 0 => {
            let read = unit::read(&outcome.unit, job.settings().version_3());
            let slices = read.expect("the unit was read before").slices;
            slices[pick(slices.len())].index
        }
        _ => return,
    };
    job.matrix = vec![127 - elected as u32; count];
    while job.numerator() < numerator {
        job.settings[RATE_NUMBER] += 1;
    }
}

/// High quality with a component too long for its byte at the set scaler.
fn raised(rng: &mut Random) -> Job {
    let mut job = general_of(rng, 1);
    let s = &mut job.settings;
    s[FORMAT] = 0;
    s[MODE] = 0;
    s[DEPTH] = s[DEPTH].min(1);
    s[DEPTH_HO] = s[DEPTH_HO].min(1);
    s[WIDTH] = rng.range(8, 12) as u32;
    s[HEIGHT] = rng.range(8, 12) as u32;
    s[ACROSS] = rng.pick(&[1, 1, 1, 2]);
    s[DOWN] = 1;
    s[SCALER] = rng.pick(&[1, 1, 1, 2]);
    s[CUSTOM] = 1;
    let count = job.settings().matrix_count();
    job.matrix = (0..count).map(|_| rng.pick(&[255, 255, 255, 255, 200, 0])).collect();
    job.settings[LUMA_EXCURSION] = 65_535;
    job.settings[COLOUR_EXCURSION] = 255;
    job.fit_planes(rng);
    // One component of noise, in the others anything.
    let noisy = rng.below(3) as usize;
    for sample in &mut job.planes[noisy] {
        *sample = rng.below(65_536) as u32;
    }
    let rate = rng.pick(&[0, 1, 2, 2]);
    job.settings[RATE] = rate;
    job.settings[RATE_NUMBER] = match rate {
        0 => 0,
        1 => rng.below(256) as u32,
        _ => rng.pick(&[0, 100, 300, 350, 400, 500, 700, 1_500]),
    };
    job
}

/// More slices than places in the bands, so that slices are empty.
fn many_slices(rng: &mut Random) -> Job {
    let mut job = general(rng);
    job.settings[ACROSS] = rng.range(1, 16) as u32;
    job.settings[DOWN] = rng.range(1, 12) as u32;
    job.settings[PREFIX] = rng.pick(&[0, 0, 0, 1]);
    if job.settings[RATE] == 2 {
        let least = if job.settings[KIND] == 0 { 1 } else { 4 };
        let bytes = rng.pick(&[least, least + 1, least + 4]);
        job.target_for(rng, bytes);
        if rng.one_in(3) {
            job.settings[RATE_NUMBER] = 0;
        }
    }
    job
}
