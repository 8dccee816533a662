//! Jobs whose depths sum to more than 5: document 02, (iii).

use crate::edges::{self, Wanted};
use crate::generate;
use crate::jobs::*;
use crate::random::Random;

/// The wavelets that, both of them among these, allow sums up to 8. Written apart from
/// `Settings::depth_limit`, which named cases and edges check by it.
pub const WAVELETS: [u32; 3] = [1, 3, 4];

/// Depths and horizontal-only depths that sum to 6, 7 or 8 and with small sides fit in a job's
/// work slice.
const FIT: [[u32; 2]; 9] = [[0, 6], [1, 5], [2, 4], [3, 3], [0, 7], [1, 6], [2, 5], [0, 8], [1, 7]];

/// Depths that sum to 6 or 8 and need a longer work slice than a job has.
const LONG: [[u32; 2]; 4] = [[6, 0], [4, 4], [7, 1], [8, 0]];

/// Depths that sum to 9, and one pair whose sum is 8 in 28 bits.
const BEYOND: [[u32; 2]; 4] = [[9, 0], [0, 9], [4, 5], [CONTENT, 9]];

pub fn allows_8(wavelet: u32, wavelet_ho: u32) -> bool {
    WAVELETS.contains(&wavelet) && WAVELETS.contains(&wavelet_ho)
}

/// The `n`-th job: one in three is an edge.
pub fn nth(rng: &mut Random, n: usize) -> (Vec<u8>, Wanted) {
    if n % 3 == 0 { edge(rng, n / 3) } else { (random(rng).bytes(), Wanted::Any) }
}

/// A pair of wavelets, so that 49 edges have each pair once, and depths that are picked.
fn edge(rng: &mut Random, n: usize) -> (Vec<u8>, Wanted) {
    let mut job = edges::plain(rng);
    let pair = 17 * n as u32 % 49;
    let [wavelet, wavelet_ho] = [pair / 7, pair % 7];
    let deep = allows_8(wavelet, wavelet_ho);
    let (depths, custom, answer) = match rng.below(6) {
        0 => (rng.pick(&BEYOND), 1, 2),
        1 => (rng.pick(&LONG), 1, if deep { 13 } else { 2 }),
        2 => (rng.pick(&FIT), 0, if deep { 10 } else { 2 }),
        _ => (rng.pick(&FIT), 1, if deep { 0 } else { 2 }),
    };
    let s = &mut job.settings;
    [s[WAVELET], s[WAVELET_HO]] = [wavelet, wavelet_ho];
    [s[DEPTH], s[DEPTH_HO]] = depths;
    s[CUSTOM] = custom;
    s[HEIGHT] = 2;
    job.fit_matrix(rng);
    job.fit_planes(rng);
    (job.bytes(), Wanted::Answer(answer))
}

/// Wavelets that allow 8; in one job of ten one of the two is any.
fn random(rng: &mut Random) -> Job {
    let mut job = Job { settings: [0; SETTINGS], matrix: Vec::new(), planes: Default::default() };
    loop {
        let s = &mut job.settings;
        s[KIND] = rng.below(2) as u32;
        [s[WAVELET], s[WAVELET_HO]] = [rng.pick(&WAVELETS), rng.pick(&WAVELETS)];
        if rng.one_in(10) {
            s[rng.pick(&[WAVELET, WAVELET_HO])] = rng.below(7) as u32;
        }
        [s[DEPTH], s[DEPTH_HO]] = rng.pick(&FIT);
        s[WIDTH] = rng.range(1, 70) as u32;
        s[HEIGHT] = rng.range(1, 8) as u32;
        s[FORMAT] = rng.below(3) as u32;
        s[MODE] = rng.one_in(4) as u32;
        if job.fits() {
            break;
        }
    }
    generate::fill(rng, &mut job);
    job
}
