//! Jobs at the edges: each refusal on both sides of its boundary, each way to be malformed, and
//! jobs whose outcome depends on one detail.

use crate::deep;
use crate::generate::content;
use crate::jobs::{self, *};
use crate::random::Random;

/// What an edge job must print: an answer, or `job`. `Any` leaves it open.
#[derive(Debug, Clone, Copy, PartialEq, Eq)]
pub enum Wanted {
    Answer(u32),
    Malformed,
    Any,
}

use Wanted::{Answer, Malformed};

impl Wanted {
    /// Whether this answer, or none for a malformed job, is what is wanted.
    pub fn is(self, answer: Option<u32>) -> bool {
        match self {
            Wanted::Any => true,
            Malformed => answer.is_none(),
            Answer(wanted) => answer == Some(wanted),
        }
    }
}

/// A small job that is accepted: 4:4:4 frames, a custom matrix, few bytes.
pub fn plain(rng: &mut Random) -> Job {
    let mut job = Job { settings: [0; SETTINGS], matrix: Vec::new(), planes: Default::default() };
    let s = &mut job.settings;
    s[KIND] = rng.below(2) as u32;
    s[WAVELET] = rng.below(7) as u32;
    s[WAVELET_HO] = s[WAVELET];
    s[DEPTH] = rng.below(3) as u32;
    s[DEPTH_HO] = rng.below(2) as u32;
    s[ACROSS] = rng.range(1, 3) as u32;
    s[DOWN] = rng.range(1, 2) as u32;
    s[SCALER] = 1;
    s[RATE] = 2;
    s[RATE_NUMBER] = rng.range(0, 120) as u32;
    s[WIDTH] = rng.range(2, 8) as u32;
    s[HEIGHT] = rng.range(2, 6) as u32;
    s[LUMA_EXCURSION] = 255;
    s[COLOUR_EXCURSION] = 255;
    s[CUSTOM] = 1;
    s[PICTURE_NUMBER] = content(rng);
    s[PREVIOUS_LENGTH] = content(rng);
    job.fit_matrix(rng);
    job.fit_planes(rng);
    job
}

/// Settings put into a plain job; matrix and planes are then made to fit where they can.
type Change = &'static [(usize, u32)];

#[rustfmt::skip]
const CHANGES: &[(Change, Wanted)] = &[
    // 1: wavelets.
    (&[(WAVELET, 6)], Answer(0)),
    (&[(WAVELET_HO, 6)], Answer(0)),
    (&[(WAVELET, 7)], Answer(1)),
    (&[(WAVELET_HO, 7)], Answer(1)),
    (&[(WAVELET, CONTENT)], Answer(1)),
    (&[(WAVELET_HO, CONTENT)], Answer(1)),
    // 2: depths.
    (&[(DEPTH, 4), (DEPTH_HO, 1)], Answer(0)),
    (&[(DEPTH, 3), (DEPTH_HO, 2)], Answer(0)),
    (&[(DEPTH, 2), (DEPTH_HO, 3)], Answer(0)),
    (&[(DEPTH, 1), (DEPTH_HO, 4)], Answer(0)),
    (&[(DEPTH, 0), (DEPTH_HO, 5)], Answer(0)),
    // Sums of 6: `nth` leaves open what is answered where the wavelets of the plain job allow 8. `deep` has jobs at that
    // limit.
    (&[(DEPTH, 4), (DEPTH_HO, 2)], Answer(2)),
    (&[(DEPTH, 3), (DEPTH_HO, 3)], Answer(2)),
    (&[(DEPTH, 6), (DEPTH_HO, 0)], Answer(2)),
    (&[(DEPTH, 0), (DEPTH_HO, 6)], Answer(2)),
    (&[(DEPTH, 0), (DEPTH_HO, CONTENT)], Answer(2)),
    (&[(DEPTH, CONTENT), (DEPTH_HO, 0)], Answer(2)),
    (&[(DEPTH, CONTENT), (DEPTH_HO, CONTENT)], Answer(2)),
    // 3: slices.
    (&[(ACROSS, 0)], Answer(3)),
    (&[(DOWN, 0)], Answer(3)),
    (&[(ACROSS, 65_536), (DOWN, 1)], Answer(3)),
    (&[(ACROSS, 1), (DOWN, 65_536)], Answer(3)),
    (&[(ACROSS, 65_536), (DOWN, 65_536)], Answer(3)),
    (&[(ACROSS, 65_535), (DOWN, 17)], Answer(3)),
    (&[(ACROSS, 17), (DOWN, 65_535)], Answer(3)),
    (&[(ACROSS, 1_024), (DOWN, 1_025)], Answer(3)),
    (&[(ACROSS, CONTENT), (DOWN, CONTENT)], Answer(3)),
    (&[(ACROSS, 1_024), (DOWN, 1_024)], Answer(14)),
    (&[(ACROSS, 65_535), (DOWN, 16)], Answer(14)),
    (&[(ACROSS, 1), (DOWN, 65_535)], Answer(14)),
    (&[(KIND, 0), (ACROSS, 60), (DOWN, 25), (RATE_NUMBER, 0)], Answer(0)),
    (&[(KIND, 1), (ACROSS, 15), (DOWN, 20), (RATE_NUMBER, 0)], Answer(0)),
    // 4: scaler and prefix bytes.
    (&[(KIND, 0), (SCALER, 0)], Answer(4)),
    (&[(KIND, 1), (SCALER, 0)], Answer(4)),
    (&[(KIND, 0), (SCALER, 65_536)], Answer(4)),
    (&[(KIND, 1), (SCALER, 65_536)], Answer(4)),
    (&[(KIND, 0), (SCALER, 65_535)], Answer(0)),
    (&[(KIND, 0), (PREFIX, 256)], Answer(4)),
    (&[(KIND, 1), (PREFIX, 256)], Answer(4)),
    (&[(KIND, 0), (PREFIX, 255)], Answer(0)),
    (&[(KIND, 1), (PREFIX, 255)], Answer(0)),
    // 5: low delay without a byte target.
    (&[(KIND, 0), (RATE, 0), (RATE_NUMBER, 0)], Answer(5)),
    (&[(KIND, 0), (RATE, 1), (RATE_NUMBER, 0)], Answer(5)),
    (&[(KIND, 0), (RATE, 1), (RATE_NUMBER, 256)], Answer(5)),
    // 6: the fixed index. 7 is out of a job's reach.
    (&[(KIND, 1), (RATE, 1), (RATE_NUMBER, 255)], Answer(0)),
    (&[(KIND, 1), (RATE, 1), (RATE_NUMBER, 256)], Answer(6)),
    (&[(KIND, 1), (RATE, 1), (RATE_NUMBER, CONTENT)], Answer(6)),
    (&[(KIND, 1), (RATE_NUMBER, CONTENT)], Answer(0)),
    (&[(KIND, 0), (RATE_NUMBER, CONTENT)], Answer(14)),
    // 8: format, mode, sides, excursions.
    (&[(FORMAT, 3)], Answer(8)),
    (&[(FORMAT, CONTENT)], Answer(8)),
    (&[(MODE, 2)], Answer(8)),
    (&[(MODE, CONTENT)], Answer(8)),
    (&[(WIDTH, 0)], Answer(8)),
    (&[(HEIGHT, 0)], Answer(8)),
    (&[(WIDTH, 65_536)], Answer(8)),
    (&[(HEIGHT, 65_536)], Answer(8)),
    (&[(WIDTH, 65_536), (HEIGHT, 65_536)], Answer(8)),
    (&[(LUMA_EXCURSION, 0)], Answer(8)),
    (&[(COLOUR_EXCURSION, 0)], Answer(8)),
    (&[(LUMA_EXCURSION, 65_536)], Answer(8)),
    (&[(COLOUR_EXCURSION, 65_536)], Answer(8)),
    (&[(LUMA_EXCURSION, 1), (COLOUR_EXCURSION, 65_535)], Answer(0)),
    (&[(LUMA_EXCURSION, 65_535), (COLOUR_EXCURSION, 1)], Answer(0)),
    (&[(FORMAT, 0), (WIDTH, 1), (HEIGHT, 1)], Answer(0)),
    (&[(FORMAT, 1), (WIDTH, 1)], Answer(8)),
    (&[(FORMAT, 1), (WIDTH, 2), (HEIGHT, 1)], Answer(0)),
    (&[(FORMAT, 2), (WIDTH, 1)], Answer(8)),
    (&[(FORMAT, 2), (HEIGHT, 1)], Answer(8)),
    (&[(FORMAT, 2), (WIDTH, 3), (HEIGHT, 3)], Answer(0)),
    (&[(MODE, 1), (HEIGHT, 1)], Answer(8)),
    (&[(MODE, 1), (HEIGHT, 2)], Answer(0)),
    (&[(MODE, 1), (FORMAT, 1), (WIDTH, 5), (HEIGHT, 3)], Answer(0)),
    (&[(MODE, 1), (FORMAT, 2), (HEIGHT, 2)], Answer(8)),
    (&[(MODE, 1), (FORMAT, 2), (HEIGHT, 3)], Answer(8)),
    (&[(MODE, 1), (FORMAT, 2), (HEIGHT, 4)], Answer(0)),
    (&[(MODE, 1), (FORMAT, 2), (HEIGHT, 7)], Answer(0)),
    // 10: Annex D.
    (&[(CUSTOM, 0), (WAVELET, 3), (WAVELET_HO, 1)], Answer(0)),
    (&[(CUSTOM, 0), (WAVELET, 1), (WAVELET_HO, 3)], Answer(10)),
    (&[(CUSTOM, 0), (WAVELET, 0), (WAVELET_HO, 6), (DEPTH, 0), (DEPTH_HO, 0)], Answer(10)),
    (&[(CUSTOM, 0), (DEPTH, 4), (DEPTH_HO, 1)], Answer(0)),
    (&[(CUSTOM, 0), (DEPTH, 1), (DEPTH_HO, 4)], Answer(0)),
    (&[(CUSTOM, 0), (DEPTH, 0), (DEPTH_HO, 5)], Answer(10)),
    (&[(CUSTOM, 0), (DEPTH, 5), (DEPTH_HO, 0)], Answer(10)),
    // 11: the padded luma area, by planes that no job can hold.
    (&[(WIDTH, 65_535), (HEIGHT, 65_535)], Answer(11)),
    (&[(WIDTH, 8_192), (HEIGHT, 8_192)], Answer(12)),
    (&[(WIDTH, 8_192), (HEIGHT, 8_193)], Answer(11)),
    (&[(WIDTH, 8_193), (HEIGHT, 8_192)], Answer(11)),
    (&[(WIDTH, 8_161), (HEIGHT, 8_177), (DEPTH, 4), (DEPTH_HO, 1)], Answer(12)),
    (&[(WIDTH, 8_161), (HEIGHT, 8_193), (DEPTH, 4), (DEPTH_HO, 1)], Answer(11)),
    (&[(WIDTH, 65_535), (HEIGHT, 1_024), (DEPTH, 0), (DEPTH_HO, 1)], Answer(12)),
    (&[(WIDTH, 65_535), (HEIGHT, 1_025), (DEPTH, 0), (DEPTH_HO, 0)], Answer(11)),
    (&[(MODE, 1), (WIDTH, 8_192), (HEIGHT, 16_385)], Answer(12)),
    (&[(MODE, 1), (WIDTH, 8_192), (HEIGHT, 16_386)], Answer(11)),
    // 13: the work slice.
    (&[(DEPTH, 5), (DEPTH_HO, 0)], Answer(13)),
    (&[(KIND, 0), (DEPTH, 0), (DEPTH_HO, 0), (WIDTH, 341), (HEIGHT, 2)], Answer(0)),
    (&[(DEPTH, 0), (DEPTH_HO, 0), (WIDTH, 683), (HEIGHT, 1)], Answer(13)),
    (&[(KIND, 0), (DEPTH, 1), (DEPTH_HO, 0), (FORMAT, 1), (WIDTH, 31), (HEIGHT, 31)], Answer(0)),
    (&[(DEPTH, 1), (DEPTH_HO, 1), (FORMAT, 1), (WIDTH, 33), (HEIGHT, 31)], Answer(13)),
    (&[(KIND, 0), (DEPTH, 2), (DEPTH_HO, 2), (FORMAT, 2), (WIDTH, 32), (HEIGHT, 41)], Answer(0)),
    (&[(DEPTH, 2), (DEPTH_HO, 2), (FORMAT, 2), (WIDTH, 32), (HEIGHT, 45)], Answer(13)),
    // 14: the output.
    (&[(KIND, 0), (RATE_NUMBER, OUTPUT as u32)], Answer(0)),
    (&[(KIND, 0), (RATE_NUMBER, OUTPUT as u32 + 1)], Answer(14)),
    // The extended flag and the 28-bit numbers.
    (&[(KIND, 0), (EXTENDED, 1), (DEPTH_HO, 0)], Answer(0)),
    (&[(KIND, 1), (EXTENDED, 1), (DEPTH_HO, 0)], Answer(0)),
    (&[(PICTURE_NUMBER, CONTENT), (PREVIOUS_LENGTH, CONTENT)], Answer(0)),
];

fn apply(rng: &mut Random, job: &mut Job, change: Change) {
    for &(place, content) in change {
        job.settings[place] = content;
    }
    job.fit_matrix(rng);
    job.fit_planes(rng);
}

/// Two or three changes at once: the order of the checks decides.
pub fn several(rng: &mut Random) -> Job {
    let mut job = plain(rng);
    for _ in 0..rng.range(2, 3) {
        let (change, _) = rng.pick(CHANGES);
        apply(rng, &mut job, change);
    }
    if rng.one_in(3) {
        let plane = rng.below(3) as usize;
        job.planes[plane].pop();
    }
    job
}

/// Jobs that are made by hand.
#[rustfmt::skip]
const MADE: &[(fn(&mut Random) -> Vec<u8>, Wanted)] = &[
    // The examples of document 01, and the smallest cut.
    (|_| example().bytes(), Answer(0)),
    (|_| target_51().bytes(), Answer(0)),
    (|_| smallest_cut().bytes(), Answer(0)),
    (|_| raised_twice().bytes(), Answer(0)),
    // High quality at the largest scaler: an all-grey picture needs no whole scaler.
    (|rng| grey(rng, 65_535), Answer(0)),
    (|rng| exact_length(rng, OUTPUT), Answer(0)),
    (|rng| exact_length(rng, OUTPUT + 1), Answer(14)),
    // 9: the custom matrix.
    (|rng| with_matrix(rng, |m| { m.pop(); }), Answer(9)),
    (|rng| with_matrix(rng, |m| m.push(0)), Answer(9)),
    (|rng| with_matrix(rng, |m| m.clear()), Answer(9)),
    (|rng| with_matrix(rng, |m| m[0] = 255), Answer(0)),
    (|rng| with_matrix(rng, |m| m[0] = 256), Answer(9)),
    (|rng| with_matrix(rng, |m| *m.last_mut().unwrap() = 256), Answer(9)),
    (|rng| with_matrix(rng, |m| *m.last_mut().unwrap() = 65_535), Answer(9)),
    (|rng| with_matrix(rng, |m| m.resize(MOST_MATRIX_WORDS, 0)), Answer(9)),
    (|rng| with_matrix(rng, |m| m.resize(MOST_MATRIX_WORDS + 1, 0)), Malformed),
    (|rng| with_matrix(rng, |m| m[0] = 65_536), Malformed),
    // 12: the planes.
    (|rng| with_plane(rng, 0, |p| { p.pop(); }), Answer(12)),
    (|rng| with_plane(rng, 0, |p| p.push(1)), Answer(12)),
    (|rng| with_plane(rng, 1, |p| { p.pop(); }), Answer(12)),
    (|rng| with_plane(rng, 1, |p| p.push(1)), Answer(12)),
    (|rng| with_plane(rng, 2, |p| { p.pop(); }), Answer(12)),
    (|rng| with_plane(rng, 2, |p| p.push(1)), Answer(12)),
    (|rng| with_plane(rng, 0, |p| p.clear()), Answer(12)),
    (|rng| with_plane(rng, 0, |p| p[0] = 65_535), Answer(0)),
    (|rng| with_plane(rng, 0, |p| p[0] = 65_536), Malformed),
    (|rng| with_plane(rng, 1, |p| p[0] = 65_536), Malformed),
    (|rng| with_plane(rng, 2, |p| *p.last_mut().unwrap() = CONTENT), Malformed),
    (|rng| with_sample_count(rng, MOST_SAMPLE_WORDS), Answer(12)),
    (|rng| with_sample_count(rng, MOST_SAMPLE_WORDS + 1), Malformed),
    // Settings outside their values.
    (|rng| with_setting(rng, KIND, 2), Malformed),
    (|rng| with_setting(rng, KIND, CONTENT), Malformed),
    (|rng| with_setting(rng, RATE, 3), Malformed),
    (|rng| with_setting(rng, EXTENDED, 2), Malformed),
    (|rng| with_setting(rng, CUSTOM, 2), Malformed),
    (|rng| with_setting(rng, CUSTOM, 0), Malformed),
    (|rng| {
        let mut job = plain(rng);
        (job.settings[RATE], job.settings[RATE_NUMBER]) = (0, 1);
        job.bytes()
    }, Malformed),
    // Words and bytes that are missing, left over or out of order.
    (|_| Vec::new(), Malformed),
    (|_| vec![0; 3], Malformed),
    (|_| jobs::to_bytes(&[END]), Malformed),
    (|rng| with_bytes(rng, |b| { b.pop(); }), Malformed),
    (|rng| with_bytes(rng, |b| b.truncate(b.len() - 3)), Malformed),
    (|rng| with_bytes(rng, |b| b.push(0)), Malformed),
    (|rng| with_bytes(rng, |b| { b.remove(0); }), Malformed),
    (|rng| with_words(rng, |w| { w.pop(); }), Malformed),
    (|rng| with_words(rng, |w| w.push(END)), Malformed),
    (|rng| with_words(rng, |w| w.push(0)), Malformed),
    (|rng| with_words(rng, |w| *w.last_mut().unwrap() = END + 1), Malformed),
    (|rng| with_words(rng, |w| *w.last_mut().unwrap() = 14 << 28), Malformed),
    (|rng| with_words(rng, |w| { w.remove(5); }), Malformed),
    (|rng| with_words(rng, |w| w.insert(5, 1)), Malformed),
    (|rng| with_words(rng, |w| w.truncate(10)), Malformed),
    (|rng| with_words(rng, |w| w.truncate(SETTINGS)), Malformed),
    (|rng| with_words(rng, |w| w[7] |= 1 << 28), Malformed),
    (|rng| with_words(rng, |w| w[SETTINGS] &= CONTENT), Malformed),
    (|rng| with_words(rng, |w| w.insert(SETTINGS, END)), Malformed),
    (|rng| with_words(rng, |w| w.insert(w.len() - 1, 0)), Malformed),
    (|rng| with_words(rng, |w| w.insert(w.len() - 1, 1 << 28)), Malformed),
    (|rng| with_words(rng, |w| w.insert(SETTINGS, 2 << 28)), Malformed),
    (|rng| with_words(rng, |w| w.insert(SETTINGS, 4 << 28)), Malformed),
    (|rng| with_words(rng, |w| w.insert(w.len() - 1, 2 << 28)), Malformed),
    (|rng| with_words(rng, |w| w.insert(w.len() - 1, 3 << 28)), Malformed),
    (|rng| with_words(rng, |w| w.insert(w.len() - 1, 5 << 28)), Malformed),
    (|rng| with_words(rng, |w| w.insert(w.len() - 1, 14 << 28)), Malformed),
    (|rng| with_words(rng, |w| w.reverse()), Malformed),
];

pub fn count() -> usize {
    CHANGES.len() + MADE.len()
}

/// The `n`-th edge job, the two lists mixed so that a short run has some of both.
pub fn nth(rng: &mut Random, n: usize) -> (Vec<u8>, Wanted) {
    if n % 2 == 0 && n / 2 < MADE.len() {
        let (make, wanted) = MADE[n / 2];
        return (make(rng), wanted);
    }
    let (change, wanted) = CHANGES[n - n.div_ceil(2).min(MADE.len())];
    let mut job = plain(rng);
    apply(rng, &mut job, change);
    let s = &job.settings;
    let open = wanted == Answer(2)
        && deep::allows_8(s[WAVELET], s[WAVELET_HO])
        && s[DEPTH] as u64 + s[DEPTH_HO] as u64 <= 8;
    (job.bytes(), if open { Wanted::Any } else { wanted })
}

/// The example job of document 01.
pub fn example() -> Job {
    Job {
        settings: [1, 1, 1, 0, 0, 1, 1, 0, 1, 0, 0, 1, 1, 0, 0, 255, 255, 0, 0, 7, 0],
        matrix: Vec::new(),
        planes: [vec![130], vec![128], vec![125]],
    }
}

/// One low-delay slice at target 51: 52 bytes, numerator 31.
fn target_51() -> Job {
    let mut job = example();
    job.settings[KIND] = 0;
    (job.settings[RATE], job.settings[RATE_NUMBER]) = (2, 51);
    job
}

/// A slice of one byte at index 127 that keeps a single luma zero.
fn smallest_cut() -> Job {
    let mut job = target_51();
    job.settings[RATE_NUMBER] = 0;
    job.settings[WIDTH] = 2;
    job.settings[CUSTOM] = 1;
    job.matrix = vec![255];
    job.planes = [vec![128, 228], vec![128, 128], vec![128, 128]];
    job
}

/// Scaler 2 is raised to 3, at which a finer index fits, so that it is raised to 4.
///
/// Luma needs 768 bytes at index 0 and 512 at index 1, each colour 3 and 2. Rounded up, index 0
/// takes 780 bytes at scalers 2 and 4 and 778 at 3, and the share is 779, then 778.
fn raised_twice() -> Job {
    let mut job = example();
    job.settings[SCALER] = 2;
    (job.settings[RATE], job.settings[RATE_NUMBER]) = (2, 798);
    (job.settings[WIDTH], job.settings[HEIGHT], job.settings[FORMAT]) = (32, 32, 1);
    job.planes = [vec![131; 1_024], vec![128; 512], vec![128; 512]];
    job.planes[1][..4].fill(131);
    job.planes[2][..4].fill(131);
    job
}

/// A grey picture in high quality, whose numbers are all 0.
fn grey(rng: &mut Random, scaler: u32) -> Vec<u8> {
    let mut job = plain(rng);
    job.settings[KIND] = 1;
    job.settings[SCALER] = scaler;
    for plane in &mut job.planes {
        plane.fill(128);
    }
    job.bytes()
}

/// A lossless unit of exactly this length, by its prefix bytes.
fn exact_length(rng: &mut Random, length: usize) -> Vec<u8> {
    loop {
        let mut job = plain(rng);
        job.settings[KIND] = 1;
        (job.settings[RATE], job.settings[RATE_NUMBER]) = (0, 0);
        (job.settings[ACROSS], job.settings[DOWN]) = (1, 1);
        job.settings[SCALER] = 8_000;
        for plane in &mut job.planes {
            plane.fill(128);
        }
        job.planes[0][0] = 131;
        for prefix in 0..=255 {
            job.settings[PREFIX] = prefix;
            if job.encode(WORK, 2 * length).is_ok_and(|outcome| outcome.unit.len() == length) {
                return job.bytes();
            }
        }
    }
}

fn with_setting(rng: &mut Random, place: usize, content: u32) -> Vec<u8> {
    let mut job = plain(rng);
    job.settings[place] = content;
    job.bytes()
}

fn with_matrix(rng: &mut Random, change: fn(&mut Vec<u32>)) -> Vec<u8> {
    let mut job = plain(rng);
    change(&mut job.matrix);
    job.bytes()
}

fn with_plane(rng: &mut Random, plane: usize, change: fn(&mut Vec<u32>)) -> Vec<u8> {
    let mut job = plain(rng);
    change(&mut job.planes[plane]);
    job.bytes()
}

/// A job of so many sample words, most of them luma.
fn with_sample_count(rng: &mut Random, count: usize) -> Vec<u8> {
    let mut job = plain(rng);
    let colours = job.planes[1].len() + job.planes[2].len();
    job.planes[0].resize(count - colours, 128);
    job.bytes()
}

fn with_words(rng: &mut Random, change: fn(&mut Vec<u32>)) -> Vec<u8> {
    let mut words = plain(rng).words();
    change(&mut words);
    jobs::to_bytes(&words)
}

fn with_bytes(rng: &mut Random, change: fn(&mut Vec<u8>)) -> Vec<u8> {
    let mut bytes = plain(rng).bytes();
    change(&mut bytes);
    bytes
}
