//! Picture calls at each boundary of documents 01 and 02, from both sides, each with its name and
//! the answer that it must have.

use crate::call::{Call, NO_SETTINGS};
use crate::deep;
use crate::edges;
use crate::jobs::{self, *};
use crate::random::Random;

pub struct Named {
    pub name: String,
    pub call: Call,
    pub answer: u32,
    /// How many slices have index 127, and how many are cut, where the case is about that.
    pub cut: Option<[u64; 2]>,
}

/// What no case tries.
pub const NOT_RUN: &str = "14 by 4,294,967,295 alone, which takes an output longer than that; a \
    longer unit is tried in a short output";

/// The settings' names, in a job's order.
const NAMES: [&str; SETTINGS] = [
    "kind",
    "wavelet",
    "horizontal-only wavelet",
    "depth",
    "horizontal-only depth",
    "across",
    "down",
    "prefix",
    "scaler",
    "rate",
    "rate number",
    "width",
    "height",
    "format",
    "mode",
    "luma excursion",
    "colour excursion",
    "extended",
    "custom",
    "picture number",
    "previous length",
];

const LARGEST: u32 = u32::MAX;
/// Planes are made up to this many samples in all, and work slices up to this many numbers.
const MOST_SAMPLES: u64 = 1 << 18;
const MOST_WORK: u64 = 1 << 23;

type Change<'a> = &'a [(usize, u32)];

struct Cases {
    rng: Random,
    list: Vec<Named>,
    /// Bytes in the output.
    room: usize,
}

/// Every case; one seed gives one list.
pub fn all(seed: u64) -> Vec<Named> {
    let mut cases = Cases { rng: Random::new(seed), list: Vec::new(), room: OUTPUT };
    cases.no_settings();
    cases.wavelets_and_depths();
    cases.slices();
    cases.scaler_and_prefix();
    cases.rates();
    cases.picture();
    cases.in_room(1 << 20, Cases::matrices);
    cases.padded_area();
    cases.planes();
    cases.in_room(1 << 20, Cases::work);
    cases.output();
    cases.cut_slices();
    cases.numbers();
    cases.order();
    cases.list
}

fn kind_name(job: &Job) -> &'static str {
    if job.settings[KIND] == 0 { "low delay" } else { "high quality" }
}

/// A call on a work slice that is just long enough, where the settings let this be told.
fn call_of(job: &Job, room: usize) -> Call {
    let s = job.settings();
    let told = s.depth_sum() <= 8 && s.width.max(s.height) <= 65_535;
    let work = if told && s.work_needed() <= MOST_WORK { s.work_needed() } else { WORK as u64 };
    Call::of(job, work as usize, room)
}

impl Cases {
    /// A small accepted job with some settings changed, of both kinds if none is among them;
    /// matrix and planes are then made to fit.
    fn jobs(&mut self, change: Change) -> Vec<Job> {
        let mut jobs = Vec::new();
        for kind in 0..2 {
            let mut job = edges::plain(&mut self.rng);
            job.settings[KIND] = kind;
            for &(place, word) in change {
                job.settings[place] = word;
            }
            job.fit_matrix(&mut self.rng);
            job.fit_planes_up_to(&mut self.rng, MOST_SAMPLES);
            jobs.push(job);
            if change.iter().any(|&(place, _)| place == KIND) {
                break;
            }
        }
        jobs
    }

    /// These depths, with wavelets 1 and 4 where they sum to more than 5.
    fn at_depths(depth: u32, depth_ho: u32) -> Vec<(usize, u32)> {
        let mut change = vec![(DEPTH, depth), (DEPTH_HO, depth_ho)];
        if depth + depth_ho > 5 {
            change.extend([(WAVELET, 1), (WAVELET_HO, 4)]);
        }
        change
    }

    fn add(&mut self, name: String, call: Call, answer: u32) {
        self.list.push(Named { name, call, answer, cut: None });
    }

    fn settings(&mut self, change: Change, answer: u32) {
        let changed = change.iter().filter(|&&(place, _)| place != KIND);
        let name: Vec<String> =
            changed.map(|&(at, word)| format!("{} {word}", NAMES[at])).collect();
        for job in self.jobs(change) {
            let call = call_of(&job, self.room);
            self.add(format!("{}, {}", name.join(", "), kind_name(&job)), call, answer);
        }
    }

    /// One setting at some values that are accepted and some that are refused with `answer`.
    fn range(&mut self, place: usize, accepted: &[u32], refused: &[u32], answer: u32) {
        for &word in accepted {
            self.settings(&[(place, word)], 0);
        }
        for &word in refused {
            self.settings(&[(place, word)], answer);
        }
    }

    /// A small accepted call of each kind with something else changed.
    fn call(&mut self, name: &str, answer: u32, change: impl Fn(&mut Call)) {
        for job in self.jobs(&[]) {
            let mut call = call_of(&job, self.room);
            change(&mut call);
            self.add(format!("{name}, {}", kind_name(&job)), call, answer);
        }
    }

    /// Makes the cases with an output of `room` bytes.
    fn in_room(&mut self, room: usize, cases: impl FnOnce(&mut Cases)) {
        let old = std::mem::replace(&mut self.room, room);
        cases(self);
        self.room = old;
    }

    fn no_settings(&mut self) {
        self.call("no words", NO_SETTINGS, |c| c.words.clear());
        self.call("20 words", NO_SETTINGS, |c| c.words.truncate(20));
        self.call("22 words", NO_SETTINGS, |c| c.words.push(0));
        self.call("42 words", NO_SETTINGS, |c| c.words.extend(c.words.clone()));
        for (place, first) in [(KIND, 2), (RATE, 3), (EXTENDED, 2), (CUSTOM, 2)] {
            for word in [first, first + 1, 256, 65_536, LARGEST] {
                let name = format!("{} {word}", NAMES[place]);
                self.call(&name, NO_SETTINGS, |c| c.words[place] = word);
            }
        }
        for flag in 0..2 {
            self.settings(&[(EXTENDED, flag), (DEPTH_HO, 0)], 0);
        }
    }

    fn wavelets_and_depths(&mut self) {
        for place in [WAVELET, WAVELET_HO] {
            self.range(place, &[0, 1, 2, 3, 4, 5, 6], &[7, 8, 262, LARGEST], 1);
        }
        for depth in 0..=5 {
            self.settings(&[(DEPTH, depth), (DEPTH_HO, 5 - depth)], 0);
        }
        self.settings(&[(DEPTH, 0), (DEPTH_HO, 0)], 0);
        // Every pair of wavelets at each sum from 5 to 9: 8 is the limit of nine pairs, 5 of the others.
        for wavelet in 0..=6 {
            for wavelet_ho in 0..=6 {
                let limit = if deep::allows_8(wavelet, wavelet_ho) { 8 } else { 5 };
                for sum in 5..=9 {
                    for depth in [0, sum / 2, sum] {
                        let answer = if sum <= limit { 0 } else { 2 };
                        let change: Change = &[
                            (WAVELET, wavelet),
                            (WAVELET_HO, wavelet_ho),
                            (DEPTH, depth),
                            (DEPTH_HO, sum - depth),
                        ];
                        self.in_room(1 << 20, |c| c.settings(change, answer));
                        let lossless = [change, &[(KIND, 1), (RATE, 0), (RATE_NUMBER, 0)]].concat();
                        self.in_room(1 << 20, |c| c.settings(&lossless, answer));
                    }
                }
            }
        }
        for (depth, depth_ho) in [(6, 0), (4, 4), (7, 1), (8, 0), (0, 8)] {
            let mut change = Cases::at_depths(depth, depth_ho);
            change.extend([(WIDTH, 1), (HEIGHT, 1)]);
            self.in_room(1 << 20, |c| c.settings(&change, 0));
        }
        // The largest depths, and sums that come to 8 or less in 32 bits.
        for wavelet in [0, 1] {
            for (depth, depth_ho) in [
                (LARGEST, 0),
                (0, LARGEST),
                (LARGEST, 1),
                (1, LARGEST),
                (LARGEST, 6),
                (9, LARGEST),
                (LARGEST, LARGEST),
                (1 << 31, 1 << 31),
            ] {
                self.settings(
                    &[
                        (WAVELET, wavelet),
                        (WAVELET_HO, wavelet),
                        (DEPTH, depth),
                        (DEPTH_HO, depth_ho),
                    ],
                    2,
                );
            }
        }
    }

    fn slices(&mut self) {
        for (side, other) in [(ACROSS, DOWN), (DOWN, ACROSS)] {
            self.settings(&[(side, 0)], 3);
            self.settings(&[(side, 1)], 0);
            self.settings(&[(side, 65_536), (other, 1)], 3);
            self.settings(&[(side, 65_536), (other, 16)], 3);
            self.settings(&[(side, 65_536), (other, 65_536)], 3);
            self.settings(&[(side, 65_535), (other, 65_535)], 3);
            self.settings(&[(side, 65_535), (other, 17)], 3);
            self.settings(&[(side, 1_024), (other, 1_025)], 3);
            self.settings(&[(side, LARGEST), (other, 1)], 3);
            self.settings(&[(side, LARGEST), (other, LARGEST)], 3);
            self.in_room(1 << 19, |c| {
                c.settings(&[(side, 65_535), (other, 1), (RATE_NUMBER, 0)], 0);
            });
        }
        // The most slices, in enough output and in too little. They take seconds each.
        for (kind, across, down, rate, number) in [
            (0, 1_024, 1_024, 2, 0),
            (0, 65_535, 16, 2, 2_000_000),
            (1, 1_024, 1_024, 0, 0),
            (1, 1_025, 1_023, 1, 9),
            (1, 16, 65_535, 2, 5_000_000),
        ] {
            let change: Change = &[
                (KIND, kind),
                (ACROSS, across),
                (DOWN, down),
                (RATE, rate),
                (RATE_NUMBER, number),
                (DEPTH, 0),
                (DEPTH_HO, number % 2),
            ];
            self.in_room(5 << 20, |c| c.settings(change, 0));
            if rate != 2 || kind == 0 {
                self.in_room(1 << 19, |c| c.settings(change, 14));
            }
        }
    }

    fn scaler_and_prefix(&mut self) {
        self.in_room(1 << 21, |c| {
            c.range(SCALER, &[1, 2, 255, 256, 65_534, 65_535], &[0, 65_536, 65_537, LARGEST], 4);
            c.range(PREFIX, &[0, 1, 254, 255], &[256, 257, 65_536, LARGEST], 4);
            c.settings(&[(SCALER, 65_535), (PREFIX, 255)], 0);
        });
        // 255 and 256 bytes of luma at scaler 1, 510 and 511 at 2: number 1 takes four bits.
        for (scaler, width) in [(1, 510), (1, 511), (1, 512), (1, 513), (2, 1_020), (2, 1_021)] {
            let change: Change = &[(KIND, 1), (WAVELET, 4), (WAVELET_HO, 4), (DEPTH, 0)];
            let mut job = self.jobs(change).remove(0);
            for (place, word) in [
                (DEPTH_HO, 0),
                (ACROSS, 1),
                (DOWN, 1),
                (SCALER, scaler),
                (RATE, 0),
                (WIDTH, width),
                (HEIGHT, 1),
            ] {
                job.settings[place] = word;
            }
            job.fit_matrix(&mut self.rng);
            let wide = width as usize;
            job.planes = [vec![129; wide], vec![128; wide], vec![128; wide]];
            let name = format!("{} bytes of luma at scaler {scaler}", (wide * 4).div_ceil(8));
            self.add(name, call_of(&job, self.room), 0);
        }
    }

    fn rates(&mut self) {
        self.settings(&[(KIND, 0), (RATE, 0), (RATE_NUMBER, 0)], 5);
        self.settings(&[(KIND, 0), (RATE, 0), (RATE_NUMBER, LARGEST)], 5);
        self.settings(&[(KIND, 0), (RATE, 1), (RATE_NUMBER, 0)], 5);
        self.settings(&[(KIND, 0), (RATE, 1), (RATE_NUMBER, 255)], 5);
        self.settings(&[(KIND, 0), (RATE, 1), (RATE_NUMBER, 256)], 5);
        self.settings(&[(KIND, 0), (RATE, 2), (RATE_NUMBER, 0)], 0);
        // The rate number of lossless is not looked at.
        for number in [0, 1, 256, 1_073_741_825, LARGEST] {
            self.settings(&[(KIND, 1), (RATE, 0), (RATE_NUMBER, number)], 0);
        }
        for index in [0, 1, 127, 128, 243, 244, 254, 255] {
            self.settings(&[(KIND, 1), (RATE, 1), (RATE_NUMBER, index)], 0);
        }
        for index in [256, 257, 65_536, 1_073_741_825, LARGEST] {
            self.settings(&[(KIND, 1), (RATE, 1), (RATE_NUMBER, index)], 6);
        }
        for target in [0, 1, 16, 17, 18, 1_073_741_823, 1_073_741_824] {
            self.settings(&[(KIND, 1), (RATE, 2), (RATE_NUMBER, target)], 0);
            let answer = if target > OUTPUT as u32 { 14 } else { 0 };
            self.settings(&[(KIND, 0), (RATE, 2), (RATE_NUMBER, target)], answer);
        }
        for target in [1_073_741_825, 1 << 31, LARGEST] {
            self.settings(&[(RATE, 2), (RATE_NUMBER, target)], 7);
        }
    }

    fn picture(&mut self) {
        self.range(FORMAT, &[0, 1, 2], &[3, 4, 256, LARGEST], 8);
        self.range(MODE, &[0, 1], &[2, 256, LARGEST], 8);
        for place in [LUMA_EXCURSION, COLOUR_EXCURSION] {
            let accepted = [1, 2, 3, 4, 255, 256, 32_767, 32_768, 65_534, 65_535];
            self.range(place, &accepted, &[0, 65_536, 65_537, LARGEST], 8);
        }
        for (side, other) in [(WIDTH, HEIGHT), (HEIGHT, WIDTH)] {
            self.range(side, &[1, 2, 3], &[0, 65_536, 65_537, LARGEST], 8);
            self.in_room(1 << 21, |c| {
                c.settings(&[(side, 65_535), (other, 1), (RATE_NUMBER, 2_000)], 0);
                c.settings(&[(side, 65_534), (other, 1), (RATE_NUMBER, 2_000)], 0);
            });
            self.settings(&[(side, 65_536), (other, 65_536)], 8);
            self.settings(&[(side, LARGEST), (other, LARGEST)], 8);
        }
        // Sides that halve to 0, and those that just do not.
        self.settings(&[(FORMAT, 0), (MODE, 0), (WIDTH, 1), (HEIGHT, 1)], 0);
        self.settings(&[(FORMAT, 0), (MODE, 1), (WIDTH, 1), (HEIGHT, 1)], 8);
        for height in [2, 3] {
            self.settings(&[(FORMAT, 0), (MODE, 1), (WIDTH, 1), (HEIGHT, height)], 0);
        }
        for format in [1, 2] {
            self.settings(&[(FORMAT, format), (MODE, 0), (WIDTH, 1), (HEIGHT, 4)], 8);
            self.settings(&[(FORMAT, format), (MODE, 1), (WIDTH, 1), (HEIGHT, 4)], 8);
            for width in [2, 3] {
                self.settings(&[(FORMAT, format), (MODE, 0), (WIDTH, width), (HEIGHT, 4)], 0);
                self.settings(&[(FORMAT, format), (MODE, 1), (WIDTH, width), (HEIGHT, 4)], 0);
            }
        }
        self.settings(&[(FORMAT, 1), (MODE, 0), (WIDTH, 2), (HEIGHT, 1)], 0);
        self.settings(&[(FORMAT, 1), (MODE, 1), (WIDTH, 2), (HEIGHT, 1)], 8);
        self.settings(&[(FORMAT, 1), (MODE, 1), (WIDTH, 2), (HEIGHT, 2)], 0);
        self.settings(&[(FORMAT, 2), (MODE, 0), (WIDTH, 2), (HEIGHT, 1)], 8);
        for height in [2, 3] {
            self.settings(&[(FORMAT, 2), (MODE, 0), (WIDTH, 2), (HEIGHT, height)], 0);
            self.settings(&[(FORMAT, 2), (MODE, 1), (WIDTH, 2), (HEIGHT, height)], 8);
        }
        for height in [4, 5, 6, 7] {
            self.settings(&[(FORMAT, 2), (MODE, 1), (WIDTH, 2), (HEIGHT, height)], 0);
        }
    }

    fn matrices(&mut self) {
        for (depth, depth_ho) in [
            (0, 0),
            (1, 0),
            (0, 1),
            (2, 1),
            (5, 0),
            (0, 5),
            (3, 2),
            (6, 0),
            (3, 3),
            (8, 0),
            (7, 1),
            (4, 4),
            (0, 8),
        ] {
            for job in self.jobs(&Cases::at_depths(depth, depth_ho)) {
                let exact = job.matrix.len();
                for (count, answer) in [
                    (0, 9),
                    (exact - 1, 9),
                    (exact, 0),
                    (exact + 1, 9),
                    (exact + 3, 9),
                    (64, 9),
                    (1_000, 9),
                ] {
                    let mut call = call_of(&job, self.room);
                    call.matrix.resize(count, 3);
                    let name = format!(
                        "{count} matrix values at depths {depth} and {depth_ho}, {}",
                        kind_name(&job)
                    );
                    self.add(name, call, answer);
                }
                for place in [0, exact / 2, exact - 1] {
                    for (value, answer) in [
                        (0, 0),
                        (254, 0),
                        (255, 0),
                        (256, 9),
                        (65_535, 9),
                        (65_536, 9),
                        (65_536 + 7, 9),
                        (1 << 31, 9),
                        (LARGEST, 9),
                    ] {
                        let mut call = call_of(&job, self.room);
                        call.matrix[place] = value;
                        let name = format!(
                            "matrix value {value} at {place} of {exact}, {}",
                            kind_name(&job)
                        );
                        self.add(name, call, answer);
                    }
                }
            }
        }
        // A matrix that is not asked for is not looked at.
        let default: Change = &[(CUSTOM, 0), (DEPTH, 1), (DEPTH_HO, 0)];
        for matrix in [vec![], vec![0; 4], vec![9; 3], vec![LARGEST; 4], vec![1; 1_000]] {
            for job in self.jobs(default) {
                let mut call = call_of(&job, self.room);
                let name = format!("{} values beside the default matrix", matrix.len());
                call.matrix = matrix.clone();
                self.add(format!("{name}, {}", kind_name(&job)), call, 0);
            }
        }
        // Annex D for all wavelets and depths, as the Rust has it.
        for wavelet in 0..=6 {
            for wavelet_ho in 0..=6 {
                for depth in 0..=5 {
                    for depth_ho in 0..=5 - depth {
                        self.settings(
                            &[
                                (KIND, (wavelet + depth_ho) % 2),
                                (CUSTOM, 0),
                                (WAVELET, wavelet),
                                (WAVELET_HO, wavelet_ho),
                                (DEPTH, depth),
                                (DEPTH_HO, depth_ho),
                            ],
                            0,
                        );
                        let last = self.list.last_mut().expect("one was added");
                        let settings = last.call.settings().expect("they are settings");
                        if !settings.has_default_matrix() {
                            last.answer = 10;
                        }
                    }
                }
            }
        }
        // Annex D has no matrix where the depths sum to more than 5.
        for wavelet in deep::WAVELETS {
            for wavelet_ho in deep::WAVELETS {
                for sum in 6..=8 {
                    for depth in 0..=sum {
                        self.settings(
                            &[
                                (CUSTOM, 0),
                                (WAVELET, wavelet),
                                (WAVELET_HO, wavelet_ho),
                                (DEPTH, depth),
                                (DEPTH_HO, sum - depth),
                            ],
                            10,
                        );
                    }
                }
            }
        }
        // Some wavelets and depths by hand.
        self.settings(&[(CUSTOM, 0), (WAVELET, 3), (WAVELET_HO, 1), (DEPTH, 2), (DEPTH_HO, 0)], 0);
        self.settings(&[(CUSTOM, 0), (WAVELET, 1), (WAVELET_HO, 3), (DEPTH, 2), (DEPTH_HO, 0)], 10);
        self.settings(&[(CUSTOM, 0), (DEPTH, 4), (DEPTH_HO, 0)], 0);
        self.settings(&[(CUSTOM, 0), (DEPTH, 4), (DEPTH_HO, 1)], 0);
        self.settings(&[(CUSTOM, 0), (DEPTH, 5), (DEPTH_HO, 0)], 10);
        self.settings(&[(CUSTOM, 0), (DEPTH, 0), (DEPTH_HO, 4)], 0);
        self.settings(&[(CUSTOM, 0), (DEPTH, 0), (DEPTH_HO, 5)], 10);
    }

    /// Planes of such sizes are not made: 12 shows that 11 was passed.
    fn padded_area(&mut self) {
        const D: usize = DEPTH;
        const H: usize = DEPTH_HO;
        const W: usize = WIDTH;
        for (change, answer) in [
            ([(W, 8_192), (HEIGHT, 8_192), (D, 0), (H, 0), (MODE, 0)], 12),
            ([(W, 8_192), (HEIGHT, 8_193), (D, 0), (H, 0), (MODE, 0)], 11),
            ([(W, 8_193), (HEIGHT, 8_192), (D, 0), (H, 0), (MODE, 0)], 11),
            ([(W, 8_191), (HEIGHT, 8_191), (D, 1), (H, 0), (MODE, 0)], 12),
            ([(W, 8_193), (HEIGHT, 8_191), (D, 1), (H, 0), (MODE, 0)], 11),
            ([(W, 8_191), (HEIGHT, 8_193), (D, 1), (H, 0), (MODE, 0)], 11),
            ([(W, 8_161), (HEIGHT, 8_161), (D, 5), (H, 0), (MODE, 0)], 12),
            ([(W, 8_161), (HEIGHT, 8_192), (D, 0), (H, 5), (MODE, 0)], 12),
            ([(W, 8_161), (HEIGHT, 8_193), (D, 0), (H, 5), (MODE, 0)], 11),
            ([(W, 8_161), (HEIGHT, 8_177), (D, 4), (H, 1), (MODE, 0)], 12),
            ([(W, 8_160), (HEIGHT, 8_193), (D, 4), (H, 1), (MODE, 0)], 12),
            ([(W, 8_161), (HEIGHT, 8_193), (D, 4), (H, 1), (MODE, 0)], 11),
            ([(W, 65_535), (HEIGHT, 1_024), (D, 0), (H, 0), (MODE, 0)], 12),
            ([(W, 65_535), (HEIGHT, 1_025), (D, 0), (H, 0), (MODE, 0)], 11),
            ([(W, 65_535), (HEIGHT, 1_024), (D, 0), (H, 5), (MODE, 0)], 12),
            ([(W, 65_535), (HEIGHT, 1_025), (D, 0), (H, 5), (MODE, 0)], 11),
            ([(W, 65_535), (HEIGHT, 1_024), (D, 5), (H, 0), (MODE, 0)], 12),
            ([(W, 65_535), (HEIGHT, 1_025), (D, 5), (H, 0), (MODE, 0)], 11),
            ([(W, 1_024), (HEIGHT, 65_535), (D, 0), (H, 0), (MODE, 0)], 12),
            ([(W, 1_025), (HEIGHT, 65_535), (D, 0), (H, 0), (MODE, 0)], 11),
            ([(W, 8_192), (HEIGHT, 16_384), (D, 0), (H, 0), (MODE, 1)], 12),
            ([(W, 8_192), (HEIGHT, 16_385), (D, 0), (H, 0), (MODE, 1)], 12),
            ([(W, 8_192), (HEIGHT, 16_386), (D, 0), (H, 0), (MODE, 1)], 11),
            ([(W, 7_937), (HEIGHT, 7_937), (D, 8), (H, 0), (MODE, 0)], 12),
            ([(W, 8_193), (HEIGHT, 7_936), (D, 8), (H, 0), (MODE, 0)], 12),
            ([(W, 8_193), (HEIGHT, 7_937), (D, 8), (H, 0), (MODE, 0)], 11),
            ([(W, 7_937), (HEIGHT, 8_192), (D, 0), (H, 8), (MODE, 0)], 12),
            ([(W, 7_937), (HEIGHT, 8_193), (D, 0), (H, 8), (MODE, 0)], 11),
            ([(W, 7_937), (HEIGHT, 8_177), (D, 4), (H, 4), (MODE, 0)], 12),
            ([(W, 7_937), (HEIGHT, 8_193), (D, 4), (H, 4), (MODE, 0)], 11),
            ([(W, 65_535), (HEIGHT, 769), (D, 8), (H, 0), (MODE, 0)], 12),
            ([(W, 65_535), (HEIGHT, 1_025), (D, 8), (H, 0), (MODE, 0)], 11),
            ([(W, 769), (HEIGHT, 65_535), (D, 8), (H, 0), (MODE, 0)], 12),
            ([(W, 1_025), (HEIGHT, 65_535), (D, 8), (H, 0), (MODE, 0)], 11),
            ([(W, 65_535), (HEIGHT, 65_535), (D, 8), (H, 0), (MODE, 0)], 11),
            // 2^32 and just below, which is 0 and less than that in 32 bits.
            ([(W, 65_535), (HEIGHT, 65_535), (D, 0), (H, 0), (MODE, 0)], 11),
            ([(W, 65_535), (HEIGHT, 65_535), (D, 1), (H, 0), (MODE, 0)], 11),
            ([(W, 65_535), (HEIGHT, 65_535), (D, 5), (H, 0), (MODE, 0)], 11),
        ] {
            for format in 0..3 {
                let [.., (_, depth), (_, depth_ho), _] = change;
                let mut change = change.to_vec();
                change.push((FORMAT, format));
                change.extend(Cases::at_depths(depth, depth_ho));
                self.settings(&change, answer);
            }
        }
    }

    fn planes(&mut self) {
        for format in 0..3 {
            let change: Change = &[(FORMAT, format), (WIDTH, 6), (HEIGHT, 4)];
            for job in self.jobs(change) {
                let kind = kind_name(&job);
                for plane in 0..3 {
                    let exact = job.planes[plane].len();
                    for (count, answer) in [
                        (exact - 1, 12),
                        (exact, 0),
                        (exact + 1, 12),
                        (0, 12),
                        (2 * exact, 12),
                        (65_536 + exact, 12),
                    ] {
                        let mut call = call_of(&job, self.room);
                        call.planes[plane].resize(count, 5);
                        let name =
                            format!("plane {plane} of format {format} has {count} samples, {kind}");
                        self.add(name, call, answer);
                    }
                }
                let mut call = call_of(&job, self.room);
                call.planes.rotate_left(1);
                let answer = if format == 0 { 0 } else { 12 };
                self.add(format!("planes of format {format} change places, {kind}"), call, answer);
            }
        }
    }

    fn work(&mut self) {
        for depth in 0..=8 {
            for depth_ho in 0..=8 - depth {
                for format in 0..3 {
                    let mut change = Cases::at_depths(depth, depth_ho);
                    change.extend([(KIND, (depth + format) % 2), (FORMAT, format)]);
                    let job = self.jobs(&change).remove(0);
                    let exact = job.settings().work_needed() as usize;
                    for (work, answer) in
                        [(0, 13), (exact / 3, 13), (exact - 1, 13), (exact, 0), (exact + 1, 0)]
                    {
                        let name = format!(
                            "{work} numbers of work for depths {depth} and {depth_ho}, format \
                             {format}, {}",
                            kind_name(&job)
                        );
                        self.add(name, Call::of(&job, work, self.room), answer);
                    }
                }
            }
        }
    }

    fn output(&mut self) {
        for change in [
            &[(KIND, 0), (RATE, 2), (RATE_NUMBER, 0)],
            &[(KIND, 0), (RATE, 2), (RATE_NUMBER, 100)],
            &[(KIND, 0), (RATE, 2), (RATE_NUMBER, 1_000)],
            &[(KIND, 1), (RATE, 0), (RATE_NUMBER, 0)],
            &[(KIND, 1), (RATE, 1), (RATE_NUMBER, 9)],
            &[(KIND, 1), (RATE, 2), (RATE_NUMBER, 0)],
            &[(KIND, 1), (RATE, 2), (RATE_NUMBER, 100)],
            &[(KIND, 1), (RATE, 2), (RATE_NUMBER, 1_000)],
        ] {
            let job = self.jobs(change).remove(0);
            let mut call = call_of(&job, 1 << 18);
            let exact = call.expected().map_or(1, |outcome| outcome.unit.len());
            for (output, answer) in
                [(0, 14), (1, 14), (exact / 2, 14), (exact - 1, 14), (exact, 0), (exact + 1, 0)]
            {
                call.output = output;
                let [rate, number] = [change[1].1, change[2].1];
                let name = format!(
                    "{output} bytes of output for {exact}, rate {rate} with {number}, {}",
                    kind_name(&job)
                );
                self.add(name, call.clone(), answer);
            }
        }
        // 65,536 slices of one number in each component, which takes one scaler. All of it is
        // 2^32 bytes and the head in the first case, and less than 2^32 in the second.
        for (scaler, prefix) in [(21_844, 0), (21_843, 2), (65_535, 255)] {
            let change: Change = &[(KIND, 1), (DEPTH, 0), (DEPTH_HO, 0), (RATE, 0)];
            let mut job = self.jobs(change).remove(0);
            for (place, word) in [
                (ACROSS, 256),
                (DOWN, 256),
                (WIDTH, 256),
                (HEIGHT, 256),
                (SCALER, scaler),
                (PREFIX, prefix),
            ] {
                job.settings[place] = word;
            }
            job.planes = [131, 127, 130].map(|sample| vec![sample; 65_536]);
            let bytes = 65_536 * (4 + prefix as u64 + 3 * scaler as u64);
            let name = format!("a unit of {bytes} bytes and its head, scaler {scaler}");
            self.add(name, call_of(&job, self.room), 14);
        }
    }

    /// One row of samples, matrix values of 126: at index 127 a difference of 1 becomes 0, a larger
    /// one does not.
    fn cut_slices(&mut self) {
        type Row<'a> = [&'a [u32]; 3];
        let grey: &[u32] = &[128];
        let two: Row = [&[130, 131], &[131, 131], &[128, 131]];
        let ramp: Row = [&[129, 130, 131, 132], &[128; 4], &[128; 4]];
        // Slices across, target, samples, slices of index 127, cut slices.
        let rows: [(&str, u32, u32, Row, [u64; 2]); 13] = [
            ("grey", 1, 0, [grey, grey, grey], [0, 0]),
            ("luma fits", 1, 0, [&[129], grey, grey], [1, 0]),
            ("luma does not, with the same unit", 1, 0, [&[131], grey, grey], [1, 1]),
            ("the first colour fits", 1, 0, [grey, &[127], grey], [1, 0]),
            ("the first colour does not", 1, 0, [grey, &[125], grey], [1, 1]),
            ("the second colour fits", 1, 0, [grey, grey, &[129]], [1, 0]),
            ("the second colour does not", 1, 0, [grey, grey, &[131]], [1, 1]),
            ("a luma 0 is written", 1, 23, [&[128, 228], &[128, 128], &[128, 128]], [1, 1]),
            ("a ramp, two slices fit", 2, 25, ramp, [2, 0]),
            ("a ramp, two slices do not", 2, 23, ramp, [2, 2]),
            ("two slices of one byte", 2, 22, two, [2, 2]),
            ("two slices of two bytes, the colours of one lost", 2, 25, two, [2, 1]),
            ("two slices of three bytes", 2, 27, two, [0, 0]),
        ];
        for (name, across, target, planes, cut) in rows {
            let mut job = edges::example();
            job.settings[KIND] = 0;
            (job.settings[RATE], job.settings[RATE_NUMBER]) = (2, target);
            (job.settings[ACROSS], job.settings[WIDTH]) = (across, planes[0].len() as u32);
            job.settings[CUSTOM] = 1;
            job.matrix = vec![126];
            job.planes = planes.map(|plane| plane.to_vec());
            self.add_cut(name, &job, cut);
            (job.settings[KIND], job.settings[RATE], job.settings[RATE_NUMBER]) = (1, 1, 127);
            self.add_cut(&format!("samples of \"{name}\", high quality"), &job, [across as u64, 0]);
        }
        // A longer ramp, two levels, eight slices of index 127.
        let mut job = edges::example();
        (job.settings[KIND], job.settings[RATE]) = (0, 2);
        (job.settings[ACROSS], job.settings[WIDTH], job.settings[DEPTH]) = (8, 32, 2);
        job.settings[CUSTOM] = 1;
        job.matrix = vec![126; 7];
        job.planes = [(0..32).map(|x| 112 + x / 2).collect(), vec![128; 32], vec![128; 32]];
        for (target, cut) in [(64, 0), (56, 2), (48, 8)] {
            job.settings[RATE_NUMBER] = target;
            self.add_cut(&format!("a ramp in eight slices, target {target}"), &job, [8, cut]);
        }
    }

    fn add_cut(&mut self, name: &str, job: &Job, cut: [u64; 2]) {
        let (name, call) = (format!("cut slices: {name}"), Call::of(job, WORK, OUTPUT));
        self.list.push(Named { name, call, answer: 0, cut: Some(cut) });
    }

    fn numbers(&mut self) {
        for place in [PICTURE_NUMBER, PREVIOUS_LENGTH] {
            let words = [0, 1, 255, CONTENT, CONTENT + 1, 1 << 31, LARGEST - 1, LARGEST];
            self.range(place, &words, &[], 0);
        }
        self.settings(&[(PICTURE_NUMBER, LARGEST), (PREVIOUS_LENGTH, LARGEST)], 0);
    }

    /// Each refusal with each later one: the first in order is the answer.
    fn order(&mut self) {
        type Breaks = [(u32, fn(&mut Call)); 16];
        let breaks: Breaks = [
            (NO_SETTINGS, |c| c.words[EXTENDED] = 2),
            (1, |c| c.words[WAVELET] = 7),
            (2, |c| (c.words[WAVELET], c.words[DEPTH_HO]) = (0, 6)),
            (2, |c| (c.words[WAVELET], c.words[WAVELET_HO], c.words[DEPTH]) = (1, 4, 9)),
            (3, |c| c.words[DOWN] = 0),
            (4, |c| c.words[SCALER] = 0),
            (5, |c| (c.words[KIND], c.words[RATE]) = (0, 1)),
            (6, |c| (c.words[KIND], c.words[RATE], c.words[RATE_NUMBER]) = (1, 1, 256)),
            (7, |c| (c.words[RATE], c.words[RATE_NUMBER]) = (2, 1_073_741_825)),
            (8, |c| c.words[MODE] = 2),
            (9, |c| {
                c.words[CUSTOM] = 1;
                c.matrix.push(0);
            }),
            (10, |c| (c.words[CUSTOM], c.words[WAVELET], c.words[WAVELET_HO]) = (0, 1, 3)),
            (11, |c| (c.words[WIDTH], c.words[HEIGHT]) = (65_535, 65_535)),
            (12, |c| {
                c.planes[1].pop();
            }),
            (13, |c| c.work = 0),
            (14, |c| c.output = 0),
        ];
        for (i, (first, break_first)) in breaks.into_iter().enumerate() {
            self.call(&format!("{first} alone"), first, break_first);
            for (second, break_second) in &breaks[i + 1..] {
                self.call(&format!("{first} and {second}"), first, |call| {
                    break_second(call);
                    break_first(call);
                });
            }
            self.call(&format!("{first} and all later ones"), first, |call| {
                for (_, break_later) in breaks[i..].iter().rev() {
                    break_later(call);
                }
            });
        }
    }
}

/// Jobs for the job program alone, well formed and not: the longest ones, and every way to cut
/// document 01's example short, to put a word of it into another kind or to change the order of
/// two.
pub fn jobs(seed: u64) -> Vec<(String, Vec<u8>)> {
    let mut list: Vec<(String, Vec<u8>)> = Vec::new();
    let mut add = |name: String, bytes: Vec<u8>| list.push((name, bytes));
    let plain = edges::plain(&mut Random::new(seed));
    for matrix in [63, 64, 65, 1_000] {
        for planes in [[4_096, 0, 0], [0, 0, 4_096], [4_000, 48, 48], [4_096, 0, 1], [9_000, 0, 0]]
        {
            let mut job = plain.clone();
            job.matrix = vec![7; matrix];
            job.planes = planes.map(|count| vec![65_535; count]);
            let name = format!("{matrix} matrix words and samples {planes:?}");
            add(name.clone(), job.bytes());
            for more in [1, 3, 4, 8, 10_000] {
                let mut bytes = job.bytes();
                bytes.resize(bytes.len() + more, 0);
                add(format!("{name} and {more} bytes"), bytes);
            }
        }
    }
    let words = edges::example().words();
    let bytes = jobs::to_bytes(&words);
    add("a job twice".into(), [&bytes[..], &bytes[..]].concat());
    add("a job and 100,000 bytes".into(), [&bytes[..], &[0; 100_000][..]].concat());
    add("100,000 bytes".into(), vec![0; 100_000]);
    add("20,000 luma words".into(), jobs::to_bytes(&[2 << 28; 20_000]));
    for count in 0..=bytes.len() {
        add(format!("{count} bytes of the example"), bytes[..count].to_vec());
    }
    for place in 0..words.len() {
        for kind in 0..16 {
            let mut words = words.clone();
            words[place] = words[place] & CONTENT | kind << 28;
            add(format!("word {place} of the example in kind {kind}"), jobs::to_bytes(&words));
        }
        let mut fewer = words.clone();
        fewer.remove(place);
        add(format!("the example without word {place}"), jobs::to_bytes(&fewer));
        let mut again = words.clone();
        again.insert(place, words[place]);
        add(format!("the example with word {place} twice"), jobs::to_bytes(&again));
        if place + 1 < words.len() {
            let mut swapped = words.clone();
            swapped.swap(place, place + 1);
            add(format!("word {place} of the example after the next"), jobs::to_bytes(&swapped));
        }
    }
    list
}
