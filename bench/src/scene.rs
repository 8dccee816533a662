//! Planes of 10 bits somewhat like a camera's: slopes, texture in places, shapes with sharp sides
//! and a little noise. All of it is measured in samples, so that a larger plane has more of the
//! same and each sample costs about as much.

use crate::random::Random;

/// Samples on a side of the field that one shape stands in.
const FIELD: usize = 96;

/// The numbers of a grid, from -1024 to 1023, with what lies between them filled in.
struct Layer {
    step: usize,
    across: usize,
    grid: Vec<i64>,
}

impl Layer {
    fn new(rng: &mut Random, step: usize, width: usize, height: usize) -> Layer {
        let [across, down] = [width / step + 2, height / step + 2];
        let grid = (0..across * down).map(|_| rng.below(2_048) as i64 - 1_024).collect();
        Layer { step, across, grid }
    }

    fn at(&self, x: usize, y: usize) -> i64 {
        let place = y / self.step * self.across + x / self.step;
        let [step, right, below] = [self.step, x % self.step, y % self.step].map(|v| v as i64);
        let row = |place: usize| self.grid[place] * (step - right) + self.grid[place + 1] * right;
        (row(place) * (step - below) + row(place + self.across) * below) / (step * step)
    }
}

/// A shape with four slanted sides.
struct Shape {
    centre: [i64; 2],
    slant: [i64; 2],
    reach: i64,
    level: i64,
}

impl Shape {
    fn new(rng: &mut Random) -> Shape {
        let mut number = |lo: u64, hi: u64| rng.range(lo, hi) as i64;
        Shape {
            centre: [number(0, FIELD as u64), number(0, FIELD as u64)],
            slant: [number(1, 4), number(1, 4)],
            reach: number(20, 120),
            level: number(0, 400) - 200,
        }
    }

    fn has(&self, x: usize, y: usize) -> bool {
        let [x, y] = [x as i64 - self.centre[0], y as i64 - self.centre[1]];
        x.abs() * self.slant[0] + y.abs() * self.slant[1] < self.reach
    }
}

/// A plane of these sides whose samples are from 64 to `most`. One of `contrast` 2 has half the
/// slopes, texture and levels of one of `contrast` 4.
pub fn plane(rng: &mut Random, width: usize, height: usize, most: i64, contrast: i64) -> Vec<u16> {
    let mut layer = |step| Layer::new(rng, step, width, height);
    let [wide, middle, narrow, texture, place] = [256, 64, 16, 3, 80].map(&mut layer);
    let fields = width / FIELD + 1;
    let shapes: Vec<Shape> = (0..fields * (height / FIELD + 1)).map(|_| Shape::new(rng)).collect();
    let mut plane = Vec::with_capacity(width * height);
    for y in 0..height {
        for x in 0..width {
            let mut v = 300 * wide.at(x, y) + 120 * middle.at(x, y) + 30 * narrow.at(x, y);
            v += 60 * texture.at(x, y) * place.at(x, y).max(0) / 1_024;
            v /= 1_024;
            let shape = &shapes[y / FIELD * fields + x / FIELD];
            if shape.has(x % FIELD, y % FIELD) {
                v += shape.level;
            }
            let noise = rng.below(5) as i64 + rng.below(5) as i64 - 4;
            plane.push((512 + v * contrast / 4 + noise).clamp(64, most) as u16);
        }
    }
    plane
}
