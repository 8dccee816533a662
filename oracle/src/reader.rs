//! A reading of lossless units by ST 2042-1, from the unit's bytes back to the samples, for
//! wavelets 1, 3 and 4. It takes nothing from the Rust encoder or the port.

use crate::picture::{Settings, Size};
use crate::unit::{Block, Unit};

/// A band or a plane, row by row.
#[derive(Clone)]
struct Plane {
    width: usize,
    height: usize,
    numbers: Vec<i64>,
}

impl Plane {
    fn new(width: usize, height: usize) -> Plane {
        Plane { width, height, numbers: vec![0; width * height] }
    }
}

/// The samples of the three components, with those beyond the sample depth as they were coded.
pub fn samples(bytes: &[u8], unit: &Unit, s: &Settings) -> Result<[Vec<i64>; 3], String> {
    let [luma, colour] = s.sizes();
    let mut bands = [luma, colour, colour].map(|size| empty_bands(unit, s.padded(size)));
    for (k, slice) in unit.slices.iter().enumerate() {
        if slice.index != 0 {
            return Err("a lossless unit has an index above 0".into());
        }
        for (component, block) in bands.iter_mut().zip(&slice.blocks) {
            let mut block = Block::new(bytes, block);
            for band in component.iter_mut() {
                slice_of(band, unit, k, &mut block);
            }
        }
    }
    let excursions = [s.luma_excursion, s.colour_excursion, s.colour_excursion];
    let sizes = [luma, colour, colour];
    Ok([0, 1, 2].map(|i| {
        let offset = 1i64 << (Settings::sample_depth(excursions[i]) - 1);
        let plane = synthesis(&bands[i], unit);
        let rows = plane.numbers.chunks(plane.width).take(sizes[i].height as usize);
        let shown = rows.flat_map(|row| &row[..sizes[i].width as usize]);
        shown.map(|&number| number + offset).collect()
    }))
}

/// 13.2: the subbands of a component in the order of a slice, LL or L first.
fn empty_bands(unit: &Unit, padded: Size) -> Vec<Plane> {
    let [width, height] = [padded.width as usize, padded.height as usize];
    let (depth, levels) = (unit.depth as usize, (unit.depth + unit.depth_ho) as usize);
    let mut bands = vec![Plane::new(width >> levels, height >> depth)];
    for level in 1..=levels {
        let width = width >> (levels - level + 1);
        if level <= unit.depth_ho as usize {
            bands.push(Plane::new(width, height >> depth));
        } else {
            bands.extend(vec![Plane::new(width, height >> (levels - level + 1)); 3]);
        }
    }
    bands
}

/// 13.5.6: the numbers of one slice in one band.
fn slice_of(band: &mut Plane, unit: &Unit, k: usize, block: &mut Block) {
    let [columns, rows] = [unit.across as usize, unit.down as usize];
    let [across, down] = [k % columns, k / columns];
    for y in band.height * down / rows..band.height * (down + 1) / rows {
        for x in band.width * across / columns..band.width * (across + 1) / columns {
            band.numbers[y * band.width + x] = block.signed();
        }
    }
}

/// 15.4.1: the plane that the bands are of.
fn synthesis(bands: &[Plane], unit: &Unit) -> Plane {
    let (first, mut rest) = bands.split_first().expect("there is a band of level 0");
    let mut plane = first.clone();
    for _ in 0..unit.depth_ho {
        let (high, after) = rest.split_first().expect("a level has one band");
        plane = interleaved(&[&plane, high], 1);
        rows_by(&mut plane, unit.wavelet_ho);
        rest = after;
    }
    for _ in 0..unit.depth {
        let (three, after) = rest.split_at(3);
        plane = interleaved(&[&plane, &three[0], &three[1], &three[2]], 2);
        columns_by(&mut plane, unit.wavelet);
        rows_by(&mut plane, unit.wavelet_ho);
        rest = after;
    }
    plane
}

/// The bands L and H, or LL, HL, LH and HH, each at its places of a plane.
fn interleaved(bands: &[&Plane], down: usize) -> Plane {
    let mut plane = Plane::new(2 * bands[0].width, down * bands[0].height);
    for (n, band) in bands.iter().enumerate() {
        for (y, row) in band.numbers.chunks(band.width).enumerate() {
            for (x, &number) in row.iter().enumerate() {
                plane.numbers[(down * y + n / 2) * plane.width + 2 * x + n % 2] = number;
            }
        }
    }
    plane
}

fn columns_by(plane: &mut Plane, wavelet: u64) {
    for x in 0..plane.width {
        let places = (0..plane.height).map(|y| y * plane.width + x);
        let mut column: Vec<i64> = places.clone().map(|at| plane.numbers[at]).collect();
        lifted(&mut column, wavelet);
        places.zip(column).for_each(|(at, number)| plane.numbers[at] = number);
    }
}

/// The rows, and then the accuracy bit that wavelets 1 and 4 have is rounded away (15.4.2, 15.4.3).
fn rows_by(plane: &mut Plane, wavelet: u64) {
    for row in plane.numbers.chunks_mut(plane.width) {
        lifted(row, wavelet);
        if wavelet != 3 {
            row.iter_mut().for_each(|number| *number = (*number + 1) >> 1);
        }
    }
}

/// 15.4.4: LeGall for wavelet 1, Haar for 3 and 4. A place beyond an end is the next one of its
/// parity inside.
fn lifted(row: &mut [i64], wavelet: u64) {
    for x in (0..row.len()).step_by(2) {
        row[x] -= match wavelet {
            1 => (row[if x == 0 { 1 } else { x - 1 }] + row[x + 1] + 2) >> 2,
            _ => (row[x + 1] + 1) >> 1,
        };
    }
    for x in (1..row.len()).step_by(2) {
        row[x] += match wavelet {
            1 => (row[x - 1] + row[if x + 1 == row.len() { x - 1 } else { x + 1 }] + 1) >> 1,
            _ => row[x - 1],
        };
    }
}
