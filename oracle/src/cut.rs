//! Cut slices: document 02, (iv). The unit alone does not show them, so the numbers that are read
//! of it are compared with those that the Rust has quantised.

use crate::unit::{Block, Slice, Unit};

/// How many slices are cut: one of their numbers is not 0 and is not written. These must be of low
/// delay and of index 127.
pub fn count(bytes: &[u8], unit: &Unit, quantised: &[[Vec<i64>; 3]]) -> Result<u64, String> {
    let mut cut = 0;
    for (slice, numbers) in unit.slices.iter().zip(quantised) {
        let [y, c1, c2] = numbers;
        let colours: Vec<i64> = c1.iter().zip(c2).flat_map(|(&u, &v)| [u, v]).collect();
        let runs: &[&[i64]] = if unit.is_low_delay() { &[y, &colours] } else { &[y, c1, c2] };
        if is_cut(bytes, slice, runs)? {
            if !unit.is_low_delay() || slice.index != 127 {
                return Err(format!("the Rust cuts a slice of index {}", slice.index));
            }
            cut += 1;
        }
    }
    Ok(cut)
}

/// Whether a number that is not 0 is read as 0. In each run the numbers before the first such one
/// must be read as they were quantised, and all behind it as 0.
fn is_cut(bytes: &[u8], slice: &Slice, runs: &[&[i64]]) -> Result<bool, String> {
    let mut cut = false;
    for (run, block) in runs.iter().zip(&slice.blocks) {
        let mut block = Block::new(bytes, block);
        let mut lost = false;
        for &number in *run {
            let read = block.signed();
            lost |= number != 0 && read == 0;
            if read != if lost { 0 } else { number } {
                return Err(format!("the Rust writes {read} for {number}"));
            }
        }
        cut |= lost;
    }
    Ok(cut)
}
