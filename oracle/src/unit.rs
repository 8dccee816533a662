//! A small reader of picture units: the head's fields, and for each slice its length, its index and
//! its blocks of numbers.

use std::ops::Range;

pub struct Unit {
    pub code: u8,
    pub next: u32,
    pub previous: u32,
    pub number: u32,
    pub wavelet: u64,
    pub wavelet_ho: u64,
    pub depth: u64,
    pub depth_ho: u64,
    pub across: u64,
    pub down: u64,
    /// Numerator and denominator in low delay, prefix bytes and scaler in high quality.
    pub pair: [u64; 2],
    pub matrix: Option<Vec<u64>>,
    pub slices: Vec<Slice>,
}

pub struct Slice {
    pub length: usize,
    pub index: u8,
    /// The unit's bits that are of luma and of the colours together in low delay, of each component
    /// in high quality.
    pub blocks: Vec<Range<usize>>,
    /// Low delay: the luma run is not empty and its last number is 0, as only a cut leaves it.
    pub luma_ends_in_zero: bool,
}

impl Unit {
    pub fn is_low_delay(&self) -> bool {
        self.code == 0xC8
    }
}

/// A bounded block: A.4.2.
pub struct Block<'a> {
    bits: Bits<'a>,
    end: usize,
}

impl<'a> Block<'a> {
    pub fn new(bytes: &'a [u8], bits: &Range<usize>) -> Block<'a> {
        Block { bits: Bits { bytes, at: bits.start }, end: bits.end }
    }

    /// Behind the end all bits are 1.
    fn bit(&mut self) -> u64 {
        if self.bits.at < self.end { self.bits.bit().expect("the block is in the unit") } else { 1 }
    }

    /// A.4.4: a signed number.
    pub fn signed(&mut self) -> i64 {
        let mut v: u64 = 1;
        while self.bit() == 0 {
            v = 2 * v + self.bit();
        }
        let size = (v - 1) as i64;
        if size != 0 && self.bit() == 1 { -size } else { size }
    }
}

/// Least m where 2^m is at least `n`; `n` is at least 1.
pub fn bits_for(n: u64) -> u32 {
    64 - (n - 1).leading_zeros()
}

struct Bits<'a> {
    bytes: &'a [u8],
    at: usize,
}

impl Bits<'_> {
    fn bit(&mut self) -> Result<u64, String> {
        let byte = *self.bytes.get(self.at / 8).ok_or("unit: ends inside a field")?;
        let bit = byte >> (7 - self.at % 8) & 1;
        self.at += 1;
        Ok(bit as u64)
    }

    fn literal(&mut self, bits: u32) -> Result<u64, String> {
        (0..bits).try_fold(0, |v, _| Ok(2 * v + self.bit()?))
    }

    fn unsigned(&mut self) -> Result<u64, String> {
        let mut v: u64 = 1;
        while self.bit()? == 0 {
            if v >> 63 != 0 {
                return Err("unit: a number of more than 64 bits".into());
            }
            v = 2 * v + self.bit()?;
        }
        Ok(v - 1)
    }

    /// Takes `count` bytes from the next whole byte on, and gives the first one's place.
    fn bytes(&mut self, count: u64) -> Result<usize, String> {
        let start = self.at.div_ceil(8);
        if count > (self.bytes.len() - start) as u64 {
            return Err("unit: ends inside a slice".into());
        }
        self.at = 8 * (start + count as usize);
        Ok(start)
    }
}

/// Reads a whole unit; `version_3` says whether it has the extended transform parameters.
pub fn read(bytes: &[u8], version_3: bool) -> Result<Unit, String> {
    let mut bits = Bits { bytes, at: 0 };
    if bits.literal(32)? != 0x4242_4344 {
        return Err("unit: wrong prefix".into());
    }
    let code = bits.literal(8)? as u8;
    let [next, previous, number] =
        [bits.literal(32)? as u32, bits.literal(32)? as u32, bits.literal(32)? as u32];
    let (wavelet, depth) = (bits.unsigned()?, bits.unsigned()?);
    let (mut wavelet_ho, mut depth_ho) = (wavelet, 0);
    if version_3 {
        if bits.bit()? == 1 {
            wavelet_ho = bits.unsigned()?;
        }
        if bits.bit()? == 1 {
            depth_ho = bits.unsigned()?;
        }
    }
    let (across, down) = (bits.unsigned()?, bits.unsigned()?);
    let pair = [bits.unsigned()?, bits.unsigned()?];
    let matrix = match bits.bit()? {
        0 => None,
        _ => {
            Some((0..1 + depth_ho + 3 * depth).map(|_| bits.unsigned()).collect::<Result<_, _>>()?)
        }
    };
    bits.bytes(0)?;
    let mut slices = Vec::new();
    for k in 0..across * down {
        slices.push(match code {
            0xC8 => {
                low_delay_slice(&mut bits, (k + 1) * pair[0] / pair[1] - k * pair[0] / pair[1])?
            }
            0xE8 => high_quality_slice(&mut bits, pair)?,
            _ => return Err("unit: unknown parse code".into()),
        });
    }
    if bits.at != 8 * bytes.len() {
        return Err("unit: bytes after the last slice".into());
    }
    Ok(Unit {
        code,
        next,
        previous,
        number,
        wavelet,
        wavelet_ho,
        depth,
        depth_ho,
        across,
        down,
        pair,
        matrix,
        slices,
    })
}

fn low_delay_slice(bits: &mut Bits, length: u64) -> Result<Slice, String> {
    if length == 0 {
        return Err("unit: a slice without bytes".into());
    }
    let start = bits.bytes(length)?;
    let slice = &bits.bytes[start..start + length as usize];
    let mut inside = Bits { bytes: slice, at: 0 };
    let index = inside.literal(7)? as u8;
    let luma_bits = inside.literal(bits_for(8 * length - 7))?;
    let end = inside.at + luma_bits as usize;
    if end > 8 * slice.len() {
        return Err("unit: luma length beyond its slice".into());
    }
    let mut last = 1;
    while inside.at < end {
        last = inside.unsigned()?;
        if last != 0 {
            inside.bit()?;
        }
    }
    if inside.at > end {
        return Err("unit: luma length inside a number".into());
    }
    let [luma, colours] = [8 * start + end - luma_bits as usize, 8 * start + end];
    let blocks = vec![luma..colours, colours..8 * (start + slice.len())];
    Ok(Slice { length: length as usize, index, blocks, luma_ends_in_zero: last == 0 })
}

fn high_quality_slice(bits: &mut Bits, [prefix, scaler]: [u64; 2]) -> Result<Slice, String> {
    let start = bits.bytes(prefix)?;
    let index = bits.literal(8)? as u8;
    let mut blocks = Vec::new();
    for _ in 0..3 {
        let count = bits.literal(8)? * scaler;
        let block = 8 * bits.bytes(count)?;
        blocks.push(block..block + 8 * count as usize);
    }
    Ok(Slice { length: bits.at / 8 - start, index, blocks, luma_ends_in_zero: false })
}
