//! Slices to lend: each stands in the middle of a larger one, and a pattern fills what is around
//! it, so that a write outside it is seen.

use std::fmt::Display;

pub trait Element: Copy + PartialEq + Display {
    /// One of many values, none of them 0.
    fn pattern(n: u64) -> Self;
}

fn mixed(n: u64) -> u64 {
    let n = n.wrapping_mul(0x9E37_79B9_7F4A_7C15);
    (n ^ (n >> 29)).wrapping_mul(0xBF58_476D_1CE4_E5B9) >> 8 | 1
}

macro_rules! element {
    ($($of:ty)*) => {
        $(impl Element for $of {
            fn pattern(n: u64) -> Self {
                mixed(n) as $of
            }
        })*
    };
}

element!(u8 u16 u32 i64);

pub struct Lent<T> {
    whole: Vec<T>,
    from: usize,
    len: usize,
    salt: u64,
}

/// Elements around a lent slice, on each side at least.
const MARGIN: usize = 256;

impl<T: Element> Lent<T> {
    /// A slice that itself holds the pattern.
    pub fn filled(salt: u64, len: usize) -> Self {
        let salt = mixed(salt);
        let from = MARGIN + salt as usize / 2 % 8;
        let whole = (0..from + len + MARGIN).map(|i| T::pattern(salt.wrapping_add(i as u64)));
        Lent { whole: whole.collect(), from, len, salt }
    }

    pub fn holding(salt: u64, contents: &[T]) -> Self {
        let mut lent = Self::filled(salt, contents.len());
        lent.whole[lent.from..][..contents.len()].copy_from_slice(contents);
        lent
    }

    pub fn start(&mut self) -> *mut T {
        self.whole[self.from..].as_mut_ptr()
    }

    pub fn len(&self) -> usize {
        self.len
    }

    pub fn part(&self) -> &[T] {
        &self.whole[self.from..][..self.len]
    }

    /// What a filled slice held at this place.
    pub fn old(&self, place: usize) -> T {
        T::pattern(self.salt.wrapping_add((self.from + place) as u64))
    }

    /// Says where the slice does not hold what it must, or whether something around it changed.
    pub fn unlike(&self, name: &str, wanted: impl Fn(usize) -> T) -> Option<String> {
        let pattern = |i: usize| T::pattern(self.salt.wrapping_add(i as u64));
        let around = (0..self.from).chain(self.from + self.len..self.whole.len());
        if let Some(i) = around.into_iter().find(|&i| self.whole[i] != pattern(i)) {
            let place = i as i64 - self.from as i64;
            return Some(format!("written outside the {name} (of {}) at {place}", self.len));
        }
        let place = (0..self.len).find(|&i| self.part()[i] != wanted(i))?;
        let (got, wanted) = (self.part()[place], wanted(place));
        Some(format!("{name} (of {}) at {place} is {got}, not {wanted}", self.len))
    }
}
