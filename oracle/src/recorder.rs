//! The file format of recorded cases: 64-bit words, high byte first. A case is a header word,
//! kind times 2^32 plus the count of words that follow, and these words.

use std::collections::BTreeMap;
use std::io::{self, Write};

pub struct Recorder<W: Write> {
    out: W,
    counts: BTreeMap<u64, u64>,
    bytes: u64,
}

impl<W: Write> Recorder<W> {
    pub fn new(out: W) -> Self {
        Recorder { out, counts: BTreeMap::new(), bytes: 0 }
    }

    pub fn case(&mut self, kind: u64, payload: &[u64]) -> io::Result<()> {
        self.out.write_all(&((kind << 32) + payload.len() as u64).to_be_bytes())?;
        for word in payload {
            self.out.write_all(&word.to_be_bytes())?;
        }
        *self.counts.entry(kind).or_default() += 1;
        self.bytes += 8 + 8 * payload.len() as u64;
        Ok(())
    }

    /// Cases written so far.
    pub fn total(&self) -> u64 {
        self.counts.values().sum()
    }

    /// Ends the file and gives a line on what it holds.
    pub fn finish(mut self) -> io::Result<String> {
        self.out.flush()?;
        let kinds: Vec<String> = self.counts.iter().map(|(k, n)| format!("{k}: {n}")).collect();
        Ok(format!("{} cases ({}), {} bytes", self.total(), kinds.join(", "), self.bytes))
    }
}

/// Bytes eight to a word, high byte first, the last word filled up with zeros.
pub fn packed(bytes: &[u8]) -> impl Iterator<Item = u64> + '_ {
    bytes.chunks(8).map(|part| {
        let mut word = [0; 8];
        word[..part.len()].copy_from_slice(part);
        u64::from_be_bytes(word)
    })
}
