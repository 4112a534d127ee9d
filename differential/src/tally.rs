//! Counting what was compared.

use std::fmt;

/// How many answers were compared, by their refusals.
#[derive(Default)]
pub struct Tally {
    by_refusal: [usize; 15],
}

impl Tally {
    /// Counts an answer, by the number that stands for it.
    pub fn count(&mut self, code: u32) {
        self.by_refusal[(code >> 16) as usize] += 1;
    }

    /// Counts an item that was read, by the number that stands for it.
    pub fn count_item(&mut self, code: u64) {
        self.by_refusal[(code >> 48) as usize] += 1;
    }

    /// How many answers were compared.
    pub fn all(&self) -> usize {
        self.by_refusal.iter().sum()
    }

    /// How many answers had a refusal, by its number; 0 for those that had none.
    pub fn with(&self, refusal: u8) -> usize {
        self.by_refusal[usize::from(refusal)]
    }
}

impl fmt::Display for Tally {
    fn fmt(&self, f: &mut fmt::Formatter<'_>) -> fmt::Result {
        write!(f, "{} granted", self.by_refusal[0])?;
        for (refusal, &count) in self.by_refusal.iter().enumerate().skip(1) {
            if count > 0 {
                write!(f, ", {count} refused with {refusal}")?;
            }
        }
        Ok(())
    }
}
