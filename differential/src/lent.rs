//! Bytes to lend, with guard bytes around them.

use std::hint::black_box;

use reference::random::Random;
use reference::samples::any_bytes;

/// Guard bytes on each side.
const GUARD: usize = 16;

/// Bytes to lend, between guard bytes that are random, so that what is read
/// past the lent bytes differs from case to case.
pub struct Lent {
    memory: Vec<u8>,
    before: Vec<u8>,
}

impl Lent {
    /// A copy of some bytes, to be lent.
    pub fn new(random: &mut Random, bytes: &[u8]) -> Self {
        let guards = any_bytes(random, 2 * GUARD);
        let memory = [&guards[..GUARD], bytes, &guards[GUARD..]].concat();
        let before = memory.clone();
        Self { memory, before }
    }

    /// So many bytes, to be lent, filled in one of several ways.
    pub fn filled(random: &mut Random, length: usize) -> Self {
        let bytes = match random.below(5) {
            0 => vec![0; length],
            1 => vec![255; length],
            2 => vec![0b1010_1010; length],
            3 => (0..length).map(|place| place as u8).collect(),
            _ => any_bytes(random, length),
        };
        Self::new(random, &bytes)
    }

    /// The bytes, without the guards.
    pub fn bytes(&self) -> &[u8] {
        inner(&self.memory)
    }

    /// The bytes, to be written to.
    pub fn bytes_mut(&mut self) -> &mut [u8] {
        let end = self.memory.len() - GUARD;
        &mut self.memory[GUARD..end]
    }

    /// The bytes as they were at first.
    pub fn bytes_before(&self) -> &[u8] {
        inner(&self.before)
    }

    /// Whether bytes and guards are as they were at first.
    pub fn is_unchanged(&self) -> bool {
        self.is_now(self.bytes_before())
    }

    /// Whether the bytes are these now, and the guards as they were at first.
    pub fn is_now(&self, bytes: &[u8]) -> bool {
        inner(black_box(&self.memory)) == bytes && self.is_guarded()
    }

    /// Whether the guards are as they were at first.
    pub fn is_guarded(&self) -> bool {
        // The compiler may take lent bytes for unchanged, so it must not know
        // these.
        let memory = black_box(&self.memory);
        let end = memory.len() - GUARD;
        memory[..GUARD] == self.before[..GUARD] && memory[end..] == self.before[end..]
    }
}

/// The bytes between the guards.
fn inner(memory: &[u8]) -> &[u8] {
    &memory[GUARD..memory.len() - GUARD]
}
