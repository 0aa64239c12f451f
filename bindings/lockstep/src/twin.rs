//! Buffers in pairs: one is lent to the archive, its twin to the independent program, each with guard bytes around what is lent.

use crate::draws::Draws;
use std::ptr;

const GUARD: usize = 64;

pub struct Twin {
    lent: Vec<u8>,
    twin: Vec<u8>,
    /// Where the lent part begins: any alignment.
    start: usize,
}

impl Twin {
    /// Room for so many bytes at most, all drawn.
    pub fn new(room: usize, draws: &mut Draws) -> Self {
        let bytes: Vec<u8> = (0..GUARD + 8 + room + GUARD)
            .map(|_| draws.byte())
            .collect();
        Twin {
            lent: bytes.clone(),
            twin: bytes,
            start: GUARD + draws.below(8),
        }
    }

    /// For the archive: the first bytes of the lent part. Of none it may be a null pointer.
    pub fn pointer(&mut self, length: usize, null: bool) -> *mut u8 {
        if length == 0 && null {
            return ptr::null_mut();
        }
        self.lent[self.start..self.start + length].as_mut_ptr()
    }

    /// The same for the wrapper.
    pub fn lent(&mut self, length: usize) -> &mut [u8] {
        &mut self.lent[self.start..self.start + length]
    }

    /// The same for the independent program.
    pub fn twin(&mut self, length: usize) -> &mut [u8] {
        &mut self.twin[self.start..self.start + length]
    }

    /// Fills both with the same drawn bytes.
    pub fn fill(&mut self, length: usize, draws: &mut Draws) {
        let (mut byte, step) = (draws.byte(), draws.byte());
        for place in self.start..self.start + length {
            self.lent[place] = byte;
            self.twin[place] = byte;
            byte = byte.wrapping_add(step);
        }
    }

    /// Whether both hold the same bytes, before, behind and in the lent part.
    pub fn agrees(&self) -> bool {
        self.lent == self.twin
    }
}

/// A buffer for the usual lengths, and a large one for those that are far too long.
pub struct Twins {
    usual: Twin,
    large: Twin,
}

const USUAL: usize = 320;

impl Twins {
    pub fn new(room: usize, draws: &mut Draws) -> Self {
        Twins {
            usual: Twin::new(USUAL, draws),
            large: Twin::new(room, draws),
        }
    }

    pub fn of(&mut self, length: usize) -> &mut Twin {
        if length <= USUAL {
            &mut self.usual
        } else {
            &mut self.large
        }
    }
}
