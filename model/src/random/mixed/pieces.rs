//! Addresses, data and odd bits, and the sending of frames.

use super::{Author, ARRAY_MASK, PAGE};
use crate::chip::SECURITY_LENGTH;

/// Places where pages, sectors, blocks and the array begin and end.
const EDGES: [usize; 9] = [
    0x0000, 0x00FF, 0x0100, 0x0FFF, 0x1000, 0x7FFF, 0x8000, 0xFF00, 0xFFFF,
];

/// How many of the last visited places are remembered.
const MEMORY: usize = 8;

impl Author {
    /// Sends a frame and tells whether it was accepted.
    pub(super) fn send(&mut self, frame: &[u8]) -> bool {
        self.send_with(frame, 0)
    }

    pub(super) fn send_with(&mut self, frame: &[u8], odd_bits: u8) -> bool {
        self.recorder.frame(frame, odd_bits).is_ok()
    }

    /// Usually no odd bits.
    pub(super) fn some_odd_bits(&mut self) -> u8 {
        match self.random.below(100) {
            0 => 8,
            1..=10 => self.random.between(1, 7) as u8,
            _ => 0,
        }
    }

    /// Often a place visited before or at some edge, and now and then beyond
    /// the array.
    pub(super) fn array_address(&mut self) -> usize {
        let address = match self.random.below(10) {
            0..=3 => self.random.pick(&self.visited),
            4..=6 => {
                let shift = self.random.below(6);
                (self.random.pick(&EDGES) + 3).wrapping_sub(shift)
            }
            _ => self.random.below(ARRAY_MASK + 1),
        };
        let beyond = if self.random.percent(25) {
            self.random.below(256) << 16
        } else {
            0
        };
        address & ARRAY_MASK | beyond
    }

    pub(super) fn visit(&mut self, address: usize) {
        self.visited.push(address & ARRAY_MASK);
        if self.visited.len() > MEMORY {
            self.visited.remove(0);
        }
    }

    /// Often near the edge of a register, and now and then beyond them all.
    pub(super) fn security_address(&mut self) -> usize {
        match self.random.below(100) {
            0..=6 => self
                .random
                .pick(&[0x400, 0x401, 0x1000, 0x01_0000, 0x80_0000, 0xFF_FFFF]),
            7 => SECURITY_LENGTH + self.random.below(0xFF_FC00),
            8..=35 => (self.random.below(5) * PAGE + SECURITY_LENGTH - 3) % SECURITY_LENGTH,
            _ => self.random.below(SECURITY_LENGTH),
        }
    }

    pub(super) fn program_data(&mut self) -> Vec<u8> {
        let length = match self.random.below(100) {
            0..=64 => self.random.between(1, 8),
            65..=91 => self.random.between(9, 40),
            92..=95 => self.random.between(41, 256),
            _ => self.random.between(257, 600),
        };
        (0..length).map(|_| self.data_byte()).collect()
    }

    /// Often with few zero bits, so that later programs still show.
    fn data_byte(&mut self) -> u8 {
        match self.random.below(8) {
            0..=3 => self.random.byte() | self.random.byte() | self.random.byte(),
            4 => 0xFF,
            _ => self.random.byte(),
        }
    }
}

/// A code and its address, high byte first.
pub(super) fn with_address(code: u8, address: usize) -> [u8; 4] {
    [
        code,
        (address >> 16) as u8,
        (address >> 8) as u8,
        address as u8,
    ]
}
