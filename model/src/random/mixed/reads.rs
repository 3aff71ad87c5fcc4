//! Reads, above all of what may have changed.

use super::pieces::with_address;
use super::{Author, ARRAY_MASK, PAGE};
use crate::chip::SECURITY_LENGTH;

impl Author {
    pub(super) fn read_page_back(&mut self, address: usize, length: usize) {
        let start = address / PAGE * PAGE;
        if length > 24 {
            self.read_array_back(start, PAGE);
            return;
        }
        self.read_array_back(address.wrapping_sub(2), length + 4);
        if address % PAGE + length > PAGE {
            self.read_array_back(start.wrapping_sub(2), length + 4);
        }
    }

    /// Looks at both ends of an erased piece and into it.
    pub(super) fn read_unit_back(&mut self, address: usize, unit: usize) {
        let start = address / unit * unit;
        self.read_array_back(start.wrapping_sub(3), 6);
        self.read_array_back((start + unit).wrapping_sub(3), 6);
        for _ in 0..2 {
            let inside = start + self.random.below(unit);
            self.read_array_back(inside, 8);
        }
        self.read_array_back(address, 4);
    }

    fn read_array_back(&mut self, address: usize, length: usize) {
        if self.recorder.chip().ticks_left() > 0 {
            return;
        }
        let quad = self.recorder.chip().settings().quad_enable;
        let codes: &[u8] = if quad {
            &[0x03, 0x0B, 0x3B, 0x6B]
        } else {
            &[0x03, 0x0B, 0x3B]
        };
        let code = self.random.pick(codes);
        self.read_array(code, address, length);
    }

    pub(super) fn read_array_somewhere(&mut self) {
        let code = self.random.pick(&[0x03, 0x0B, 0x3B, 0x6B]);
        self.allow_quad_for(code);
        let length = match self.random.below(20) {
            0 => 0,
            1 => self.random.between(100, 300),
            _ => self.random.between(1, 24),
        };
        let address = if self.random.percent(15) {
            0xFFFF - self.random.below(16)
        } else {
            self.array_address()
        };
        self.read_array(code, address, length);
    }

    fn read_array(&mut self, code: u8, address: usize, length: usize) {
        let dummies = if code == 0x03 { 0 } else { 1 };
        let beyond = self
            .random
            .pick(&[0, 0, 0, 0x03_0000, 0x10_0000, 0xFF_0000]);
        let address = address & ARRAY_MASK | beyond;
        let tail = self.random.bytes(dummies + length);
        let frame = [&with_address(code, address), tail.as_slice()].concat();
        let odd_bits = self.some_odd_bits();
        self.send_with(&frame, odd_bits);
    }

    pub(super) fn read_register_back(&mut self, address: usize, length: usize) {
        let start = address / PAGE * PAGE;
        if length > 24 {
            self.read_security_back(start, PAGE);
            return;
        }
        self.read_security_back(address.wrapping_sub(2), length + 4);
        if address % PAGE + length > PAGE {
            self.read_security_back(start.wrapping_sub(2), length + 4);
        }
    }

    pub(super) fn read_security_back(&mut self, address: usize, length: usize) {
        if self.recorder.chip().ticks_left() == 0 {
            self.read_security(address % SECURITY_LENGTH, length);
        }
    }

    pub(super) fn read_security_somewhere(&mut self) {
        let address = self.security_address();
        let length = match self.random.below(40) {
            0 => self.random.between(1024, 1100),
            1..=3 => self.random.between(100, 300),
            _ => self.random.between(0, 24),
        };
        self.read_security(address, length);
    }

    fn read_security(&mut self, address: usize, length: usize) {
        let tail = self.random.bytes(1 + length);
        let frame = [&with_address(0x48, address), tail.as_slice()].concat();
        let odd_bits = self.some_odd_bits();
        self.send_with(&frame, odd_bits);
    }

    pub(super) fn read_status(&mut self) {
        let code = self.random.pick(&[0x05, 0x05, 0x35]);
        let tail = self.random.between(0, 4);
        let frame = [&[code], self.random.bytes(tail).as_slice()].concat();
        let odd_bits = self.some_odd_bits();
        self.send_with(&frame, odd_bits);
    }

    pub(super) fn read_both_status_bytes(&mut self) {
        self.send(&[0x05, 0x00]);
        self.send(&[0x35, 0x00]);
    }
}
