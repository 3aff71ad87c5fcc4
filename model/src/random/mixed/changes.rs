//! Programs, erases and status writes, and what happens while they run.

use super::pieces::with_address;
use super::{Author, PAGE};

impl Author {
    pub(super) fn program_array(&mut self) {
        let code = self.random.pick(&[0x02, 0x02, 0x32]);
        let protected = self.is_array_protected();
        self.lift_protection(protected);
        self.allow_quad_for(code);
        self.enable();
        let address = self.array_address();
        let data = self.program_data();
        let frame = [&with_address(code, address), data.as_slice()].concat();
        if self.send(&frame) {
            self.visit(address);
            self.live_through_change();
            self.read_page_back(address, data.len());
        }
    }

    pub(super) fn erase_array(&mut self) {
        let code = self
            .random
            .pick(&[0x20, 0x20, 0x20, 0x52, 0x52, 0xD8, 0xD8, 0x60, 0xC7]);
        let in_the_way = match code {
            0x60 | 0xC7 => !self.recorder.chip().settings().allows_chip_erase(),
            _ => self.is_array_protected(),
        };
        self.lift_protection(in_the_way);
        self.enable();
        let address = self.array_address();
        let (frame, unit) = match code {
            0x20 => (with_address(code, address).to_vec(), 0x1000),
            0x52 => (with_address(code, address).to_vec(), 0x8000),
            0xD8 => (with_address(code, address).to_vec(), 0x1_0000),
            _ => (vec![code], 0x1_0000),
        };
        if self.send(&frame) {
            self.visit(address);
            self.live_through_change();
            self.read_unit_back(address, unit);
        }
    }

    pub(super) fn program_security(&mut self) {
        self.enable();
        let address = self.security_address();
        let data = self.program_data();
        let frame = [&with_address(0x42, address), data.as_slice()].concat();
        if self.send(&frame) {
            self.live_through_change();
            self.read_register_back(address, data.len());
        }
    }

    pub(super) fn erase_security(&mut self) {
        self.enable();
        if self.send(&[0x44]) {
            self.live_through_change();
            for register in 0..4 {
                let start = register * PAGE + self.random.below(PAGE);
                let length = self.random.between(2, 12);
                self.read_security_back(start, length);
            }
        }
    }

    pub(super) fn write_status(&mut self) {
        if self.random.percent(15) {
            return self.guard_status_register();
        }
        self.free_status_register();
        self.enable();
        let frame = self.status_write_frame();
        if self.send(&frame) {
            self.live_through_change();
        }
        self.read_both_status_bytes();
    }

    /// SRP with WP# low: the status register refuses to be written.
    fn guard_status_register(&mut self) {
        let [low, high] = self.recorder.chip().settings().bits().to_le_bytes();
        self.write_settings(low | 0x80, Some(high));
        let _ = self.recorder.pin(0);
        self.send(&[0x06]);
        let frame = self.status_write_frame();
        self.send(&frame);
        self.read_both_status_bytes();
        if self.random.percent(80) {
            let _ = self.recorder.pin(1);
            self.write_settings(low & 0x7F, Some(high));
        }
    }

    pub(super) fn status_write_frame(&mut self) -> Vec<u8> {
        let low = match self.random.below(4) {
            0 => 0x00,
            1 => (self.random.below(16) << 2) as u8,
            2 => self.random.byte() & 0x7F,
            _ => self.random.byte(),
        };
        if self.random.percent(30) {
            return vec![0x01, low];
        }
        let may_lock = self.recorder.length() >= self.lock_from && self.random.percent(30);
        let lock_mask = if may_lock { 0xFF } else { !0x04 };
        vec![0x01, low, self.random.byte() & lock_mask]
    }

    /// What happens while an accepted change runs: it is waited for, looked
    /// at, disturbed, cut, or left alone.
    pub(super) fn live_through_change(&mut self) {
        let left = self.recorder.chip().ticks_left();
        match self.random.below(100) {
            0..=34 => self.recorder.ticks(left),
            35..=42 => {
                let excess = self.random.pick(&[1, 7, 1000, 0xFFFF - left]);
                self.recorder.ticks(left + excess);
            }
            43..=52 => {
                self.recorder.ticks(left - 1);
                self.read_status();
                self.recorder.ticks(1);
                self.read_status();
            }
            53..=68 => {
                self.let_some_ticks_pass();
                self.disturb();
                let left = self.recorder.chip().ticks_left();
                self.recorder.ticks(left);
            }
            69..=94 => {
                self.let_some_ticks_pass();
                if self.random.percent(20) {
                    self.disturb();
                }
                let junk = self.junk();
                self.recorder.cut(junk);
                if self.random.percent(30) {
                    self.read_status();
                }
            }
            _ => {}
        }
    }

    /// Fewer ticks than the running change needs.
    fn let_some_ticks_pass(&mut self) {
        let left = self.recorder.chip().ticks_left();
        let count = self.random.below(usize::from(left)) as u16;
        if count > 0 || self.random.percent(20) {
            self.recorder.ticks(count);
        }
    }

    /// Frames to a busy or sleeping chip.
    pub(super) fn disturb(&mut self) {
        for _ in 0..self.random.between(1, 3) {
            match self.random.below(6) {
                0..=2 => self.read_status(),
                3 => self.send_unlisted_code(),
                4 => self.send_misshapen_frame(),
                _ => {
                    let frame = self.well_shaped_frame();
                    self.send(&frame);
                }
            }
        }
    }

    pub(super) fn junk(&mut self) -> u8 {
        if self.random.percent(40) {
            self.random.pick(&[0x00, 0x01, 0x5A, 0xA5, 0xFE, 0xFF])
        } else {
            self.random.byte()
        }
    }
}
