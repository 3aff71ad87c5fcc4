//! Sleep, idle time, wrong frames and very long ones.

use super::pieces::with_address;
use super::Author;
use crate::chip::command::{Command, CODES, LONGEST_FRAME};
use crate::chip::SECURITY_LENGTH;

impl Author {
    pub(super) fn nap(&mut self) {
        self.send(&[0xB9]);
        match self.random.below(10) {
            0..=4 => self.disturb(),
            5 => self.recorder.ticks(0xFFFF),
            6 => self.send_odd_frame(),
            7 => self.move_pin(),
            _ => {}
        }
        match self.random.below(10) {
            0..=6 => self.wake(),
            7..=8 => {
                let junk = self.junk();
                self.recorder.cut(junk);
            }
            _ => {}
        }
    }

    pub(super) fn move_pin(&mut self) {
        let level = match self.random.below(10) {
            0..=3 => 1,
            4..=7 => 0,
            8 => 2,
            _ => self.random.byte(),
        };
        let _ = self.recorder.pin(level);
    }

    pub(super) fn idle(&mut self) {
        match self.random.below(5) {
            0 => self.recorder.ticks(0),
            1 => self.recorder.ticks(0xFFFF),
            2 => self.recorder.ticks(self.random.number() as u16),
            _ => {
                let junk = self.junk();
                self.recorder.cut(junk);
            }
        }
        self.read_status();
    }

    pub(super) fn toggle_write_enable(&mut self) {
        let code = self.random.pick(&[0x04, 0x04, 0x06]);
        self.send(&[code]);
        self.read_status();
    }

    pub(super) fn send_odd_frame(&mut self) {
        match self.random.below(6) {
            0 => {
                let odd_bits = self.random.below(10) as u8;
                self.send_with(&[], odd_bits);
            }
            1 => {
                let frame = self.well_shaped_frame();
                let odd_bits = self.random.pick(&[8, 9, 0x80, 0xFF]);
                self.send_with(&frame, odd_bits);
            }
            2 => self.send_unlisted_code(),
            3 => {
                let length = self.random.between(1, 12);
                let mut frame = self.random.bytes(length);
                if frame[0] == 0x01 && frame.len() == 3 {
                    frame[2] &= !0x04;
                }
                self.send(&frame);
            }
            _ => self.send_misshapen_frame(),
        }
    }

    pub(super) fn send_unlisted_code(&mut self) {
        let tail = self.random.below(5);
        let frame = [&[self.unlisted_code()], self.random.bytes(tail).as_slice()].concat();
        let odd_bits = self.some_odd_bits();
        self.send_with(&frame, odd_bits);
    }

    fn unlisted_code(&mut self) -> u8 {
        loop {
            let code = self.random.byte();
            if Command::decode(code).is_none() {
                return code;
            }
        }
    }

    /// A command with too few bytes, too many, or odd bits it does not allow.
    pub(super) fn send_misshapen_frame(&mut self) {
        loop {
            let mut frame = self.well_shaped_frame();
            match self.random.below(3) {
                0 => frame.truncate(self.random.between(1, frame.len())),
                1 => frame.extend(self.random.bytes(1)),
                _ => {}
            }
            let odd_bits = self.random.below(8) as u8;
            if is_misshapen(&frame, odd_bits) {
                self.send_with(&frame, odd_bits);
                return;
            }
        }
    }

    /// A frame of the right shape for some command, which may be refused for
    /// other reasons.
    pub(super) fn well_shaped_frame(&mut self) -> Vec<u8> {
        let code = self.random.pick(&CODES);
        let tail_length = self.random.between(1, 6);
        let tail = self.random.bytes(tail_length);
        match code {
            0x06 | 0x04 | 0xB9 | 0x60 | 0xC7 | 0x44 => vec![code],
            0x01 => self.status_write_frame(),
            0x20 | 0x52 | 0xD8 => with_address(code, self.array_address()).to_vec(),
            0x05 | 0x35 | 0xAB => [&[code], tail.as_slice()].concat(),
            0x42 | 0x48 => [
                &with_address(code, self.security_address()),
                tail.as_slice(),
            ]
            .concat(),
            _ => [&with_address(code, self.array_address()), tail.as_slice()].concat(),
        }
    }

    /// A frame near or at the greatest length, if the trace has room for it.
    pub(super) fn send_long_frame(&mut self) {
        let room = self.end.saturating_sub(self.recorder.length());
        if room < 2 * LONGEST_FRAME {
            return;
        }
        let length = LONGEST_FRAME - self.random.pick(&[0, 0, 1, 2, 500]);
        let code = self.random.pick(&[0x02, 0x03, 0x05, 0x0B, 0x42, 0x48]);
        let address = match code {
            0x42 | 0x48 => self.random.below(SECURITY_LENGTH),
            _ => self.array_address(),
        };
        let mut frame = self.random.bytes(length);
        frame[..4].copy_from_slice(&with_address(code, address));
        if matches!(code, 0x02 | 0x42) {
            let protected = code == 0x02 && self.is_array_protected();
            self.lift_protection(protected);
            self.enable();
        }
        let accepted = self.send(&frame);
        if accepted && code == 0x02 {
            self.live_through_change();
            self.read_page_back(address, length);
        }
        if accepted && code == 0x42 {
            self.live_through_change();
            self.read_register_back(address, length);
        }
    }
}

/// Whether the frame's command does not take this many bytes or odd bits.
fn is_misshapen(frame: &[u8], odd_bits: u8) -> bool {
    Command::decode(frame[0]).is_some_and(|command| {
        !command.lengths().contains(&frame.len()) || (odd_bits > 0 && !command.allows_odd_bits())
    })
}
