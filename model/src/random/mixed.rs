//! Random traces in which most frames are accepted.
//!
//! The author follows the chip while it writes: it usually enables writes,
//! lifts protection, waits long enough and wakes the chip up before it asks
//! for something, and now and then forgets to. Whatever may have changed is
//! read back, so that a wrong byte shows in the answers.

mod changes;
mod oddities;
mod pieces;
mod reads;

use super::Random;
use crate::chip::command::Command;
use crate::recorder::Recorder;

/// Whether the security registers may be locked, which nothing undoes.
#[derive(Clone, Copy, Debug, PartialEq, Eq)]
pub enum Lock {
    /// In the last quarter of the trace.
    Late,
    Never,
}

/// A well-formed random trace of about the size.
pub fn trace(seed: u64, size: usize, lock: Lock) -> Vec<u8> {
    extended(Recorder::new(), Random::new(seed), size, lock).into_trace()
}

/// Goes on with a trace for about that many bytes.
pub fn extended(recorder: Recorder, random: Random, size: usize, lock: Lock) -> Recorder {
    let start = recorder.length();
    let lock_from = match lock {
        Lock::Late => start + size / 4 * 3,
        Lock::Never => usize::MAX,
    };
    let mut author = Author {
        random,
        recorder,
        end: start + size,
        lock_from,
        visited: vec![0],
    };
    while author.recorder.length() < author.end {
        author.write_episode();
    }
    author.recorder
}

const ARRAY_MASK: usize = 0xFFFF;
const PAGE: usize = 256;

struct Author {
    random: Random,
    recorder: Recorder,
    end: usize,
    lock_from: usize,
    /// Array addresses of recent changes, worth visiting again.
    visited: Vec<usize>,
}

impl Author {
    fn write_episode(&mut self) {
        self.settle();
        match self.random.below(100) {
            0..=22 => self.program_array(),
            23..=35 => self.erase_array(),
            36..=44 => self.program_security(),
            45..=48 => self.erase_security(),
            49..=57 => self.write_status(),
            58..=70 => self.read_array_somewhere(),
            71..=76 => self.read_security_somewhere(),
            77..=81 => self.read_status(),
            82..=85 => self.nap(),
            86..=88 => self.move_pin(),
            89..=91 => self.idle(),
            92..=93 => self.toggle_write_enable(),
            94..=98 => self.send_odd_frame(),
            _ => self.send_long_frame(),
        }
    }

    /// Usually wakes the chip up and lets a running change finish.
    fn settle(&mut self) {
        if self.recorder.chip().is_asleep() && self.random.percent(92) {
            self.wake();
        }
        let left = self.recorder.chip().ticks_left();
        if left > 0 && self.random.percent(92) {
            self.recorder.ticks(left);
        }
    }

    fn wake(&mut self) {
        let tail = self.random.below(8);
        let mut frame = vec![0xAB];
        frame.extend(self.random.bytes(tail));
        let odd_bits = self.some_odd_bits();
        self.send_with(&frame, odd_bits);
    }

    /// Usually sets the write enable latch.
    fn enable(&mut self) {
        let enabled = self.recorder.chip().is_write_enabled();
        if self.random.percent(if enabled { 20 } else { 94 }) {
            self.send(&[0x06]);
        }
    }

    /// Usually clears the protection if it stands in the way.
    fn lift_protection(&mut self, in_the_way: bool) {
        if in_the_way && self.random.percent(80) {
            let keep_quad = if self.random.percent(50) { 0x02 } else { 0x00 };
            self.write_settings(0x00, Some(keep_quad));
        }
    }

    fn is_array_protected(&self) -> bool {
        self.recorder.chip().settings().protects(&(0..0x1_0000))
    }

    /// Usually sets the quad enable bit if the command needs it.
    fn allow_quad_for(&mut self, code: u8) {
        let settings = self.recorder.chip().settings();
        let needed = Command::decode(code).is_some_and(Command::needs_quad);
        if needed && !settings.quad_enable && self.random.percent(75) {
            let [low, high] = settings.bits().to_le_bytes();
            self.write_settings(low, Some(high | 0x02));
        }
    }

    /// A status write with all it needs, waited for.
    fn write_settings(&mut self, low: u8, high: Option<u8>) {
        self.free_status_register();
        self.send(&[0x06]);
        let mut frame = vec![0x01, low];
        frame.extend(high);
        self.send(&frame);
        self.recorder.ticks(2);
    }

    /// Usually raises WP# if the status register is guarded by it.
    fn free_status_register(&mut self) {
        let chip = self.recorder.chip();
        let guarded = chip.settings().register_protect && !chip.is_write_protect_high();
        if guarded && self.random.percent(85) {
            let _ = self.recorder.pin(1);
        }
    }
}
