//! The fixed long trace: a tour of every rule in order, then random traffic,
//! then the registers' lock, which nothing undoes, and some more traffic.
//!
//! The tour states what each frame must answer, worked out by hand from the
//! rules, and panics if the model says otherwise.

mod changing;
mod reading;
mod refusing;

use crate::chip::refusal::Refusal;
use crate::hex;
use crate::random::mixed::{extended, Lock};
use crate::random::Random;
use crate::recorder::Recorder;

const SEED_BEFORE_LOCK: u64 = 2508;
const SIZE_BEFORE_LOCK: usize = 80_000;
const SEED_AFTER_LOCK: u64 = 8052;
const SIZE_AFTER_LOCK: usize = 12_000;

/// The long trace, always the same.
pub fn long_trace() -> Vec<u8> {
    let mut tour = Tour::new(Recorder::new());
    tour.show_reading();
    tour.show_changing();
    tour.show_refusing();
    tour.wander(SEED_BEFORE_LOCK, SIZE_BEFORE_LOCK);
    tour.show_lock();
    tour.wander(SEED_AFTER_LOCK, SIZE_AFTER_LOCK);
    tour.recorder.into_trace()
}

/// A trace in the making whose answers are known beforehand.
struct Tour {
    recorder: Recorder,
}

impl Tour {
    fn new(recorder: Recorder) -> Tour {
        Tour { recorder }
    }

    /// Random traffic, after which the chip is idle with clear settings (but
    /// for the lock) and WP# high.
    fn wander(&mut self, seed: u64, size: usize) {
        let recorder = std::mem::take(&mut self.recorder);
        self.recorder = extended(recorder, Random::new(seed), size, Lock::Never);
        self.cut(0xFF);
        self.pin(1);
        self.change("01 00 00", 2);
    }

    /// The frame is accepted, whatever it shows.
    fn accepted(&mut self, frame: &str) {
        self.accepted_with_odd_bits(frame, 0);
    }

    fn accepted_with_odd_bits(&mut self, frame: &str, odd_bits: u8) {
        let outcome = self.recorder.frame(&hex::bytes(frame), odd_bits);
        assert!(
            outcome.is_ok(),
            "{frame} with {odd_bits} odd bits: {outcome:?}"
        );
    }

    /// The frame is accepted and answered with these bytes.
    fn shows(&mut self, frame: &str, answer: &str) {
        let outcome = self.recorder.frame(&hex::bytes(frame), 0);
        assert_eq!(outcome, Ok(hex::bytes(answer).as_slice()), "{frame}");
    }

    /// The frame is refused for this reason.
    fn refused(&mut self, refusal: Refusal, frame: &str) {
        self.refused_with_odd_bits(refusal, frame, 0);
    }

    fn refused_with_odd_bits(&mut self, refusal: Refusal, frame: &str, odd_bits: u8) {
        let outcome = self.recorder.frame(&hex::bytes(frame), odd_bits);
        assert_eq!(outcome, Err(refusal), "{frame} with {odd_bits} odd bits");
    }

    fn ticks(&mut self, count: u16) {
        self.recorder.ticks(count);
    }

    /// WP# takes a level it has.
    fn pin(&mut self, level: u8) {
        assert_eq!(self.recorder.pin(level), Ok(()));
    }

    fn cut(&mut self, junk: u8) {
        self.recorder.cut(junk);
    }

    /// Enables writes and starts a change.
    fn start(&mut self, frame: &str) {
        self.accepted("06");
        self.accepted(frame);
    }

    /// Makes a change and waits exactly until it stands: one tick before the
    /// end it still runs.
    fn change(&mut self, frame: &str, ticks: u16) {
        self.start(frame);
        self.ticks(ticks - 1);
        self.shows("05 00", &format!("FF {:02X}", self.status_low() | 0x03));
        self.ticks(1);
        self.shows("05 00", &format!("FF {:02X}", self.status_low() & 0xFC));
    }

    fn status_low(&self) -> u8 {
        self.recorder.chip().status().to_le_bytes()[0]
    }

    /// Both status bytes are these, high byte first.
    fn status_is(&mut self, status: u16) {
        let [low, high] = status.to_le_bytes();
        self.shows("05 00", &format!("FF {low:02X}"));
        self.shows("35 00", &format!("FF {high:02X}"));
    }

    /// The array holds these bytes from the address on.
    fn array_holds(&mut self, address: usize, bytes: &str) {
        let count = hex::bytes(bytes).len();
        let frame = format!("03 {address:06X} {}", "00".repeat(count));
        self.shows(&frame, &format!("FFFFFFFF {bytes}"));
    }

    /// The security registers hold these bytes from the address on.
    fn registers_hold(&mut self, address: usize, bytes: &str) {
        let count = hex::bytes(bytes).len();
        let frame = format!("48 {address:06X} 00 {}", "00".repeat(count));
        self.shows(&frame, &format!("FFFFFFFFFF {bytes}"));
    }

    /// Makes every array byte the same, by cutting a chip erase.
    fn fill_array(&mut self, byte: u8) {
        self.start("60");
        self.cut(byte);
    }
}
