//! One-sided traces for measuring speed.

use super::Random;
use crate::chip::command::LONGEST_FRAME;
use crate::recorder::Recorder;

/// Hardly anything but array reads of the longest frame, over an array that
/// holds some random pages.
pub fn reads(seed: u64, size: usize) -> Vec<u8> {
    let mut random = Random::new(seed);
    let mut recorder = Recorder::new();
    for _ in 0..8 {
        program_random_page(&mut recorder, &mut random);
    }
    while recorder.length() < size {
        let mut frame = random.bytes(LONGEST_FRAME);
        frame[0] = 0x03;
        let _ = recorder.frame(&frame, 0);
    }
    recorder.into_trace()
}

fn program_random_page(recorder: &mut Recorder, random: &mut Random) {
    let mut frame = random.bytes(4 + 256);
    frame[0] = 0x02;
    let _ = recorder.frame(&[0x06], 0);
    let _ = recorder.frame(&frame, 0);
    recorder.ticks(3);
}

/// Nothing but short records: levels, long waits and frames of one byte.
pub fn short(seed: u64, size: usize) -> Vec<u8> {
    let mut random = Random::new(seed);
    let mut recorder = Recorder::new();
    while recorder.length() < size {
        match random.below(4) {
            0 => {
                let level = random.pick(&[0, 1]);
                let _ = recorder.pin(level);
            }
            1 => recorder.ticks(0xFFFF),
            2 => recorder.cut(random.byte()),
            _ => {
                let code = random.pick(&[0x03, 0x04, 0x05, 0x06, 0xAB]);
                let _ = recorder.frame(&[code], 0);
            }
        }
    }
    recorder.into_trace()
}

/// Nothing but chip erases, some of them cut: the most work for each byte of
/// the trace.
pub fn erases(seed: u64, size: usize) -> Vec<u8> {
    let mut random = Random::new(seed);
    let mut recorder = Recorder::new();
    while recorder.length() < size {
        let code = random.pick(&[0x60, 0xC7]);
        let _ = recorder.frame(&[0x06], 0);
        let _ = recorder.frame(&[code], 0);
        if random.percent(25) {
            recorder.cut(random.byte());
        } else {
            recorder.ticks(21);
        }
    }
    recorder.into_trace()
}
