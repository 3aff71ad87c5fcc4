//! Writes a trace while playing it, so that its author knows the chip's state.

use crate::chip::command::LONGEST_FRAME;
use crate::chip::refusal::Refusal;
use crate::chip::Chip;
use crate::replay::bench_part;
use crate::trace::Record;

/// A well-formed trace in the making, and the bench part as it leaves it.
pub struct Recorder {
    trace: Vec<u8>,
    chip: Chip,
    answer: Vec<u8>,
}

impl Recorder {
    pub fn new() -> Recorder {
        Recorder {
            trace: Vec::new(),
            chip: bench_part(),
            answer: vec![0; LONGEST_FRAME],
        }
    }

    pub fn chip(&self) -> &Chip {
        &self.chip
    }

    /// The length of the trace so far.
    pub fn length(&self) -> usize {
        self.trace.len()
    }

    pub fn into_trace(self) -> Vec<u8> {
        self.trace
    }

    /// Records a whole frame, from CS# low to CS# high, and answers as the
    /// chip does.
    ///
    /// # Panics
    /// If the frame is longer than a trace can hold.
    pub fn frame(&mut self, bytes: &[u8], odd_bits: u8) -> Result<&[u8], Refusal> {
        assert!(bytes.len() <= LONGEST_FRAME, "too long for a frame");
        Record::Select.append_to(&mut self.trace);
        for &byte in bytes {
            Record::ClockedByte(byte).append_to(&mut self.trace);
        }
        Record::Deselect { odd_bits }.append_to(&mut self.trace);
        let answer = &mut self.answer[..bytes.len()];
        self.chip.frame(bytes, odd_bits, answer)?;
        Ok(answer)
    }

    pub fn ticks(&mut self, count: u16) {
        Record::Ticks(count).append_to(&mut self.trace);
        self.chip.ticks(count);
    }

    pub fn pin(&mut self, level: u8) -> Result<(), Refusal> {
        Record::Pin(level).append_to(&mut self.trace);
        self.chip.pin(level)
    }

    pub fn cut(&mut self, junk: u8) {
        Record::Cut(junk).append_to(&mut self.trace);
        self.chip.cut(&[junk]).expect("one junk byte always fits");
    }
}

impl Default for Recorder {
    fn default() -> Recorder {
        Recorder::new()
    }
}
