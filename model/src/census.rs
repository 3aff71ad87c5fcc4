//! Counts what happens in a trace.

use std::fmt;

use crate::chip::command::{CODES, LONGEST_FRAME};
use crate::chip::refusal::{answer_number, Refusal};
use crate::chip::{Change, Chip, Memory};
use crate::replay::bench_part;
use crate::trace::{Malformed, Step, TraceReader};

/// Answer numbers run from 0 to 10.
const ANSWERS: usize = 11;

const CHANGE_KINDS: [&str; 8] = [
    "status write",
    "array program",
    "sector erase",
    "32 KiB erase",
    "64 KiB or chip erase",
    "register program",
    "register erase",
    "no change",
];

/// How often each thing happens in a trace.
#[derive(Clone, Debug)]
pub struct Census {
    pub bytes: usize,
    /// Frames by answer number.
    pub frames: [u64; ANSWERS],
    /// Ticks, pin levels and cuts by answer number.
    pub others: [u64; ANSWERS],
    /// Frames by code: accepted and refused.
    pub by_code: [(u64, u64); 256],
    /// Power cuts by the kind of change they end.
    pub cuts: [u64; CHANGE_KINDS.len()],
    pub malformed: Option<Malformed>,
}

impl Census {
    pub fn of(trace: &[u8]) -> Census {
        let mut census = Census {
            bytes: trace.len(),
            frames: [0; ANSWERS],
            others: [0; ANSWERS],
            by_code: [(0, 0); 256],
            cuts: [0; CHANGE_KINDS.len()],
            malformed: None,
        };
        census.malformed = census.count(trace).err();
        census
    }

    /// The frames, accepted or not.
    pub fn frame_count(&self) -> u64 {
        self.frames.iter().sum()
    }

    pub fn accepted_percent(&self) -> u64 {
        100 * self.frames[0] / self.frame_count().max(1)
    }

    fn count(&mut self, trace: &[u8]) -> Result<(), Malformed> {
        let mut chip = bench_part();
        let mut reader = TraceReader::new(trace);
        while let Some(step) = reader.next_step()? {
            self.count_step(step, &mut chip);
        }
        Ok(())
    }

    fn count_step(&mut self, step: Step, chip: &mut Chip) {
        match step {
            Step::Frame { bytes, odd_bits } => {
                let outcome = chip.frame(bytes, odd_bits, &mut [0; LONGEST_FRAME]);
                self.count_frame(bytes, outcome);
            }
            Step::Ticks(count) => {
                chip.ticks(count);
                self.count_other(Ok(()));
            }
            Step::Pin(level) => self.count_other(chip.pin(level)),
            Step::Cut(junk) => {
                self.cuts[change_kind(chip.running_change())] += 1;
                self.count_other(chip.cut(&[junk]));
            }
        }
    }

    fn count_frame(&mut self, bytes: &[u8], outcome: Result<(), Refusal>) {
        self.frames[usize::from(answer_number(outcome))] += 1;
        if let Some(&code) = bytes.first() {
            let (accepted, refused) = &mut self.by_code[usize::from(code)];
            match outcome {
                Ok(()) => *accepted += 1,
                Err(_) => *refused += 1,
            }
        }
    }

    fn count_other(&mut self, outcome: Result<(), Refusal>) {
        self.others[usize::from(answer_number(outcome))] += 1;
    }
}

/// The index of the running change in the list of kinds.
fn change_kind(change: Option<&Change>) -> usize {
    let array = Memory::Array;
    match change {
        Some(Change::StatusWrite(_)) => 0,
        Some(Change::Program { memory, .. }) if *memory == array => 1,
        Some(Change::Erase { memory, range }) if *memory == array => match range.len() {
            0x1000 => 2,
            0x8000 => 3,
            _ => 4,
        },
        Some(Change::Program { .. }) => 5,
        Some(Change::Erase { .. }) => 6,
        None => 7,
    }
}

impl fmt::Display for Census {
    fn fmt(&self, f: &mut fmt::Formatter<'_>) -> fmt::Result {
        writeln!(f, "{} bytes", self.bytes)?;
        let (accepted, all) = (self.frames[0], self.frame_count());
        writeln!(
            f,
            "{accepted} of {all} frames accepted, {} %",
            self.accepted_percent()
        )?;
        writeln!(f, "\nanswer   frames   ticks, pins and cuts")?;
        for (number, (frames, others)) in self.frames.iter().zip(self.others).enumerate() {
            writeln!(f, "{number:>6} {frames:>8} {others:>8}")?;
        }
        writeln!(f, "\n  code accepted  refused")?;
        for code in CODES {
            let (accepted, refused) = self.by_code[usize::from(code)];
            writeln!(f, "    {code:02X} {accepted:>8} {refused:>8}")?;
        }
        let unlisted = (0..=0xFF).filter(|code| !CODES.contains(code));
        let refused: u64 = unlisted
            .map(|code: u8| self.by_code[usize::from(code)].1)
            .sum();
        writeln!(f, " other {:>8} {refused:>8}", 0)?;
        writeln!(f, "\n  cuts during")?;
        for (kind, count) in CHANGE_KINDS.iter().zip(self.cuts) {
            writeln!(f, "{count:>6} {kind}")?;
        }
        if let Some(Malformed { offset }) = self.malformed {
            writeln!(f, "\nmalformed at {offset}")?;
        }
        Ok(())
    }
}
