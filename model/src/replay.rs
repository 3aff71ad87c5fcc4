//! Replays a trace on a newborn bench part and writes a line for each answer.

use std::io::{self, Write};

use crate::chip::command::LONGEST_FRAME;
use crate::chip::refusal::{answer_number, Refusal};
use crate::chip::{Chip, TickCounts};
use crate::hex;
use crate::trace::{Malformed, Step, TraceReader};

/// The refusal number of a malformed trace.
const MALFORMED: u8 = 13;

/// The short times of every part that stands on the bench.
pub const BENCH_TICKS: TickCounts = TickCounts {
    status_write: 2,
    program: 3,
    sector_erase: 5,
    half_block_erase: 8,
    block_erase: 13,
    chip_erase: 21,
};

/// The part on the bench: the smallest array, all FF, with short times.
pub fn bench_part() -> Chip {
    Chip::new(vec![0xFF; 0x1_0000], BENCH_TICKS).expect("the bench part is a valid part")
}

/// Writes the lines of a trace: one for each step, then the status, or the
/// place where the trace is malformed.
pub fn replay(trace: &[u8], output: impl Write) -> io::Result<()> {
    let mut chip = bench_part();
    let mut lines = Lines::new(output);
    match play(trace, &mut chip, &mut lines)? {
        Ok(()) => lines.write_status(chip.status()),
        Err(malformed) => lines.write_malformed(malformed),
    }
}

/// The lines of a trace, in memory.
pub fn replayed(trace: &[u8]) -> Vec<u8> {
    let mut output = Vec::new();
    replay(trace, &mut output).expect("writing to memory does not fail");
    output
}

fn play(
    trace: &[u8],
    chip: &mut Chip,
    lines: &mut Lines<impl Write>,
) -> io::Result<Result<(), Malformed>> {
    let mut reader = TraceReader::new(trace);
    let mut answer_buffer = [0; LONGEST_FRAME];
    loop {
        match reader.next_step() {
            Ok(Some(Step::Frame { bytes, odd_bits })) => {
                let answer = &mut answer_buffer[..bytes.len()];
                let outcome = chip.frame(bytes, odd_bits, answer);
                lines.write_answer(outcome, answer)?;
            }
            Ok(Some(Step::Ticks(count))) => {
                chip.ticks(count);
                lines.write_answer(Ok(()), &[])?;
            }
            Ok(Some(Step::Pin(level))) => lines.write_answer(chip.pin(level), &[])?,
            Ok(Some(Step::Cut(junk))) => lines.write_answer(chip.cut(&[junk]), &[])?,
            Ok(None) => return Ok(Ok(())),
            Err(malformed) => return Ok(Err(malformed)),
        }
    }
}

struct Lines<W> {
    output: W,
    count: u64,
    /// The line being put together, kept to save its memory.
    line: Vec<u8>,
}

impl<W: Write> Lines<W> {
    fn new(output: W) -> Lines<W> {
        Lines {
            output,
            count: 0,
            line: Vec::new(),
        }
    }

    /// The line number, the answer number, and the answer bytes or a dash. A
    /// frame refused for its arguments has no answer bytes.
    fn write_answer(&mut self, outcome: Result<(), Refusal>, answer: &[u8]) -> io::Result<()> {
        self.count += 1;
        self.line.clear();
        write!(self.line, "{} {} ", self.count, answer_number(outcome))?;
        if answer.is_empty() || outcome == Err(Refusal::BadArgument) {
            self.line.push(b'-');
        } else {
            hex::append(&mut self.line, answer);
        }
        self.line.push(b'\n');
        self.output.write_all(&self.line)
    }

    fn write_status(&mut self, status: u16) -> io::Result<()> {
        writeln!(self.output, "status {status:04x}")
    }

    fn write_malformed(&mut self, malformed: Malformed) -> io::Result<()> {
        writeln!(self.output, "trace {MALFORMED} at {}", malformed.offset)
    }
}
