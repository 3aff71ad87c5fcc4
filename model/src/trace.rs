//! The format of a trace: records of one kind byte and a body.

use crate::chip::command::LONGEST_FRAME;

const CLOCKED_BYTE: u8 = 0x01;
const SELECT: u8 = 0x02;
const DESELECT: u8 = 0x03;
const TICKS: u8 = 0x04;
const PIN: u8 = 0x05;
const CUT: u8 = 0x06;

/// One record of a trace.
#[derive(Clone, Copy, Debug, PartialEq, Eq)]
pub enum Record {
    /// A byte clocked in while CS# is low.
    ClockedByte(u8),
    /// CS# falls.
    Select,
    /// CS# rises after some odd bits.
    Deselect { odd_bits: u8 },
    /// That many ticks pass.
    Ticks(u16),
    /// WP# takes a level.
    Pin(u8),
    /// The power is cut, with one junk byte.
    Cut(u8),
}

impl Record {
    /// The record at the start of the bytes, if they begin with a whole one.
    pub fn first_of(bytes: &[u8]) -> Option<Record> {
        match *bytes {
            [CLOCKED_BYTE, byte, ..] => Some(Record::ClockedByte(byte)),
            [SELECT, ..] => Some(Record::Select),
            [DESELECT, odd_bits, ..] => Some(Record::Deselect { odd_bits }),
            [TICKS, low, high, ..] => Some(Record::Ticks(u16::from_le_bytes([low, high]))),
            [PIN, level, ..] => Some(Record::Pin(level)),
            [CUT, junk, ..] => Some(Record::Cut(junk)),
            _ => None,
        }
    }

    /// The bytes the record takes, its kind byte included.
    pub fn length(self) -> usize {
        match self {
            Record::Select => 1,
            Record::ClockedByte(_) | Record::Deselect { .. } | Record::Pin(_) | Record::Cut(_) => 2,
            Record::Ticks(_) => 3,
        }
    }

    /// Appends the record to a trace.
    pub fn append_to(self, trace: &mut Vec<u8>) {
        match self {
            Record::ClockedByte(byte) => trace.extend([CLOCKED_BYTE, byte]),
            Record::Select => trace.push(SELECT),
            Record::Deselect { odd_bits } => trace.extend([DESELECT, odd_bits]),
            Record::Ticks(count) => {
                let [low, high] = count.to_le_bytes();
                trace.extend([TICKS, low, high]);
            }
            Record::Pin(level) => trace.extend([PIN, level]),
            Record::Cut(junk) => trace.extend([CUT, junk]),
        }
    }

    /// Whether a byte is the kind of some record.
    pub fn is_kind(byte: u8) -> bool {
        (CLOCKED_BYTE..=CUT).contains(&byte)
    }
}

/// What a run of records amounts to: something the chip can be given.
#[derive(Clone, Copy, Debug, PartialEq, Eq)]
pub enum Step<'a> {
    Frame { bytes: &'a [u8], odd_bits: u8 },
    Ticks(u16),
    Pin(u8),
    Cut(u8),
}

/// The trace is malformed at this offset.
#[derive(Clone, Copy, Debug, PartialEq, Eq)]
pub struct Malformed {
    pub offset: usize,
}

/// Reads a trace step by step.
pub struct TraceReader<'a> {
    trace: &'a [u8],
    offset: usize,
    frame: Vec<u8>,
}

impl<'a> TraceReader<'a> {
    pub fn new(trace: &'a [u8]) -> TraceReader<'a> {
        TraceReader {
            trace,
            offset: 0,
            frame: Vec::with_capacity(LONGEST_FRAME),
        }
    }

    /// The next step, or none at the end of the trace.
    pub fn next_step(&mut self) -> Result<Option<Step<'_>>, Malformed> {
        let offset = self.offset;
        match self.next_record()? {
            None => Ok(None),
            Some(Record::Select) => self.rest_of_frame().map(Some),
            Some(Record::Ticks(count)) => Ok(Some(Step::Ticks(count))),
            Some(Record::Pin(level)) => Ok(Some(Step::Pin(level))),
            Some(Record::Cut(junk)) => Ok(Some(Step::Cut(junk))),
            // Nothing is clocked and CS# cannot rise unless it is low.
            Some(Record::ClockedByte(_) | Record::Deselect { .. }) => Err(Malformed { offset }),
        }
    }

    /// With CS# low only bytes may come, as many as a frame can have, and then
    /// CS# must rise. A trace that ends before is malformed at its length.
    fn rest_of_frame(&mut self) -> Result<Step<'_>, Malformed> {
        self.frame.clear();
        loop {
            let offset = self.offset;
            match self.next_record()? {
                Some(Record::ClockedByte(byte)) if self.frame.len() < LONGEST_FRAME => {
                    self.frame.push(byte);
                }
                Some(Record::Deselect { odd_bits }) => {
                    let bytes = &self.frame;
                    return Ok(Step::Frame { bytes, odd_bits });
                }
                _ => return Err(Malformed { offset }),
            }
        }
    }

    /// Unknown kinds and bodies cut off by the end are malformed.
    fn next_record(&mut self) -> Result<Option<Record>, Malformed> {
        let rest = &self.trace[self.offset..];
        if rest.is_empty() {
            return Ok(None);
        }
        match Record::first_of(rest) {
            Some(record) => {
                self.offset += record.length();
                Ok(Some(record))
            }
            None => Err(Malformed {
                offset: self.offset,
            }),
        }
    }
}
