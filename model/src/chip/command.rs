//! The chip's commands and the shapes of their frames.

use std::ops::RangeInclusive;

/// The most whole bytes a frame may have.
pub const LONGEST_FRAME: usize = 4096;

/// Every code the chip knows.
pub const CODES: [u8; 21] = [
    0x06, 0x04, 0xB9, 0xAB, 0x05, 0x35, 0x03, 0x0B, 0x3B, 0x6B, 0x48, 0x01, 0x02, 0x32, 0x42, 0x20,
    0x52, 0xD8, 0x60, 0xC7, 0x44,
];

#[derive(Clone, Copy, Debug, PartialEq, Eq)]
pub enum Command {
    WriteEnable,
    WriteDisable,
    Sleep,
    Wake,
    ReadStatusLow,
    ReadStatusHigh,
    /// An array read that drives right after the address.
    Read,
    /// An array read with a dummy byte after the address (0B and 3B).
    FastRead,
    /// As the fast read, on four lines.
    QuadRead,
    ReadSecurity,
    WriteStatus,
    Program,
    QuadProgram,
    ProgramSecurity,
    EraseSector,
    EraseHalfBlock,
    EraseBlock,
    EraseChip,
    EraseSecurity,
}

use Command::*;

impl Command {
    pub fn decode(code: u8) -> Option<Command> {
        let command = match code {
            0x06 => WriteEnable,
            0x04 => WriteDisable,
            0xB9 => Sleep,
            0xAB => Wake,
            0x05 => ReadStatusLow,
            0x35 => ReadStatusHigh,
            0x03 => Read,
            0x0B | 0x3B => FastRead,
            0x6B => QuadRead,
            0x48 => ReadSecurity,
            0x01 => WriteStatus,
            0x02 => Program,
            0x32 => QuadProgram,
            0x42 => ProgramSecurity,
            0x20 => EraseSector,
            0x52 => EraseHalfBlock,
            0xD8 => EraseBlock,
            0x60 | 0xC7 => EraseChip,
            0x44 => EraseSecurity,
            _ => return None,
        };
        Some(command)
    }

    /// How many whole bytes a frame of this command has, the code included.
    pub fn lengths(self) -> RangeInclusive<usize> {
        match self {
            WriteEnable | WriteDisable | Sleep | EraseChip | EraseSecurity => 1..=1,
            EraseSector | EraseHalfBlock | EraseBlock => 4..=4,
            WriteStatus => 2..=3,
            Read => 4..=LONGEST_FRAME,
            FastRead | QuadRead | ReadSecurity => 5..=LONGEST_FRAME,
            Program | QuadProgram | ProgramSecurity => 5..=LONGEST_FRAME,
            Wake | ReadStatusLow | ReadStatusHigh => 1..=LONGEST_FRAME,
        }
    }

    /// Whether CS# may rise in the middle of a byte.
    pub fn allows_odd_bits(self) -> bool {
        matches!(
            self,
            Read | FastRead | QuadRead | ReadSecurity | ReadStatusLow | ReadStatusHigh | Wake
        )
    }

    /// Whether the command is heard while a change runs.
    pub fn is_heard_while_busy(self) -> bool {
        matches!(self, ReadStatusLow | ReadStatusHigh)
    }

    /// Whether the command starts a change, which needs the write enable latch.
    pub fn starts_change(self) -> bool {
        matches!(
            self,
            WriteStatus
                | Program
                | QuadProgram
                | ProgramSecurity
                | EraseSector
                | EraseHalfBlock
                | EraseBlock
                | EraseChip
                | EraseSecurity
        )
    }

    /// Whether the command needs the quad enable bit.
    pub fn needs_quad(self) -> bool {
        matches!(self, QuadRead | QuadProgram)
    }

    /// Whether the command's address is one of the security registers.
    pub fn addresses_security(self) -> bool {
        matches!(self, ReadSecurity | ProgramSecurity)
    }
}
