//! The FT25H08 flash chip, and its smaller siblings.
//!
//! The chip hears frames (the bytes clocked while CS# is low), ticks of time,
//! levels of its WP# pin and cuts of its power. Changes take time: the frame
//! that starts one only fixes what will be done, and the bytes stand when the
//! last tick has passed.

pub mod command;
pub mod protection;
pub mod refusal;
pub mod settings;

use std::mem;
use std::ops::Range;

use command::{Command, LONGEST_FRAME};
use refusal::Refusal;
use settings::Settings;

/// The array lengths a chip can have.
pub const ARRAY_LENGTHS: [usize; 5] = [0x1_0000, 0x2_0000, 0x4_0000, 0x8_0000, 0x10_0000];
/// Four registers of 256 bytes.
pub const SECURITY_LENGTH: usize = 4 * PAGE;

const PAGE: usize = 256;
const SECTOR: usize = 0x1000;
const HALF_BLOCK: usize = 0x8000;
const BLOCK: usize = 0x1_0000;
const ERASED: u8 = 0xFF;
/// What the answer holds where the chip drives nothing.
const NOT_DRIVEN: u8 = 0xFF;
const MOST_ODD_BITS: u8 = 7;

/// How many ticks each change takes, none of them 0.
#[derive(Clone, Copy, Debug, PartialEq, Eq)]
pub struct TickCounts {
    pub status_write: u16,
    pub program: u16,
    pub sector_erase: u16,
    pub half_block_erase: u16,
    pub block_erase: u16,
    pub chip_erase: u16,
}

impl TickCounts {
    fn has_zero(&self) -> bool {
        [
            self.status_write,
            self.program,
            self.sector_erase,
            self.half_block_erase,
            self.block_erase,
            self.chip_erase,
        ]
        .contains(&0)
    }
}

/// The two memories that programs and erases change.
#[derive(Clone, Copy, Debug, PartialEq, Eq)]
pub enum Memory {
    Array,
    Security,
}

/// A change, fixed in full when its frame is accepted.
#[derive(Clone, Debug, PartialEq, Eq)]
pub enum Change {
    StatusWrite(Settings),
    Program {
        memory: Memory,
        page: usize,
        latch: Box<[u8; PAGE]>,
    },
    Erase {
        memory: Memory,
        range: Range<usize>,
    },
}

#[derive(Clone, Debug, PartialEq, Eq)]
enum Activity {
    Idle,
    Asleep,
    Changing { change: Change, ticks_left: u16 },
}

#[derive(Clone, Debug, PartialEq, Eq)]
pub struct Chip {
    array: Vec<u8>,
    security: [u8; SECURITY_LENGTH],
    settings: Settings,
    write_enabled: bool,
    write_protect_high: bool,
    activity: Activity,
    tick_counts: TickCounts,
}

impl Chip {
    /// A chip over the array, whose bytes it keeps.
    pub fn new(array: Vec<u8>, tick_counts: TickCounts) -> Result<Chip, Refusal> {
        if !ARRAY_LENGTHS.contains(&array.len()) || tick_counts.has_zero() {
            return Err(Refusal::BadArgument);
        }
        Ok(Chip {
            array,
            security: [ERASED; SECURITY_LENGTH],
            settings: Settings::default(),
            write_enabled: false,
            write_protect_high: true,
            activity: Activity::Idle,
            tick_counts,
        })
    }

    /// Plays one frame and its odd bits. The answer receives, for each byte of
    /// the frame and no further, what the chip drives, or FF where it drives
    /// nothing. Frames refused for their arguments leave the answer alone; all
    /// other refused frames are answered with FF throughout.
    pub fn frame(&mut self, frame: &[u8], odd_bits: u8, answer: &mut [u8]) -> Result<(), Refusal> {
        if frame.len() > LONGEST_FRAME || odd_bits > MOST_ODD_BITS || answer.len() < frame.len() {
            return Err(Refusal::BadArgument);
        }
        let answer = &mut answer[..frame.len()];
        answer.fill(NOT_DRIVEN);
        let command = self.check(frame, odd_bits)?;
        self.perform(command, frame, answer);
        Ok(())
    }

    /// One tick of time.
    pub fn tick(&mut self) {
        self.ticks(1);
    }

    /// Many ticks at once. Those beyond the end of a change do nothing.
    pub fn ticks(&mut self, count: u16) {
        let Activity::Changing { ticks_left, .. } = &mut self.activity else {
            return;
        };
        if count < *ticks_left {
            *ticks_left -= count;
        } else if let Some(change) = self.stop() {
            self.land(change);
        }
    }

    /// Sets the WP# pin: 0 is low, 1 is high.
    pub fn pin(&mut self, level: u8) -> Result<(), Refusal> {
        self.write_protect_high = match level {
            0 => false,
            1 => true,
            _ => return Err(Refusal::BadArgument),
        };
        Ok(())
    }

    /// Cuts the power, leaving a running change half done as the junk says.
    /// The chip comes back idle and awake; WP# keeps its level.
    pub fn cut(&mut self, junk: &[u8]) -> Result<(), Refusal> {
        if junk.is_empty() || junk.len() > self.array.len() {
            return Err(Refusal::BadArgument);
        }
        if let Some(change) = self.stop() {
            self.spoil(change, junk);
        }
        Ok(())
    }

    /// All 16 status bits. WIP is 1 exactly while a change runs.
    pub fn status(&self) -> u16 {
        self.settings.bits()
            | u16::from(self.write_enabled) << 1
            | u16::from(self.running_change().is_some())
    }

    pub fn array_length(&self) -> usize {
        self.array.len()
    }

    pub fn array_byte(&self, address: usize) -> Option<u8> {
        self.array.get(address).copied()
    }

    pub fn security_byte(&self, address: usize) -> Option<u8> {
        self.security.get(address).copied()
    }

    pub fn settings(&self) -> Settings {
        self.settings
    }

    pub fn is_write_enabled(&self) -> bool {
        self.write_enabled
    }

    pub fn is_write_protect_high(&self) -> bool {
        self.write_protect_high
    }

    pub fn is_asleep(&self) -> bool {
        self.activity == Activity::Asleep
    }

    pub fn running_change(&self) -> Option<&Change> {
        match &self.activity {
            Activity::Changing { change, .. } => Some(change),
            Activity::Idle | Activity::Asleep => None,
        }
    }

    /// The ticks until the running change lands, 0 if none runs.
    pub fn ticks_left(&self) -> u16 {
        match self.activity {
            Activity::Changing { ticks_left, .. } => ticks_left,
            Activity::Idle | Activity::Asleep => 0,
        }
    }

    /// The refusals of a frame whose arguments are within their limits. The
    /// order counts: the first that applies is the answer.
    fn check(&self, frame: &[u8], odd_bits: u8) -> Result<Command, Refusal> {
        let &code = frame.first().ok_or(Refusal::WrongShape)?;
        let decoded = Command::decode(code);
        if self.is_asleep() && decoded != Some(Command::Wake) {
            return Err(Refusal::Asleep);
        }
        let command = decoded.ok_or(Refusal::UnlistedCode)?;
        if self.running_change().is_some() && !command.is_heard_while_busy() {
            return Err(Refusal::Busy);
        }
        if !command.lengths().contains(&frame.len()) || (odd_bits > 0 && !command.allows_odd_bits())
        {
            return Err(Refusal::WrongShape);
        }
        if command.starts_change() && !self.write_enabled {
            return Err(Refusal::NotEnabled);
        }
        if command.needs_quad() && !self.settings.quad_enable {
            return Err(Refusal::QuadDisabled);
        }
        if command.addresses_security() && raw_address(frame) >= SECURITY_LENGTH {
            return Err(Refusal::NoSuchRegister);
        }
        if self.protects_from(command, frame) {
            return Err(Refusal::Protected);
        }
        if self.is_locked_for(command) {
            return Err(Refusal::Locked);
        }
        Ok(command)
    }

    /// Whether the command would change a protected array byte. A program
    /// counts as touching its whole page, an erase its sector or block.
    fn protects_from(&self, command: Command, frame: &[u8]) -> bool {
        let unit = match command {
            Command::Program | Command::QuadProgram => PAGE,
            Command::EraseSector => SECTOR,
            Command::EraseHalfBlock => HALF_BLOCK,
            Command::EraseBlock => BLOCK,
            Command::EraseChip => return !self.settings.allows_chip_erase(),
            _ => return false,
        };
        self.settings.protects(&self.array_unit(frame, unit))
    }

    fn is_locked_for(&self, command: Command) -> bool {
        match command {
            Command::ProgramSecurity | Command::EraseSecurity => self.settings.locked,
            Command::WriteStatus => self.settings.register_protect && !self.write_protect_high,
            _ => false,
        }
    }

    /// Does what an accepted frame asks for. The answer holds FF so far.
    fn perform(&mut self, command: Command, frame: &[u8], answer: &mut [u8]) {
        let times = self.tick_counts;
        match command {
            Command::WriteEnable => self.write_enabled = true,
            Command::WriteDisable => self.write_enabled = false,
            Command::Sleep => self.activity = Activity::Asleep,
            Command::Wake => self.activity = Activity::Idle,
            Command::ReadStatusLow => answer[1..].fill(self.status().to_le_bytes()[0]),
            Command::ReadStatusHigh => answer[1..].fill(self.status().to_le_bytes()[1]),
            Command::Read => read_around(&self.array, self.array_address(frame), &mut answer[4..]),
            Command::FastRead | Command::QuadRead => {
                read_around(&self.array, self.array_address(frame), &mut answer[5..])
            }
            Command::ReadSecurity => {
                read_around(&self.security, raw_address(frame), &mut answer[5..])
            }
            Command::WriteStatus => {
                let settings = self.settings.rewritten(frame[1], frame.get(2).copied());
                self.start(Change::StatusWrite(settings), times.status_write);
            }
            Command::Program | Command::QuadProgram => {
                let address = self.array_address(frame);
                self.start(program(Memory::Array, address, &frame[4..]), times.program);
            }
            Command::ProgramSecurity => {
                let address = raw_address(frame);
                self.start(
                    program(Memory::Security, address, &frame[4..]),
                    times.program,
                );
            }
            Command::EraseSector => {
                self.start_array_erase(self.array_unit(frame, SECTOR), times.sector_erase)
            }
            Command::EraseHalfBlock => {
                self.start_array_erase(self.array_unit(frame, HALF_BLOCK), times.half_block_erase)
            }
            Command::EraseBlock => {
                self.start_array_erase(self.array_unit(frame, BLOCK), times.block_erase)
            }
            Command::EraseChip => self.start_array_erase(0..self.array.len(), times.chip_erase),
            Command::EraseSecurity => {
                let memory = Memory::Security;
                let range = 0..SECURITY_LENGTH;
                self.start(Change::Erase { memory, range }, times.sector_erase);
            }
        }
    }

    fn start_array_erase(&mut self, range: Range<usize>, ticks_left: u16) {
        let memory = Memory::Array;
        self.start(Change::Erase { memory, range }, ticks_left);
    }

    fn start(&mut self, change: Change, ticks_left: u16) {
        self.activity = Activity::Changing { change, ticks_left };
    }

    /// Makes the chip idle with the write enable latch clear, and hands out
    /// the change that was running.
    fn stop(&mut self) -> Option<Change> {
        self.write_enabled = false;
        match mem::replace(&mut self.activity, Activity::Idle) {
            Activity::Changing { change, .. } => Some(change),
            Activity::Idle | Activity::Asleep => None,
        }
    }

    /// Lets a finished change stand.
    fn land(&mut self, change: Change) {
        match change {
            Change::StatusWrite(settings) => self.settings = settings,
            Change::Program {
                memory,
                page,
                latch,
            } => {
                let cells = &mut self.cells(memory)[page..page + PAGE];
                for (cell, latched) in cells.iter_mut().zip(latch.iter()) {
                    *cell &= latched;
                }
            }
            Change::Erase { memory, range } => self.cells(memory)[range].fill(ERASED),
        }
    }

    /// Leaves what a power cut makes of an unfinished change. The junk for an
    /// address is the byte at that address modulo the junk's length.
    fn spoil(&mut self, change: Change, junk: &[u8]) {
        match change {
            Change::StatusWrite(settings) => {
                if junk[0] % 2 == 1 {
                    self.settings = settings;
                }
            }
            Change::Program {
                memory,
                page,
                latch,
            } => {
                let cells = &mut self.cells(memory)[page..page + PAGE];
                for ((cell, latched), junk) in cells
                    .iter_mut()
                    .zip(latch.iter())
                    .zip(junk_from(page, junk))
                {
                    *cell &= latched | junk;
                }
            }
            Change::Erase { memory, range } => {
                let junk = junk_from(range.start, junk);
                for (cell, junk) in self.cells(memory)[range].iter_mut().zip(junk) {
                    *cell = junk;
                }
            }
        }
    }

    fn cells(&mut self, memory: Memory) -> &mut [u8] {
        match memory {
            Memory::Array => &mut self.array,
            Memory::Security => &mut self.security,
        }
    }

    /// The frame's address, taken modulo the array length.
    fn array_address(&self, frame: &[u8]) -> usize {
        raw_address(frame) % self.array.len()
    }

    /// The page, sector or block of the array that holds the frame's address.
    fn array_unit(&self, frame: &[u8], unit: usize) -> Range<usize> {
        let start = start_of_unit(self.array_address(frame), unit);
        start..start + unit
    }
}

/// The three bytes after the code, high byte first.
fn raw_address(frame: &[u8]) -> usize {
    usize::from(frame[1]) << 16 | usize::from(frame[2]) << 8 | usize::from(frame[3])
}

fn start_of_unit(address: usize, unit: usize) -> usize {
    address - address % unit
}

/// The program of the page that holds the address. Data byte i goes to offset
/// (address + i) mod 256 of the page latch, a later byte replacing an earlier
/// one; where no data byte goes the latch holds FF and changes nothing.
fn program(memory: Memory, address: usize, data: &[u8]) -> Change {
    let mut latch = Box::new([0xFF; PAGE]);
    for (i, &byte) in data.iter().enumerate() {
        latch[(address + i) % PAGE] = byte;
    }
    let page = start_of_unit(address, PAGE);
    Change::Program {
        memory,
        page,
        latch,
    }
}

/// Fills the output from the start address on, going from the last byte of
/// the memory to the first.
fn read_around(memory: &[u8], start: usize, output: &mut [u8]) {
    let mut rest = output;
    let mut address = start;
    while !rest.is_empty() {
        let run = rest.len().min(memory.len() - address);
        let (filled, unfilled) = rest.split_at_mut(run);
        filled.copy_from_slice(&memory[address..address + run]);
        rest = unfilled;
        address = 0;
    }
}

/// The junk bytes for the addresses from the start on.
fn junk_from(start: usize, junk: &[u8]) -> impl Iterator<Item = u8> + '_ {
    junk.iter().copied().cycle().skip(start % junk.len())
}
