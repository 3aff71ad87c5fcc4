//! What the program `images` must print: one script over a flash image in memory and over a chip that is used as a
//! flash.

use std::fmt;
use std::io::{self, Write};

use crate::chip::Chip;
use crate::replay::BENCH_TICKS;

const SECTOR: usize = 4096;
const PAGE: usize = 256;
const CAPACITY: usize = 131_072;
const PROTECTED_SECTORS: usize = 16;

#[derive(Clone, Copy)]
enum Refusal {
    Range = 1,
    Busy = 2,
    Protected = 3,
}

enum Outcome {
    Took(u32),
    Byte(u8),
    Protected(bool),
    Refused(Refusal),
}

impl fmt::Display for Outcome {
    fn fmt(&self, f: &mut fmt::Formatter) -> fmt::Result {
        match self {
            Outcome::Took(ticks) => write!(f, "took {ticks}"),
            Outcome::Byte(byte) => write!(f, "byte {byte:02x}"),
            Outcome::Protected(protected) => write!(f, "protected {protected}"),
            Outcome::Refused(refusal) => write!(f, "refused {}", *refusal as u8),
        }
    }
}

/// A flash, without its checks.
trait Flash {
    fn byte(&self, address: usize) -> u8;
    fn ready(&self) -> bool;
    fn protects(&self, sector: usize) -> bool;
    fn start_program(&mut self, address: usize, data: &[u8]);
    fn start_erase(&mut self, sector: usize);
    fn tick(&mut self);

    fn read(&self, address: usize) -> Result<u8, Refusal> {
        if address >= CAPACITY {
            return Err(Refusal::Range);
        }
        if !self.ready() {
            return Err(Refusal::Busy);
        }
        Ok(self.byte(address))
    }

    fn may_change(&self, sector: usize) -> Result<(), Refusal> {
        if !self.ready() {
            return Err(Refusal::Busy);
        }
        if self.protects(sector) {
            return Err(Refusal::Protected);
        }
        Ok(())
    }

    fn program(&mut self, address: usize, data: &[u8]) -> Result<(), Refusal> {
        let last = address + data.len().max(1) - 1;
        if data.is_empty() || last >= CAPACITY || address / PAGE != last / PAGE {
            return Err(Refusal::Range);
        }
        self.may_change(address / SECTOR)?;
        self.start_program(address, data);
        Ok(())
    }

    fn erase(&mut self, sector: usize) -> Result<(), Refusal> {
        if sector >= CAPACITY / SECTOR {
            return Err(Refusal::Range);
        }
        self.may_change(sector)?;
        self.start_erase(sector);
        Ok(())
    }

    fn mark(&self, sector: usize) -> Result<bool, Refusal> {
        if sector >= CAPACITY / SECTOR {
            return Err(Refusal::Range);
        }
        Ok(self.protects(sector))
    }

    fn wait(&mut self) -> u32 {
        let mut ticks = 0;
        while !self.ready() {
            self.tick();
            ticks += 1;
        }
        ticks
    }
}

/// A flash in memory: a change lands with the next tick.
struct Memory {
    bytes: Vec<u8>,
    later: Option<Vec<u8>>,
}

impl Flash for Memory {
    fn byte(&self, address: usize) -> u8 {
        self.bytes[address]
    }

    fn ready(&self) -> bool {
        self.later.is_none()
    }

    fn protects(&self, sector: usize) -> bool {
        sector < PROTECTED_SECTORS
    }

    fn start_program(&mut self, address: usize, data: &[u8]) {
        let mut later = self.bytes.clone();
        for (cell, byte) in later[address..].iter_mut().zip(data) {
            *cell &= byte;
        }
        self.later = Some(later);
    }

    fn start_erase(&mut self, sector: usize) {
        let mut later = self.bytes.clone();
        later[sector * SECTOR..(sector + 1) * SECTOR].fill(0xff);
        self.later = Some(later);
    }

    fn tick(&mut self) {
        if let Some(later) = self.later.take() {
            self.bytes = later;
        }
    }
}

/// A chip used as a flash: every change goes by frames.
struct OnChip {
    chip: Chip,
}

impl OnChip {
    fn send(&mut self, frame: &[u8]) {
        let mut answer = vec![0; frame.len()];
        self.chip
            .frame(frame, 0, &mut answer)
            .expect("the frame is accepted");
    }

    fn send_change(&mut self, code: u8, address: usize, data: &[u8]) {
        let [_, high, middle, low] = (address as u32).to_be_bytes();
        self.send(&[0x06]);
        self.send(&[&[code, high, middle, low], data].concat());
    }
}

impl Flash for OnChip {
    fn byte(&self, address: usize) -> u8 {
        self.chip.array_byte(address).expect("inside the array")
    }

    fn ready(&self) -> bool {
        self.chip.running_change().is_none()
    }

    fn protects(&self, sector: usize) -> bool {
        let range = sector * SECTOR..(sector + 1) * SECTOR;
        self.chip.settings().protects(&range)
    }

    fn start_program(&mut self, address: usize, data: &[u8]) {
        self.send_change(0x02, address, data);
    }

    fn start_erase(&mut self, sector: usize) {
        self.send_change(0x20, sector * SECTOR, &[]);
    }

    fn tick(&mut self) {
        self.chip.tick();
    }
}

enum Step {
    Program(usize, usize, u8),
    Erase(usize),
    Read(usize),
    ReadTooSoon(usize, u8),
    Mark(usize),
}

const SCRIPT: [Step; 20] = [
    Step::Mark(15),
    Step::Mark(16),
    Step::Mark(32),
    Step::Read(65_536),
    Step::Program(65_536, 1, 0x3c),
    Step::Read(65_536),
    Step::Program(65_536, 256, 0xf0),
    Step::Read(65_536),
    Step::Read(65_791),
    Step::Read(65_792),
    Step::ReadTooSoon(65_536, 0x0f),
    Step::Read(65_536),
    Step::Erase(16),
    Step::Read(65_536),
    Step::Program(65_537, 256, 0x00),
    Step::Program(65_536, 0, 0x00),
    Step::Program(65_535, 1, 0x00),
    Step::Erase(15),
    Step::Erase(32),
    Step::Read(131_072),
];

fn play(flash: &mut impl Flash, step: &Step) -> Result<Outcome, Refusal> {
    match *step {
        Step::Program(address, count, byte) => {
            flash.program(address, &vec![byte; count])?;
            Ok(Outcome::Took(flash.wait()))
        }
        Step::Erase(sector) => {
            flash.erase(sector)?;
            Ok(Outcome::Took(flash.wait()))
        }
        Step::Read(address) => flash.read(address).map(Outcome::Byte),
        Step::ReadTooSoon(address, byte) => {
            flash.program(address, &[byte])?;
            let read = flash.read(address).map(Outcome::Byte);
            flash.wait();
            read
        }
        Step::Mark(sector) => flash.mark(sector).map(Outcome::Protected),
    }
}

fn print(name: &str, flash: &mut impl Flash, out: &mut impl Write) -> io::Result<()> {
    for (i, step) in SCRIPT.iter().enumerate() {
        let outcome = play(flash, step).unwrap_or_else(Outcome::Refused);
        writeln!(out, "{name} {} {outcome}", i + 1)?;
    }
    Ok(())
}

/// Prints what each step answers, over the image and then over the chip.
pub fn print_images(out: &mut impl Write) -> io::Result<()> {
    let bytes = vec![0xff; CAPACITY];
    let mut memory = Memory {
        bytes: bytes.clone(),
        later: None,
    };
    print("image", &mut memory, out)?;
    let mut on_chip = OnChip {
        chip: Chip::new(bytes, BENCH_TICKS).expect("a chip is born"),
    };
    on_chip.send(&[0x06]);
    on_chip.send(&[0x01, 0x04, 0x40]);
    on_chip.wait();
    print("chip", &mut on_chip, out)
}
