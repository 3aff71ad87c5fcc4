//! Put: new bytes over old ones in a flash. A program only turns ones into
//! zeros and an erase makes a whole sector FF, so what must change decides what
//! a put costs.

use std::fmt;
use std::ops::RangeInclusive;

pub const SECTOR: usize = 4096;
pub const PAGE: usize = 256;
const SECTORS: RangeInclusive<usize> = 1..=256;

/// A flash between two calls.
#[derive(Clone, Debug, PartialEq, Eq)]
pub struct Flash {
    /// Whole sectors, 1 to 256 of them.
    pub bytes: Vec<u8>,
    /// For each sector, whether it is protected.
    pub marks: Vec<bool>,
    /// No change is under way.
    pub ready: bool,
    /// The ticks of one program.
    pub program_ticks: u64,
    /// The ticks of one erase.
    pub erase_ticks: u64,
}

impl Flash {
    /// An image in memory: every change takes one tick. None if there are not
    /// 1 to 256 whole sectors, or not one mark for each of them.
    pub fn image(bytes: Vec<u8>, marks: Vec<bool>) -> Option<Flash> {
        let sectors = bytes.len() / SECTOR;
        let whole = bytes.len().is_multiple_of(SECTOR);
        if !whole || !SECTORS.contains(&sectors) || marks.len() != sectors {
            return None;
        }
        Some(Flash {
            bytes,
            marks,
            ready: true,
            program_ticks: 1,
            erase_ticks: 1,
        })
    }

    /// An image without protected sectors.
    pub fn open_image(bytes: Vec<u8>) -> Option<Flash> {
        let marks = vec![false; bytes.len() / SECTOR];
        Flash::image(bytes, marks)
    }
}

/// What an accepted put took.
#[derive(Clone, Copy, Debug, Default, PartialEq, Eq)]
pub struct Cost {
    pub programs: u64,
    pub erases: u64,
    pub ticks: u64,
}

impl fmt::Display for Cost {
    fn fmt(&self, f: &mut fmt::Formatter) -> fmt::Result {
        let Cost {
            programs,
            erases,
            ticks,
        } = self;
        write!(f, "programs {programs} erases {erases} ticks {ticks}")
    }
}

/// Why a put is refused.
#[derive(Clone, Copy, Debug, PartialEq, Eq)]
pub enum PutRefusal {
    /// The bytes pass the end, or the work buffer is not one sector long.
    Range,
    /// A change is under way.
    Busy,
    /// The first sector that must change and is protected.
    Protected(usize),
}

impl PutRefusal {
    pub fn number(self) -> u8 {
        match self {
            PutRefusal::Range => 1,
            PutRefusal::Busy => 2,
            PutRefusal::Protected(_) => 3,
        }
    }
}

/// Puts the new bytes at the address. The work buffer comes back FF throughout,
/// refused or not; a refused put changes nothing else.
pub fn put(
    flash: &mut Flash,
    address: usize,
    new: &[u8],
    work: &mut [u8],
) -> Result<Cost, PutRefusal> {
    work.fill(0xFF);
    let end = address
        .checked_add(new.len())
        .filter(|&end| end <= flash.bytes.len())
        .ok_or(PutRefusal::Range)?;
    if work.len() != SECTOR {
        return Err(PutRefusal::Range);
    }
    if !flash.ready {
        return Err(PutRefusal::Busy);
    }
    let mut later = flash.bytes.clone();
    later[address..end].copy_from_slice(new);
    let sectors: Vec<(&[u8], &[u8])> = flash
        .bytes
        .chunks(SECTOR)
        .zip(later.chunks(SECTOR))
        .collect();
    for (sector, (old, new)) in sectors.iter().enumerate() {
        if old != new && flash.marks[sector] {
            return Err(PutRefusal::Protected(sector));
        }
    }
    let mut cost = Cost::default();
    for (old, new) in sectors {
        if some_bit_climbs(old, new) {
            cost.erases += 1;
            cost.programs += pages_that_differ(&[0xFF; SECTOR], new);
        } else {
            cost.programs += pages_that_differ(old, new);
        }
    }
    cost.ticks = cost.programs * flash.program_ticks + cost.erases * flash.erase_ticks;
    flash.bytes = later;
    Ok(cost)
}

fn some_bit_climbs(old: &[u8], new: &[u8]) -> bool {
    old.iter().zip(new).any(|(old, new)| !old & new != 0)
}

fn pages_that_differ(old: &[u8], new: &[u8]) -> u64 {
    let pages = old.chunks(PAGE).zip(new.chunks(PAGE));
    pages.filter(|(old, new)| old != new).count() as u64
}
