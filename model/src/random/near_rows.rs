//! Random rows, and bytes that are rows or nearly so.

use super::Random;
use crate::put::SECTOR;
use crate::rows::{Kind, Row, HUNDREDTHS, NAME_BYTES, TENTHS};

/// A row, often at or near its limits.
pub fn row(random: &mut Random, kind: Kind) -> Row {
    let hundredths = hundredths(random);
    let row = match kind {
        Kind::Temperature => Row::temperature(tenths(random), hundredths),
        Kind::Reflector => {
            let mut name = [b' '; 8];
            name.fill_with(|| name_byte(random));
            Row::reflector(name, hundredths)
        }
    };
    row.expect("a row within its limits")
}

fn tenths(random: &mut Random) -> i16 {
    match random.below(3) {
        0 => random.pick(&[-400, -399, -10, -9, -1, 0, 1, 9, 10, 849, 850]),
        1 => 150,
        _ => number(random, *TENTHS.start(), *TENTHS.end()),
    }
}

fn hundredths(random: &mut Random) -> i16 {
    match random.below(3) {
        0 => random.pick(&[-9999, -9998, -100, -99, -1, 0, 0, 1, 99, 100, 9998, 9999]),
        1 => random.pick(&[-240, 240]),
        _ => number(random, *HUNDREDTHS.start(), *HUNDREDTHS.end()),
    }
}

fn number(random: &mut Random, first: i16, last: i16) -> i16 {
    let count = usize::from(last.abs_diff(first)) + 1;
    first.wrapping_add(random.below(count) as i16)
}

pub fn name_byte(random: &mut Random) -> u8 {
    match random.below(3) {
        0 => random.pick(b" ~\"\\'%-0AZaz"),
        _ => {
            let (first, last) = (*NAME_BYTES.start(), *NAME_BYTES.end());
            random.between(first.into(), last.into()) as u8
        }
    }
}

/// An image whose slots for this kind are empty, rows, or nearly rows.
pub fn image(random: &mut Random, kind: Kind, sectors: usize) -> Vec<u8> {
    let filled = random.pick(&[0, 5, 50, 95]);
    let mut bytes = vec![0xFF; sectors * SECTOR];
    for slot in bytes.chunks_exact_mut(kind.row_length()) {
        if random.percent(filled) {
            slot.copy_from_slice(&near_row(random, kind));
        }
    }
    bytes
}

fn near_row(random: &mut Random, kind: Kind) -> Vec<u8> {
    let mut bytes = row(random, kind).bytes();
    let at = random.below(bytes.len());
    match random.below(10) {
        0..=3 => {}
        4 => bytes[at] = random.byte(),
        5 => bytes[at] ^= 1 << random.below(8),
        6 => bytes[0] = random.pick(&[0x00, 0x52, 0x53, 0x54, 0x55, 0xFF]),
        _ => match kind {
            Kind::Temperature => spoil_temperature(random, &mut bytes),
            Kind::Reflector => spoil_reflector(random, &mut bytes),
        },
    }
    bytes
}

fn spoil_temperature(random: &mut Random, bytes: &mut [u8]) {
    match random.below(4) {
        0 => bytes[3] = random.pick(&[0x00, 0x01, 0x7F, 0x80, 0xFE, 0xFF]),
        1 => bytes[3..6].copy_from_slice(&[0xFF, 0x00, 0x00]),
        2 => {
            let magnitude: u16 = random.pick(&[0, 9_999, 10_000, 32_767, 32_768, 65_535]);
            bytes[4..6].copy_from_slice(&magnitude.to_le_bytes());
        }
        _ => {
            let tenths: i16 = random.pick(&[i16::MIN, -401, -400, 850, 851, i16::MAX]);
            bytes[1..3].copy_from_slice(&tenths.to_le_bytes());
        }
    }
}

fn spoil_reflector(random: &mut Random, bytes: &mut [u8]) {
    match random.below(2) {
        0 => {
            let at = random.between(1, 8);
            bytes[at] = random.pick(&[0x00, 0x1F, 0x20, 0x7E, 0x7F, 0x80, 0xFF]);
        }
        _ => {
            let offset: i16 = random.pick(&[i16::MIN, -10_000, -9_999, 9_999, 10_000, i16::MAX]);
            bytes[9..11].copy_from_slice(&offset.to_le_bytes());
        }
    }
}
