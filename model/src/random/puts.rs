//! Random calls of `calibrate write`.

use std::ffi::OsString;
use std::ops::Range;
use std::path::Path;

use super::{texts, Random};
use crate::field::Case;
use crate::put::{PAGE, SECTOR};

/// What a case is about. The kinds come in turns.
#[derive(Clone, Copy, Debug, PartialEq, Eq)]
pub enum Kind {
    Equal,
    OnlyClearing,
    OneClimbingBit,
    Blanking,
    InsidePage,
    OverPageBorder,
    OverSectorBorder,
    WholeImage,
    RandomBytes,
    EmptyFile,
    ImageIntoItself,
    PastEnd,
    PassingEnd,
    WrongLength,
    NoSuchImage,
    NoSuchFile,
    NoNumber,
    WrongArguments,
}

pub const KINDS: [(Kind, &str); 18] = [
    (Kind::Equal, "equal bytes"),
    (Kind::OnlyClearing, "only clearing bits"),
    (Kind::OneClimbingBit, "one climbing bit"),
    (Kind::Blanking, "FF over anything"),
    (Kind::InsidePage, "a range inside one page"),
    (Kind::OverPageBorder, "a range over a page border"),
    (Kind::OverSectorBorder, "a range over a sector border"),
    (Kind::WholeImage, "the whole image"),
    (Kind::RandomBytes, "random bytes"),
    (Kind::EmptyFile, "an empty file"),
    (Kind::ImageIntoItself, "an image put into itself"),
    (Kind::PastEnd, "an address past the end"),
    (Kind::PassingEnd, "a range that passes the end"),
    (Kind::WrongLength, "an image of wrong length"),
    (Kind::NoSuchImage, "no such image"),
    (Kind::NoSuchFile, "no such file"),
    (Kind::NoNumber, "an address that is no number"),
    (Kind::WrongArguments, "missing or extra arguments"),
];

const FILE: &str = "new bytes";
/// The name of no file.
pub const ABSENT: &str = "absent";
/// A name that is there, but no file.
pub const FOLDER: &str = ".";

/// The case with this number, its calls made in this folder.
pub fn case(index: u64, random: &mut Random, folder: &Path) -> Case {
    let (kind, label) = KINDS[(index % KINDS.len() as u64) as usize];
    let name = random.pick(&["image", "an image.bin", "sub/image"]);
    let sectors = sectors(random, kind);
    let mut image = image(random, sectors);
    let (address, mut new) = place_and_bytes(kind, random, &mut image);
    if kind == Kind::WrongLength {
        image = vec![random.byte(); random.pick(&[0, 1, 4095, 4097, 8191, 257 * SECTOR])];
        new.truncate(random.pick(&[0, 1, SECTOR]));
    }
    let address = match kind {
        Kind::NoNumber => texts::no_number(random).to_string(),
        _ => texts::address(random, address),
    };
    let mut arguments = vec![
        "write".into(),
        path(random, folder, name),
        address.into(),
        path(random, folder, FILE),
    ];
    match kind {
        Kind::NoSuchImage => arguments[1] = random.pick(&[ABSENT, FOLDER, ""]).into(),
        Kind::NoSuchFile => arguments[3] = random.pick(&[ABSENT, FOLDER, ""]).into(),
        Kind::ImageIntoItself => {
            arguments[2] = "0".into();
            arguments[3] = path(random, folder, name);
            new.clear();
        }
        Kind::WrongArguments => spoil(random, &mut arguments),
        _ => {}
    }
    Case {
        label,
        files: vec![(name, image), (FILE, new)],
        calls: vec![arguments],
    }
}

fn sectors(random: &mut Random, kind: Kind) -> usize {
    let sectors = random.pick(&[1, 1, 1, 1, 1, 1, 2, 2, 2, 2, 2, 3, 3, 3, 3, 16, 16, 256]);
    match kind {
        Kind::OverSectorBorder => sectors.max(2),
        _ => sectors,
    }
}

/// Pages of FF, of 00, of random bytes and of FF with a few others.
pub fn image(random: &mut Random, sectors: usize) -> Vec<u8> {
    let blank = random.pick(&[0, 50, 90, 100]);
    let mut bytes = vec![0xFF; sectors * SECTOR];
    for page in bytes.chunks_mut(PAGE) {
        if random.percent(blank) {
            continue;
        }
        match random.below(3) {
            0 => page.fill(0x00),
            1 => page.copy_from_slice(&random.bytes(PAGE)),
            _ => change_some(random, page),
        }
    }
    bytes
}

fn change_some(random: &mut Random, bytes: &mut [u8]) {
    for _ in 0..random.between(1, 3) {
        bytes[random.below(bytes.len())] = random.byte();
    }
}

/// Where to put what. One climbing bit may need another image.
fn place_and_bytes(kind: Kind, random: &mut Random, image: &mut [u8]) -> (u64, Vec<u8>) {
    let length = image.len();
    let range = match kind {
        Kind::InsidePage => inside_page(random, length),
        Kind::OverPageBorder => over_page_border(random, length),
        Kind::OverSectorBorder => over_sector_border(random, length),
        Kind::WholeImage => 0..length,
        Kind::PastEnd => return past_end(random, length),
        Kind::PassingEnd => return passing_end(random, length),
        Kind::EmptyFile => {
            let inside = random.below(length);
            let address = random.pick(&[0, inside, length - 1, length]);
            return (address as u64, Vec::new());
        }
        _ => any_range(random, length),
    };
    let old = &mut image[range.clone()];
    let new = match kind {
        Kind::Equal => old.to_vec(),
        Kind::OnlyClearing => cleared(random, old),
        Kind::OneClimbingBit => one_climbing_bit(random, old),
        Kind::Blanking => vec![0xFF; old.len()],
        Kind::RandomBytes => random.bytes(old.len()),
        _ => any_bytes(random, old),
    };
    (range.start as u64, new)
}

fn any_range(random: &mut Random, length: usize) -> Range<usize> {
    let start = match random.below(4) {
        0 => 0,
        1 => random.below(length / PAGE) * PAGE,
        2 => random.below(length / SECTOR) * SECTOR,
        _ => random.below(length),
    };
    let most = match random.below(6) {
        0 => 1,
        1 => PAGE,
        2 => SECTOR,
        3 => random.between(1, 16),
        4 => random.between(1, 2 * PAGE),
        _ => random.between(1, 3 * SECTOR),
    };
    start..length.min(start + most)
}

fn inside_page(random: &mut Random, length: usize) -> Range<usize> {
    let page = random.below(length / PAGE) * PAGE;
    let first = random.below(PAGE);
    let last = random.between(first, PAGE - 1);
    page + first..page + last + 1
}

fn over_page_border(random: &mut Random, length: usize) -> Range<usize> {
    let border = random.below(length / SECTOR) * SECTOR + random.between(1, 15) * PAGE;
    border - random.between(1, PAGE)..border + random.between(1, PAGE)
}

fn over_sector_border(random: &mut Random, length: usize) -> Range<usize> {
    let border = random.between(1, length / SECTOR - 1) * SECTOR;
    let reach = random.pick(&[2, PAGE, SECTOR]);
    border - random.between(1, reach)..border + random.between(1, reach)
}

fn past_end(random: &mut Random, length: usize) -> (u64, Vec<u8>) {
    let length = length as u64;
    let address = match random.below(6) {
        0 => length + 1,
        1 => length + random.below(1_000_000) as u64 + 1,
        2 => u64::MAX,
        3 => u64::MAX - random.below(5) as u64,
        4 => 1 << 32,
        _ => (1 << 32) + random.below(length as usize) as u64,
    };
    let count = random.below(6);
    (address, random.bytes(count))
}

fn passing_end(random: &mut Random, length: usize) -> (u64, Vec<u8>) {
    let left = random.pick(&[0, 1, 7, PAGE, SECTOR, length]);
    let extra = random.pick(&[1, 2, PAGE, SECTOR]);
    ((length - left) as u64, random.bytes(left + extra))
}

fn cleared(random: &mut Random, old: &[u8]) -> Vec<u8> {
    let few = random.percent(50);
    let mut new = old.to_vec();
    for byte in &mut new {
        if !few || random.percent(2) {
            *byte &= random.byte();
        }
    }
    new
}

/// Bits that fall or stay, but for one that climbs.
fn one_climbing_bit(random: &mut Random, old: &mut [u8]) -> Vec<u8> {
    let at = random.below(old.len());
    let bit = 1 << random.below(8);
    old[at] &= !bit;
    let mut new = match random.below(2) {
        0 => old.to_vec(),
        _ => cleared(random, old),
    };
    new[at] |= bit;
    new
}

fn any_bytes(random: &mut Random, old: &mut [u8]) -> Vec<u8> {
    match random.below(6) {
        0 => cleared(random, old),
        1 => one_climbing_bit(random, old),
        2 => vec![0xFF; old.len()],
        3 => vec![0x00; old.len()],
        4 => random.bytes(old.len()),
        _ => {
            let mut new = old.to_vec();
            change_some(random, &mut new);
            new
        }
    }
}

fn spoil(random: &mut Random, arguments: &mut Vec<OsString>) {
    match random.below(4) {
        0 => arguments.truncate(1 + random.below(3)),
        1 => arguments.push(random.pick(&["", "0", FILE]).into()),
        2 => arguments[0] = random.pick(&["", "Write", "writes", "wri", "-"]).into(),
        _ => {
            arguments.remove(random.below(4));
        }
    }
}

/// The file in the folder, named from there or from the root.
pub fn path(random: &mut Random, folder: &Path, name: &str) -> OsString {
    match random.below(10) {
        0 => format!("./{name}").into(),
        1 | 2 => folder.join(name).into(),
        _ => name.into(),
    }
}
