//! What the program `calibrate` must print, and what its image file must hold
//! afterwards.

use std::ffi::OsString;
use std::fs;
use std::os::unix::ffi::{OsStrExt, OsStringExt};
use std::path::{Path, PathBuf};

use crate::book::Book;
use crate::decimal;
use crate::put::{put, Flash, SECTOR};
use crate::rows::{Kind, Row};
use crate::story::print_story;

/// An accepted call.
#[derive(Clone, Debug, PartialEq, Eq)]
pub struct Done {
    /// On standard output.
    pub printed: String,
    /// The image file, and its bytes afterwards. The story has none.
    pub image: Option<(PathBuf, Vec<u8>)>,
}

/// What a call with these arguments does, made in this folder. It reads files
/// and writes none. None: the call is refused.
pub fn calibrate(arguments: &[OsString], folder: &Path) -> Option<Done> {
    let words: Vec<&[u8]> = arguments.iter().map(|word| word.as_bytes()).collect();
    match words[..] {
        [] => story(),
        [b"write", image, address, file] => write(folder, image, address, file),
        [b"list", kind, image] => list(folder, kind, image),
        [b"get", kind, image, slot] => get(folder, kind, image, slot),
        [b"put", kind, image, slot, first, second] => {
            put_row(folder, kind, image, slot, first, second)
        }
        _ => None,
    }
}

fn story() -> Option<Done> {
    let mut text = Vec::new();
    print_story(&mut text).ok()?;
    Some(Done {
        printed: String::from_utf8(text).ok()?,
        image: None,
    })
}

fn write(folder: &Path, image: &[u8], address: &[u8], file: &[u8]) -> Option<Done> {
    let (path, mut flash) = open(folder, image)?;
    let new = fs::read(named(folder, file)).ok()?;
    let cost = put(&mut flash, address_in(address)?, &new, &mut [0xFF; SECTOR]);
    done(path, flash, format!("{}\n", cost.ok()?))
}

fn list(folder: &Path, kind: &[u8], image: &[u8]) -> Option<Done> {
    let (path, flash) = open(folder, image)?;
    let book = whole_book(kind_in(kind)?, &flash)?;
    let lines: String = (0..book.slots())
        .filter_map(|slot| line(&book, &flash, slot))
        .collect();
    done(path, flash, lines)
}

fn get(folder: &Path, kind: &[u8], image: &[u8], slot: &[u8]) -> Option<Done> {
    let (path, flash) = open(folder, image)?;
    let book = whole_book(kind_in(kind)?, &flash)?;
    let slot = slot_in(slot).filter(|&slot| slot < book.slots())?;
    let line = line(&book, &flash, slot).unwrap_or_else(|| format!("slot {slot}: empty\n"));
    done(path, flash, line)
}

fn put_row(
    folder: &Path,
    kind: &[u8],
    image: &[u8],
    slot: &[u8],
    first: &[u8],
    second: &[u8],
) -> Option<Done> {
    let (path, mut flash) = open(folder, image)?;
    let kind = kind_in(kind)?;
    let book = whole_book(kind, &flash)?;
    let hundredths = value_in(second, 2)?;
    let row = match kind {
        Kind::Temperature => Row::temperature(value_in(first, 1)?, hundredths),
        Kind::Reflector => Row::reflector(name_in(first)?, hundredths),
    };
    let cost = book.put_row(&mut flash, slot_in(slot)?, &row.ok()?, &mut [0xFF; SECTOR]);
    done(path, flash, format!("{}\n", cost.ok()?))
}

/// The line of a slot, or None if the slot is empty.
fn line(book: &Book, flash: &Flash, slot: usize) -> Option<String> {
    let held = match book.get(flash, slot) {
        Ok(None) => return None,
        Ok(Some(row)) => shown(&row),
        Err(refusal) => format!("refused {}", refusal.number()),
    };
    Some(format!("slot {slot}: {held}\n"))
}

/// A row as it is printed.
pub fn shown(row: &Row) -> String {
    match *row {
        Row::Temperature { tenths, hundredths } => {
            let degrees = decimal::plain(tenths.into(), 1);
            format!("{degrees} C {}", millimetres(hundredths))
        }
        Row::Reflector { name, hundredths } => {
            let name = String::from_utf8(name.to_vec()).expect("name bytes are ASCII");
            format!("\"{name}\" {}", millimetres(hundredths))
        }
    }
}

/// An offset as it is printed.
pub fn millimetres(hundredths: i16) -> String {
    format!("{} mm", decimal::signed(hundredths.into(), 2))
}

fn done(image: PathBuf, flash: Flash, printed: String) -> Option<Done> {
    Some(Done {
        printed,
        image: Some((image, flash.bytes)),
    })
}

fn named(folder: &Path, name: &[u8]) -> PathBuf {
    folder.join(OsString::from_vec(name.to_vec()))
}

fn open(folder: &Path, image: &[u8]) -> Option<(PathBuf, Flash)> {
    let path = named(folder, image);
    let flash = Flash::open_image(fs::read(&path).ok()?)?;
    Some((path, flash))
}

fn whole_book(kind: Kind, flash: &Flash) -> Option<Book> {
    Book::new(kind, flash, 0, flash.bytes.len()).ok()
}

fn kind_in(text: &[u8]) -> Option<Kind> {
    match text {
        b"temperature" => Some(Kind::Temperature),
        b"reflector" => Some(Kind::Reflector),
        _ => None,
    }
}

/// An address: decimal digits, or hexadecimal ones after 0x.
fn address_in(text: &[u8]) -> Option<usize> {
    match text.strip_prefix(b"0x") {
        Some(digits) => number_in(digits, 16),
        None => number_in(text, 10),
    }
}

/// A slot: decimal digits.
fn slot_in(text: &[u8]) -> Option<usize> {
    number_in(text, 10)
}

/// One or more digits and nothing else; a number of 64 bits.
fn number_in(digits: &[u8], base: u32) -> Option<usize> {
    let right = digits.iter().all(|&byte| char::from(byte).is_digit(base));
    if digits.is_empty() || !right {
        return None;
    }
    let number = u64::from_str_radix(std::str::from_utf8(digits).ok()?, base).ok()?;
    usize::try_from(number).ok()
}

fn value_in(text: &[u8], decimals: usize) -> Option<i16> {
    let value = decimal::read(std::str::from_utf8(text).ok()?, decimals)?;
    i16::try_from(value).ok()
}

/// A name of 1 to 8 bytes, filled up with spaces.
fn name_in(text: &[u8]) -> Option<[u8; 8]> {
    if !(1..=8).contains(&text.len()) {
        return None;
    }
    let mut name = [b' '; 8];
    name[..text.len()].copy_from_slice(text);
    Some(name)
}
