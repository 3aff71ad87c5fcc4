//! The story that `calibrate` tells without arguments: a row changes its sign on
//! an FT25H08, its neighbours stay, and what that costs.

use std::io::{self, Write};

use crate::book::Book;
use crate::calibrate::{millimetres, shown};
use crate::put::{Cost, Flash, SECTOR};
use crate::replay::BENCH_TICKS;
use crate::rows::{Kind, Row};

const CAPACITY: usize = 0x10_0000;
const FIRST: [(i16, i16); 3] = [(150, 240), (250, 110), (-101, -34)];
const CORRECTED: (i16, i16) = (150, -240);

fn row((tenths, hundredths): (i16, i16)) -> Row {
    Row::temperature(tenths, hundredths).expect("a row within its limits")
}

fn hex(bytes: &[u8]) -> String {
    let bytes: Vec<String> = bytes.iter().map(|byte| format!("{byte:02x}")).collect();
    bytes.join(" ")
}

/// A new chip, used as a flash: nothing in it is protected.
fn new_flash() -> Flash {
    Flash {
        bytes: vec![0xFF; CAPACITY],
        marks: vec![false; CAPACITY / SECTOR],
        ready: true,
        program_ticks: BENCH_TICKS.program.into(),
        erase_ticks: BENCH_TICKS.sector_erase.into(),
    }
}

fn put(book: &Book, flash: &mut Flash, slot: usize, numbers: (i16, i16)) -> Cost {
    book.put_row(flash, slot, &row(numbers), &mut [0; SECTOR])
        .expect("an open sector")
}

fn print_slots(out: &mut impl Write, book: &Book, flash: &Flash) -> io::Result<()> {
    for slot in 0..FIRST.len() {
        let row = book.get(flash, slot).expect("a slot").expect("a row");
        let bytes = hex(&row.bytes());
        writeln!(out, "  slot {slot}: {}   {bytes}", shown(&row))?;
    }
    Ok(())
}

/// What programming the corrected row over the first one would leave.
fn programmed_over() -> Vec<u8> {
    let (old, new) = (row(FIRST[0]).bytes(), row(CORRECTED).bytes());
    old.iter().zip(&new).map(|(old, new)| old & new).collect()
}

pub fn print_story(out: &mut impl Write) -> io::Result<()> {
    let mut flash = new_flash();
    let book = Book::new(Kind::Temperature, &flash, 0, SECTOR).expect("a book");
    for (slot, numbers) in FIRST.into_iter().enumerate() {
        put(&book, &mut flash, slot, numbers);
    }
    writeln!(out, "An FT25H08 keeps temperature rows in its first sector:")?;
    print_slots(out, &book, &flash)?;
    let wanted = hex(&row(CORRECTED).bytes());
    writeln!(out, "The row in slot 0 has the wrong sign. It should be     {wanted}")?;
    let left = hex(&programmed_over());
    writeln!(out, "A program only clears bits. Over the old row it leaves {left}:")?;
    let error = millimetres(FIRST[0].1 - CORRECTED.1);
    writeln!(out, "the sign byte stays, and every face is measured {error} off.")?;
    let cost = put(&book, &mut flash, 0, CORRECTED);
    writeln!(out, "Put erases the sector and programs it anew:")?;
    writeln!(out, "  {cost}")?;
    print_slots(out, &book, &flash)
}
