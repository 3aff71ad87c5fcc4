//! The calibration book: slots for rows of one kind, side by side in an area of
//! whole sectors of a flash. The book keeps no flash; each call is lent one.

use crate::put::{put, Cost, Flash, PutRefusal, SECTOR};
use crate::rows::{Kind, Row, RowRefusal};

#[derive(Clone, Copy, Debug, PartialEq, Eq)]
pub struct Book {
    kind: Kind,
    start: usize,
    length: usize,
}

/// Why a book is not made, or a slot not read.
#[derive(Clone, Copy, Debug, PartialEq, Eq)]
pub enum BookRefusal {
    /// No such area, or no such slot in the book or in the flash.
    Range,
    /// A change is under way.
    Busy,
    /// The slot begins with another byte than the kind's.
    OtherKind,
    /// The slot begins with the kind byte, but no row writes these bytes.
    NoRow,
}

impl BookRefusal {
    pub fn number(self) -> u8 {
        match self {
            BookRefusal::Range => 1,
            BookRefusal::Busy => 2,
            BookRefusal::OtherKind => 11,
            BookRefusal::NoRow => 12,
        }
    }
}

impl Book {
    pub fn new(
        kind: Kind,
        flash: &Flash,
        start: usize,
        length: usize,
    ) -> Result<Book, BookRefusal> {
        let whole = start.is_multiple_of(SECTOR) && length.is_multiple_of(SECTOR);
        let inside = start
            .checked_add(length)
            .is_some_and(|end| end <= flash.bytes.len());
        if length == 0 || !whole || !inside {
            return Err(BookRefusal::Range);
        }
        if !flash.ready {
            return Err(BookRefusal::Busy);
        }
        Ok(Book {
            kind,
            start,
            length,
        })
    }

    /// How many slots fit wholly.
    pub fn slots(&self) -> usize {
        self.length / self.kind.row_length()
    }

    /// Where the slot begins in the flash, if there is such a slot.
    fn address(&self, slot: usize) -> Option<usize> {
        (slot < self.slots()).then(|| self.start + slot * self.kind.row_length())
    }

    /// Puts the row into the slot. The work buffer comes back FF throughout.
    ///
    /// # Panics
    /// If the row is of another kind than the book.
    pub fn put_row(
        &self,
        flash: &mut Flash,
        slot: usize,
        row: &Row,
        work: &mut [u8],
    ) -> Result<Cost, PutRefusal> {
        assert_eq!(row.kind(), self.kind, "a book has rows of one kind");
        work.fill(0xFF);
        let address = self.address(slot).ok_or(PutRefusal::Range)?;
        put(flash, address, &row.bytes(), work)
    }

    /// The row in the slot, or None if the slot is empty.
    pub fn get(&self, flash: &Flash, slot: usize) -> Result<Option<Row>, BookRefusal> {
        let address = self.address(slot).ok_or(BookRefusal::Range)?;
        let end = address + self.kind.row_length();
        if self.start + self.length > flash.bytes.len() {
            return Err(BookRefusal::Range);
        }
        if !flash.ready {
            return Err(BookRefusal::Busy);
        }
        let bytes = &flash.bytes[address..end];
        if bytes[0] == 0xFF {
            return Ok(None);
        }
        match Row::read(self.kind, bytes) {
            Ok(row) => Ok(Some(row)),
            Err(RowRefusal::Length) => unreachable!("a slot is as long as a row"),
            Err(RowRefusal::OtherKind) => Err(BookRefusal::OtherKind),
            Err(RowRefusal::NoRow) => Err(BookRefusal::NoRow),
        }
    }
}
