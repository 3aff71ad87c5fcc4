//! The book, held to answers worked out by hand.

use flash_model::book::{Book, BookRefusal};
use flash_model::hex;
use flash_model::put::{Cost, Flash, PutRefusal, SECTOR};
use flash_model::rows::{Kind, Row};

fn blank(sectors: usize) -> Flash {
    Flash::open_image(vec![0xFF; sectors * SECTOR]).unwrap()
}

fn put_row(
    book: &Book,
    flash: &mut Flash,
    slot: usize,
    row: Row,
) -> Result<(u64, u64, u64), PutRefusal> {
    let mut work = vec![0x11; SECTOR];
    let answer = book.put_row(flash, slot, &row, &mut work);
    assert!(work.iter().all(|&byte| byte == 0xFF));
    answer.map(|cost: Cost| (cost.programs, cost.erases, cost.ticks))
}

#[test]
fn minus_over_plus_takes_one_erase() {
    let mut flash = blank(1);
    let book = Book::new(Kind::Temperature, &flash, 0, SECTOR).unwrap();
    let plus = Row::temperature(150, 240).unwrap();
    let minus = Row::temperature(150, -240).unwrap();
    assert_eq!(book.get(&flash, 1), Ok(None));
    assert_eq!(put_row(&book, &mut flash, 1, plus), Ok((1, 0, 1)));
    assert_eq!(flash.bytes[6..12], hex::bytes("54 96 00 00 F0 00"));
    assert_eq!(book.get(&flash, 1), Ok(Some(plus)));
    assert_eq!(put_row(&book, &mut flash, 1, minus), Ok((1, 1, 2)));
    assert_eq!(flash.bytes[6..12], hex::bytes("54 96 00 FF F0 00"));
    assert_eq!(book.get(&flash, 1), Ok(Some(minus)));
    // The sign falls from FF to 00: a program is enough.
    assert_eq!(put_row(&book, &mut flash, 1, plus), Ok((1, 0, 1)));
    assert_eq!(put_row(&book, &mut flash, 1, plus), Ok((0, 0, 0)));
    assert_eq!(book.get(&flash, 0), Ok(None));
    assert_eq!(book.get(&flash, 2), Ok(None));
}

#[test]
fn a_slot_fits_wholly_and_may_lie_over_a_sector_border() {
    for (kind, sectors, slots) in [
        (Kind::Temperature, 1, 682),
        (Kind::Temperature, 2, 1365),
        (Kind::Temperature, 3, 2048),
        (Kind::Reflector, 1, 372),
        (Kind::Reflector, 11, 4096),
    ] {
        let flash = blank(sectors);
        let book = Book::new(kind, &flash, 0, sectors * SECTOR).unwrap();
        assert_eq!(book.slots(), slots);
        assert_eq!(book.get(&flash, slots - 1), Ok(None));
        assert_eq!(book.get(&flash, slots), Err(BookRefusal::Range));
        assert_eq!(book.get(&flash, usize::MAX), Err(BookRefusal::Range));
    }
    let mut flash = blank(4);
    let book = Book::new(Kind::Temperature, &flash, SECTOR, 2 * SECTOR).unwrap();
    let row = Row::temperature(-1, -1).unwrap();
    // Slot 682 begins four bytes before a border: 54 FF FF FF, then 01 00.
    assert_eq!(put_row(&book, &mut flash, 682, row), Ok((2, 0, 2)));
    assert_eq!(
        flash.bytes[2 * SECTOR - 4..2 * SECTOR + 2],
        hex::bytes("54 FF FF FF 01 00")
    );
    assert_eq!(book.get(&flash, 682), Ok(Some(row)));
    let refused = put_row(&book, &mut flash, 1365, row);
    assert_eq!(refused, Err(PutRefusal::Range));
}

#[test]
fn what_a_slot_holds() {
    let mut flash = blank(1);
    let book = Book::new(Kind::Temperature, &flash, 0, SECTOR).unwrap();
    let slots = [
        "54 96 00 FF 00 00",
        "52 96 00 FF F0 00",
        "00 00 00 00 00 00",
        "FF 96 00 FF F0 00",
        "54 96 00 FF F0 00",
    ];
    flash.bytes[..30].copy_from_slice(&hex::bytes(&slots.concat()));
    let get = |slot| book.get(&flash, slot);
    assert_eq!(get(0), Err(BookRefusal::NoRow));
    assert_eq!(get(1), Err(BookRefusal::OtherKind));
    assert_eq!(get(2), Err(BookRefusal::OtherKind));
    assert_eq!(get(3), Ok(None));
    assert_eq!(get(4), Ok(Some(Row::temperature(150, -240).unwrap())));
    assert_eq!(get(0).unwrap_err().number(), 12);
    assert_eq!(get(1).unwrap_err().number(), 11);
}

#[test]
fn a_book_is_an_area_of_whole_sectors_in_the_flash() {
    let mut flash = blank(2);
    flash.ready = false;
    let made = |flash: &Flash, start, length| {
        let book = Book::new(Kind::Reflector, flash, start, length);
        book.map(|book| book.slots())
            .map_err(|refusal| refusal.number())
    };
    for (start, length) in [
        (0, 0),
        (0, SECTOR - 1),
        (1, SECTOR),
        (256, SECTOR - 256),
        (SECTOR, 2 * SECTOR),
        (2 * SECTOR, SECTOR),
        (usize::MAX - SECTOR + 1, SECTOR),
    ] {
        assert_eq!(made(&flash, start, length), Err(1), "{start} {length}");
    }
    assert_eq!(made(&flash, SECTOR, SECTOR), Err(2));
    flash.ready = true;
    assert_eq!(made(&flash, SECTOR, SECTOR), Ok(372));
    assert_eq!(made(&flash, 0, 2 * SECTOR), Ok(744));
}

#[test]
fn the_lent_flash_is_judged_again() {
    let large = blank(2);
    let mut small = blank(1);
    let book = Book::new(Kind::Temperature, &large, 0, 2 * SECTOR).unwrap();
    let row = Row::temperature(0, 0).unwrap();
    assert_eq!(book.get(&large, 681), Ok(None));
    assert_eq!(book.get(&small, 681), Err(BookRefusal::Range));
    assert_eq!(book.get(&small, 682), Err(BookRefusal::Range));
    let refused = put_row(&book, &mut small, 682, row);
    assert_eq!(refused, Err(PutRefusal::Range));
    small.ready = false;
    assert_eq!(book.get(&small, 682), Err(BookRefusal::Range));
    assert_eq!(put_row(&book, &mut small, 0, row), Err(PutRefusal::Busy));
    small.ready = true;
    small.marks = vec![true];
    let refused = put_row(&book, &mut small, 0, row);
    assert_eq!(refused, Err(PutRefusal::Protected(0)));
}
