//! Put, held to costs worked out by hand and to the changes it stands for.

use flash_model::put::{put, Cost, Flash, PutRefusal, PAGE, SECTOR};
use flash_model::random::Random;

fn flash(bytes: Vec<u8>) -> Flash {
    let mut flash = Flash::open_image(bytes).unwrap();
    flash.program_ticks = 3;
    flash.erase_ticks = 5;
    flash
}

fn blank(sectors: usize) -> Flash {
    flash(vec![0xFF; sectors * SECTOR])
}

fn put_now(flash: &mut Flash, address: usize, new: &[u8]) -> Result<Cost, PutRefusal> {
    put(flash, address, new, &mut [0; SECTOR])
}

fn cost(programs: u64, erases: u64, ticks: u64) -> Result<Cost, PutRefusal> {
    Ok(Cost {
        programs,
        erases,
        ticks,
    })
}

#[test]
fn clearing_bits_takes_a_program() {
    let mut flash = blank(1);
    flash.bytes[100] = 0x3C;
    assert_eq!(put_now(&mut flash, 100, &[0x30]), cost(1, 0, 3));
    assert_eq!(flash.bytes[99..102], [0xFF, 0x30, 0xFF]);
}

#[test]
fn a_climbing_bit_takes_an_erase() {
    let mut flash = blank(1);
    flash.bytes[100] = 0x3C;
    assert_eq!(put_now(&mut flash, 100, &[0xF0]), cost(1, 1, 8));
    assert_eq!(flash.bytes[99..102], [0xFF, 0xF0, 0xFF]);
}

#[test]
fn equal_bytes_take_nothing_protected_or_not() {
    let mut flash = blank(2);
    flash.bytes[100] = 0x3C;
    flash.marks = vec![true; 2];
    let before = flash.clone();
    assert_eq!(put_now(&mut flash, 100, &[0x3C]), cost(0, 0, 0));
    assert_eq!(put_now(&mut flash, 4000, &[0xFF; 200]), cost(0, 0, 0));
    assert_eq!(put_now(&mut flash, 0, &[]), cost(0, 0, 0));
    assert_eq!(put_now(&mut flash, 2 * SECTOR, &[]), cost(0, 0, 0));
    assert_eq!(flash, before);
}

#[test]
fn an_erased_sector_gets_back_all_its_pages_that_are_not_blank() {
    let mut flash = blank(2);
    for page in [1, 4, 9, 16] {
        flash.bytes[page * PAGE] = 0x00;
    }
    // Page 4 becomes blank; pages 1 and 9 are programmed again; page 16 is in the other sector.
    assert_eq!(put_now(&mut flash, 4 * PAGE, &[0xFF]), cost(2, 1, 11));
    let zeros: Vec<usize> = (0..2 * SECTOR).filter(|&at| flash.bytes[at] == 0).collect();
    assert_eq!(zeros, [PAGE, 9 * PAGE, 16 * PAGE]);
}

#[test]
fn blanking_the_only_bytes_of_a_sector_takes_no_program() {
    let mut flash = blank(1);
    flash.bytes[7] = 0x7F;
    assert_eq!(put_now(&mut flash, 0, &[0xFF; 16]), cost(0, 1, 5));
    assert_eq!(flash, blank(1));
}

#[test]
fn each_sector_is_judged_alone() {
    let mut flash = blank(2);
    flash.bytes[SECTOR] = 0x00;
    // The last two pages' bytes of sector 0 fall; the first byte of sector 1 climbs.
    let mut new = vec![0x0F; PAGE + 1];
    new.push(0x01);
    let address = SECTOR - PAGE - 1;
    assert_eq!(put_now(&mut flash, address, &new), cost(3, 1, 14));
    assert_eq!(flash.bytes[address..SECTOR + 1], new);
}

#[test]
fn pages_that_keep_their_bytes_take_no_program() {
    let mut flash = blank(1);
    let mut new = vec![0xFF; SECTOR];
    new[0] = 0xFE;
    new[SECTOR - 1] = 0x00;
    assert_eq!(put_now(&mut flash, 0, &new), cost(2, 0, 6));
    assert_eq!(flash.bytes, new);
}

#[test]
fn refusals_come_in_order_and_change_nothing_but_the_work_buffer() {
    let mut flash = blank(3);
    flash.marks = vec![false, true, true];
    flash.ready = false;
    let refused = |flash: &Flash, address: usize, new: &[u8], work: usize| {
        let mut after = flash.clone();
        let mut work = vec![0x11; work];
        let refusal = put(&mut after, address, new, &mut work).unwrap_err();
        assert_eq!(&after, flash);
        assert!(work.iter().all(|&byte| byte == 0xFF));
        (refusal, refusal.number())
    };
    let length = flash.bytes.len();
    let range = (PutRefusal::Range, 1);
    assert_eq!(refused(&flash, length, &[0], SECTOR), range);
    assert_eq!(refused(&flash, length + 1, &[], SECTOR), range);
    assert_eq!(refused(&flash, usize::MAX, &[0], SECTOR), range);
    assert_eq!(refused(&flash, 0, &[0], SECTOR - 1), range);
    assert_eq!(refused(&flash, 0, &[], SECTOR + 1), range);
    assert_eq!(refused(&flash, 0, &[], SECTOR), (PutRefusal::Busy, 2));
    flash.ready = true;
    // Sector 0 could change; sectors 1 and 2 are protected and must change.
    let protected = (PutRefusal::Protected(1), 3);
    assert_eq!(refused(&flash, 0, &[0; 3 * SECTOR], SECTOR), protected);
    // Sector 1 keeps its bytes.
    let mut new = vec![0xFF; 2 * SECTOR];
    new[SECTOR] = 0x00;
    let protected = (PutRefusal::Protected(2), 3);
    assert_eq!(refused(&flash, SECTOR, &new, SECTOR), protected);
}

#[test]
fn an_image_has_1_to_256_whole_sectors_and_a_mark_for_each() {
    for length in [0, 1, SECTOR - 1, SECTOR + 1, 257 * SECTOR] {
        assert_eq!(Flash::open_image(vec![0xFF; length]), None);
    }
    for sectors in [1, 2, 256] {
        let bytes = vec![0xFF; sectors * SECTOR];
        let flash = Flash::open_image(bytes.clone()).unwrap();
        assert_eq!((flash.program_ticks, flash.erase_ticks), (1, 1));
        assert_eq!(Flash::image(bytes, vec![false; sectors + 1]), None);
    }
}

/// One change that a flash can make.
#[derive(Clone, Debug)]
enum Change {
    Erase(usize),
    Program(usize, Vec<u8>),
}

fn made(mut bytes: Vec<u8>, changes: &[Change]) -> Vec<u8> {
    for change in changes {
        match change {
            Change::Erase(sector) => bytes[sector * SECTOR..][..SECTOR].fill(0xFF),
            Change::Program(page, data) => {
                for (cell, byte) in bytes[page * PAGE..][..PAGE].iter_mut().zip(data) {
                    *cell &= byte;
                }
            }
        }
    }
    bytes
}

/// Changes that lead from the old bytes to the new ones, found by trying: a
/// sector is erased if programs alone do not give its new bytes, and a page is
/// programmed if it would be wrong otherwise.
fn tried_changes(old: &[u8], new: &[u8]) -> Vec<Change> {
    let mut changes = Vec::new();
    for sector in 0..old.len() / SECTOR {
        let range = sector * SECTOR..(sector + 1) * SECTOR;
        let pages = range.start / PAGE..range.end / PAGE;
        let program = |page: usize| Change::Program(page, new[page * PAGE..][..PAGE].to_vec());
        let all: Vec<Change> = pages.clone().map(program).collect();
        if made(old.to_vec(), &all)[range.clone()] != new[range] {
            changes.push(Change::Erase(sector));
        }
        let so_far = made(old.to_vec(), &changes);
        for page in pages {
            let place = page * PAGE..(page + 1) * PAGE;
            if so_far[place.clone()] != new[place] {
                changes.push(program(page));
            }
        }
    }
    changes
}

#[test]
fn the_counted_changes_give_the_new_bytes_and_none_can_be_left_out() {
    let mut random = Random::new(1);
    for _ in 0..300 {
        let sectors = random.between(1, 2);
        let mut before = blank(sectors);
        for _ in 0..random.below(6) {
            let at = random.below(before.bytes.len());
            before.bytes[at] = random.byte();
        }
        let address = random.below(before.bytes.len());
        let most = (before.bytes.len() - address).min(random.pick(&[2, 300, 6000]));
        let mut new = before.bytes[address..address + most].to_vec();
        for _ in 0..random.below(4) {
            let at = random.below(most);
            new[at] = match random.below(3) {
                0 => new[at] & random.byte(),
                1 => new[at] | random.byte(),
                _ => random.byte(),
            };
        }

        let mut after = before.clone();
        let cost = put_now(&mut after, address, &new).unwrap();
        let changes = tried_changes(&before.bytes, &after.bytes);
        let erases = changes.iter().filter(|c| matches!(c, Change::Erase(_)));
        let erases = erases.count() as u64;
        let programs = changes.len() as u64 - erases;

        assert_eq!((cost.programs, cost.erases), (programs, erases));
        assert_eq!(cost.ticks, 3 * programs + 5 * erases);
        assert_eq!(after.bytes[address..][..most], new);
        assert_eq!(after.bytes[..address], before.bytes[..address]);
        assert_eq!(
            after.bytes[address + most..],
            before.bytes[address + most..]
        );
        assert_eq!(made(before.bytes.clone(), &changes), after.bytes);
        for left_out in 0..changes.len() {
            let mut fewer = changes.clone();
            fewer.remove(left_out);
            assert_ne!(made(before.bytes.clone(), &fewer), after.bytes);
        }
    }
}
