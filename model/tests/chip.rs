//! The chip against cases worked out by hand from its rules.

use flash_model::chip::command::{Command, CODES};
use flash_model::chip::refusal::Refusal;
use flash_model::chip::{Chip, ARRAY_LENGTHS};
use flash_model::hex;
use flash_model::replay::{bench_part, BENCH_TICKS};

const MEBIBYTE: usize = 0x10_0000;

/// A part of the full length whose byte at each address is given.
fn large_part(byte_at: impl Fn(usize) -> u8) -> Chip {
    Chip::new((0..MEBIBYTE).map(byte_at).collect(), BENCH_TICKS).unwrap()
}

/// Sends a frame written in hexadecimal and gives its answer bytes.
fn send(chip: &mut Chip, frame: &str) -> Result<Vec<u8>, Refusal> {
    send_with_odd_bits(chip, frame, 0)
}

fn send_with_odd_bits(chip: &mut Chip, frame: &str, odd_bits: u8) -> Result<Vec<u8>, Refusal> {
    let frame = hex::bytes(frame);
    let mut answer = vec![0x99; frame.len()];
    let outcome = chip.frame(&frame, odd_bits, &mut answer);
    if outcome.is_err() && outcome != Err(Refusal::BadArgument) {
        assert!(answer.iter().all(|&byte| byte == 0xFF));
    }
    outcome.map(|()| answer)
}

fn number(chip: &mut Chip, frame: &str) -> u8 {
    match send(chip, frame) {
        Ok(_) => 0,
        Err(refusal) => refusal.number(),
    }
}

/// Enables writes, sends the frame, which must be accepted, and waits.
fn change(chip: &mut Chip, frame: &str, ticks: u16) {
    send(chip, "06").unwrap();
    send(chip, frame).unwrap();
    for _ in 0..ticks {
        assert_eq!(chip.status() & 1, 1);
        chip.tick();
    }
    assert_eq!(chip.status() & 3, 0);
}

#[test]
fn birth_needs_a_known_length_and_counts_above_zero() {
    for length in ARRAY_LENGTHS {
        assert!(Chip::new(vec![0; length], BENCH_TICKS).is_ok());
    }
    for length in [0, 1, 0xFFFF, 0x1_0001, 0x3_0000, 0x20_0000] {
        let refused = Chip::new(vec![0; length], BENCH_TICKS);
        assert_eq!(refused, Err(Refusal::BadArgument));
    }
    for zeroed in 0..6 {
        let mut counts = BENCH_TICKS;
        let count = match zeroed {
            0 => &mut counts.status_write,
            1 => &mut counts.program,
            2 => &mut counts.sector_erase,
            3 => &mut counts.half_block_erase,
            4 => &mut counts.block_erase,
            _ => &mut counts.chip_erase,
        };
        *count = 0;
        let refused = Chip::new(vec![0; 0x1_0000], counts);
        assert_eq!(refused, Err(Refusal::BadArgument));
    }
}

#[test]
fn a_newborn_part_keeps_its_array_and_has_blank_registers() {
    let chip = large_part(|address| (address % 251) as u8);
    assert_eq!(chip.status(), 0);
    assert_eq!(chip.array_byte(0), Some(0));
    assert_eq!(
        chip.array_byte(MEBIBYTE - 1),
        Some(((MEBIBYTE - 1) % 251) as u8)
    );
    assert_eq!(chip.array_byte(MEBIBYTE), None);
    assert!((0..0x400).all(|address| chip.security_byte(address) == Some(0xFF)));
    assert_eq!(chip.security_byte(0x400), None);
    assert!(chip.is_write_protect_high());
}

#[test]
fn a_program_without_write_enable_is_refused_with_7() {
    assert_eq!(number(&mut bench_part(), "02 000010 55"), 7);
}

#[test]
fn a_program_wraps_inside_its_page() {
    let mut chip = bench_part();
    change(&mut chip, "02 0000FE 11 22 33", 3);
    assert_eq!(chip.array_byte(0xFE), Some(0x11));
    assert_eq!(chip.array_byte(0xFF), Some(0x22));
    assert_eq!(chip.array_byte(0x00), Some(0x33));
    assert_eq!(chip.array_byte(0x100), Some(0xFF));
}

#[test]
fn the_status_shows_a_running_program() {
    let mut chip = bench_part();
    send(&mut chip, "06").unwrap();
    send(&mut chip, "02 000000 00").unwrap();
    assert_eq!(send(&mut chip, "05 0000"), Ok(vec![0xFF, 0x03, 0x03]));
}

#[test]
fn a_block_erase_takes_its_address_modulo_the_array() {
    let mut chip = Chip::new(vec![0x00; 0x1_0000], BENCH_TICKS).unwrap();
    send(&mut chip, "06").unwrap();
    send(&mut chip, "D8 012345").unwrap();
    chip.ticks(12);
    assert_eq!(chip.array_byte(0x0000), Some(0x00));
    chip.tick();
    assert!((0..0x1_0000).all(|address| chip.array_byte(address) == Some(0xFF)));
}

#[test]
fn a_protected_status_register_needs_wp_high() {
    let mut chip = bench_part();
    change(&mut chip, "01 80", 2);
    chip.pin(0).unwrap();
    assert_eq!(number(&mut chip, "06"), 0);
    assert_eq!(number(&mut chip, "01 00"), 9);
    chip.pin(1).unwrap();
    assert_eq!(number(&mut chip, "01 00"), 0);
}

#[test]
fn locked_registers_cannot_be_erased() {
    let mut chip = bench_part();
    change(&mut chip, "01 00 04", 2);
    assert_eq!(number(&mut chip, "06"), 0);
    assert_eq!(number(&mut chip, "44"), 9);
}

#[test]
fn a_cut_leaves_junk() {
    let mut chip = bench_part();
    send(&mut chip, "06").unwrap();
    send(&mut chip, "02 000000 00").unwrap();
    chip.cut(&[0xA5]).unwrap();
    assert_eq!(chip.array_byte(0), Some(0xA5));
    assert_eq!(chip.array_byte(1), Some(0xFF));
    assert_eq!(chip.status(), 0);
    send(&mut chip, "06").unwrap();
    send(&mut chip, "20 000000").unwrap();
    chip.cut(&[0xA5]).unwrap();
    assert!((0..0x1000).all(|address| chip.array_byte(address) == Some(0xA5)));
    assert_eq!(chip.array_byte(0x1000), Some(0xFF));
}

#[test]
fn junk_is_found_by_address() {
    let mut chip = large_part(|_| 0xFF);
    let junk: Vec<u8> = (0..7).collect();
    send(&mut chip, "06").unwrap();
    send(&mut chip, "52 0F9234").unwrap();
    chip.ticks(7);
    chip.cut(&junk).unwrap();
    for address in 0xF_8000..0x10_0000 {
        assert_eq!(chip.array_byte(address), Some((address % 7) as u8));
    }
    assert_eq!(chip.array_byte(0xF_7FFF), Some(0xFF));

    send(&mut chip, "06").unwrap();
    send(&mut chip, "44").unwrap();
    chip.cut(&junk).unwrap();
    for address in 0..0x400 {
        assert_eq!(chip.security_byte(address), Some((address % 7) as u8));
    }

    // 0x1_2303 is 7 times 10,642 and 5 more: junk 5 and 6 go with the data.
    send(&mut chip, "06").unwrap();
    send(&mut chip, "02 012303 F0 00").unwrap();
    chip.cut(&junk).unwrap();
    assert_eq!(chip.array_byte(0x1_2303), Some(0xF5));
    assert_eq!(chip.array_byte(0x1_2304), Some(0x06));
    assert_eq!(chip.array_byte(0x1_2305), Some(0xFF));
}

#[test]
fn a_cut_needs_one_junk_byte_up_to_the_array_length() {
    let mut chip = bench_part();
    assert_eq!(chip.cut(&[]), Err(Refusal::BadArgument));
    assert_eq!(chip.cut(&vec![0; 0x1_0001]), Err(Refusal::BadArgument));
    assert_eq!(chip.cut(&vec![0; 0x1_0000]), Ok(()));
    // A refused cut changes nothing.
    send(&mut chip, "06").unwrap();
    send(&mut chip, "20 000000").unwrap();
    let before = chip.clone();
    assert_eq!(chip.cut(&[]), Err(Refusal::BadArgument));
    assert_eq!(chip, before);
}

#[test]
fn a_cut_status_write_looks_at_the_first_junk_byte() {
    for (junk, status) in [
        ([0x01, 0x00], 0x4204),
        ([0x00, 0x01], 0x0008),
        ([0xFE, 0xFF], 0x0008),
        ([0xFF, 0x00], 0x4204),
    ] {
        let mut chip = bench_part();
        change(&mut chip, "01 08", 2);
        send(&mut chip, "06").unwrap();
        send(&mut chip, "01 04 42").unwrap();
        chip.tick();
        chip.cut(&junk).unwrap();
        assert_eq!(chip.status(), status);
    }
}

#[test]
fn a_cut_wakes_the_part_and_keeps_the_pin() {
    let mut chip = bench_part();
    chip.pin(0).unwrap();
    send(&mut chip, "06").unwrap();
    send(&mut chip, "B9").unwrap();
    assert_eq!(number(&mut chip, "05 00"), 4);
    chip.cut(&[0x77]).unwrap();
    assert_eq!(send(&mut chip, "05 00"), Ok(vec![0xFF, 0x00]));
    assert!(!chip.is_write_protect_high());
}

#[test]
fn a_one_byte_status_write_clears_qe_and_cmp_only() {
    let mut chip = bench_part();
    change(&mut chip, "01 FF FF", 2);
    assert_eq!(chip.status(), 0x46BC);
    change(&mut chip, "01 14", 2);
    assert_eq!(chip.status(), 0x0414);
    change(&mut chip, "01 00 00", 2);
    assert_eq!(chip.status(), 0x0400);
}

#[test]
fn bad_arguments_come_first_and_leave_the_answer_alone() {
    let mut chip = bench_part();
    let mut answer = [0x99; 5000];
    let refused = Err(Refusal::BadArgument);
    assert_eq!(chip.frame(&[0x05; 4097], 0, &mut answer), refused);
    assert_eq!(chip.frame(&[0x05; 4], 8, &mut answer), refused);
    assert_eq!(chip.frame(&[0x05; 4], 0, &mut answer[..3]), refused);
    send(&mut chip, "B9").unwrap();
    assert_eq!(chip.frame(&[], 8, &mut answer), refused);
    assert!(answer.iter().all(|&byte| byte == 0x99));
}

#[test]
fn a_longer_answer_buffer_keeps_its_tail() {
    let mut chip = bench_part();
    let mut answer = [0x99; 5];
    assert_eq!(chip.frame(&[0x05, 0x00], 0, &mut answer), Ok(()));
    assert_eq!(answer, [0xFF, 0x00, 0x99, 0x99, 0x99]);
    let mut answer = [0x99; 3];
    assert_eq!(
        chip.frame(&[0x9F, 0x00], 0, &mut answer),
        Err(Refusal::UnlistedCode)
    );
    assert_eq!(answer, [0xFF, 0xFF, 0x99]);
}

#[test]
fn reads_go_around_the_end() {
    let mut chip = large_part(|address| (address % 251) as u8);
    let last = ((MEBIBYTE - 1) % 251) as u8;
    assert_eq!(
        send(&mut chip, "03 0FFFFF 0000").unwrap()[4..],
        [last, 0x00]
    );
    assert_eq!(
        send(&mut chip, "0B FFFFFF AA 0000").unwrap()[4..],
        [0xFF, last, 0x00]
    );
    change(&mut chip, "42 0003FF 12", 3);
    change(&mut chip, "42 000000 34", 3);
    assert_eq!(
        send(&mut chip, "48 0003FF 00 0000").unwrap()[4..],
        [0xFF, 0x12, 0x34]
    );
}

#[test]
fn a_security_read_can_go_around_many_times() {
    let mut chip = bench_part();
    change(&mut chip, "42 000000 34", 3);
    let mut frame = vec![0x00; 4096];
    frame[0] = 0x48;
    frame[2] = 0x03;
    frame[3] = 0xFF;
    let mut answer = vec![0; 4096];
    chip.frame(&frame, 0, &mut answer).unwrap();
    let shown: Vec<usize> = (0..4096).filter(|&index| answer[index] == 0x34).collect();
    assert_eq!(shown, [6, 6 + 1024, 6 + 2048, 6 + 3072]);
}

/// First and last protected block of each row; none where nothing is.
const ROWS: [[Option<(usize, usize)>; 16]; 2] = {
    const ALL: Option<(usize, usize)> = Some((0, 15));
    let mut rows = [[ALL; 16]; 2];
    rows[0][0] = None;
    rows[0][1] = Some((15, 15));
    rows[0][2] = Some((14, 15));
    rows[0][3] = Some((12, 15));
    rows[0][4] = Some((8, 15));
    rows[1][0] = None;
    rows[1][1] = Some((0, 0));
    rows[1][2] = Some((0, 1));
    rows[1][3] = Some((0, 3));
    rows[1][4] = Some((0, 7));
    rows
};

#[test]
fn every_row_protects_its_blocks_and_no_others() {
    for length in ARRAY_LENGTHS {
        for (complement, rows) in ROWS.iter().enumerate() {
            for (block_protect, row) in rows.iter().enumerate() {
                let mut chip = Chip::new(vec![0xFF; length], BENCH_TICKS).unwrap();
                let write = format!("01 {:02X} {:02X}", block_protect << 2, complement << 6);
                change(&mut chip, &write, 2);
                send(&mut chip, "06").unwrap();
                for block in 0..length / 0x1_0000 {
                    let protected =
                        row.is_some_and(|(first, last)| (first..=last).contains(&block));
                    check_block(&chip, block, if protected { 3 } else { 0 });
                }
                let clear = block_protect == 0 && complement == 0;
                for code in ["60", "C7"] {
                    assert_eq!(number(&mut chip.clone(), code), if clear { 0 } else { 3 });
                }
            }
        }
    }
}

/// All array changes in a block give the answer, at its first and last byte.
fn check_block(chip: &Chip, block: usize, answer: u8) {
    for offset in ["0000", "FFFF"] {
        for frame in ["02 {} 00", "20 {}", "52 {}", "D8 {}"] {
            let frame = frame.replace("{}", &format!("{block:02X}{offset}"));
            assert_eq!(number(&mut chip.clone(), &frame), answer, "{frame}");
        }
    }
}

#[test]
fn wake_is_refused_while_a_change_runs_and_harmless_when_idle() {
    let mut chip = bench_part();
    assert_eq!(send(&mut chip, "AB 0000"), Ok(vec![0xFF; 3]));
    send(&mut chip, "06").unwrap();
    send(&mut chip, "20 000000").unwrap();
    assert_eq!(number(&mut chip, "AB"), 2);
    assert_eq!(number(&mut chip, "9F"), 5);
    assert_eq!(number(&mut chip, "06 00"), 2);
    assert_eq!(number(&mut chip, ""), 6);
}

#[test]
fn refusals_change_nothing() {
    let mut chip = bench_part();
    change(&mut chip, "01 BC 04", 2);
    send(&mut chip, "06").unwrap();
    chip.pin(0).unwrap();
    let before = chip.clone();
    for (frame, answer) in [
        ("02 000000 00", 3),
        ("32 000000 00", 8),
        ("42 000000 00", 9),
        ("42 000400 00", 10),
        ("44", 9),
        ("60", 3),
        ("01 00", 9),
        ("01", 6),
        ("FF", 5),
    ] {
        assert_eq!(number(&mut chip, frame), answer, "{frame}");
    }
    assert_eq!(chip.pin(2), Err(Refusal::BadArgument));
    assert_eq!(chip, before);
}

#[test]
fn only_some_commands_allow_odd_bits() {
    let allowed = [0x03, 0x0B, 0x3B, 0x6B, 0x48, 0x05, 0x35, 0xAB];
    for code in CODES {
        let command = Command::decode(code).unwrap();
        assert_eq!(
            command.allows_odd_bits(),
            allowed.contains(&code),
            "{code:02X}"
        );
    }
    let mut chip = bench_part();
    let refused = send_with_odd_bits(&mut chip, "06", 1);
    assert_eq!(refused, Err(Refusal::WrongShape));
    assert!(send_with_odd_bits(&mut chip, "05 00", 7).is_ok());
}

#[test]
fn exactly_21_codes_are_listed() {
    let listed = (0..=0xFF).filter(|&code| Command::decode(code).is_some());
    assert_eq!(listed.count(), 21);
    assert!(CODES.iter().all(|&code| Command::decode(code).is_some()));
}

#[test]
fn many_ticks_at_once_are_the_same_as_one_by_one() {
    for (frame, ticks) in [
        ("20 000000", 5),
        ("60", 21),
        ("02 000000 12", 3),
        ("01 1C", 2),
    ] {
        for count in 0..=ticks + 2 {
            let mut at_once = bench_part();
            send(&mut at_once, "06").unwrap();
            send(&mut at_once, frame).unwrap();
            let mut one_by_one = at_once.clone();
            at_once.ticks(count);
            for _ in 0..count {
                one_by_one.tick();
            }
            assert_eq!(at_once, one_by_one);
            assert_eq!(at_once.ticks_left(), ticks.saturating_sub(count));
        }
    }
}
