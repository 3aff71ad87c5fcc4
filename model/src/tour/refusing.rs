//! Every refusal, and the order in which they are tried.

use super::Tour;
use crate::chip::refusal::Refusal;

/// For each code: the fewest and the most bytes of a frame, and whether odd
/// bits are allowed.
const SHAPES: [(u8, usize, usize, bool); 21] = [
    (0x06, 1, 1, false),
    (0x04, 1, 1, false),
    (0xB9, 1, 1, false),
    (0x60, 1, 1, false),
    (0xC7, 1, 1, false),
    (0x44, 1, 1, false),
    (0x20, 4, 4, false),
    (0x52, 4, 4, false),
    (0xD8, 4, 4, false),
    (0x01, 2, 3, false),
    (0x02, 5, 4096, false),
    (0x32, 5, 4096, false),
    (0x42, 5, 4096, false),
    (0x03, 4, 4096, true),
    (0x0B, 5, 4096, true),
    (0x3B, 5, 4096, true),
    (0x6B, 5, 4096, true),
    (0x48, 5, 4096, true),
    (0x05, 1, 4096, true),
    (0x35, 1, 4096, true),
    (0xAB, 1, 4096, true),
];

/// A change of each kind and the ticks it takes.
const CHANGES: [(&str, u16); 10] = [
    ("01 00", 2),
    ("01 00 00", 2),
    ("02 003000 11", 3),
    ("42 000000 22", 3),
    ("20 003000", 5),
    ("44", 5),
    ("52 003000", 8),
    ("D8 003000", 13),
    ("60", 21),
    ("C7", 21),
];

impl Tour {
    pub(super) fn show_refusing(&mut self) {
        self.show_shapes();
        self.show_unlisted_codes();
        self.show_busy_chip();
        self.show_protection_rows();
        self.show_order_of_argument_refusals();
        self.show_order_asleep();
        self.show_order_busy();
        self.show_order_idle();
        self.show_order_protected();
        self.show_order_guarded();
    }

    /// Every command in many shapes. Those that fit and start a change are
    /// refused too, as writes are not enabled.
    fn show_shapes(&mut self) {
        for (code, fewest, most, odd_bits_allowed) in SHAPES {
            for length in 1..=6 {
                for odd_bits in [0, 1, 7] {
                    let frame = frame_of(code, length);
                    let fits = (fewest..=most).contains(&length);
                    if fits && (odd_bits == 0 || odd_bits_allowed) {
                        self.show_fitting_frame(code, &frame, odd_bits);
                    } else {
                        self.refused_with_odd_bits(Refusal::WrongShape, &frame, odd_bits);
                    }
                }
            }
        }
        for odd_bits in 0..=7 {
            self.refused_with_odd_bits(Refusal::WrongShape, "", odd_bits);
        }
        self.status_is(0x0000);
        // With writes enabled a wrong shape still starts nothing.
        self.accepted("06");
        for frame in [
            "01",
            "01 000000",
            "02 000000",
            "42 000000",
            "20 0000",
            "20 000000 00",
        ] {
            self.refused(Refusal::WrongShape, frame);
        }
        for frame in [
            "01 00",
            "02 000000 00",
            "42 000000 00",
            "D8 000000",
            "60",
            "C7",
            "44",
        ] {
            self.refused_with_odd_bits(Refusal::WrongShape, frame, 4);
        }
        self.status_is(0x0002);
        self.accepted("04");
    }

    fn show_fitting_frame(&mut self, code: u8, frame: &str, odd_bits: u8) {
        match code {
            0x01 | 0x02 | 0x32 | 0x42 | 0x20 | 0x52 | 0xD8 | 0x60 | 0xC7 | 0x44 => {
                self.refused_with_odd_bits(Refusal::NotEnabled, frame, odd_bits)
            }
            0x6B => self.refused_with_odd_bits(Refusal::QuadDisabled, frame, odd_bits),
            _ => self.accepted_with_odd_bits(frame, odd_bits),
        }
        match code {
            0x06 => self.accepted("04"),
            0xB9 => self.accepted("AB"),
            _ => {}
        }
    }

    /// All codes that are no command: idle, busy and asleep.
    fn show_unlisted_codes(&mut self) {
        let is_listed = |code: &u8| SHAPES.iter().any(|(listed, ..)| listed == code);
        let unlisted: Vec<u8> = (0..=0xFF).filter(|code| !is_listed(code)).collect();
        for &code in &unlisted {
            self.refused(Refusal::UnlistedCode, &frame_of(code, 1));
        }
        self.start("60");
        for &code in &unlisted {
            self.refused(Refusal::UnlistedCode, &frame_of(code, 1));
        }
        self.ticks(21);
        self.accepted("B9");
        for &code in &unlisted {
            self.refused(Refusal::Asleep, &frame_of(code, 1));
        }
        self.accepted("AB");
        for length in [2, 4, 5, 9] {
            self.refused(Refusal::UnlistedCode, &frame_of(0x9F, length));
            self.refused_with_odd_bits(Refusal::UnlistedCode, &frame_of(0x9F, length), 3);
        }
    }

    /// While a change runs, of any kind, only the status can be read.
    fn show_busy_chip(&mut self) {
        for (change, ticks) in CHANGES {
            self.start(change);
            self.ticks(ticks / 2);
            for (code, fewest, ..) in SHAPES {
                let frame = frame_of(code, fewest);
                match code {
                    0x05 | 0x35 => self.accepted(&frame),
                    _ => self.refused(Refusal::Busy, &frame),
                }
            }
            self.shows("05 0000", "FF 0303");
            self.shows("35 00", "FF 00");
            self.accepted_with_odd_bits("05 00", 6);
            self.ticks(ticks - ticks / 2 - 1);
            self.shows("05 00", "FF 03");
            self.ticks(1);
            self.status_is(0x0000);
        }
    }

    /// All 32 rows. This array is the first block of the large part, so that a
    /// row protects either all of it or nothing.
    fn show_protection_rows(&mut self) {
        for complement in [false, true] {
            for block_protect in 0..16 {
                let protected = block_protect >= if complement { 1 } else { 5 };
                let no_bit_set = block_protect == 0 && !complement;
                self.show_protection_row(complement, block_protect, protected, no_bit_set);
            }
        }
        self.change("01 00", 2);
        self.change("60", 21);
    }

    fn show_protection_row(
        &mut self,
        complement: bool,
        block_protect: u8,
        protected: bool,
        no_bit_set: bool,
    ) {
        let low = block_protect << 2;
        let high = if complement { 0x42 } else { 0x02 };
        self.fill_array(0x7E);
        self.change(&format!("01 {low:02X} {high:02X}"), 2);
        self.status_is(u16::from_le_bytes([low, high]));
        self.try_array_change("02 001000 5A", 3, protected);
        self.try_array_change("02 0F8000 A5", 3, protected);
        self.try_array_change("32 FFFFFF 3C", 3, protected);
        self.show_edges();
        self.try_array_change("20 08F000", 5, protected);
        self.show_edges();
        self.try_array_change("52 000000", 8, protected);
        self.show_edges();
        self.try_array_change("D8 00FFFF", 13, protected);
        self.show_edges();
        self.try_array_change("60", 21, !no_bit_set);
        self.try_array_change("C7", 21, !no_bit_set);
        self.change("42 000000 00", 3);
        self.change("01 00", 2);
    }

    fn try_array_change(&mut self, frame: &str, ticks: u16, protected: bool) {
        if protected {
            self.accepted("06");
            self.refused(Refusal::Protected, frame);
        } else {
            self.change(frame, ticks);
        }
    }

    fn show_edges(&mut self) {
        self.accepted("03 000FFF 000000");
        self.accepted("03 007FFE 00000000");
        self.accepted("03 00FFFF 0000");
    }

    /// Bad arguments come first, then the frame without a byte.
    fn show_order_of_argument_refusals(&mut self) {
        self.refused_with_odd_bits(Refusal::BadArgument, "", 8);
        self.refused_with_odd_bits(Refusal::BadArgument, "9F", 8);
        self.refused_with_odd_bits(Refusal::BadArgument, "06 00", 0xFF);
        self.refused_with_odd_bits(Refusal::BadArgument, "02 000000 00", 9);
        self.accepted("B9");
        self.refused_with_odd_bits(Refusal::BadArgument, "", 8);
        self.refused_with_odd_bits(Refusal::BadArgument, "AB", 8);
        self.refused_with_odd_bits(Refusal::BadArgument, "9F", 8);
        self.refused(Refusal::WrongShape, "");
        self.accepted("AB");
        self.start("20 000000");
        self.refused_with_odd_bits(Refusal::BadArgument, "", 8);
        self.refused_with_odd_bits(Refusal::BadArgument, "05 00", 8);
        self.refused_with_odd_bits(Refusal::BadArgument, "06", 8);
        self.refused(Refusal::WrongShape, "");
        self.ticks(5);
    }

    /// Asleep comes before everything that is wrong with a frame of bytes.
    fn show_order_asleep(&mut self) {
        self.change("01 3C", 2);
        self.accepted("B9");
        for (code, fewest, ..) in SHAPES {
            if code != 0xAB {
                self.refused(Refusal::Asleep, &frame_of(code, fewest));
                self.refused(Refusal::Asleep, &frame_of(code, fewest + 1));
                self.refused_with_odd_bits(Refusal::Asleep, &frame_of(code, fewest), 1);
            }
        }
        self.refused(Refusal::Asleep, "48 000400 00");
        self.accepted("AB");
        self.accepted("06");
        self.accepted("B9");
        self.refused(Refusal::Asleep, "02 000000 00");
        self.refused(Refusal::Asleep, "32 000000 00");
        self.refused(Refusal::Asleep, "42 000400 00");
        self.accepted("AB");
        self.change("01 00", 2);
    }

    /// Unlisted comes before busy, busy before all the rest.
    fn show_order_busy(&mut self) {
        self.change("01 BC", 2);
        self.start("44");
        self.pin(0);
        self.refused(Refusal::UnlistedCode, "9F");
        self.refused_with_odd_bits(Refusal::UnlistedCode, "9F 00", 5);
        for frame in [
            "06 00",
            "01",
            "03 0000",
            "6B 000000 00",
            "32 000000 00",
            "48 000400 00",
            "42 000400 00",
            "02 000000 00",
            "20 000000",
            "60",
            "01 00",
            "AB",
            "AB 00",
            "B9",
        ] {
            self.refused(Refusal::Busy, frame);
        }
        self.refused_with_odd_bits(Refusal::Busy, "06", 3);
        self.refused_with_odd_bits(Refusal::Busy, "AB", 3);
        self.pin(1);
        self.ticks(5);
        self.change("01 00", 2);
    }

    /// Shape before enable, quad and register; enable before quad and
    /// register.
    fn show_order_idle(&mut self) {
        for frame in [
            "02 000000",
            "32 000000",
            "42 000400",
            "48 000400",
            "6B 000000",
            "20 00",
        ] {
            self.refused(Refusal::WrongShape, frame);
        }
        self.refused_with_odd_bits(Refusal::WrongShape, "32 000000 00", 1);
        self.refused_with_odd_bits(Refusal::WrongShape, "42 000400 00", 1);
        self.refused(Refusal::NotEnabled, "32 000000 00");
        self.refused(Refusal::NotEnabled, "42 000400 00");
        self.refused(Refusal::QuadDisabled, "6B 000000 00");
        self.accepted("06");
        self.refused(Refusal::WrongShape, "32 000000");
        self.refused(Refusal::WrongShape, "42 000400");
        self.refused(Refusal::QuadDisabled, "32 000000 00");
        self.refused(Refusal::NoSuchRegister, "42 000400 00");
        self.accepted("04");
    }

    /// Shape, enable and quad before protection; the complement bit alone
    /// protects nothing but stops the chip erase.
    fn show_order_protected(&mut self) {
        self.change("01 14", 2);
        self.refused(Refusal::WrongShape, "02 000000");
        self.refused(Refusal::WrongShape, "20 000000 00");
        self.refused(Refusal::WrongShape, "60 00");
        for frame in [
            "02 000000 00",
            "32 000000 00",
            "20 000000",
            "52 000000",
            "D8 000000",
        ] {
            self.refused(Refusal::NotEnabled, frame);
        }
        self.refused(Refusal::NotEnabled, "60");
        self.refused(Refusal::NotEnabled, "C7");
        self.accepted("06");
        self.refused_with_odd_bits(Refusal::WrongShape, "60", 2);
        self.refused(Refusal::QuadDisabled, "32 000000 00");
        for frame in [
            "02 000000 00",
            "20 000000",
            "52 000000",
            "D8 000000",
            "60",
            "C7",
        ] {
            self.refused(Refusal::Protected, frame);
        }
        self.accepted("01 00 40");
        self.ticks(2);
        self.status_is(0x4000);
        self.accepted("06");
        self.refused(Refusal::Protected, "60");
        self.refused(Refusal::Protected, "C7");
        self.accepted("D8 000000");
        self.ticks(13);
        self.change("01 04", 2);
        self.accepted("06");
        self.refused(Refusal::Protected, "60");
        self.refused(Refusal::Protected, "C7");
        self.accepted("D8 000000");
        self.ticks(13);
        self.change("01 00", 2);
        self.start("60");
        self.ticks(21);
    }

    /// Shape and enable before the guarded status register.
    fn show_order_guarded(&mut self) {
        self.change("01 80", 2);
        self.pin(0);
        self.refused(Refusal::WrongShape, "01");
        self.refused(Refusal::WrongShape, "01 000000");
        self.refused_with_odd_bits(Refusal::WrongShape, "01 00", 1);
        self.refused(Refusal::NotEnabled, "01 00");
        self.accepted("06");
        self.refused(Refusal::WrongShape, "01");
        self.refused(Refusal::WrongShape, "01 000000");
        self.refused(Refusal::Locked, "01 00");
        self.refused(Refusal::Locked, "01 00 00");
        self.pin(1);
        self.accepted("01 00 00");
        self.ticks(2);
        self.status_is(0x0000);
    }
}

/// A code followed by zeros, as many bytes in all.
fn frame_of(code: u8, length: usize) -> String {
    format!("{code:02X} {}", "00".repeat(length - 1))
}
