//! Programs, erases and status writes, finished and cut.

use super::Tour;
use crate::chip::refusal::Refusal;

impl Tour {
    pub(super) fn show_changing(&mut self) {
        self.show_array_programs();
        self.show_array_erases();
        self.show_security_registers();
        self.show_status_writes();
        self.show_status_register_guard();
        self.show_cut_programs();
        self.show_cut_erases();
        self.show_cut_status_writes();
    }

    fn show_array_programs(&mut self) {
        // A program wraps inside its page.
        self.change("02 0000FE 112233", 3);
        self.array_holds(0x00FE, "1122 FF");
        self.array_holds(0x0000, "33 FF");

        // The status shows during a program; the bytes stand after it.
        self.start("02 000200 3C");
        self.shows("05 0000", "FF 0303");
        self.ticks(0);
        self.shows("05 00", "FF 03");
        self.ticks(2);
        self.shows("05 0000", "FF 0303");
        self.refused(Refusal::Busy, "03 000200 00");
        self.ticks(1);
        self.status_is(0x0000);
        self.array_holds(0x0200, "3C FF");

        // Bits only fall.
        self.change("02 000200 F0", 3);
        self.array_holds(0x0200, "30 FF");
        self.change("02 000200 FFFF", 3);
        self.array_holds(0x0200, "30 FF");

        // Ticks beyond the end are nothing.
        self.start("02 000201 77");
        self.ticks(0xFFFF);
        self.status_is(0x0000);
        self.array_holds(0x0200, "30 77 FF");

        // Addresses beyond the array come around.
        self.change("02 7F1234 5A", 3);
        self.array_holds(0x1233, "FF 5A FF");
        self.shows("03 FF1234 00", "FFFFFFFF 5A");
        self.change("02 FFFFFF 0102", 3);
        self.array_holds(0xFFFF, "01");
        self.array_holds(0xFF00, "02 FF");

        // Of 257 and more data bytes the later ones count.
        let data = format!("AA {} BB", "00".repeat(255));
        self.change(&format!("02 000410 {data}"), 3);
        self.array_holds(0x040F, "00 BB 00");
        self.array_holds(0x03FE, "FFFF 0000");
        self.array_holds(0x04FE, "0000 FFFF");
        let data = format!("{} {}", "00".repeat(256), "FE".repeat(256));
        self.change(&format!("02 000580 {data}"), 3);
        self.array_holds(0x04FF, "00 FEFE");
        self.array_holds(0x05FE, "FEFE FFFF");

        self.show_quad_program();
    }

    fn show_quad_program(&mut self) {
        self.accepted("06");
        self.refused(Refusal::QuadDisabled, "32 000700 12");
        self.change("01 00 02", 2);
        self.change("32 0007FF 1234", 3);
        self.array_holds(0x07FE, "FF 12 FF");
        self.array_holds(0x06FF, "FF 34 FF");
        self.shows("6B 0007FF 00 00", "FFFFFFFF FF 12");
        self.change("01 00", 2);
        self.refused(Refusal::QuadDisabled, "6B 0007FF 00 00");
    }

    fn show_array_erases(&mut self) {
        self.fill_array(0x3C);
        self.change("20 001234", 5);
        self.array_holds(0x0FFE, "3C3C FFFF");
        self.array_holds(0x1FFE, "FFFF 3C3C");
        self.change("20 AB4000", 5);
        self.array_holds(0x3FFF, "3C FF");
        self.array_holds(0x4FFF, "FF 3C");

        self.fill_array(0x3D);
        self.change("52 009ABC", 8);
        self.array_holds(0x7FFE, "3D3D FFFF");
        self.array_holds(0xFFFE, "FFFF 3D3D");
        self.change("52 017FFF", 8);
        self.array_holds(0x7FFE, "FFFFFFFF");
        self.array_holds(0xFFFE, "FFFFFFFF");

        self.fill_array(0x3E);
        self.change("D8 012345", 13);
        self.array_holds(0x0000, "FFFF");
        self.array_holds(0x7FFF, "FFFF");
        self.array_holds(0xFFFE, "FFFFFFFF");

        for code in ["60", "C7"] {
            self.fill_array(0x3F);
            self.array_holds(0xFFFE, "3F3F3F3F");
            self.change(code, 21);
            self.array_holds(0x0000, "FFFF");
            self.array_holds(0xFFFE, "FFFFFFFF");
        }
    }

    fn show_security_registers(&mut self) {
        self.change("42 000000 A0A1", 3);
        self.change("42 0001FF B0B1", 3);
        self.change("42 000280 C7", 3);
        self.change("42 0003FE D0D1D2", 3);
        self.registers_hold(0x000, "A0A1 FF");
        self.registers_hold(0x0FF, "FF B1 FF");
        self.registers_hold(0x1FE, "FF B0 FF");
        self.registers_hold(0x27F, "FF C7 FF");
        self.registers_hold(0x300, "D2 FF");
        self.registers_hold(0x3FE, "D0D1 A0A1 FF");
        self.array_holds(0x0000, "FFFF");
        let data = format!("{} {}", "55".repeat(256), "F0".repeat(200));
        self.change(&format!("42 000204 {data}"), 3);
        self.registers_hold(0x280, "C0 F0");
        self.registers_hold(0x2CA, "F0F0 5555");
        self.registers_hold(0x202, "5555 F0F0");
        self.registers_hold(0x1FF, "B0 55");
        self.registers_hold(0x2FF, "55 D2");

        self.accepted("06");
        for address in ["000400", "0007FF", "010000", "FFFFFF"] {
            self.refused(Refusal::NoSuchRegister, &format!("42 {address} 00"));
        }
        self.change("44", 5);
        for address in [0x000, 0x0FF, 0x1FE, 0x27F, 0x2CA, 0x300, 0x3FE] {
            self.registers_hold(address, "FFFFFF");
        }
    }

    fn show_status_writes(&mut self) {
        // The new value stands after the second tick.
        self.start("01 1C 40");
        self.status_is(0x0003);
        self.ticks(1);
        self.status_is(0x0003);
        self.ticks(1);
        self.status_is(0x401C);
        // One data byte clears QE and CMP.
        self.change("01 28", 2);
        self.status_is(0x0028);
        self.change("01 00 42", 2);
        self.status_is(0x4200);
        self.change("01 80", 2);
        self.status_is(0x0080);
        self.change("01 FF FB", 2);
        self.status_is(0x42BC);
        self.change("01 43 B9", 2);
        self.status_is(0x0000);
        // Each bit alone; the others than BP, SRP, QE, LB and CMP are 0.
        for bit in (0..16).filter(|bit| *bit != 10) {
            let [low, high] = (1u16 << bit).to_le_bytes();
            self.change(&format!("01 {low:02X} {high:02X}"), 2);
            self.status_is((1 << bit) & 0x42BC);
        }
        self.change("01 00 00", 2);
    }

    fn show_status_register_guard(&mut self) {
        self.change("01 80", 2);
        self.pin(0);
        self.accepted("06");
        self.refused(Refusal::Locked, "01 00");
        self.refused(Refusal::Locked, "01 00 02");
        self.status_is(0x0082);
        // Only the status register is guarded.
        self.accepted("02 001000 77");
        self.ticks(3);
        self.array_holds(0x1000, "77");
        self.accepted("06");
        // A power cut does not move the pin.
        self.cut(0x01);
        self.accepted("06");
        self.refused(Refusal::Locked, "01 00");
        let outcome = self.recorder.pin(0xFF);
        assert_eq!(outcome, Err(Refusal::BadArgument));
        self.refused(Refusal::Locked, "01 00");
        self.pin(1);
        self.accepted("01 00");
        self.ticks(2);
        self.status_is(0x0000);
        // WP# low alone guards nothing.
        self.pin(0);
        self.change("01 04", 2);
        self.change("01 80", 2);
        self.accepted("06");
        self.refused(Refusal::Locked, "01 00");
        self.pin(1);
        self.change("01 00", 2);
        // The level counts when the frame comes, not when the value stands.
        self.change("01 80", 2);
        self.start("01 00");
        self.pin(0);
        self.ticks(2);
        self.status_is(0x0000);
        self.pin(1);
    }

    fn show_cut_programs(&mut self) {
        for ticks in 0..3 {
            self.fill_array(0xFF);
            self.change("02 002302 0F", 3);
            self.start("02 002301 00 00 FF F0");
            self.ticks(ticks);
            self.cut(0xA5);
            self.status_is(0x0000);
            self.array_holds(0x2300, "FF A5 05 FF F5 FF");
            self.array_holds(0x23FF, "FF FF");
        }
        // What was cut does not land later.
        self.start("02 002400 00");
        self.ticks(2);
        self.cut(0xFF);
        self.ticks(0xFFFF);
        self.array_holds(0x2400, "FF");
        self.start("02 0024FF 0000");
        self.cut(0x00);
        self.array_holds(0x24FF, "00 FF");
        self.array_holds(0x2400, "00 FF");

        self.change("42 000110 3C", 3);
        self.start("42 00010F 00 00 0F");
        self.ticks(1);
        self.cut(0x66);
        self.registers_hold(0x10E, "FF 66 24 6F FF");
        self.array_holds(0x010E, "FFFFFF");
        self.change("01 00 02", 2);
        self.start("32 002500 00");
        self.cut(0x42);
        self.array_holds(0x2500, "42 FF");
        self.change("01 00", 2);
    }

    fn show_cut_erases(&mut self) {
        for (frame, ticks, first, end) in [
            ("20 001234", 5, 0x1000, 0x2000),
            ("52 001234", 8, 0x0000, 0x8000),
            ("52 00FFFF", 8, 0x8000, 0x1_0000),
            ("D8 FF1234", 13, 0x0000, 0x1_0000),
            ("60", 21, 0x0000, 0x1_0000),
            ("C7", 21, 0x0000, 0x1_0000),
        ] {
            for (passed, junk) in [(0, 0xA5), (1, 0x00), (ticks - 1, 0x5A)] {
                self.fill_array(0x33);
                self.start(frame);
                self.ticks(passed);
                self.cut(junk);
                self.status_is(0x0000);
                self.holds_between(first, end, junk);
            }
        }
        for (ticks, junk) in [(0, 0xA5), (1, 0x00), (4, 0x5B)] {
            self.change("42 000300 00", 3);
            self.start("44");
            self.ticks(ticks);
            self.cut(junk);
            let bytes = format!("{junk:02X}").repeat(4);
            for address in [0x000, 0x0FE, 0x1FE, 0x2FE, 0x3FE] {
                self.registers_hold(address, &bytes);
            }
        }
        self.change("44", 5);
        self.fill_array(0xFF);
    }

    /// The junk lies from first to end, and the bytes outside are still 33.
    fn holds_between(&mut self, first: usize, end: usize, junk: u8) {
        let inside = format!("{junk:02X}").repeat(2);
        let outside = if (first, end) == (0, 0x1_0000) {
            &inside
        } else {
            "3333"
        };
        self.array_holds((first + 0xFFFE) % 0x1_0000, &format!("{outside} {inside}"));
        self.array_holds(end - 2, &format!("{inside} {outside}"));
        self.array_holds((first + end) / 2 - 1, &inside);
    }

    fn show_cut_status_writes(&mut self) {
        self.change("01 04 02", 2);
        for (ticks, junk) in [(0, 0x00), (1, 0xFE), (0, 0x80), (1, 0x02)] {
            self.start("01 98 40");
            self.ticks(ticks);
            self.cut(junk);
            self.status_is(0x0204);
        }
        self.start("01 98 40");
        self.cut(0x01);
        self.status_is(0x4098);
        self.start("01 3C");
        self.ticks(1);
        self.cut(0xFF);
        self.status_is(0x003C);
        self.start("01 00");
        self.cut(0x81);
        self.status_is(0x0000);
        self.fill_array(0xFF);
    }

    /// The lock of the security registers, which nothing undoes.
    pub(super) fn show_lock(&mut self) {
        self.change("44", 5);
        self.change("42 000010 81", 3);
        self.start("01 00 04");
        self.cut(0x00);
        self.status_is(0x0000);
        self.change("42 000011 82", 3);
        self.change("01 00 04", 2);
        self.status_is(0x0400);

        self.refused(Refusal::NotEnabled, "44");
        self.refused(Refusal::NotEnabled, "42 000010 00");
        self.accepted("06");
        self.refused(Refusal::Locked, "44");
        self.refused(Refusal::Locked, "42 000010 00");
        self.refused(Refusal::NoSuchRegister, "42 000400 00");
        self.refused(Refusal::WrongShape, "44 00");
        self.refused(Refusal::WrongShape, "42 000010");
        self.refused_with_odd_bits(Refusal::WrongShape, "44", 1);
        self.registers_hold(0x00F, "FF 8182 FF");

        // Writing 0 to the lock leaves it set, in one byte or two, cut or not.
        self.change("01 00", 2);
        self.status_is(0x0400);
        self.change("01 00 02", 2);
        self.status_is(0x0600);
        self.start("01 00 00");
        self.cut(0x01);
        self.status_is(0x0400);
        self.start("01 00");
        self.cut(0x02);
        self.status_is(0x0400);
        self.change("01 00 04", 2);

        // The array is not locked by it.
        self.change("60", 21);
        self.change("02 000000 5A", 3);
        self.array_holds(0x0000, "5A FF");
        self.accepted("06");
        self.refused(Refusal::Locked, "44");
        self.accepted("04");
    }
}
