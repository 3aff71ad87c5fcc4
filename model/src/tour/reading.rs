//! Frames that only show something, sleep, and what does not come in frames.

use super::Tour;
use crate::chip::refusal::Refusal;

impl Tour {
    pub(super) fn show_reading(&mut self) {
        self.show_newborn_part();
        self.show_write_enable();
        self.show_pin_and_idle_time();
        self.show_sleep();
        self.show_array_reads();
        self.show_security_reads();
        self.show_longest_frames();
    }

    fn show_newborn_part(&mut self) {
        self.status_is(0x0000);
        self.shows("05", "FF");
        self.shows("35", "FF");
        self.shows("05 123456", "FF 000000");
        self.array_holds(0x0000, "FFFFFFFF");
        self.array_holds(0xFFFE, "FFFFFFFF");
        self.registers_hold(0x000, "FFFF");
        self.registers_hold(0x3FE, "FFFFFFFF");
        self.refused(Refusal::NotEnabled, "02 000010 55");
    }

    fn show_write_enable(&mut self) {
        self.shows("06", "FF");
        self.status_is(0x0002);
        self.shows("06", "FF");
        self.status_is(0x0002);
        self.shows("04", "FF");
        self.status_is(0x0000);
        self.accepted("04");
        self.accepted("06");
        self.ticks(0xFFFF);
        self.status_is(0x0002);
        self.cut(0x01);
        self.status_is(0x0000);
    }

    fn show_pin_and_idle_time(&mut self) {
        for count in [0, 1, 255, 256, 0xFFFF] {
            self.ticks(count);
        }
        for level in [2, 3, 0x80, 0xFF] {
            let outcome = self.recorder.pin(level);
            assert_eq!(outcome, Err(Refusal::BadArgument));
        }
        self.pin(0);
        self.pin(0);
        self.pin(1);
        for junk in [0x00, 0xA5] {
            self.cut(junk);
            self.status_is(0x0000);
            self.array_holds(0x0000, "FFFF");
        }
    }

    fn show_sleep(&mut self) {
        self.accepted("06");
        self.shows("B9", "FF");
        for frame in [
            "B9",
            "05 00",
            "35 00",
            "04",
            "06",
            "03 000000 00",
            "60",
            "9F",
            "00",
        ] {
            self.refused(Refusal::Asleep, frame);
        }
        self.ticks(0xFFFF);
        self.pin(0);
        self.pin(1);
        self.refused(Refusal::Asleep, "05 00");
        self.shows("AB", "FF");
        // The write enable latch outlasts sleep.
        self.status_is(0x0002);
        self.shows("AB 000000 00", "FFFFFFFF FF");
        self.accepted("B9");
        self.accepted_with_odd_bits("AB 00", 5);
        self.accepted("B9");
        self.accepted_with_odd_bits("AB", 7);
        self.status_is(0x0002);
        self.accepted("B9");
        self.cut(0x00);
        self.status_is(0x0000);
    }

    fn show_array_reads(&mut self) {
        self.change("02 00FFFC 01020304", 3);
        self.change("02 000000 05060708", 3);
        self.array_holds(0xFFFC, "0102030405060708 FF");
        self.shows("03 00FFFF", "FFFFFFFF");
        self.shows("03 FEFFFE 00000000", "FFFFFFFF 03040506");
        self.shows("03 FFFFFE 00000000", "FFFFFFFF 03040506");
        self.shows("0B 00FFFF 00", "FFFFFFFF FF");
        self.shows("0B 00FFFE 00 00000000", "FFFFFFFF FF 03040506");
        self.shows("3B 5AFFFE 00 00000000", "FFFFFFFF FF 03040506");
        self.change("01 00 02", 2);
        self.shows("6B 00FFFE 00 00000000", "FFFFFFFF FF 03040506");
        self.change("01 00", 2);
        for odd_bits in 0..=7 {
            for frame in ["03 00FFFD 0000", "0B 00FFFD 0000", "05 00", "35 00"] {
                self.accepted_with_odd_bits(frame, odd_bits);
            }
        }
        for odd_bits in [8, 9, 0x10, 0xFF] {
            self.refused_with_odd_bits(Refusal::BadArgument, "03 00FFFD 0000", odd_bits);
        }
        self.change("20 000000", 5);
        self.change("20 00F000", 5);
    }

    fn show_security_reads(&mut self) {
        self.change("42 0003FC 11121314", 3);
        self.change("42 000000 15161718", 3);
        self.registers_hold(0x3FC, "1112131415161718 FF");
        self.shows("48 0003FF 00", "FFFFFFFF FF");
        self.accepted_with_odd_bits("48 0003FF 0000", 3);
        for address in ["000400", "0004FF", "001000", "010000", "800000", "FFFFFF"] {
            self.refused(Refusal::NoSuchRegister, &format!("48 {address} 0000"));
        }
        self.change("44", 5);
    }

    fn show_longest_frames(&mut self) {
        self.change("02 00FF80 1122334455", 3);
        self.change("42 000180 667788", 3);
        for start in ["03 00FF80", "6B 00F800 00", "48 000200 00", "05", "AB"] {
            if start.starts_with("6B") {
                self.change("01 00 02", 2);
            }
            self.accepted(&longest_frame(start));
        }
        self.change("01 00", 2);
        self.change(&longest_frame("02 00FF10"), 3);
        // The later data bytes replaced the earlier: A1 to A5 AND the old bytes.
        self.array_holds(0xFF80, "0122230405");
        self.refused(Refusal::WrongShape, &longest_frame("06"));
        self.change("60", 21);
        self.change("44", 5);
    }
}

/// The start of a frame, filled up to 4,096 bytes with bytes that count up.
fn longest_frame(start: &str) -> String {
    let mut frame = start.to_string();
    let given = start.chars().filter(char::is_ascii_hexdigit).count() / 2;
    for index in given..4096 {
        frame.push_str(&format!("{:02X}", index % 253));
    }
    frame
}
