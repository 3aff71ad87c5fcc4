//! Rows, held to bytes worked out by hand and to their law.

use flash_model::hex;
use flash_model::random::Random;
use flash_model::rows::{Kind, Row, RowRefusal};

const PLUS: &str = "54 96 00 00 F0 00";
const MINUS: &str = "54 96 00 FF F0 00";

fn read(kind: Kind, text: &str) -> Result<Row, RowRefusal> {
    Row::read(kind, &hex::bytes(text))
}

#[test]
fn temperature_rows() {
    for (tenths, hundredths, text) in [
        (150, 240, PLUS),
        (150, -240, MINUS),
        (0, 0, "54 00 00 00 00 00"),
        (-1, 1, "54 FF FF 00 01 00"),
        (-400, -9999, "54 70 FE FF 0F 27"),
        (850, 9999, "54 52 03 00 0F 27"),
    ] {
        let row = Row::temperature(tenths, hundredths).unwrap();
        assert_eq!(row.bytes(), hex::bytes(text));
        assert_eq!(read(Kind::Temperature, text), Ok(row));
    }
}

#[test]
fn reflector_rows() {
    for (name, hundredths, text) in [
        (b"PRISM 1 ", 1730, "52 50 52 49 53 4D 20 31 20 C2 06"),
        (b" ~~~~~~~", -9999, "52 20 7E 7E 7E 7E 7E 7E 7E F1 D8"),
        (b"        ", 0, "52 20 20 20 20 20 20 20 20 00 00"),
    ] {
        let row = Row::reflector(*name, hundredths).unwrap();
        assert_eq!(row.bytes(), hex::bytes(text));
        assert_eq!(read(Kind::Reflector, text), Ok(row));
    }
}

#[test]
fn values_outside_the_limits_make_no_row() {
    for (tenths, hundredths) in [(-401, 0), (851, 0), (0, -10000), (0, 10000)] {
        let refused = Row::temperature(tenths, hundredths);
        assert_eq!(refused, Err(RowRefusal::NoRow));
    }
    for (name, hundredths) in [
        (b"\x1F       ", 0),
        (b"       \x7F", 0),
        (b"\x00\x00\x00\x00\x00\x00\x00\x00", 0),
        (b"A       ", -10000),
        (b"A       ", 10000),
    ] {
        let refused = Row::reflector(*name, hundredths);
        assert_eq!(refused, Err(RowRefusal::NoRow));
    }
}

#[test]
fn bytes_that_no_row_writes() {
    for text in [
        "54 96 00 FF 00 00",
        "54 96 00 01 F0 00",
        "54 96 00 FE F0 00",
        "54 96 00 00 10 27",
        "54 96 00 FF 10 27",
        "54 96 00 00 00 80",
        "54 96 00 FF FF FF",
        "54 6F FE 00 F0 00",
        "54 53 03 00 F0 00",
        "54 FF FF FF FF FF",
    ] {
        let refused = read(Kind::Temperature, text);
        assert_eq!(refused, Err(RowRefusal::NoRow), "{text}");
    }
    for text in [
        "52 1F 20 20 20 20 20 20 20 00 00",
        "52 20 20 20 20 20 20 20 7F 00 00",
        "52 20 20 20 20 20 20 20 20 10 27",
        "52 20 20 20 20 20 20 20 20 F0 D8",
        "52 20 20 20 20 20 20 20 20 00 80",
    ] {
        let refused = read(Kind::Reflector, text);
        assert_eq!(refused, Err(RowRefusal::NoRow), "{text}");
    }
}

#[test]
fn the_length_is_judged_first_and_then_the_kind() {
    let refused = |kind, text: &str| read(kind, text).unwrap_err().number();
    assert_eq!(refused(Kind::Temperature, ""), 1);
    assert_eq!(refused(Kind::Temperature, "52 96 00 00 F0"), 1);
    assert_eq!(refused(Kind::Reflector, PLUS), 1);
    for first in ["00", "52", "53", "55", "FF"] {
        let text = format!("{first} 96 00 FF 00 00");
        assert_eq!(refused(Kind::Temperature, &text), 11);
    }
    assert_eq!(refused(Kind::Temperature, "54 96 00 FF 00 00"), 12);
    let row = read(Kind::Temperature, PLUS).unwrap();
    for length in [0, 5, 7] {
        let mut bytes = vec![0x11; length];
        assert_eq!(row.write(&mut bytes), Err(RowRefusal::Length));
        assert_eq!(bytes, vec![0x11; length]);
    }
    let mut bytes = [0x11; 6];
    assert_eq!(row.write(&mut bytes), Ok(()));
    assert_eq!(bytes.to_vec(), hex::bytes(PLUS));
}

#[test]
fn every_number_makes_a_row_that_reads_back_or_none() {
    for number in i16::MIN..=i16::MAX {
        for (row, right) in [
            (Row::temperature(number, -7), (-400..=850).contains(&number)),
            (
                Row::temperature(7, number),
                (-9999..=9999).contains(&number),
            ),
            (
                Row::reflector(*b"REFL  01", number),
                (-9999..=9999).contains(&number),
            ),
        ] {
            assert_eq!(row.is_ok(), right);
            if let Ok(row) = row {
                let bytes = row.bytes();
                assert_eq!(bytes.len(), row.kind().row_length());
                assert_eq!(Row::read(row.kind(), &bytes), Ok(row));
            }
        }
    }
}

#[test]
fn what_reads_as_a_row_is_what_that_row_writes() {
    let mut random = Random::new(1);
    let rows = [
        Row::temperature(150, 240).unwrap(),
        Row::temperature(-400, -9999).unwrap(),
        Row::reflector(*b"REFL  01", -1).unwrap(),
    ];
    let mut read_well = 0;
    for _ in 0..200_000 {
        let row = random.pick(&rows);
        let mut bytes = row.bytes();
        for _ in 0..random.between(1, 3) {
            let at = random.below(bytes.len());
            bytes[at] = random.byte();
        }
        if let Ok(row) = Row::read(row.kind(), &bytes) {
            assert_eq!(row.bytes(), bytes);
            read_well += 1;
        }
    }
    assert!(read_well > 1000);
}
