//! Calls of `calibrate`, held to lines and files worked out by hand.

use std::ffi::OsString;
use std::fs;
use std::path::PathBuf;

use flash_model::calibrate::{calibrate, Done};
use flash_model::decimal;
use flash_model::hex;
use flash_model::put::SECTOR;

/// A folder that goes away with its value.
struct Folder(PathBuf);

impl Folder {
    fn new(name: &str) -> Folder {
        let name = format!("model-calibrate-{name}-{}", std::process::id());
        let path = std::env::temp_dir().join(name);
        fs::create_dir_all(&path).unwrap();
        Folder(path)
    }

    fn write(&self, name: &str, bytes: &[u8]) {
        fs::write(self.0.join(name), bytes).unwrap();
    }

    fn call(&self, words: &[&str]) -> Option<Done> {
        let arguments: Vec<OsString> = words.iter().map(OsString::from).collect();
        calibrate(&arguments, &self.0)
    }

    /// What an accepted call prints, its image kept for the next call.
    fn printed(&self, words: &[&str]) -> String {
        let done = self.call(words).unwrap();
        let (image, bytes) = done.image.unwrap();
        fs::write(image, bytes).unwrap();
        done.printed
    }
}

impl Drop for Folder {
    fn drop(&mut self) {
        fs::remove_dir_all(&self.0).unwrap();
    }
}

#[test]
fn write_puts_a_file_into_an_image() {
    let folder = Folder::new("write");
    let mut image = vec![0xFF; SECTOR];
    image[0x1F] = 0x3C;
    folder.write("image", &image);
    folder.write("file", &[0x30]);
    for address in ["31", "0x1f", "0x1F", "0x001f", "031"] {
        let done = folder.call(&["write", "image", address, "file"]).unwrap();
        assert_eq!(done.printed, "programs 1 erases 0 ticks 1\n");
        image[0x1F] = 0x30;
        assert_eq!(done.image.unwrap().1, image);
    }
    folder.write("file", &[0xF0]);
    let printed = folder.printed(&["write", "image", "31", "file"]);
    assert_eq!(printed, "programs 1 erases 1 ticks 2\n");
    let printed = folder.printed(&["write", "image", "31", "file"]);
    assert_eq!(printed, "programs 0 erases 0 ticks 0\n");
    for address in ["4096", "18446744073709551615", "0x", "", "+1", "1f"] {
        let refused = folder.call(&["write", "image", address, "file"]);
        assert_eq!(refused, None, "{address}");
    }
    folder.write("file", &[]);
    let printed = folder.printed(&["write", "image", "4096", "file"]);
    assert_eq!(printed, "programs 0 erases 0 ticks 0\n");
    assert_eq!(folder.call(&["write", "image", "4097", "file"]), None);
    assert_eq!(folder.call(&["write", "image", "0", "absent"]), None);
    assert_eq!(folder.call(&["write", "absent", "0", "file"]), None);
    assert_eq!(folder.call(&["write", "file", "0", "file"]), None);
    assert_eq!(folder.call(&["write", "image", "0"]), None);
    assert_eq!(folder.call(&["tell"]), None);
}

#[test]
fn no_words_tell_the_story() {
    let told = Folder::new("story").call(&[]).unwrap();
    assert_eq!(told.image, None);
    assert!(told.printed.contains("  programs 1 erases 1 ticks 8\n"));
    assert!(told.printed.contains("  slot 0: 15.0 C -2.40 mm   54 96 00 ff f0 00\n"));
}

#[test]
fn temperatures_are_put_got_and_listed() {
    let folder = Folder::new("temperature");
    folder.write("image", &[0xFF; SECTOR]);
    let put = |slot, celsius, millimetres| {
        folder.printed(&["put", "temperature", "image", slot, celsius, millimetres])
    };
    assert_eq!(put("1", "15.0", "2.40"), "programs 1 erases 0 ticks 1\n");
    assert_eq!(put("1", "15", "-2.4"), "programs 1 erases 1 ticks 2\n");
    assert_eq!(put("3", "-0.50", "-0.00"), "programs 1 erases 0 ticks 1\n");
    assert_eq!(put("681", "-40", "0.05"), "programs 1 erases 0 ticks 1\n");
    let get = |slot| folder.printed(&["get", "temperature", "image", slot]);
    assert_eq!(get("0"), "slot 0: empty\n");
    assert_eq!(get("1"), "slot 1: 15.0 C -2.40 mm\n");
    assert_eq!(get("3"), "slot 3: -0.5 C +0.00 mm\n");
    assert_eq!(
        folder.printed(&["list", "temperature", "image"]),
        "slot 1: 15.0 C -2.40 mm\nslot 3: -0.5 C +0.00 mm\nslot 681: -40.0 C +0.05 mm\n"
    );
    assert_eq!(folder.call(&["get", "temperature", "image", "682"]), None);
    let done = folder.call(&["list", "reflector", "image"]).unwrap();
    assert!(done
        .printed
        .lines()
        .all(|line| line.ends_with(": refused 11")));
}

#[test]
fn reflectors_are_put_got_and_listed() {
    let folder = Folder::new("reflector");
    folder.write("image", &[0xFF; SECTOR]);
    let put = |slot, name, millimetres| {
        folder.printed(&["put", "reflector", "image", slot, name, millimetres])
    };
    assert_eq!(put("0", "PRISM", "17.3"), "programs 1 erases 0 ticks 1\n");
    assert_eq!(
        put("2", " \"x\" ~", "-99.99"),
        "programs 1 erases 0 ticks 1\n"
    );
    assert_eq!(
        folder.printed(&["list", "reflector", "image"]),
        "slot 0: \"PRISM   \" +17.30 mm\nslot 2: \" \"x\" ~  \" -99.99 mm\n"
    );
    for name in ["", "NINE BYTE", "\u{7F}", "\u{1F}", "\u{E9}"] {
        let refused = folder.call(&["put", "reflector", "image", "0", name, "0"]);
        assert_eq!(refused, None, "{name:?}");
    }
}

#[test]
fn slots_without_a_row_are_listed_by_their_refusal() {
    let folder = Folder::new("refusal");
    let mut image = vec![0xFF; SECTOR];
    image[..6].copy_from_slice(&hex::bytes("54 96 00 FF 00 00"));
    image[6..12].copy_from_slice(&hex::bytes("00 96 00 FF F0 00"));
    folder.write("image", &image);
    assert_eq!(
        folder.printed(&["list", "temperature", "image"]),
        "slot 0: refused 12\nslot 1: refused 11\n"
    );
    assert_eq!(
        folder.printed(&["get", "temperature", "image", "0"]),
        "slot 0: refused 12\n"
    );
}

#[test]
fn decimals_are_read_exactly_or_not_at_all() {
    for (text, tenths) in [
        ("15", 150),
        ("15.0", 150),
        ("15.00", 150),
        ("015.0", 150),
        ("-3.5", -35),
        ("-0.00", 0),
        ("0", 0),
        ("0000000000000000000000000000000000000000.50000", 5),
    ] {
        assert_eq!(decimal::read(text, 1), Some(tenths), "{text}");
    }
    for text in [
        "", "-", "+1", "--1", ".5", "5.", "1.0.0", "1,0", " 1", "1e1", "15.05", "0.01", "1.0x",
    ] {
        assert_eq!(decimal::read(text, 1), None, "{text}");
    }
    assert_eq!(decimal::read("2.40", 2), Some(240));
    assert_eq!(decimal::read("2.4", 2), Some(240));
    assert_eq!(decimal::read("2.405", 2), None);
    assert_eq!(decimal::plain(-5, 1), "-0.5");
    assert_eq!(decimal::plain(0, 1), "0.0");
    assert_eq!(decimal::signed(0, 2), "+0.00");
    assert_eq!(decimal::signed(-5, 2), "-0.05");
    assert_eq!(decimal::signed(240, 2), "+2.40");
}
