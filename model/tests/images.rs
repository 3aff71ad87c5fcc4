//! The lines for `images`, held to answers worked out by hand.

use flash_model::images::print_images;

fn lines() -> Vec<String> {
    let mut out = Vec::new();
    print_images(&mut out).unwrap();
    String::from_utf8(out)
        .unwrap()
        .lines()
        .map(str::to_string)
        .collect()
}

#[test]
fn a_program_clears_bits_and_only_an_erase_sets_them() {
    let lines = lines();
    for kind in ["image", "chip"] {
        for line in ["6 byte 3c", "8 byte 30", "9 byte f0", "10 byte ff", "12 byte 00", "14 byte ff"] {
            assert!(lines.contains(&format!("{kind} {line}")), "{kind} {line}");
        }
    }
}

#[test]
fn the_kinds_differ_only_in_their_ticks() {
    let lines = lines();
    let (image, chip) = lines.split_at(lines.len() / 2);
    for (image, chip) in image.iter().zip(chip) {
        let (image, chip) = (&image["image ".len()..], &chip["chip ".len()..]);
        match image.strip_suffix(" took 1") {
            Some("13") => assert_eq!(chip, "13 took 5"),
            Some(step) => assert_eq!(chip, format!("{step} took 3")),
            None => assert_eq!(chip, image),
        }
    }
}
