//! Numbers and names as arguments: right ones in every spelling, and wrong ones.

use super::near_rows::name_byte;
use super::Random;

/// An address, decimal or hexadecimal.
pub fn address(random: &mut Random, address: u64) -> String {
    let zeros = leading_zeros(random);
    match random.below(5) {
        0 | 1 => format!("{zeros}{address}"),
        2 => format!("0x{zeros}{address:x}"),
        3 => format!("0x{zeros}{address:X}"),
        _ => {
            let digits: String = format!("{address:x}")
                .chars()
                .map(|digit| match random.below(2) {
                    0 => digit.to_ascii_uppercase(),
                    _ => digit,
                })
                .collect();
            format!("0x{zeros}{digits}")
        }
    }
}

/// A slot number, decimal.
pub fn slot(random: &mut Random, slot: u64) -> String {
    format!("{}{slot}", leading_zeros(random))
}

fn leading_zeros(random: &mut Random) -> String {
    "0".repeat(random.pick(&[0, 0, 0, 0, 0, 0, 1, 3, 30]))
}

/// A text that is no number of 64 bits, decimal or hexadecimal.
pub fn no_number(random: &mut Random) -> &'static str {
    random.pick(&[
        "",
        " ",
        "0x",
        "x",
        "x1",
        "12a",
        "a",
        "-1",
        "-0",
        "+1",
        " 1",
        "1 ",
        "1\n",
        "1.0",
        "1e1",
        "1_0",
        "0x1g",
        "0x-1",
        "0x+1",
        "0x 1",
        "0x0x1",
        "-0x1",
        "\u{661}",
        "18446744073709551616",
        "18446744073709551617",
        "99999999999999999999999999",
        "0x10000000000000000",
        "0x10000000000000001",
        "0xfffffffffffffffff",
    ])
}

/// The value in any spelling that gives exactly it.
pub fn value(random: &mut Random, value: i16, decimals: usize) -> String {
    let scale = 10_u16.pow(decimals as u32);
    let size = value.unsigned_abs();
    let minus = value < 0 || (value == 0 && random.percent(40));
    let sign = if minus { "-" } else { "" };
    let zeros = leading_zeros(random);
    let whole = size / scale;
    let mut fraction = format!("{:0decimals$}", size % scale);
    match random.below(4) {
        0 => fraction = fraction.trim_end_matches('0').to_string(),
        1 => fraction.push_str(&"0".repeat(random.pick(&[1, 2, 30]))),
        _ => {}
    }
    let point = if fraction.is_empty() { "" } else { "." };
    format!("{sign}{zeros}{whole}{point}{fraction}")
}

/// A text that gives no value with at most this many decimals (1 for degrees,
/// 2 for millimetres), or one outside its limits.
pub fn no_value(random: &mut Random, decimals: usize) -> &'static str {
    match (random.below(3), decimals) {
        (0, 1) => random.pick(&[
            "15.05",
            "0.01",
            "-0.01",
            "-40.01",
            "84.99",
            "15.010",
            "1.00000000000000000000000000000001",
        ]),
        (0, _) => random.pick(&[
            "2.405",
            "0.001",
            "-0.001",
            "99.999",
            "-99.999",
            "2.4050",
            "1.00000000000000000000000000000001",
        ]),
        (1, 1) => random.pick(&[
            "85.1",
            "-40.1",
            "86",
            "-41",
            "850",
            "-400",
            "6553.6",
            "6568.6",
            "-6553.6",
            "429496729.6",
            "1844674407370955161.6",
            "-1844674407370955161.6",
            "18446744073709551616",
            "100000000000000000000000000000000000000000",
        ]),
        (1, _) => random.pick(&[
            "100",
            "100.00",
            "-100.00",
            "9999",
            "-9999",
            "655.36",
            "657.76",
            "-655.36",
            "42949672.96",
            "184467440737095516.16",
            "-184467440737095516.16",
            "18446744073709551616",
            "100000000000000000000000000000000000000000",
        ]),
        _ => random.pick(&[
            "",
            "-",
            "+",
            ".",
            "-.",
            "+1",
            "+0",
            "--1",
            "-+1",
            ".5",
            "-.5",
            "5.",
            "-5.",
            "1.0.0",
            "1..0",
            "1,5",
            " 1",
            "1 ",
            "- 1",
            "1. 0",
            "1.-0",
            "1.+0",
            "1e1",
            "1E0",
            "0x1",
            "1_0",
            "1-",
            "nan",
            "inf",
            "\u{661}",
            "\u{2212}1",
            "1\n",
            "1.0\n",
            "15.0C",
            "2.40mm",
        ]),
    }
}

/// A name of 1 to 8 bytes.
pub fn name(random: &mut Random) -> Vec<u8> {
    let length = random.between(1, 8);
    (0..length).map(|_| name_byte(random)).collect()
}

/// A name that is empty, too long, or has a byte that no name has.
pub fn no_name(random: &mut Random) -> Vec<u8> {
    match random.below(4) {
        0 => Vec::new(),
        1 => [b"REFLECT1", &name(random)[..]].concat(),
        2 => b"REFLECT1 ".to_vec(),
        _ => {
            let mut name = name(random);
            let at = random.below(name.len());
            name[at] = random.pick(&[0x01, 0x09, 0x0A, 0x1F, 0x7F, 0x80, 0xA0, 0xE9, 0xFF]);
            name
        }
    }
}
