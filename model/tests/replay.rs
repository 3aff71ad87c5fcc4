//! The replayer's lines, worked out by hand.

use flash_model::hex;
use flash_model::replay::replayed;

fn lines(trace: &str) -> Vec<String> {
    lines_of(&hex::bytes(trace))
}

fn lines_of(trace: &[u8]) -> Vec<String> {
    let text = String::from_utf8(replayed(trace)).unwrap();
    assert!(text.ends_with('\n'));
    text.lines().map(str::to_string).collect()
}

#[test]
fn the_short_example() {
    let trace = "02 0106 0300 02 0105 0100 0300 040100 0500";
    assert_eq!(
        lines(trace),
        ["1 0 ff", "2 0 ff02", "3 0 -", "4 0 -", "status 0002"]
    );
}

#[test]
fn an_empty_trace_prints_the_status() {
    assert_eq!(lines(""), ["status 0000"]);
}

#[test]
fn frames_without_bytes_or_with_bad_odd_bits_print_a_dash() {
    assert_eq!(lines("02 0300"), ["1 6 -", "status 0000"]);
    assert_eq!(lines("02 0307"), ["1 6 -", "status 0000"]);
    assert_eq!(lines("02 0308"), ["1 1 -", "status 0000"]);
    assert_eq!(lines("02 0105 0100 0308"), ["1 1 -", "status 0000"]);
}

#[test]
fn refused_frames_print_ff_throughout() {
    assert_eq!(
        lines("02 019F 0100 0100 0300"),
        ["1 5 ffffff", "status 0000"]
    );
}

#[test]
fn pins_ticks_and_cuts() {
    let trace = "0500 0501 0502 05FF 040000 04FFFF 0600 06FF";
    let expected = [
        "1 0 -",
        "2 0 -",
        "3 1 -",
        "4 1 -",
        "5 0 -",
        "6 0 -",
        "7 0 -",
        "8 0 -",
        "status 0000",
    ];
    assert_eq!(lines(trace), expected);
}

#[test]
fn ticks_are_low_byte_first() {
    // 0x0100 ticks finish a chip erase of 21; 1 tick does not.
    let erase = "02 0106 0300 02 0160 0300";
    assert_eq!(
        lines(&format!("{erase} 040001")).last().unwrap(),
        "status 0000"
    );
    assert_eq!(
        lines(&format!("{erase} 040100")).last().unwrap(),
        "status 0003"
    );
    assert_eq!(
        lines(&format!("{erase} 041400")).last().unwrap(),
        "status 0003"
    );
    assert_eq!(
        lines(&format!("{erase} 041500")).last().unwrap(),
        "status 0000"
    );
}

#[test]
fn the_status_has_four_lowercase_digits() {
    let trace = "02 0106 0300 02 0101 01FF 01FF 0300 040200";
    assert_eq!(lines(trace).last().unwrap(), "status 46bc");
}

#[test]
fn malformed_traces_end_at_the_kind_byte() {
    let good = "0500";
    for (bad, offset) in [
        ("00", 2),
        ("07", 2),
        ("FF 00", 2),
        ("01", 2),
        ("0106", 2),
        ("03", 2),
        ("0300", 2),
        ("04", 2),
        ("0401", 2),
        ("05", 2),
        ("06", 2),
        ("02", 3),
        ("02 01", 3),
        ("02 0106", 5),
        ("02 0106 03", 5),
        ("02 02", 3),
        ("02 0106 02 0300", 5),
        ("02 040000", 3),
        ("02 04", 3),
        ("02 0501", 3),
        ("02 0600", 3),
        ("02 00", 3),
    ] {
        let expected = ["1 0 -".to_string(), format!("trace 13 at {offset}")];
        assert_eq!(lines(&format!("{good} {bad}")), expected, "{bad}");
    }
}

#[test]
fn a_frame_of_4096_bytes_is_the_longest() {
    let mut trace = vec![0x02];
    trace.extend([0x01, 0x05].repeat(4096));
    let longest = [trace.as_slice(), &[0x03, 0x00]].concat();
    let printed = lines_of(&longest);
    assert_eq!(printed[0], format!("1 0 ff{}", "00".repeat(4095)));
    assert_eq!(printed[1], "status 0000");

    let offset = trace.len();
    trace.extend([0x01, 0x05]);
    assert_eq!(lines_of(&trace), [format!("trace 13 at {offset}")]);
    trace.extend([0x03, 0x00]);
    assert_eq!(lines_of(&trace), [format!("trace 13 at {offset}")]);
}

#[test]
fn a_read_goes_around_the_end_of_the_array() {
    let program = |address: &str, byte: &str| {
        let bytes = hex::bytes(&format!("02 {address} {byte}"));
        let clocked: String = bytes.iter().map(|byte| format!("01{byte:02X}")).collect();
        format!("02 0106 0300 02 {clocked} 0300 040300")
    };
    let trace = format!(
        "{} {} 02 0103 0100 01FF 01FF 0100 0100 0303",
        program("00FFFF", "12"),
        program("000000", "34"),
    );
    let printed = lines(&trace);
    assert_eq!(printed[6], "7 0 ffffffff1234");
    assert_eq!(printed[7], "status 0000");
}
