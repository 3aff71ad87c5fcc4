//! Bytes as hexadecimal digits.

const DIGITS: &[u8; 16] = b"0123456789abcdef";

/// Appends two lowercase digits for each byte.
pub fn append(text: &mut Vec<u8>, bytes: &[u8]) {
    text.extend(bytes.iter().flat_map(|&byte| {
        [
            DIGITS[usize::from(byte >> 4)],
            DIGITS[usize::from(byte & 0x0F)],
        ]
    }));
}

/// The bytes written in a text of hexadecimal digits, spaces aside.
///
/// # Panics
/// If the text is anything else; it is meant for texts in the source.
pub fn bytes(text: &str) -> Vec<u8> {
    let digits: Vec<u8> = text
        .chars()
        .filter(|character| *character != ' ')
        .map(|character| match character.to_digit(16) {
            Some(digit) => digit as u8,
            None => panic!("not a hexadecimal digit: {character:?} in {text:?}"),
        })
        .collect();
    assert!(digits.len().is_multiple_of(2), "half a byte in {text:?}");
    digits
        .chunks(2)
        .map(|pair| pair[0] << 4 | pair[1])
        .collect()
}
