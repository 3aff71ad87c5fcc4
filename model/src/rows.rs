//! Calibration rows: one byte of kind, then a body whose length the kind fixes.
//! Numbers are low byte first.

use std::ops::RangeInclusive;

pub const TENTHS: RangeInclusive<i16> = -400..=850;
pub const HUNDREDTHS: RangeInclusive<i16> = -9999..=9999;
pub const NAME_BYTES: RangeInclusive<u8> = 0x20..=0x7E;

#[derive(Clone, Copy, Debug, PartialEq, Eq)]
pub enum Kind {
    Temperature,
    Reflector,
}

impl Kind {
    pub const ALL: [Kind; 2] = [Kind::Temperature, Kind::Reflector];

    /// The first byte of every row of this kind.
    pub fn byte(self) -> u8 {
        match self {
            Kind::Temperature => 0x54,
            Kind::Reflector => 0x52,
        }
    }

    /// The bytes of a row after its kind byte.
    pub fn body(self) -> usize {
        match self {
            Kind::Temperature => 2 + 1 + 2,
            Kind::Reflector => 8 + 2,
        }
    }

    /// The bytes of a row, its kind byte included.
    pub fn row_length(self) -> usize {
        1 + self.body()
    }
}

/// A row. The offsets are in hundredths of a millimetre.
#[derive(Clone, Copy, Debug, PartialEq, Eq)]
pub enum Row {
    /// The offset at a temperature, which is in tenths of a degree Celsius.
    Temperature { tenths: i16, hundredths: i16 },
    /// The offset of a reflector.
    Reflector { name: [u8; 8], hundredths: i16 },
}

/// Why a row is not made, written or read.
#[derive(Clone, Copy, Debug, PartialEq, Eq)]
pub enum RowRefusal {
    /// The bytes are not as many as a row of this kind has.
    Length,
    /// The first byte is not the kind's.
    OtherKind,
    /// A value is outside its limits, or no row writes these bytes.
    NoRow,
}

impl RowRefusal {
    pub fn number(self) -> u8 {
        match self {
            RowRefusal::Length => 1,
            RowRefusal::OtherKind => 11,
            RowRefusal::NoRow => 12,
        }
    }
}

impl Row {
    pub fn temperature(tenths: i16, hundredths: i16) -> Result<Row, RowRefusal> {
        if !TENTHS.contains(&tenths) || !HUNDREDTHS.contains(&hundredths) {
            return Err(RowRefusal::NoRow);
        }
        Ok(Row::Temperature { tenths, hundredths })
    }

    pub fn reflector(name: [u8; 8], hundredths: i16) -> Result<Row, RowRefusal> {
        let printable = name.iter().all(|byte| NAME_BYTES.contains(byte));
        if !printable || !HUNDREDTHS.contains(&hundredths) {
            return Err(RowRefusal::NoRow);
        }
        Ok(Row::Reflector { name, hundredths })
    }

    pub fn kind(&self) -> Kind {
        match self {
            Row::Temperature { .. } => Kind::Temperature,
            Row::Reflector { .. } => Kind::Reflector,
        }
    }

    /// The bytes that stand for the row.
    pub fn bytes(&self) -> Vec<u8> {
        let mut bytes = vec![self.kind().byte()];
        match self {
            Row::Temperature { tenths, hundredths } => {
                bytes.extend(tenths.to_le_bytes());
                bytes.push(if *hundredths < 0 { 0xFF } else { 0x00 });
                bytes.extend(hundredths.unsigned_abs().to_le_bytes());
            }
            Row::Reflector { name, hundredths } => {
                bytes.extend(name);
                bytes.extend(hundredths.to_le_bytes());
            }
        }
        bytes
    }

    /// Writes the row into bytes that must be as many as it has.
    pub fn write(&self, bytes: &mut [u8]) -> Result<(), RowRefusal> {
        if bytes.len() != self.kind().row_length() {
            return Err(RowRefusal::Length);
        }
        bytes.copy_from_slice(&self.bytes());
        Ok(())
    }

    /// The row of this kind that the bytes stand for.
    pub fn read(kind: Kind, bytes: &[u8]) -> Result<Row, RowRefusal> {
        if bytes.len() != kind.row_length() {
            return Err(RowRefusal::Length);
        }
        if bytes[0] != kind.byte() {
            return Err(RowRefusal::OtherKind);
        }
        match kind {
            Kind::Temperature => read_temperature(&bytes[1..]),
            Kind::Reflector => read_reflector(&bytes[1..]),
        }
    }
}

fn read_temperature(body: &[u8]) -> Result<Row, RowRefusal> {
    let tenths = i16::from_le_bytes([body[0], body[1]]);
    let magnitude = u16::from_le_bytes([body[3], body[4]]);
    let magnitude = i16::try_from(magnitude).map_err(|_| RowRefusal::NoRow)?;
    match (body[2], magnitude) {
        (0x00, _) => Row::temperature(tenths, magnitude),
        (0xFF, 1..) => Row::temperature(tenths, -magnitude),
        _ => Err(RowRefusal::NoRow),
    }
}

fn read_reflector(body: &[u8]) -> Result<Row, RowRefusal> {
    let mut name = [0; 8];
    name.copy_from_slice(&body[..8]);
    Row::reflector(name, i16::from_le_bytes([body[8], body[9]]))
}
