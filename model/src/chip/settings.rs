//! The part of the status that a status write sets.

const REGISTER_PROTECT: u16 = 1 << 7;
const QUAD_ENABLE: u16 = 1 << 9;
const LOCK: u16 = 1 << 10;
const COMPLEMENT: u16 = 1 << 14;
const BLOCK_PROTECT_SHIFT: u32 = 2;

/// The status bits that stay until the next status write. The two others,
/// write enable and write in progress, belong to the chip itself.
#[derive(Clone, Copy, Debug, Default, PartialEq, Eq)]
pub struct Settings {
    /// BP3 to BP0 as a number from 0 to 15.
    pub block_protect: u8,
    /// SRP: with WP# low, status writes are refused.
    pub register_protect: bool,
    /// QE: the four-line commands may be used.
    pub quad_enable: bool,
    /// LB: the security registers can no longer change. Never cleared.
    pub locked: bool,
    /// CMP: protect from the bottom of the array, not from the top.
    pub complement: bool,
}

impl Settings {
    /// The settings after a status write of one or two data bytes. The first
    /// gives S7 to S0, the second S15 to S8. Without a second byte QE and CMP
    /// are cleared. A set lock bit stays set whatever is written.
    pub fn rewritten(self, low: u8, high: Option<u8>) -> Settings {
        let written = u16::from_le_bytes([low, high.unwrap_or(0)]);
        Settings {
            block_protect: (written >> BLOCK_PROTECT_SHIFT & 0x0F) as u8,
            register_protect: written & REGISTER_PROTECT != 0,
            quad_enable: written & QUAD_ENABLE != 0,
            locked: self.locked || written & LOCK != 0,
            complement: written & COMPLEMENT != 0,
        }
    }

    /// The settings at their places in the 16 status bits, all others 0.
    pub fn bits(self) -> u16 {
        let flag = |set: bool, bit: u16| if set { bit } else { 0 };
        u16::from(self.block_protect) << BLOCK_PROTECT_SHIFT
            | flag(self.register_protect, REGISTER_PROTECT)
            | flag(self.quad_enable, QUAD_ENABLE)
            | flag(self.locked, LOCK)
            | flag(self.complement, COMPLEMENT)
    }
}
