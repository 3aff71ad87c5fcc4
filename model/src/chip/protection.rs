//! Which array bytes the settings protect.

use std::ops::Range;

use super::settings::Settings;

/// Protection is counted in blocks of 64 KiB.
const BLOCK: usize = 0x1_0000;

impl Settings {
    /// The protected addresses. The rows are those of the 1 MiB part; on a
    /// smaller array a row may lie wholly beyond the end.
    pub fn protected_range(self) -> Range<usize> {
        let blocks = match (self.complement, self.block_protect) {
            (_, 0) => 0..0,
            (false, 1) => 15..16,
            (false, 2) => 14..16,
            (false, 3) => 12..16,
            (false, 4) => 8..16,
            (true, 1) => 0..1,
            (true, 2) => 0..2,
            (true, 3) => 0..4,
            (true, 4) => 0..8,
            (_, _) => 0..16,
        };
        blocks.start * BLOCK..blocks.end * BLOCK
    }

    /// Whether some byte of the range is protected.
    pub fn protects(self, range: &Range<usize>) -> bool {
        let protected = self.protected_range();
        range.start < protected.end && protected.start < range.end
    }

    /// A chip erase is let through only with all protection bits clear, also
    /// where the row they choose protects nothing.
    pub fn allows_chip_erase(self) -> bool {
        self.block_protect == 0 && !self.complement
    }
}
