//! The two profiles of a line: how many bits a symbol has, and what depends on that.

/// 16-QAM, with a symbol of eight bits, or QPSK, with one of four.
#[derive(Debug, PartialEq, Eq, Clone, Copy)]
pub enum Profile {
    Qam16,
    Qpsk,
}

pub const PROFILES: [Profile; 2] = [Profile::Qam16, Profile::Qpsk];

impl Profile {
    /// What is stated for each of the two.
    const fn stated(self, qam16: usize, qpsk: usize) -> usize {
        match self {
            Profile::Qam16 => qam16,
            Profile::Qpsk => qpsk,
        }
    }

    /// Bits of a symbol, which gives one cell.
    pub const fn symbol_bits(self) -> usize {
        self.stated(8, 4)
    }

    /// Symbols of a buffer.
    pub const fn buffer_symbols(self) -> usize {
        self.stated(21_504, 43_008)
    }

    /// The cells of a buffer, two bytes each.
    pub const fn cells_bytes(self) -> usize {
        self.stated(43_008, 86_016)
    }

    /// Buffers of a super-frame.
    pub const fn buffers(self) -> usize {
        self.stated(8, 4)
    }

    /// Pairs of each encoder in a super-frame: 21 in each of its buffers.
    pub const fn pairs(self) -> usize {
        self.stated(168, 84)
    }

    /// The payload of one encoder in a super-frame.
    pub const fn payload_bytes(self) -> usize {
        self.stated(74_592, 37_296)
    }
}
