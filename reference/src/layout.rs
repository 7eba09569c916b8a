//! The two layouts. What a caller does not tell cannot be found out: the
//! payload does not say which it has.

/// Which layout a packet has, told by the caller (02, K3).
#[derive(Clone, Copy, Debug, PartialEq, Eq)]
pub enum Layout {
    /// RFC 8331.
    Rfc8331,
    /// The drafts of 2015, documents 000 and 001.
    Draft2015,
}

impl Layout {
    pub const ALL: [Layout; 2] = [Layout::Rfc8331, Layout::Draft2015];

    /// Octets of the payload header: the drafts have no F and no reserved
    /// bits.
    #[inline(always)]
    pub const fn payload_header(self) -> usize {
        match self {
            Layout::Rfc8331 => 8,
            Layout::Draft2015 => 5,
        }
    }

    /// Octets of the smallest ANC packet.
    #[inline(always)]
    pub const fn smallest_packet(self) -> usize {
        self.packet_octets(0)
    }

    /// Octets of an ANC packet of n words: 4 x ceiling((72 + 10n) / 32), and
    /// in the drafts ceiling((66 + 10n) / 8).
    #[inline(always)]
    pub const fn packet_octets(self, n: usize) -> usize {
        match self {
            Layout::Rfc8331 => (72 + 10 * n).div_ceil(32) * 4,
            Layout::Draft2015 => (66 + 10 * n).div_ceil(8),
        }
    }
}

#[cfg(test)]
mod tests {
    use super::Layout;

    #[test]
    fn marked_sizes() {
        for (n, octets) in [(0, 12), (2, 12), (3, 16), (12, 24), (255, 328)] {
            assert_eq!(Layout::Rfc8331.packet_octets(n), octets);
        }
        for (n, octets) in [(0, 9), (3, 12), (4, 14), (255, 327)] {
            assert_eq!(Layout::Draft2015.packet_octets(n), octets);
        }
    }
}
