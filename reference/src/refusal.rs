//! Numbers of refusal.

/// 01, "Numbers of refusal": a number and an index from 0. The index is the
/// ANC packet for 9 to 12, 15 and 16 in reading, the record for 20 and 16 in
/// writing, the item for 41 to 43, otherwise 0: so for a caller's place, which
/// is 20 too. 22 is reserved: nothing gives it (02, K7).
#[derive(Clone, Copy, Debug, PartialEq, Eq, PartialOrd, Ord, Hash)]
pub struct Refusal {
    pub number: u8,
    pub index: usize,
}

impl Refusal {
    /// A refusal whose index names a packet, record or item.
    pub const fn at(number: u8, index: usize) -> Refusal {
        Refusal { number, index }
    }

    /// A refusal whose index is 0.
    pub const fn plain(number: u8) -> Refusal {
        Refusal { number, index: 0 }
    }
}
