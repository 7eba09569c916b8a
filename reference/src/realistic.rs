//! Fields as a programme carries them, for measurements: three packets a
//! field, eight records a packet.

use crate::packet::Head;
use crate::random::{clear_word, Parts, Random};

pub const PACKETS: usize = 3;

/// DID, SDID, fewest and most words of a packet's records, in order:
/// captions, time code, format, aspect ratio, splice messages, teletext,
/// a mark without words and payload identification.
const KINDS: [(u16, u16, usize, usize); 8] = [
    (0x61, 0x01, 60, 80),
    (0x60, 0x60, 16, 16),
    (0x41, 0x01, 4, 4),
    (0x41, 0x05, 8, 8),
    (0x41, 0x07, 0, 40),
    (0x43, 0x02, 40, 56),
    (0x50, 0x01, 0, 0),
    (0x44, 0x04, 4, 24),
];

/// The records of one packet.
pub fn records(r: &mut Random) -> Vec<u16> {
    let mut cells = Vec::new();
    for (place, (did, sdid, fewest, most)) in KINDS.into_iter().enumerate() {
        let n = fewest + r.below(most - fewest + 1);
        cells.extend([0, 9 + place as u16, 0xFFF, 0, 0, did, sdid, n as u16, 0]);
        cells.extend((0..n).map(|_| clear_word(r)));
    }
    cells
}

/// Interlaced fields of one source and type, packet after packet.
#[derive(Clone, Debug)]
pub struct Packets {
    random: Random,
    sent: u32,
}

impl Packets {
    pub fn new(seed: u64) -> Packets {
        Packets {
            random: Random::new(seed),
            sent: 0,
        }
    }

    /// The head of the next packet; the sequence number wraps on the way.
    fn next_head(&mut self) -> Head {
        let (field, packet) = (self.sent / PACKETS as u32, self.sent % PACKETS as u32);
        let head = Head {
            source: 0x0A0B_0C0D,
            payload_type: 112,
            marker: packet + 1 == PACKETS as u32,
            number: self.sent.wrapping_add(0xFFFF_FF00),
            timestamp: field.wrapping_mul(1501),
            f: 2 + (field % 2) as u8,
        };
        self.sent = self.sent.wrapping_add(1);
        head
    }
}

impl Iterator for Packets {
    type Item = (Head, Vec<u16>, Vec<u8>);

    /// Head, cells and octets of the next packet.
    fn next(&mut self) -> Option<(Head, Vec<u16>, Vec<u8>)> {
        let head = self.next_head();
        let cells = records(&mut self.random);
        let octets = Parts::plain(head, &cells).assemble();
        Some((head, cells, octets))
    }
}
