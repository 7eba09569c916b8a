//! Packets, built from their parts.

use super::*;
use crate::packet::{tolerate, Head, MAX_PACKET};

/// The parts of a packet. `assemble` gives Length and ANC_Count their right
/// values unless told otherwise, and leaves out what the layout lacks.
#[derive(Clone, Debug)]
pub struct Parts {
    pub layout: Layout,
    pub version: u8,
    pub head: Head,
    pub sources: Vec<u32>,
    pub extension: Option<(u16, Vec<u32>)>,
    pub reserved: u32,
    pub anc: Vec<Anc>,
    /// Octets added after the last ANC packet.
    pub extra: Vec<u8>,
    /// Octets taken off the run of ANC packets.
    pub cut: usize,
    pub length: Option<u16>,
    pub count: Option<u8>,
    /// The padding's octets; the last counts them.
    pub padding: Option<Vec<u8>>,
}

impl Parts {
    /// Without padding, extension, sources, reserved bits; RFC 8331's.
    pub fn plain(head: Head, cells: &[u16]) -> Parts {
        Parts::of(Layout::Rfc8331, head, cells)
    }

    /// The same in a layout.
    pub fn of(layout: Layout, head: Head, cells: &[u16]) -> Parts {
        Parts {
            layout,
            version: 2,
            head,
            sources: Vec::new(),
            extension: None,
            reserved: 0,
            anc: anc_of(cells),
            extra: Vec::new(),
            cut: 0,
            length: None,
            count: None,
            padding: None,
        }
    }

    pub fn assemble(&self) -> Vec<u8> {
        let mut octets = self.rtp_header();
        let mut run = run_octets(self.layout, &self.anc);
        run.extend(&self.extra);
        run.truncate(run.len().saturating_sub(self.cut));
        let length = self.length.unwrap_or(run.len() as u16);
        octets.extend(((self.head.number >> 16) as u16).to_be_bytes());
        octets.extend(length.to_be_bytes());
        octets.push(self.count.unwrap_or(self.anc.len() as u8));
        if self.layout == Layout::Rfc8331 {
            let last = (self.head.f as u32) << 22 | (self.reserved & 0x3F_FFFF);
            octets.extend(&last.to_be_bytes()[1..]);
        }
        octets.extend(run);
        octets.extend(self.padding.iter().flatten());
        octets
    }

    fn rtp_header(&self) -> Vec<u8> {
        let p = self.padding.is_some() as u8;
        let x = self.extension.is_some() as u8;
        let cc = self.sources.len() as u8;
        let m = self.head.marker as u8;
        let mut octets = vec![
            self.version << 6 | p << 5 | x << 4 | cc,
            m << 7 | (self.head.payload_type & 0x7F),
        ];
        octets.extend((self.head.number as u16).to_be_bytes());
        octets.extend(self.head.timestamp.to_be_bytes());
        octets.extend(self.head.source.to_be_bytes());
        octets.extend(self.sources.iter().flat_map(|x| x.to_be_bytes()));
        if let Some((profile, words)) = &self.extension {
            octets.extend(profile.to_be_bytes());
            octets.extend((words.len() as u16).to_be_bytes());
            octets.extend(words.iter().flat_map(|x| x.to_be_bytes()));
        }
        octets
    }
}

pub fn head(r: &mut Random) -> Head {
    Head {
        source: r.number32(),
        payload_type: r.below(128) as u8,
        marker: r.one_in(2),
        number: packet_number(r),
        timestamp: r.number32(),
        f: r.pick(&[0, 2, 3]),
    }
}

pub(super) fn packet_number(r: &mut Random) -> u32 {
    match r.below(4) {
        0 => r.number32(),
        1 => r.below(3) as u32,
        2 => u32::MAX - r.below(8) as u32,
        _ => (r.below(4) as u32) << 16 | 0xFFFF,
    }
}

pub(super) fn record_count(r: &mut Random) -> usize {
    match r.below(64) {
        0 => r.pick(&[100, 254, 255]),
        1..8 => r.below(20),
        _ => r.below(5),
    }
}

/// Parts of a packet that is accepted, at times as large as can be.
pub fn parts(r: &mut Random, layout: Layout) -> Parts {
    let head = head(r);
    let records = record_count(r);
    let cells = match r.below(200) {
        0 => (0..195).flat_map(|_| record(r, 255)).collect(),
        _ if records > 99 => (0..records).flat_map(|_| record(r, 3)).collect(),
        _ => list(r, records),
    };
    Parts::of(layout, head, &cells)
}

/// Padding, extension, contributing sources and reserved bits, each at times.
pub fn dress(r: &mut Random, parts: &mut Parts) {
    if r.one_in(4) {
        parts.sources = (0..r.below(16)).map(|_| r.number32()).collect();
    }
    if r.one_in(4) {
        let words = (0..r.below(6)).map(|_| r.number32()).collect();
        parts.extension = Some((r.number32() as u16, words));
    }
    if r.one_in(4) {
        parts.reserved = r.number32() & 0x3F_FFFF;
    }
    if r.one_in(4) {
        let count = r.pick(&[1, 2, 3, 4, 8, 255]);
        let mut padding = r.octets(count);
        padding[count - 1] = count as u8;
        parts.padding = Some(padding);
    }
}

/// Octets of an accepted packet.
pub fn valid_packet(r: &mut Random, layout: Layout) -> Vec<u8> {
    let mut parts = parts(r, layout);
    if r.one_in(2) {
        dress(r, &mut parts);
    }
    parts.assemble()
}

/// Octets of a packet that is right but for the checksums of some records.
pub fn summed_packet(r: &mut Random, layout: Layout) -> Vec<u8> {
    let mut parts = parts(r, layout);
    let share = r.pick(&[1, 2, 2, 5]);
    for anc in &mut parts.anc {
        if r.one_in(share) {
            let last = anc.words.len() - 1;
            anc.words[last] ^= 1 + r.below(1023) as u16;
        }
    }
    parts.assemble()
}

/// Octets of a packet damaged in one to three places.
pub fn damaged_packet(r: &mut Random, layout: Layout) -> Vec<u8> {
    let mut parts = parts(r, layout);
    if r.one_in(3) {
        dress(r, &mut parts);
    }
    for _ in 0..r.pick(&[0, 1, 1, 1, 2, 3]) {
        damage_parts(r, &mut parts);
    }
    let mut octets = parts.assemble();
    if r.one_in(3) {
        damage_octets(r, &mut octets);
    }
    octets
}

pub(super) fn damage_parts(r: &mut Random, parts: &mut Parts) {
    let run = run_octets(parts.layout, &parts.anc).len();
    let records = parts.anc.len();
    match r.below(16) {
        0 => parts.version = r.pick(&[0, 1, 3]),
        1 => parts.head.f = 1,
        2 => parts.length = Some((run as u16).wrapping_add(r.pick(&[1, 4, 8, 0xFFFF, 0xFFFC]))),
        3 => parts.length = Some(r.octet() as u16),
        4 => parts.count = Some(0),
        5 => parts.count = Some(r.octet()),
        6 => raise_count(r, parts),
        7 => parts.count = Some((records as u8).wrapping_sub(1)),
        8 => parts.cut = 1 + r.below(run.min(40)),
        9 => cut_last(r, parts),
        10 => {
            let octets = r.below(14);
            parts.extra = r.octets(octets);
        }
        11 => parts.padding = Some(wrong_padding(r)),
        _ if records > 0 => {
            let index = r.below(records);
            damage_anc(r, parts.layout, &mut parts.anc[index]);
        }
        _ => parts.version = 2,
    }
}

/// One ANC packet more than there are, with too few octets left for any.
pub(super) fn raise_count(r: &mut Random, parts: &mut Parts) {
    parts.count = Some((parts.anc.len() as u8).wrapping_add(1));
    parts.extra = vec![0; r.below(parts.layout.smallest_packet())];
}

/// A large last ANC packet, cut where those of the smallest are left.
pub(super) fn cut_last(r: &mut Random, parts: &mut Parts) {
    let n = 3 + r.below(253);
    parts.anc.push(Anc::of(&record(r, n)));
    let size = parts.layout.packet_octets(n);
    parts.cut = 1 + r.below(size - parts.layout.smallest_packet());
}

pub(super) fn wrong_padding(r: &mut Random) -> Vec<u8> {
    let octets = r.below(5);
    let mut padding = r.octets(octets);
    padding.push(r.pick(&[0, 0, 60, 200, 255]));
    padding
}

/// Bit flips, a cut, octets added, a header that asks for more.
pub(super) fn damage_octets(r: &mut Random, octets: &mut Vec<u8>) {
    let len = octets.len();
    match r.below(10) {
        0..4 => flip_bits(r, octets),
        4 => octets.truncate(r.below(12)),
        5 => octets.truncate(r.below(len)),
        6 => octets.truncate(12 + r.below(24)),
        7 => {
            let more = r.below(9);
            octets.extend(r.octets(more));
        }
        8 if r.one_in(4) => octets.resize(MAX_PACKET + r.below(3), 0),
        _ => octets[0] = 0x80 | (octets[0] & 0x20) | r.below(32) as u8,
    }
}

pub(super) fn flip_bits(r: &mut Random, octets: &mut [u8]) {
    for _ in 0..1 + r.below(3) {
        let near = if r.one_in(2) {
            20.min(octets.len())
        } else {
            octets.len()
        };
        octets[r.below(near)] ^= 1 << r.below(8);
    }
}

/// An input of the packet reader.
#[derive(Clone, Debug)]
pub struct ReadCase {
    /// The layout told; at times the octets have the other.
    pub layout: Layout,
    pub octets: Vec<u8>,
    /// Cells lent.
    pub room: usize,
}

pub fn read_case(r: &mut Random) -> ReadCase {
    let layout = r.layout();
    let made = if r.one_in(24) { r.layout() } else { layout };
    let octets = match r.below(16) {
        0 => {
            let count = r.below(64);
            let mut octets = r.octets(count);
            octets
                .iter_mut()
                .take(1)
                .for_each(|x| *x = 0x80 | (*x & 0x3F));
            octets
        }
        1..4 => valid_packet(r, made),
        4 => summed_packet(r, made),
        _ => damaged_packet(r, made),
    };
    let need = tolerate(layout, &octets).map_or(64, |passed| passed.run.cells());
    let room = r.room(need);
    ReadCase {
        layout,
        octets,
        room,
    }
}
