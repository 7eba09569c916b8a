//! ANC packets, built bit by bit.

use super::*;
use crate::anc::RECORD_HEAD;

/// The parts of an ANC packet: its ten-bit words are DID to checksum. The
/// drafts' layout has no S and StreamNum, and RFC 8331's no R bits: what a
/// layout lacks is left out.
#[derive(Clone, Debug)]
pub struct Anc {
    /// C, line, offset, S, StreamNum.
    pub place: u32,
    pub words: Vec<u16>,
    /// The two R bits.
    pub r: u32,
    pub alignment: u32,
}

pub(super) fn with_parity(number: u16) -> u16 {
    let odd = number.count_ones() as u16 % 2;
    number + 256 * odd + 512 * (1 - odd)
}

pub(super) fn checksum(words: &[u16]) -> u16 {
    let sum: u32 = words.iter().map(|&word| word as u32 % 512).sum();
    let sum = (sum % 512) as u16;
    sum + if sum < 256 { 512 } else { 0 }
}

impl Anc {
    /// The packet that a record came in is not in it.
    pub fn of(record: &[u16]) -> Anc {
        let [c, line, offset, s, stream] = [0, 1, 2, 3, 4].map(|i| record[i] as u32);
        let mut words: Vec<u16> = record[5..8].iter().map(|&x| with_parity(x)).collect();
        words.extend(&record[RECORD_HEAD..]);
        words.push(checksum(&words));
        Anc {
            place: c << 31 | line << 20 | offset << 8 | s << 7 | stream,
            words,
            r: 0,
            alignment: 0,
        }
    }

    /// Bits up to a multiple of 32, in the drafts of 8.
    fn alignment_width(&self, layout: Layout) -> u32 {
        let words = 10 * self.words.len() as u32;
        match layout {
            Layout::Rfc8331 => (32 - (32 + words) % 32) % 32,
            Layout::Draft2015 => (8 - (24 + 2 + words) % 8) % 8,
        }
    }

    pub fn octets(&self, layout: Layout) -> Vec<u8> {
        let mut bits = Bits::default();
        let (header, rest) = self.words.split_at(3);
        match layout {
            Layout::Rfc8331 => bits.put(self.place, 32),
            Layout::Draft2015 => bits.put(self.place >> 8, 24),
        }
        header.iter().for_each(|&word| bits.put(word as u32, 10));
        if layout == Layout::Draft2015 {
            bits.put(self.r & 3, 2);
        }
        rest.iter().for_each(|&word| bits.put(word as u32, 10));
        let width = self.alignment_width(layout);
        bits.put(self.alignment & ((1 << width) - 1), width);
        bits.octets
    }
}

#[derive(Default)]
struct Bits {
    octets: Vec<u8>,
    held: u64,
    width: u32,
}

impl Bits {
    fn put(&mut self, value: u32, width: u32) {
        self.held = self.held << width | value as u64;
        self.width += width;
        while self.width >= 8 {
            self.width -= 8;
            self.octets.push((self.held >> self.width) as u8);
        }
    }
}

/// ANC packets of a list.
pub fn anc_of(cells: &[u16]) -> Vec<Anc> {
    split_records(cells).into_iter().map(Anc::of).collect()
}

pub(super) fn run_octets(layout: Layout, anc: &[Anc]) -> Vec<u8> {
    anc.iter().flat_map(|anc| anc.octets(layout)).collect()
}

/// Damages an ANC packet so that 10, 11, 12, 16 or, in the drafts, 15 is
/// likely.
pub(super) fn damage_anc(r: &mut Random, layout: Layout, anc: &mut Anc) {
    let last = anc.words.len() - 1;
    if layout == Layout::Draft2015 && r.one_in(4) {
        anc.r = 1 + r.below(3) as u32;
        return;
    }
    if last > 3 && r.one_in(4) {
        protect_anc(r, anc);
        return;
    }
    match r.below(6) {
        0 | 1 => anc.words[r.below(3)] ^= 1 << r.below(10),
        2 => anc.words[r.below(3)] = r.below(1024) as u16,
        3 => anc.words[last] ^= 1 << r.below(10),
        4 => anc.words[3 + r.below(last - 2)] ^= 1 + r.below(1023) as u16,
        _ => anc.alignment = 1 << r.below(anc.alignment_width(layout) as usize),
    }
}

/// A protected word among the user data words; the checksum is that of the
/// words, as a sender makes it, or as it was.
fn protect_anc(r: &mut Random, anc: &mut Anc) {
    let last = anc.words.len() - 1;
    anc.words[3 + r.below(last - 3)] = protected_word(r);
    if !r.one_in(3) {
        anc.words[last] = checksum(&anc.words[..last]);
    }
}
