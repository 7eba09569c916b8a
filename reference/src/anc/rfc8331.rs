//! An ANC packet of RFC 8331: C 1, Line_Number 11, Horizontal_Offset 12,
//! S 1, StreamNum 7, then the ten-bit words DID, SDID, Data_Count, n user
//! data words and the checksum, then zero bits up to a multiple of 32.
//!
//! The ten-bit words begin at octet 4, and four of them fill five octets.
//! So the n + 3 words before the checksum are taken as whole groups of four
//! (40 bits), and the 0 to 3 words left over come, with the checksum and the
//! alignment bits, out of the packet's last eight octets. Those always hold
//! them: the words left over, the checksum and the alignment are at most
//! 64 bits together.

use super::words::*;
use super::{Form, RECORD_HEAD};
use crate::layout::Layout;

const SMALLEST: usize = Layout::Rfc8331.smallest_packet();

pub(super) struct Rfc8331;

/// Zero bits after the checksum of a packet of n words: 0 to 30.
#[inline(always)]
const fn alignment_bits(n: usize) -> u32 {
    ((72 + 10 * n).wrapping_neg() & 31) as u32
}

impl Form for Rfc8331 {
    const LAYOUT: Layout = Layout::Rfc8331;

    /// 9 (under 12 octets left), 10, 9 (its size), 16, 11 if strict, 12.
    #[inline(always)]
    fn check<const STRICT: bool>(left: &[u8]) -> Result<(usize, bool), u8> {
        let Some(start) = left.first_chunk::<SMALLEST>() else {
            return Err(9);
        };
        let words = load8(start, 4);
        let did = (words >> 54) as u16;
        let sdid = (words >> 44 & WORD) as u16;
        let count = (words >> 34 & WORD) as u16;
        if !(is_header_word(did) & is_header_word(sdid) & is_header_word(count)) {
            return Err(10);
        }
        let n = (count & 0xFF) as usize;
        let Some(packet) = left.get(..Self::LAYOUT.packet_octets(n)) else {
            return Err(9);
        };
        Ok((n, check_words::<STRICT>(packet, n)?))
    }

    #[inline(always)]
    fn count(packet: &[u8]) -> usize {
        (load4(packet, 4) >> 2 & 0xFF) as usize
    }

    #[inline(always)]
    fn read(packet: &[u8], index: u16, record: &mut [u16]) {
        let Some((head, words)) = record.split_first_chunk_mut::<RECORD_HEAD>() else {
            return;
        };
        let place = load4(packet, 0);
        let start = load8(packet, 4);
        *head = [
            (place >> 31) as u16,
            (place >> 20 & 0x7FF) as u16,
            (place >> 8 & 0xFFF) as u16,
            (place >> 7 & 1) as u16,
            (place & 0x7F) as u16,
            (start >> 54 & 0xFF) as u16,
            (start >> 44 & 0xFF) as u16,
            words.len() as u16,
            index,
        ];
        read_words(packet, (start >> 24 & WORD) as u16, words);
    }

    #[inline(always)]
    fn write(record: &[u16], packet: &mut [u8]) {
        let Some((head, words)) = record.split_first_chunk::<RECORD_HEAD>() else {
            return;
        };
        let [c, line, offset, s, stream, did, sdid, n, _] = head.map(u32::from);
        let place = c << 31 | line << 20 | offset << 8 | s << 7 | stream;
        packet[..4].copy_from_slice(&place.to_be_bytes());
        let header = [did, sdid, n].map(|x| HEADER_WORDS[(x & 0xFF) as usize]);
        write_words(header, words, checksum_of(header, words), packet);
    }
}

/// 16, 11 if strict, and 12 for a packet of the right size. Returns whether
/// the checksum is right.
#[inline(always)]
fn check_words<const STRICT: bool>(packet: &[u8], n: usize) -> Result<bool, u8> {
    let (groups, over) = (n.div_ceil(4), (n + 3) as u32 % 4);
    let alignment = alignment_bits(n);
    let tail = load8(packet, packet.len() - 8);
    let mut sum = Sum::of_groups(&packet[4..4 + 5 * groups]);
    sum.add_over(tail >> (alignment + 10) & ((1 << (10 * over)) - 1), over);
    if sum.met_protected() {
        return Err(16);
    }
    let right = checksum_word(sum.total()) as u64 == tail >> alignment & WORD;
    if STRICT && !right {
        return Err(11);
    }
    if tail & ((1 << alignment) - 1) != 0 {
        return Err(12);
    }
    Ok(right)
}

/// The first user data word stands in the first group; the groups after it
/// begin at octet 9; up to three words are left for the packet's end.
#[inline(always)]
fn read_words(packet: &[u8], first: u16, words: &mut [u16]) {
    let alignment = alignment_bits(words.len());
    let Some((cell, words)) = words.split_first_mut() else {
        return;
    };
    *cell = first;
    let (grouped, over) = words.split_at_mut(words.len() & !3);
    read_groups(&packet[9..9 + grouped.len() / 4 * 5], grouped);
    read_over(load8(packet, packet.len() - 8) >> alignment, over);
}

/// The packet's end goes first, in eight octets whose beginning the groups
/// then put right.
#[inline(always)]
fn write_words(header: [u16; 3], words: &[u16], checksum: u64, packet: &mut [u8]) {
    let alignment = alignment_bits(words.len());
    let [did, sdid, count] = header.map(u64::from);
    let header = did << 20 | sdid << 10 | count;
    let end = packet.len() - 8;
    let Some((&first, words)) = words.split_first() else {
        let tail = (header << 10 | checksum) << alignment;
        packet[end..].copy_from_slice(&tail.to_be_bytes());
        return;
    };
    let (grouped, over) = words.split_at(words.len() & !3);
    let tail = write_over(over, checksum) << alignment;
    packet[end..].copy_from_slice(&tail.to_be_bytes());
    let group = header << 10 | first as u64;
    packet[4..9].copy_from_slice(&group.to_be_bytes()[3..]);
    write_groups(grouped, &mut packet[9..9 + grouped.len() / 4 * 5]);
}

#[cfg(test)]
mod tests {
    use super::*;

    #[test]
    fn the_end_holds_what_is_left_over() {
        assert_eq!(alignment_bits(12), 0);
        for n in 0..256 {
            let bits = 72 + 10 * n + alignment_bits(n) as usize;
            assert_eq!(8 * Layout::Rfc8331.packet_octets(n), bits);
            assert!(10 * ((n as u32 + 3) % 4 + 1) + alignment_bits(n) <= 64);
        }
    }
}
