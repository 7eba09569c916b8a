//! An ANC packet of the drafts of 2015 (documents 000 and 001): C 1,
//! Line_Number 11, Horizontal_Offset 12, then the ten-bit words DID, SDID and
//! Data_Count, two R bits, n user data words and the checksum, then zero bits
//! to a full octet. S and StreamNum are not there and read as zero.
//!
//! The R bits end an octet, so the user data words begin at octet 7, and four
//! of them fill five octets. The 0 to 3 words left over, the checksum and the
//! alignment are the last two to five octets.

use super::words::*;
use super::{Form, RECORD_HEAD};
use crate::layout::Layout;

const SMALLEST: usize = Layout::Draft2015.smallest_packet();
/// Where the user data words begin.
const WORDS: usize = 7;

pub(super) struct Draft2015;

/// Zero bits after the checksum of a packet of n words: 0 to 6.
#[inline(always)]
const fn alignment_bits(n: usize) -> u32 {
    ((66 + 10 * n).wrapping_neg() & 7) as u32
}

/// Octets of the words in whole groups.
#[inline(always)]
const fn grouped_octets(n: usize) -> usize {
    n / 4 * 5
}

/// What follows the whole groups.
#[inline(always)]
fn tail_of(packet: &[u8], n: usize) -> u64 {
    packet[WORDS + grouped_octets(n)..]
        .iter()
        .fold(0, |tail, &octet| tail << 8 | octet as u64)
}

impl Form for Draft2015 {
    const LAYOUT: Layout = Layout::Draft2015;

    /// 9 (under 9 octets left), 10, 9 (its size), 15, 16, 11 if strict, 12.
    #[inline(always)]
    fn check<const STRICT: bool>(left: &[u8]) -> Result<(usize, bool), u8> {
        let Some(start) = left.first_chunk::<SMALLEST>() else {
            return Err(9);
        };
        let words = load4(start, 3);
        let header = [words >> 22, words >> 12, words >> 2].map(|word| (word & 0x3FF) as u16);
        if !header.into_iter().all(is_header_word) {
            return Err(10);
        }
        let n = (header[2] & 0xFF) as usize;
        let Some(packet) = left.get(..Self::LAYOUT.packet_octets(n)) else {
            return Err(9);
        };
        if words & 3 != 0 {
            return Err(15);
        }
        Ok((n, check_words::<STRICT>(packet, header, n)?))
    }

    #[inline(always)]
    fn count(packet: &[u8]) -> usize {
        (load4(packet, 3) >> 2 & 0xFF) as usize
    }

    #[inline(always)]
    fn read(packet: &[u8], index: u16, record: &mut [u16]) {
        let Some((head, words)) = record.split_first_chunk_mut::<RECORD_HEAD>() else {
            return;
        };
        let place = load4(packet, 0) >> 8;
        let start = load4(packet, 3);
        *head = [
            (place >> 23) as u16,
            (place >> 12 & 0x7FF) as u16,
            (place & 0xFFF) as u16,
            0,
            0,
            (start >> 22 & 0xFF) as u16,
            (start >> 12 & 0xFF) as u16,
            words.len() as u16,
            index,
        ];
        let n = words.len();
        let (grouped, over) = words.split_at_mut(n & !3);
        read_groups(&packet[WORDS..WORDS + grouped_octets(n)], grouped);
        read_over(tail_of(packet, n) >> alignment_bits(n), over);
    }

    /// S and StreamNum of the record are zero.
    #[inline(always)]
    fn write(record: &[u16], packet: &mut [u8]) {
        let Some((head, words)) = record.split_first_chunk::<RECORD_HEAD>() else {
            return;
        };
        let [c, line, offset, _, _, did, sdid, n, _] = head.map(u32::from);
        let place = c << 23 | line << 12 | offset;
        packet[..3].copy_from_slice(&place.to_be_bytes()[1..]);
        let header = [did, sdid, n].map(|x| HEADER_WORDS[(x & 0xFF) as usize]);
        let [did, sdid, count] = header.map(u32::from);
        let start = did << 22 | sdid << 12 | count << 2;
        packet[3..WORDS].copy_from_slice(&start.to_be_bytes());
        let n = words.len();
        let (grouped, over) = words.split_at(n & !3);
        let (groups, end) = packet[WORDS..].split_at_mut(grouped_octets(n));
        write_groups(grouped, groups);
        let tail = write_over(over, checksum_of(header, words)) << alignment_bits(n);
        end.copy_from_slice(&tail.to_be_bytes()[8 - end.len()..]);
    }
}

/// 16, 11 if strict, and 12 for a packet of the right size. Returns whether
/// the checksum is right: it is that of 001's sentence, nine bits, where 000
/// says "lower 8 bits".
#[inline(always)]
fn check_words<const STRICT: bool>(packet: &[u8], header: [u16; 3], n: usize) -> Result<bool, u8> {
    let over = n as u32 % 4;
    let alignment = alignment_bits(n);
    let tail = tail_of(packet, n);
    let mut sum = Sum::of_groups(&packet[WORDS..WORDS + grouped_octets(n)]);
    sum.add_over(tail >> (alignment + 10) & ((1 << (10 * over)) - 1), over);
    if sum.met_protected() {
        return Err(16);
    }
    let [did, sdid, count] = header.map(u64::from);
    let checksum = checksum_word(did + sdid + count + sum.total()) as u64;
    let right = checksum == tail >> alignment & WORD;
    if STRICT && !right {
        return Err(11);
    }
    if tail & ((1 << alignment) - 1) != 0 {
        return Err(12);
    }
    Ok(right)
}

#[cfg(test)]
mod tests {
    use super::*;

    #[test]
    fn the_end_is_what_is_left_over() {
        for n in 0..256 {
            let octets = Layout::Draft2015.packet_octets(n);
            assert_eq!(8 * octets, 66 + 10 * n + alignment_bits(n) as usize);
            let end = octets - WORDS - grouped_octets(n);
            assert_eq!(end, [2, 3, 4, 5][n % 4]);
            assert_eq!(8 * end, 10 * (n % 4 + 1) + alignment_bits(n) as usize);
        }
    }
}
