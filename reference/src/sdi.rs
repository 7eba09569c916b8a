//! Lines of the serial interface (02, K6): ten-bit words. A packet in a line
//! is the flag, then DID, SDID, Data_Count, n user data words and the
//! checksum: 7 + n words. Packets touch one another.

use crate::anc::{check_list, checksum_word, is_protected, HEADER_WORDS, RECORD_HEAD};
use crate::layout::Layout;
use crate::refusal::Refusal;

/// Most words of a line.
pub const MAX_LINE: usize = 4_096;
/// The ancillary data flag.
pub const FLAG: [u16; 3] = [0x000, 0x3FF, 0x3FF];
/// Words of a packet besides the flag and the user data words.
const FRAME: usize = 4;
const LARGEST_WORD: u16 = 0x3FF;

/// What a line does not say of a record: the caller says it of all.
#[derive(Clone, Copy, Debug, PartialEq, Eq)]
pub struct Place {
    pub c: u16,
    pub line: u16,
    pub offset: u16,
    pub s: u16,
    pub stream: u16,
}

impl Place {
    fn fits(&self) -> bool {
        self.c <= 1
            && self.line <= 0x7FF
            && self.offset <= 0xFFF
            && self.s <= 1
            && self.stream <= 127
    }
}

/// What was read: records, the cells they took, and the word after the last
/// packet.
#[derive(Clone, Copy, Debug, PartialEq, Eq)]
pub struct Found {
    pub records: usize,
    pub cells: usize,
    pub end: usize,
}

/// 70: over 4,096 words; 71: the start past the end.
fn check_line(line: &[u16], start: usize) -> Result<(), Refusal> {
    if line.len() > MAX_LINE {
        return Err(Refusal::plain(70));
    }
    if start > line.len() {
        return Err(Refusal::plain(71));
    }
    Ok(())
}

/// Puts the records of a list into a line from a start on, and returns the
/// word after them: 70, 71, 20, 16, 72. Words outside the stretch stay.
pub fn write(line: &mut [u16], start: usize, cells: &[u16]) -> Result<usize, Refusal> {
    check_line(line, start)?;
    // A line has no layout: both have the same lists.
    let list = check_list(Layout::Rfc8331, cells)?;
    // A record's head has nine cells, a packet seven words besides its own.
    let words = list.cells() - 2 * list.records();
    let Some(stretch) = line[start..].get_mut(..words) else {
        return Err(Refusal::plain(72));
    };
    write_packets(stretch, cells);
    Ok(start + words)
}

fn write_packets(mut stretch: &mut [u16], mut cells: &[u16]) {
    while let Some((head, rest)) = cells.split_first_chunk::<RECORD_HEAD>() {
        let [_, _, _, _, _, did, sdid, n, _] = head.map(usize::from);
        let (words, left) = rest.split_at(n);
        let (packet, after) = stretch.split_at_mut(FLAG.len() + FRAME + n);
        let (flag, packet) = packet.split_at_mut(FLAG.len());
        flag.copy_from_slice(&FLAG);
        packet[..3].copy_from_slice(&[did, sdid, n].map(|number| HEADER_WORDS[number]));
        packet[3..3 + n].copy_from_slice(words);
        packet[3 + n] = checksum(&packet[..3 + n]);
        (stretch, cells) = (after, left);
    }
}

/// Of DID, SDID, Data_Count and the user data words.
fn checksum(words: &[u16]) -> u16 {
    checksum_word(words.iter().map(|&word| word as u64).sum())
}

/// Reads packets from a start on, as long as a flag follows directly, and puts
/// their records into lent cells: 70, 71, 20 (the caller's place), 73; each
/// packet's 9, 10, 9, 16, 11; then 14.
pub fn read(line: &[u16], start: usize, place: Place, cells: &mut [u16]) -> Result<Found, Refusal> {
    check_line(line, start)?;
    if !place.fits() {
        return Err(Refusal::plain(20));
    }
    if line.iter().any(|&word| word > LARGEST_WORD) {
        return Err(Refusal::plain(73));
    }
    let found = check_packets(&line[start..])?;
    let Some(cells) = cells.get_mut(..found.cells) else {
        return Err(Refusal::plain(14));
    };
    read_packets(&line[start..], place, cells);
    Ok(Found {
        end: start + found.end,
        ..found
    })
}

/// The packets at the start of the words; `end` counts from there.
fn check_packets(words: &[u16]) -> Result<Found, Refusal> {
    let (mut records, mut cells) = (0, 0);
    let mut left = words;
    while let Some(after) = left.strip_prefix(&FLAG) {
        let n = check_packet(after).map_err(|number| Refusal::at(number, records))?;
        records += 1;
        cells += RECORD_HEAD + n;
        left = &after[FRAME + n..];
    }
    Ok(Found {
        records,
        cells,
        end: words.len() - left.len(),
    })
}

/// What stands after a flag: 9 (under four words), 10, 9 (its words), 16, 11.
/// Returns n.
fn check_packet(after: &[u16]) -> Result<usize, u8> {
    if after.len() < FRAME {
        return Err(9);
    }
    let is_header_word = |&word: &u16| HEADER_WORDS[(word & 0xFF) as usize] == word;
    if !after[..3].iter().all(is_header_word) {
        return Err(10);
    }
    let n = (after[2] & 0xFF) as usize;
    let Some(packet) = after.get(..FRAME + n) else {
        return Err(9);
    };
    if packet[3..3 + n].iter().any(|&word| is_protected(word)) {
        return Err(16);
    }
    if packet[3 + n] != checksum(&packet[..3 + n]) {
        return Err(11);
    }
    Ok(n)
}

/// Checked packets into the cells of their records.
fn read_packets(mut left: &[u16], place: Place, mut cells: &mut [u16]) {
    let Place {
        c,
        line,
        offset,
        s,
        stream,
    } = place;
    while !cells.is_empty() {
        let packet = &left[FLAG.len()..];
        let [did, sdid, n] = [packet[0], packet[1], packet[2]].map(|word| word & 0xFF);
        let (record, rest) = cells.split_at_mut(RECORD_HEAD + n as usize);
        let (head, words) = record.split_at_mut(RECORD_HEAD);
        head.copy_from_slice(&[c, line, offset, s, stream, did, sdid, n, 0]);
        words.copy_from_slice(&packet[3..3 + words.len()]);
        (left, cells) = (&packet[FRAME + words.len()..], rest);
    }
}
