//! ANC packets in octets, in both layouts, and records in lists of
//! sixteen-bit cells. A record is C, line, offset, S, StreamNum, DID, SDID,
//! n, the index of its packet within its field (02, K13), then n words.

mod draft2015;
mod rfc8331;
mod words;

use crate::layout::Layout;
use crate::refusal::Refusal;
use draft2015::Draft2015;
use rfc8331::Rfc8331;

pub use words::{checksum_word, is_protected, HEADER_WORDS};

/// Cells of a record before its words.
pub const RECORD_HEAD: usize = 9;
/// Where in a record n stands.
pub const COUNT: usize = 7;
/// Where in a record its packet's index stands.
pub const INDEX: usize = 8;
/// The largest index of a packet.
pub const MAX_INDEX: u16 = 4_095;

/// Most records and cells (02, K2 and K13).
#[derive(Clone, Copy, Debug, PartialEq, Eq)]
pub struct Limits {
    pub records: usize,
    pub cells: usize,
}

impl Limits {
    /// Of a list that is written as an RTP packet.
    pub const PACKET: Limits = Limits {
        records: 255,
        cells: 36_864,
    };
    /// Of a field, gathered or in a file.
    pub const FIELD: Limits = Limits {
        records: 4_095,
        cells: 36_864,
    };

    #[inline(always)]
    pub const fn hold(&self, records: usize, cells: usize) -> bool {
        records <= self.records && cells <= self.cells
    }
}

/// One layout's ANC packet.
trait Form {
    const LAYOUT: Layout;

    /// The order for one ANC packet at the start of what is left: 9 (under
    /// the smallest), 10, 9 (its size), 15 where there are R bits, 16, 11, 12.
    /// In the tolerant way there is no 11. Returns n, and whether the checksum
    /// is right.
    fn check<const STRICT: bool>(left: &[u8]) -> Result<(usize, bool), u8>;

    /// n of a checked packet.
    fn count(packet: &[u8]) -> usize;

    /// One checked ANC packet into the cells of its record, which came in the
    /// packet of that index.
    fn read(packet: &[u8], index: u16, record: &mut [u16]);

    /// One checked record into the octets of its ANC packet, which does not
    /// have the index.
    fn write(record: &[u16], packet: &mut [u8]);
}

// ---------------------------------------------------------------- reading

/// ANC packets that have been checked, and what the records need that come
/// through: all, but in the tolerant way those with a right checksum.
#[derive(Clone, Copy, Debug, PartialEq, Eq)]
pub struct Run<'a> {
    layout: Layout,
    octets: &'a [u8],
    packets: usize,
    records: usize,
    cells: usize,
}

/// Checks `count` ANC packets at the start of `octets`: 9 to 12, 15 and 16, with
/// the index of the ANC packet. What follows them is the caller's matter.
#[inline]
pub fn check_run(layout: Layout, octets: &[u8], count: usize) -> Result<Run<'_>, Refusal> {
    match layout {
        Layout::Rfc8331 => check_packets::<Rfc8331, true>(octets, count),
        Layout::Draft2015 => check_packets::<Draft2015, true>(octets, count),
    }
}

/// The same in the tolerant way (02, K9): a record that fails only its
/// checksum is left out, and 11 is not given.
#[inline]
pub fn tolerate_run(layout: Layout, octets: &[u8], count: usize) -> Result<Run<'_>, Refusal> {
    match layout {
        Layout::Rfc8331 => check_packets::<Rfc8331, false>(octets, count),
        Layout::Draft2015 => check_packets::<Draft2015, false>(octets, count),
    }
}

#[inline(always)]
fn check_packets<F: Form, const STRICT: bool>(
    octets: &[u8],
    count: usize,
) -> Result<Run<'_>, Refusal> {
    let mut left = octets;
    let (mut records, mut words) = (0, 0);
    for index in 0..count {
        let (n, right) = match F::check::<STRICT>(left) {
            Ok(checked) => checked,
            Err(number) => return Err(Refusal::at(number, index)),
        };
        if STRICT || right {
            records += 1;
            words += n;
        }
        left = &left[F::LAYOUT.packet_octets(n)..];
    }
    Ok(Run {
        layout: F::LAYOUT,
        octets: &octets[..octets.len() - left.len()],
        packets: count,
        records,
        cells: RECORD_HEAD * records + words,
    })
}

impl Run<'_> {
    /// Octets of the ANC packets, alignment included.
    pub fn octets(&self) -> usize {
        self.octets.len()
    }

    /// Records that come through.
    pub fn records(&self) -> usize {
        self.records
    }

    /// Records left out for their checksum.
    pub fn left_out(&self) -> usize {
        self.packets - self.records
    }

    /// Cells that the records need.
    pub fn cells(&self) -> usize {
        self.cells
    }

    /// Puts the records at the start of `cells`, all with the index of the
    /// packet: 14 if they do not fit. Only the records' cells are written.
    #[inline]
    pub fn read(&self, index: u16, cells: &mut [u16]) -> Result<(), Refusal> {
        let Some(cells) = cells.get_mut(..self.cells) else {
            return Err(Refusal::plain(14));
        };
        self.read_all(index, cells);
        Ok(())
    }

    /// The records in a list of their own.
    pub fn list(&self) -> Vec<u16> {
        let mut cells = vec![0; self.cells];
        self.read_all(0, &mut cells);
        cells
    }

    #[inline(always)]
    fn read_all(&self, index: u16, cells: &mut [u16]) {
        match self.layout {
            Layout::Rfc8331 => self.read_packets::<Rfc8331>(index, cells),
            Layout::Draft2015 => self.read_packets::<Draft2015>(index, cells),
        }
    }

    #[inline(always)]
    fn read_packets<F: Form>(&self, index: u16, mut cells: &mut [u16]) {
        let mut octets = self.octets;
        let all = self.left_out() == 0;
        for _ in 0..self.packets {
            let n = F::count(octets);
            let (packet, rest) = octets.split_at(F::LAYOUT.packet_octets(n));
            octets = rest;
            if all || F::check::<true>(packet).is_ok() {
                let (record, left) = cells.split_at_mut(RECORD_HEAD + n);
                F::read(packet, index, record);
                cells = left;
            }
        }
    }
}

// ---------------------------------------------------------------- writing

/// A list of records that has been checked, and what its packets need.
#[derive(Clone, Copy, Debug, PartialEq, Eq)]
pub struct List<'a> {
    layout: Layout,
    cells: &'a [u16],
    records: usize,
    octets: usize,
    streams: bool,
}

/// Checks a list of cells: 20 over the whole list, then 16 for a protected
/// word, with the index of the record. The widths are RFC 8331's in both
/// layouts.
#[inline]
pub fn check_list(layout: Layout, cells: &[u16]) -> Result<List<'_>, Refusal> {
    let mut left = cells;
    let (mut records, mut octets, mut streams) = (0, 0, 0);
    let mut protected = None;
    while !left.is_empty() {
        let Some((n, clear)) = check_record(left) else {
            return Err(Refusal::at(20, records));
        };
        if !clear {
            protected = protected.or(Some(records));
        }
        records += 1;
        octets += layout.packet_octets(n);
        streams |= left[3] | left[4];
        left = &left[RECORD_HEAD + n..];
    }
    if let Some(index) = protected {
        return Err(Refusal::at(16, index));
    }
    Ok(List {
        layout,
        cells,
        records,
        octets,
        streams: streams != 0,
    })
}

/// No cell too large for its field, the record not cut. Returns n, and whether
/// no word is protected.
#[inline(always)]
fn check_record(left: &[u16]) -> Option<(usize, bool)> {
    let (head, rest) = left.split_first_chunk::<RECORD_HEAD>()?;
    let [c, line, offset, s, stream, did, sdid, n, index] = *head;
    let bits = (c | s) >> 1 | line >> 11 | (offset | index) >> 12 | stream >> 7;
    let octets = (did | sdid | n) >> 8;
    if bits | octets != 0 {
        return None;
    }
    let n = n as usize;
    let words = rest.get(..n)?;
    // One test a word: over 0x3FF is protected here too.
    let met = |met, &word| met | is_protected(word);
    let clear = !words.iter().fold(false, met);
    (clear || words.iter().all(|&word| word <= 0x3FF)).then_some((n, clear))
}

/// Head and words of each record of a well-formed list.
pub fn records(mut cells: &[u16]) -> impl Iterator<Item = (&[u16; RECORD_HEAD], &[u16])> {
    std::iter::from_fn(move || {
        let (head, rest) = cells.split_first_chunk()?;
        let (words, left) = rest.split_at(head[7] as usize);
        cells = left;
        Some((head, words))
    })
}

impl List<'_> {
    pub fn records(&self) -> usize {
        self.records
    }

    pub fn cells(&self) -> usize {
        self.cells.len()
    }

    /// Octets of the ANC packets, alignment included.
    pub fn octets(&self) -> usize {
        self.octets
    }

    /// Whether S or StreamNum of a record is not zero.
    pub fn has_streams(&self) -> bool {
        self.streams
    }

    /// 21: over the limits of a packet, or of a field.
    #[inline]
    pub fn within(self, limits: Limits) -> Result<Self, Refusal> {
        if !limits.hold(self.records, self.cells.len()) {
            return Err(Refusal::plain(21));
        }
        Ok(self)
    }

    /// Puts the ANC packets at the start of `out`: 23 if they do not fit.
    /// Only the packets' octets are written.
    #[inline]
    pub fn write(&self, out: &mut [u8]) -> Result<(), Refusal> {
        let Some(out) = out.get_mut(..self.octets) else {
            return Err(Refusal::plain(23));
        };
        match self.layout {
            Layout::Rfc8331 => self.write_packets::<Rfc8331>(out),
            Layout::Draft2015 => self.write_packets::<Draft2015>(out),
        }
        Ok(())
    }

    #[inline(always)]
    fn write_packets<F: Form>(&self, mut out: &mut [u8]) {
        let mut cells = self.cells;
        for _ in 0..self.records {
            let n = cells[COUNT] as usize;
            let (record, left) = cells.split_at(RECORD_HEAD + n);
            let (packet, rest) = out.split_at_mut(F::LAYOUT.packet_octets(n));
            F::write(record, packet);
            (cells, out) = (left, rest);
        }
    }
}

#[cfg(test)]
mod tests {
    use super::*;

    const A_CELLS: [u16; 9] = [0, 9, 0, 0, 0, 0x41, 0x05, 0, 0];
    const A_OCTETS: [u8; 12] = [0, 0x90, 0, 0, 0x90, 0x60, 0x58, 0x02, 0x46, 0, 0, 0];
    const A_OLD: [u8; 9] = [0, 0x90, 0, 0x90, 0x60, 0x58, 0, 0x91, 0x80];
    const B_CELLS: [u16; 11] = [1, 0x7FF, 0xFFF, 1, 3, 0x61, 0x02, 2, 0, 0x2AA, 0x155];
    const B_OCTETS: [u8; 12] = [
        0xFF, 0xFF, 0xFF, 0x83, 0x58, 0x50, 0x24, 0x0A, 0xAA, 0x55, 0x56, 0x40,
    ];

    fn there_and_back(layout: Layout, cells: &[u16], octets: &[u8]) {
        let run = check_run(layout, octets, 1).unwrap();
        let size = octets.len();
        assert_eq!(
            (run.octets(), run.records(), run.cells()),
            (size, 1, cells.len())
        );
        let mut read = vec![0xFFFF; cells.len() + 3];
        run.read(cells[INDEX], &mut read).unwrap();
        assert_eq!(&read[..cells.len()], cells);
        assert_eq!(&read[cells.len()..], [0xFFFF; 3]);
        let list = check_list(layout, cells).unwrap();
        let mut out = vec![0xEE; size + 2];
        list.write(&mut out).unwrap();
        assert_eq!(&out[..size], octets);
        assert_eq!(&out[size..], [0xEE; 2]);
    }

    #[test]
    fn marked_packets() {
        there_and_back(Layout::Rfc8331, &A_CELLS, &A_OCTETS);
        there_and_back(Layout::Rfc8331, &B_CELLS, &B_OCTETS);
        there_and_back(Layout::Draft2015, &A_CELLS, &A_OLD);
        // Whichever packet it came in.
        let mut later = B_CELLS;
        later[INDEX] = MAX_INDEX;
        there_and_back(Layout::Rfc8331, &later, &B_OCTETS);
    }
}
