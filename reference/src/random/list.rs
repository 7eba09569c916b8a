//! Records in cells, and lists of them, valid and damaged.

use super::*;
use crate::anc::{Limits, COUNT, INDEX, MAX_INDEX, RECORD_HEAD};
use crate::packet::Head;

pub fn word_count(r: &mut Random) -> usize {
    match r.below(8) {
        0 => 0,
        1 => r.below(256),
        2 => r.pick(&[1, 2, 3, 4, 5, 12, 16, 17, 18, 19, 20, 21, 33, 254, 255]),
        _ => r.below(12),
    }
}

/// A word that is not protected: 4 to 0x3FB, these two more often.
pub fn clear_word(r: &mut Random) -> u16 {
    4 + match r.below(1024) {
        word @ 0..1016 => word as u16,
        word @ 1016..1020 => (word % 2) as u16 * 0x3F7,
        word => (word % 4) as u16,
    }
}

pub fn protected_word(r: &mut Random) -> u16 {
    r.pick(&[0, 1, 2, 3, 0x3FC, 0x3FD, 0x3FE, 0x3FF])
}

/// A record of n words, in cells; its packet's index may be any.
pub fn record(r: &mut Random, n: usize) -> Vec<u16> {
    let line = r.below(2048) as u16;
    let offset = r.below(4096) as u16;
    let mut cells = vec![
        r.below(2) as u16,
        r.pick(&[line, line, 9, 0x7FD, 0x7FE, 0x7FF]),
        r.pick(&[offset, offset, 0, 0xFFC, 0xFFD, 0xFFE, 0xFFF]),
        r.below(2) as u16,
        r.below(128) as u16,
        r.below(256) as u16,
        r.below(256) as u16,
        n as u16,
        packet_index(r),
    ];
    cells.extend((0..n).map(|_| clear_word(r)));
    cells
}

fn packet_index(r: &mut Random) -> u16 {
    match r.below(4) {
        0 => r.below(MAX_INDEX as usize + 1) as u16,
        _ => r.pick(&[0, 0, 1, MAX_INDEX]),
    }
}

/// A list of that many records.
pub fn list(r: &mut Random, records: usize) -> Vec<u16> {
    let mut cells = Vec::new();
    for _ in 0..records {
        let n = word_count(r);
        cells.extend(record(r, n));
    }
    cells
}

/// A list of exactly that many cells, in as few records as possible.
pub fn list_of_cells(r: &mut Random, cells: usize) -> Vec<u16> {
    let mut made = Vec::new();
    while cells - made.len() >= RECORD_HEAD {
        let left = cells - made.len();
        let n = match left - RECORD_HEAD {
            fits if fits <= 255 => fits,
            over if over < 255 + RECORD_HEAD => 200,
            _ => 255,
        };
        made.extend(record(r, n));
    }
    made
}

/// The list as a layout carries it: the drafts' has no S and StreamNum. Cells
/// too large for their field stay.
pub fn carried(layout: Layout, mut cells: Vec<u16>) -> Vec<u16> {
    let mut at = 0;
    while layout == Layout::Draft2015 && at + RECORD_HEAD <= cells.len() {
        for (cell, limit) in [(at + 3, 1), (at + 4, 127)] {
            if cells[cell] <= limit {
                cells[cell] = 0;
            }
        }
        at += RECORD_HEAD + cells[at + COUNT] as usize;
    }
    cells
}

/// A well-formed list with that index in every record: as it is read, where
/// the packet has that index, and 0 where there is none.
pub fn indexed(cells: &[u16], index: u16) -> Vec<u16> {
    let mut cells = cells.to_vec();
    for start in record_starts(&cells) {
        cells[start + INDEX] = index;
    }
    cells
}

/// The records of a well-formed list.
pub fn split_records(mut cells: &[u16]) -> Vec<&[u16]> {
    let mut records = Vec::new();
    while !cells.is_empty() {
        let (record, left) = cells.split_at(RECORD_HEAD + cells[COUNT] as usize);
        records.push(record);
        cells = left;
    }
    records
}

/// Protected words in some records.
pub(super) fn protect_list(r: &mut Random, cells: &mut [u16]) {
    let starts = record_starts(cells);
    for _ in 0..1 + r.below(3) {
        let start = r.pick(&starts);
        let n = cells[start + COUNT] as usize;
        if n > 0 {
            cells[start + RECORD_HEAD + r.below(n)] = protected_word(r);
        }
    }
}

/// A list damaged in a record: a cell too large, a record cut, a protected
/// word, or cells of no meaning.
pub fn damaged_list(r: &mut Random) -> Vec<u16> {
    let records = 1 + record_count(r);
    let mut cells = list(r, records);
    let starts = record_starts(&cells);
    if r.one_in(3) {
        protect_list(r, &mut cells);
        if r.one_in(2) {
            return cells;
        }
    }
    match r.below(6) {
        0 => cells.truncate(r.below(cells.len())),
        1 => cells.extend((0..1 + r.below(7)).map(|_| 0)),
        2 => {
            let at = r.below(cells.len());
            cells[at] = r.pick(&[2, 0x80, 0x100, 0x3FF, 0x400, 0x800, 0x1000, 0xFFFF]);
        }
        3 => {
            let cell = r.below(RECORD_HEAD);
            let limit = [1, 0x7FF, 0xFFF, 1, 127, 255, 255, 255, MAX_INDEX][cell];
            cells[r.pick(&starts) + cell] = limit + 1 + r.pick(&[0, 1, 0x4000]);
        }
        4 => cells[r.pick(&starts) + COUNT] = r.below(256) as u16,
        _ => cells.extend((0..r.below(40)).map(|_| r.number32() as u16)),
    }
    cells
}

pub(super) fn record_starts(cells: &[u16]) -> Vec<usize> {
    let mut starts = Vec::new();
    let mut at = 0;
    while at < cells.len() {
        starts.push(at);
        at += RECORD_HEAD + cells[at + COUNT] as usize;
    }
    starts
}

/// A list at or over the limits: as many records and one more, as many cells
/// and one more, more records than a packet has; a large one may be damaged
/// near its end.
pub fn large_list(r: &mut Random, most: Limits) -> Vec<u16> {
    let mut cells = match r.below(6) {
        0 => (0..most.records).flat_map(|_| record(r, 0)).collect(),
        1 => (0..most.records + 1).flat_map(|_| record(r, 0)).collect(),
        2 => (0..256 + r.below(80)).flat_map(|_| record(r, 1)).collect(),
        3 => list_of_cells(r, most.cells),
        4 => list_of_cells(r, most.cells + 1),
        _ => {
            let over = r.below(2000);
            list_of_cells(r, most.cells + over)
        }
    };
    if r.one_in(6) {
        let at = cells.len() - 1 - r.below(100);
        cells[at] = 0xFFFF;
    }
    cells
}

pub(super) fn any_list(r: &mut Random, most: Limits) -> Vec<u16> {
    let records = record_count(r);
    match r.below(12) {
        0..5 => list(r, records),
        5 if r.one_in(3) => large_list(r, most),
        _ => damaged_list(r),
    }
}

/// Octets that a list's packets need, or 100 where it has none.
pub(super) fn needed_octets(layout: Layout, cells: &[u16]) -> usize {
    crate::anc::check_list(layout, cells).map_or(100, |list| list.octets())
}

/// An input of the packet writer.
#[derive(Clone, Debug)]
pub struct WriteCase {
    pub layout: Layout,
    pub head: Head,
    pub cells: Vec<u16>,
    /// Octets lent.
    pub room: usize,
}

pub fn write_case(r: &mut Random) -> WriteCase {
    let mut head = head(r);
    if r.one_in(12) {
        head.payload_type = r.octet() | 0x80;
    }
    if r.one_in(12) {
        head.f = r.pick(&[1, 4, 5, 255]);
    }
    let layout = r.layout();
    let mut cells = any_list(r, Limits::PACKET);
    if layout == Layout::Draft2015 && !r.one_in(8) {
        head.f = if head.f == 2 || head.f == 3 {
            0
        } else {
            head.f
        };
    }
    if !r.one_in(8) {
        cells = carried(layout, cells);
    }
    let room = r.room(12 + layout.payload_header() + needed_octets(layout, &cells));
    WriteCase {
        layout,
        head,
        cells,
        room,
    }
}
