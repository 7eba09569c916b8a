//! Lines of the serial interface.

use super::*;
use crate::anc::Limits;
use crate::sdi::{self, Place, FLAG, MAX_LINE};

/// A caller's place, at times with a field too large.
pub fn place(r: &mut Random) -> Place {
    let mut place = Place {
        c: r.below(2) as u16,
        line: r.below(0x800) as u16,
        offset: r.below(0x1000) as u16,
        s: r.below(2) as u16,
        stream: r.below(128) as u16,
    };
    if r.one_in(24) {
        match r.below(5) {
            0 => place.c = r.pick(&[2, 0xFFFF]),
            1 => place.line = r.pick(&[0x800, 0xFFFF]),
            2 => place.offset = r.pick(&[0x1000, 0xFFFF]),
            3 => place.s = r.pick(&[2, 0xFFFF]),
            _ => place.stream = r.pick(&[128, 0xFFFF]),
        }
    }
    place
}

/// Words of no meaning, pieces of flags among them.
fn any_words(r: &mut Random, count: usize) -> Vec<u16> {
    (0..count)
        .map(|_| match r.below(8) {
            0 => 0x000,
            1 | 2 => 0x3FF,
            _ => r.below(1024) as u16,
        })
        .collect()
}

/// A packet of a line, built from the same parts as an ANC packet.
pub fn line_packet(anc: &Anc) -> Vec<u16> {
    [&FLAG[..], &anc.words].concat()
}

fn line_length(r: &mut Random) -> usize {
    match r.below(16) {
        0 => r.below(12),
        1 => r.pick(&[MAX_LINE - 1, MAX_LINE, MAX_LINE]),
        2 if r.one_in(4) => MAX_LINE + 1 + r.below(3),
        _ => r.below(300),
    }
}

fn line_start(r: &mut Random, length: usize) -> usize {
    match r.below(16) {
        0 => length,
        1 => length + 1 + r.pick(&[0, 1, usize::MAX / 2]),
        2 => 0,
        _ => r.below(length + 1),
    }
}

/// An input of the line writer.
#[derive(Clone, Debug)]
pub struct LineWriteCase {
    /// Its words may be anything, over ten bits too.
    pub line: Vec<u16>,
    pub start: usize,
    pub cells: Vec<u16>,
}

pub fn line_write_case(r: &mut Random) -> LineWriteCase {
    let length = line_length(r);
    let mut line = any_words(r, length);
    if r.one_in(4) {
        line.iter_mut().for_each(|word| *word = r.number32() as u16);
    }
    let start = line_start(r, length);
    let left = length.saturating_sub(start);
    let cells = match r.below(8) {
        0 => any_list(r, Limits::PACKET),
        1 => damaged_list(r),
        // A record that fits exactly, or takes a word more.
        2 | 3 if (7..260).contains(&left) => {
            let n = (left - 7 + r.below(2)).min(255);
            record(r, n)
        }
        _ => {
            let records = r.below(4);
            list(r, records)
        }
    };
    LineWriteCase { line, start, cells }
}

/// An input of the line reader.
#[derive(Clone, Debug)]
pub struct LineReadCase {
    pub line: Vec<u16>,
    pub start: usize,
    pub place: Place,
    /// Cells lent.
    pub room: usize,
}

/// Packets at the start, of which one may be damaged or cut by the line's end;
/// what stands around them may be anything.
pub fn line_read_case(r: &mut Random) -> LineReadCase {
    let before = r.pick(&[0, 0, 1, 3, 40]);
    let mut line = any_words(r, before);
    let records = r.pick(&[0, 1, 1, 2, 3, 6, 12]);
    let mut anc = anc_of(&list(r, records));
    if records > 0 && r.one_in(2) {
        let index = r.below(records);
        damage_anc(r, Layout::Rfc8331, &mut anc[index]);
    }
    anc.iter().for_each(|anc| line.extend(line_packet(anc)));
    match r.below(8) {
        0 => line.truncate(r.below(line.len() + 1)),
        1 => line.truncate(line.len().saturating_sub(1 + r.below(8))),
        2 => line.extend(&FLAG[..1 + r.below(3)]),
        3 => {
            line.extend(FLAG);
            line.extend(any_words(r, 12));
        }
        4 => line.resize(line.len().max(MAX_LINE) + r.below(2), 0x3FF),
        _ => line.extend(any_words(r, 9)),
    }
    if r.one_in(16) && !line.is_empty() {
        let at = r.below(line.len());
        line[at] = r.pick(&[0x400, 0x7FF, 0x8000, 0xFFFF]);
    }
    let start = match r.below(12) {
        0 => line_start(r, line.len()),
        _ => before.min(line.len()),
    };
    let place = place(r);
    let mut cells = vec![0; 2 * MAX_LINE];
    let need = sdi::read(&line, start, place, &mut cells).map_or(64, |found| found.cells);
    let room = r.room(need);
    LineReadCase {
        line,
        start,
        place,
        room,
    }
}
