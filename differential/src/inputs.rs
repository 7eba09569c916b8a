//! Random calls of every entry point, with the memory lent to them: the
//! reference's generators, and what the boundary adds.

use reference::depacketizer::State;
use reference::random::{self, Random};
use reference::Layout;

use crate::call::{Call, Lengths, Memory};
use crate::model::{number_of, row_of};
use crate::{Head, Pair, ANSWER, DRAFTS, NO_VPID, RFC8331, STATE};

pub type Case = (Call, Memory);

/// Numbers lent for a row: mostly what it needs, at times more or too few.
pub fn row_length(r: &mut Random, need: usize) -> usize {
    match r.below(20) {
        0 => r.below(need),
        1..5 => need + r.below(6),
        _ => need,
    }
}

fn lent(r: &mut Random, cells: usize, octets: usize) -> Memory {
    let lengths = Lengths {
        answer: row_length(r, ANSWER),
        cells,
        octets,
        ..Lengths::default()
    };
    Memory::new(lengths, r)
}

/// A number that no layout has.
pub fn no_layout(r: &mut Random) -> u8 {
    (DRAFTS + 1).saturating_add(r.octet())
}

/// The layout told: mostly the one that an input was made for, at times the
/// other, or a number that no layout has.
pub fn told(r: &mut Random, layout: Layout) -> u8 {
    match r.below(40) {
        0 => no_layout(r),
        1 => r.pick(&[RFC8331, DRAFTS]),
        _ => number_of(layout),
    }
}

pub fn read(r: &mut Random) -> Case {
    let case = random::read_case(r);
    let (layout, octets) = (told(r, case.layout), case.octets);
    (Call::Read { layout, octets }, lent(r, case.room, 0))
}

pub fn read_strict(r: &mut Random) -> Case {
    let case = random::read_case(r);
    let (layout, octets) = (told(r, case.layout), case.octets);
    (Call::ReadStrict { layout, octets }, lent(r, case.room, 0))
}

/// Marked by 1 as often as by another number.
fn marker(r: &mut Random, marked: bool) -> u8 {
    match marked {
        false => 0,
        true => r.pick(&[1, 1, 1, 2, 128, 254, 255]),
    }
}

pub fn write(r: &mut Random) -> Case {
    let case = random::write_case(r);
    let head = Head {
        source: case.head.source,
        payload_type: case.head.payload_type,
        marker: marker(r, case.head.marker),
        number: case.head.number,
        timestamp: case.head.timestamp,
        f: case.head.f,
    };
    let call = Call::Write {
        layout: told(r, case.layout),
        head,
        cells: case.cells,
    };
    (call, lent(r, 0, case.room))
}

pub fn open(r: &mut Random) -> Case {
    let call = Call::Open {
        source: r.draw() as u32,
        payload_type: r.octet(),
    };
    let lengths = Lengths {
        answer: row_length(r, ANSWER),
        state: row_length(r, STATE),
        ..Lengths::default()
    };
    (call, Memory::new(lengths, r))
}

pub fn arrive(r: &mut Random) -> Case {
    let case = random::arrive_case(r);
    let lengths = Lengths {
        answer: row_length(r, ANSWER),
        state: row_length(r, STATE),
        cells: case.store.len(),
        ..Lengths::default()
    };
    let mut memory = Memory::new(lengths, r);
    let row = state_row(r, &case.state);
    // A row too short for a state has the first of its numbers.
    for (into, number) in memory.state.get_mut().iter_mut().zip(row) {
        *into = number;
    }
    let (layout, octets) = (told(r, case.layout), case.octets);
    (Call::Arrive { layout, octets }, memory)
}

/// Which numbers of a state row have a bound, and the bound's width: the
/// number that a row has beside `2^width` is what a cut would make of it.
pub const BOUNDED: [(usize, u32); 9] = [
    (0, 32),
    (1, 8),
    (2, 8),
    (3, 1),
    (4, 32),
    (5, 32),
    (6, 8),
    (12, 1),
    (13, 32),
];

/// A state's row, at times with numbers that no state has, a timestamp and F
/// beside a phase that does not use them, or a number where none is remembered.
fn state_row(r: &mut Random, state: &State) -> [u64; STATE] {
    let mut row = row_of(state);
    match r.below(20) {
        0 => {
            let (at, width) = r.pick(&BOUNDED);
            row[at] |= 1 << r.pick(&[width, 32, 63]);
        }
        1 => row[2] = r.pick(&[3, 4, 255, 256, u64::MAX]),
        2 => row[r.pick(&[3, 12])] = r.pick(&[2, 3, 256, u64::MAX]),
        3..6 => {
            row[5] = r.draw() >> 32;
            row[6] = r.octet() as u64;
        }
        6..8 => row[13] = r.draw() >> 32,
        _ => {}
    }
    row
}

pub fn sdp_read(r: &mut Random) -> Case {
    let case = random::text_case(r);
    let text = case.text;
    (Call::SdpRead { text }, lent(r, 0, case.room))
}

pub fn sdp_write(r: &mut Random) -> Case {
    let case = random::pairs_case(r);
    let none = r.pick(&[NO_VPID, 257, 0x8000, 0xFF00, u16::MAX]);
    let vpid = case.vpid.map_or(none, u16::from);
    let pairs = case.pairs;
    (Call::SdpWrite { pairs, vpid }, lent(r, 0, case.room))
}

pub fn file_begin(r: &mut Random) -> Case {
    let octets = r.below(10);
    (Call::FileBegin, lent(r, 0, octets))
}

pub fn file_write(r: &mut Random) -> Case {
    let case = random::field_case(r);
    let call = Call::FileWrite {
        timestamp: case.timestamp,
        f: case.f,
        cells: case.cells,
    };
    (call, lent(r, 0, case.room))
}

pub fn file_read(r: &mut Random) -> Case {
    let case = random::file_case(r);
    let call = Call::FileRead {
        file: case.file,
        at: case.offset,
    };
    (call, lent(r, case.room, 0))
}

pub fn line_write(r: &mut Random) -> Case {
    let case = random::line_write_case(r);
    let mut memory = lent(r, case.line.len(), 0);
    memory.cells.get_mut().copy_from_slice(&case.line);
    let (start, cells) = (case.start, case.cells);
    (Call::LineWrite { start, cells }, memory)
}

pub fn line_read(r: &mut Random) -> Case {
    let case = random::line_read_case(r);
    let place = case.place;
    let call = Call::LineRead {
        line: case.line,
        start: case.start,
        place: [place.c, place.line, place.offset, place.s, place.stream],
    };
    (call, lent(r, case.room, 0))
}

/// How many different numbers, and the least: few, so that entries match, and
/// some on both sides of the DIDs of Type 1.
fn numbers(r: &mut Random) -> (usize, usize) {
    r.pick(&[(2, 0), (4, 0), (4, 0x7E), (2, 0x80), (256, 0)])
}

pub fn wanted(r: &mut Random) -> Case {
    let length = r.pick(&[0, 1, 2, 3, 4, 5, 6, 7, 9, 64, 129]);
    let (most, least) = numbers(r);
    let number = |r: &mut Random| (least + r.below(most)) as u8;
    let call = Call::Wanted {
        did: number(r),
        sdid: number(r),
        pairs: (0..length).map(|_| number(r)).collect(),
    };
    (call, Memory::new(Lengths::default(), r))
}

/// A pair and a row of pairs, of few different numbers too.
pub fn wanted_of(r: &mut Random) -> (Pair, Vec<Pair>) {
    let length = r.pick(&[0, 1, 2, 3, 4, 5, 32, 65]);
    let (most, least) = numbers(r);
    let pair = |r: &mut Random| Pair {
        did: (least + r.below(most)) as u8,
        sdid: (least + r.below(most)) as u8,
    };
    (pair(r), (0..length).map(|_| pair(r)).collect())
}
