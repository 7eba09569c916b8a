//! One call of the boundary as data, the memory lent to it, and the
//! comparison of the two sides.

use std::fmt::Debug;

use reference::random::Random;

use crate::{Archive, Head, Model, Pair, Side};

/// A call: all that it is given but memory to be written.
#[derive(Clone, Debug, PartialEq, Eq)]
pub enum Call {
    Read {
        layout: u8,
        octets: Vec<u8>,
    },
    ReadStrict {
        layout: u8,
        octets: Vec<u8>,
    },
    Write {
        layout: u8,
        head: Head,
        cells: Vec<u16>,
    },
    Open {
        source: u32,
        payload_type: u8,
    },
    Arrive {
        layout: u8,
        octets: Vec<u8>,
    },
    SdpRead {
        text: Vec<u8>,
    },
    SdpWrite {
        pairs: Vec<u8>,
        vpid: u16,
    },
    FileBegin,
    FileWrite {
        timestamp: u32,
        f: u8,
        cells: Vec<u16>,
    },
    FileRead {
        file: Vec<u8>,
        at: usize,
    },
    /// The line is the cells lent for writing.
    LineWrite {
        start: usize,
        cells: Vec<u16>,
    },
    LineRead {
        line: Vec<u16>,
        start: usize,
        place: [u16; 5],
    },
    Wanted {
        did: u8,
        sdid: u8,
        pairs: Vec<u8>,
    },
    WantedOf {
        did: u8,
        sdid: u8,
        pairs: Vec<Pair>,
    },
    OutletOpen,
    /// The octets lent for writing are the outlet's memory.
    OutletOffer {
        channel: u8,
        packet: Vec<u8>,
    },
    OutletTake {
        memory: Vec<u8>,
    },
}

/// Numbers, cells or octets on each side of what is lent, which no call may
/// touch.
const GUARD: usize = 4;

/// Memory lent for writing, between its guards.
#[derive(Clone, Debug, PartialEq, Eq)]
pub struct Lent<T>(Vec<T>);

impl<T> Lent<T> {
    /// All of it, guards included, filled at random.
    pub fn new(length: usize, r: &mut Random, of: impl Fn(u64) -> T) -> Lent<T> {
        Lent((0..length + 2 * GUARD).map(|_| of(r.draw())).collect())
    }

    pub fn get(&self) -> &[T] {
        &self.0[GUARD..self.0.len() - GUARD]
    }

    pub fn get_mut(&mut self) -> &mut [T] {
        let end = self.0.len() - GUARD;
        &mut self.0[GUARD..end]
    }
}

/// What a call is lent for writing; what it does not take has length 0.
#[derive(Clone, Debug, PartialEq, Eq)]
pub struct Memory {
    pub answer: Lent<u64>,
    pub state: Lent<u64>,
    pub cells: Lent<u16>,
    pub octets: Lent<u8>,
}

/// Lengths of the memory lent.
#[derive(Clone, Copy, Debug, Default)]
pub struct Lengths {
    pub answer: usize,
    pub state: usize,
    pub cells: usize,
    pub octets: usize,
}

impl Memory {
    pub fn new(lengths: Lengths, r: &mut Random) -> Memory {
        Memory {
            answer: Lent::new(lengths.answer, r, |draw| draw),
            state: Lent::new(lengths.state, r, |draw| draw),
            cells: Lent::new(lengths.cells, r, |draw| draw as u16),
            octets: Lent::new(lengths.octets, r, |draw| draw as u8),
        }
    }
}

impl Call {
    pub fn run<S: Side>(&self, memory: &mut Memory) -> u8 {
        let answer = memory.answer.get_mut();
        let state = memory.state.get_mut();
        let room = memory.cells.get_mut();
        let out = memory.octets.get_mut();
        match self {
            Call::Read { layout, octets } => S::read(*layout, octets, room, answer),
            Call::ReadStrict { layout, octets } => S::read_strict(*layout, octets, room, answer),
            Call::Write {
                layout,
                head,
                cells,
            } => S::write(*layout, head, cells, out, answer),
            Call::Open {
                source,
                payload_type,
            } => S::open(*source, *payload_type, state, answer),
            Call::Arrive { layout, octets } => S::arrive(*layout, state, octets, room, answer),
            Call::SdpRead { text } => S::sdp_read(text, out, answer),
            Call::SdpWrite { pairs, vpid } => S::sdp_write(pairs, *vpid, out, answer),
            Call::FileBegin => S::file_begin(out, answer),
            Call::FileWrite {
                timestamp,
                f,
                cells,
            } => S::file_write(*timestamp, *f, cells, out, answer),
            Call::FileRead { file, at } => S::file_read(file, *at, room, answer),
            Call::LineWrite { start, cells } => S::line_write(room, *start, cells, answer),
            Call::LineRead { line, start, place } => {
                S::line_read(line, *start, place, room, answer)
            }
            Call::Wanted { did, sdid, pairs } => S::wanted(*did, *sdid, pairs),
            Call::WantedOf { did, sdid, pairs } => S::wanted_of(*did, *sdid, pairs),
            Call::OutletOpen => S::outlet_open(state),
            Call::OutletOffer { channel, packet } => {
                S::outlet_offer(state, *channel, packet, out, answer)
            }
            Call::OutletTake { memory } => S::outlet_take(state, memory, out, answer),
        }
    }
}

/// Makes the call on both sides over equal memory and returns the number and
/// the memory after it. Panics where the number, any lent memory or a guard
/// differs, or where the archive changed memory lent for reading.
pub fn compare(call: &Call, memory: &Memory) -> (u8, Memory) {
    let given = call.clone();
    let (mut ours, mut theirs) = (memory.clone(), memory.clone());
    let number = given.run::<Archive>(&mut ours);
    let expected = call.run::<Model>(&mut theirs);
    if number != expected || ours != theirs || given != *call {
        let differences = [
            difference("answer", &ours.answer, &theirs.answer),
            difference("state", &ours.state, &theirs.state),
            difference("cells", &ours.cells, &theirs.cells),
            difference("octets", &ours.octets, &theirs.octets),
        ];
        panic!(
            "archive {number}, reference {expected}; {}input changed: {}\nstate {:?}\n{:.4000}",
            differences.concat(),
            given != *call,
            memory.state.get(),
            format!("{call:?}"),
        );
    }
    (number, ours)
}

/// Whether a record is wanted, asked over pairs and over the same pairs as
/// octets. Panics where the two differ.
pub fn compare_wanted(asked: Pair, row: &[Pair], memory: &Memory) -> u8 {
    let Pair { did, sdid } = asked;
    let pairs = row.to_vec();
    let (of_pairs, _) = compare(&Call::WantedOf { did, sdid, pairs }, memory);
    let pairs = row.iter().flat_map(|pair| [pair.did, pair.sdid]).collect();
    let (of_octets, _) = compare(&Call::Wanted { did, sdid, pairs }, memory);
    assert_eq!(of_pairs, of_octets, "{asked:?} of {row:?}");
    of_pairs
}

/// The first place where lent memory differs; guards have places under 0
/// and past the length.
fn difference<T: PartialEq + Debug>(name: &str, ours: &Lent<T>, theirs: &Lent<T>) -> String {
    let mut pairs = ours.0.iter().zip(&theirs.0).enumerate();
    let Some((at, (ours, theirs))) = pairs.find(|(_, (a, b))| a != b) else {
        return String::new();
    };
    let place = at as isize - GUARD as isize;
    format!("{name} at {place}: archive {ours:?}, reference {theirs:?}; ")
}
