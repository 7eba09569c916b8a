//! `soak MINUTES [SEED]`: every call of both archives against the reference,
//! for as long as asked. Stops with a panic at the first difference; its
//! message has the call and the memory lent.
//!
//! Half of the calls are drawn as the tests draw them. The other half is
//! guided: a call that behaves as none before it is kept, and later calls are
//! kept ones with a few octets, cells or numbers changed, cut or repeated, or
//! lent other room. So what is rare is gone into further. How a call behaves
//! is told by the edges of the reference's code, where the build counts them,
//! and otherwise by its kind, its number, its index, and the sizes of what it
//! took, gave and was lent.

use std::collections::HashSet;
use std::io::{stderr, IsTerminal, Write};
use std::time::{Duration, Instant};

use differential::call::{compare, compare_wanted, Call, Lengths, Memory};
use differential::edges::Edges;
use differential::inputs::{self, Case};
use differential::{OUTLET_MEMORY, OUTLET_PACKET, OUTLET_STATE};
use reference::random::{outlet_calls, OutletCall, Random};

/// Calls that are kept at most; then one of them makes room.
const KEPT: usize = 20_000;
/// Between two lines of progress.
const PROGRESS: Duration = Duration::from_secs(1);

const DRAWN: [fn(&mut Random) -> Case; 13] = [
    inputs::read,
    inputs::read_strict,
    inputs::write,
    inputs::open,
    inputs::arrive,
    inputs::sdp_read,
    inputs::sdp_write,
    inputs::file_begin,
    inputs::file_write,
    inputs::file_read,
    inputs::line_write,
    inputs::line_read,
    inputs::wanted,
];

/// How a call behaved, so coarsely that few are alike and not all are new.
type Behaviour = (u8, u8, u64, u32, u32, u32);

fn bits(n: usize) -> u32 {
    usize::BITS - n.leading_zeros()
}

fn kind(call: &Call) -> (u8, usize) {
    match call {
        Call::Read { octets, .. } => (0, octets.len()),
        Call::ReadStrict { octets, .. } => (1, octets.len()),
        Call::Write { cells, .. } => (2, cells.len()),
        Call::Open { .. } => (3, 0),
        Call::Arrive { octets, .. } => (4, octets.len()),
        Call::SdpRead { text } => (5, text.len()),
        Call::SdpWrite { pairs, .. } => (6, pairs.len()),
        Call::FileBegin => (7, 0),
        Call::FileWrite { cells, .. } => (8, cells.len()),
        Call::FileRead { file, .. } => (9, file.len()),
        Call::LineWrite { cells, .. } => (10, cells.len()),
        Call::LineRead { line, .. } => (11, line.len()),
        Call::Wanted { pairs, .. } => (12, pairs.len()),
        Call::WantedOf { pairs, .. } => (13, pairs.len()),
        Call::OutletOpen => (14, 0),
        Call::OutletOffer { packet, .. } => (15, packet.len()),
        Call::OutletTake { memory } => (16, memory.len()),
    }
}

fn behaviour(call: &Call, number: u8, before: &Memory, after: &Memory) -> Behaviour {
    let (kind, size) = kind(call);
    let answer = after.answer.get();
    let index = answer.first().map_or(0, |&n| n.min(31));
    let rest: usize = answer
        .iter()
        .skip(1)
        .map(|&n| (n.min(1 << 20)) as usize)
        .sum();
    let room = before.cells.get().len() + before.octets.get().len();
    (kind, number, index, bits(size), bits(rest), bits(room))
}

/// A few places changed, cut or repeated.
fn shake<T: Copy>(r: &mut Random, from: &mut Vec<T>, near: fn(&mut Random, T) -> T) {
    for _ in 0..1 + r.below(4) {
        if from.is_empty() {
            return;
        }
        let at = r.below(from.len());
        match r.below(8) {
            0 => from.truncate(at),
            1 => drop(from.remove(at)),
            2 => from.insert(at, from[at]),
            3 => {
                let end = at + r.below((from.len() - at).min(40) + 1);
                let again = from[at..end].to_vec();
                from.extend(again);
            }
            _ => from[at] = near(r, from[at]),
        }
    }
}

fn octet(r: &mut Random, n: u8) -> u8 {
    match r.below(4) {
        0 => n ^ (1 << r.below(8)),
        1 => n.wrapping_add(1),
        2 => n.wrapping_sub(1),
        _ => r.octet(),
    }
}

fn cell(r: &mut Random, n: u16) -> u16 {
    match r.below(4) {
        0 => n ^ (1 << r.below(16)),
        1 => n.wrapping_add(1),
        2 => n.wrapping_sub(1),
        _ => r.pick(&[
            0, 1, 2, 3, 4, 127, 128, 255, 256, 1019, 1020, 1023, 1024, 2047, 2048, 4095, 4096,
        ]),
    }
}

/// The numbers of a state's row, at times.
fn shake_state(r: &mut Random, memory: &mut Memory) {
    let state = memory.state.get_mut();
    if !state.is_empty() && r.one_in(3) {
        let at = r.below(state.len());
        state[at] = match r.below(4) {
            0 => state[at] ^ (1 << r.below(64)),
            1 => state[at].wrapping_add(1),
            2 => state[at].wrapping_sub(1),
            _ => r.pick(&[
                0,
                1,
                2,
                3,
                4095,
                4096,
                4097,
                36_864,
                36_865,
                u32::MAX as u64,
                u64::MAX,
            ]),
        };
    }
}

fn place(r: &mut Random, n: usize) -> usize {
    match r.below(4) {
        0 => n + 1,
        1 => n.saturating_sub(1),
        _ => r.below(n + 2),
    }
}

/// One number beside the rest, at times.
fn at_times<T: Copy>(r: &mut Random, n: &mut T, near: fn(&mut Random, T) -> T) {
    if r.one_in(8) {
        *n = near(r, *n);
    }
}

/// Memory of nearly the same lengths, with what stood there.
fn lent_otherwise(r: &mut Random, memory: &Memory) -> Memory {
    let mut lengths = Lengths {
        answer: memory.answer.get().len(),
        state: memory.state.get().len(),
        cells: memory.cells.get().len(),
        octets: memory.octets.get().len(),
    };
    for n in [
        &mut lengths.answer,
        &mut lengths.state,
        &mut lengths.cells,
        &mut lengths.octets,
    ] {
        at_times(r, n, place);
    }
    let mut next = Memory::new(lengths, r);
    let numbers = memory.state.get();
    (next.state.get_mut().iter_mut().zip(numbers)).for_each(|(to, from)| *to = *from);
    let cells = memory.cells.get();
    (next.cells.get_mut().iter_mut().zip(cells)).for_each(|(to, from)| *to = *from);
    next
}

/// A kept call with some of it changed, over memory of nearly its own size.
fn shaken(r: &mut Random, (call, memory): &Case) -> Case {
    let (mut call, mut memory) = (call.clone(), lent_otherwise(r, memory));
    match &mut call {
        Call::Read { layout, octets } | Call::ReadStrict { layout, octets } => {
            at_times(r, layout, octet);
            shake(r, octets, octet);
        }
        Call::Arrive { layout, octets } => {
            at_times(r, layout, octet);
            shake_state(r, &mut memory);
            if r.one_in(2) {
                shake(r, octets, octet);
            }
        }
        Call::Write {
            layout,
            head,
            cells,
        } => {
            for n in [
                layout,
                &mut head.payload_type,
                &mut head.marker,
                &mut head.f,
            ] {
                at_times(r, n, octet);
            }
            shake(r, cells, cell);
        }
        Call::Open { payload_type, .. } => at_times(r, payload_type, octet),
        Call::FileWrite { f, cells, .. } => {
            at_times(r, f, octet);
            shake(r, cells, cell);
        }
        Call::LineWrite { start, cells } => {
            at_times(r, start, place);
            shake(r, cells, cell);
        }
        Call::SdpRead { text } => shake(r, text, octet),
        Call::SdpWrite { pairs, vpid } => {
            at_times(r, vpid, cell);
            shake(r, pairs, octet);
        }
        Call::Wanted { did, sdid, pairs } => {
            at_times(r, did, octet);
            at_times(r, sdid, octet);
            shake(r, pairs, octet);
        }
        Call::FileRead { file, at } => {
            at_times(r, at, place);
            shake(r, file, octet);
        }
        Call::LineRead {
            line,
            start,
            place: told,
        } => {
            at_times(r, start, place);
            told.iter_mut().for_each(|n| at_times(r, n, cell));
            shake(r, line, cell);
        }
        _ => {}
    }
    (call, memory)
}

/// A run of an outlet, state and memory handed on, the state damaged at times.
fn outlet_run(r: &mut Random) -> usize {
    let opening = Lengths {
        state: OUTLET_STATE,
        ..Lengths::default()
    };
    let (_, opened) = compare(&Call::OutletOpen, &Memory::new(opening, r));
    let mut state = opened.state.get().to_vec();
    let mut memory = r.octets(OUTLET_MEMORY);
    let calls = outlet_calls(r, 200);
    for call in &calls {
        if r.one_in(100) {
            let at = r.below(state.len());
            state[at] = r.pick(&[0, 1, 7, 8, 63, 64, 255, 256, 1024, 1025, u64::MAX]);
        }
        let (call, octets) = match call {
            OutletCall::Offer { channel, octets } => (
                Call::OutletOffer {
                    channel: *channel,
                    packet: octets.clone(),
                },
                memory.len(),
            ),
            OutletCall::Take { room } => (
                Call::OutletTake {
                    memory: memory.clone(),
                },
                (*room).min(OUTLET_PACKET),
            ),
        };
        let lengths = Lengths {
            answer: inputs::row_length(r, differential::ANSWER),
            state: state.len(),
            octets,
            ..Lengths::default()
        };
        let mut lent = Memory::new(lengths, r);
        lent.state.get_mut().copy_from_slice(&state);
        if let Call::OutletOffer { .. } = call {
            lent.octets.get_mut().copy_from_slice(&memory);
        }
        let (_, after) = compare(&call, &lent);
        state = after.state.get().to_vec();
        if let Call::OutletOffer { .. } = call {
            memory = after.octets.get().to_vec();
        }
    }
    calls.len() + 1
}

/// What was met, and the calls that met it first.
struct Guide {
    edges: Option<Edges>,
    behaviours: HashSet<Behaviour>,
    kept: Vec<Case>,
}

impl Guide {
    fn next(&self, r: &mut Random) -> Case {
        if self.kept.is_empty() || r.one_in(2) {
            return DRAWN[r.below(DRAWN.len())](r);
        }
        let at = r.below(self.kept.len());
        shaken(r, &self.kept[at])
    }

    /// Makes the call on both sides, and keeps it where it is new.
    fn call(&mut self, r: &mut Random) {
        let case = self.next(r);
        self.edges.iter_mut().for_each(Edges::clear);
        let (number, after) = compare(&case.0, &case.1);
        let new = match &mut self.edges {
            Some(edges) => edges.is_new(),
            None => (self.behaviours).insert(behaviour(&case.0, number, &case.1, &after)),
        };
        if new && self.kept.len() < KEPT {
            self.kept.push(case);
        } else if new {
            self.kept[r.below(KEPT)] = case;
        }
    }

    fn tell(&self, calls: usize) -> String {
        let (met, what) = match &self.edges {
            Some(edges) => (edges.met(), "edges by how often"),
            None => (self.behaviours.len(), "ways to behave"),
        };
        format!("{calls} calls alike, {met} {what}")
    }
}

/// Calls of every kind.
fn round(r: &mut Random, guide: &mut Guide) -> usize {
    for _ in 0..200 {
        guide.call(r);
    }
    let (asked, row) = inputs::wanted_of(r);
    compare_wanted(asked, &row, &Memory::new(Lengths::default(), r));
    let outlet = if r.one_in(20) { outlet_run(r) } else { 0 };
    202 + outlet
}

fn main() {
    let mut arguments = std::env::args().skip(1).map(|a| a.parse::<u64>());
    let Some(Ok(minutes)) = arguments.next() else {
        eprintln!("usage: soak MINUTES [SEED]");
        std::process::exit(2);
    };
    let seed = arguments.next().map_or(1, |s| s.unwrap_or(1));
    let mut r = Random::new(seed);
    let mut guide = Guide {
        edges: Edges::counted(),
        behaviours: HashSet::new(),
        kept: Vec::new(),
    };
    let (start, end) = (Instant::now(), Duration::from_secs(60 * minutes));
    let (mut told, mut calls) = (start, 0);
    while start.elapsed() < end {
        calls += round(&mut r, &mut guide);
        if told.elapsed() >= PROGRESS && stderr().is_terminal() {
            told = Instant::now();
            let seconds = start.elapsed().as_secs();
            eprint!("\r{seconds} s: {}", guide.tell(calls));
            let _ = stderr().flush();
        }
    }
    println!("{minutes} minutes, seed {seed}: {}", guide.tell(calls));
}
