//! States, streams and what arrives of them.

use super::*;
use crate::anc::Limits;
use crate::depacketizer::{State, FILLING, LOST, READY};
use crate::packet::{check, Head};

/// An input of one arrival, the state as a caller might make it up.
#[derive(Clone, Debug)]
pub struct ArriveCase {
    pub state: State,
    pub layout: Layout,
    pub octets: Vec<u8>,
    pub store: Vec<u16>,
}

pub fn arrive_case(r: &mut Random) -> ArriveCase {
    let state = state(r);
    let layout = r.layout();
    let octets = match r.below(8) {
        0 => damaged_packet(r, layout),
        _ => arrival_at(r, layout, &state),
    };
    let most = Limits::FIELD.cells;
    let cells = match r.below(8) {
        0 => r.below(300),
        1 => state.cells,
        2 => state.cells.saturating_sub(1 + r.below(5)),
        3 => state.cells.saturating_add(r.below(64)),
        4 => most + r.below(2000),
        _ => state.cells.saturating_add(3000),
    };
    let store = vec![0xA5A5; cells.min(most + 2000)];
    ArriveCase {
        state,
        layout,
        octets,
        store,
    }
}

pub(super) fn count64(r: &mut Random) -> u64 {
    match r.below(4) {
        0 => u64::MAX - r.below(3) as u64,
        _ => r.below(1000) as u64,
    }
}

/// A depacketizer's state, sound more often than not.
pub fn state(r: &mut Random) -> State {
    let phase = r.pick(&[LOST, READY, READY, FILLING, FILLING, FILLING]);
    let mut state = State {
        source: r.below(3) as u32,
        payload_type: r.pick(&[96, 96, 112]),
        phase,
        heard: phase != LOST || r.one_in(2),
        last: packet_number(r),
        timestamp: 0,
        f: 0,
        records: 0,
        cells: 0,
        packets: 0,
        fresh: count64(r),
        late: count64(r),
        missing: count64(r),
        remembered: None,
    };
    if r.one_in(2) {
        let far = state.last.wrapping_add(far(r));
        state.remembered = Some(far.wrapping_add(1));
    }
    if phase == FILLING {
        state.timestamp = r.below(3) as u32;
        state.f = r.pick(&[0, 2, 3]);
        state.records = r.pick(&[0, 1, 2, 255, 256, 4_090, 4_094, 4_095]);
        state.cells = r.pick(&[0, 9, 20, 300, 32_768, 36_800, 36_855, 36_864]);
        state.packets = r.pick(&[1, 1, 1, 2, 300, 4_094, 4_095, 4_096]);
    }
    if r.one_in(10) {
        spoil_state(r, &mut state);
    }
    state
}

pub(super) fn spoil_state(r: &mut Random, state: &mut State) {
    match r.below(7) {
        0 => state.records = r.pick(&[4_096, 1, usize::MAX]),
        1 => state.cells = r.pick(&[36_865, 9, usize::MAX]),
        6 => state.packets = r.pick(&[0, 1, 4_097, 65_536, usize::MAX]),
        2 => state.heard = false,
        3 => state.phase = LOST,
        4 => state.phase = READY,
        _ => state.payload_type = 200,
    }
}

/// How many packets away a far one is: near the borders, or anywhere.
pub fn far(r: &mut Random) -> u32 {
    let near = r.below(4) as u32;
    match r.below(4) {
        0 => 3_000 + near,
        1 => 0_u32.wrapping_sub(100 + near),
        2 => 0x7FFF_FFFE + near,
        _ => 3_000 + r.number32() % 0xFFFF_F000,
    }
}

/// A packet that comes near what the state waits for, or has the number that
/// it remembers.
pub(super) fn arrival_at(r: &mut Random, layout: Layout, state: &State) -> Vec<u8> {
    let away = match r.below(16) {
        0 => r.pick(&[0, u32::MAX, 2_998, 2_999, 2_u32.wrapping_sub(100)]),
        1 => 0_u32.wrapping_sub(97 + r.below(5) as u32),
        2 => far(r),
        3 => r.below(5) as u32,
        4..7 => match state.remembered {
            Some(number) => number.wrapping_sub(state.last),
            None => 1,
        },
        _ => 1,
    };
    let head = Head {
        source: if r.one_in(12) { 3 } else { state.source },
        payload_type: if r.one_in(12) { 97 } else { state.payload_type },
        marker: r.one_in(2),
        number: state.last.wrapping_add(away),
        timestamp: if r.one_in(8) { 7 } else { state.timestamp },
        f: if r.one_in(8) { 2 } else { state.f },
    };
    let mut parts = parts(r, layout);
    parts.head = head;
    parts.assemble()
}

/// A sent packet of a stream.
#[derive(Clone, Debug)]
pub struct Sent {
    pub head: Head,
    pub cells: Vec<u16>,
    pub records: usize,
    pub octets: Vec<u8>,
    /// The field it belongs to, from 0.
    pub field: usize,
}

/// Well-formed fields of one source and type, numbered in sequence, all in
/// one layout.
#[derive(Clone, Debug)]
pub struct Stream {
    pub layout: Layout,
    pub source: u32,
    pub payload_type: u8,
    pub sent: Vec<Sent>,
}

/// A stream of that many fields, each of one to `most` packets; it often
/// starts near the wrap of the number.
pub fn stream(r: &mut Random, layout: Layout, fields: usize, most: usize) -> Stream {
    let (source, payload_type) = (r.number32(), r.below(128) as u8);
    let empty = Stream {
        layout,
        source,
        payload_type,
        sent: Vec::new(),
    };
    let start = packet_number(r);
    stream_from(r, empty, start, fields, most)
}

/// The same of a source and type, from a number on.
pub fn stream_from(
    r: &mut Random,
    mut stream: Stream,
    start: u32,
    fields: usize,
    most: usize,
) -> Stream {
    let layout = stream.layout;
    let mut timestamp = r.number32();
    for field in 0..fields {
        let packets = 1 + r.below(most);
        // Two fields may share a timestamp.
        timestamp = timestamp.wrapping_add(r.pick(&[0, 1501, 1501, 3003]));
        let f = match layout {
            Layout::Rfc8331 => r.pick(&[0, 2, 3]),
            Layout::Draft2015 => 0,
        };
        for index in 0..packets {
            let head = Head {
                source: stream.source,
                payload_type: stream.payload_type,
                marker: index + 1 == packets,
                number: start.wrapping_add(stream.sent.len() as u32),
                timestamp,
                f,
            };
            stream.sent.push(sent(r, layout, head, field));
        }
    }
    stream
}

pub(super) fn sent(r: &mut Random, layout: Layout, head: Head, field: usize) -> Sent {
    let records = r.below(4);
    let cells = carried(layout, list(r, records));
    let mut parts = Parts::of(layout, head, &cells);
    if r.one_in(4) {
        dress(r, &mut parts);
    }
    Sent {
        head,
        cells,
        records,
        octets: parts.assemble(),
        field,
    }
}

/// An arrival at the depacketizer: a sent packet by its place in the stream,
/// told the stream's layout, or octets that are refused by 1 to 13, 15, 30 or
/// 31 in the layout that is told with them.
#[derive(Clone, Debug)]
pub enum Arrival {
    Sent(usize),
    Other(Layout, Vec<u8>),
}

impl Stream {
    pub fn octets<'a>(&'a self, arrival: &'a Arrival) -> &'a [u8] {
        match arrival {
            Arrival::Sent(index) => &self.sent[*index].octets,
            Arrival::Other(_, octets) => octets,
        }
    }

    /// The layout told with an arrival.
    pub fn told(&self, arrival: &Arrival) -> Layout {
        match arrival {
            Arrival::Sent(_) => self.layout,
            Arrival::Other(layout, _) => *layout,
        }
    }
}

/// What arrives of a stream: with loss, repeats and packets out of order,
/// and foreign and damaged octets among it.
pub fn arrivals(r: &mut Random, stream: &Stream) -> Vec<Arrival> {
    let trouble = r.pick(&[4, 10, 30, 1000]);
    let mut order: Vec<usize> = Vec::new();
    for index in 0..stream.sent.len() {
        if !r.one_in(trouble) {
            order.push(index);
        }
        if r.one_in(trouble) {
            order.push(r.below(index + 1));
        }
    }
    for place in 1..order.len() {
        if r.one_in(trouble) {
            order.swap(place, place - 1 - r.below(place.min(4)));
        }
    }
    let mut arrivals = Vec::new();
    for index in order {
        if r.one_in(trouble) {
            arrivals.extend(foreign(r, stream, index));
        }
        arrivals.push(Arrival::Sent(index));
    }
    arrivals
}

/// What arrives from an encoder that restarts: streams of one source and type,
/// each with what arrives of it. A new one starts at a low number, or far from
/// the last number of the one before, or not quite.
pub fn cycles(r: &mut Random, layout: Layout) -> Vec<(Stream, Vec<Arrival>)> {
    let fields = 1 + r.below(6);
    let first = stream(r, layout, fields, 3);
    let mut cycles = vec![first];
    for _ in 0..r.below(4) {
        let before = &cycles[cycles.len() - 1];
        let last = before.sent[before.sent.len() - 1].head.number;
        let empty = Stream {
            sent: Vec::new(),
            ..before.clone()
        };
        let start = match r.below(6) {
            0 => r.below(3) as u32,
            1 => last.wrapping_add(2_990 + r.below(20) as u32),
            2 => last.wrapping_sub(90 + r.below(20) as u32),
            _ => last.wrapping_add(far(r)),
        };
        let fields = 1 + r.below(6);
        cycles.push(stream_from(r, empty, start, fields, 3));
    }
    let mut arriving = |stream: Stream| {
        let arrivals = arrivals(r, &stream);
        (stream, arrivals)
    };
    cycles.into_iter().map(&mut arriving).collect()
}

/// Octets of another source or type, damaged ones that are refused, or a sent
/// packet's told the other layout.
pub(super) fn foreign(r: &mut Random, stream: &Stream, near: usize) -> Option<Arrival> {
    let mut octets = stream.sent[near].octets.clone();
    let told = if r.one_in(4) {
        r.layout()
    } else {
        stream.layout
    };
    match r.below(5) {
        0 => octets[8 + r.below(4)] ^= 1 << r.below(8),
        1 => octets[1] ^= 1 << r.below(7),
        2 => damage_octets(r, &mut octets),
        3 if told != stream.layout => {}
        _ => octets = damaged_packet(r, told),
    }
    let ours = check(told, &octets).is_ok_and(|accepted| {
        accepted.summary.source == stream.source
            && accepted.summary.payload_type == stream.payload_type
    });
    (!ours).then_some(Arrival::Other(told, octets))
}

/// Packets of one source that need not be in well-formed fields: timestamps
/// and F change before a mark, fields pass the limits, numbers jump.
pub fn wild_packets(r: &mut Random, layout: Layout, count: usize) -> Vec<Vec<u8>> {
    let mut head = head(r);
    let mut packets = Vec::new();
    let heavy = r.one_in(6);
    for _ in 0..count {
        let step = match r.below(24) {
            0 => r.pick(&[2_998, 2_999, 0_u32.wrapping_sub(98), 0_u32.wrapping_sub(99)]),
            1 => far(r),
            2..4 => 2,
            4..6 => 0,
            6 => u32::MAX,
            7 => 300,
            _ => 1,
        };
        head.number = head.number.wrapping_add(step);
        head.marker = r.one_in(3);
        if packets.is_empty() || r.one_in(6) {
            head.timestamp = head.timestamp.wrapping_add(r.below(2) as u32);
            head.f = r.pick(&[0, 2, 3]);
        }
        packets.push(wild_packet(r, layout, head, heavy));
    }
    packets
}

pub(super) fn wild_packet(r: &mut Random, layout: Layout, mut head: Head, heavy: bool) -> Vec<u8> {
    match r.below(24) {
        0 => head.source ^= 1,
        1 => head.payload_type ^= 1,
        2..5 => return damaged_packet(r, layout),
        _ => {}
    }
    let mut parts = parts(r, layout);
    if heavy {
        let (records, n) = r.pick(&[(255, 0), (120, 100), (40, 255), (255, 5)]);
        parts.anc = (0..records).map(|_| Anc::of(&record(r, n))).collect();
    }
    parts.head = head;
    parts.assemble()
}
