//! The depacketizer gathers packets into whole fields.

use crate::anc::{Limits, MAX_INDEX};
use crate::layout::Layout;
use crate::packet::{check, Accepted, Summary};
use crate::refusal::Refusal;

pub const LOST: u8 = 0;
pub const READY: u8 = 1;
pub const FILLING: u8 = 2;

/// Most packets of a field: the largest index is one less (02, K13).
pub const MAX_PACKETS: usize = MAX_INDEX as usize + 1;

/// The depacketizer's state. Where it is not filling, an arrival that is fresh
/// leaves timestamp, F, records, cells and packets 0.
#[derive(Clone, Copy, Debug, PartialEq, Eq)]
pub struct State {
    pub source: u32,
    pub payload_type: u8,
    /// 0 lost, 1 ready, 2 filling.
    pub phase: u8,
    /// Whether there was a first fresh arrival.
    pub heard: bool,
    /// The last fresh number, if heard.
    pub last: u32,
    pub timestamp: u32,
    pub f: u8,
    pub records: usize,
    pub cells: usize,
    /// Packets gathered, those without records too.
    pub packets: usize,
    pub fresh: u64,
    pub late: u64,
    pub missing: u64,
    /// The number after that of a far arrival, unless one was fresh since.
    pub remembered: Option<u32>,
}

#[derive(Clone, Copy, Debug, PartialEq, Eq)]
pub enum Answer {
    Skipped,
    Held,
    Mixed,
    Overfull,
    Whole {
        timestamp: u32,
        f: u8,
        records: usize,
        cells: usize,
        /// Packets of the field, those without records too.
        packets: usize,
    },
    Refused(Refusal),
}

/// Where an arrival stands against the last fresh one (02, K11).
#[derive(Clone, Copy, Debug, PartialEq, Eq)]
pub enum Distance {
    First,
    Next,
    /// Distance 2 to 2,999: that many packets are missing between.
    Ahead(u32),
    Late,
    Far,
}

/// The furthest that is fresh: MAX_DROPOUT of RFC 3550 A.1, less one.
pub const FURTHEST_AHEAD: i32 = 2_999;
/// The furthest that is late: MAX_MISORDER of RFC 3550 A.1, less one.
pub const FURTHEST_BEHIND: i32 = -99;

/// A depacketizer just opened is lost, has no last fresh number, counts 0.
/// 24 if the payload type is over 127.
pub fn open(source: u32, payload_type: u8) -> Result<State, Refusal> {
    if payload_type > 127 {
        return Err(Refusal::plain(24));
    }
    Ok(State::opened(source, payload_type))
}

/// The number less the last fresh one modulo 2^32, read as a signed 32-bit
/// number: next is 1, ahead 2 to 2,999, late 0 to -99, far anything else.
#[inline]
pub fn distance(last: u32, number: u32) -> Distance {
    match number.wrapping_sub(last) as i32 {
        1 => Distance::Next,
        away @ 2..=FURTHEST_AHEAD => Distance::Ahead(away as u32 - 1),
        FURTHEST_BEHIND..=0 => Distance::Late,
        _ => Distance::Far,
    }
}

/// One arrival, in the layout that the caller tells: 35, then 1 to 13, 15
/// and 16, then 30, 31, then 32 or 36; a fresh one is counted and gathered. The
/// store is written by held and whole only.
#[inline]
pub fn arrive(state: State, layout: Layout, octets: &[u8], store: &mut [u16]) -> (State, Answer) {
    if !state.is_sound(store.len()) {
        return (state, refused(35));
    }
    let packet = match check(layout, octets) {
        Ok(packet) => packet,
        Err(refusal) => return (state, Answer::Refused(refusal)),
    };
    if packet.summary.source != state.source {
        return (state, refused(30));
    }
    if packet.summary.payload_type != state.payload_type {
        return (state, refused(31));
    }
    let number = packet.summary.number;
    match state.distance(number) {
        Distance::Late => (state.count_late(), refused(32)),
        Distance::Far if state.remembered != Some(number) => (state.remember(number), refused(36)),
        Distance::Far => state.restarted().take(Distance::First, &packet, store),
        near => state.take(near, &packet, store),
    }
}

fn refused(number: u8) -> Answer {
    Answer::Refused(Refusal::plain(number))
}

impl State {
    const fn opened(source: u32, payload_type: u8) -> State {
        State {
            source,
            payload_type,
            phase: LOST,
            heard: false,
            last: 0,
            timestamp: 0,
            f: 0,
            records: 0,
            cells: 0,
            packets: 0,
            fresh: 0,
            late: 0,
            missing: 0,
            remembered: None,
        }
    }

    /// Counts return to zero, and what comes is treated as a first arrival.
    fn restarted(self) -> State {
        State::opened(self.source, self.payload_type)
    }

    /// None of what 35 names.
    #[inline(always)]
    fn is_sound(&self, store: usize) -> bool {
        self.phase <= FILLING
            && Limits::FIELD.hold(self.records, self.cells)
            && self.cells <= store
            && (self.phase == FILLING || (self.records == 0 && self.cells == 0))
            && self.packets <= MAX_PACKETS
            && (self.phase == FILLING) == (self.packets > 0)
            && (self.phase == LOST || self.heard)
    }

    #[inline(always)]
    fn distance(&self, number: u32) -> Distance {
        match self.heard {
            false => Distance::First,
            true => distance(self.last, number),
        }
    }

    fn count_late(self) -> State {
        State {
            late: self.late.saturating_add(1),
            ..self
        }
    }

    /// The number after a far arrival's.
    fn remember(self, number: u32) -> State {
        State {
            remembered: Some(number.wrapping_add(1)),
            ..self
        }
    }

    /// A fresh arrival: what it was answered, and the state after it. It
    /// clears the memory.
    #[inline(always)]
    fn take(self, near: Distance, packet: &Accepted, store: &mut [u16]) -> (State, Answer) {
        let summary = &packet.summary;
        let missing = match near {
            Distance::Ahead(missing) => missing as u64,
            _ => 0,
        };
        let counted = State {
            heard: true,
            last: summary.number,
            fresh: self.fresh.saturating_add(1),
            missing: self.missing.saturating_add(missing),
            remembered: None,
            ..self
        };
        if near != Distance::Next || self.phase == LOST {
            return (counted.drop_field(summary.marker), Answer::Skipped);
        }
        if self.phase == FILLING && !self.joins(summary) {
            return (counted.drop_field(summary.marker), Answer::Mixed);
        }
        counted.gather(packet, store)
    }

    fn joins(&self, summary: &Summary) -> bool {
        self.timestamp == summary.timestamp && self.f == summary.f
    }

    /// Starts a field or joins one: overfull, whole or held. Not filling,
    /// there are no records, cells and packets to add to.
    #[inline(always)]
    fn gather(self, packet: &Accepted, store: &mut [u16]) -> (State, Answer) {
        let summary = &packet.summary;
        let records = self.records + summary.records as usize;
        let cells = self.cells + summary.cells;
        let packets = self.packets + 1;
        let fits =
            Limits::FIELD.hold(records, cells) && packets <= MAX_PACKETS && cells <= store.len();
        let index = self.packets as u16;
        if !fits || packet.run.read(index, &mut store[self.cells..]).is_err() {
            return (self.drop_field(summary.marker), Answer::Overfull);
        }
        let (timestamp, f) = (summary.timestamp, summary.f);
        if summary.marker {
            let whole = Answer::Whole {
                timestamp,
                f,
                records,
                cells,
                packets,
            };
            return (self.drop_field(true), whole);
        }
        let filling = State {
            phase: FILLING,
            timestamp,
            f,
            records,
            cells,
            packets,
            ..self
        };
        (filling, Answer::Held)
    }

    /// After any marked fresh arrival ready; after an unmarked one that is
    /// not held lost; nothing gathered.
    fn drop_field(self, marker: bool) -> State {
        State {
            phase: if marker { READY } else { LOST },
            timestamp: 0,
            f: 0,
            records: 0,
            cells: 0,
            packets: 0,
            ..self
        }
    }
}

#[cfg(test)]
mod tests {
    use super::*;

    #[test]
    fn marked_distances() {
        assert_eq!(distance(0xFFFF_FFFF, 0), Distance::Next);
        assert_eq!(distance(0, 0xBB7), Distance::Ahead(0xBB6));
        assert_eq!(distance(0, 0xBB8), Distance::Far);
        assert_eq!(distance(0, 0xFFFF_FF9D), Distance::Late);
        assert_eq!(distance(0, 0xFFFF_FF9C), Distance::Far);
        assert_eq!(distance(0, 0x7FFF_FFFF), Distance::Far);
        assert_eq!(distance(0, 0x8000_0000), Distance::Far);
        assert_eq!(distance(5, 5), Distance::Late);
        assert_eq!(distance(5, 4), Distance::Late);
        assert_eq!(distance(0xFFFF_FFFF, 1), Distance::Ahead(1));
    }

    #[test]
    fn opening() {
        assert_eq!(open(1, 128), Err(Refusal::plain(24)));
        let state = open(1, 127).unwrap();
        assert_eq!((state.phase, state.heard), (LOST, false));
        assert_eq!((state.fresh, state.late, state.missing), (0, 0, 0));
    }
}
