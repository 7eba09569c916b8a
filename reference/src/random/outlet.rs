//! The shared outlet: states, and calls one by one and in sequence.

use super::*;
use crate::outlet::{open, Channel, State, CHANNELS, MEMORY, PLACES, SLOT, SLOTS};

#[derive(Clone, Debug, PartialEq, Eq)]
pub enum OutletCall {
    Offer { channel: u8, octets: Vec<u8> },
    Take { room: usize },
}

/// An input of one call, the state as a caller might make it up.
#[derive(Clone, Debug)]
pub struct OutletCase {
    pub state: State,
    pub memory: Vec<u8>,
    pub call: OutletCall,
}

pub fn outlet_case(r: &mut Random) -> OutletCase {
    let mut state = outlet_state(r);
    if r.one_in(6) {
        spoil_outlet(r, &mut state);
    }
    let octets = match r.below(24) {
        0 => r.pick(&[0, 1, SLOT, MEMORY - 1, MEMORY + 1, MEMORY + SLOT]),
        _ => MEMORY,
    };
    let call = match r.below(2) {
        0 => outlet_offer(r),
        _ => OutletCall::Take {
            room: outlet_room(r),
        },
    };
    OutletCase {
        state,
        memory: outlet_memory(r, octets),
        call,
    }
}

/// Memory filled at random.
pub fn outlet_memory(r: &mut Random, octets: usize) -> Vec<u8> {
    let mut memory = Vec::new();
    while memory.len() < octets {
        memory.extend(r.draw().to_be_bytes());
    }
    memory.truncate(octets);
    memory
}

/// A sound state: slots in any order, places that hold none filled at random.
pub fn outlet_state(r: &mut Random) -> State {
    let mut slots: Vec<u8> = (0..SLOTS as u8).collect();
    for last in (1..SLOTS).rev() {
        slots.swap(last, r.below(last + 1));
    }
    let share = r.pick(&[0, 2, 5, 9, 9]);
    let mut state = open();
    for (ring, slots) in state.channels.iter_mut().zip(slots.chunks(PLACES)) {
        *ring = outlet_channel(r, share, slots);
    }
    state.next = r.below(CHANNELS) as u8;
    state
}

/// A channel whose packets stand in these slots.
fn outlet_channel(r: &mut Random, share: usize, slots: &[u8]) -> Channel {
    let mut ring = Channel {
        head: r.below(PLACES) as u8,
        count: match r.below(4) {
            0 => r.pick(&[7, 8]).min(share) as u8,
            _ => r.below(share) as u8,
        },
        slots: [0; PLACES],
        lengths: [0; PLACES],
    };
    for (step, &slot) in slots.iter().enumerate() {
        let place = (ring.head as usize + step) % PLACES;
        let held = step < ring.count as usize;
        ring.slots[place] = if held { slot } else { r.below(SLOTS) as u8 };
        ring.lengths[place] = match held {
            true => outlet_length(r) as u16,
            false => r.pick(&[0, 7, 1_025, u16::MAX]),
        };
    }
    ring
}

fn outlet_length(r: &mut Random) -> usize {
    match r.below(4) {
        0 => r.pick(&[1, 2, SLOT - 1, SLOT]),
        _ => 1 + r.below(SLOT),
    }
}

/// Something that 64 names, where the place that it comes to is held.
fn spoil_outlet(r: &mut Random, state: &mut State) {
    let (channel, other) = (r.below(CHANNELS), r.below(CHANNELS));
    let (place, another) = (r.below(PLACES), r.below(PLACES));
    let slot = state.channels[other].slots[another];
    let ring = &mut state.channels[channel];
    match r.below(6) {
        0 => ring.count = r.pick(&[9, 16, 255]),
        1 => ring.head = r.pick(&[8, 9, 255]),
        2 => ring.lengths[place] = r.pick(&[0, 1_025, 0x8001, u16::MAX]),
        3 => ring.slots[place] = r.pick(&[64, 65, 128, 255]),
        4 => state.next = r.pick(&[8, 9, 255]),
        _ => ring.slots[place] = slot,
    }
}

fn outlet_offer(r: &mut Random) -> OutletCall {
    let channel = match r.below(10) {
        0 => r.pick(&[8, 9, 128, 255]),
        _ => r.below(CHANNELS) as u8,
    };
    let size = match r.below(10) {
        0 => r.pick(&[0, 0, SLOT + 1, SLOT + 2, MEMORY]),
        _ => outlet_length(r),
    };
    let octets = r.octets(size);
    OutletCall::Offer { channel, octets }
}

/// Octets lent for a take: mostly enough for any packet.
fn outlet_room(r: &mut Random) -> usize {
    match r.below(6) {
        0 => r.below(SLOT),
        1 => r.pick(&[0, 1, SLOT - 1]),
        2 => SLOT,
        _ => SLOT + r.below(40),
    }
}

/// A sequence of calls from an outlet just opened. Some channels offer much,
/// others little; there are times with few takes and times with many.
pub fn outlet_calls(r: &mut Random, count: usize) -> Vec<OutletCall> {
    let busy: Vec<u8> = (0..1 + r.below(CHANNELS))
        .map(|_| r.below(CHANNELS) as u8)
        .collect();
    let mut offers = 2;
    let mut calls = Vec::new();
    for _ in 0..count {
        if r.one_in(30) {
            offers = r.pick(&[0, 1, 2, 3, 4]);
        }
        let mut call = match r.below(4) < offers {
            true => outlet_offer(r),
            false => OutletCall::Take {
                room: outlet_room(r),
            },
        };
        if let OutletCall::Offer { channel, .. } = &mut call {
            if *channel < 8 && !r.one_in(4) {
                *channel = r.pick(&busy);
            }
        }
        calls.push(call);
    }
    calls
}
