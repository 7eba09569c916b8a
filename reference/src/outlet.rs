//! Turns at the shared outlet (02, K10). Eight channels share 64 slots of
//! 1,024 octets in lent memory, each holds at most eight packets. A packet
//! leaves first in first out within its channel, the channels in a circle
//! from the one after that served last, empty ones passed over.

use crate::refusal::Refusal;

pub const CHANNELS: usize = 8;
/// Most packets that a channel holds.
pub const PLACES: usize = 8;
pub const SLOTS: usize = 64;
/// Octets of a slot: the most of a packet.
pub const SLOT: usize = 1_024;
/// Octets of the lent memory.
pub const MEMORY: usize = SLOTS * SLOT;
/// Numbers of a state's row.
pub const ROW: usize = 2 * CHANNELS + 2 * CHANNELS * PLACES + 1;

/// A channel's ring of places: `count` packets from `head` on, around the end.
/// Of a place that holds none the length may be anything, the slot any of the
/// 64.
#[derive(Clone, Copy, Debug, PartialEq, Eq)]
pub struct Channel {
    pub head: u8,
    pub count: u8,
    /// The slot of each place's packet.
    pub slots: [u8; PLACES],
    /// The octets of each place's packet.
    pub lengths: [u16; PLACES],
}

/// The outlet's state.
#[derive(Clone, Copy, Debug, PartialEq, Eq)]
pub struct State {
    pub channels: [Channel; CHANNELS],
    /// The channel with which the circle starts.
    pub next: u8,
}

/// What a take hands out: whose packet, and the octets written.
#[derive(Clone, Copy, Debug, PartialEq, Eq)]
pub struct Taken {
    pub channel: u8,
    pub octets: usize,
}

/// An outlet just opened: empty, and channel 0 is the first to be served.
pub const fn open() -> State {
    let empty = Channel {
        head: 0,
        count: 0,
        slots: [0; PLACES],
        lengths: [0; PLACES],
    };
    State {
        channels: [empty; CHANNELS],
        next: 0,
    }
}

/// Copies a packet in: 64, 60, 61, 62. It goes into the first free slot.
pub fn offer(
    state: State,
    memory: &mut [u8],
    channel: u8,
    octets: &[u8],
) -> Result<State, Refusal> {
    let held = state.sound(memory)?;
    let mut after = state;
    let Some(ring) = after.channels.get_mut(channel as usize) else {
        return Err(Refusal::plain(60));
    };
    if octets.is_empty() || octets.len() > SLOT {
        return Err(Refusal::plain(61));
    }
    if ring.count as usize == PLACES {
        return Err(Refusal::plain(62));
    }
    // One channel holds under eight, so under 64 slots are held.
    let slot = held.trailing_ones() as usize;
    memory[SLOT * slot..][..octets.len()].copy_from_slice(octets);
    let place = ring.place(ring.count);
    ring.slots[place] = slot as u8;
    ring.lengths[place] = octets.len() as u16;
    ring.count += 1;
    Ok(after)
}

/// Hands out one packet into lent octets: 64, 63, 23. The memory stays.
pub fn take(state: State, memory: &[u8], out: &mut [u8]) -> Result<(State, Taken), Refusal> {
    state.sound(memory)?;
    let mut circle = (0..CHANNELS).map(|step| (state.next as usize + step) % CHANNELS);
    let Some(channel) = circle.find(|&channel| state.channels[channel].count > 0) else {
        return Err(Refusal::plain(63));
    };
    let packet = state.channels[channel].packet(0, memory);
    let Some(out) = out.get_mut(..packet.len()) else {
        return Err(Refusal::plain(23));
    };
    out.copy_from_slice(packet);
    let mut after = state;
    let ring = &mut after.channels[channel];
    ring.head = ring.place(1) as u8;
    ring.count -= 1;
    after.next = ((channel + 1) % CHANNELS) as u8;
    let taken = Taken {
        channel: channel as u8,
        octets: packet.len(),
    };
    Ok((after, taken))
}

/// What waits: each channel's packets, the first to leave first. 64.
pub fn waiting(state: &State, memory: &[u8]) -> Result<[Vec<Vec<u8>>; CHANNELS], Refusal> {
    state.sound(memory)?;
    let packets = |ring: &Channel| {
        (0..ring.count)
            .map(|step| ring.packet(step, memory).to_vec())
            .collect()
    };
    Ok(state.channels.each_ref().map(packets))
}

impl Channel {
    /// The place so many steps after the head's.
    fn place(&self, step: u8) -> usize {
        (self.head as usize + step as usize) % PLACES
    }

    /// The packet in that place; the state is sound.
    fn packet<'a>(&self, step: u8, memory: &'a [u8]) -> &'a [u8] {
        let place = self.place(step);
        let slot = self.slots[place] as usize;
        &memory[SLOT * slot..][..self.lengths[place] as usize]
    }

    /// The slots that the channel holds, as bits; none where the channel is
    /// what 64 names.
    fn held(&self) -> Option<u64> {
        if self.head as usize >= PLACES || self.count as usize > PLACES {
            return None;
        }
        if self.slots.iter().any(|&slot| slot as usize >= SLOTS) {
            return None;
        }
        let mut held = 0;
        for step in 0..self.count {
            let place = self.place(step);
            if !(1..=SLOT).contains(&(self.lengths[place] as usize)) {
                return None;
            }
            held = joined(held, 1_u64.checked_shl(self.slots[place] as u32)?)?;
        }
        Some(held)
    }
}

/// None where a slot is held twice.
fn joined(held: u64, slots: u64) -> Option<u64> {
    (held & slots == 0).then_some(held | slots)
}

impl State {
    /// 64, or the slots that are held, as bits.
    fn sound(&self, memory: &[u8]) -> Result<u64, Refusal> {
        let rings = self.channels.iter();
        let held = rings
            .map(Channel::held)
            .try_fold(0, |held, slots| joined(held, slots?))
            .filter(|_| memory.len() == MEMORY && (self.next as usize) < CHANNELS);
        held.ok_or(Refusal::plain(64))
    }

    /// The state as a row of numbers: the heads and counts of the channels,
    /// the slots and lengths of all places, channel by channel, and the
    /// channel that is next.
    pub fn row(&self) -> [u64; ROW] {
        let rings = self.channels.iter();
        let heads = rings.clone().map(|ring| ring.head as u64);
        let counts = rings.clone().map(|ring| ring.count as u64);
        let slots = rings.clone().flat_map(|ring| ring.slots).map(u64::from);
        let lengths = rings.flat_map(|ring| ring.lengths).map(u64::from);
        let numbers = heads.chain(counts).chain(slots).chain(lengths);
        let mut row = [self.next as u64; ROW];
        row.iter_mut()
            .zip(numbers)
            .for_each(|(into, number)| *into = number);
        row
    }

    /// None where a number is too wide for its field.
    pub fn of_row(row: &[u64; ROW]) -> Option<State> {
        let mut state = open();
        let (heads, row) = row.split_at(CHANNELS);
        let (counts, row) = row.split_at(CHANNELS);
        let (slots, row) = row.split_at(CHANNELS * PLACES);
        let (lengths, next) = row.split_at(CHANNELS * PLACES);
        for (channel, ring) in state.channels.iter_mut().enumerate() {
            ring.head = heads[channel].try_into().ok()?;
            ring.count = counts[channel].try_into().ok()?;
            for place in 0..PLACES {
                ring.slots[place] = slots[PLACES * channel + place].try_into().ok()?;
                ring.lengths[place] = lengths[PLACES * channel + place].try_into().ok()?;
            }
        }
        state.next = next[0].try_into().ok()?;
        Some(state)
    }
}
