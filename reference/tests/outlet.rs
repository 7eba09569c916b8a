//! The shared outlet (02, K10): any sequence of calls answers as eight queues
//! and a pointer do; every refusal by hand, in its order and with nothing
//! changed; every border.

use std::collections::VecDeque;

use reference::outlet::{offer, open, take, waiting, State, MEMORY, ROW};
use reference::random::{outlet_calls, outlet_memory, outlet_state, OutletCall, Random};
use reference::Refusal;

const MOST: usize = 1_024;

/// Eight queues and a pointer.
#[derive(Clone, Default)]
struct Queues {
    queues: [VecDeque<Vec<u8>>; 8],
    pointer: usize,
}

impl Queues {
    fn offer(&mut self, channel: u8, octets: &[u8]) -> Result<(), u8> {
        let queue = self.queues.get_mut(channel as usize).ok_or(60)?;
        if !(1..=MOST).contains(&octets.len()) {
            return Err(61);
        }
        if queue.len() == 8 {
            return Err(62);
        }
        queue.push_back(octets.to_vec());
        Ok(())
    }

    fn take(&mut self, room: usize) -> Result<(u8, Vec<u8>), u8> {
        let circle = (self.pointer..8).chain(0..self.pointer);
        let waits = |channel: &usize| !self.queues[*channel].is_empty();
        let channel = circle.into_iter().find(waits).ok_or(63)?;
        if self.queues[channel][0].len() > room {
            return Err(23);
        }
        self.pointer = (channel + 1) % 8;
        let octets = self.queues[channel].pop_front().unwrap();
        Ok((channel as u8, octets))
    }
}

/// What a call was answered.
#[derive(Clone, Debug, PartialEq, Eq)]
enum Answer {
    Offered,
    Taken(u8, Vec<u8>),
    Refused(u8),
}

/// An outlet and its memory, handed on unaltered from call to call.
struct Outlet {
    state: State,
    memory: Vec<u8>,
}

impl Outlet {
    fn opened(r: &mut Random) -> Outlet {
        Outlet {
            state: open(),
            memory: outlet_memory(r, MEMORY),
        }
    }

    /// A refusal changes nothing and has index 0; an offer changes no octets
    /// but its own, a take none of the memory.
    fn call(&mut self, call: &OutletCall) -> Answer {
        match call {
            OutletCall::Offer { channel, octets } => self.offer(*channel, octets),
            OutletCall::Take { room } => self.take(*room),
        }
    }

    fn offer(&mut self, channel: u8, octets: &[u8]) -> Answer {
        let mut memory = self.memory.clone();
        match offer(self.state, &mut memory, channel, octets) {
            Ok(state) => {
                let differ = |at: &usize| memory[*at] != self.memory[*at];
                let first = (0..MEMORY).find(differ).unwrap_or(0);
                let last = (0..MEMORY).rev().find(differ).unwrap_or(0);
                let slot = first / MOST;
                assert!(last < MOST * slot + octets.len());
                (self.state, self.memory) = (state, memory);
                Answer::Offered
            }
            Err(Refusal { number, index }) => {
                assert!(index == 0 && memory == self.memory);
                Answer::Refused(number)
            }
        }
    }

    fn take(&mut self, room: usize) -> Answer {
        let mut out = vec![0x5A; room];
        match take(self.state, &self.memory, &mut out) {
            Ok((state, taken)) => {
                assert!(out[taken.octets..].iter().all(|&octet| octet == 0x5A));
                out.truncate(taken.octets);
                self.state = state;
                Answer::Taken(taken.channel, out)
            }
            Err(Refusal { number, index }) => {
                assert!(index == 0 && out.iter().all(|&octet| octet == 0x5A));
                Answer::Refused(number)
            }
        }
    }
}

fn expected(queues: &mut Queues, call: &OutletCall) -> Answer {
    let answer = match call {
        OutletCall::Offer { channel, octets } => {
            queues.offer(*channel, octets).map(|()| Answer::Offered)
        }
        OutletCall::Take { room } => queues
            .take(*room)
            .map(|(channel, octets)| Answer::Taken(channel, octets)),
    };
    answer.unwrap_or_else(Answer::Refused)
}

/// The calls' answers, which are those of eight queues and a pointer; so is
/// what waits after each.
fn run(outlet: &mut Outlet, queues: &mut Queues, calls: &[OutletCall]) -> Vec<Answer> {
    let one = |call: &OutletCall| {
        let answer = outlet.call(call);
        assert_eq!(answer, expected(queues, call));
        let waits = waiting(&outlet.state, &outlet.memory).unwrap();
        assert_eq!(waits.map(VecDeque::from), queues.queues);
        answer
    };
    calls.iter().map(one).collect()
}

#[test]
fn eight_queues_and_a_pointer() {
    let mut r = Random::new(101);
    let (mut offered, mut taken, mut refused) = (0, 0, [0; 256]);
    for _ in 0..40 {
        let calls = outlet_calls(&mut r, 400);
        let mut outlet = Outlet::opened(&mut r);
        for answer in run(&mut outlet, &mut Queues::default(), &calls) {
            match answer {
                Answer::Offered => offered += 1,
                Answer::Taken(..) => taken += 1,
                Answer::Refused(number) => refused[number as usize] += 1,
            }
        }
    }
    assert!(offered > 3_000 && taken > 3_000);
    for number in [23, 60, 61, 62, 63] {
        assert!(refused[number] > 100, "{number}");
    }
    assert_eq!(refused[64], 0);
}

/// Every sequence of seven calls of four.
#[test]
fn every_short_sequence() {
    let mut r = Random::new(102);
    let mut outlet = Outlet::opened(&mut r);
    let offer = |channel, octet| OutletCall::Offer {
        channel,
        octets: vec![octet],
    };
    let room = MOST;
    for code in 0..4_usize.pow(7) {
        let call = |at: u32| match code / 4_usize.pow(at) % 4 {
            0 => OutletCall::Take { room },
            1 => offer(0, at as u8),
            2 => offer(1, at as u8),
            _ => offer(7, at as u8),
        };
        outlet.state = open();
        let mut queues = Queues::default();
        for at in 0..7 {
            let call = call(at);
            let answer = match &call {
                OutletCall::Offer { channel, octets } => {
                    let (state, memory) = (outlet.state, &mut outlet.memory);
                    outlet.state =
                        reference::outlet::offer(state, memory, *channel, octets).unwrap();
                    Answer::Offered
                }
                OutletCall::Take { room } => outlet.take(*room),
            };
            assert_eq!(answer, expected(&mut queues, &call));
        }
    }
}

/// A packet at its channel's head leaves within eight successful takes,
/// whatever is offered meanwhile.
#[test]
fn within_eight_takes() {
    let mut r = Random::new(103);
    let mut longest = 0;
    for _ in 0..40 {
        let calls = outlet_calls(&mut r, 400);
        let (mut outlet, mut queues) = (Outlet::opened(&mut r), Queues::default());
        // Successful takes since each channel's head came to be its head.
        let mut waits = [0; 8];
        for call in &calls {
            let answer = outlet.call(call);
            assert_eq!(answer, expected(&mut queues, call));
            if let Answer::Taken(channel, _) = answer {
                waits.iter_mut().for_each(|takes| *takes += 1);
                longest = longest.max(waits[channel as usize]);
                waits[channel as usize] = 0;
            }
            for (queue, takes) in queues.queues.iter().zip(&mut waits) {
                if queue.is_empty() {
                    *takes = 0;
                }
                assert!(*takes < 8);
            }
        }
    }
    assert_eq!(longest, 8);
}

/// Whether an offer is taken depends only on its size, its channel number and
/// that channel's own earlier offers and takes.
#[test]
fn own_offers_and_takes() {
    let mut r = Random::new(104);
    for _ in 0..40 {
        let calls = outlet_calls(&mut r, 300);
        let mut outlet = Outlet::opened(&mut r);
        let mut own = [0_i32; 8];
        for call in &calls {
            let answer = outlet.call(call);
            match (call, answer) {
                (OutletCall::Offer { channel, octets }, answer) => {
                    let sized = (1..=MOST).contains(&octets.len());
                    let room = own.get(*channel as usize).is_some_and(|&held| held < 8);
                    assert_eq!(answer == Answer::Offered, sized && room);
                    if sized && room {
                        own[*channel as usize] += 1;
                    }
                }
                (_, Answer::Taken(channel, _)) => own[channel as usize] -= 1,
                _ => {}
            }
        }
    }
}

/// All 64 slots at once, every packet as large as can be; then all out in
/// turns, while each place is filled anew once.
#[test]
fn every_slot() {
    let mut r = Random::new(105);
    let mut outlet = Outlet::opened(&mut r);
    let packet = |channel: u8, turn: u8| {
        let mut octets = vec![turn; MOST];
        octets[MOST - 1] = channel;
        octets
    };
    for turn in 0..8 {
        for channel in (0..8).rev() {
            let answer = outlet.offer(channel, &packet(channel, turn));
            assert_eq!(answer, Answer::Offered);
        }
    }
    for channel in 0..8 {
        assert_eq!(outlet.offer(channel, &[1]), Answer::Refused(62));
    }
    for turn in 0..16 {
        for channel in 0..8 {
            let taken = Answer::Taken(channel, packet(channel, turn));
            assert_eq!(outlet.take(MOST), taken);
            if turn < 8 {
                let again = packet(channel, turn + 8);
                assert_eq!(outlet.offer(channel, &again), Answer::Offered);
                assert_eq!(outlet.offer(channel, &again), Answer::Refused(62));
            }
        }
    }
    assert_eq!(outlet.take(MOST), Answer::Refused(63));
}

/// The circle starts after the channel served last, also where it alone
/// waits, and an offer does not move it.
#[test]
fn the_circle() {
    let mut r = Random::new(106);
    let mut outlet = Outlet::opened(&mut r);
    let served = |outlet: &mut Outlet| match outlet.take(MOST) {
        Answer::Taken(channel, octets) => (channel, octets[0]),
        answer => panic!("{answer:?}"),
    };
    for (channel, octet) in [(3, 1), (3, 2), (3, 3), (5, 4)] {
        assert_eq!(outlet.offer(channel, &[octet]), Answer::Offered);
    }
    assert_eq!(served(&mut outlet), (3, 1));
    assert_eq!(outlet.offer(0, &[5]), Answer::Offered);
    assert_eq!(outlet.offer(4, &[6]), Answer::Offered);
    assert_eq!(served(&mut outlet), (4, 6));
    assert_eq!(outlet.offer(4, &[7]), Answer::Offered);
    assert_eq!(served(&mut outlet), (5, 4));
    assert_eq!(served(&mut outlet), (0, 5));
    assert_eq!(served(&mut outlet), (3, 2));
    assert_eq!(served(&mut outlet), (4, 7));
    assert_eq!(served(&mut outlet), (3, 3));
    assert_eq!(outlet.state.next, 4);
    assert_eq!(outlet.take(0), Answer::Refused(63));
    assert_eq!(outlet.state.next, 4);
}

fn offer_refused(state: State, memory: usize, channel: u8, octets: usize) -> Option<(u8, usize)> {
    let mut lent = vec![0xA5; memory];
    let answer = offer(state, &mut lent, channel, &vec![9; octets]);
    let refusal = answer.err().map(|refusal| (refusal.number, refusal.index));
    assert!(refusal.is_none() || lent.iter().all(|&octet| octet == 0xA5));
    refusal
}

fn take_refused(state: State, memory: usize, room: usize) -> Option<(u8, usize)> {
    let mut out = vec![0x5A; room];
    let answer = take(state, &vec![0xA5; memory], &mut out);
    let refusal = answer.err().map(|refusal| (refusal.number, refusal.index));
    assert!(refusal.is_none() || out.iter().all(|&octet| octet == 0x5A));
    refusal
}

/// One packet of 300 octets in channel 2, in its last place; channel 6 full.
fn held() -> State {
    let mut state = open();
    state.channels[2].head = 7;
    state.channels[2].count = 1;
    state.channels[2].slots[7] = 63;
    state.channels[2].lengths[7] = 300;
    state.channels[6].head = 3;
    state.channels[6].count = 8;
    state.channels[6].slots = [0, 1, 2, 3, 4, 5, 6, 62];
    state.channels[6].lengths = [1, 1_024, 5, 6, 7, 8, 9, 10];
    state
}

#[test]
fn refusals_in_their_order() {
    for memory in [0, 1_024, MEMORY - 1, MEMORY + 1] {
        assert_eq!(offer_refused(held(), memory, 8, 0), Some((64, 0)));
        assert_eq!(take_refused(open(), memory, 0), Some((64, 0)));
    }
    for channel in [8, 9, 255] {
        for octets in [0, 1, 1_025] {
            let refusal = offer_refused(held(), MEMORY, channel, octets);
            assert_eq!(refusal, Some((60, 0)));
        }
    }
    for octets in [0, 1_025, 65_535, 65_536] {
        assert_eq!(offer_refused(held(), MEMORY, 6, octets), Some((61, 0)));
        assert_eq!(offer_refused(held(), MEMORY, 0, octets), Some((61, 0)));
    }
    for octets in [1, 1_024] {
        assert_eq!(offer_refused(held(), MEMORY, 6, octets), Some((62, 0)));
        assert_eq!(offer_refused(held(), MEMORY, 2, octets), None);
        assert_eq!(offer_refused(held(), MEMORY, 7, octets), None);
    }
    for room in [0, 1_024] {
        assert_eq!(take_refused(open(), MEMORY, room), Some((63, 0)));
    }
    assert_eq!(take_refused(held(), MEMORY, 0), Some((23, 0)));
    assert_eq!(take_refused(held(), MEMORY, 299), Some((23, 0)));
    assert_eq!(take_refused(held(), MEMORY, 300), None);
}

/// Both calls over a state, with which the offer and the take are good but
/// for what 64 names.
fn is_sound(state: State) -> bool {
    let refusals = [
        offer_refused(state, MEMORY, 0, 5),
        take_refused(state, MEMORY, 1_024),
    ];
    assert!(refusals == [None; 2] || refusals == [Some((64, 0)); 2]);
    refusals == [None; 2]
}

#[test]
fn what_64_names() {
    assert!(is_sound(held()));
    let with = |change: fn(&mut State)| {
        let mut state = held();
        change(&mut state);
        is_sound(state)
    };
    // Over eight held.
    assert!(!with(|state| state.channels[6].count = 9));
    assert!(!with(|state| state.channels[6].count = 255));
    // A held length outside 1 to 1,024.
    assert!(!with(|state| state.channels[2].lengths[7] = 0));
    assert!(with(|state| state.channels[2].lengths[7] = 1));
    assert!(with(|state| state.channels[2].lengths[7] = 1_024));
    assert!(!with(|state| state.channels[2].lengths[7] = 1_025));
    assert!(!with(|state| state.channels[6].lengths[2] = 0));
    assert!(!with(|state| state.channels[6].lengths[2] = 65_535));
    // A slot held twice, by two channels or by one.
    assert!(!with(|state| state.channels[2].slots[7] = 62));
    assert!(with(|state| state.channels[2].slots[7] = 61));
    assert!(!with(|state| state.channels[6].slots[2] = 1));
    assert!(!with(|state| state.channels[6].slots[2] = 62));
    // A number out of range: a slot, a head, of an empty channel too, next.
    assert!(!with(|state| state.channels[2].slots[7] = 64));
    assert!(!with(|state| state.channels[2].slots[7] = 255));
    assert!(!with(|state| state.channels[2].head = 8));
    assert!(!with(|state| state.channels[6].head = 255));
    assert!(with(|state| state.channels[5].head = 7));
    assert!(!with(|state| state.channels[5].head = 8));
    assert!(with(|state| state.next = 7));
    assert!(!with(|state| state.next = 8));
    assert!(!with(|state| state.next = 255));
}

/// Of a place that holds no packet the length may be anything, and the slot
/// any of the 64; the next packet's are put there.
#[test]
fn places_that_hold_none() {
    let mut state = held();
    for place in 0..7 {
        state.channels[2].slots[place] = [63, 62, 5, 1, 0, 63, 62][place];
        state.channels[2].lengths[place] = [0, 1_025, 65_535, 300, 0, 0, 9][place];
    }
    assert!(is_sound(state));
    let mut memory = vec![0xA5; MEMORY];
    let after = offer(state, &mut memory, 2, &[1, 2, 3]).unwrap();
    let ring = &after.channels[2];
    assert_eq!((ring.head, ring.count, ring.lengths[0]), (7, 2, 3));
    let start = 1_024 * ring.slots[0] as usize;
    assert_eq!(memory[start..start + 4], [1, 2, 3, 0xA5]);
    // One that is held makes the same numbers count.
    state.channels[2].count = 2;
    assert!(!is_sound(state));
    // A slot's number counts in every place.
    for (slot, sound) in [(63, true), (64, false), (255, false)] {
        let mut state = held();
        state.channels[2].slots[3] = slot;
        assert_eq!(is_sound(state), sound);
    }
}

/// Heads, counts, slots, lengths, next; a number too wide is no state.
#[test]
fn the_row() {
    assert_eq!(ROW, 145);
    assert_eq!(open().row(), [0; 145]);
    let row = held().row();
    let numbers = [(2, 7), (10, 1), (14, 8), (16 + 23, 63), (80 + 23, 300)];
    for (at, number) in numbers {
        assert_eq!(row[at], number);
    }
    assert_eq!(row[16 + 48..16 + 56], [0, 1, 2, 3, 4, 5, 6, 62]);
    assert_eq!(State::of_row(&row), Some(held()));
    let mut r = Random::new(107);
    for _ in 0..200 {
        let state = outlet_state(&mut r);
        let row = state.row();
        assert_eq!(State::of_row(&row), Some(state));
        for at in 0..145 {
            let width = if (80..144).contains(&at) { 16 } else { 8 };
            for bit in [width, 32, 63] {
                let mut row = row;
                row[at] |= 1 << bit;
                assert_eq!(State::of_row(&row), None);
            }
        }
    }
}
