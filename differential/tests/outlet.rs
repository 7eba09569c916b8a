//! The shared outlet (02, K10) through both sides, state and memory handed on
//! from call to call: long random runs, states damaged number by number and
//! at every border, full and empty outlets, one channel flooding while seven
//! trickle. What `egress_example` prints of the borders is compared too.

use std::collections::{BTreeMap, VecDeque};

use differential::call::{compare, Call, Lent, Memory};
use differential::{ANSWER, OUTLET_MEMORY, OUTLET_PACKET, OUTLET_STATE, ROW};
use reference::outlet::{open, take, State};
use reference::random::{outlet_calls, outlet_case, outlet_memory, outlet_state};
use reference::random::{OutletCall, Random};

const CHANNELS: usize = 8;
const HELD: usize = 8;

/// An outlet and its memory, as a caller keeps them.
struct Outlet {
    state: Vec<u64>,
    memory: Vec<u8>,
}

/// What a call is answered.
#[derive(Clone, Debug, PartialEq, Eq)]
enum Answer {
    Copied,
    Handed(usize, Vec<u8>),
    Refused(u8),
}

/// Memory between guards with these contents.
fn lent<T: Copy>(content: &[T], r: &mut Random, of: impl Fn(u64) -> T) -> Lent<T> {
    let mut lent = Lent::new(content.len(), r, of);
    lent.get_mut().copy_from_slice(content);
    lent
}

impl Outlet {
    fn opened(r: &mut Random) -> Outlet {
        let mut state = vec![0; OUTLET_STATE + r.below(3)];
        state.fill_with(|| r.draw());
        let mut outlet = Outlet {
            state,
            memory: outlet_memory(r, OUTLET_MEMORY),
        };
        let before = outlet.lend(&[], r);
        let (number, after) = compare(&Call::OutletOpen, &before);
        assert_eq!(number, 0);
        outlet.state = after.state.get().to_vec();
        assert_eq!(outlet.state[..OUTLET_STATE], open().row());
        outlet
    }

    fn of(state: &State, memory: Vec<u8>) -> Outlet {
        let state = state.row().to_vec();
        Outlet { state, memory }
    }

    /// The state's row, these octets, and an answer filled at random.
    fn lend(&self, octets: &[u8], r: &mut Random) -> Memory {
        Memory {
            answer: Lent::new(ANSWER + r.below(3), r, |draw| draw),
            state: lent(&self.state, r, |draw| draw),
            cells: Lent::new(0, r, |draw| draw as u16),
            octets: lent(octets, r, |draw| draw as u8),
        }
    }

    /// A call on both sides. A refusal changes nothing but the index.
    fn call(&mut self, call: &OutletCall, r: &mut Random) -> Answer {
        let (call, before) = match call {
            OutletCall::Offer { channel, octets } => {
                let (channel, packet) = (*channel, octets.clone());
                let call = Call::OutletOffer { channel, packet };
                (call, self.lend(&self.memory, r))
            }
            OutletCall::Take { room } => {
                let memory = self.memory.clone();
                let out = r.octets(*room);
                (Call::OutletTake { memory }, self.lend(&out, r))
            }
        };
        let (number, after) = compare(&call, &before);
        if number != 0 {
            assert_eq!(after.state, before.state);
            assert_eq!(after.octets, before.octets);
            assert_eq!(after.answer.get()[0], 0);
            return Answer::Refused(number);
        }
        self.state = after.state.get().to_vec();
        if let Call::OutletOffer { .. } = call {
            self.memory = after.octets.get().to_vec();
            return Answer::Copied;
        }
        let [channel, octets, ..] = *after.answer.get() else {
            panic!("a short answer");
        };
        let packet = after.octets.get()[..octets as usize].to_vec();
        Answer::Handed(channel as usize, packet)
    }
}

/// Eight queues and a pointer.
#[derive(Default)]
struct Queues {
    queues: [VecDeque<Vec<u8>>; CHANNELS],
    next: usize,
}

impl Queues {
    fn call(&mut self, call: &OutletCall) -> Answer {
        match call {
            OutletCall::Offer { channel, octets } => self.offer(*channel as usize, octets),
            OutletCall::Take { room } => self.take(*room),
        }
    }

    fn offer(&mut self, channel: usize, packet: &[u8]) -> Answer {
        let Some(queue) = self.queues.get_mut(channel) else {
            return Answer::Refused(60);
        };
        if packet.is_empty() || packet.len() > OUTLET_PACKET {
            return Answer::Refused(61);
        }
        if queue.len() == HELD {
            return Answer::Refused(62);
        }
        queue.push_back(packet.to_vec());
        Answer::Copied
    }

    fn take(&mut self, room: usize) -> Answer {
        let mut circle = (0..CHANNELS).map(|step| (self.next + step) % CHANNELS);
        let Some(channel) = circle.find(|&channel| !self.queues[channel].is_empty()) else {
            return Answer::Refused(63);
        };
        if self.queues[channel][0].len() > room {
            return Answer::Refused(23);
        }
        self.next = (channel + 1) % CHANNELS;
        let packet = self.queues[channel].pop_front();
        Answer::Handed(channel, packet.expect("it waits"))
    }
}

/// Every answer is that of eight queues and a pointer, and every number that
/// an opened outlet can give is met; so are outlets that are full and empty.
#[test]
fn long_runs_answer_as_eight_queues() {
    let mut r = Random::new(1001);
    let mut met = BTreeMap::<&str, usize>::new();
    for run in 0..40 {
        let mut outlet = Outlet::opened(&mut r);
        let mut queues = Queues::default();
        let memory = outlet.memory.clone();
        // Every fourth run begins with offers alone, which fill the outlet.
        let offers = if run % 4 == 0 { 200 } else { 0 };
        let filling = (0..offers).map(|offer: usize| OutletCall::Offer {
            channel: (offer % CHANNELS) as u8,
            octets: vec![offer as u8; 1 + offer],
        });
        let filling: Vec<OutletCall> = filling.collect();
        for call in [filling, outlet_calls(&mut r, 1_000)].concat() {
            let answer = outlet.call(&call, &mut r);
            assert_eq!(answer, queues.call(&call), "{call:?}");
            let name = match answer {
                Answer::Copied => "copied",
                Answer::Handed(..) => "handed",
                Answer::Refused(23) => "23",
                Answer::Refused(60) => "60",
                Answer::Refused(61) => "61",
                Answer::Refused(62) => "62",
                Answer::Refused(63) => "63",
                Answer::Refused(number) => panic!("{number}"),
            };
            *met.entry(name).or_default() += 1;
            let waiting: usize = queues.queues.iter().map(VecDeque::len).sum();
            *met.entry("full").or_default() += usize::from(waiting == CHANNELS * HELD);
            *met.entry("empty").or_default() += usize::from(waiting == 0);
        }
        assert_ne!(outlet.memory, memory);
    }
    println!("{met:?}");
    assert_eq!(met.len(), 9);
    assert!(met.values().all(|&times| times > 50), "{met:?}");
}

/// Every slot held: each channel's offers are refused by 62, a take makes room
/// for one; and then all are taken, eight rounds of the circle.
#[test]
fn a_full_outlet_is_emptied_in_turn() {
    let mut r = Random::new(1002);
    let mut outlet = Outlet::opened(&mut r);
    for packet in 0..HELD as u8 {
        for channel in 0..CHANNELS as u8 {
            let octets = vec![channel, packet];
            let offer = OutletCall::Offer { channel, octets };
            assert_eq!(outlet.call(&offer, &mut r), Answer::Copied);
        }
    }
    for channel in 0..CHANNELS as u8 {
        let octets = vec![channel];
        let offer = OutletCall::Offer { channel, octets };
        assert_eq!(outlet.call(&offer, &mut r), Answer::Refused(62));
    }
    let take = OutletCall::Take { room: 2 };
    for packet in 0..HELD as u8 {
        for channel in 0..CHANNELS {
            let expected = Answer::Handed(channel, vec![channel as u8, packet]);
            assert_eq!(outlet.call(&take, &mut r), expected);
        }
    }
    assert_eq!(outlet.call(&take, &mut r), Answer::Refused(63));
}

/// 00's version one: one channel reloads without end, seven offer a packet now
/// and then. Each of the seven's packets is copied in, and leaves within eight
/// takes of its becoming its channel's head.
#[test]
fn seven_trickle_while_one_floods() {
    let mut r = Random::new(1003);
    let mut served = [0; CHANNELS];
    for flooding in 0..CHANNELS {
        let mut outlet = Outlet::opened(&mut r);
        let mut queues: [VecDeque<Vec<u8>>; CHANNELS] = Default::default();
        // How many takes each channel's head has waited.
        let mut waited = [0; CHANNELS];
        for turn in 0..400_u32 {
            for channel in 0..CHANNELS {
                let offers = if channel == flooding {
                    3
                } else {
                    usize::from(r.one_in(24))
                };
                for _ in 0..offers {
                    let size = 4 + r.below(OUTLET_PACKET - 3);
                    let mut octets = turn.to_be_bytes().to_vec();
                    octets.resize(size, channel as u8);
                    let full = queues[channel].len() == HELD;
                    let offer = OutletCall::Offer {
                        channel: channel as u8,
                        octets: octets.clone(),
                    };
                    let expected = if full {
                        Answer::Refused(62)
                    } else {
                        Answer::Copied
                    };
                    assert_eq!(outlet.call(&offer, &mut r), expected);
                    assert!(!full || channel == flooding);
                    if !full {
                        queues[channel].push_back(octets);
                    }
                }
            }
            let take = OutletCall::Take {
                room: OUTLET_PACKET,
            };
            let Answer::Handed(channel, packet) = outlet.call(&take, &mut r) else {
                panic!("a packet waits");
            };
            assert_eq!(queues[channel].pop_front(), Some(packet));
            served[channel] += 1;
            for (other, waited) in waited.iter_mut().enumerate() {
                let waits = other != channel && !queues[other].is_empty();
                *waited = if waits { *waited + 1 } else { 0 };
                assert!(*waited < 8, "channel {other}");
            }
        }
    }
    println!("{served:?}");
    assert!(served.iter().all(|&times| times > 100), "{served:?}");
}

/// Any state, sound or not, memory of any size: every number of each call.
#[test]
fn random_calls() {
    let mut r = Random::new(1004);
    let mut met = BTreeMap::<(&str, u8), usize>::new();
    for _ in 0..30_000 {
        let case = outlet_case(&mut r);
        let mut outlet = Outlet::of(&case.state, case.memory);
        let entry = match case.call {
            OutletCall::Offer { .. } => "offer",
            OutletCall::Take { .. } => "take",
        };
        let number = match outlet.call(&case.call, &mut r) {
            Answer::Refused(number) => number,
            _ => 0,
        };
        *met.entry((entry, number)).or_default() += 1;
    }
    println!("{met:?}");
    let offers = [0, 60, 61, 62, 64].map(|number| ("offer", number));
    let takes = [0, 23, 63, 64].map(|number| ("take", number));
    let expected: Vec<(&str, u8)> = offers.into_iter().chain(takes).collect();
    assert_eq!(met.keys().copied().collect::<Vec<_>>(), expected);
    assert!(met.values().all(|&times| times > 50), "{met:?}");
}

/// Each number of a sound state's row by itself, over all its borders and each
/// bit past its width: both sides agree, and a number that is too wide is 64
/// in a place that holds nothing too.
#[test]
fn states_damaged_number_by_number() {
    let mut r = Random::new(1005);
    let (mut unsound, mut passed) = (0, 0);
    for _ in 0..3 {
        let sound = Outlet::of(&outlet_state(&mut r), outlet_memory(&mut r, OUTLET_MEMORY));
        for at in 0..OUTLET_STATE {
            let bits = if (80..144).contains(&at) { 16 } else { 8 };
            let borders = [0, 1, 7, 8, 9, 63, 64, 255, 1_024, 1_025, 65_535, u64::MAX];
            let wide = (bits..64).map(|bit| sound.state[at] | 1 << bit);
            for number in borders.into_iter().chain(wide) {
                let mut state = sound.state.clone();
                state[at] = number;
                let memory = sound.memory.clone();
                let mut outlet = Outlet { state, memory };
                let call = match r.below(2) {
                    0 => OutletCall::Take {
                        room: OUTLET_PACKET,
                    },
                    _ => OutletCall::Offer {
                        channel: r.below(CHANNELS) as u8,
                        octets: vec![1, 2, 3],
                    },
                };
                let answer = outlet.call(&call, &mut r);
                let is_64 = answer == Answer::Refused(64);
                assert!(is_64 || number >> bits == 0, "{at}: {number}");
                unsound += usize::from(is_64);
                passed += usize::from(!is_64);
            }
        }
    }
    println!("{unsound} {passed}");
    assert!(unsound > 10_000 && passed > 1_000);
}

/// Four packets of five octets in the first four places of each channel, place
/// k with slot k.
fn half_held() -> State {
    let mut state = open();
    for (channel, ring) in state.channels.iter_mut().enumerate() {
        ring.count = 4;
        ring.lengths = [5; HELD];
        for place in 0..HELD {
            ring.slots[place] = (HELD * channel + place) as u8;
        }
    }
    state
}

/// Whether 64 refuses a number at that place of the row of `half_held`, by
/// 02's words: "over eight held, a held length outside 1 to 1,024 .. or a
/// number out of range". A slot is one of 64, held or not, a ring starts at one
/// of eight places; of a place that holds nothing a length counts only if it
/// does not fit 16 bits.
fn is_refused(at: usize, number: u64) -> bool {
    let is_held = |place: usize| place % HELD < 4;
    match at {
        0..8 => number > 7,
        8..16 => number > 8,
        16..80 => number > 63,
        80..144 if is_held(at - 80) => !(1..=1_024).contains(&number),
        80..144 => number > 65_535,
        _ => number > 7,
    }
}

/// Every number of a row from C, at the last number that passes and the first
/// that does not, and past eight, 16 and 32 bits; places held and not.
#[test]
fn every_number_at_its_border() {
    let mut r = Random::new(1_007);
    let sound = Outlet::of(&half_held(), outlet_memory(&mut r, OUTLET_MEMORY));
    let (mut refused, mut passed) = (0, 0);
    for at in 0..OUTLET_STATE {
        let borders: &[u64] = match at {
            0..8 | 144 => &[0, 7, 8, 255, 256],
            8..16 => &[0, 8, 9, 255, 256],
            16..80 => &[63, 64, 200, 255, 256],
            _ => &[0, 1, 1_024, 1_025, 65_535, 65_536],
        };
        for &number in borders.iter().chain(&[1 << 32, u64::MAX]) {
            let expected = is_refused(at, number);
            for call in [
                OutletCall::Take {
                    room: OUTLET_PACKET,
                },
                OutletCall::Offer {
                    channel: 7,
                    octets: vec![1, 2, 3],
                },
            ] {
                let (mut state, memory) = (sound.state.clone(), sound.memory.clone());
                state[at] = number;
                let answer = Outlet { state, memory }.call(&call, &mut r);
                let is_64 = answer == Answer::Refused(64);
                assert_eq!(is_64, expected, "{at}: {number}: {answer:?}");
            }
            refused += usize::from(expected);
            passed += usize::from(!expected);
        }
    }
    println!("{refused} {passed}");
    assert!(refused > 500 && passed > 300);
}

/// The same borders from Rattle: a line for a number, a mark for each place of
/// the state where it was put, `x` if 64 refuses it.
#[test]
fn borders_from_rattle() {
    let memory = vec![0; OUTLET_MEMORY];
    let mark = |state: &State| {
        let refused = take(*state, &memory, &mut [0; OUTLET_PACKET]);
        let is_64 = refused.is_err_and(|refusal| refusal.number == 64);
        if is_64 {
            'x'
        } else {
            '.'
        }
    };
    let mut expected = String::new();
    let mut line = |kind: &str, number: u64, places: usize, put: &dyn Fn(&mut State, usize)| {
        let marks = (0..places).map(|place| {
            let mut state = half_held();
            put(&mut state, place);
            mark(&state)
        });
        let marks: String = marks.collect();
        expected += &format!("{kind} {number} {marks}\n");
    };
    for head in [0, 7, 8, 255] {
        line("head", head, 8, &|state, at| {
            state.channels[at].head = head as u8
        });
    }
    for count in [0, 8, 9, 255] {
        line("count", count, 8, &|state, at| {
            state.channels[at].count = count as u8
        });
    }
    for next in [0, 7, 8, 255] {
        line("next", next, 1, &|state, _| state.next = next as u8);
    }
    for slot in [63, 64, 255] {
        line("slot", slot, 64, &|state, at| {
            state.channels[at / HELD].slots[at % HELD] = slot as u8;
        });
    }
    for length in [0, 1, 1_024, 1_025, 65_535] {
        line("length", length, 64, &|state, at| {
            state.channels[at / HELD].lengths[at % HELD] = length as u16;
        });
    }
    // `rt check` holds the program to this file.
    let printed = include_str!("../../crates/example_egress/stdout");
    assert!(printed.ends_with(&expected), "{expected}");
    assert_eq!(expected.lines().count(), 20);
}

/// A row that is too short is 255 before all else, and nothing is written.
#[test]
fn rows_too_short() {
    let mut r = Random::new(1006);
    let sound = Outlet::of(&outlet_state(&mut r), outlet_memory(&mut r, OUTLET_MEMORY));
    let calls = |memory: &[u8]| {
        let packet = vec![1];
        let offer = Call::OutletOffer { channel: 9, packet };
        let memory = memory.to_vec();
        [offer, Call::OutletTake { memory }]
    };
    for call in calls(&sound.memory) {
        for (state, answer) in (0..OUTLET_STATE)
            .map(|state| (state, ANSWER))
            .chain((0..ANSWER).map(|answer| (OUTLET_STATE, answer)))
        {
            let mut before = sound.lend(&sound.memory, &mut r);
            before.state = lent(&sound.state[..state], &mut r, |draw| draw);
            before.answer = Lent::new(answer, &mut r, |draw| draw);
            let (number, after) = compare(&call, &before);
            assert_eq!(number, ROW);
            assert_eq!(after, before);
        }
    }
    for state in 0..OUTLET_STATE {
        let mut before = sound.lend(&[], &mut r);
        before.state = lent(&sound.state[..state], &mut r, |draw| draw);
        let (number, after) = compare(&Call::OutletOpen, &before);
        assert_eq!((number, &after), (ROW, &before));
    }
}
