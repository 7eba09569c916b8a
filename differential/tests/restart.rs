//! Encoders that restart (02, K11) through both sides, the state carried through
//! the row: every distance around the borders, and runs of restarts in
//! mid-field, twice in a row, with late, foreign and refused octets between.

use differential::call::{compare, Call, Lengths, Memory};
use differential::model::row_of;
use differential::{ANSWER, RFC8331, STATE};
use reference::depacketizer::{open, State, FILLING, LOST, READY};
use reference::packet::Head;
use reference::random::{Parts, Random};

const A: [u16; 9] = [0, 9, 0, 0, 0, 0x41, 0x05, 0, 0];

fn packet(source: u32, number: u32, marker: bool) -> Vec<u8> {
    let head = Head {
        source,
        payload_type: 96,
        marker,
        number,
        timestamp: 9,
        f: 2,
    };
    Parts::plain(head, &A).assemble()
}

/// A depacketizer that has heard, with counts of its own.
fn heard(last: u32, phase: u8, remembered: Option<u32>) -> State {
    let filling = phase == FILLING;
    State {
        phase,
        heard: true,
        last,
        timestamp: if filling { 9 } else { 0 },
        f: if filling { 2 } else { 0 },
        records: if filling { 2 } else { 0 },
        cells: if filling { 18 } else { 0 },
        packets: if filling { 2 } else { 0 },
        fresh: 70,
        late: 8,
        missing: 500,
        remembered,
        ..open(5, 96).unwrap()
    }
}

fn lent(state: &State, r: &mut Random) -> Memory {
    let lengths = Lengths {
        answer: ANSWER,
        state: STATE,
        cells: 40,
        ..Lengths::default()
    };
    let mut memory = Memory::new(lengths, r);
    memory.state.get_mut().copy_from_slice(&row_of(state));
    memory
}

/// The distances near every border, as signed numbers.
fn distances() -> impl Iterator<Item = i32> {
    let near = |at: i32| (-3..=3).map(move |by| at.wrapping_add(by));
    [0, -99, 2_999, i32::MAX, 1 << 16]
        .into_iter()
        .flat_map(near)
}

/// What 02 says of a distance, and of a memory; the far ones change the two
/// last numbers of the row alone.
#[test]
fn distances_around_the_borders() {
    let mut r = Random::new(1101);
    let mut met = [0; 3];
    for (last, phase) in [0, 5, 0x8000_0000, u32::MAX]
        .into_iter()
        .flat_map(|last| [LOST, READY, FILLING].map(|phase| (last, phase)))
    {
        for distance in distances() {
            let number = last.wrapping_add(distance as u32);
            for remembered in [None, Some(number), Some(number.wrapping_add(1)), Some(last)] {
                let expected = match distance {
                    1..=2_999 => 0,
                    -99..=0 => 32,
                    _ if remembered == Some(number) => 0,
                    _ => 36,
                };
                let octets = packet(5, number, r.below(2) == 0);
                let memory = lent(&heard(last, phase, remembered), &mut r);
                let call = Call::Arrive {
                    layout: RFC8331,
                    octets,
                };
                let (given, after) = compare(&call, &memory);
                assert_eq!(given, expected, "{last} {distance} {remembered:?}");
                met[match given {
                    0 => 0,
                    32 => 1,
                    _ => 2,
                }] += 1;
                if given == 36 {
                    let (kept, row) = (memory.state.get(), after.state.get());
                    assert_eq!(row[..12], kept[..12]);
                    assert_eq!(row[12..14], [1, number.wrapping_add(1) as u64]);
                    assert_eq!(row[14], kept[14]);
                    assert_eq!(after.cells, memory.cells);
                }
                if given == 0 {
                    assert_eq!(after.state.get()[12..14], [0, 0]);
                }
            }
        }
    }
    assert!(met.iter().all(|&times| times > 100), "{met:?}");
}

/// Which number arrives next, of an encoder that is switched off and on: mostly
/// the one after the last; from time to time it starts anywhere, or one is late,
/// ahead or the remembered one.
fn next_number(r: &mut Random, number: &mut u32, remembered: u32) -> u32 {
    match r.below(12) {
        0 => {
            let anywhere = r.draw() as u32;
            *number = r.pick(&[0, 1, u32::MAX, anywhere, number.wrapping_sub(100)]);
        }
        1 => return number.wrapping_sub(r.below(120) as u32),
        2 => return number.wrapping_add(2_990 + r.below(20) as u32),
        3 => return remembered,
        _ => *number = number.wrapping_add(1),
    }
    *number
}

/// How often a restart was what 02 leaves open: in mid-field, just behind
/// another, or with a late, a foreign or a cut packet since the far one.
#[derive(Debug, Default)]
struct Restarts {
    all: usize,
    filling: usize,
    again: usize,
    between: [usize; 3],
}

impl Restarts {
    fn add(&mut self, before: &[u64], since: &[u8]) {
        self.all += 1;
        self.filling += (before[2] == FILLING as u64) as usize;
        self.again += (before[9] == 1) as usize;
        for (times, number) in self.between.iter_mut().zip([32, 30, 2]) {
            *times += since.contains(&number) as usize;
        }
    }
}

fn is_far(last: u64, number: u32) -> bool {
    !(-99..=2_999).contains(&(number.wrapping_sub(last as u32) as i32))
}

/// An encoder that is switched off and on, from where it is to anywhere; what
/// arrives between is late, foreign, cut, far once or twice.
#[test]
fn power_cycles() {
    let mut r = Random::new(1102);
    let mut met = Restarts::default();
    for _ in 0..2_000 {
        let mut memory = lent(&open(5, 96).unwrap(), &mut r);
        let mut number = r.draw() as u32;
        let mut since = Vec::new();
        for _ in 0..60 {
            let before = memory.state.get().to_vec();
            let arriving = next_number(&mut r, &mut number, before[13] as u32);
            let source = if r.below(15) == 0 { 6 } else { 5 };
            let mut octets = packet(source, arriving, r.below(3) == 0);
            if r.below(15) == 0 {
                octets.truncate(11);
            }
            let call = Call::Arrive {
                layout: RFC8331,
                octets,
            };
            let (given, after) = compare(&call, &memory);
            if given == 0 && before[3] == 1 && is_far(before[4], arriving) {
                met.add(&before, &since);
                assert_eq!(after.state.get()[9..], [1, 0, 0, 0, 0, 0]);
            }
            match given {
                0 | 36 => since.clear(),
                _ => since.push(given),
            }
            memory = after;
        }
    }
    println!("{met:?}");
    assert!(
        met.all > 1_000 && met.filling > 100 && met.again > 100,
        "{met:?}"
    );
    assert!(met.between.iter().all(|&times| times > 20), "{met:?}");
}
