//! Encoders that restart (02, K11) by hand: every distance around the borders,
//! what is remembered and what clears it, and restarts from every distance.

use reference::depacketizer::{arrive, open, Answer, State, FILLING, LOST, READY};
use reference::frames::put_frame;
use reference::packet::Head;
use reference::random::Parts;
use reference::{fieldlist, Layout, Refusal};

const LAYOUT: Layout = Layout::Rfc8331;
const A: [u16; 9] = [0, 9, 0, 0, 0, 0x41, 0x05, 0, 0];

fn packet(number: u32, marker: bool) -> Vec<u8> {
    let head = Head {
        source: 5,
        payload_type: 96,
        marker,
        number,
        timestamp: 9,
        f: 2,
    };
    Parts::plain(head, &A).assemble()
}

/// A depacketizer that has heard, with counts of its own.
fn heard(last: u32, phase: u8) -> State {
    let (records, cells) = if phase == FILLING { (2, 20) } else { (0, 0) };
    State {
        phase,
        heard: true,
        last,
        timestamp: if phase == FILLING { 9 } else { 0 },
        f: if phase == FILLING { 2 } else { 0 },
        records,
        cells,
        packets: (phase == FILLING) as usize,
        fresh: 70,
        late: 8,
        missing: 500,
        ..open(5, 96).unwrap()
    }
}

/// One arrival; a refusal writes nothing.
fn one(state: State, number: u32, marker: bool) -> (State, Answer) {
    let mut store = [0x5A5A; 100];
    let (after, answer) = arrive(state, LAYOUT, &packet(number, marker), &mut store);
    let writes = matches!(answer, Answer::Held | Answer::Whole { .. });
    assert!(writes || store == [0x5A5A; 100]);
    (after, answer)
}

const LATE: Answer = Answer::Refused(Refusal::plain(32));
const FAR: Answer = Answer::Refused(Refusal::plain(36));

/// The answers to marked packets, one after the other.
fn run(mut state: State, numbers: &[u32]) -> (State, Vec<Answer>) {
    let mut answers = Vec::new();
    for &number in numbers {
        let (after, answer) = one(state, number, true);
        state = after;
        answers.push(answer);
    }
    (state, answers)
}

/// The state just after a first arrival.
fn just_restarted(number: u32, marker: bool) -> State {
    State {
        phase: if marker { READY } else { LOST },
        heard: true,
        last: number,
        fresh: 1,
        ..open(5, 96).unwrap()
    }
}

#[test]
fn marked_examples() {
    for (last, number, answer) in [
        (0, 0xBB7, Answer::Skipped),
        (0, 0xBB8, FAR),
        (0, 0xFFFF_FF9D, LATE),
        (0, 0xFFFF_FF9C, FAR),
        (0, 0x7FFF_FFFF, FAR),
        (0, 0x8000_0000, FAR),
    ] {
        assert_eq!(one(heard(last, READY), number, true).1, answer);
    }
    let (after, answer) = one(heard(0xFFFF_FFFF, READY), 0, true);
    assert!(matches!(answer, Answer::Whole { .. }));
    assert_eq!((after.last, after.fresh, after.missing), (0, 71, 500));
}

/// Distances around every border and some between, from every phase and over
/// the wrap.
#[test]
fn every_distance() {
    let around = [-0x8000_0000_i64, -100, -99, 0, 1, 2, 2_999, 3_000];
    let distances = around
        .into_iter()
        .flat_map(|border| border - 3..=border + 3)
        .chain([-50, -500, -70_000, 500, 65_536, 1 << 30, -(1 << 30)]);
    for distance in distances {
        for last in [0, 5, 99, 100, 0xFFFF_FFFF, 0xFFFF_F448, 0x8000_0000] {
            for phase in [LOST, READY, FILLING] {
                one_distance(distance, heard(last, phase));
            }
        }
    }
}

fn one_distance(distance: i64, state: State) {
    let number = (state.last as i64 + distance) as u32;
    for (remembered, marker) in [(None, true), (Some(number.wrapping_add(7)), false)] {
        let state = State {
            remembered,
            ..state
        };
        let (after, answer) = one(state, number, marker);
        match distance {
            -99..=0 => {
                let late = state.late + 1;
                assert_eq!((after, answer), (State { late, ..state }, LATE));
            }
            1..=2_999 => {
                assert!(!matches!(answer, Answer::Refused(_)));
                assert_eq!(
                    answer == Answer::Skipped,
                    distance > 1 || state.phase == LOST
                );
                assert_eq!((after.last, after.remembered), (number, None));
                assert_eq!((after.fresh, after.late), (71, 8));
                assert_eq!(after.missing, 500 + distance as u64 - 1);
            }
            _ => {
                let remembered = Some(number.wrapping_add(1));
                let only = State {
                    remembered,
                    ..state
                };
                assert_eq!((after, answer), (only, FAR));
            }
        }
    }
}

/// A far arrival and then the number after it, at every distance around the
/// borders: a restart, but for the one that is late by then.
#[test]
fn restarts_at_every_distance() {
    let around = [
        -0x8000_0000_i64,
        -3_000,
        -200,
        3_000,
        4_000,
        65_536,
        1 << 30,
    ];
    let near = (-110..=-100).chain(3_000..3_010);
    let distances = around
        .into_iter()
        .flat_map(|border| border..=border + 3)
        .chain(near);
    for distance in distances {
        for last in [0, 101, 70_000, 0xFFFF_FFFF, 0x8000_0000] {
            for phase in [LOST, READY, FILLING] {
                let state = heard(last, phase);
                let number = (last as i64 + distance) as u32;
                let (remembering, answer) = one(state, number, true);
                assert_eq!(answer, FAR);
                let then = number.wrapping_add(1);
                for marker in [false, true] {
                    let (after, answer) = one(remembering, then, marker);
                    if distance == -100 {
                        let late = 9;
                        assert_eq!(
                            (after, answer),
                            (
                                State {
                                    late,
                                    ..remembering
                                },
                                LATE
                            )
                        );
                    } else {
                        assert_eq!(after, just_restarted(then, marker));
                        assert_eq!(answer, Answer::Skipped);
                    }
                }
            }
        }
    }
}

#[test]
fn what_restarts() {
    let state = heard(100_000, READY);
    let whole = Answer::Whole {
        timestamp: 9,
        f: 2,
        records: 1,
        cells: 9,
        packets: 1,
    };
    let skipped = Answer::Skipped;
    // Far, and the number after it; then a field of its own.
    let (after, answers) = run(state, &[7, 8, 9]);
    assert_eq!(answers, [FAR, skipped, whole]);
    assert_eq!((after.fresh, after.late, after.missing), (2, 0, 0));
    // A late arrival does not clear the memory.
    let (after, answers) = run(state, &[7, 99_990, 8, 11]);
    assert_eq!(answers, [FAR, LATE, skipped, skipped]);
    assert_eq!((after.fresh, after.late, after.missing), (2, 0, 2));
    // A fresh one does, next or ahead.
    for fresh in [100_001, 100_002, 102_999] {
        let (after, answers) = run(state, &[7, fresh, 8]);
        assert_eq!([answers[0], answers[2]], [FAR, FAR]);
        assert_eq!((after.last, after.remembered), (fresh, Some(9)));
        assert_eq!((after.fresh, after.late), (71, 8));
    }
    // The same far twice, or another: the last one's counts.
    let (after, answers) = run(state, &[7, 7, 7]);
    assert_eq!((answers, after.remembered), (vec![FAR; 3], Some(8)));
    let (after, answers) = run(state, &[7, 9, 8, 9]);
    assert_eq!(answers, [FAR, FAR, FAR, skipped]);
    assert_eq!(after, just_restarted(9, true));
    // Backwards is none.
    assert_eq!(run(state, &[9, 8, 7]).1, [FAR; 3]);
    // The wrap: after 2^32 - 1 comes 0.
    let (after, answers) = run(state, &[0xFFFF_FFFF, 0]);
    assert_eq!(answers, [FAR, skipped]);
    assert_eq!(after, just_restarted(0, true));
    // A restart clears the memory: the old numbers are far by now.
    let (after, answers) = run(state, &[7, 8, 100_001, 100_002]);
    assert_eq!(answers, [FAR, skipped, FAR, skipped]);
    assert_eq!(after, just_restarted(100_002, true));
}

/// Only a far arrival can restart: the remembered number that is next, ahead or
/// late is that.
#[test]
fn near_numbers_do_not_restart() {
    for (away, answer) in [
        (2, Answer::Skipped),
        (2_999, Answer::Skipped),
        (-99_i32, LATE),
    ] {
        let number = 100_000_u32.wrapping_add_signed(away);
        let state = State {
            remembered: Some(number),
            ..heard(100_000, READY)
        };
        let (after, given) = one(state, number, true);
        assert_eq!(given, answer);
        assert_eq!(after.missing, 500 + away.max(1) as u64 - 1);
        let kept = (answer == LATE).then_some(number);
        assert_eq!(after.remembered, kept);
    }
}

/// Nothing else that is refused clears the memory: 35, 1 to 16, 30, 31.
#[test]
fn what_does_not_clear() {
    let state = State {
        remembered: Some(8),
        ..heard(100_000, READY)
    };
    let mut other = packet(8, true);
    other[8] ^= 1;
    let mut typed = packet(8, true);
    typed[1] ^= 1;
    let mut summed = packet(8, true);
    summed[28] ^= 1;
    for (octets, number) in [(vec![], 2), (other, 30), (typed, 31), (summed, 11)] {
        let (after, answer) = arrive(state, LAYOUT, &octets, &mut [0; 9]);
        assert_eq!(answer, Answer::Refused(Refusal::plain(number)));
        assert_eq!(after, state);
    }
    let unsound = State {
        records: 1,
        ..state
    };
    let (after, answer) = one(unsound, 8, true);
    assert_eq!(answer, Answer::Refused(Refusal::plain(35)));
    assert_eq!(after, unsound);
    assert_eq!(one(state, 8, true).0, just_restarted(8, true));
}

/// Counts return to zero from anywhere; the first arrival needs no memory and
/// clears one.
#[test]
fn counts_and_first_arrivals() {
    let full = State {
        fresh: u64::MAX,
        late: u64::MAX,
        missing: u64::MAX,
        remembered: Some(8),
        ..heard(100_000, FILLING)
    };
    assert_eq!(
        one(full, 8, false),
        (just_restarted(8, false), Answer::Skipped)
    );
    assert_eq!(
        one(full, 9, false).0,
        State {
            remembered: Some(10),
            ..full
        }
    );
    for remembered in [None, Some(8), Some(9)] {
        let opened = State {
            remembered,
            ..open(5, 96).unwrap()
        };
        assert_eq!(one(opened, 8, true).0, just_restarted(8, true));
    }
}

/// A far arrival prints as refused, a restart as skipped; the counts are those
/// from the last restart on.
#[test]
fn listings() {
    let mut input = Vec::new();
    for number in [9_000, 9_001, 5, 9_000, 6, 7, 7, 9] {
        put_frame(&packet(number, true), &mut input);
    }
    let output = "fieldlist 1\n\
        9000 skipped\n\
        9001 whole ts=9 f=2 records=1\n \
        y line=9 off=0 s=0/0 did=41 sdid=05 words=0\n\
        refused 36 0\n\
        9000 late\n\
        6 skipped\n\
        7 whole ts=9 f=2 records=1\n \
        y line=9 off=0 s=0/0 did=41 sdid=05 words=0\n\
        7 late\n\
        9 skipped\n\
        fresh=3 late=1 missing=1\n";
    assert_eq!(fieldlist(LAYOUT, &input), output);
}
