//! What the boundary adds: rows too short, rows longer than need be, numbers
//! that no layout has, and numbers that are no state.

use differential::call::{compare, Call, Lengths, Memory};
use differential::inputs::BOUNDED;
use differential::model::{number_of, row_of};
use differential::{Head, ANSWER, DRAFTS, LAYOUT, NO_VPID, RFC8331, ROW, STATE};
use reference::depacketizer::open;
use reference::packet;
use reference::random::Random;
use reference::runs::{A, HEAD};
use reference::Layout;

fn head(payload_type: u8) -> Head {
    Head {
        source: HEAD.source,
        payload_type,
        marker: HEAD.marker as u8,
        number: HEAD.number,
        timestamp: HEAD.timestamp,
        f: 0,
    }
}

/// Record A's packet.
fn packet(layout: Layout) -> Vec<u8> {
    let mut out = vec![0; 40];
    let head = packet::Head { f: 0, ..HEAD };
    let size = packet::write(layout, &head, &A, &mut out).unwrap();
    out.truncate(size);
    out
}

fn file() -> Vec<u8> {
    let mut out = vec![0; 24];
    reference::file::begin(&mut out).unwrap();
    reference::file::write(9, 2, &A, &mut out[5..]).unwrap();
    out
}

/// For each function with a row a call that is accepted and one that is
/// refused, where the rows are long enough; in both layouts, and told none.
fn calls() -> Vec<(Call, u8)> {
    let mut calls = [
        both(opened, [112, 128], 24),
        both(text, ["DID_SDID={0x41,0x05};VPID_Code=7", ";"], 41),
        both(pairs, [2, 3], 41),
        both(field, [2, 1], 53),
        both(|at| Call::FileRead { file: file(), at }, [5, 4], 55),
        vec![(Call::FileBegin, 0)],
        both(|start| line_write(start), [0, 41], 71),
        both(|start| line_read(start), [0, 8], 71),
    ]
    .concat();
    for made in Layout::ALL {
        let [own, none] = [number_of(made), 2 + number_of(made)];
        let octets = packet(made);
        let cut = octets[..11].to_vec();
        for (call, number) in [
            both(|octets| read(own, octets), [octets.clone(), cut.clone()], 2),
            both(|octets| strict(own, octets), [octets.clone(), cut.clone()], 2),
            both(|octets| arrive(own, octets), [octets.clone(), cut], 2),
            both(|payload_type| write(own, payload_type), [112, 128], 24),
        ]
        .concat()
        {
            calls.extend([(told(&call, none), LAYOUT), (call, number)]);
        }
    }
    calls
}

/// The call with another layout.
fn told(call: &Call, told: u8) -> Call {
    let mut call = call.clone();
    match &mut call {
        Call::Read { layout, .. }
        | Call::ReadStrict { layout, .. }
        | Call::Write { layout, .. }
        | Call::Arrive { layout, .. } => *layout = told,
        _ => {}
    }
    call
}

fn both<T>(call: impl Fn(T) -> Call, [good, bad]: [T; 2], number: u8) -> Vec<(Call, u8)> {
    vec![(call(good), 0), (call(bad), number)]
}

fn read(layout: u8, octets: Vec<u8>) -> Call {
    Call::Read { layout, octets }
}

fn strict(layout: u8, octets: Vec<u8>) -> Call {
    Call::ReadStrict { layout, octets }
}

fn arrive(layout: u8, octets: Vec<u8>) -> Call {
    Call::Arrive { layout, octets }
}

fn write(layout: u8, payload_type: u8) -> Call {
    let (head, cells) = (head(payload_type), A.to_vec());
    Call::Write {
        layout,
        head,
        cells,
    }
}

fn opened(payload_type: u8) -> Call {
    let source = 1;
    Call::Open {
        source,
        payload_type,
    }
}

fn line_write(start: usize) -> Call {
    let cells = A.to_vec();
    Call::LineWrite { start, cells }
}

fn line_read(start: usize) -> Call {
    let mut line = vec![0; 7];
    reference::sdi::write(&mut line, 0, &A).unwrap();
    let place = [0, 9, 0, 0, 0];
    Call::LineRead { line, start, place }
}

fn text(text: &str) -> Call {
    let text = text.as_bytes().to_vec();
    Call::SdpRead { text }
}

fn pairs(octets: usize) -> Call {
    let (pairs, vpid) = (vec![0x41; octets], NO_VPID);
    Call::SdpWrite { pairs, vpid }
}

fn field(f: u8) -> Call {
    let (timestamp, cells) = (9, A.to_vec());
    Call::FileWrite {
        timestamp,
        f,
        cells,
    }
}

fn lent(answer: usize, state: usize, r: &mut Random) -> Memory {
    let lengths = Lengths {
        answer,
        state,
        cells: 40,
        octets: 100,
    };
    let mut memory = Memory::new(lengths, r);
    let row = row_of(&open(1, 112).unwrap());
    for (into, number) in memory.state.get_mut().iter_mut().zip(row) {
        *into = number;
    }
    memory
}

#[test]
fn short_answer_rows() {
    let mut r = Random::new(301);
    for (call, _) in calls() {
        for length in 0..ANSWER {
            let memory = lent(length, STATE, &mut r);
            assert_eq!(compare(&call, &memory), (ROW, memory), "{call:?} {length}");
        }
    }
}

#[test]
fn short_state_rows() {
    let mut r = Random::new(302);
    for (call, number) in calls() {
        let takes_state = matches!(call, Call::Open { .. } | Call::Arrive { .. });
        for length in 0..STATE {
            let memory = lent(ANSWER, length, &mut r);
            let (given, after) = compare(&call, &memory);
            assert_eq!(given, if takes_state { ROW } else { number });
            assert!(!takes_state || after == memory, "{call:?} {length}");
        }
    }
}

/// The rows just long enough, and longer: what is past the answer or the
/// state stays.
#[test]
fn rows_long_enough() {
    let mut r = Random::new(303);
    for (call, number) in calls() {
        for more in 0..4 {
            let memory = lent(ANSWER + more, STATE + more, &mut r);
            let (given, after) = compare(&call, &memory);
            assert_eq!(given, number, "{call:?}");
            let kept = match number {
                0 => ANSWER,
                LAYOUT => 0,
                _ => 1,
            };
            assert_eq!(after.answer.get()[kept..], memory.answer.get()[kept..]);
            assert_eq!(after.state.get()[STATE..], memory.state.get()[STATE..]);
        }
    }
}

/// A number of no layout, every one of them, with the rows long enough, longer
/// and each by itself too short: 254 and, first, 255. Nothing is written.
#[test]
fn numbers_that_are_no_layout() {
    let mut r = Random::new(306);
    let octets = packet(Layout::Rfc8331);
    for layout in DRAFTS + 1..=255 {
        for (answer, state, number) in [
            (ANSWER, STATE, LAYOUT),
            (ANSWER + 3, STATE + 3, LAYOUT),
            (ANSWER - 1, STATE, ROW),
            (0, STATE, ROW),
        ] {
            for call in [
                read(layout, octets.clone()),
                strict(layout, octets.clone()),
                arrive(layout, octets.clone()),
                write(layout, 112),
                // Refused in any layout.
                read(layout, Vec::new()),
                strict(layout, Vec::new()),
                arrive(layout, Vec::new()),
                write(layout, 128),
            ] {
                let memory = lent(answer, state, &mut r);
                assert_eq!(compare(&call, &memory), (number, memory), "{call:?}");
            }
        }
        let memory = lent(ANSWER, STATE - 1, &mut r);
        let call = arrive(layout, octets.clone());
        assert_eq!(compare(&call, &memory), (ROW, memory), "{call:?}");
    }
}

/// 35 and nothing changed but the index; told no layout, 254 and nothing
/// changed. Each number is the state's own, so that a cut to its width would
/// be accepted.
#[test]
fn numbers_that_are_no_state() {
    let mut r = Random::new(304);
    let octets = Layout::ALL.map(packet);
    let mut refused = |at: usize, number: u64| {
        for (layout, octets) in [
            (RFC8331, octets[0].clone()),
            (DRAFTS, octets[1].clone()),
            (DRAFTS, octets[0].clone()),
            (RFC8331, Vec::new()),
        ] {
            let mut memory = lent(ANSWER, STATE, &mut r);
            memory.state.get_mut()[at] = number;
            let none = compare(&arrive(2, octets.clone()), &memory);
            assert_eq!(none, (LAYOUT, memory.clone()), "{at} {number}");
            let (given, after) = compare(&arrive(layout, octets), &memory);
            memory.answer.get_mut()[0] = 0;
            assert_eq!((given, after), (35, memory), "{at} {number}");
        }
    };
    let row = row_of(&open(1, 112).unwrap());
    for (at, width) in BOUNDED {
        for bit in width..64 {
            refused(at, row[at] | 1 << bit);
        }
        refused(at, u64::MAX);
    }
    for phase in [3, 4, 255] {
        refused(2, phase);
    }
    refused(3, 2);
    refused(12, 2);
}

/// The largest numbers that a state can have are taken: 30 and 31 say so.
#[test]
fn largest_numbers_of_a_state() {
    let mut r = Random::new(305);
    for (at, number, given) in [
        (0, u32::MAX as u64, 30),
        (1, 255, 31),
        (4, u32::MAX as u64, 0),
        (12, 1, 0),
        (13, u32::MAX as u64, 0),
        (5, u32::MAX as u64, 0),
        (6, 255, 0),
        (14, 0, 0),
    ] {
        let mut memory = lent(ANSWER, STATE, &mut r);
        memory.state.get_mut()[at] = number;
        for layout in Layout::ALL {
            let call = arrive(number_of(layout), packet(layout));
            assert_eq!(compare(&call, &memory).0, given);
        }
    }
}
