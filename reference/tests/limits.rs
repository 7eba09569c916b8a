//! The limits of a field at their borders, gathered from many packets
//! (02, K2 and K13): 4,095 records, 36,864 cells, 4,096 packets, the store.

use reference::anc::Limits;
use reference::depacketizer::{arrive, open, Answer, State, FILLING, LOST, READY};
use reference::file;
use reference::layout::Layout;
use reference::packet::Head;
use reference::random::{indexed, list_of_cells, record, split_records, Parts, Random};

/// The packets' answers, and the state and the store after them. A marked
/// packet comes first, so that the field can start; the last is marked.
fn gather(packets: &[Vec<u16>], store: usize) -> (Vec<Answer>, State, Vec<u16>) {
    let mut state = open(1, 96).unwrap();
    let mut store = vec![0x5A5A; store];
    let mut answers = Vec::new();
    let lead = [Vec::new()];
    for (index, cells) in lead.iter().chain(packets).enumerate() {
        let head = Head {
            source: 1,
            payload_type: 96,
            marker: index == 0 || index == packets.len(),
            number: 0xFFFF_FFFA_u32.wrapping_add(index as u32),
            timestamp: 9,
            f: 3,
        };
        let octets = Parts::plain(head, cells).assemble();
        let (next, answer) = arrive(state, Layout::Rfc8331, &octets, &mut store);
        state = next;
        answers.push(answer);
    }
    assert_eq!(answers.remove(0), Answer::Skipped);
    (answers, state, store)
}

/// The cells of the packets, each with its index in the field.
fn joined(packets: &[Vec<u16>]) -> Vec<u16> {
    let numbered = packets.iter().enumerate();
    numbered
        .flat_map(|(index, cells)| indexed(cells, index as u16))
        .collect()
}

fn whole(packets: &[Vec<u16>]) -> Answer {
    let cells = packets.concat();
    Answer::Whole {
        timestamp: 9,
        f: 3,
        records: split_records(&cells).len(),
        cells: cells.len(),
        packets: packets.len(),
    }
}

/// All held but the last, which makes the field whole.
fn fits(packets: &[Vec<u16>], store: usize) {
    let (answers, state, after) = gather(packets, store);
    let (last, held) = answers.split_last().unwrap();
    assert!(held.iter().all(|&answer| answer == Answer::Held));
    assert_eq!(*last, whole(packets));
    let cells = joined(packets);
    assert_eq!(after[..cells.len()], cells);
    assert!(after[cells.len()..].iter().all(|&cell| cell == 0x5A5A));
    assert_eq!(
        (state.phase, state.fresh),
        (READY, 1 + packets.len() as u64)
    );
}

/// The last packet is one too many: it writes nothing, and since it is
/// marked the depacketizer is ready.
fn overfull(packets: &[Vec<u16>], store: usize) {
    let (answers, state, after) = gather(packets, store);
    let (last, held) = answers.split_last().unwrap();
    assert!(held.iter().all(|&answer| answer == Answer::Held));
    assert_eq!(*last, Answer::Overfull);
    let cells = joined(&packets[..packets.len() - 1]);
    assert_eq!(after[..cells.len()], cells);
    assert!(after[cells.len()..].iter().all(|&cell| cell == 0x5A5A));
    assert_eq!((state.phase, state.records, state.cells), (READY, 0, 0));
    assert_eq!(state.packets, 0);
}

fn records(counts: &[usize]) -> Vec<Vec<u16>> {
    let mut r = Random::new(31);
    let packet = |&count| (0..count).flat_map(|_| record(&mut r, 0)).collect();
    counts.iter().map(packet).collect()
}

fn cells(counts: &[usize]) -> Vec<Vec<u16>> {
    let mut r = Random::new(32);
    let packet = |&count| list_of_cells(&mut r, count);
    counts.iter().map(packet).collect()
}

#[test]
fn records_of_a_field() {
    fits(&records(&[255, 1]), 40_000);
    let mut counts = vec![255; 16];
    counts.push(15);
    fits(&records(&counts), 36_855);
    overfull(&records(&counts), 36_854);
    *counts.last_mut().unwrap() = 16;
    // 4,096 records are 36,864 cells: the records alone are too many.
    overfull(&records(&counts), 40_000);
    counts.extend([0]);
    let (answers, state, _) = gather(&records(&counts), 40_000);
    assert_eq!(answers[16..], [Answer::Overfull, Answer::Skipped]);
    assert_eq!(state.phase, READY);
}

#[test]
fn cells_of_a_field() {
    fits(&cells(&[36_864]), 36_864);
    overfull(&cells(&[36_864]), 36_863);
    overfull(&cells(&[36_865]), 40_000);
    fits(&cells(&[18_432, 18_432]), 36_864);
    overfull(&cells(&[18_432, 18_432]), 36_863);
    overfull(&cells(&[18_432, 18_433]), 40_000);
    fits(&cells(&[36_864, 0]), 36_864);
    overfull(&cells(&[36_864, 9]), 40_000);
}

/// 4,096 packets are a field, with records or without; one more is not, nor is
/// it with records in the last alone.
#[test]
fn packets_of_a_field() {
    let of = |packets: usize, with: &dyn Fn(usize) -> bool| {
        let counts: Vec<usize> = (0..packets).map(|index| with(index) as usize).collect();
        records(&counts)
    };
    let none: &dyn Fn(usize) -> bool = &|_| false;
    let last: &dyn Fn(usize) -> bool = &|index| index >= 4_095;
    let later: &dyn Fn(usize) -> bool = &|index| index > 0;
    for with in [none, last, later] {
        fits(&of(4_096, with), 36_864);
        overfull(&of(4_097, with), 36_864);
    }
    // One record each: 4,095 records are as many as fit.
    fits(&of(4_095, &|_| true), 36_855);
    overfull(&of(4_096, &|_| true), 36_864);
    // After it the depacketizer gathers anew.
    let mut packets = of(4_098, none);
    packets.push(records(&[2]).concat());
    let (answers, _, _) = gather(&packets, 100);
    assert_eq!(answers[4_095], Answer::Held);
    assert_eq!(
        answers[4_096..],
        [Answer::Overfull, Answer::Skipped, Answer::Skipped]
    );
}

/// Mixed comes before overfull.
#[test]
fn another_timestamp_in_a_full_field() {
    let full = State {
        phase: FILLING,
        heard: true,
        last: 7,
        timestamp: 9,
        f: 3,
        packets: 4_096,
        ..open(1, 96).unwrap()
    };
    for (timestamp, f, expected) in [
        (9, 3, Answer::Overfull),
        (8, 3, Answer::Mixed),
        (9, 2, Answer::Mixed),
    ] {
        let head = Head {
            source: 1,
            payload_type: 96,
            marker: false,
            number: 8,
            timestamp,
            f,
        };
        let octets = Parts::plain(head, &[]).assemble();
        let (after, answer) = arrive(full, Layout::Rfc8331, &octets, &mut []);
        assert_eq!((answer, after.phase, after.packets), (expected, LOST, 0));
    }
}

/// What the limits allowed before the ninth cell still fits: 32,768 cells of
/// 8 + n in 4,095 records are 36,863 of 9 + n.
#[test]
fn what_fitted_still_fits() {
    const { assert!(32_768 + 4_095 <= Limits::FIELD.cells) };
    const { assert!(32_768 + 255 <= Limits::PACKET.cells) };
    let mut r = Random::new(33);
    let mut list: Vec<u16> = (0..4_094).flat_map(|_| record(&mut r, 0)).collect();
    // The last has the 8 cells left of 32,768 for its words.
    list.extend(record(&mut r, 8));
    assert_eq!((list.len() - 4_095, list.len()), (32_768, 36_863));
    let mut out = vec![0; 100_000];
    assert!(file::write(0, 0, &list, &mut out).is_ok());
}

/// An unmarked packet that overfills leaves the depacketizer lost.
#[test]
fn overfull_and_unmarked() {
    let mut packets = cells(&[36_864, 9]);
    packets.push(Vec::new());
    packets.push(Vec::new());
    let (answers, state, _) = gather(&packets, 40_000);
    let [held, full, skipped, last] = answers[..] else {
        panic!()
    };
    assert_eq!((held, full), (Answer::Held, Answer::Overfull));
    assert_eq!((skipped, last), (Answer::Skipped, Answer::Skipped));
    assert_eq!(state.phase, READY);
}
