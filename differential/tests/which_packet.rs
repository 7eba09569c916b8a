//! Which packet a record came in (02, K13): the limit of a field's packets, and
//! fields sent on in the packets that they arrived in, through the archive.

use differential::call::{compare, Call, Lengths, Lent, Memory};
use differential::model::number_of;
use differential::{Head, ANSWER, HELD, OVERFULL, STATE, WHOLE};
use reference::anc::INDEX;
use reference::random::{carried, list, split_records, Parts, Random};
use reference::runs::{A, HEAD};
use reference::{packet, Layout};

/// A depacketizer that has heard one marked packet, numbered just before
/// `HEAD`'s, and a store.
fn ready(layout: Layout, store: usize, r: &mut Random) -> Memory {
    let lengths = Lengths {
        answer: ANSWER,
        state: STATE,
        cells: store,
        ..Lengths::default()
    };
    let call = Call::Open {
        source: HEAD.source,
        payload_type: HEAD.payload_type,
    };
    let (number, memory) = compare(&call, &Memory::new(lengths, r));
    assert_eq!(number, 0);
    let head = packet::Head {
        number: HEAD.number - 1,
        marker: true,
        ..head(layout)
    };
    arrive(layout, head, &[], &memory).1
}

fn head(layout: Layout) -> packet::Head {
    packet::Head {
        f: if layout == Layout::Draft2015 { 0 } else { 2 },
        ..HEAD
    }
}

/// One arrival: the octets, the memory then and the kind of the answer.
fn arrive(
    layout: Layout,
    head: packet::Head,
    cells: &[u16],
    memory: &Memory,
) -> (Vec<u8>, Memory, u64) {
    let octets = Parts::of(layout, head, cells).assemble();
    let call = Call::Arrive {
        layout: number_of(layout),
        octets: octets.clone(),
    };
    let (number, after) = compare(&call, memory);
    assert_eq!(number, 0);
    let kind = after.answer.get()[0];
    (octets, after, kind)
}

/// 4,096 packets of one field, the last with a record and without; the 4,097th
/// is overfull, with a record and without, marked or not.
#[test]
fn the_packets_of_a_field() {
    let mut r = Random::new(131);
    for layout in Layout::ALL {
        let mut memory = ready(layout, 9, &mut r);
        let number = |k: u32| HEAD.number + k;
        for k in 0..4_095 {
            let head = packet::Head {
                number: number(k),
                marker: false,
                ..head(layout)
            };
            let (_, after, kind) = arrive(layout, head, &[], &memory);
            assert_eq!((kind, after.state.get()[14]), (HELD, k as u64 + 1));
            memory = after;
        }
        for cells in [&A[..], &[]] {
            let last = packet::Head {
                number: number(4_095),
                marker: true,
                ..head(layout)
            };
            let (_, after, kind) = arrive(layout, last, cells, &memory);
            assert_eq!((kind, after.answer.get()[5]), (WHOLE, 4_096));
            assert_eq!(after.state.get()[14], 0);
            assert!(cells.is_empty() || after.cells.get()[INDEX] == 4_095);
            let held = packet::Head {
                marker: false,
                ..last
            };
            let (_, full, kind) = arrive(layout, held, &[], &memory);
            assert_eq!((kind, full.state.get()[14]), (HELD, 4_096));
            for (marker, phase) in [(true, 1), (false, 0)] {
                let over = packet::Head {
                    number: number(4_096),
                    marker,
                    ..head(layout)
                };
                let (_, after, kind) = arrive(layout, over, cells, &full);
                assert_eq!((kind, after.state.get()[2]), (OVERFULL, phase));
                assert_eq!(after.state.get()[14], 0);
                assert_eq!(after.cells, full.cells);
            }
        }
    }
}

/// What was met of packets without records.
#[derive(Debug, Default)]
struct Met {
    first: usize,
    between: usize,
    last: usize,
}

/// Packet k of a whole field has the records with index k, a packet without
/// records is sent empty, and the last is marked: written so, they are the
/// packets that arrived.
#[test]
fn sent_on() {
    let mut r = Random::new(132);
    let mut met = Met::default();
    for _ in 0..1_000 {
        let layout = r.layout();
        let packets: Vec<Vec<u16>> = (0..1 + r.below(6))
            .map(|_| {
                let records = r.pick(&[0, 0, 1, 2, 3]);
                carried(layout, list(&mut r, records))
            })
            .collect();
        let count = packets.len();
        met.first += usize::from(count > 1 && packets[0].is_empty());
        met.last += usize::from(count > 1 && packets[count - 1].is_empty());
        let between = packets.get(1..count - 1).unwrap_or_default();
        met.between += usize::from(between.iter().any(Vec::is_empty));
        let mut memory = ready(layout, 20_000, &mut r);
        let mut arrived = Vec::new();
        for (k, cells) in packets.iter().enumerate() {
            let head = packet::Head {
                number: HEAD.number + k as u32,
                marker: k + 1 == count,
                ..head(layout)
            };
            let (octets, after, kind) = arrive(layout, head, cells, &memory);
            assert_eq!(kind, if head.marker { WHOLE } else { HELD });
            memory = after;
            arrived.push(octets);
        }
        assert_eq!(sends_on(layout, &memory, &mut r), arrived);
    }
    assert!(met.first.min(met.between).min(met.last) > 100, "{met:?}");
}

/// The packets of the whole field that an arrival left, by the answer and the
/// store alone.
fn sends_on(layout: Layout, memory: &Memory, r: &mut Random) -> Vec<Vec<u8>> {
    let [_, timestamp, f, _, cells, packets, ..] = *memory.answer.get() else {
        panic!("no answer");
    };
    let store = &memory.cells.get()[..cells as usize];
    let of = |index: u64| {
        let records = split_records(store).into_iter();
        let its = records.filter(|record| record[INDEX] as u64 == index);
        its.flatten().copied().collect::<Vec<u16>>()
    };
    let mut out = memory.clone();
    out.octets = Lent::new(20_000, r, |draw| draw as u8);
    (0..packets)
        .map(|index| {
            let call = Call::Write {
                layout: number_of(layout),
                head: Head {
                    source: HEAD.source,
                    payload_type: HEAD.payload_type,
                    marker: (index + 1 == packets) as u8,
                    number: HEAD.number + index as u32,
                    timestamp: timestamp as u32,
                    f: f as u8,
                },
                cells: of(index),
            };
            let (number, after) = compare(&call, &out);
            assert_eq!(number, 0);
            after.octets.get()[..after.answer.get()[0] as usize].to_vec()
        })
        .collect()
}
