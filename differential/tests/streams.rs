//! Whole streams of either layout through both sides, the state carried
//! through the row: loss, repeats, packets out of order, foreign and damaged
//! octets, told either layout, wrap of the packet number, restarts; and packets
//! in no well-formed fields, told any number.

use std::collections::BTreeMap;

use differential::call::{compare, Call, Lengths, Lent, Memory};
use differential::inputs::told;
use differential::model::number_of;
use differential::{ANSWER, DRAFTS, LAYOUT, RFC8331, STATE, WHOLE};
use reference::packet::check;
use reference::random::{arrivals, cycles, stream, wild_packets, Random};

/// What the arrivals of all streams were answered.
#[derive(Debug, Default)]
struct Met {
    kinds: [[usize; 5]; 2],
    /// By the layout told, then the number.
    refused: BTreeMap<(u8, u8), usize>,
    /// Fields handed out after the packet number wrapped.
    wrapped: [usize; 2],
}

impl Met {
    /// Refusals by a number where that layout was told.
    fn of(&self, layout: u8, number: u8) -> usize {
        self.refused.get(&(layout, number)).copied().unwrap_or(0)
    }
}

/// How the store is lent along a stream.
#[derive(Clone, Copy)]
enum Store {
    /// The same length, whatever it holds where nothing is gathered.
    Fixed(usize),
    /// Another length at each call, while a field is gathered too.
    Changing,
}

fn length(store: Store, r: &mut Random) -> usize {
    match store {
        Store::Fixed(length) => length,
        Store::Changing => r.pick(&[0, 9, 40, 300, 2_000, 36_864, 40_000]),
    }
}

/// Gathered cells stay; the rest of the store, and the rows but for the
/// state, are filled at random before each call.
fn lend(memory: &Memory, store: Store, r: &mut Random) -> Memory {
    let length = length(store, r);
    let mut cells = Lent::new(length, r, |draw| draw as u16);
    let gathered = memory.state.get()[8] as usize;
    let kept = memory.cells.get().iter().take(gathered);
    for (cell, &kept) in cells.get_mut().iter_mut().zip(kept) {
        *cell = kept;
    }
    Memory {
        answer: Lent::new(ANSWER + r.below(3), r, |draw| draw),
        cells,
        ..memory.clone()
    }
}

fn opened(source: u32, payload_type: u8, r: &mut Random) -> Memory {
    let lengths = Lengths {
        answer: ANSWER,
        state: STATE + r.below(3),
        ..Lengths::default()
    };
    let call = Call::Open {
        source,
        payload_type,
    };
    let (number, memory) = compare(&call, &Memory::new(lengths, r));
    assert_eq!(number, 0);
    memory
}

/// Octets and the layout told with them.
type Arrival<'a> = (u8, &'a [u8]);

fn deliver(arrivals: &[Arrival], mut memory: Memory, store: Store, r: &mut Random, met: &mut Met) {
    let mut highest = 0;
    for &(layout, octets) in arrivals {
        let lent = lend(&memory, store, r);
        let octets = octets.to_vec();
        let (number, after) = compare(&Call::Arrive { layout, octets }, &lent);
        assert!(number != LAYOUT || after == lent);
        memory = after;
        if number != 0 {
            *met.refused.entry((layout, number)).or_default() += 1;
            continue;
        }
        let (kind, told) = (memory.answer.get()[0], layout as usize);
        met.kinds[told][kind as usize] += 1;
        let last = memory.state.get()[4];
        met.wrapped[told] += (kind == WHOLE && last < highest) as usize;
        highest = highest.max(last);
    }
}

fn store(r: &mut Random) -> Store {
    match r.below(8) {
        0 => Store::Changing,
        1 => Store::Fixed(r.below(600)),
        2 => Store::Fixed(20_000),
        _ => Store::Fixed(2_000),
    }
}

/// A stream is in one layout, told at each arrival of a sent packet.
#[test]
fn fields_with_trouble() {
    let mut r = Random::new(201);
    let mut met = Met::default();
    for _ in 0..7_000 {
        let (fields, layout) = (1 + r.below(24), r.layout());
        let stream = stream(&mut r, layout, fields, 4);
        let arrivals = arrivals(&mut r, &stream);
        let packets: Vec<Arrival> = arrivals
            .iter()
            .map(|arrival| (number_of(stream.told(arrival)), stream.octets(arrival)))
            .collect();
        let memory = opened(stream.source, stream.payload_type, &mut r);
        let store = store(&mut r);
        deliver(&packets, memory, store, &mut r, &mut met);
    }
    println!("{met:?}");
    for layout in [RFC8331, DRAFTS] {
        let told = layout as usize;
        assert!(met.kinds[told][WHOLE as usize] > 2_000, "{met:?}");
        assert!(met.wrapped[told] > 100, "{met:?}");
        for number in [7, 16, 30, 31, 32, 35] {
            assert!(met.of(layout, number) > 10, "{layout} {number}: {met:?}");
        }
    }
    assert!(met.of(DRAFTS, 15) > 10, "{met:?}");
}

/// Streams one behind the other, as an encoder sends them that restarts, most
/// of them far from the last number of the one before.
#[test]
fn encoders_that_restart() {
    let mut r = Random::new(203);
    let mut met = Met::default();
    for _ in 0..4_000 {
        let layout = r.layout();
        let cycles = cycles(&mut r, layout);
        let mut packets: Vec<Arrival> = Vec::new();
        for (stream, arrivals) in &cycles {
            let told = |arrival| (number_of(stream.told(arrival)), stream.octets(arrival));
            packets.extend(arrivals.iter().map(told));
        }
        let (first, _) = &cycles[0];
        let memory = opened(first.source, first.payload_type, &mut r);
        let store = store(&mut r);
        deliver(&packets, memory, store, &mut r, &mut met);
    }
    println!("{met:?}");
    for layout in [RFC8331, DRAFTS] {
        assert!(
            met.kinds[layout as usize][WHOLE as usize] > 1_000,
            "{met:?}"
        );
        assert!(met.of(layout, 36) > 1_000, "{met:?}");
    }
}

#[test]
fn packets_in_no_fields() {
    let mut r = Random::new(202);
    let mut met = Met::default();
    for _ in 0..7_000 {
        let (count, layout) = (1 + r.below(40), r.layout());
        let packets = wild_packets(&mut r, layout, count);
        let first = packets.iter().find_map(|octets| check(layout, octets).ok());
        let Some(first) = first.map(|accepted| accepted.summary) else {
            continue;
        };
        let packets: Vec<Arrival> = packets
            .iter()
            .map(|octets| (told(&mut r, layout), octets.as_slice()))
            .collect();
        let memory = opened(first.source, first.payload_type, &mut r);
        let store = store(&mut r);
        deliver(&packets, memory, store, &mut r, &mut met);
    }
    println!("{met:?}");
    assert!(
        met.kinds.as_flattened().iter().all(|&times| times > 200),
        "{met:?}"
    );
    for (layout, own) in [(RFC8331, 6), (DRAFTS, 15)] {
        let both = (2..=5).chain(7..=13).chain([16, 30, 31, 32, 35]);
        for number in both.chain([own]) {
            assert!(met.of(layout, number) > 0, "{layout} {number}: {met:?}");
        }
    }
    assert!(
        (DRAFTS + 1..=255).all(|layout| met.of(layout, LAYOUT) > 0),
        "{met:?}"
    );
}
