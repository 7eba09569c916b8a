//! Demand 3 as it is stated, over the whole list of arrivals: which fields
//! are handed out follows from the fresh arrivals by the order of sending,
//! and nothing here looks at distances.

use std::ops::Range;

use reference::depacketizer::{arrive, open, Answer, State};
use reference::fieldlist;
use reference::frames::put_frame;
use reference::random::*;
use reference::Layout;

/// Places in the stream of each arrival that is fresh: sent later than every
/// such arrival before it.
fn fresh_arrivals(arrivals: &[Arrival]) -> Vec<usize> {
    let (mut fresh, mut latest) = (Vec::new(), None);
    for arrival in arrivals {
        if let Arrival::Sent(index) = *arrival {
            if Some(index) > latest {
                fresh.push(index);
            }
            latest = latest.max(Some(index));
        }
    }
    fresh
}

/// No arrival of a sent packet lies over 2,999 ahead of the last fresh one, or
/// 100 or more behind (02, K11).
fn near(arrivals: &[Arrival]) -> bool {
    let mut last: Option<usize> = None;
    arrivals.iter().all(|arrival| {
        let (Arrival::Sent(index), before) = (arrival, last) else {
            return true;
        };
        last = last.max(Some(*index));
        before.is_none_or(|before| *index <= before + 2_999 && before < index + 100)
    })
}

/// The packets of each field, as places in the stream.
fn fields(stream: &Stream) -> Vec<Range<usize>> {
    let mut fields: Vec<Range<usize>> = Vec::new();
    for (index, sent) in stream.sent.iter().enumerate() {
        match fields.get_mut(sent.field) {
            Some(packets) => packets.end = index + 1,
            None => fields.push(index..index + 1),
        }
    }
    fields
}

/// Timestamp, F, records, packets and cells of a field as sent: each record has
/// the index of its packet in the field.
type Field = (u32, u8, usize, usize, Vec<u16>);

fn as_sent(stream: &Stream, packets: Range<usize>) -> Field {
    let packets = &stream.sent[packets];
    (
        packets[0].head.timestamp,
        packets[0].head.f,
        packets.iter().map(|sent| sent.records).sum(),
        packets.len(),
        packets
            .iter()
            .enumerate()
            .flat_map(|(index, sent)| indexed(&sent.cells, index as u16))
            .collect(),
    )
}

/// A field is handed out exactly when all its packets, and the one sent just
/// before them, are among the fresh arrivals.
fn expected(stream: &Stream, fresh: &[usize]) -> Vec<Field> {
    let is_fresh = |index| fresh.binary_search(&index).is_ok();
    fields(stream)
        .into_iter()
        .filter(|packets| packets.start > 0)
        .filter(|packets| (packets.start - 1..packets.end).all(is_fresh))
        .map(|packets| as_sent(stream, packets))
        .collect()
}

fn deliver(stream: &Stream, arrivals: &[Arrival], store: usize) -> (State, Vec<Field>) {
    let state = open(stream.source, stream.payload_type).unwrap();
    deliver_from(state, stream, arrivals, store)
}

fn deliver_from(
    mut state: State,
    stream: &Stream,
    arrivals: &[Arrival],
    store: usize,
) -> (State, Vec<Field>) {
    let mut store = vec![0; store];
    let mut handed = Vec::new();
    for arrival in arrivals {
        if state.phase != 2 {
            store.fill(0xBEEF);
        }
        let (told, octets) = (stream.told(arrival), stream.octets(arrival));
        let (next, answer) = arrive(state, told, octets, &mut store);
        state = next;
        if let Answer::Whole {
            timestamp,
            f,
            records,
            cells,
            packets,
        } = answer
        {
            handed.push((timestamp, f, records, packets, store[..cells].to_vec()));
        }
    }
    (state, handed)
}

/// Demand 3's conclusion of a state and what was handed out.
fn holds(stream: &Stream, arrivals: &[Arrival], after: &(State, Vec<Field>)) -> bool {
    let (state, handed) = after;
    let fresh = fresh_arrivals(arrivals);
    let sent = arrivals
        .iter()
        .filter(|arrival| matches!(arrival, Arrival::Sent(_)))
        .count();
    let span = match (fresh.first(), fresh.last()) {
        (Some(first), Some(last)) => last - first + 1,
        _ => 0,
    };
    *handed == expected(stream, &fresh)
        && state.fresh == fresh.len() as u64
        && state.late == (sent - fresh.len()) as u64
        && state.fresh + state.missing == span as u64
}

fn check(stream: &Stream, arrivals: &[Arrival], store: usize) -> usize {
    assert!(near(arrivals));
    let after = deliver(stream, arrivals, store);
    assert!(holds(stream, arrivals, &after));
    after.1.len()
}

/// The most cells of a field.
fn widest(stream: &Stream) -> usize {
    let cells = fields(stream)
        .into_iter()
        .map(|packets| as_sent(stream, packets).4.len());
    cells.max().unwrap_or(0)
}

#[test]
fn random_streams() {
    let mut r = Random::new(21);
    let mut handed = 0;
    for _ in 0..6_000 {
        let fields = 1 + r.below(12);
        let most = 1 + r.below(5);
        let layout = r.layout();
        let stream = stream(&mut r, layout, fields, most);
        let arrivals = arrivals(&mut r, &stream);
        handed += check(&stream, &arrivals, widest(&stream));
    }
    assert!(handed > 2_000);
}

/// Arrivals drawn with no order at all.
#[test]
fn shuffled_streams() {
    let mut r = Random::new(22);
    for _ in 0..5_000 {
        let fields = 1 + r.below(4);
        let layout = r.layout();
        let stream = stream(&mut r, layout, fields, 3);
        let arrivals: Vec<Arrival> = (0..r.below(14))
            .map(|_| Arrival::Sent(r.below(stream.sent.len())))
            .collect();
        check(&stream, &arrivals, 20_000);
    }
}

/// A long stream of small fields.
fn long_stream(r: &mut Random, layout: Layout) -> Stream {
    stream(r, layout, 9_000, 2)
}

/// The next arrival: on from the last fresh one, or a late one, up to the
/// borders of what is near; a step further is one that is not.
fn jump(r: &mut Random, last: usize, over: usize) -> usize {
    match r.below(16) {
        0 => last + r.pick(&[2_999 + over, 2_998, 2_997]),
        1 => last + 1 + r.below(2_999),
        2 => last.saturating_sub(r.pick(&[99 + over, 98, 97, 1, 0])),
        3 => last.saturating_sub(r.below(100)),
        4 => last + 2,
        _ => last + 1,
    }
}

/// Lists of a long stream whose arrivals jump, near ones and others.
fn jumps(r: &mut Random, stream: &Stream, over: usize) -> Vec<Arrival> {
    let mut last = r.below(200);
    let mut arrivals = vec![Arrival::Sent(last)];
    for _ in 0..40 {
        let index = jump(r, last, over);
        if index >= stream.sent.len() {
            break;
        }
        last = last.max(index);
        arrivals.push(Arrival::Sent(index));
    }
    arrivals
}

/// Arrivals up to 2,999 ahead and 99 behind.
#[test]
fn near_lists_of_long_streams() {
    let mut r = Random::new(25);
    let (mut handed, mut furthest, mut latest) = (0, 0, 0);
    for layout in Layout::ALL {
        let stream = long_stream(&mut r, layout);
        for _ in 0..400 {
            let arrivals = jumps(&mut r, &stream, 0);
            handed += check(&stream, &arrivals, 20_000);
            let mut last = 0;
            for (place, arrival) in arrivals.iter().enumerate() {
                let Arrival::Sent(index) = *arrival else {
                    continue;
                };
                furthest += (place > 0 && index == last + 2_999) as usize;
                latest += (index + 99 == last) as usize;
                last = last.max(index);
            }
        }
    }
    assert!(handed > 1_000 && furthest > 100 && latest > 100);
}

/// An arrival one further, ahead or behind, and demand 3 does not hold: it is
/// refused by 36, and counted nowhere.
#[test]
fn the_borders_of_near() {
    let mut r = Random::new(26);
    let (mut near_ones, mut others) = (0, 0);
    for layout in Layout::ALL {
        let stream = long_stream(&mut r, layout);
        for _ in 0..400 {
            let arrivals = jumps(&mut r, &stream, 1);
            let after = deliver(&stream, &arrivals, 20_000);
            if near(&arrivals) {
                assert!(holds(&stream, &arrivals, &after));
                near_ones += 1;
            }
            let Some(size) = (1..=arrivals.len()).find(|&size| !near(&arrivals[..size])) else {
                continue;
            };
            let (to, before) = (&arrivals[..size], &arrivals[..size - 1]);
            let (state, handed) = deliver(&stream, before, 20_000);
            let after = deliver(&stream, to, 20_000);
            assert_eq!((after.0.fresh, after.0.late), (state.fresh, state.late));
            assert_eq!((after.0.last, &after.1), (state.last, &handed));
            assert!(after.0.remembered.is_some());
            assert!(!holds(&stream, to, &after));
            others += 1;
        }
    }
    assert!(near_ones > 10 && others > 100);
}

/// It holds again from the restarting packet on, as from a depacketizer just
/// opened, whatever came before; and so after each of several restarts.
#[test]
fn again_from_a_restart() {
    let mut r = Random::new(27);
    let (mut restarts, mut handed) = (0, 0);
    for _ in 0..2_000 {
        let layout = r.layout();
        let mut before = stream(&mut r, layout, 4, 3);
        let arrivals_before = arrivals(&mut r, &before);
        let (mut state, _) = deliver(&before, &arrivals_before, 20_000);
        for _ in 0..r.below(4) {
            if !state.heard {
                break;
            }
            let (after, tail) = cycle(&mut r, state, &before);
            let opened = deliver(&after, &tail, 20_000);
            let state_before = far_first(&mut r, state, &after);
            let again = deliver_from(state_before, &after, &tail, 20_000);
            assert_eq!(again, opened);
            assert!(near(&tail) && holds(&after, &tail, &again));
            restarts += 1;
            handed += again.1.len();
            (state, before) = (again.0, after);
        }
    }
    assert!(restarts > 1_000 && handed > 1_000);
}

/// A stream that starts far from the last fresh number, and arrivals of it, of
/// which the first is its second packet, the restarting one.
fn cycle(r: &mut Random, state: State, before: &Stream) -> (Stream, Vec<Arrival>) {
    let empty = Stream {
        sent: Vec::new(),
        ..before.clone()
    };
    // After 100 behind comes 99 behind, which is not far.
    let away = match far(r) {
        0xFFFF_FF9C => 0xFFFF_FF9B,
        away => away,
    };
    let stream = stream_from(r, empty, state.last.wrapping_add(away), 5, 3);
    let mut tail = vec![Arrival::Sent(1)];
    tail.extend(arrivals(r, &stream));
    (stream, tail)
}

/// The state after the stream's first packet, which is far and refused, and at
/// times octets that are refused too.
fn far_first(r: &mut Random, state: State, stream: &Stream) -> State {
    let refused = [Arrival::Sent(0), Arrival::Other(stream.layout, Vec::new())];
    let (after, handed) = deliver_from(state, stream, &refused[..1 + r.below(2)], 20_000);
    let remembered = Some(stream.sent[0].head.number.wrapping_add(1));
    assert_eq!(
        after,
        State {
            remembered,
            ..state
        }
    );
    assert!(handed.is_empty());
    after
}

/// Every list of up to six arrivals of a stream of five packets, for every
/// way to cut it into fields, over the wrap of the number.
#[test]
fn every_small_list() {
    let mut r = Random::new(23);
    for cuts in 0..16_u32 {
        let layout = Layout::ALL[cuts as usize % 2];
        let stream = cut_stream(&mut r, layout, cuts);
        for length in 0..=6 {
            for code in 0..5_usize.pow(length) {
                let place = |at| Arrival::Sent(code / 5_usize.pow(at) % 5);
                let arrivals: Vec<Arrival> = (0..length).map(place).collect();
                check(&stream, &arrivals, 200);
            }
        }
    }
}

/// Five packets, a field ending after each whose bit is set and at the end.
fn cut_stream(r: &mut Random, layout: Layout, cuts: u32) -> Stream {
    let mut stream = Stream {
        layout,
        source: 1,
        payload_type: 96,
        sent: Vec::new(),
    };
    let mut field = 0;
    for index in 0..5 {
        let marker = index == 4 || cuts >> index & 1 == 1;
        let cells = carried(layout, record(r, index));
        let head = reference::packet::Head {
            source: 1,
            payload_type: 96,
            marker,
            number: 0xFFFF_FFFE_u32.wrapping_add(index as u32),
            timestamp: 1000 * (field as u32 / 2),
            f: 0,
        };
        stream.sent.push(Sent {
            head,
            records: 1,
            octets: Parts::of(layout, head, &cells).assemble(),
            cells,
            field,
        });
        field += marker as usize;
    }
    stream
}

/// The program's counts and whole lines agree with the statement too.
#[test]
fn listings_of_streams() {
    let mut r = Random::new(24);
    for _ in 0..500 {
        let layout = r.layout();
        let stream = stream(&mut r, layout, 6, 3);
        let mut arrivals = arrivals(&mut r, &stream);
        arrivals.retain(|arrival| matches!(arrival, Arrival::Sent(_)));
        let mut input = Vec::new();
        for arrival in &arrivals {
            put_frame(stream.octets(arrival), &mut input);
        }
        let fresh = fresh_arrivals(&arrivals);
        let fields = expected(&stream, &fresh);
        let text = fieldlist(layout, &input);
        let wholes = text.lines().filter(|line| line.contains(" whole ")).count();
        assert_eq!(wholes, fields.len());
        let records: usize = fields.iter().map(|field| field.2).sum();
        let listed = text.lines().filter(|line| line.starts_with(' ')).count();
        assert_eq!(listed, records);
        let lates = text.lines().filter(|line| line.ends_with(" late")).count();
        assert_eq!(lates, arrivals.len() - fresh.len());
    }
}
