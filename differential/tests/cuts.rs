//! The same fields cut into packets in two ways (02, K8): each delivered
//! entirely and in order to a depacketizer just opened, after one marked
//! packet numbered just before. Both hand out fields that are equal, one by
//! one, apart from the ninth cell (02, K13) and the number of packets, and each
//! is the field that was cut, with the index of each record's packet.

use differential::call::{compare, Call, Lengths, Lent, Memory};
use differential::model::number_of;
use differential::{ANSWER, HELD, SKIPPED, STATE, WHOLE};
use reference::anc::Limits;
use reference::packet::Head;
use reference::random::{carried, dress, head, indexed, list, list_of_cells, record};
use reference::random::{split_records, Parts, Random};
use reference::Layout;

/// A field as a sender has it, before it is cut.
#[derive(Clone, Debug)]
struct Field {
    timestamp: u32,
    f: u8,
    cells: Vec<u16>,
}

/// A field as a caller gets it: the answer, and the cells of the store.
#[derive(Clone, Debug, PartialEq, Eq)]
struct Handed {
    timestamp: u64,
    f: u64,
    records: u64,
    cells: u64,
    packets: u64,
    content: Vec<u16>,
}

impl Field {
    /// As it was cut into these packets.
    fn as_sent(&self, packets: &[Vec<u16>]) -> Handed {
        let numbered = packets.iter().enumerate();
        Handed {
            timestamp: self.timestamp as u64,
            f: self.f as u64,
            records: split_records(&self.cells).len() as u64,
            cells: self.cells.len() as u64,
            packets: packets.len() as u64,
            content: numbered
                .flat_map(|(index, cells)| indexed(cells, index as u16))
                .collect(),
        }
    }
}

impl Handed {
    /// Apart from the ninth cell and from what tells the cut.
    fn apart(&self) -> Handed {
        Handed {
            packets: 0,
            content: indexed(&self.content, 0),
            ..self.clone()
        }
    }
}

/// What was met.
#[derive(Debug, Default)]
struct Met {
    fields: usize,
    /// Fields in one packet, in one packet for each of several records, and
    /// with a packet without records at the beginning, inside, at the end.
    one_packet: usize,
    each_alone: usize,
    empty_first: usize,
    empty_inside: usize,
    empty_last: usize,
    /// Fields cut in two ways that differ.
    cut_differently: usize,
    /// Fields without records, and those of a field's limits.
    without_records: usize,
    of_the_limits: usize,
    /// Pairs of deliveries in two layouts, and in the drafts' both times.
    two_layouts: usize,
    both_old: usize,
    /// Deliveries whose number wraps, whose leading packet has records, and
    /// whose store is just as large as the largest field.
    wraps: usize,
    lead_with_records: usize,
    store_just_enough: usize,
}

/// A field that both layouts can carry; one in a while as large as can be.
fn field(r: &mut Random, layouts: [Layout; 2]) -> Field {
    let most = Limits::FIELD;
    let cells = match r.below(600) {
        0 => (0..most.records).flat_map(|_| record(r, 0)).collect(),
        1 => list_of_cells(r, most.cells),
        _ => {
            let records = r.pick(&[0, 1, 2, 3, 5, 8, 13]);
            list(r, records)
        }
    };
    let old = layouts.contains(&Layout::Draft2015);
    let held = if old { Layout::Draft2015 } else { layouts[0] };
    Field {
        timestamp: r.draw() as u32,
        f: if old { 0 } else { r.pick(&[0, 2, 3]) },
        cells: carried(held, cells),
    }
}

/// The records' cells by packets: in one packet, a record to a packet, or at
/// random, with packets without records among them. A packet counts 255
/// records, and a field's cells fit one.
fn cut(r: &mut Random, cells: &[u16]) -> Vec<Vec<u16>> {
    let records = split_records(cells);
    let way = r.below(4);
    let mut packets = vec![Vec::new()];
    for (index, record) in records.iter().enumerate() {
        let last = packets.last().expect("there is one");
        let full = split_records(last).len() == Limits::PACKET.records;
        let behind = match way {
            0 => 0,
            1 => usize::from(index > 0),
            _ => r.pick(&[0, 0, 0, 0, 1, 1, 2, 3]),
        };
        for _ in 0..behind.max(usize::from(full)) {
            packets.push(Vec::new());
        }
        packets.last_mut().expect("there is one").extend(*record);
    }
    if way > 1 {
        packets.extend(vec![Vec::new(); r.pick(&[0, 0, 0, 1, 2])]);
    }
    packets
}

fn count(met: &mut Met, field: &Field, cuts: [&[Vec<u16>]; 2]) {
    let (records, most) = (split_records(&field.cells).len(), Limits::FIELD);
    met.fields += 1;
    met.cut_differently += usize::from(cuts[0] != cuts[1]);
    met.without_records += usize::from(records == 0);
    met.of_the_limits += usize::from(records == most.records || field.cells.len() == most.cells);
    for packets in cuts {
        let inside = packets.get(1..packets.len() - 1).unwrap_or_default();
        met.one_packet += usize::from(records > 1 && packets.len() == 1);
        met.each_alone += usize::from(
            records > 1 && packets.len() == records && packets.iter().all(|p| !p.is_empty()),
        );
        met.empty_first += usize::from(packets.len() > 1 && packets[0].is_empty());
        met.empty_inside += usize::from(inside.iter().any(Vec::is_empty));
        met.empty_last += usize::from(packets.len() > 1 && packets[packets.len() - 1].is_empty());
    }
}

/// One arrival with a store of a length of its own, unless a field is
/// gathered: then the store as it was left. Returns the kind of the answer.
fn arrive(r: &mut Random, memory: &mut Memory, least: usize, parts: &Parts) -> u64 {
    let filling = memory.state.get()[2] == 2;
    if !filling {
        let length = least + r.pick(&[0, 0, 1, 7, 300]);
        memory.cells = Lent::new(length, r, |draw| draw as u16);
    }
    let call = Call::Arrive {
        layout: number_of(parts.layout),
        octets: parts.assemble(),
    };
    let (number, after) = compare(&call, memory);
    assert_eq!(number, 0, "{call:?}");
    *memory = after;
    memory.answer.get()[0]
}

/// A packet with a record or none, and at times padding, an extension,
/// sources and reserved bits.
fn packet(r: &mut Random, layout: Layout, head: Head, cells: &[u16]) -> Parts {
    let mut parts = Parts::of(layout, head, cells);
    if r.one_in(4) {
        dress(r, &mut parts);
    }
    parts
}

/// The fields delivered entirely and in order, cut in one way: another
/// source, type, first number, leading packet and stores each time.
fn deliver(
    r: &mut Random,
    layout: Layout,
    fields: &[(Field, Vec<Vec<u16>>)],
    met: &mut Met,
) -> Vec<Handed> {
    let least = fields.iter().map(|(field, _)| field.cells.len()).max();
    let least = least.unwrap_or(0);
    let lead = Head {
        marker: true,
        f: if layout == Layout::Draft2015 { 0 } else { 2 },
        ..head(r)
    };
    let lengths = Lengths {
        answer: ANSWER,
        state: STATE,
        ..Lengths::default()
    };
    let call = Call::Open {
        source: lead.source,
        payload_type: lead.payload_type,
    };
    let (number, mut memory) = compare(&call, &Memory::new(lengths, r));
    assert_eq!(number, 0);
    let records = r.below(3);
    let cells = carried(layout, list(r, records));
    let parts = packet(r, layout, lead, &cells);
    assert_eq!(arrive(r, &mut memory, least, &parts), SKIPPED);
    met.lead_with_records += usize::from(records > 0);
    let (mut handed, mut before) = (Vec::new(), lead.number);
    for (field, packets) in fields {
        for (index, cells) in packets.iter().enumerate() {
            let last = index + 1 == packets.len();
            let head = Head {
                marker: last,
                number: before.wrapping_add(1),
                timestamp: field.timestamp,
                f: field.f,
                ..lead
            };
            met.wraps += usize::from(head.number == 0);
            before = head.number;
            let parts = packet(r, layout, head, cells);
            let kind = arrive(r, &mut memory, least, &parts);
            assert_eq!(kind, if last { WHOLE } else { HELD });
            let store = memory.cells.get();
            met.store_just_enough += usize::from(last && store.len() == field.cells.len());
            if let [WHOLE, timestamp, f, records, cells, packets, ..] = *memory.answer.get() {
                handed.push(Handed {
                    timestamp,
                    f,
                    records,
                    cells,
                    packets,
                    content: store[..cells as usize].to_vec(),
                });
            }
        }
    }
    handed
}

#[test]
fn the_same_fields_cut_in_two_ways() {
    let mut r = Random::new(801);
    let mut met = Met::default();
    for _ in 0..3_000 {
        let layouts = [r.layout(), r.layout()];
        let fields: Vec<Field> = (0..1 + r.below(6))
            .map(|_| field(&mut r, layouts))
            .collect();
        let mut cuts = |_| -> Vec<_> {
            let cut_field = |field: &Field| (field.clone(), cut(&mut r, &field.cells));
            fields.iter().map(cut_field).collect()
        };
        let [one, other] = [0, 1].map(&mut cuts);
        for ((field, a), (_, b)) in one.iter().zip(&other) {
            count(&mut met, field, [a, b]);
        }
        met.two_layouts += usize::from(layouts[0] != layouts[1]);
        met.both_old += usize::from(layouts == [Layout::Draft2015; 2]);
        let handed = [(layouts[0], &one), (layouts[1], &other)].map(|(layout, cut)| {
            let handed = deliver(&mut r, layout, cut, &mut met);
            let sent = cut.iter().map(|(field, packets)| field.as_sent(packets));
            assert_eq!(handed, sent.collect::<Vec<_>>());
            handed.iter().map(Handed::apart).collect::<Vec<_>>()
        });
        assert_eq!(handed[0], handed[1]);
    }
    println!("{met:?}");
    assert!(met.cut_differently > met.fields / 2, "{met:?}");
    for times in [
        met.one_packet,
        met.each_alone,
        met.empty_first,
        met.empty_inside,
        met.empty_last,
        met.without_records,
        met.two_layouts,
        met.both_old,
        met.wraps,
        met.lead_with_records,
        met.store_just_enough,
    ] {
        assert!(times > 100, "{met:?}");
    }
    assert!(met.of_the_limits > 10, "{met:?}");
}
