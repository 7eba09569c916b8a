//! Which packet a record came in (02, K13): the ninth cell, after n. The
//! packet, line and file readers give 0, the writers only check it, and the
//! depacketizer gives the index of the packet within its field.

use reference::depacketizer::{arrive, open, Answer, State};
use reference::file::{self, Version};
use reference::frames::put_frame;
use reference::packet::{self, Head};
use reference::random::*;
use reference::sdi::{self, Place};
use reference::{fieldlist, Layout, Refusal};

const HEAD: Head = Head {
    source: 5,
    payload_type: 96,
    marker: true,
    number: 0xFFFF_FFF0,
    timestamp: 9,
    f: 0,
};
const PLACE: Place = Place {
    c: 1,
    line: 9,
    offset: 70,
    s: 0,
    stream: 0,
};

/// C 1, line 9, offset 70, 61/02, three words; it came in that packet.
fn record(index: u16) -> [u16; 12] {
    [1, 9, 70, 0, 0, 0x61, 0x02, 3, index, 0x100, 0x200, 0x155]
}

fn packet(layout: Layout, cells: &[u16]) -> Result<Vec<u8>, Refusal> {
    let mut out = vec![0x5A; 400];
    let size = packet::write(layout, &HEAD, cells, &mut out)?;
    out.truncate(size);
    Ok(out)
}

fn line(cells: &[u16]) -> Result<Vec<u16>, Refusal> {
    let mut line = vec![0x155; 400];
    let end = sdi::write(&mut line, 0, cells)?;
    line.truncate(end);
    Ok(line)
}

fn field(cells: &[u16]) -> Result<Vec<u8>, Refusal> {
    let mut out = vec![0x5A; 400];
    let start = file::begin(&mut out)?;
    let size = file::write(9, 2, cells, &mut out[start..])?;
    out.truncate(start + size);
    Ok(out)
}

/// The octets and words are the same whichever it is, and every reader gives 0
/// over whatever stood in the lent cells.
#[test]
fn written_alike_and_read_as_0() {
    let list = |a, b| [record(a), record(b)].concat();
    for (a, b) in [(0, 0), (0, 1), (1, 0), (7, 4_095), (4_095, 4_095)] {
        for layout in Layout::ALL {
            let octets = packet(layout, &list(a, b)).unwrap();
            assert_eq!(octets, packet(layout, &list(0, 0)).unwrap());
            for read in [packet::read, packet::read_strict] {
                let mut cells = vec![0x5A5A; 24];
                let summary = read(layout, &octets, &mut cells).unwrap();
                assert_eq!((summary.records, summary.cells), (2, 24));
                assert_eq!(cells, list(0, 0));
            }
        }
        let words = line(&list(a, b)).unwrap();
        assert_eq!(words, line(&list(0, 0)).unwrap());
        let mut cells = vec![0x5A5A; 24];
        sdi::read(&words, 0, PLACE, &mut cells).unwrap();
        assert_eq!(cells, list(0, 0));
        let octets = field(&list(a, b)).unwrap();
        assert_eq!(octets, field(&list(0, 0)).unwrap());
        let mut cells = vec![0x5A5A; 24];
        file::read(&octets, 5, &mut cells).unwrap();
        assert_eq!(cells, list(0, 0));
        let mut old = Version::One.start().to_vec();
        old.extend(file_field(Version::One, 9, 2, 2, &anc_of(&list(a, b))));
        cells.fill(0x5A5A);
        file::read(&old, 5, &mut cells).unwrap();
        assert_eq!(cells, list(0, 0));
    }
}

/// 20 over 4,095, with the record's index, before 16.
#[test]
fn over_4095() {
    for large in [4_096, 8_191, 0x8000, 0xFFFF] {
        for before in [0, 1, 5] {
            let mut bad = record(3);
            bad[9] = 0x3FF;
            let list = [bad.repeat(before), record(large).to_vec()].concat();
            let refusal = Refusal::at(20, before);
            for layout in Layout::ALL {
                assert_eq!(packet(layout, &list), Err(refusal));
            }
            assert_eq!(line(&list), Err(refusal));
            assert_eq!(field(&list), Err(refusal));
        }
    }
}

/// The cell is the ninth: n is the eighth and words begin behind it.
#[test]
fn where_it_stands() {
    let mut cells = record(0).to_vec();
    cells[8] = 4_095;
    assert!(packet(Layout::Rfc8331, &cells).is_ok());
    cells[7] = 4;
    assert_eq!(packet(Layout::Rfc8331, &cells), Err(Refusal::plain(20)));
    cells.push(0x3FB);
    let octets = packet(Layout::Rfc8331, &cells).unwrap();
    assert_eq!(octets, Parts::plain(HEAD, &cells).assemble());
    // A record cut before its ninth cell.
    assert_eq!(
        packet(Layout::Rfc8331, &[1, 9, 70, 0, 0, 0x61, 0x02, 0]),
        Err(Refusal::plain(20))
    );
}

/// Delivers packets of records, in sequence; what is handed out.
fn deliver(layout: Layout, state: &mut State, packets: &[(bool, u32, Vec<u16>)]) -> Vec<Vec<u16>> {
    let mut store = vec![0x5A5A; 2_000];
    let mut handed = Vec::new();
    for (marker, timestamp, cells) in packets {
        let head = Head {
            marker: *marker,
            timestamp: *timestamp,
            number: state.last.wrapping_add(1),
            ..HEAD
        };
        let octets = Parts::of(layout, head, cells).assemble();
        let (after, answer) = arrive(*state, layout, &octets, &mut store);
        *state = after;
        if let Answer::Whole { cells, .. } = answer {
            handed.push(store[..cells].to_vec());
        }
    }
    handed
}

fn ready() -> State {
    State {
        phase: 1,
        heard: true,
        last: HEAD.number,
        ..open(5, 96).unwrap()
    }
}

/// Packets without records count too; every field counts from 0, also where
/// the one before was mixed or is another's.
#[test]
fn the_index_in_a_field() {
    let one = || record(4_095).to_vec();
    let two = || [record(1), record(2)].concat();
    for layout in Layout::ALL {
        let mut state = ready();
        let handed = deliver(
            layout,
            &mut state,
            &[
                (false, 1, one()),
                (false, 1, vec![]),
                (false, 1, two()),
                (true, 1, one()),
                (true, 2, one()),
                (false, 3, vec![]),
                (false, 3, vec![]),
                (true, 3, two()),
                (false, 4, one()),
                (true, 5, one()),
                (false, 6, one()),
                (true, 6, vec![]),
            ],
        );
        let of = |indices: &[u16]| indices.iter().flat_map(|&index| record(index)).collect();
        let expected: [Vec<u16>; 4] = [of(&[0, 2, 2, 3]), of(&[0]), of(&[2, 2]), of(&[0])];
        assert_eq!(handed, expected);
        assert_eq!((state.phase, state.packets), (1, 0));
    }
}

/// The state counts the packets, those without records too; a restart has none.
#[test]
fn packets_in_the_state() {
    let mut state = ready();
    for packets in 1..=5 {
        let cells = if packets % 2 == 0 {
            vec![]
        } else {
            record(9).to_vec()
        };
        deliver(Layout::Rfc8331, &mut state, &[(false, 1, cells)]);
        assert_eq!((state.phase, state.packets), (2, packets));
    }
    let mut far = state;
    for number in [70_000, 70_001] {
        let head = Head { number, ..HEAD };
        let octets = Parts::plain(head, &[]).assemble();
        far = arrive(far, Layout::Rfc8331, &octets, &mut [0; 99]).0;
    }
    assert_eq!((far.fresh, far.packets, far.phase), (1, 0, 1));
    deliver(Layout::Rfc8331, &mut state, &[(true, 1, vec![])]);
    assert_eq!((state.phase, state.packets), (1, 0));
}

/// A field can be sent on in the packets that it arrived in: the records of an
/// index are a packet's, and writing them gives its octets.
#[test]
fn sent_on() {
    let mut r = Random::new(121);
    for _ in 0..300 {
        let layout = r.layout();
        let packets: Vec<Vec<u16>> = (0..1 + r.below(6))
            .map(|_| {
                let records = r.below(4);
                carried(layout, list(&mut r, records))
            })
            .collect();
        let count = packets.len();
        let marked = |(index, cells): (usize, &Vec<u16>)| (index + 1 == count, 7, cells.clone());
        let sent: Vec<_> = packets.iter().enumerate().map(marked).collect();
        let mut state = ready();
        let handed = deliver(layout, &mut state, &sent);
        assert_eq!(handed.len(), 1);
        for (index, cells) in packets.iter().enumerate() {
            let records = split_records(&handed[0]).into_iter();
            let its = records.filter(|record| record[8] == index as u16);
            let its: Vec<u16> = its.flatten().copied().collect();
            let mut out = vec![0; 20_000];
            let size = packet::write(layout, &HEAD, &its, &mut out).unwrap();
            assert_eq!(out[..size], Parts::of(layout, HEAD, cells).assemble());
        }
    }
}

/// The same fields however they were cut (02, K8): what is handed out is equal
/// apart from the ninth cell, and with it where they were cut alike.
#[test]
fn cut_otherwise() {
    let mut r = Random::new(122);
    for _ in 0..300 {
        let layout = r.layout();
        let fields: Vec<Vec<u16>> = (0..4)
            .map(|_| {
                let records = r.below(8);
                carried(layout, list(&mut r, records))
            })
            .collect();
        let [one, other] = [0; 2].map(|_| cut(&mut r, &fields));
        let [ours, theirs] = [&one, &other].map(|packets| deliver(layout, &mut ready(), packets));
        assert_eq!(ours.len(), 4);
        let apart = |handed: &[Vec<u16>]| -> Vec<Vec<u16>> {
            handed.iter().map(|cells| indexed(cells, 0)).collect()
        };
        assert_eq!(apart(&ours), apart(&theirs));
        assert_eq!(apart(&ours), apart(&fields));
        assert_eq!(ours, deliver(layout, &mut ready(), &one));
    }
}

/// Each field cut into packets between its records, some of them empty.
fn cut(r: &mut Random, fields: &[Vec<u16>]) -> Vec<(bool, u32, Vec<u16>)> {
    let mut packets = Vec::new();
    for (timestamp, cells) in fields.iter().enumerate() {
        let mut packet = Vec::new();
        for record in split_records(cells) {
            while r.one_in(3) {
                packets.push((false, timestamp as u32, std::mem::take(&mut packet)));
            }
            packet.extend(record);
        }
        packets.push((true, timestamp as u32, packet));
    }
    packets
}

/// The listing does not show it.
#[test]
fn listings() {
    let mut input = Vec::new();
    for (number, marker) in [(7, true), (8, false), (9, true)] {
        let head = Head {
            number,
            marker,
            ..HEAD
        };
        put_frame(&Parts::plain(head, &record(77)).assemble(), &mut input);
    }
    let line = " c line=9 off=70 s=0/0 did=61 sdid=02 words=3 100 200 155\n";
    let output = format!(
        "fieldlist 1\n7 skipped\n8 held\n9 whole ts=9 f=0 records=2\n{line}{line}fresh=3 late=0 missing=0\n"
    );
    assert_eq!(fieldlist(Layout::Rfc8331, &input), output);
}
