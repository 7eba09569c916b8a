//! The program `streamcheck` (02, K12) by hand: each finding, each border, and
//! what is no finding.

use reference::frames::put_frame;
use reference::packet::{check, Head};
use reference::random::{damaged_packet, recording, Parts, Random};
use reference::streamcheck::{findings, Finding};
use reference::{streamcheck, Layout};

const NEW: Layout = Layout::Rfc8331;
const OLD: Layout = Layout::Draft2015;
const HEAD: Head = Head {
    source: 5,
    payload_type: 96,
    marker: true,
    number: 0xFFFF_FFFE,
    timestamp: 9,
    f: 0,
};

fn record(line: u16, offset: u16) -> Vec<u16> {
    vec![0, line, offset, 0, 0, 0x41, 0x05, 1, 0, 9]
}

/// A packet so many after the first; its records' places.
fn packet(layout: Layout, after: u32, marker: bool, places: &[(u16, u16)]) -> Parts {
    let head = Head {
        number: HEAD.number.wrapping_add(after),
        marker,
        ..HEAD
    };
    let places = places.iter();
    let cells: Vec<u16> = places
        .flat_map(|&(line, offset)| record(line, offset))
        .collect();
    Parts::of(layout, head, &cells)
}

fn report(parts: &[Parts]) -> String {
    let mut input = Vec::new();
    for parts in parts {
        put_frame(&parts.assemble(), &mut input);
    }
    streamcheck(parts.first().map_or(NEW, |parts| parts.layout), &input)
}

/// Packets of records, in the order of their numbers; a mark where it is told.
fn field(layout: Layout, packets: &[(bool, &[(u16, u16)])]) -> Vec<Parts> {
    let of = |(after, &(marker, places))| packet(layout, after as u32, marker, places);
    packets.iter().enumerate().map(of).collect()
}

#[test]
fn a_clean_stream() {
    assert_eq!(streamcheck(NEW, &[]), "");
    for layout in Layout::ALL {
        let mut packets = field(
            layout,
            &[
                (false, &[(9, 0), (9, 0), (9, 7)]),
                (false, &[]),
                (true, &[(10, 0)]),
                (true, &[(1, 0), (1, 1)]),
                (false, &[(0, 0), (2_044, 4_091)]),
                (true, &[(2_044, 4_091)]),
            ],
        );
        // Another field, another timestamp and F.
        for parts in &mut packets[3..] {
            parts.head.timestamp = 10;
            parts.head.f = 2;
        }
        assert_eq!(report(&packets), "");
        // Padding, sources and extension are no finding; nor C, S, StreamNum.
        packets[1].padding = Some(vec![0, 0, 3]);
        packets[2].sources = vec![1, 2];
        packets[3].extension = Some((9, vec![7]));
        packets[4].anc[0].place |= 1 << 31 | 0xFF;
        assert_eq!(report(&packets), "");
    }
}

/// Each by itself, and all of a packet in their order.
#[test]
fn every_kind() {
    let packets = || {
        field(
            NEW,
            &[(false, &[(9, 1)]), (false, &[(9, 1)]), (true, &[(9, 1)])],
        )
    };
    let with = |change: &dyn Fn(&mut Parts)| {
        let mut packets = packets();
        change(&mut packets[1]);
        report(&packets)
    };
    assert_eq!(report(&packets()), "");
    assert_eq!(with(&|parts| parts.reserved = 1), "1 reserved\n");
    assert_eq!(
        with(&|parts| *parts = packet(NEW, 1, false, &[(9, 0), (9, 1)])),
        "1 raster\n"
    );
    // The packet after a change is compared with the changed one.
    let changed = "1 change\n2 change\n";
    assert_eq!(with(&|parts| parts.head.timestamp = 10), changed);
    assert_eq!(with(&|parts| parts.head.f = 3), changed);
    assert_eq!(with(&|parts| parts.head.number = 0), "1 number\n2 number\n");
    let all = with(&|parts| {
        *parts = packet(NEW, 7, false, &[(8, 1)]);
        parts.head.f = 2;
        parts.reserved = 0x20_0000;
    });
    assert_eq!(
        all,
        "1 number\n1 change\n1 reserved\n1 raster\n2 number\n2 change\n"
    );
    // One of a kind.
    let twice = packet(NEW, 1, false, &[(9, 1), (8, 0), (9, 0), (8, 0), (7, 0)]);
    assert_eq!(with(&|parts| *parts = twice.clone()), "1 raster\n");
}

/// The number's both directions, the repeat and the wrap.
#[test]
fn numbers() {
    for (second, finding) in [
        (0xFFFF_FFFF, ""),
        (0xFFFF_FFFE, "1 number\n"),
        (0, "1 number\n"),
        (0xFFFE_FFFF, "1 number\n"),
        (0x0000_FFFF, "1 number\n"),
        (0x7FFF_FFFE, "1 number\n"),
    ] {
        let mut packets = field(NEW, &[(true, &[]), (true, &[])]);
        packets[1].head.number = second;
        assert_eq!(report(&packets), finding);
    }
    // Three over the wrap; a gap is told once.
    assert_eq!(report(&field(NEW, &[(true, &[][..]); 4])), "");
    let mut packets = field(NEW, &[(true, &[][..]); 6]);
    packets.remove(3);
    assert_eq!(report(&packets), "3 number\n");
}

/// A change counts before a mark only, by timestamp or F.
#[test]
fn changes() {
    for marker in [false, true] {
        for (timestamp, f) in [(10, 0), (8, 0), (9, 2), (9, 3), (10, 2), (9, 0)] {
            let mut packets = field(NEW, &[(marker, &[]), (true, &[])]);
            (packets[1].head.timestamp, packets[1].head.f) = (timestamp, f);
            let changed = !marker && (timestamp, f) != (9, 0);
            assert_eq!(report(&packets), if changed { "1 change\n" } else { "" });
        }
    }
}

/// Each of the 22 bits; the old layout has none of them.
#[test]
fn reserved_bits() {
    for bit in 0..22 {
        let mut packets = field(NEW, &[(true, &[(9, 0)][..]); 2]);
        packets[0].reserved = 1 << bit;
        assert_eq!(report(&packets), "0 reserved\n");
    }
    for f in [0, 2, 3] {
        let mut packets = field(NEW, &[(true, &[(9, 0)])]);
        packets[0].head.f = f;
        assert_eq!(report(&packets), "");
    }
    let mut old = field(OLD, &[(true, &[(0x7FC, 0xFFB)])]);
    old[0].reserved = 0x3F_FFFF;
    assert_eq!(report(&old), "");
}

/// Line, then offset, against the plain record before in the field.
#[test]
fn raster_order() {
    for (first, second, in_order) in [
        ((9, 5), (9, 5), true),
        ((9, 5), (9, 6), true),
        ((9, 5), (9, 4), false),
        ((9, 5), (10, 0), true),
        ((9, 5), (8, 4_000), false),
        ((0, 0), (0, 0), true),
        ((2_044, 4_091), (2_044, 4_090), false),
        ((2_043, 4_091), (2_044, 0), true),
        // Special: either of line and offset.
        ((9, 5), (2_045, 0), true),
        ((2_045, 5), (8, 0), true),
        ((2_046, 5), (8, 0), true),
        ((2_047, 5), (8, 0), true),
        ((2_044, 5), (8, 0), false),
        ((9, 4_092), (8, 0), true),
        ((9, 4_093), (8, 0), true),
        ((9, 4_094), (8, 0), true),
        ((9, 4_095), (8, 0), true),
        ((9, 4_091), (8, 0), false),
        ((9, 5), (8, 4_092), true),
        ((9, 5), (8, 4_091), false),
    ] {
        for layout in Layout::ALL {
            let one = field(layout, &[(true, &[first, second])]);
            assert_eq!(report(&one), if in_order { "" } else { "0 raster\n" });
            // The same over two packets, and with an empty one between.
            let two = field(layout, &[(false, &[first]), (true, &[second])]);
            assert_eq!(report(&two), if in_order { "" } else { "1 raster\n" });
            let apart = [(false, &[first][..]), (false, &[]), (false, &[second])];
            let finding = if in_order { "" } else { "2 raster\n" };
            assert_eq!(report(&field(layout, &apart)), finding);
            // A mark ends the field.
            let marked = field(layout, &[(true, &[first]), (true, &[second])]);
            assert_eq!(report(&marked), "");
        }
    }
}

/// Special places are passed over and reset nothing; the record before is the
/// one just before, not the furthest.
#[test]
fn the_plain_record_before() {
    let over = [(9, 5), (2_047, 0), (9, 4_095), (9, 4)];
    assert_eq!(report(&field(NEW, &[(true, &over)])), "0 raster\n");
    let packets = field(
        NEW,
        &[
            (false, &[(9, 5)]),
            (false, &[(2_046, 0)]),
            (false, &[(8, 0)]),
            (false, &[(8, 1)]),
            (false, &[(7, 0)]),
            (true, &[]),
            (true, &[(1, 0)]),
        ],
    );
    assert_eq!(report(&packets), "2 raster\n4 raster\n");
}

/// A gap or a change does not end a field; a mark on a refused or lost packet
/// ends none.
#[test]
fn only_a_mark_ends_a_field() {
    let packets = || {
        field(
            NEW,
            &[(false, &[(9, 5)]), (true, &[(9, 6)]), (true, &[(8, 0)])],
        )
    };
    assert_eq!(report(&packets()), "");
    let mut lost = packets();
    lost.remove(1);
    assert_eq!(report(&lost), "1 number\n1 raster\n");
    let mut refused = packets();
    refused[1].anc[0].alignment = 1;
    refused[2].head.timestamp = 10;
    assert_eq!(
        report(&refused),
        "1 refused 12 0\n2 number\n2 change\n2 raster\n"
    );
    let mut changed = packets();
    changed[1].head.marker = false;
    changed[2].head.timestamp = 10;
    assert_eq!(report(&changed), "2 change\n2 raster\n");
}

/// Compared with the last one not refused; refused excludes the rest.
#[test]
fn refused_packets() {
    let mut packets = field(
        NEW,
        &[(false, &[(9, 5)]), (false, &[(9, 6)]), (true, &[(9, 7)])],
    );
    packets[1].head.source = 6;
    packets[1].head.payload_type = 97;
    packets[1].reserved = 1;
    packets[1].head.timestamp = 77;
    packets[2].head.number = HEAD.number.wrapping_add(1);
    assert_eq!(report(&packets), "1 refused 30 0\n");
    packets[1].head.source = 5;
    assert_eq!(report(&packets), "1 refused 31 0\n");
    packets[1].anc[0].words[3] = 0x3FF;
    assert_eq!(report(&packets), "1 refused 16 0\n");
    // A stray first packet makes all that follow 30.
    packets[0].head.source = 4;
    packets[1] = packet(NEW, 1, true, &[]);
    assert_eq!(report(&packets), "1 refused 30 0\n2 refused 30 0\n");
    // One that is refused does not fix source and type.
    packets[0].anc[0].words[4] ^= 1;
    packets[2].head.number = HEAD.number.wrapping_add(2);
    assert_eq!(report(&packets), "0 refused 11 0\n");
}

/// The first accepted packet has no number and no change, wherever it stands.
#[test]
fn the_first_accepted() {
    let mut packets = field(NEW, &[(false, &[(9, 5)][..]); 3]);
    packets[0].version = 1;
    packets[1].version = 3;
    packets[2].reserved = 9;
    assert_eq!(
        report(&packets),
        "0 refused 3 0\n1 refused 3 0\n2 reserved\n"
    );
}

/// Frames of no octets, and a broken last frame: its index is the number of
/// whole ones.
#[test]
fn frames() {
    assert_eq!(streamcheck(NEW, &[0]), "0 cut\n");
    assert_eq!(streamcheck(NEW, &[0, 0]), "0 refused 2 0\n");
    assert_eq!(streamcheck(NEW, &[0, 1]), "0 cut\n");
    let empty = "0 refused 2 0\n1 refused 2 0\n2 cut\n";
    assert_eq!(streamcheck(NEW, &[0, 0, 0, 0, 9]), empty);
    let mut input = Vec::new();
    put_frame(&packet(NEW, 0, true, &[(9, 0)]).assemble(), &mut input);
    let whole = input.len();
    for size in 1..whole {
        assert_eq!(streamcheck(NEW, &input[..size]), "0 cut\n");
    }
    put_frame(&packet(NEW, 1, true, &[(9, 0)]).assemble(), &mut input);
    for size in whole + 1..2 * whole {
        assert_eq!(streamcheck(NEW, &input[..size]), "1 cut\n");
    }
    assert_eq!(streamcheck(NEW, &input), "");
    // Told the other layout.
    assert_eq!(streamcheck(OLD, &input), "0 refused 7 0\n1 refused 7 0\n");
}

/// The codes and indices are the strict reader's, in both layouts.
#[test]
fn codes_and_indices() {
    let mut r = Random::new(111);
    let mut met = [0; 17];
    for _ in 0..20_000 {
        let layout = r.layout();
        let octets = damaged_packet(&mut r, layout);
        let mut input = Vec::new();
        put_frame(&octets, &mut input);
        let text = streamcheck(layout, &input);
        match check(layout, &octets) {
            Err(refusal) if octets.len() < 65_536 => {
                let expected = format!("0 refused {} {}\n", refusal.number, refusal.index);
                assert_eq!(text, expected);
                met[refusal.number as usize] += 1;
            }
            _ => assert!(!text.contains("refused")),
        }
    }
    for number in (2..=13).chain([15, 16]) {
        assert!(met[number] > 20, "{number}");
    }
}

/// In strictly increasing order of frame and kind; refused excludes the rest;
/// a line for each finding.
#[test]
fn the_order_of_lines() {
    let mut r = Random::new(112);
    for _ in 0..2_000 {
        let layout = r.layout();
        let input = recording(&mut r, layout);
        let found = findings(layout, &input);
        assert!(found.is_sorted_by(|a, b| a < b));
        for pair in found.windows(2) {
            let excludes = matches!(pair[0].1, Finding::Refused(_) | Finding::Cut);
            assert!(!excludes || pair[0].0 < pair[1].0);
        }
        assert_eq!(streamcheck(layout, &input).lines().count(), found.len());
    }
}
