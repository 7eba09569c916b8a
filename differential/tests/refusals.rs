//! Every refusal number of 01 and 02 through the archive, by hand, with its
//! index, in both layouts. What is lent stays as it was, but for the index
//! and, at 32, the late count, at 36 the remembered number.

use std::collections::BTreeSet;

use differential::call::{compare, Call, Lengths, Memory};
use differential::model::{number_of, row_of};
use differential::{Head, ANSWER, NO_VPID, STATE};
use reference::anc::{Limits, RECORD_HEAD};
use reference::depacketizer::{open, State, FILLING, LOST, READY};
use reference::file::Version;
use reference::packet;
use reference::random::{file_field, Anc, Parts, Random};
use reference::runs::{cells, changed, records, A, HEAD};
use reference::Layout::{self, Draft2015, Rfc8331};

/// A call that is lent so many cells and octets, its number and index. The
/// state is that of `sound` unless the case is about states.
struct Refused {
    number: u8,
    what: &'static str,
    call: Call,
    lent: usize,
    state: State,
    index: u64,
}

fn refused(number: u8, what: &'static str, call: Call, lent: usize, index: u64) -> Refused {
    let state = sound();
    Refused {
        number,
        what,
        call,
        lent,
        state,
        index,
    }
}

/// Waits for the packets made here, with a field begun.
fn sound() -> State {
    State {
        phase: FILLING,
        heard: true,
        last: HEAD.number - 1,
        timestamp: HEAD.timestamp,
        f: HEAD.f,
        records: 1,
        cells: RECORD_HEAD,
        packets: 1,
        late: 3,
        ..open(HEAD.source, HEAD.payload_type).unwrap()
    }
}

/// A packet of records of so many words each.
fn parts(layout: Layout, counts: &[usize]) -> Parts {
    let list: Vec<u16> = counts
        .iter()
        .flat_map(|&n| cells(RECORD_HEAD + n))
        .collect();
    Parts::of(layout, HEAD, &list)
}

fn damaged(layout: Layout, counts: &[usize], damage: impl Fn(&mut Parts)) -> Vec<u8> {
    let mut parts = parts(layout, counts);
    damage(&mut parts);
    parts.assemble()
}

fn packet_of_a(layout: Layout) -> Vec<u8> {
    parts(layout, &[0]).assemble()
}

/// A number, what the case is, the octets, the index.
type Octets = (u8, &'static str, Vec<u8>, u64);

/// Octets that the packet reader and an arrival refuse alike: 1 to 13, 15
/// and 16.
fn packets(layout: Layout) -> Vec<Octets> {
    let own = match layout {
        Rfc8331 => rfc_packets(),
        Draft2015 => draft_packets(),
    };
    let (header, anc) = (header_packets(layout), anc_packets(layout));
    [header, anc, protected_packets(layout), own].concat()
}

// A case a line.
#[rustfmt::skip]
fn header_packets(layout: Layout) -> Vec<Octets> {
    let a = packet_of_a(layout);
    let head = layout.payload_header();
    let damaged = |counts: &[usize], damage: &dyn Fn(&mut Parts)| damaged(layout, counts, damage);
    let padded = |count: usize| Some(vec![count as u8]);
    let extended = |words: u8| [&changed(&a, 0, 0x10)[..12], &[0, 0, 0, words]].concat();
    vec![
        (1, "65,536 octets", [&a[..], &vec![0; 65_536 - a.len()]].concat(), 0),
        (2, "no octets", Vec::new(), 0),
        (2, "11 octets, version 0", vec![0; 11], 0),
        (2, "a contributing source cut", changed(&a[..15], 0, 1), 0),
        (2, "the extension's head cut", changed(&a[..15], 0, 0x10), 0),
        (2, "the extension's words cut", extended(1), 0),
        (3, "version 3", changed(&a, 0, 0x40), 0),
        (4, "padding 0", damaged(&[0], &|p| p.padding = padded(0)), 0),
        (4, "padding over all", damaged(&[0], &|p| p.padding = padded(a.len() - 12 + 2)), 0),
        (5, "no payload", a[..12].to_vec(), 0),
        (5, "an octet under the payload header", a[..12 + head - 1].to_vec(), 0),
        (5, "padding takes all", damaged(&[], &|p| p.padding = padded(head + 1)), 0),
        (5, "padding takes one", damaged(&[], &|p| p.padding = padded(2)), 0),
        (7, "the payload header alone", a[..12 + head].to_vec(), 0),
        (7, "Length one less", damaged(&[0], &|p| p.length = Some(layout.packet_octets(0) as u16 - 1)), 0),
        (7, "Length of the payload", damaged(&[0], &|p| p.length = Some((a.len() - 12) as u16)), 0),
        (7, "Length wrong, ANC_Count 0", damaged(&[0], &|p| (p.length, p.count) = (Some(1), Some(0))), 0),
        (8, "ANC_Count 0", damaged(&[0], &|p| p.count = Some(0)), 0),
    ]
}

// A case a line.
#[rustfmt::skip]
fn anc_packets(layout: Layout) -> Vec<Octets> {
    let damaged = |counts: &[usize], damage: &dyn Fn(&mut Parts)| damaged(layout, counts, damage);
    let least = layout.smallest_packet();
    let left = |octets: usize| move |p: &mut Parts| (p.count, p.extra) = (Some(3), vec![0; octets]);
    vec![
        (9, "no octets left", damaged(&[0, 3], &left(0)), 2),
        (9, "one under the smallest left", damaged(&[0, 3], &left(least - 1)), 2),
        (10, "the smallest left, all zero", damaged(&[0, 3], &left(least)), 2),
        (9, "size, the first", damaged(&[5], &|p| p.cut = 1), 0),
        (9, "size, the fourth", damaged(&[0, 1, 2, 30], &|p| p.cut = 5), 3),
        (10, "DID", damaged(&[0], &|p| p.anc[0].words[0] ^= 0x200), 0),
        (10, "SDID", damaged(&[0, 4], &|p| p.anc[1].words[1] ^= 1), 1),
        (10, "Data_Count", damaged(&[9, 9, 9], &|p| p.anc[2].words[2] ^= 0x100), 2),
        (10, "before the size", damaged(&[9, 9], &|p| (p.anc[1].words[0], p.cut) = (0, 1)), 1),
        (11, "a word", damaged(&[3, 4], &|p| p.anc[0].words[5] ^= 0x100), 0),
        (11, "b9 of the checksum", damaged(&[0; 255], &|p| p.anc[254].words[3] ^= 0x200), 254),
        (11, "b8 of the checksum", damaged(&[4, 4], &|p| p.anc[1].words[7] ^= 0x300), 1),
        (12, "the first", damaged(&[0, 0], &|p| p.anc[0].alignment = 1), 0),
        (12, "the fifth", damaged(&[5; 6], &|p| p.anc[4].alignment = 2), 4),
        (13, "an octet", damaged(&[0, 2], &|p| p.extra = vec![0]), 0),
        (13, "4 octets", damaged(&[0, 2], &|p| p.extra = vec![0; 4]), 0),
        (13, "ANC_Count one less", damaged(&[0, 2], &|p| p.count = Some(1)), 0),
    ]
}

/// A protected word: 16 after 10 and both 9, before 11, 12 and 13; its borders;
/// and what is no user data word is not tested.
// A case a line.
#[rustfmt::skip]
fn protected_packets(layout: Layout) -> Vec<Octets> {
    let damaged = |counts: &[usize], damage: &dyn Fn(&mut Parts)| damaged(layout, counts, damage);
    let word = |index: usize, place: usize, word: u16| move |p: &mut Parts| p.anc[index].words[3 + place] = word;
    let summed = |index: usize, place: usize, word: u16| move |p: &mut Parts| {
        let mut list = cells(RECORD_HEAD + p.anc[index].words.len() - 4);
        list[RECORD_HEAD + place] = word;
        p.anc[index] = Anc::of(&list);
    };
    vec![
        (16, "0x000", damaged(&[1], &summed(0, 0, 0x000)), 0),
        (16, "0x003", damaged(&[0, 9], &summed(1, 8, 0x003)), 1),
        (16, "0x3FC", damaged(&[9, 9, 255], &summed(2, 200, 0x3FC)), 2),
        (16, "0x3FF", damaged(&[3; 255], &summed(254, 2, 0x3FF)), 254),
        (16, "before 11", damaged(&[9, 9], &word(1, 5, 0x002)), 1),
        (16, "before 12", damaged(&[2, 2], &|p| (p.anc[0].words[4], p.anc[0].alignment) = (0x3FD, 1)), 0),
        (16, "before 13", damaged(&[5, 6], &|p| (p.anc[1].words[3], p.extra) = (1, vec![0])), 1),
        (16, "before a later 10", damaged(&[5, 6], &|p| (p.anc[0].words[3], p.anc[1].words[0]) = (1, 0)), 0),
        (11, "0x004", damaged(&[0, 9], &word(1, 8, 0x004)), 1),
        (11, "0x3FB", damaged(&[9, 9, 9], &word(2, 7, 0x3FB)), 2),
        (11, "a checksum of 0x000", damaged(&[4, 4], &|p| p.anc[1].words[7] = 0), 1),
        (11, "a checksum of 0x3FF", damaged(&[0, 4], &|p| p.anc[0].words[3] = 0x3FF), 0),
        (11, "before a later 16", damaged(&[5, 6], &|p| (p.anc[0].words[4], p.anc[1].words[3]) = (0x155, 0)), 0),
        (12, "before a later 16", damaged(&[5, 6], &|p| (p.anc[0].alignment, p.anc[1].words[3]) = (1, 0)), 0),
        (10, "DID 0x3FC, before 16", damaged(&[5, 6], &|p| (p.anc[1].words[0], p.anc[1].words[3]) = (0x3FC, 0)), 1),
        (10, "Data_Count 0x000", damaged(&[5, 6], &|p| p.anc[0].words[2] = 0), 0),
        (9, "size, before 16", damaged(&[5, 6], &|p| (p.cut, p.anc[1].words[3]) = (1, 0)), 1),
    ]
}

/// F, a packet of the drafts, and 01's numbers.
// A case a line.
#[rustfmt::skip]
fn rfc_packets() -> Vec<Octets> {
    let a = packet_of_a(Rfc8331);
    let left = |octets| damaged(Rfc8331, &[0], |p| (p.count, p.extra) = (Some(2), vec![0; octets]));
    vec![
        (4, "padding 0, record A's last octet", changed(&a, 0, 0x20), 0),
        (5, "7 payload octets", a[..19].to_vec(), 0),
        (6, "F 1", damaged(Rfc8331, &[0], |p| p.head.f = 1), 0),
        (7, "the drafts' packet", packet_of_a(Draft2015), 0),
        (7, "Length 11", damaged(Rfc8331, &[0], |p| p.length = Some(11)), 0),
        (9, "11 octets left", left(11), 1),
        (10, "12 octets left", left(12), 1),
    ]
}

/// R bits: 15 after 10 and both 9, before 16, 11 and 12. And a packet of RFC
/// 8331, and 02's numbers.
// A case a line.
#[rustfmt::skip]
fn draft_packets() -> Vec<Octets> {
    let damaged = |counts: &[usize], damage: &dyn Fn(&mut Parts)| damaged(Draft2015, counts, damage);
    let r = |index: usize, r: u32| move |p: &mut Parts| p.anc[index].r = r;
    let all = |anc: &mut Anc| {
        (anc.r, anc.alignment) = (3, 1);
        anc.words[3] ^= 1;
    };
    let a = packet_of_a(Draft2015);
    let left = |octets| damaged(&[0], &|p| (p.count, p.extra) = (Some(2), vec![0; octets]));
    vec![
        (5, "4 payload octets", a[..16].to_vec(), 0),
        (7, "5 payload octets", a[..17].to_vec(), 0),
        (7, "RFC 8331's packet", packet_of_a(Rfc8331), 0),
        (7, "payload less 8", damaged(&[0], &|p| p.length = Some(6)), 0),
        (9, "8 octets left", left(8), 1),
        (10, "9 octets left", left(9), 1),
        (15, "the first bit", damaged(&[0], &r(0, 2)), 0),
        (15, "the second bit", damaged(&[0, 3], &r(1, 1)), 1),
        (15, "both bits", damaged(&[4; 200], &r(199, 3)), 199),
        (15, "before 16", damaged(&[5, 6], &|p| (p.anc[1].r, p.anc[1].words[3]) = (2, 0x3FE)), 1),
        (16, "before a later 15", damaged(&[5, 6], &|p| (p.anc[0].words[3], p.anc[1].r) = (3, 1)), 0),
        (15, "before 11 and 12", damaged(&[0, 5, 5], &|p| all(&mut p.anc[1])), 1),
        (15, "before 13", damaged(&[5, 6], &|p| (p.anc[1].r, p.extra) = (1, vec![0])), 1),
        (15, "before a later 10", damaged(&[5, 6], &|p| (p.anc[0].r, p.anc[1].words[0]) = (1, 0)), 0),
        (11, "before a later 15", damaged(&[5, 6], &|p| (p.anc[0].words[4], p.anc[1].r) = (0x155, 1)), 0),
        (12, "before a later 15", damaged(&[0, 6], &|p| (p.anc[0].alignment, p.anc[1].r) = (1, 1)), 0),
        (10, "before 15", damaged(&[5, 6], &|p| (p.anc[1].words[2], p.anc[1].r) = (0, 1)), 1),
        (9, "size, before 15", damaged(&[5, 6], &|p| (p.cut, p.anc[1].r) = (1, 1)), 1),
    ]
}

fn of_packets(layout: Layout) -> Vec<Refused> {
    let mut table = Vec::new();
    let told = number_of(layout);
    let read = |octets: Vec<u8>| Call::ReadStrict {
        layout: told,
        octets,
    };
    for (number, what, octets, index) in packets(layout) {
        let arrival = Call::Arrive {
            layout: told,
            octets: octets.clone(),
        };
        table.push(refused(number, what, read(octets), 3_000, index));
        table.push(refused(number, what, arrival, 3_000, index));
    }
    let octets = parts(layout, &[3, 4]).assemble();
    table.push(refused(14, "24 of 25 cells", read(octets), 24, 0));
    for (number, what, octets, index) in packets(layout) {
        if number != 11 {
            let tolerant = Call::Read {
                layout: told,
                octets,
            };
            table.push(refused(number, what, tolerant, 3_000, index));
        }
    }
    table
}

fn write(layout: Layout, payload_type: u8, f: u8, cells: Vec<u16>) -> Call {
    let head = Head {
        source: 1,
        payload_type,
        marker: 0,
        number: 7,
        timestamp: 9,
        f,
    };
    let layout = number_of(layout);
    Call::Write {
        layout,
        head,
        cells,
    }
}

fn field(f: u8, cells: Vec<u16>) -> Call {
    let timestamp = 9;
    Call::FileWrite {
        timestamp,
        f,
        cells,
    }
}

/// Lists with one record of many wrong.
fn lists() -> Vec<(&'static str, Vec<u16>, u64)> {
    let with = |before: usize, at: usize, cell: u16| {
        let mut list = [records(before), cells(RECORD_HEAD + 3)].concat();
        list[RECORD_HEAD * before + at] = cell;
        list
    };
    vec![
        ("C 2", with(0, 0, 2), 0),
        ("line 0x800", with(1, 1, 0x800), 1),
        ("offset 0x1000", with(2, 2, 0x1000), 2),
        ("S 2", with(3, 3, 2), 3),
        ("StreamNum 128", with(4, 4, 128), 4),
        ("DID 256", with(5, 5, 256), 5),
        ("SDID 256", with(6, 6, 256), 6),
        ("n 256", with(7, 7, 256), 7),
        ("index 4,096", with(8, 8, 4_096), 8),
        ("index 65,535", with(0, 8, 65_535), 0),
        ("a word 1,024", with(8, 10, 1024), 8),
        ("words cut", with(9, 7, 4), 9),
        ("head cut", [records(10), A[..7].to_vec()].concat(), 10),
        ("no index", [records(11), A[..8].to_vec()].concat(), 11),
        ("over 255 records", with(300, 0, 2), 300),
    ]
}

/// Lists with protected words: 16 over the whole list, behind 20 over the whole
/// list, with the record's index.
fn protected_lists() -> Vec<(u8, &'static str, Vec<u16>, u64)> {
    let with = |before: usize, n: usize, words: &[(usize, u16)]| {
        let mut list = [records(before), cells(RECORD_HEAD + n)].concat();
        for &(place, word) in words {
            list[RECORD_HEAD * (before + 1) + place] = word;
        }
        list
    };
    let protected = |before| with(before, 9, &[(4, 0x3FD)]);
    let cut = A[..7].to_vec();
    vec![
        (16, "0x000", with(0, 1, &[(0, 0x000)]), 0),
        (16, "0x003", with(1, 3, &[(2, 0x003)]), 1),
        (16, "0x3FC", with(2, 255, &[(254, 0x3FC)]), 2),
        (16, "0x3FF", with(3, 20, &[(7, 0x3FF)]), 3),
        (16, "two words", with(4, 20, &[(3, 1), (9, 2)]), 4),
        (16, "two records", [protected(5), protected(2)].concat(), 5),
        (16, "over 255 records", protected(300), 300),
        (16, "over 4,095 records", protected(4_100), 4_100),
        (
            16,
            "over the cells",
            [cells(36_864), protected(0)].concat(),
            140,
        ),
        (20, "a cut record behind", [protected(6), cut].concat(), 7),
        (20, "a word too large", with(7, 9, &[(0, 3), (8, 1024)]), 7),
        (
            20,
            "too large behind",
            [protected(0), with(0, 1, &[(0, 1024)])].concat(),
            1,
        ),
    ]
}

/// Lists in a packet, and the octets that record A takes and an empty list:
/// 24, 20, 16, 21, 23. The borders' other side is in `small`.
// A case a line.
#[rustfmt::skip]
fn of_written(layout: Layout, a: usize, empty: usize) -> Vec<Refused> {
    let of = |number, what, payload_type, f, list, lent, index| {
        refused(number, what, write(layout, payload_type, f, list), lent, index)
    };
    let mut table = vec![
        of(21, "256 records", 112, 0, records(256), 9, 0),
        of(21, "36,865 cells", 112, 0, cells(36_865), 9, 0),
        of(23, "record A, an octet too few", 112, 0, A.to_vec(), a - 1, 0),
        of(23, "an empty list, an octet too few", 112, 0, Vec::new(), empty - 1, 0),
        of(23, "no octets", 112, 0, A.to_vec(), 0, 0),
        of(24, "type 128", 128, 0, vec![9], 0, 0),
        of(24, "F 1", 112, 1, vec![9], 0, 0),
        of(24, "F 4", 112, 4, vec![9], 0, 0),
    ];
    for (what, list, index) in lists() {
        table.push(of(20, what, 112, 0, list.clone(), 9, index));
        table.push(of(20, what, 112, 3, list, 9, index));
    }
    for (number, what, list, index) in protected_lists() {
        table.push(of(24, what, 112, 1, list.clone(), 0, 0));
        table.push(of(number, what, 112, 0, list.clone(), 0, index));
        table.push(of(number, what, 112, 3, list, 9, index));
    }
    table
}

/// What the drafts do not carry: 25 after 24, 20, 16 and 21 and before 23,
/// index 0 wherever it is found.
fn of_not_carried() -> Vec<Refused> {
    let with = |at: usize, cell: u16| {
        let mut list = records(5);
        list[RECORD_HEAD * 3 + at] = cell;
        list
    };
    let protected = || [&A[..7], &[1, 0, 0x3FF]].concat();
    let cut = |list: Vec<u16>| list[..44].to_vec();
    let many = |list: Vec<u16>| [list, records(251)].concat();
    let of = |number, what, f, list, index| {
        refused(number, what, write(Draft2015, 112, f, list), 0, index)
    };
    let mut table = vec![
        of(
            16,
            "S 1 before a protected word",
            2,
            [with(3, 1), protected()].concat(),
            5,
        ),
        of(25, "F 2, no records", 2, Vec::new(), 0),
        of(25, "F 3", 3, A.to_vec(), 0),
        of(24, "F 4, S 1", 4, with(3, 1), 0),
        of(20, "S 2", 0, with(3, 2), 3),
        of(20, "StreamNum 128", 2, with(4, 128), 3),
    ];
    for (at, cell) in [(3, 1), (4, 1), (4, 127)] {
        table.push(of(25, "S or StreamNum", 0, with(at, cell), 0));
        table.push(of(25, "F too", 2, with(at, cell), 0));
        table.push(of(20, "the last cut", 0, cut(with(at, cell)), 4));
        table.push(of(21, "256 records", 3, many(with(at, cell)), 0));
    }
    table
}

fn of_fields() -> Vec<Refused> {
    let mut table = Vec::new();
    for (what, list, index) in lists() {
        table.push(refused(20, what, field(2, list), 9, index));
    }
    for (number, what, list, index) in protected_lists() {
        table.push(refused(53, what, field(1, list.clone()), 0, 0));
        table.push(refused(number, what, field(2, list), 0, index));
    }
    table.extend([
        refused(21, "4,096 records", field(2, records(4_096)), 9, 0),
        refused(21, "36,865 cells", field(2, cells(36_865)), 9, 0),
        refused(23, "18 of 19 octets", field(2, A.to_vec()), 18, 0),
        refused(23, "4 of 5 octets", Call::FileBegin, 4, 0),
        refused(53, "F 1", field(1, vec![9]), 0, 0),
    ]);
    table
}

fn of_opened() -> Vec<Refused> {
    let opened = Call::Open {
        source: 1,
        payload_type: 128,
    };
    vec![refused(24, "open type 128", opened, 0, 0)]
}

// A case a line.
#[rustfmt::skip]
fn states() -> Vec<(u8, &'static str, State)> {
    let good = sound();
    let bare = State { records: 0, cells: 0, ..good };
    let none = State { packets: 0, ..bare };
    let late = |last| State { last, ..good };
    vec![
        (30, "other source", State { source: 2, payload_type: 3, ..good }),
        (31, "other type", State { payload_type: 3, last: 9, ..good }),
        (32, "distance 0", late(HEAD.number)),
        (32, "distance -1", late(HEAD.number + 1)),
        (32, "distance -99", late(HEAD.number + 99)),
        (36, "distance -100", late(HEAD.number + 100)),
        (36, "distance 3,000", late(HEAD.number.wrapping_sub(3_000))),
        (36, "the most negative distance", late(HEAD.number + 0x8000_0000)),
        (36, "the far number again", State { last: HEAD.number + 100, remembered: Some(HEAD.number + 1), ..good }),
        (35, "4,096 records", State { records: 4_096, ..good }),
        (35, "36,865 cells", State { cells: 36_865, ..good }),
        (35, "more cells than the store", State { cells: 101, ..good }),
        (35, "records when ready", State { phase: READY, records: 1, ..none }),
        (35, "cells when lost", State { phase: LOST, cells: 1, ..none }),
        (35, "ready before a first", State { phase: READY, heard: false, ..none }),
        (35, "filling before a first", State { heard: false, ..bare }),
        (35, "4,097 packets", State { packets: 4_097, ..good }),
        (35, "no packet when filling", none),
        (35, "a packet when ready", State { phase: READY, ..bare }),
        (35, "a packet when lost", State { phase: LOST, ..bare }),
    ]
}

/// 30, 31, 32 and 36 at the packet of record A; 35 at one that 12 refuses, since
/// the state comes first.
fn of_states(layout: Layout) -> Vec<Refused> {
    let entry = |(number, what, state): (u8, &'static str, State)| {
        let a = packet_of_a(layout);
        let octets = match number {
            35 => changed(&a, a.len() - 1, 1),
            _ => a,
        };
        let store = if state.cells == 36_865 { 40_000 } else { 100 };
        let layout = number_of(layout);
        Refused {
            state,
            ..refused(number, what, Call::Arrive { layout, octets }, store, 0)
        }
    };
    states().into_iter().map(entry).collect()
}

fn of_parameters() -> Vec<Refused> {
    let read = |number, text: &str, lent, index| {
        let text = text.as_bytes().to_vec();
        refused(number, "text", Call::SdpRead { text }, lent, index)
    };
    let write = |number, octets, lent| {
        let (pairs, vpid) = (vec![0x41; octets], NO_VPID);
        refused(number, "pairs", Call::SdpWrite { pairs, vpid }, lent, 0)
    };
    let pair = "DID_SDID={0x41,0x05}";
    let sixty_four = format!("{pair};").repeat(64);
    vec![
        read(40, &"x".repeat(4_097), 9, 0),
        read(41, ";", 9, 0),
        read(41, "a=b;VPID_Code=256", 9, 1),
        read(41, &format!("{pair}; {pair};c=d; "), 9, 3),
        read(42, "VPID_Code=1;VPID_Code=2", 9, 1),
        read(42, "VPID_Code=1;a=b;c=d;VPID_Code=1", 9, 3),
        read(43, &format!("{sixty_four}{pair}"), 9, 64),
        read(43, &format!("a=b;{sixty_four}c=d;{pair}"), 9, 66),
        read(44, &format!("{pair};{pair}"), 3, 0),
        write(41, 131, 0),
        write(43, 130, 0),
        write(44, 2, 19),
    ]
}

/// A file of one field: F, count, and the ANC packets of a damaged packet.
fn file_of(version: Version, f: u8, count: u16, damage: impl Fn(&mut Parts)) -> Vec<u8> {
    let mut parts = parts(Rfc8331, &[0, 5, 13]);
    damage(&mut parts);
    let mut file = version.start().to_vec();
    file.extend(file_field(version, 9, f, count, &parts.anc));
    file
}

fn of_files(version: Version) -> Vec<Refused> {
    let read = |number, file: &[u8], at, lent, index| {
        let file = file.to_vec();
        refused(number, "file", Call::FileRead { file, at }, lent, index)
    };
    let file_of = |f, count, damage: &dyn Fn(&mut Parts)| file_of(version, f, count, damage);
    let good = file_of(2, 3, &|_| {});
    let end = good.len();
    let head = version.field_head();
    let long = file_of(2, 140, &|p| p.anc = parts_of_cells(36_865));
    let protected = file_of(2, 140, &|p| {
        p.anc = parts_of_cells(36_865);
        p.anc[139].words[3] = 0;
    });
    vec![
        read(9, &good[..end - 1], 5, 99, 2),
        read(9, &good[..5 + head + 11], 5, 99, 0),
        read(9, &file_of(2, 4, &|_| {}), 5, 99, 3),
        read(10, &file_of(2, 3, &|p| p.anc[1].words[0] ^= 1), 5, 99, 1),
        read(11, &file_of(2, 3, &|p| p.anc[2].words[4] ^= 1), 5, 99, 2),
        read(12, &file_of(2, 3, &|p| p.anc[0].alignment = 1), 5, 99, 0),
        read(16, &file_of(2, 3, &|p| p.anc[1].words[3] = 3), 5, 99, 1),
        read(16, &file_of(2, 3, &|p| p.anc[2].words[15] = 0x3FC), 5, 0, 2),
        read(11, &file_of(2, 3, &|p| p.anc[1].words[4] = 4), 5, 99, 1),
        read(
            11,
            &file_of(2, 3, &|p| p.anc[2].words[15] = 0x3FB),
            5,
            99,
            2,
        ),
        read(16, &protected, 5, 0, 139),
        read(14, &good, 5, 41, 0),
        read(21, &long, 5, 0, 0),
        read(50, b"AN", 0, 99, 0),
        read(50, b"ANG\0\x01", 5, 99, 0),
        read(51, b"ANF\0", 0, 99, 0),
        read(51, b"ANF\0\0", 5, 99, 0),
        read(51, b"ANF\0\x03", 5, 99, 0),
        read(51, b"ANF\x01\x02", 5, 99, 0),
        read(52, &good[..5 + head - 1], 5, 99, 0),
        read(53, &file_of(1, 3, &|_| {}), 5, 99, 0),
        read(54, &good, end, 99, 0),
        read(55, &good, 4, 99, 0),
        read(55, &good, end + 1, 99, 0),
        read(55, &good, usize::MAX, 99, 0),
    ]
}

fn parts_of_cells(count: usize) -> Vec<Anc> {
    reference::random::anc_of(&cells(count))
}

/// A line of so many words is lent: 70, 71, 20, 16, 72.
// A case a line.
#[rustfmt::skip]
fn of_lines_written() -> Vec<Refused> {
    let of = |number, what, start, cells, lent, index| {
        refused(number, what, Call::LineWrite { start, cells }, lent, index)
    };
    let protected = [&A[..7], &[1, 0, 0x3FC]].concat();
    let mut table = vec![
        of(70, "4,097 words, nothing to write", 0, Vec::new(), 4_097, 0),
        of(70, "before 71 and 20", 5_000, vec![9], 4_097, 0),
        of(71, "one past the end, nothing to write", 10, Vec::new(), 9, 0),
        of(71, "before 20", usize::MAX, vec![9], 9, 0),
        of(20, "at the end", 9, [records(2), vec![9]].concat(), 9, 2),
        of(16, "before 72", 9, [records(3), protected].concat(), 9, 3),
        of(72, "one word short", 3, A.to_vec(), 9, 0),
        of(72, "at the end", 9, A.to_vec(), 9, 0),
        of(72, "no 21 before it", 0, records(586), 4_096, 0),
    ];
    for (number, what, list, index) in protected_lists() {
        table.push(of(number, what, 0, list, 0, index));
    }
    table
}

/// The words of records in a line.
fn stretch(cells: &[u16]) -> Vec<u16> {
    let mut line = vec![0; cells.len()];
    let end = reference::sdi::write(&mut line, 0, cells).unwrap();
    line.truncate(end);
    line
}

/// 70, 71, 20, 73; 9, 10, 9, 16, 11 with the packet's index; 14.
// A case a line.
#[rustfmt::skip]
fn of_lines_read() -> Vec<Refused> {
    let here = [1, 0x7FF, 0xFFF, 1, 127];
    let of = |number, what, line: Vec<u16>, start, place, index| {
        refused(number, what, Call::LineRead { line, start, place }, 50, index)
    };
    // A, and a packet of three words from word 7 on.
    let line = stretch(&[&A[..], &cells(RECORD_HEAD + 3)].concat());
    let with = |changes: &[(usize, u16)]| {
        let mut line = line.clone();
        changes.iter().for_each(|&(at, word)| line[at] = word);
        line
    };
    let cut = |words: usize, changes: &[(usize, u16)]| with(changes)[..words].to_vec();
    let mut table = vec![
        of(70, "4,097 words, before 71 and 20", vec![0x400; 4_097], 5_000, [2; 5], 0),
        of(71, "before 20 and 73", with(&[(0, 0x400)]), 18, [2; 5], 0),
        of(20, "before 73", with(&[(0, 0x400)]), 17, [2, 0, 0, 0, 0], 0),
        of(20, "line 0x800", line.clone(), 0, [0, 0x800, 0, 0, 0], 0),
        of(20, "offset 0x1000", line.clone(), 0, [0, 0, 0x1000, 0, 0], 0),
        of(20, "S 2", line.clone(), 0, [0, 0, 0, 2, 0], 0),
        of(20, "StreamNum 128", line.clone(), 0, [0, 0, 0, 0, 128], 0),
        of(73, "before 9, 10 and 11", with(&[(16, 0x400), (3, 0)]), 0, here, 0),
        of(73, "before the start", with(&[(0, 0xFFFF)]), 7, here, 0),
        of(73, "behind the packets", [&line[..], &[0x155, 0x400]].concat(), 0, here, 0),
        of(9, "three words after the flag, before 10", cut(13, &[(10, 0)]), 0, here, 1),
        of(9, "no words after the flag", cut(10, &[]), 0, here, 1),
        of(10, "before the words' 9", cut(16, &[(10, 0x041)]), 0, here, 1),
        of(10, "SDID", with(&[(4, 0x005)]), 0, here, 0),
        of(10, "Data_Count 0x3FC", with(&[(12, 0x3FC)]), 0, here, 1),
        of(9, "its words, before 16", cut(16, &[(13, 0)]), 0, here, 1),
        of(16, "0x003, before 11", with(&[(14, 0x003)]), 0, here, 1),
        of(16, "0x3FC", with(&[(15, 0x3FC)]), 0, here, 1),
        of(16, "0x000, from its packet on", with(&[(13, 0x000)]), 7, here, 0),
        of(11, "0x004", with(&[(14, 0x004)]), 0, here, 1),
        of(11, "0x3FB", with(&[(15, 0x3FB)]), 0, here, 1),
        of(11, "the checksum", with(&[(6, 0x247)]), 0, here, 0),
        of(11, "before 14", with(&[(16, 0x200)]), 0, here, 1),
    ];
    let (start, place) = (0, here);
    table.push(refused(14, "20 of 21 cells", Call::LineRead { line, start, place }, 20, 0));
    table
}

fn table() -> Vec<Refused> {
    [
        of_packets(Rfc8331),
        of_packets(Draft2015),
        of_written(Rfc8331, 32, 20),
        of_written(Draft2015, 26, 17),
        of_not_carried(),
        of_fields(),
        of_opened(),
        of_states(Rfc8331),
        of_states(Draft2015),
        of_parameters(),
        of_files(Version::One),
        of_files(Version::Two),
        of_lines_written(),
        of_lines_read(),
    ]
    .into_iter()
    .flatten()
    .collect()
}

#[test]
fn every_number_with_its_index() {
    let mut r = Random::new(501);
    for case in table() {
        let lengths = Lengths {
            answer: ANSWER,
            state: STATE,
            cells: case.lent,
            octets: case.lent,
        };
        let mut memory = Memory::new(lengths, &mut r);
        memory.state.get_mut().copy_from_slice(&row_of(&case.state));
        let (number, after) = compare(&case.call, &memory);
        memory.answer.get_mut()[0] = case.index;
        let state = memory.state.get_mut();
        state[10] += (case.number == 32) as u64;
        if case.number == 36 {
            state[12..14].copy_from_slice(&[1, HEAD.number as u64 + 1]);
        }
        let what = case.what;
        assert_eq!(number, case.number, "{what}: {:?}", case.call);
        assert_eq!(after, memory, "{number}, {what}");
    }
}

#[test]
fn the_table_has_every_number() {
    let numbers: BTreeSet<u8> = table().iter().map(|case| case.number).collect();
    let of_the_papers = (1..=16)
        .chain([20, 21, 23, 24, 25, 30, 31, 32, 35, 36])
        .chain(40..=44)
        .chain(50..=55)
        .chain(70..=73);
    assert_eq!(numbers, of_the_papers.collect());
}

/// 22 is reserved (02, K7): for each count of words as many records as the
/// limits allow are written in either layout, in under 65,535 octets.
#[test]
fn the_longest_packets_are_written() {
    let mut r = Random::new(404);
    let Limits { records, cells } = Limits::PACKET;
    let mut longest = 0;
    for (n, layout) in (0..256).flat_map(|n| Layout::ALL.map(|layout| (n, layout))) {
        let records = records.min(cells / (RECORD_HEAD + n));
        let last = (n + cells - records * (RECORD_HEAD + n)).min(255);
        let record = |n: usize| {
            let mut cells = vec![0, 9, 0, 0, 0, 0x61, 0x02, n as u16, 0];
            cells.resize(RECORD_HEAD + n, 0x155);
            cells
        };
        let list = [record(n).repeat(records - 1), record(last)].concat();
        let call = write(layout, 96, 0, list);
        let lengths = Lengths {
            answer: ANSWER,
            octets: packet::MAX_PACKET,
            ..Lengths::default()
        };
        let (number, after) = compare(&call, &Memory::new(lengths, &mut r));
        assert_eq!(number, 0, "{n} words, {layout:?}");
        longest = longest.max(after.answer.get()[0]);
    }
    assert!((40_000..=49_172).contains(&longest), "{longest}");
}
