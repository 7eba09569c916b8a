//! Every refusal number by hand, with its index and unchanged lent memory, in
//! RFC 8331's layout and the strict way; `old.rs` has the other layout,
//! `tolerant.rs` the other way.

use reference::depacketizer::{arrive, open, Answer, State, FILLING, LOST, READY};
use reference::file::Version;
use reference::packet::{self, Head};
use reference::random::{Anc, Parts};
use reference::{file, Layout, Refusal};

const LAYOUT: Layout = Layout::Rfc8331;

const HEAD: Head = Head {
    source: 5,
    payload_type: 96,
    marker: true,
    number: 70_000,
    timestamp: 9,
    f: 2,
};

fn record(n: u16) -> Vec<u16> {
    let mut cells = vec![1, 9, 4095, 1, 127, 0x61, 0x02, n, 4095];
    cells.extend((0..n).map(|word| 4 + word * 37 % 1016));
    cells
}

fn parts(counts: &[u16]) -> Parts {
    let cells: Vec<u16> = counts.iter().flat_map(|&n| record(n)).collect();
    Parts::plain(HEAD, &cells)
}

fn read(octets: &[u8], room: usize) -> Option<(u8, usize)> {
    let mut cells = vec![0x5A5A; room];
    let answer = packet::read_strict(LAYOUT, octets, &mut cells);
    let Err(Refusal { number, index }) = answer else {
        return None;
    };
    assert!(cells.iter().all(|&cell| cell == 0x5A5A));
    Some((number, index))
}

#[test]
fn reading_1_to_8() {
    let good = parts(&[0, 3]).assemble();
    assert_eq!(read(&good, 100), None);
    assert_eq!(read(&vec![0; 65_536], 100), Some((1, 0)));
    assert_eq!(read(&vec![0; 65_535], 100), Some((3, 0)));
    for size in 0..12 {
        assert_eq!(read(&good[..size], 100), Some((2, 0)));
        assert_eq!(read(&vec![0; size], 100), Some((2, 0)));
    }
    let with = |first: u8, size: usize| {
        let mut octets = good[..size].to_vec();
        octets[0] = first;
        octets
    };
    assert_eq!(read(&with(0x00, 12), 100), Some((3, 0)));
    assert_eq!(read(&with(0xC0, 12), 100), Some((3, 0)));
    assert_eq!(read(&with(0x4F, 12), 100), Some((3, 0)));
    assert_eq!(read(&with(0x81, 12), 100), Some((2, 0)));
    assert_eq!(read(&with(0x81, 15), 100), Some((2, 0)));
    assert_eq!(read(&with(0x81, 16), 100), Some((5, 0)));
    assert_eq!(read(&with(0x90, 15), 100), Some((2, 0)));
    assert_eq!(read(&with(0x9F, good.len()), 100), Some((2, 0)));
    let mut extended = with(0x90, 20);
    extended[14..16].copy_from_slice(&[0, 1]);
    assert_eq!(read(&extended, 100), Some((5, 0)));
    extended[14..16].copy_from_slice(&[0, 2]);
    assert_eq!(read(&extended, 100), Some((2, 0)));
    // Padding: nothing follows, count 0, one over, all of it, some.
    assert_eq!(read(&with(0xA0, 12), 100), Some((4, 0)));
    for (count, refusal) in [(0, 4), (9, 4), (8, 5), (1, 5), (255, 4)] {
        let mut octets = with(0xA0, 20);
        octets[19] = count;
        assert_eq!(read(&octets, 100), Some((refusal, 0)));
    }
    for size in 12..20 {
        assert_eq!(read(&with(0x80, size), 100), Some((5, 0)));
    }
    let mut one = parts(&[0]);
    one.head.f = 1;
    one.length = Some(3);
    assert_eq!(read(&one.assemble(), 100), Some((6, 0)));
    one.head.f = 3;
    assert_eq!(read(&one.assemble(), 100), Some((7, 0)));
    one.count = Some(0);
    assert_eq!(read(&one.assemble(), 100), Some((7, 0)));
    one.length = None;
    assert_eq!(read(&one.assemble(), 100), Some((8, 0)));
}

#[test]
fn reading_9_to_14() {
    for index in 0..4 {
        let mut made = parts(&[0, 12, 3, 5][..index]);
        made.count = Some(index as u8 + 1);
        let first = if index == 0 { 1 } else { 0 };
        for extra in first..12 {
            made.extra = vec![0xFF; extra];
            assert_eq!(read(&made.assemble(), 100), Some((9, index)));
        }
        made.extra = vec![0xFF; 12];
        assert_eq!(read(&made.assemble(), 100), Some((10, index)));
        // The second 9: the words are right, the size is not.
        let whole = Anc::of(&record(9)).octets(LAYOUT);
        for extra in 12..whole.len() {
            made.extra = whole[..extra].to_vec();
            assert_eq!(read(&made.assemble(), 100), Some((9, index)));
        }
        made.extra = whole;
        assert_eq!(read(&made.assemble(), 100), None);
    }
    for index in 0..3 {
        for word in 0..3 {
            let mut made = parts(&[4, 5, 6, 7]);
            made.anc[index].words[word] ^= 0x200;
            assert_eq!(read(&made.assemble(), 100), Some((10, index)));
        }
        let mut made = parts(&[4, 5, 6, 7]);
        made.anc[index].alignment = 1;
        assert_eq!(read(&made.assemble(), 100), Some((12, index)));
        made.anc[index].words[4] ^= 0x100;
        assert_eq!(read(&made.assemble(), 100), Some((11, index)));
        // b9 of a user data word is no matter of the checksum.
        let mut made = parts(&[4, 5, 6, 7]);
        made.anc[index].words[4] ^= 0x200;
        assert_eq!(read(&made.assemble(), 100), None);
        let last = made.anc[index].words.len() - 1;
        made.anc[index].words[last] ^= 0x200;
        assert_eq!(read(&made.assemble(), 100), Some((11, index)));
    }
    let mut made = parts(&[4, 5]);
    made.extra = vec![0];
    assert_eq!(read(&made.assemble(), 0), Some((13, 0)));
    made.extra = Vec::new();
    assert_eq!(read(&made.assemble(), 26), Some((14, 0)));
    assert_eq!(read(&made.assemble(), 27), None);
}

/// Every place of the alignment, for every n.
#[test]
fn every_alignment_bit() {
    for n in 0..256 {
        let good = parts(&[n]).assemble();
        assert_eq!(read(&good, 300), None);
        let used = 72 + 10 * n as usize;
        for bit in used..8 * LAYOUT.packet_octets(n as usize) {
            let mut octets = good.clone();
            octets[20 + bit / 8] ^= 0x80 >> (bit % 8);
            assert_eq!(read(&octets, 300), Some((12, 0)));
        }
    }
}

fn write(head: &Head, cells: &[u16], room: usize) -> Option<(u8, usize)> {
    let mut out = vec![0x5A; room];
    let Err(Refusal { number, index }) = packet::write(LAYOUT, head, cells, &mut out) else {
        return None;
    };
    assert!(out.iter().all(|&octet| octet == 0x5A));
    Some((number, index))
}

fn file_write(f: u8, cells: &[u16], room: usize) -> Option<(u8, usize)> {
    let mut out = vec![0x5A; room];
    let Err(Refusal { number, index }) = file::write(3, f, cells, &mut out) else {
        return None;
    };
    assert!(out.iter().all(|&octet| octet == 0x5A));
    Some((number, index))
}

#[test]
fn writing_24_20_21_23() {
    let bad = vec![2; 3];
    for (payload_type, f) in [(128, 0), (255, 2), (96, 1), (96, 4), (96, 255)] {
        let head = Head {
            payload_type,
            f,
            ..HEAD
        };
        assert_eq!(write(&head, &bad, 0), Some((24, 0)));
    }
    let limits = [1, 0x7FF, 0xFFF, 1, 127, 255, 255, 255, 4_095];
    for index in [0, 1, 7, 299] {
        let before: Vec<u16> = (0..index).flat_map(|_| record(0)).collect();
        for (cell, limit) in limits.into_iter().enumerate() {
            let mut list = [&before[..], &record(2)].concat();
            list[9 * index + cell] = limit + 1;
            assert_eq!(write(&HEAD, &list, 0), Some((20, index)));
            assert_eq!(file_write(0, &list, 0), Some((20, index)));
        }
        for size in 1..12 {
            let list = [&before[..], &record(3)[..size]].concat();
            assert_eq!(write(&HEAD, &list, 0), Some((20, index)));
        }
        let mut list = [&before[..], &record(40), &record(1)].concat();
        list[9 * index + 40] = 1024;
        assert_eq!(write(&HEAD, &list, 0), Some((20, index)));
    }
    // 21 before 23: by records, by cells; of a packet, of a field.
    let long = record(255).repeat(140);
    assert_eq!(long.len(), 36_960);
    for (list, of_a_field) in [
        (record(0).repeat(256), 23),
        (record(0).repeat(4_095), 23),
        (record(0).repeat(4_096), 21),
        (long, 21),
    ] {
        assert_eq!(write(&HEAD, &list, 0), Some((21, 0)));
        assert_eq!(file_write(2, &list, 0), Some((of_a_field, 0)));
    }
    let list = [record(1), record(30)].concat();
    let need = LAYOUT.packet_octets(1) + LAYOUT.packet_octets(30);
    for room in [0, 5, 6, 7, 19, 20, 21, need] {
        assert_eq!(write(&HEAD, &list, room), Some((23, 0)));
    }
    assert_eq!(write(&HEAD, &list, need + 19), Some((23, 0)));
    assert_eq!(write(&HEAD, &list, need + 20), None);
    for room in [0, 6, 7, need + 6] {
        assert_eq!(file_write(3, &list, room), Some((23, 0)));
    }
    assert_eq!(file_write(3, &list, need + 7), None);
    assert_eq!(file_write(3, &[], 6), Some((23, 0)));
    assert_eq!(file_write(3, &[], 7), None);
    assert_eq!(write(&HEAD, &[], 19), Some((23, 0)));
    assert_eq!(write(&HEAD, &[], 20), None);
}

fn sound() -> State {
    State {
        phase: FILLING,
        heard: true,
        last: 69_999,
        timestamp: 9,
        f: 2,
        records: 3,
        cells: 40,
        packets: 2,
        late: 8,
        ..open(5, 96).unwrap()
    }
}

fn refusal_of(state: State, octets: &[u8], store: usize) -> Option<(u8, usize)> {
    let mut store = vec![0x5A5A; store];
    let (after, answer) = arrive(state, LAYOUT, octets, &mut store);
    let Answer::Refused(Refusal { number, index }) = answer else {
        return None;
    };
    let late = state.late.saturating_add((number == 32) as u64);
    let remembered = match number {
        36 => after.remembered,
        _ => state.remembered,
    };
    let unchanged = State {
        late,
        remembered,
        ..state
    };
    assert_eq!(after, unchanged);
    assert!(store.iter().all(|&cell| cell == 0x5A5A));
    Some((number, index))
}

#[test]
fn depacketizer_35_then_1_to_13_then_30_31_then_32_or_36() {
    let good = parts(&[0]).assemble();
    let refused = |state, octets: &[u8]| refusal_of(state, octets, 1000);
    assert_eq!(refused(sound(), &good), None);
    let lost = State {
        phase: LOST,
        records: 0,
        cells: 0,
        packets: 0,
        ..sound()
    };
    let unsound = [
        State {
            records: 4_096,
            ..sound()
        },
        State {
            cells: 36_865,
            ..sound()
        },
        State {
            cells: 1001,
            ..sound()
        },
        State {
            phase: LOST,
            ..sound()
        },
        State {
            phase: READY,
            records: 1,
            ..lost
        },
        State {
            phase: READY,
            cells: 1,
            ..lost
        },
        State { records: 1, ..lost },
        State { cells: 1, ..lost },
        State { packets: 1, ..lost },
        State {
            phase: READY,
            packets: 1,
            ..lost
        },
        State {
            packets: 0,
            ..sound()
        },
        State {
            packets: 4_097,
            ..sound()
        },
        State {
            heard: false,
            ..sound()
        },
        State {
            phase: READY,
            heard: false,
            ..lost
        },
    ];
    for state in unsound {
        assert_eq!(refused(state, &good), Some((35, 0)), "{state:?}");
        assert_eq!(refused(state, &[]), Some((35, 0)));
    }
    for (records, cells, refusal) in [
        (4_095, 36_864, None),
        (4_096, 36_864, Some((35, 0))),
        (4_095, 36_865, Some((35, 0))),
    ] {
        let state = State {
            records,
            cells,
            ..sound()
        };
        assert_eq!(refusal_of(state, &good, 40_000), refusal);
    }
    assert_eq!(
        refused(
            State {
                cells: 1000,
                ..sound()
            },
            &good
        ),
        None
    );
    assert_eq!(
        refused(
            State {
                heard: false,
                ..lost
            },
            &good
        ),
        None
    );

    let other = State {
        source: 6,
        payload_type: 97,
        last: 70_000,
        ..sound()
    };
    let mut broken = parts(&[0, 0, 0]);
    broken.anc[2].alignment = 1;
    assert_eq!(refused(other, &broken.assemble()), Some((12, 2)));
    assert_eq!(refused(other, &[]), Some((2, 0)));
    assert_eq!(refused(other, &good), Some((30, 0)));
    assert_eq!(refused(State { source: 5, ..other }, &good), Some((31, 0)));
    let far = 70_000_u32.wrapping_add(0x8000_0000);
    for (last, refusal) in [
        (70_000, Some((32, 0))),
        (70_001, Some((32, 0))),
        (70_099, Some((32, 0))),
        (70_100, Some((36, 0))),
        (far - 1, Some((36, 0))),
        (far, Some((36, 0))),
        (far + 1, Some((36, 0))),
        (67_000, Some((36, 0))),
        (67_001, None),
    ] {
        let state = State { last, ..sound() };
        assert_eq!(refused(state, &good), refusal);
        let state = State {
            late: u64::MAX,
            ..state
        };
        assert_eq!(refused(state, &good), refusal);
    }
    // A memory before a first arrival is not 35, and is not asked for.
    for remembered in [None, Some(0), Some(70_000)] {
        let state = State {
            remembered,
            heard: false,
            ..lost
        };
        assert_eq!(refused(state, &good), None);
    }
    assert_eq!(open(0, 128), Err(Refusal::plain(24)));
}

#[test]
fn depacketizer_counts_stop() {
    let good = parts(&[0]).assemble();
    let full = State {
        fresh: u64::MAX,
        missing: u64::MAX - 1,
        last: 69_997,
        ..sound()
    };
    let (after, answer) = arrive(full, LAYOUT, &good, &mut [0; 100]);
    assert_eq!(answer, Answer::Skipped);
    assert_eq!(
        (after.fresh, after.missing, after.last),
        (u64::MAX, u64::MAX, 70_000)
    );
    assert_eq!((after.phase, after.records, after.cells), (READY, 0, 0));
    assert_eq!((after.timestamp, after.f), (0, 0));
}

fn file_read(file: &[u8], offset: usize, room: usize) -> Option<(u8, usize)> {
    let mut cells = vec![0x5A5A; room];
    let Err(Refusal { number, index }) = file::read(file, offset, &mut cells) else {
        return None;
    };
    assert!(cells.iter().all(|&cell| cell == 0x5A5A));
    Some((number, index))
}

fn file_of(version: Version, f: u8, count: u16, anc: &[Anc]) -> Vec<u8> {
    let mut file = version.start().to_vec();
    file.extend(reference::random::file_field(version, 7, f, count, anc));
    file
}

#[test]
fn file_50_and_51() {
    for start in ["", "A", "AN", "ANG\0\x01", "anf\0\x01"] {
        assert_eq!(file_read(start.as_bytes(), 0, 0), Some((50, 0)));
    }
    let versions = [
        "ANF\0\0",
        "ANF\0\x03",
        "ANF\x01\x01",
        "ANF\x02\0",
        "ANF\x01\x02",
    ];
    for start in ["ANF", "ANF\0"].into_iter().chain(versions) {
        assert_eq!(file_read(start.as_bytes(), 0, 0), Some((51, 0)));
    }
}

#[test]
fn file_reading() {
    for version in [Version::One, Version::Two] {
        file_reading_of(version);
    }
}

fn file_reading_of(version: Version) {
    let head = version.field_head();
    let file_of = |f, count, anc: &[Anc]| file_of(version, f, count, anc);
    let anc = |counts: &[u16]| parts(counts).anc;
    let good = file_of(2, 3, &anc(&[0, 3, 12]));
    assert_eq!(file_read(&good, 5, 42), None);
    assert_eq!(file_read(&good, 5, 41), Some((14, 0)));
    for offset in [0, 4, good.len() + 1, usize::MAX] {
        assert_eq!(file_read(&good, offset, 99), Some((55, 0)));
    }
    assert_eq!(file_read(&good, good.len(), 99), Some((54, 0)));
    assert_eq!(file_read(&good[..5], 5, 99), Some((54, 0)));
    for size in 6..5 + head {
        assert_eq!(file_read(&good[..size], 5, 99), Some((52, 0)));
    }
    assert_eq!(file_read(&good, good.len() - 1, 99), Some((52, 0)));
    for f in [1, 4, 0x80, 0xC0, 255] {
        assert_eq!(file_read(&file_of(f, 9, &anc(&[])), 5, 99), Some((53, 0)));
    }
    assert_eq!(file_read(&good[..5 + head], 5, 99), Some((9, 0)));
    assert_eq!(file_read(&good[..5 + head + 11], 5, 99), Some((9, 0)));
    assert_eq!(file_read(&good[..good.len() - 1], 5, 99), Some((9, 2)));
    assert_eq!(
        file_read(&file_of(0, 4, &anc(&[0, 3, 12])), 5, 99),
        Some((9, 3))
    );
    for (number, index) in [(10, 0), (10, 2), (11, 1), (12, 1)] {
        let mut anc = anc(&[0, 3, 13]);
        match number {
            10 => anc[index].words[1] ^= 1,
            11 => anc[index].words[3] ^= 1,
            _ => anc[index].alignment = 1,
        }
        assert_eq!(file_read(&file_of(0, 3, &anc), 5, 0), Some((number, index)));
    }
    let long = anc(&[255; 140]);
    assert_eq!(file_read(&file_of(0, 140, &long), 5, 0), Some((21, 0)));
    assert_eq!(file_read(&file_of(0, 139, &long), 5, 0), Some((14, 0)));
    // The packets come before the limits: 11 where 21 is due as well.
    let mut bad = long;
    bad[139].words[9] ^= 1;
    assert_eq!(file_read(&file_of(0, 140, &bad), 5, 0), Some((11, 139)));
}

/// The limits of a field, and a count that needs both octets.
#[test]
fn file_21_by_records() {
    let two = |count, anc: &[Anc]| file_of(Version::Two, 0, count, anc);
    let many = vec![Anc::of(&record(0)); 4_096];
    assert_eq!(file_read(&two(4_095, &many[1..]), 5, 36_855), None);
    assert_eq!(file_read(&two(4_095, &many[1..]), 5, 36_854), Some((14, 0)));
    assert_eq!(file_read(&two(4_096, &many), 5, 0), Some((21, 0)));
    assert_eq!(file_read(&two(4_097, &many), 5, 0), Some((9, 4_096)));
    assert_eq!(file_read(&two(65_535, &many), 5, 0), Some((9, 4_096)));
    assert_eq!(file_read(&two(256, &many[..255]), 5, 0), Some((9, 255)));
}

#[test]
fn file_beginning_and_53() {
    let mut out = [0x5A; 7];
    assert_eq!(file::begin(&mut out[..4]), Err(Refusal::plain(23)));
    assert_eq!(out, [0x5A; 7]);
    assert_eq!(file::begin(&mut out), Ok(5));
    assert_eq!(&out, b"ANF\0\x02ZZ");
    for f in [1, 4, 255] {
        assert_eq!(file_write(f, &[9], 0), Some((53, 0)));
    }
}
