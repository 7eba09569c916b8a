//! The layout of the drafts of 2015 by hand (02, K3): its examples, every
//! refusal that differs from RFC 8331's with its index, and its borders, in
//! the strict way.

use reference::anc::check_run;
use reference::depacketizer::{arrive, open, Answer, State};
use reference::frames::put_frame;
use reference::packet::{self, Head};
use reference::random::{Anc, Parts};
use reference::{fieldlist, Layout, Refusal};

const OLD: Layout = Layout::Draft2015;
const A_CELLS: [u16; 9] = [0, 9, 0, 0, 0, 0x41, 0x05, 0, 0];
const A_OCTETS: [u8; 9] = [0x00, 0x90, 0x00, 0x90, 0x60, 0x58, 0x00, 0x91, 0x80];
const HEAD: Head = Head {
    source: 5,
    payload_type: 96,
    marker: true,
    number: 0x0001_FFFF,
    timestamp: 9,
    f: 0,
};

fn record(n: u16) -> Vec<u16> {
    let mut cells = vec![1, 9, 4095, 0, 0, 0x61, 0x02, n, 0];
    cells.extend((0..n).map(|word| 4 + word * 37 % 1016));
    cells
}

fn parts(counts: &[u16]) -> Parts {
    let cells: Vec<u16> = counts.iter().flat_map(|&n| record(n)).collect();
    Parts::of(OLD, HEAD, &cells)
}

fn read(octets: &[u8], room: usize) -> Option<(u8, usize)> {
    let mut cells = vec![0x5A5A; room];
    let Err(Refusal { number, index }) = packet::read_strict(OLD, octets, &mut cells) else {
        return None;
    };
    assert!(cells.iter().all(|&cell| cell == 0x5A5A));
    Some((number, index))
}

fn write(head: &Head, cells: &[u16], room: usize) -> Option<(u8, usize)> {
    let mut out = vec![0x5A; room];
    let Err(Refusal { number, index }) = packet::write(OLD, head, cells, &mut out) else {
        return None;
    };
    assert!(out.iter().all(|&octet| octet == 0x5A));
    Some((number, index))
}

#[test]
fn a_in_a_packet() {
    let mut out = [0xEE; 30];
    assert_eq!(packet::write(OLD, &HEAD, &A_CELLS, &mut out), Ok(26));
    let front = [0x80, 0xE0, 0xFF, 0xFF, 0, 0, 0, 9, 0, 0, 0, 5];
    assert_eq!(out[..12], front);
    assert_eq!(out[12..17], [0, 1, 0, 9, 1]);
    assert_eq!(out[17..26], A_OCTETS);
    assert_eq!(out[26..], [0xEE; 4]);
    let mut cells = [0xEEEE; 11];
    let summary = packet::read(OLD, &out[..26], &mut cells).unwrap();
    assert_eq!(summary.head(), HEAD);
    assert_eq!((summary.records, summary.cells), (1, 9));
    assert_eq!(cells[..9], A_CELLS);
    assert_eq!(cells[9..], [0xEEEE; 2]);
}

#[test]
fn sizes_and_the_empty_list() {
    assert_eq!(
        [0, 3, 4, 255].map(|n| OLD.packet_octets(n)),
        [9, 12, 14, 327]
    );
    let mut out = [0; 17];
    assert_eq!(packet::write(OLD, &HEAD, &[], &mut out), Ok(17));
    let summary = packet::read(OLD, &out, &mut []).unwrap();
    assert_eq!((summary.records, summary.cells), (0, 0));
    assert_eq!(write(&HEAD, &[], 16), Some((23, 0)));
}

/// The place's bits give other records, those of DID, SDID and Data_Count 10,
/// the R bits 15, those of the checksum 11, the alignment 12.
#[test]
fn a_with_each_bit_changed() {
    for bit in 0..72 {
        let mut octets = A_OCTETS;
        octets[bit / 8] ^= 0x80 >> (bit % 8);
        let number = match bit {
            0..24 => 0,
            24..54 => 10,
            54..56 => 15,
            56..66 => 11,
            _ => 12,
        };
        match check_run(OLD, &octets, 1) {
            Ok(run) => {
                let mut cells = [0; 9];
                run.read(0, &mut cells).unwrap();
                assert_eq!(number, 0);
                assert_ne!(cells[..3], A_CELLS[..3]);
                assert_eq!(cells[3..], A_CELLS[3..]);
            }
            Err(refusal) => assert_eq!(refusal, Refusal::plain(number), "bit {bit}"),
        }
    }
}

#[test]
fn reading_5_to_8() {
    let good = parts(&[0, 3]).assemble();
    assert_eq!(read(&good, 100), None);
    for size in 12..17 {
        assert_eq!(read(&good[..size], 100), Some((5, 0)));
    }
    // Four octets are left where padding takes one of five.
    let mut padded = parts(&[]);
    padded.padding = Some(vec![2]);
    assert_eq!(read(&padded.assemble(), 100), Some((5, 0)));
    padded.padding = Some(vec![1]);
    assert_eq!(read(&padded.assemble(), 100), None);
    // Octets where RFC 8331 has F are an ANC packet's here: 6 is not given.
    let mut made = parts(&[0]);
    made.anc[0].place = 0x7FF0_0000;
    assert_eq!(read(&made.assemble(), 100), None);
    for length in [0, 1, 6, 8, 10, 12] {
        made.length = Some(length);
        assert_eq!(read(&made.assemble(), 100), Some((7, 0)));
    }
    made.count = Some(0);
    assert_eq!(read(&made.assemble(), 100), Some((7, 0)));
    made.length = Some(9);
    assert_eq!(read(&made.assemble(), 100), Some((8, 0)));
}

#[test]
fn reading_9() {
    for index in 0..4 {
        let mut made = parts(&[0, 12, 3, 5][..index]);
        made.count = Some(index as u8 + 1);
        let first = if index == 0 { 1 } else { 0 };
        for extra in first..9 {
            made.extra = vec![0xFF; extra];
            assert_eq!(read(&made.assemble(), 100), Some((9, index)));
        }
        made.extra = vec![0xFF; 9];
        assert_eq!(read(&made.assemble(), 100), Some((10, index)));
        // The second 9 comes before 15.
        let mut anc = Anc::of(&record(9));
        anc.r = 1;
        let whole = anc.octets(OLD);
        for extra in 9..whole.len() {
            made.extra = whole[..extra].to_vec();
            assert_eq!(read(&made.assemble(), 100), Some((9, index)));
        }
        made.extra = whole;
        assert_eq!(read(&made.assemble(), 100), Some((15, index)));
    }
}

#[test]
fn reading_10_to_15() {
    for index in 0..3 {
        let counts = [5, 6, 7, 8];
        for word in 0..3 {
            let mut made = parts(&counts);
            made.anc[index].words[word] ^= 0x200;
            made.anc[index].r = 3;
            assert_eq!(read(&made.assemble(), 100), Some((10, index)));
        }
        let mut made = parts(&counts);
        made.anc[index].alignment = if index == 2 { 0 } else { 1 };
        let aligned = if index == 2 { None } else { Some((12, index)) };
        assert_eq!(read(&made.assemble(), 100), aligned);
        made.anc[index].words[4] ^= 0x100;
        assert_eq!(read(&made.assemble(), 100), Some((11, index)));
        for r in 1..4 {
            made.anc[index].r = r;
            assert_eq!(read(&made.assemble(), 100), Some((15, index)));
        }
        // A checksum of an earlier packet comes before a later one's R bits.
        made.anc[index].r = 0;
        made.anc[3].r = 2;
        assert_eq!(read(&made.assemble(), 100), Some((11, index)));
    }
    let mut made = parts(&[4, 5]);
    made.extra = vec![0];
    assert_eq!(read(&made.assemble(), 0), Some((13, 0)));
    made.extra = Vec::new();
    assert_eq!(read(&made.assemble(), 26), Some((14, 0)));
    assert_eq!(read(&made.assemble(), 27), None);
}

/// 001's sentence, not 000's "lower 8 bits": the sum's ninth bit counts.
#[test]
fn nine_bits_of_checksum() {
    let mut cells = record(1);
    cells[9] = 0x0FF;
    let mut made = Parts::of(OLD, HEAD, &cells);
    assert_eq!(read(&made.assemble(), 100), None);
    // 0x161 + 0x102 + 0x101 + 0x0FF in nine bits is 0x063; 0x1FF in the
    // word's place sets the ninth.
    assert_eq!(made.anc[0].words[4], 0x263);
    cells[9] = 0x1FF;
    made = Parts::of(OLD, HEAD, &cells);
    assert_eq!(made.anc[0].words[4], 0x163);
    assert_eq!(read(&made.assemble(), 100), None);
    made.anc[0].words[4] = 0x263;
    assert_eq!(read(&made.assemble(), 100), Some((11, 0)));
}

/// Every place of the alignment, for every n.
#[test]
fn every_alignment_bit() {
    for n in 0..256 {
        let good = parts(&[n]).assemble();
        assert_eq!(read(&good, 300), None);
        let used = 66 + 10 * n as usize;
        for bit in used..8 * OLD.packet_octets(n as usize) {
            let mut octets = good.clone();
            octets[17 + bit / 8] ^= 0x80 >> (bit % 8);
            assert_eq!(read(&octets, 300), Some((12, 0)));
        }
    }
}

#[test]
fn writing_24_20_21_25_23() {
    let with = |f| Head { f, ..HEAD };
    let streamed = |cell: usize, value: u16| {
        let mut list = [record(3), record(0), record(9)].concat();
        list[12 + cell] = value;
        list
    };
    for f in [1, 4, 255] {
        assert_eq!(write(&with(f), &[9], 0), Some((24, 0)));
    }
    for f in [2, 3] {
        assert_eq!(write(&with(f), &[9], 0), Some((20, 0)));
        assert_eq!(write(&with(f), &A_CELLS.repeat(256), 0), Some((21, 0)));
        assert_eq!(write(&with(f), &[], 0), Some((25, 0)));
        assert_eq!(write(&with(f), &record(5), 0), Some((25, 0)));
    }
    for (cell, value) in [(3, 1), (4, 1), (4, 127)] {
        let list = streamed(cell, value);
        assert_eq!(write(&HEAD, &list, 0), Some((25, 0)));
        // 20 goes by RFC 8331's widths, and comes before 25.
        let cut = &list[..list.len() - 1];
        assert_eq!(write(&HEAD, cut, 0), Some((20, 2)));
        let many = [list, A_CELLS.repeat(253)].concat();
        assert_eq!(write(&HEAD, &many, 0), Some((21, 0)));
    }
    for (cell, value) in [(3, 2), (4, 128)] {
        assert_eq!(write(&HEAD, &streamed(cell, value), 0), Some((20, 1)));
    }
    let list = streamed(0, 1);
    let need = 17
        + [3, 0, 9]
            .map(|n| OLD.packet_octets(n))
            .iter()
            .sum::<usize>();
    for room in [0, 16, 17, need - 1] {
        assert_eq!(write(&HEAD, &list, room), Some((23, 0)));
    }
    assert_eq!(write(&HEAD, &list, need), None);
}

#[test]
fn limits_of_the_writer() {
    let mut out = vec![0; 65_535];
    let mut of = |list: &[u16]| packet::write(OLD, &HEAD, list, &mut out);
    assert_eq!(of(&A_CELLS.repeat(255)), Ok(17 + 255 * 9));
    assert_eq!(of(&A_CELLS.repeat(256)), Err(Refusal::plain(21)));
    let list = |last| [record(255).repeat(139), record(last)].concat();
    assert_eq!(list(159).len(), 36_864);
    assert_eq!(of(&list(159)), Ok(17 + 139 * 327 + 207));
    assert_eq!(of(&list(160)), Err(Refusal::plain(21)));
}

fn ready() -> State {
    State {
        phase: 1,
        heard: true,
        last: 0x0001_FFFE,
        ..open(5, 96).unwrap()
    }
}

/// 15 is counted with 1 to 13; a layout that is not the packet's is 7.
#[test]
fn arrivals() {
    let mut store = [0x5A5A; 40];
    let mut bad = parts(&[0, 1, 0]);
    bad.anc[2].r = 2;
    let other = State {
        source: 6,
        ..ready()
    };
    for state in [ready(), other] {
        let (after, answer) = arrive(state, OLD, &bad.assemble(), &mut store);
        assert_eq!(
            (after, answer),
            (state, Answer::Refused(Refusal::at(15, 2)))
        );
    }
    let good = parts(&[2, 0]);
    let refused = Answer::Refused(Refusal::plain(7));
    for (told, made) in [(Layout::Rfc8331, OLD), (OLD, Layout::Rfc8331)] {
        let octets = Parts {
            layout: made,
            ..good.clone()
        }
        .assemble();
        let (after, answer) = arrive(ready(), told, &octets, &mut store);
        assert_eq!((after, answer), (ready(), refused));
    }
    assert_eq!(store, [0x5A5A; 40]);
    let (after, answer) = arrive(ready(), OLD, &good.assemble(), &mut store);
    let whole = Answer::Whole {
        timestamp: 9,
        f: 0,
        records: 2,
        cells: 20,
        packets: 1,
    };
    assert_eq!((answer, after.fresh), (whole, 1));
    assert_eq!(store[..20], [record(2), record(0)].concat());
    assert_eq!(store[20..], [0x5A5A; 20]);
}

/// 01's example in the old layout, and told the other.
#[test]
fn listings() {
    let mut input = Vec::new();
    for (number, timestamp) in [(7, 1000), (8, 2501), (8, 2501), (10, 5504)] {
        let head = Head {
            number,
            timestamp,
            ..HEAD
        };
        put_frame(&Parts::of(OLD, head, &A_CELLS).assemble(), &mut input);
    }
    let mut bad = parts(&[0, 0]);
    bad.anc[1].r = 1;
    put_frame(&bad.assemble(), &mut input);
    let output = "fieldlist 1\n\
        7 skipped\n\
        8 whole ts=2501 f=0 records=1\n \
        y line=9 off=0 s=0/0 did=41 sdid=05 words=0\n\
        8 late\n\
        10 skipped\n\
        refused 15 1\n\
        fresh=3 late=1 missing=1\n";
    assert_eq!(fieldlist(OLD, &input), output);
    let told_the_other =
        "fieldlist 1\n".to_string() + &"refused 7 0\n".repeat(5) + "fresh=0 late=0 missing=0\n";
    assert_eq!(fieldlist(Layout::Rfc8331, &input), told_the_other);
}
