//! Small spaces gone through whole: every number of one part, the rest as in
//! a call that is accepted.

use differential::call::{compare, compare_wanted, Call, Lengths, Memory};
use differential::model::{number_of, row_of};
use differential::{Head, Pair, ANSWER, DRAFTS, LAYOUT, RFC8331, STATE};
use reference::anc::RECORD_HEAD;
use reference::depacketizer::open;
use reference::file::Version;
use reference::random::{anc_of, carried, file_field, record, Parts, Random};
use reference::runs::{changed, A, HEAD};
use reference::Layout;

const TEXT: &[u8] = b"DID_SDID={0x4a,0x5}; x-1=y;VPID_Code=132";

fn lent(cells: usize, octets: usize) -> Memory {
    let lengths = Lengths {
        answer: ANSWER,
        cells,
        octets,
        ..Lengths::default()
    };
    Memory::new(lengths, &mut Random::new(701))
}

/// Read in both ways; the number of the strict one.
fn read(layout: Layout, octets: Vec<u8>, memory: &Memory) -> u8 {
    let layout = number_of(layout);
    compare(
        &Call::Read {
            layout,
            octets: octets.clone(),
        },
        memory,
    );
    compare(&Call::ReadStrict { layout, octets }, memory).0
}

/// Every number in each place of record A's packet in either layout, told
/// either layout.
#[test]
fn every_octet_of_a_packet() {
    let memory = lent(20, 0);
    for made in Layout::ALL {
        let packet = Parts::of(made, HEAD, &A).assemble();
        for (at, mask) in (0..packet.len()).flat_map(|at| (0..=255).map(move |mask| (at, mask))) {
            for told in Layout::ALL {
                read(told, changed(&packet, at, mask), &memory);
            }
        }
    }
}

/// Every ten-bit number as DID, SDID, Data_Count and checksum. One of each is
/// accepted; of a header word's 1,024, 768 are malformed.
#[test]
fn every_word_of_a_record() {
    let memory = lent(20, 0);
    for (place, layout) in (0..4).flat_map(|place| Layout::ALL.map(|layout| (place, layout))) {
        let mut met = [0; 256];
        for word in 0..1024 {
            let mut parts = Parts::of(layout, HEAD, &A);
            parts.anc[0].words[place] = word;
            met[read(layout, parts.assemble(), &memory) as usize] += 1;
        }
        let wrong = if place < 3 { met[10] } else { met[11] };
        assert_eq!((met[0], wrong), (1, if place < 3 { 768 } else { 1023 }));
    }
}

/// The user data words that ST 291-1 keeps for timing.
fn is_protected(word: u16) -> bool {
    word < 4 || word > 0x3FB
}

/// A record of `n` words, 0x155 each but one.
fn with_word(n: usize, place: usize, word: u16) -> Vec<u16> {
    let mut cells = [&A[..7], &[n as u16, 0], &vec![0x155; n][..]].concat();
    cells[RECORD_HEAD + place] = word;
    cells
}

/// A record in a packet of either layout, in a list and in a file of either
/// version: the same number from all of them, and its index.
fn anywhere(record: &[u16], number: u8) {
    let list = [&A[..], record].concat();
    let size = 60 + 2 * list.len();
    let check = |call: &Call| {
        let (met, after) = compare(call, &lent(list.len(), size));
        assert_eq!(met, number, "{call:?}");
        assert!(number == 0 || after.answer.get()[0] == 1);
    };
    for layout in Layout::ALL {
        let octets = Parts::of(layout, HEAD, &list).assemble();
        let told = number_of(layout);
        check(&Call::Read {
            layout: told,
            octets,
        });
        check(&write(layout, 112, 0, list.clone()));
    }
    for version in [Version::One, Version::Two] {
        let field = file_field(version, 9, 2, 2, &anc_of(&list));
        let file = [version.start().to_vec(), field].concat();
        check(&Call::FileRead { file, at: 5 });
    }
    let (timestamp, f, cells) = (9, 2, list.clone());
    check(&Call::FileWrite {
        timestamp,
        f,
        cells,
    });
}

/// Every ten-bit number as a user data word: 0x000 to 0x003 and 0x3FC to 0x3FF
/// are refused by 16.
#[test]
fn every_user_data_word() {
    for word in 0..1024 {
        let number = if is_protected(word) { 16 } else { 0 };
        for (n, place) in [(1, 0), (20, 11)] {
            anywhere(&with_word(n, place, word), number);
        }
    }
}

/// A protected word in every place of every count of words, and its neighbour
/// that is not protected.
#[test]
fn every_place_of_a_protected_word() {
    for n in 1..256 {
        for place in 0..n {
            for word in [0x003, 0x004, 0x3FB, 0x3FC] {
                let memory = lent(RECORD_HEAD + n, 0);
                let cells = with_word(n, place, word);
                let number = if is_protected(word) { 16 } else { 0 };
                for layout in Layout::ALL {
                    let octets = Parts::of(layout, HEAD, &cells).assemble();
                    assert_eq!(read(layout, octets, &memory), number);
                }
            }
        }
    }
}

/// Every number of the drafts' R bits beside every DID and every checksum
/// word. A malformed DID comes before them, the checksum after them.
#[test]
fn every_r_beside_every_word() {
    let (memory, old) = (lent(20, 0), Layout::Draft2015);
    for r in 0..4 {
        let met = [0, 3].map(|place| {
            let mut met = [0; 256];
            for word in 0..1024 {
                let mut parts = Parts::of(old, HEAD, &A);
                (parts.anc[0].r, parts.anc[0].words[place]) = (r, word);
                met[read(old, parts.assemble(), &memory) as usize] += 1;
            }
            [0, 10, 15, 11].map(|number| met[number])
        });
        let expected = match r {
            0 => [[1, 768, 0, 255], [1, 0, 0, 1023]],
            _ => [[0, 768, 256, 0], [0, 0, 1024, 0]],
        };
        assert_eq!(met, expected);
    }
}

/// Every count of words, in room that is just enough and in one less; a field
/// of a file has RFC 8331's packets.
#[test]
fn every_count_of_words() {
    let mut r = Random::new(702);
    for n in 0..256 {
        let list = record(&mut r, n);
        for layout in Layout::ALL {
            let cells = carried(layout, list.clone());
            let octets = Parts::of(layout, HEAD, &cells).assemble();
            let size = 12 + layout.payload_header() + layout.packet_octets(n);
            assert_eq!(octets.len(), size);
            assert_eq!(read(layout, octets.clone(), &lent(RECORD_HEAD + n, 0)), 0);
            assert_eq!(
                read(layout, octets.clone(), &lent(RECORD_HEAD - 1 + n, 0)),
                14
            );
            let cut = octets[..size - 1].to_vec();
            assert_eq!(read(layout, cut, &lent(RECORD_HEAD + n, 0)), 7);
            let f = if layout == Layout::Rfc8331 { 2 } else { 0 };
            fits(&write(layout, 112, f, cells), size);
        }
        let (timestamp, f, cells) = (9, 2, list);
        let field = Call::FileWrite {
            timestamp,
            f,
            cells,
        };
        fits(&field, 7 + Layout::Rfc8331.packet_octets(n));
    }
}

/// Written into so many octets, and into one less not.
fn fits(call: &Call, octets: usize) {
    assert_eq!(compare(call, &lent(0, octets)).0, 0);
    assert_eq!(compare(call, &lent(0, octets - 1)).0, 23);
}

/// Every alignment bit of a record of every count of words.
#[test]
fn every_alignment_bit() {
    let mut r = Random::new(703);
    let memory = lent(300, 0);
    for (n, layout) in (0..256).flat_map(|n| Layout::ALL.map(|layout| (n, layout))) {
        let octets = Parts::of(layout, HEAD, &record(&mut r, n)).assemble();
        let before = 12 + layout.payload_header();
        let body = 10 * n + if layout == Layout::Rfc8331 { 72 } else { 66 };
        for bit in 8 * before + body..8 * octets.len() {
            let octets = changed(&octets, bit / 8, 0x80 >> (bit % 8));
            assert_eq!(read(layout, octets, &memory), 12);
        }
    }
}

fn write(layout: Layout, payload_type: u8, f: u8, cells: Vec<u16>) -> Call {
    write_as(number_of(layout), payload_type, f, cells)
}

fn write_as(layout: u8, payload_type: u8, f: u8, cells: Vec<u16>) -> Call {
    let head = Head {
        source: 1,
        payload_type,
        marker: 1,
        number: 7,
        timestamp: 9,
        f,
    };
    Call::Write {
        layout,
        head,
        cells,
    }
}

/// 128 payload types and three numbers of F are accepted, of the drafts one
/// number: the other two are 25.
#[test]
fn every_payload_type_and_f() {
    let memory = lent(0, 40);
    for (layout, accepted) in [(Layout::Rfc8331, 3), (Layout::Draft2015, 1)] {
        let mut met = [0; 256];
        for payload_type in 0..=255 {
            for f in 0..=255 {
                let call = write(layout, payload_type, f, A.to_vec());
                met[compare(&call, &memory).0 as usize] += 1;
            }
        }
        assert_eq!((met[0], met[25]), (128 * accepted, 128 * (3 - accepted)));
        assert_eq!(met[24], 128 * 253 + 128 * 256);
    }
}

/// Every S and StreamNum, too large ones among them. The drafts' layout
/// carries neither.
#[test]
fn every_s_and_stream() {
    let memory = lent(0, 40);
    for (s, stream) in (0..4).flat_map(|s| (0..260).map(move |stream| (s, stream))) {
        let mut cells = A.to_vec();
        (cells[3], cells[4]) = (s, stream);
        let fits = s < 2 && stream < 128;
        for layout in Layout::ALL {
            let carried = layout == Layout::Rfc8331 || (s, stream) == (0, 0);
            let number = match (fits, carried) {
                (false, _) => 20,
                (true, false) => 25,
                (true, true) => 0,
            };
            let call = write(layout, 112, 0, cells.clone());
            assert_eq!(compare(&call, &memory).0, number, "{s} {stream}");
        }
    }
}

/// Every number of a layout in each call that takes one: its own is accepted,
/// the other layout's refused where octets are read, and by any further
/// number nothing is written.
#[test]
fn every_layout_number() {
    let lengths = Lengths {
        answer: ANSWER,
        state: STATE,
        cells: 20,
        octets: 40,
    };
    let mut memory = Memory::new(lengths, &mut Random::new(704));
    let state = open(HEAD.source, HEAD.payload_type).unwrap();
    memory.state.get_mut().copy_from_slice(&row_of(&state));
    for (layout, made) in (0..=255).flat_map(|layout| Layout::ALL.map(|made| (layout, made))) {
        let octets = Parts::of(made, HEAD, &A).assemble();
        let arrival = octets.clone();
        let calls = [
            Call::Read { layout, octets },
            Call::Arrive {
                layout,
                octets: arrival,
            },
            write_as(layout, 112, 0, A.to_vec()),
        ];
        let expected = match layout {
            RFC8331 | DRAFTS if layout == number_of(made) => [0, 0, 0],
            RFC8331 | DRAFTS => [7, 7, 0],
            _ => [LAYOUT; 3],
        };
        for (call, expected) in calls.iter().zip(expected) {
            let (number, after) = compare(call, &memory);
            assert_eq!(number, expected, "{layout}");
            assert!(number != LAYOUT || after == memory, "{layout}");
        }
    }
}

/// Every ten-bit number in each place of a line with two packets, and numbers
/// of more bits; read from the start and from the second packet.
#[test]
fn every_word_of_a_line() {
    let list = [&A[..], &with_word(2, 0, 0x2AA)].concat();
    let mut line = vec![0x155; 20];
    assert_eq!(reference::sdi::write(&mut line, 2, &list), Ok(18));
    let (memory, place) = (lent(20, 0), [1, 2, 3, 1, 5]);
    for at in 0..line.len() {
        for word in (0..1024).chain([0x400, 0x7FF, 0x8000, 0xFFFF]) {
            let mut line = line.clone();
            line[at] = word;
            for start in [2, 9] {
                let line = line.clone();
                compare(&Call::LineRead { line, start, place }, &memory);
            }
        }
    }
}

/// A record of every count of words at every start of a line that it just
/// fits, and in one word less.
#[test]
fn every_count_in_a_line() {
    let mut r = Random::new(705);
    for n in 0..256 {
        let cells = record(&mut r, n);
        for start in [0, 1, 2, 3, 8, 4_089 - n] {
            let call = Call::LineWrite {
                start,
                cells: cells.clone(),
            };
            let (number, after) = compare(&call, &lent(start + 7 + n, 0));
            assert_eq!((number, after.answer.get()[0] as usize), (0, start + 7 + n));
            let line = after.cells.get()[start..].to_vec();
            let (start, place) = (0, [1, 0x7FF, 0xFFF, 1, 127]);
            let call_read = Call::LineRead { line, start, place };
            assert_eq!(compare(&call_read, &lent(RECORD_HEAD + n, 0)).0, 0);
            assert_eq!(compare(&call_read, &lent(RECORD_HEAD - 1 + n, 0)).0, 14);
        }
        let call = Call::LineWrite { start: 5, cells };
        assert_eq!(compare(&call, &lent(5 + 6 + n, 0)).0, 72);
    }
}

fn read_text(text: &[u8], memory: &Memory) -> u8 {
    let text = text.to_vec();
    compare(&Call::SdpRead { text }, memory).0
}

/// A text with each octet replaced by every number, left out and doubled.
#[test]
fn every_octet_of_a_text() {
    let memory = lent(0, 10);
    assert_eq!(read_text(TEXT, &memory), 0);
    for at in 0..TEXT.len() {
        let (before, after) = (&TEXT[..at], &TEXT[at + 1..]);
        for octet in 0..=255 {
            read_text(&[before, &[octet], after].concat(), &memory);
            read_text(&[before, &[octet], &TEXT[at..]].concat(), &memory);
        }
        read_text(&[before, after].concat(), &memory);
        read_text(before, &memory);
    }
}

/// Every text of up to seven of these octets.
#[test]
fn every_short_text() {
    const OCTETS: &[u8; 5] = b"; =a.";
    let memory = lent(0, 10);
    for length in 0..=7 {
        for number in 0..5_usize.pow(length) {
            let digit = |place| OCTETS[number / 5_usize.pow(place) % 5];
            let text: Vec<u8> = (0..length).map(digit).collect();
            read_text(&text, &memory);
        }
    }
}

/// Every number of up to four digits as VPID code, and every code written.
#[test]
fn every_vpid_code() {
    let memory = lent(0, 20);
    for code in 0..10_000 {
        for text in [
            format!("{code}"),
            format!("{code:02}"),
            format!("{code:03}"),
        ] {
            read_text(format!("VPID_Code={text}").as_bytes(), &memory);
        }
    }
    for vpid in 0..=u16::MAX {
        let pairs = Vec::new();
        compare(&Call::SdpWrite { pairs, vpid }, &memory);
    }
}

/// Every number with one and two digits of either case, and each wanted.
#[test]
fn every_pair_number() {
    let memory = lent(0, 4);
    for x in 0..=255_u8 {
        for (a, b) in [
            (format!("{x:x}"), format!("{x:02X}")),
            (format!("{x:02x}"), format!("{:X}", 255 - x)),
        ] {
            let text = format!("DID_SDID={{0x{a},0x{b}}}");
            assert_eq!(read_text(text.as_bytes(), &memory), 0);
        }
        let (pairs, vpid) = (vec![x, 255 - x], 0);
        compare(&Call::SdpWrite { pairs, vpid }, &lent(0, 40));
        for y in 0..=255 {
            let pairs = vec![9, 9, 0x41, 0x05, x, 255 - x, y];
            let (did, sdid) = (x, y);
            let (wanted, _) = compare(&Call::Wanted { did, sdid, pairs }, &memory);
            let is = [(9, 9), (0x41, 5), (x, 255 - x)].contains(&(x, y));
            assert_eq!(wanted, (is || x >= TYPE_1) as u8);
        }
    }
}

/// From this DID on the second number is a data block number.
const TYPE_1: u8 = 0x80;

/// Whether an entry is the record's: of Type 1 by the DID alone.
fn matches(entry: &Pair, asked: Pair) -> bool {
    entry.did == asked.did && (asked.did >= TYPE_1 || entry.sdid == asked.sdid)
}

/// Every DID and second number, of a record and of an entry beside another.
#[test]
fn every_did_and_second_number() {
    let memory = lent(0, 0);
    for did in 0..=255 {
        for sdid in 0..=255 {
            let asked = Pair { did, sdid };
            for second in [0, 1, sdid, 255 - sdid] {
                let row = [Pair { did: 0x41, sdid: 5 }, Pair { did, sdid: second }];
                let is = row.iter().any(|entry| matches(entry, asked));
                assert_eq!(compare_wanted(asked, &row, &memory), is as u8);
            }
            let near = [did ^ 1, did ^ 0x80].map(|did| Pair { did, sdid });
            assert_eq!(compare_wanted(asked, &near, &memory), 0);
        }
    }
}

/// Every row of up to three of nine pairs, asked for each of the nine.
#[test]
fn every_row_of_three_pairs() {
    let memory = lent(0, 0);
    let numbers = [0, TYPE_1 - 1, TYPE_1];
    let pairs = numbers.map(|did| numbers.map(|sdid| Pair { did, sdid }));
    let pairs = pairs.concat();
    for length in 0..=3 {
        for code in 0..9_usize.pow(length) {
            let places = (0..length).map(|place| pairs[code / 9_usize.pow(place) % 9]);
            let row: Vec<Pair> = places.collect();
            for &asked in &pairs {
                let is = row.is_empty() || row.iter().any(|entry| matches(entry, asked));
                assert_eq!(compare_wanted(asked, &row, &memory), is as u8);
            }
        }
    }
}

/// Every number in each place of a file's start and of its field's head, of
/// both versions, read at every offset.
#[test]
fn every_octet_of_a_file() {
    let mut file = vec![0; 24];
    reference::file::begin(&mut file).unwrap();
    reference::file::write(9, 2, &A, &mut file[5..]).unwrap();
    let mut file_1 = file.clone();
    (file_1[4], _) = (1, file_1.remove(10));
    let memory = lent(20, 0);
    for file in [file, file_1] {
        for at in 0..=file.len() + 1 {
            for (place, mask) in (0..12).flat_map(|p| (0..=255).map(move |m| (p, m))) {
                let file = changed(&file, place, mask);
                compare(&Call::FileRead { file, at }, &memory);
            }
        }
    }
}

/// Files of version 1 that were kept: the proved writer's and the reference's,
/// both of before there was a version 2. Every field, up to 54.
#[test]
fn kept_files_of_version_1() {
    let proved = include_bytes!("../../crates/example_fieldfile/data/version1.anf");
    let reference = include_bytes!("../../reference/tests/version1.anf");
    for (file, fields) in [(&proved[..], 2), (&reference[..], 5)] {
        let mut at = 5;
        for _ in 0..fields {
            let file = file.to_vec();
            let (number, after) = compare(&Call::FileRead { file, at }, &lent(36_864, 0));
            assert_eq!(number, 0);
            at = after.answer.get()[4] as usize;
        }
        let file = file.to_vec();
        assert_eq!(compare(&Call::FileRead { file, at }, &lent(0, 0)).0, 54);
    }
}
