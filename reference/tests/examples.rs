//! The marked examples and the run-only ones.

use reference::anc::{check_run, HEADER_WORDS};
use reference::frames::put_frame;
use reference::packet::{read, write, Head};
use reference::{Layout, Refusal};

const LAYOUT: Layout = Layout::Rfc8331;

const A_CELLS: [u16; 9] = [0, 9, 0, 0, 0, 0x41, 0x05, 0, 0];
const A_OCTETS: [u8; 12] = [
    0x00, 0x90, 0x00, 0x00, 0x90, 0x60, 0x58, 0x02, 0x46, 0, 0, 0,
];
const B_CELLS: [u16; 11] = [1, 0x7FF, 0xFFF, 1, 3, 0x61, 0x02, 2, 0, 0x2AA, 0x155];
const B_OCTETS: [u8; 12] = [
    0xFF, 0xFF, 0xFF, 0x83, 0x58, 0x50, 0x24, 0x0A, 0xAA, 0x55, 0x56, 0x40,
];

fn head(number: u32, timestamp: u32, f: u8) -> Head {
    Head {
        source: 1,
        payload_type: 112,
        marker: true,
        number,
        timestamp,
        f,
    }
}

fn fieldlist(input: &[u8]) -> String {
    reference::fieldlist(LAYOUT, input)
}

fn packet(head: &Head, cells: &[u16]) -> Vec<u8> {
    let mut out = vec![0; 70_000];
    let size = write(LAYOUT, head, cells, &mut out).unwrap();
    out.truncate(size);
    out
}

#[test]
fn header_words_and_sizes() {
    assert_eq!(
        [0, 0x41, 0x61, 0xFF].map(|x| HEADER_WORDS[x]),
        [0x200, 0x241, 0x161, 0x2FF]
    );
    assert_eq!(
        [0, 2, 3, 12, 255].map(|n| LAYOUT.packet_octets(n)),
        [12, 12, 16, 24, 328]
    );
}

#[test]
fn a_and_b_in_a_packet() {
    let list = [&A_CELLS[..], &B_CELLS].concat();
    let octets = packet(&head(0x0001_FFFF, 5, 2), &list);
    assert_eq!(
        &octets[..12],
        [0x80, 0xF0, 0xFF, 0xFF, 0, 0, 0, 5, 0, 0, 0, 1]
    );
    assert_eq!(&octets[12..20], [0, 1, 0, 24, 2, 0x80, 0, 0]);
    assert_eq!(octets[20..], [A_OCTETS, B_OCTETS].concat());
    let mut cells = [0xEEEE; 22];
    let summary = read(LAYOUT, &octets, &mut cells).unwrap();
    assert_eq!(summary.head(), head(0x0001_FFFF, 5, 2));
    assert_eq!((summary.records, summary.cells), (2, 20));
    assert_eq!(&cells[..20], list);
    assert_eq!(&cells[20..], [0xEEEE; 2]);
}

#[test]
fn empty_list_gives_twenty_octets() {
    let octets = packet(&head(7, 9, 0), &[]);
    assert_eq!(octets.len(), 20);
    let summary = read(LAYOUT, &octets, &mut []).unwrap();
    assert_eq!((summary.records, summary.cells), (0, 0));
}

#[test]
fn the_listing_to_the_letter() {
    let mut input = Vec::new();
    for (number, timestamp, f) in [(7, 1000, 2), (8, 2501, 3), (8, 2501, 3), (10, 5504, 3)] {
        put_frame(&packet(&head(number, timestamp, f), &A_CELLS), &mut input);
    }
    let output = "fieldlist 1\n\
        7 skipped\n\
        8 whole ts=2501 f=3 records=1\n \
        y line=9 off=0 s=0/0 did=41 sdid=05 words=0\n\
        8 late\n\
        10 skipped\n\
        fresh=3 late=1 missing=1\n";
    assert_eq!(fieldlist(&input), output);
}

#[test]
fn other_listings() {
    assert_eq!(fieldlist(&[]), "fieldlist 1\nfresh=0 late=0 missing=0\n");
    assert_eq!(
        fieldlist(&[9]),
        "fieldlist 1\ncut\nfresh=0 late=0 missing=0\n"
    );
    assert_eq!(
        fieldlist(&[0, 0, 0, 5, 1]),
        "fieldlist 1\nrefused 2 0\ncut\nfresh=0 late=0 missing=0\n"
    );
    let mut input = Vec::new();
    let unmarked = |number, timestamp| Head {
        marker: false,
        ..head(number, timestamp, 2)
    };
    let big: Vec<u16> = (0..70)
        .flat_map(|_| [vec![0, 0, 0, 0, 0, 0, 0, 255, 0], vec![4; 255]].concat())
        .collect();
    let foreign = Head {
        source: 2,
        ..head(9, 1, 0)
    };
    let typed = Head {
        payload_type: 7,
        ..head(9, 1, 0)
    };
    for (head, cells) in [
        (head(0xFFFF_FFFF, 0, 0), &[][..]),
        (unmarked(0, 1), &B_CELLS),
        (head(1, 1, 2), &A_CELLS),
        (foreign, &A_CELLS),
        (typed, &A_CELLS),
        (unmarked(2, 1), &A_CELLS),
        (head(3, 2, 2), &A_CELLS),
        (unmarked(4, 2), &big),
        (head(5, 2, 2), &big),
    ] {
        put_frame(&packet(&head, cells), &mut input);
    }
    let output = "fieldlist 1\n\
        4294967295 skipped\n\
        0 held\n\
        1 whole ts=1 f=2 records=2\n \
        c line=2047 off=4095 s=1/3 did=61 sdid=02 words=2 2aa 155\n \
        y line=9 off=0 s=0/0 did=41 sdid=05 words=0\n\
        refused 30 0\n\
        refused 31 0\n\
        2 held\n\
        3 mixed\n\
        4 held\n\
        5 overfull\n\
        fresh=7 late=0 missing=0\n";
    assert_eq!(fieldlist(&input), output);
}

/// A with each bit changed: the place's bits give other records, those of
/// DID, SDID and Data_Count 10, those of the checksum 11, the alignment 12.
#[test]
fn a_with_each_bit_changed() {
    for bit in 0..96 {
        let mut octets = A_OCTETS;
        octets[bit / 8] ^= 0x80 >> (bit % 8);
        let number = match bit {
            0..32 => 0,
            32..62 => 10,
            62..72 => 11,
            _ => 12,
        };
        match check_run(LAYOUT, &octets, 1) {
            Ok(run) => {
                let mut cells = [0; 9];
                run.read(0, &mut cells).unwrap();
                assert_eq!(number, 0);
                assert_ne!(cells, A_CELLS);
                assert_eq!(cells[5..], A_CELLS[5..]);
            }
            Err(refusal) => assert_eq!(refusal, Refusal::plain(number), "bit {bit}"),
        }
    }
}

#[test]
fn limits_of_the_writer() {
    let mut out = vec![0; 70_000];
    let records = |count: usize| A_CELLS.repeat(count);
    assert_eq!(
        write(LAYOUT, &head(0, 0, 0), &records(255), &mut out),
        Ok(20 + 255 * 12)
    );
    assert_eq!(
        write(LAYOUT, &head(0, 0, 0), &records(256), &mut out),
        Err(Refusal::plain(21))
    );
    // 139 records of 264 cells and one of 168: 36,864 cells.
    let mut cells = Vec::new();
    for n in [255; 139].into_iter().chain([159]) {
        cells.extend([0, 0, 0, 0, 0, 0, 0, n, 0]);
        cells.extend(vec![0x3FB; n as usize]);
    }
    assert_eq!(cells.len(), 36_864);
    assert!(write(LAYOUT, &head(0, 0, 0), &cells, &mut out).is_ok());
    cells.push(4);
    cells[139 * 264 + 7] = 160;
    assert_eq!(cells.len(), 36_865);
    assert_eq!(
        write(LAYOUT, &head(0, 0, 0), &cells, &mut out),
        Err(Refusal::plain(21))
    );
}

/// Words, did and sdid keep their leading zeros; other numbers have none.
#[test]
fn leading_zeros_in_a_listing() {
    let mut input = Vec::new();
    let cells = [0, 0, 12, 0, 5, 0x0A, 0x00, 3, 0, 4, 0x0F, 0x3FB];
    put_frame(&packet(&head(1, 0, 0), &[]), &mut input);
    put_frame(&packet(&head(2, 0, 0), &cells), &mut input);
    let output = "fieldlist 1\n\
        1 skipped\n\
        2 whole ts=0 f=0 records=1\n \
        y line=0 off=12 s=0/5 did=0a sdid=00 words=3 004 00f 3fb\n\
        fresh=2 late=0 missing=0\n";
    assert_eq!(fieldlist(&input), output);
}
