//! Files of version 1: one that the code before version 2 wrote, kept as
//! octets, and a writer of that version, which is now here alone.

use reference::file::{self, Version};
use reference::layout::Layout;
use reference::random::{anc_of, indexed, list, split_records, Random};

/// Written by the writer of version 1, with no protected words.
const KEPT: &[u8] = include_bytes!("version1.anf");

type Field = (u32, u8, Vec<u16>);

const A: [u16; 9] = [0, 9, 0, 0, 0, 0x41, 0x05, 0, 0];
const B: [u16; 11] = [1, 0x7FF, 0xFFF, 1, 3, 0x61, 0x02, 2, 0, 0x2AA, 0x155];

fn record(n: u16) -> Vec<u16> {
    let place = [n % 2, 9 + n, 40 * (n % 100), 0, n % 128];
    let mut cells = [&place[..], &[0x60, n, n, 0]].concat();
    cells.extend((0..n).map(|word| 4 + (37 * word + n) % 1016));
    cells
}

/// What the kept file holds.
fn kept_fields() -> Vec<Field> {
    let counts = (0..=20).chain([254, 255]);
    vec![
        (0, 0, Vec::new()),
        (2501, 3, A.to_vec()),
        (u32::MAX, 2, [&B[..], &A].concat()),
        (5504, 0, counts.flat_map(record).collect()),
        (90_000, 2, A.repeat(255)),
    ]
}

/// The old version's writer: one octet for the count.
fn version_1(fields: &[Field]) -> Vec<u8> {
    let mut file = b"ANF\0\x01".to_vec();
    for (timestamp, f, cells) in fields {
        let anc = anc_of(cells);
        file.extend(timestamp.to_be_bytes());
        file.extend([*f, u8::try_from(anc.len()).unwrap()]);
        file.extend(anc.iter().flat_map(|anc| anc.octets(Layout::Rfc8331)));
    }
    file
}

/// The same with the library.
fn version_2(fields: &[Field]) -> Vec<u8> {
    let mut out = vec![0; 200_000];
    let mut end = file::begin(&mut out).unwrap();
    for (timestamp, f, cells) in fields {
        end += file::write(*timestamp, *f, cells, &mut out[end..]).unwrap();
    }
    out.truncate(end);
    out
}

/// All fields up to the end of the file.
fn fields_of(file: &[u8]) -> Vec<Field> {
    let (mut fields, mut at) = (Vec::new(), 5);
    loop {
        let mut cells = vec![0; 36_864];
        match file::read(file, at, &mut cells) {
            Ok(field) => {
                cells.truncate(field.cells);
                assert_eq!(field.records, split_records(&cells).len());
                fields.push((field.timestamp, field.f, cells));
                at = field.next;
            }
            Err(refusal) => {
                assert_eq!((refusal.number, at), (54, file.len()));
                return fields;
            }
        }
    }
}

#[test]
fn the_kept_file() {
    assert_eq!(KEPT.len(), 4_279);
    assert_eq!(fields_of(KEPT), kept_fields());
    assert_eq!(version_1(&kept_fields()), KEPT);
}

/// A field is an octet longer in version 2, and the same field.
#[test]
fn both_versions_read_the_same() {
    let mut r = Random::new(41);
    for _ in 0..300 {
        let fields: Vec<Field> = (0..r.below(6))
            .map(|_| {
                let records = r.below(30);
                let cells = indexed(&list(&mut r, records), 0);
                (r.draw() as u32, r.pick(&[0, 2, 3]), cells)
            })
            .collect();
        let (old, new) = (version_1(&fields), version_2(&fields));
        assert_eq!(new.len(), old.len() + fields.len());
        assert_eq!(fields_of(&old), fields);
        assert_eq!(fields_of(&new), fields);
    }
}

/// A field of version 1 may have up to 255 records of 255 words: over 16,384
/// cells are read, over 36,864 are not.
#[test]
fn the_new_limit_of_cells_in_an_old_file() {
    for (n, cells) in [(60, 17_595), (120, 32_895), (135, 36_720)] {
        let list = record(n).repeat(255);
        assert_eq!(list.len(), cells);
        let fields = vec![(1, 2, list)];
        assert_eq!(fields_of(&version_1(&fields)), fields);
    }
    let long = version_1(&[(1, 2, record(136).repeat(255))]);
    let refusal = file::read(&long, 5, &mut [0; 40_000]).unwrap_err();
    assert_eq!((refusal.number, refusal.index), (21, 0));
}

/// An old reader's test of the first five octets.
fn old_start(file: &[u8]) -> u8 {
    match file {
        [b'A', b'N', b'F', 0, 1, ..] => 0,
        [b'A', b'N', b'F', ..] => 51,
        _ => 50,
    }
}

#[test]
fn an_old_reader_refuses_what_is_written() {
    assert_eq!(old_start(KEPT), 0);
    assert_eq!(old_start(&version_2(&kept_fields())), 51);
    assert_eq!(file::START, Version::Two.start());
}

/// The first five octets say how every field is read: 255 records counted in
/// one octet, taken for two, are 255 x 256 and more.
#[test]
fn a_version_taken_for_the_other() {
    let mut file = version_1(&[(1, 2, A.repeat(255))]);
    file[4] = 2;
    let refusal = file::read(&file, 5, &mut [0; 40_000]).unwrap_err();
    assert_eq!((refusal.number, refusal.index), (10, 0));
}
