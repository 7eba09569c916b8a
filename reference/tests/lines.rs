//! Lines of the serial interface by hand (02, K6): an example, every refusal
//! with its index and unchanged lent memory, every border; and what is
//! written is read back.

use reference::anc::is_protected;
use reference::random::{list, place, record, split_records, Random};
use reference::sdi::{read, write, Found, Place};
use reference::Refusal;

const FLAG: [u16; 3] = [0x000, 0x3FF, 0x3FF];
const PLACE: Place = Place {
    c: 1,
    line: 0x7FF,
    offset: 0xFFF,
    s: 1,
    stream: 127,
};
/// Record A of 01, and its words from the flag to the checksum.
const A: [u16; 9] = [0, 9, 0, 0, 0, 0x41, 0x05, 0, 0];
const A_WORDS: [u16; 7] = [0x000, 0x3FF, 0x3FF, 0x241, 0x205, 0x200, 0x246];
/// Record B of 01: two words.
const B: [u16; 11] = [1, 0x7FF, 0xFFF, 1, 3, 0x61, 0x02, 2, 0, 0x2AA, 0x155];
const B_WORDS: [u16; 9] = [
    0x000, 0x3FF, 0x3FF, 0x161, 0x102, 0x102, 0x2AA, 0x155, 0x164,
];

fn refused<T: std::fmt::Debug>(answer: Result<T, Refusal>) -> (u8, usize) {
    let Refusal { number, index } = answer.unwrap_err();
    (number, index)
}

fn write_refused(line: &[u16], start: usize, cells: &[u16]) -> (u8, usize) {
    let mut after = line.to_vec();
    let refusal = refused(write(&mut after, start, cells));
    assert_eq!(after, line);
    refusal
}

fn read_refused(line: &[u16], start: usize, place: Place, room: usize) -> (u8, usize) {
    let mut cells = vec![0x5A5A; room];
    let refusal = refused(read(line, start, place, &mut cells));
    assert!(cells.iter().all(|&cell| cell == 0x5A5A));
    refusal
}

/// All the packets from a start on.
fn found(line: &[u16], start: usize) -> (Found, Vec<u16>) {
    let mut cells = vec![0x5A5A; 6_000];
    let found = read(line, start, PLACE, &mut cells).unwrap();
    assert!(cells[found.cells..].iter().all(|&cell| cell == 0x5A5A));
    cells.truncate(found.cells);
    (found, cells)
}

/// The records with the place of another, as they are read: index 0.
fn placed(cells: &[u16], place: Place) -> Vec<u16> {
    let of = [place.c, place.line, place.offset, place.s, place.stream];
    let records = split_records(cells).into_iter();
    records
        .flat_map(|record| [&of, &record[5..8], &[0], &record[9..]].concat())
        .collect()
}

#[test]
fn a_and_b_in_a_line() {
    let mut line = [0x155; 20];
    let list = [&A[..], &B].concat();
    assert_eq!(write(&mut line, 2, &list), Ok(18));
    assert_eq!(line[..2], [0x155; 2]);
    assert_eq!(line[2..9], A_WORDS);
    assert_eq!(line[9..18], B_WORDS);
    assert_eq!(line[18..], [0x155; 2]);
    let (got, cells) = found(&line, 2);
    assert_eq!((got.records, got.cells, got.end), (2, 20, 18));
    assert_eq!(cells, placed(&list, PLACE));
    // From the second packet on, and from where no flag stands.
    assert_eq!(found(&line, 9).1, placed(&B, PLACE));
    for start in [0, 1, 3, 10, 18, 19, 20] {
        let (got, cells) = found(&line, start);
        assert_eq!((got.records, got.end, cells.len()), (0, start, 0));
    }
}

/// An empty list writes nothing and ends at the start.
#[test]
fn the_empty_list() {
    for start in 0..=3 {
        let mut line = [0xFFFF, 0, 0x3FF];
        assert_eq!(write(&mut line, start, &[]), Ok(start));
        assert_eq!(line, [0xFFFF, 0, 0x3FF]);
    }
    assert_eq!(write(&mut [], 0, &[]), Ok(0));
    assert_eq!(write_refused(&[], 0, &A), (72, 0));
    assert_eq!(found(&[], 0).0.records, 0);
}

#[test]
fn writing_70_71_20_16_72() {
    let long = vec![0x155; 4_097];
    let cut = &A[..8];
    let bad = [&A[..], &A, &[0, 9, 0, 0, 0, 0x41, 0x05, 1, 0, 3]].concat();
    assert_eq!(write_refused(&long, 5_000, cut), (70, 0));
    assert_eq!(write_refused(&long, 0, &[]), (70, 0));
    let line = &long[1..];
    for start in [4_097, usize::MAX] {
        assert_eq!(write_refused(line, start, cut), (71, 0));
        assert_eq!(write_refused(line, start, &[]), (71, 0));
    }
    assert_eq!(write_refused(line, 4_096, cut), (20, 0));
    assert_eq!(
        write_refused(line, 4_096, &[&bad[..], cut].concat()),
        (20, 3)
    );
    assert_eq!(write_refused(line, 4_096, &bad), (16, 2));
    for (cell, limit) in [1, 0x7FF, 0xFFF, 1, 127, 255, 255, 255, 4_095]
        .into_iter()
        .enumerate()
    {
        let mut list = A.repeat(2);
        list[9 + cell] = limit + 1;
        assert_eq!(write_refused(line, 0, &list), (20, 1));
    }
    // The last place where A fits, and one more.
    for start in [4_090, 4_095, 4_096] {
        assert_eq!(write_refused(line, start, &A), (72, 0));
    }
    let mut last = line.to_vec();
    assert_eq!(write(&mut last, 4_089, &A), Ok(4_096));
    assert_eq!(last[4_089..], A_WORDS);
    assert!(last[..4_089].iter().all(|&word| word == 0x155));
}

/// There is no 21: 585 records of seven words fill a line but for one word.
#[test]
fn as_many_records_as_fit() {
    let mut line = vec![0x155; 4_096];
    assert_eq!(write(&mut line, 1, &A.repeat(585)), Ok(4_096));
    let (got, cells) = found(&line, 1);
    assert_eq!((got.records, got.cells, got.end), (585, 5_265, 4_096));
    assert_eq!(cells, placed(&A.repeat(585), PLACE));
    assert_eq!(write_refused(&line, 1, &A.repeat(586)), (72, 0));
    assert_eq!(write_refused(&line, 2, &A.repeat(585)), (72, 0));
}

/// The line's old words are not looked at, even where they are no words.
#[test]
fn writing_over_anything() {
    let mut line = [0xFFFF; 9];
    assert_eq!(write(&mut line, 1, &A), Ok(8));
    assert_eq!(line[1..8], A_WORDS);
    assert_eq!((line[0], line[8]), (0xFFFF, 0xFFFF));
    // Reading tests every word of the line, before the start and behind.
    assert_eq!(read_refused(&line, 1, PLACE, 8), (73, 0));
    line[0] = 0x400;
    line[8] = 0x3FF;
    assert_eq!(read_refused(&line, 1, PLACE, 8), (73, 0));
    line[0] = 0x3FF;
    assert_eq!(found(&line, 1).0.records, 1);
    line[8] = 0x400;
    assert_eq!(read_refused(&line, 1, PLACE, 8), (73, 0));
}

#[test]
fn reading_70_71_20_73() {
    let wide = Place { c: 2, ..PLACE };
    let mut long = vec![0x400; 4_097];
    assert_eq!(read_refused(&long, 9_999, wide, 0), (70, 0));
    long.pop();
    assert_eq!(read_refused(&long, 4_097, wide, 0), (71, 0));
    assert_eq!(read_refused(&long, usize::MAX, wide, 0), (71, 0));
    for place in [
        wide,
        Place {
            line: 0x800,
            ..PLACE
        },
        Place {
            offset: 0x1000,
            ..PLACE
        },
        Place { s: 2, ..PLACE },
        Place {
            stream: 128,
            ..PLACE
        },
    ] {
        assert_eq!(read_refused(&long, 4_096, place, 0), (20, 0));
    }
    assert_eq!(read_refused(&long, 4_096, PLACE, 0), (73, 0));
    let mut line = [&FLAG[..], &[0; 9]].concat();
    assert_eq!(read_refused(&line, 0, PLACE, 0), (10, 0));
    line[11] = 0x400;
    assert_eq!(read_refused(&line, 0, PLACE, 0), (73, 0));
}

/// A packet damaged behind so many good ones.
fn damaged(before: usize, damage: impl Fn(&mut Vec<u16>)) -> Vec<u16> {
    let mut packet = B_WORDS.to_vec();
    damage(&mut packet);
    [A_WORDS.repeat(before), packet].concat()
}

#[test]
fn reading_9_10_9_16_11_14() {
    for index in [0, 1, 4] {
        let reading = |line: &[u16]| read_refused(line, 0, PLACE, 0);
        // A flag that the line's end cuts is none; under four words behind a
        // whole one are 9, be they well formed or not.
        for size in 0..3 {
            let line = damaged(index, |packet| packet.truncate(size));
            assert_eq!(found(&line, 0).0.records, index);
        }
        for size in 3..7 {
            let line = damaged(index, |packet| packet.truncate(size));
            assert_eq!(reading(&line), (9, index));
            let line = damaged(index, |packet| {
                packet.truncate(size);
                packet[3..].fill(0x3FF);
            });
            assert_eq!(reading(&line), (9, index));
        }
        for size in 7..9 {
            let line = damaged(index, |packet| {
                packet.truncate(size);
                packet[6] = 3;
            });
            assert_eq!(reading(&line), (9, index));
            for word in 3..6 {
                let mut line = line.clone();
                line[7 * index + word] ^= 0x200;
                assert_eq!(reading(&line), (10, index));
            }
        }
        for word in [0x000, 0x003, 0x3FC, 0x3FF] {
            let line = damaged(index, |packet| packet[7] = word);
            assert_eq!(reading(&line), (16, index));
        }
        let line = damaged(index, |packet| packet[8] ^= 0x200);
        assert_eq!(reading(&line), (11, index));
        let line = damaged(index, |packet| packet[7] = 0x004);
        assert_eq!(reading(&line), (11, index));
        let line = damaged(index, |_| {});
        let need = 9 * index + 11;
        assert_eq!(read_refused(&line, 0, PLACE, need - 1), (14, 0));
        assert!(read(&line, 0, PLACE, &mut vec![0; need]).is_ok());
    }
}

/// Reading does not go on over a gap of a word, and a flag of two words is
/// none; a flag behind the last packet is another packet.
#[test]
fn where_reading_ends() {
    let mut line = [&A_WORDS[..], &[0x155], &A_WORDS].concat();
    assert_eq!(found(&line, 0).0.end, 7);
    line[7] = 0x3FF;
    assert_eq!(found(&line, 0).0.end, 7);
    let line = [&A_WORDS[..], &[0, 0x3FF, 0x155, 0x3FF], &A_WORDS].concat();
    assert_eq!(found(&line, 0).0.end, 7);
    let line = [&A_WORDS[..], &FLAG].concat();
    assert_eq!(read_refused(&line, 0, PLACE, 99), (9, 1));
    let line = [&A_WORDS[..], &B_WORDS].concat();
    assert_eq!(found(&line, 0).0.end, 16);
}

/// After K5 no word from DID to checksum is a protected one, so no flag or
/// piece of one stands inside a packet.
#[test]
fn no_protected_word_in_a_packet() {
    let mut r = Random::new(61);
    for n in 0..256 {
        let cells = record(&mut r, n);
        let mut line = vec![0x155; 7 + n];
        assert_eq!(write(&mut line, 0, &cells), Ok(7 + n));
        assert_eq!(line[..3], FLAG);
        assert!(line[3..].iter().all(|&word| !is_protected(word)));
    }
}

/// Write then read gives the data part of the records, where no flag stands
/// directly behind the stretch and no word outside it is over 1,023.
#[test]
fn written_and_read() {
    let mut r = Random::new(62);
    let mut read_back = 0;
    for _ in 0..5_000 {
        let records = r.below(6);
        let cells = list(&mut r, records);
        let length = r.below(1_500);
        let before: Vec<u16> = (0..length).map(|_| r.pick(&[0, 0x3FF, 9])).collect();
        let start = r.below(length + 1);
        let mut line = before.clone();
        let place = place(&mut r);
        let Ok(end) = write(&mut line, start, &cells) else {
            continue;
        };
        assert_eq!(end - start, cells.len() - 2 * records);
        assert_eq!(line[..start], before[..start]);
        assert_eq!(line[end..], before[end..]);
        if line[end..].starts_with(&FLAG) {
            continue;
        }
        let mut back = vec![0; cells.len()];
        match read(&line, start, place, &mut back) {
            Ok(found) => {
                assert_eq!((found.records, found.end), (records, end));
                assert_eq!(back, placed(&cells, place));
                read_back += 1;
            }
            // A caller's place too large.
            refused => assert_eq!(refused, Err(Refusal::plain(20))),
        }
    }
    assert!(read_back > 2_000);
}
