//! The tolerant reader (02, K9): a record that fails only its checksum is
//! left out and counted, the rest come through in order. And who names the
//! strict way.

use reference::depacketizer::{arrive, open, Answer};
use reference::file::{self, Version};
use reference::frames::put_frame;
use reference::packet::{check, read, read_strict, Head, Summary};
use reference::random::{file_field, line_packet, read_case, Parts, Random};
use reference::sdi::{self, Place};
use reference::{fieldlist, Layout, Refusal};

const HEAD: Head = Head {
    source: 5,
    payload_type: 96,
    marker: true,
    number: 70_000,
    timestamp: 9,
    f: 0,
};

fn record(n: u16) -> Vec<u16> {
    let mut cells = vec![1, 9, 4095, 0, 0, 0x61, n, n, 0];
    cells.extend((0..n).map(|word| 4 + word * 37 % 1016));
    cells
}

fn parts(layout: Layout, counts: &[u16]) -> Parts {
    let cells: Vec<u16> = counts.iter().flat_map(|&n| record(n)).collect();
    Parts::of(layout, HEAD, &cells)
}

/// Another checksum word, for the records named.
fn wrong(layout: Layout, counts: &[u16], which: &[usize]) -> Parts {
    let mut parts = parts(layout, counts);
    for &index in which {
        *parts.anc[index].words.last_mut().unwrap() ^= 1 << (index % 10);
    }
    parts
}

fn tolerated(parts: &Parts, room: usize) -> Result<(Summary, Vec<u16>), (u8, usize)> {
    let mut cells = vec![0x5A5A; room];
    match read(parts.layout, &parts.assemble(), &mut cells) {
        Ok(summary) => {
            assert!(cells[summary.cells..].iter().all(|&cell| cell == 0x5A5A));
            cells.truncate(summary.cells);
            Ok((summary, cells))
        }
        Err(Refusal { number, index }) => {
            assert!(cells.iter().all(|&cell| cell == 0x5A5A));
            Err((number, index))
        }
    }
}

fn strict(parts: &Parts, room: usize) -> Option<(u8, usize)> {
    let mut cells = vec![0x5A5A; room];
    let answer = read_strict(parts.layout, &parts.assemble(), &mut cells);
    assert!(answer.is_ok() || cells.iter().all(|&cell| cell == 0x5A5A));
    answer.err().map(|refusal| (refusal.number, refusal.index))
}

/// Every choice of records of a packet of five.
#[test]
fn which_come_through() {
    let counts = [3, 0, 7, 255, 2];
    for layout in Layout::ALL {
        for choice in 0..32_usize {
            let is_wrong = |index: &usize| choice >> index & 1 == 1;
            let which: Vec<usize> = (0..5).filter(is_wrong).collect();
            let parts = wrong(layout, &counts, &which);
            let through = (0..5).filter(|index| !is_wrong(index));
            let expected: Vec<u16> = through.flat_map(|index| record(counts[index])).collect();
            let (summary, cells) = tolerated(&parts, 400).unwrap();
            assert_eq!(cells, expected);
            assert_eq!(summary.head(), HEAD);
            assert_eq!(summary.records as usize, 5 - which.len());
            assert_eq!(summary.left_out as usize, which.len());
            assert_eq!(summary.cells, expected.len());
            let first = which.first().map(|&index| (11, index));
            assert_eq!(strict(&parts, 400), first);
            // 14 goes by the records that come through.
            assert!(tolerated(&parts, expected.len()).is_ok());
            if !expected.is_empty() {
                assert_eq!(tolerated(&parts, expected.len() - 1), Err((14, 0)));
            }
        }
    }
}

/// Every other ten-bit number in the checksum's place leaves the record out.
#[test]
fn every_checksum() {
    for layout in Layout::ALL {
        let mut parts = parts(layout, &[1, 2, 0]);
        let right = parts.anc[1].words[5];
        for word in 0..1024 {
            parts.anc[1].words[5] = word;
            let (summary, cells) = tolerated(&parts, 99).unwrap();
            let out = (word != right) as u8;
            assert_eq!((summary.records, summary.left_out), (3 - out, out));
            assert_eq!(cells.len(), if out == 1 { 19 } else { 30 });
        }
    }
}

#[test]
fn all_left_out() {
    for layout in Layout::ALL {
        let all: Vec<usize> = (0..255).collect();
        let parts = wrong(layout, &[1; 255], &all);
        let (summary, cells) = tolerated(&parts, 0).unwrap();
        assert_eq!((summary.records, summary.cells), (0, 0));
        assert_eq!(summary.left_out, 255);
        assert!(cells.is_empty());
    }
}

/// A record that fails its checksum and something else is refused by that:
/// 9, 10, 15, 16 as before, and 12 for every record.
#[test]
fn what_is_not_tolerated() {
    for layout in Layout::ALL {
        for index in [0, 1, 3] {
            let bad = || wrong(layout, &[5, 6, 5, 6], &[index]);
            assert!(tolerated(&bad(), 99).is_ok());
            let mut parts = bad();
            parts.anc[index].alignment = 1;
            assert_eq!(tolerated(&parts, 99), Err((12, index)));
            assert_eq!(strict(&parts, 99), Some((11, index)));
            // 16 and 15 come before, in either way.
            parts.anc[index].words[4] = 0x3FF;
            assert_eq!(tolerated(&parts, 99), Err((16, index)));
            assert_eq!(strict(&parts, 99), Some((16, index)));
            if layout == Layout::Draft2015 {
                parts.anc[index].r = 3;
                assert_eq!(tolerated(&parts, 99), Err((15, index)));
                assert_eq!(strict(&parts, 99), Some((15, index)));
            }
            for word in 0..3 {
                let mut parts = bad();
                parts.anc[index].words[word] ^= 1;
                assert_eq!(tolerated(&parts, 99), Err((10, index)));
            }
        }
        // A later packet's refusal comes where an earlier one is left out.
        let mut parts = wrong(layout, &[5, 6, 5], &[0]);
        parts.cut = 1;
        assert_eq!(tolerated(&parts, 99), Err((9, 2)));
        assert_eq!(strict(&parts, 99), Some((11, 0)));
        let mut parts = wrong(layout, &[5, 6, 5], &[0, 2]);
        parts.extra = vec![0];
        assert_eq!(tolerated(&parts, 0), Err((13, 0)));
        parts.extra = Vec::new();
        assert_eq!(tolerated(&parts, 14), Err((14, 0)));
        assert_eq!(tolerated(&parts, 15).unwrap().0.left_out, 2);
    }
}

/// Never 11; a strict refusal other than 11 is the tolerant one too; with none
/// left out both say the same.
#[test]
fn the_two_ways() {
    let mut r = Random::new(71);
    let (mut same, mut left_out, mut later) = (0, 0, 0);
    for _ in 0..40_000 {
        let case = read_case(&mut r);
        let (mut ours, mut theirs) = (vec![0x5A5A; case.room], vec![0x5A5A; case.room]);
        let tolerant = read(case.layout, &case.octets, &mut ours);
        let strict = read_strict(case.layout, &case.octets, &mut theirs);
        match (tolerant, strict) {
            (Ok(summary), Err(refusal)) => {
                assert!(summary.left_out > 0);
                assert_eq!(refusal.number, 11);
                left_out += 1;
            }
            (Err(tolerant), Err(strict)) if strict.number == 11 => {
                assert_ne!(tolerant.number, 11);
                later += 1;
            }
            (tolerant, strict) => {
                assert_eq!(tolerant, strict);
                assert!(strict.is_ok_and(|summary| summary.left_out == 0) || strict.is_err());
                assert_eq!(ours, theirs);
                same += 1;
            }
        }
    }
    assert!(same > 10_000 && left_out > 500 && later > 100);
}

/// The depacketizer, the field file, lines and `fieldlist` answer 11 as before,
/// and so does the check that the demands call accepting.
#[test]
fn who_is_strict() {
    let refused = Refusal::at(11, 1);
    for layout in Layout::ALL {
        let octets = wrong(layout, &[0, 3, 0], &[1]).assemble();
        assert_eq!(check(layout, &octets), Err(refused));
        let state = open(5, 96).unwrap();
        let (after, answer) = arrive(state, layout, &octets, &mut [0; 99]);
        assert_eq!((after, answer), (state, Answer::Refused(refused)));
        let mut input = Vec::new();
        put_frame(&octets, &mut input);
        let listing = "fieldlist 1\nrefused 11 1\nfresh=0 late=0 missing=0\n";
        assert_eq!(fieldlist(layout, &input), listing);
    }
    let anc = wrong(Layout::Rfc8331, &[0, 3, 0], &[1]).anc;
    for version in [Version::One, Version::Two] {
        let mut octets = version.start().to_vec();
        octets.extend(file_field(version, 9, 2, 3, &anc));
        assert_eq!(file::read(&octets, 5, &mut [0; 99]), Err(refused));
    }
    let line: Vec<u16> = anc.iter().flat_map(line_packet).collect();
    let place = Place {
        c: 0,
        line: 9,
        offset: 0,
        s: 0,
        stream: 0,
    };
    assert_eq!(sdi::read(&line, 0, place, &mut [0; 99]), Err(refused));
}
