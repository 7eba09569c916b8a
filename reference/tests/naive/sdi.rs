//! Lines of the serial interface.

use super::*;
use reference::sdi::{self, Found, Place};

/// The words of a record's packet, flag included.
fn naive_words(record: &[u16]) -> Vec<u16> {
    let parity = |number: u16| {
        let odd = number.count_ones() % 2 == 1;
        number + if odd { 256 } else { 512 }
    };
    let mut words: Vec<u16> = record[5..8].iter().map(|&number| parity(number)).collect();
    words.extend(&record[9..]);
    let sum: usize = words.iter().map(|&word| word as usize % 512).sum();
    let sum = (sum % 512) as u16;
    words.push(if sum < 256 { sum + 512 } else { sum });
    [&[0, 1023, 1023], &words[..]].concat()
}

fn naive_line_write(line: &[u16], start: usize, cells: &[u16]) -> Refused<(usize, Vec<u16>)> {
    if line.len() > 4_096 {
        return Err((70, 0));
    }
    if start > line.len() {
        return Err((71, 0));
    }
    let words: Vec<u16> = naive_clear(cells)?
        .into_iter()
        .flat_map(naive_words)
        .collect();
    if words.len() > line.len() - start {
        return Err((72, 0));
    }
    Ok((start + words.len(), overwritten(line, start, &words)))
}

fn naive_line_read(line: &[u16], start: usize, place: Place) -> Refused<(Found, Vec<u16>)> {
    if line.len() > 4_096 {
        return Err((70, 0));
    }
    if start > line.len() {
        return Err((71, 0));
    }
    let place = [place.c, place.line, place.offset, place.s, place.stream];
    let limits = [1, 2047, 4095, 1, 127];
    if (0..5).any(|k| place[k] > limits[k]) {
        return Err((20, 0));
    }
    if line.iter().any(|&word| word > 1023) {
        return Err((73, 0));
    }
    let (mut cells, mut records, mut at) = (Vec::new(), 0, start);
    while at + 3 <= line.len() && line[at..at + 3] == [0, 1023, 1023] {
        let words = &line[at + 3..];
        if words.len() < 4 {
            return Err((9, records));
        }
        if !(0..3).all(|k| well_formed(words[k] as u64)) {
            return Err((10, records));
        }
        let n = words[2] as usize % 256;
        if words.len() < 4 + n {
            return Err((9, records));
        }
        if words[3..3 + n]
            .iter()
            .any(|word| [0, 255].contains(&(word / 4)))
        {
            return Err((16, records));
        }
        let numbers = [0, 1, 2].map(|k| words[k] % 256);
        let record = [&place[..], &numbers, &[0], &words[3..3 + n]].concat();
        if naive_words(&record)[6 + n] != words[3 + n] {
            return Err((11, records));
        }
        cells.extend(record);
        records += 1;
        at += 7 + n;
    }
    let found = Found {
        records,
        cells: cells.len(),
        end: at,
    };
    Ok((found, cells))
}

#[test]
fn line_writer() {
    let mut r = Random::new(51);
    for _ in 0..30_000 {
        let case = line_write_case(&mut r);
        let (expected, after) = match naive_line_write(&case.line, case.start, &case.cells) {
            Ok((end, after)) => (Ok(end), after),
            Err(refusal) => (Err(refusal), case.line.clone()),
        };
        let mut line = case.line;
        let answer = sdi::write(&mut line, case.start, &case.cells);
        assert_eq!(pair(answer), expected);
        assert_eq!(line, after);
    }
}

#[test]
fn line_reader() {
    let mut r = Random::new(52);
    for _ in 0..30_000 {
        let case = line_read_case(&mut r);
        let lent = vec![0x5A5A; case.room];
        let read = naive_line_read(&case.line, case.start, case.place);
        let (expected, after) = match read {
            Ok((_, cells)) if cells.len() > case.room => (Err((14, 0)), lent.clone()),
            Ok((found, cells)) => (Ok(found), overwritten(&lent, 0, &cells)),
            Err(refusal) => (Err(refusal), lent.clone()),
        };
        let mut cells = lent;
        let answer = sdi::read(&case.line, case.start, case.place, &mut cells);
        assert_eq!(pair(answer), expected);
        assert_eq!(cells, after);
    }
}
