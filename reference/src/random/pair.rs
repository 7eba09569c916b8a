//! Pairs of field files, inputs of `fielddiff`.

use super::*;
use crate::anc::{COUNT, RECORD_HEAD};
use crate::file::Version;

#[derive(Clone, Debug)]
struct Field {
    timestamp: u32,
    f: u8,
    /// Its records.
    records: Vec<Vec<u16>>,
}

fn field(r: &mut Random) -> Field {
    let records = r.pick(&[0, 1, 2, 3, 3, 8]);
    Field {
        timestamp: r.number32(),
        f: r.pick(&[0, 2, 3]),
        records: (0..records)
            .map(|_| {
                let n = word_count(r);
                record(r, n)
            })
            .collect(),
    }
}

/// Two files of mostly the same fields, of any versions: equal, or changed in
/// some places, or with fields that the other has not; at times one or both
/// are refused.
pub fn file_pair(r: &mut Random) -> (Vec<u8>, Vec<u8>) {
    let mut left: Vec<Field> = (0..r.below(6)).map(|_| field(r)).collect();
    let mut right = left.clone();
    for _ in 0..r.pick(&[0, 0, 1, 1, 2, 5]) {
        match r.below(2) {
            0 => change(r, &mut left),
            _ => change(r, &mut right),
        }
    }
    let (left, right) = (file(r, &left), file(r, &right));
    if r.one_in(12) {
        return (right.clone(), right);
    }
    (left, right)
}

fn change(r: &mut Random, fields: &mut Vec<Field>) {
    let place = r.below(fields.len() + 1);
    match r.below(8) {
        0 => fields.insert(place, field(r)),
        1 => fields.extend((0..1 + r.below(3)).map(|_| field(r))),
        2 => fields.truncate(place),
        _ if fields.is_empty() => {}
        3 => {
            let place = r.below(fields.len());
            fields.remove(place);
        }
        _ => {
            let place = r.below(fields.len());
            change_field(r, &mut fields[place]);
        }
    }
}

fn change_field(r: &mut Random, field: &mut Field) {
    let place = r.below(field.records.len() + 1);
    match r.below(8) {
        0 => field.timestamp ^= 1 << r.below(32),
        1 => field.f = r.pick(&[0, 2, 3]),
        2 => {
            let n = word_count(r);
            field.records.insert(place, record(r, n));
        }
        3 => field.records.truncate(place),
        4 if place > 0 => {
            let n = word_count(r);
            field.records[place - 1] = record(r, n);
        }
        _ if place > 0 => change_record(r, &mut field.records[place - 1]),
        _ => {}
    }
}

/// A cell of the record, a word of it, or how many words it has.
fn change_record(r: &mut Random, record: &mut Vec<u16>) {
    let n = record.len() - RECORD_HEAD;
    match r.below(4) {
        0 => {
            let (cell, bits) = r.pick(&[(0, 1), (1, 11), (2, 12), (3, 1), (4, 7), (5, 8), (6, 8)]);
            record[cell] ^= 1 << r.below(bits);
        }
        1 => {
            record.truncate(RECORD_HEAD + r.below(n));
            record[COUNT] = (record.len() - RECORD_HEAD) as u16;
        }
        2 if n < 255 => {
            record.push(clear_word(r));
            record[COUNT] += 1;
        }
        _ if n > 0 => {
            let word = RECORD_HEAD + r.below(n);
            record[word] = clear_word(r);
        }
        _ => {}
    }
}

/// A file of the fields, at times one that is refused at some field.
fn file(r: &mut Random, fields: &[Field]) -> Vec<u8> {
    let version = r.pick(&[Version::One, Version::Two, Version::Two]);
    let mut file = version.start().to_vec();
    let refused = r.one_in(4).then(|| r.below(fields.len() + 1));
    for (position, field) in fields.iter().enumerate() {
        if refused == Some(position) {
            file.extend(damaged_field(r, version));
        }
        let anc = anc_of(&field.records.concat());
        let count = anc.len() as u16;
        file.extend(file_field(version, field.timestamp, field.f, count, &anc));
    }
    if refused == Some(fields.len()) {
        match r.below(4) {
            0 => file.truncate(r.below(file.len())),
            1 => file[r.below(5)] ^= 1 << r.below(8),
            2 => file.extend(&[0; 6][..r.below(7)]),
            _ => file.extend(damaged_field(r, version)),
        }
    }
    file
}
