//! The program `fielddiff` (02, K14) by hand: each line, where the list ends,
//! and left and right exchanged.

use std::fs;
use std::path::Path;
use std::process::{Command, Stdio};

use reference::fielddiff::{differences, Difference};
use reference::file::{self, Version};
use reference::random::{anc_of, file_field, file_pair, Anc, Random};
use reference::{fielddiff, Refusal};

type Field = (u32, u8, Vec<Vec<u16>>);
type Damage<'a> = &'a dyn Fn(&mut Vec<u8>);

fn record(words: &[u16]) -> Vec<u16> {
    let head = [1, 9, 70, 0, 5, 0x61, 0x02, words.len() as u16, 0];
    [&head, words].concat()
}

fn field(timestamp: u32, records: &[Vec<u16>]) -> Field {
    (timestamp, 2, records.to_vec())
}

fn octets(version: Version, (timestamp, f, records): &Field) -> Vec<u8> {
    let anc = anc_of(&records.concat());
    file_field(version, *timestamp, *f, anc.len() as u16, &anc)
}

fn file_of(version: Version, fields: &[Field]) -> Vec<u8> {
    let mut file = version.start().to_vec();
    for field in fields {
        file.extend(octets(version, field));
    }
    file
}

fn file(fields: &[Field]) -> Vec<u8> {
    file_of(Version::Two, fields)
}

/// The list, and the same with left and right exchanged.
fn list(left: &[u8], right: &[u8]) -> String {
    let text = fielddiff(left, right);
    let other: Vec<String> = fielddiff(right, left).lines().map(exchanged).collect();
    assert_eq!(text.lines().collect::<Vec<_>>(), other);
    text
}

/// A line with left and right exchanged.
fn exchanged(line: &str) -> String {
    let mut words: Vec<&str> = line.split(' ').collect();
    match words[..] {
        [.., "only", "left"] => words[2] = "right",
        [.., "only", "right"] => words[2] = "left",
        _ => {
            let last = words.len() - 1;
            words.swap(last, last - 1);
        }
    }
    words.join(" ")
}

fn three() -> Vec<Field> {
    vec![
        field(1, &[record(&[5, 6]), record(&[])]),
        field(2, &[]),
        field(3, &[record(&[7, 8, 9]), record(&[4]), record(&[])]),
    ]
}

#[test]
fn equal_files() {
    let both = file(&three());
    assert_eq!(list(&both, &both), "");
    // Versions 1 and 2 are compared by their fields.
    let old = file_of(Version::One, &three());
    assert_ne!(old, both);
    assert_eq!(list(&old, &both), "");
    // A file of the five first octets has no fields and is not refused.
    assert_eq!(list(&both[..5], &both[..5]), "");
    assert_eq!(list(&both[..5], &old[..5]), "");
}

#[test]
fn every_kind_of_line() {
    let with = |change: &dyn Fn(&mut Vec<Field>)| {
        let mut fields = three();
        change(&mut fields);
        list(&file(&three()), &file(&fields))
    };
    assert_eq!(with(&|_| {}), "");
    assert_eq!(
        with(&|fields| fields[2].0 = u32::MAX),
        "2 ts 3 4294967295\n"
    );
    assert_eq!(with(&|fields| fields[1].1 = 0), "1 f 2 0\n");
    assert_eq!(
        with(&|fields| fields[1].2.push(record(&[4, 5]))),
        "1 records 0 1\n"
    );
    assert_eq!(with(&|fields| fields[2].2.truncate(1)), "2 records 3 1\n");
    // Each cell of a record but the ninth, which files don't have.
    for (cell, left, right) in [
        (0, 1, 0),
        (1, 9, 2_047),
        (2, 70, 4_095),
        (3, 0, 1),
        (4, 5, 127),
        (5, 0x61, 255),
        (6, 2, 0),
    ] {
        let line = format!("2 1 {cell} {left} {right}\n");
        assert_eq!(with(&|fields| fields[2].2[1][cell] = right), line);
    }
    assert_eq!(with(&|fields| fields[2].2[1][8] = 4_095), "");
    // Words are cells from 9 on.
    assert_eq!(with(&|fields| fields[2].2[0][9] = 1_019), "2 0 9 7 1019\n");
    assert_eq!(with(&|fields| fields[2].2[0][11] = 4), "2 0 11 9 4\n");
    // How many there are is cell 7; of the words as many as both have.
    assert_eq!(
        with(&|fields| fields[2].2[0] = record(&[7, 6])),
        "2 0 7 3 2\n2 0 10 8 6\n"
    );
    assert_eq!(
        with(&|fields| fields[0].2[1] = record(&[9, 9, 9])),
        "0 1 7 0 3\n"
    );
    assert_eq!(with(&|fields| fields.truncate(2)), "2 only left\n");
    assert_eq!(
        with(&|fields| fields.truncate(0)),
        "0 only left\n1 only left\n2 only left\n"
    );
    assert_eq!(with(&|fields| fields.push(field(9, &[]))), "3 only right\n");
}

/// All of a field in their order; a field that is put in shifts the others.
#[test]
fn the_order_of_lines() {
    let left = file(&[(1, 0, vec![record(&[4, 5]), record(&[])]), field(7, &[])]);
    let mut second = record(&[9]);
    (second[0], second[6]) = (0, 3);
    let right = file(&[(2, 3, vec![record(&[5, 5, 5]), second, record(&[])])]);
    assert_eq!(
        list(&left, &right),
        "0 ts 1 2\n0 f 0 3\n0 records 2 3\n0 0 7 2 3\n0 0 9 4 5\n\
         0 1 0 1 0\n0 1 6 2 3\n0 1 7 0 1\n1 only left\n"
    );
    let shifted = [&[field(9, &[])], &three()[..]].concat();
    assert_eq!(
        list(&file(&three()), &file(&shifted)),
        "0 ts 1 9\n0 records 2 0\n1 ts 2 1\n1 records 0 2\n\
         2 ts 3 2\n2 records 3 0\n3 only right\n"
    );
}

/// A file that is refused at its field i.
fn refused_at(i: usize, damage: Damage) -> Vec<u8> {
    let mut bad = file_field(Version::Two, 1, 2, 1, &[Anc::of(&record(&[9, 9]))]);
    damage(&mut bad);
    [file(&three()[..i]), bad].concat()
}

/// Every number that a file is refused with, at every field, on either side.
#[test]
fn refused() {
    let good = file(&three());
    let damages: [(u8, Damage); 7] = [
        (9, &|field| field.truncate(field.len() - 1)),
        (9, &|field| field[6] = 2),
        (10, &|field| field[7 + 4] ^= 0x80),
        (11, &|field| field[7 + 10] ^= 1),
        (12, &|field| *field.last_mut().unwrap() ^= 1),
        (52, &|field| field.truncate(6)),
        (53, &|field| field[4] = 1),
    ];
    for (number, damage) in damages {
        for i in 0..3 {
            let bad = refused_at(i, damage);
            assert_eq!(list(&bad, &good), format!("{i} refused {number} -\n"));
            assert_eq!(list(&bad, &bad), format!("{i} refused {number} {number}\n"));
        }
    }
    let bad = refused_at(1, &|octets_of| {
        let protected = field(2, &[record(&[9]), record(&[3])]);
        *octets_of = octets(Version::Two, &protected);
    });
    assert_eq!(list(&good, &bad), "1 refused - 16\n");
    let bad = refused_at(2, &|field| {
        *field = octets(Version::Two, &(0, 0, vec![record(&[]); 4_096]));
    });
    assert_eq!(list(&bad, &good), "2 refused 21 -\n");
}

/// 50 and 51 are at field 0; a file that is empty reads as 50.
#[test]
fn refused_from_the_start() {
    let good = file(&three());
    for (octets, number) in [
        (&b""[..], 50),
        (b"AN", 50),
        (b"ANG\0\x02", 50),
        (b"ANF", 51),
        (b"ANF\0", 51),
        (b"ANF\0\x03", 51),
    ] {
        assert_eq!(list(octets, &good), format!("0 refused {number} -\n"));
        assert_eq!(list(&good[..5], octets), format!("0 refused - {number}\n"));
        assert_eq!(list(octets, b""), format!("0 refused {number} 50\n"));
    }
}

/// The list ends with the refused line: of two refused at different fields the
/// earlier is named, and what stands behind it is not.
#[test]
fn where_the_list_ends() {
    let cut = |field: &mut Vec<u8>| field.truncate(3);
    let wrong = |field: &mut Vec<u8>| field[4] = 9;
    let (early, late) = (refused_at(1, &cut), refused_at(2, &wrong));
    assert_eq!(list(&early, &late), "1 refused 52 -\n");
    let (cut, wrong) = (refused_at(2, &cut), refused_at(2, &wrong));
    assert_eq!(list(&cut, &wrong), "2 refused 52 53\n");
    // Differences before it are listed; the longer side's fields behind not.
    let mut fields = three();
    fields[0].0 = 77;
    fields.extend(three());
    assert_eq!(list(&file(&fields), &cut), "0 ts 77 1\n2 refused - 52\n");
    // A refusal of the longer file comes behind its fields.
    assert_eq!(
        list(&file(&three()[..1]), &wrong),
        "1 only right\n2 refused - 53\n"
    );
    assert_eq!(list(&file(&three()[..2]), &wrong), "2 refused - 53\n");
}

/// The largest field, and a difference in its last word.
#[test]
fn the_largest_field() {
    let words = [0x155; 255];
    let mut records = vec![record(&words); 139];
    records.push(record(&words[..159]));
    let left = file(&[field(1, &records)]);
    records[139][9 + 158] = 0x156;
    let right = file(&[field(1, &records)]);
    assert_eq!(list(&left, &right), "0 139 167 341 342\n");
    let many = vec![record(&[]); 4_095];
    let mut other = many.clone();
    other[4_094][2] = 71;
    let (left, right) = (file(&[field(1, &many)]), file(&[field(1, &other)]));
    assert_eq!(list(&left, &right), "0 4094 2 70 71\n");
}

/// Left and right exchanged; in order; only the last line says refused.
#[test]
fn random_pairs() {
    let mut r = Random::new(131);
    for _ in 0..4_000 {
        let (left, right) = file_pair(&mut r);
        list(&left, &right);
        let found = differences(&left, &right);
        assert!(found.is_sorted_by(|a, b| a < b));
        let refused =
            |(_, difference): &(usize, Difference)| matches!(difference, Difference::Refused(..));
        let before = found.len().saturating_sub(1);
        assert!(!found[..before].iter().any(refused));
        let alone = list(&left, &left);
        assert_eq!(alone.is_empty(), !alone.contains("refused"));
        assert!(alone.lines().count() <= 1);
    }
}

/// What the file's own writer wrote, and one field appended.
#[test]
fn written_files() {
    let write = |fields: &[Field]| -> Result<Vec<u8>, Refusal> {
        let mut out = vec![0; 10_000];
        let mut end = file::begin(&mut out)?;
        for (timestamp, f, records) in fields {
            end += file::write(*timestamp, *f, &records.concat(), &mut out[end..])?;
        }
        out.truncate(end);
        Ok(out)
    };
    let written = write(&three()).unwrap();
    assert_eq!(list(&written, &file(&three())), "");
    let more = [&three()[..], &[field(8, &[])]].concat();
    assert_eq!(list(&write(&more).unwrap(), &written), "3 only left\n");
}

fn run(arguments: &[&Path]) -> (String, bool) {
    let output = Command::new(env!("CARGO_BIN_EXE_fielddiff"))
        .args(arguments)
        .stdin(Stdio::null())
        .output()
        .unwrap();
    let told = !output.stderr.is_empty();
    assert_eq!(output.status.success(), !told);
    (String::from_utf8(output.stdout).unwrap(), told)
}

/// Two files; one that can't be opened or isn't named reads as empty; a read
/// that fails is told, and no line is printed.
#[test]
fn the_program() {
    let folder = Path::new(env!("CARGO_TARGET_TMPDIR"));
    let [left, right, none] = ["left.anf", "right.anf", "none.anf"].map(|name| folder.join(name));
    fs::write(&left, file(&three())).unwrap();
    fs::write(&right, file(&three()[..2])).unwrap();
    let printed = |arguments: &[&Path]| {
        let (text, told) = run(arguments);
        assert!(!told);
        text
    };
    assert_eq!(printed(&[&left, &left]), "");
    assert_eq!(printed(&[&left, &right]), "2 only left\n");
    assert_eq!(printed(&[&right, &left]), "2 only right\n");
    assert_eq!(printed(&[&left, &none]), "0 refused - 50\n");
    assert_eq!(printed(&[&none, &left]), "0 refused 50 -\n");
    assert_eq!(printed(&[&none, &none]), "0 refused 50 50\n");
    assert_eq!(printed(&[&left]), "0 refused - 50\n");
    assert_eq!(printed(&[]), "0 refused 50 50\n");
    assert_eq!(run(&[&left, folder]), (String::new(), true));
}
