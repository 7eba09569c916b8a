//! The program `fielddiff` against the reference's list, byte for byte, on
//! random pairs of files, of both versions, some of them refused, and with the
//! files exchanged; on long ones; on files that are not there; and where the
//! list cannot be written.

use std::ffi::OsStr;
use std::fs;
use std::path::{Path, PathBuf};
use std::process::{Command, Stdio};

use differential::program::{program, reported_once, same};
use reference::fielddiff;
use reference::file::Version;
use reference::random::{anc_of, file_field, file_pair, record, Random};

const FIELDDIFF: &str = "fielddiff";

fn path(name: &str) -> PathBuf {
    Path::new(env!("CARGO_TARGET_TMPDIR")).join(name)
}

/// What the program prints, told these words.
fn printed(words: &[&OsStr]) -> std::process::Output {
    Command::new(program(FIELDDIFF))
        .args(words)
        .stdin(Stdio::null())
        .output()
        .unwrap()
}

/// Two files, and exchanged: the list.
fn compare(left: &[u8], right: &[u8], name: &str) -> String {
    let paths = [path(&format!("diff-{name}-l")), path(&format!("diff-{name}-r"))];
    fs::write(&paths[0], left).unwrap();
    fs::write(&paths[1], right).unwrap();
    let expected = fielddiff(left, right);
    let output = printed(&[paths[0].as_os_str(), paths[1].as_os_str()]);
    same(output, &expected, name);
    let exchanged = fielddiff(right, left);
    let output = printed(&[paths[1].as_os_str(), paths[0].as_os_str()]);
    same(output, &exchanged, &format!("{name}, exchanged"));
    expected
}

#[test]
fn random_pairs() {
    let mut r = Random::new(1_401);
    for _ in 0..1_000 {
        let (left, right) = file_pair(&mut r);
        compare(&left, &right, "random");
    }
}

/// A file cut at any octet against itself.
#[test]
fn cut_anywhere() {
    let mut r = Random::new(1_402);
    let mut file = Version::Two.start().to_vec();
    for timestamp in 0..3 {
        let cells: Vec<u16> = (0..3).flat_map(|n| record(&mut r, n)).collect();
        let anc = anc_of(&cells);
        file.extend(file_field(Version::Two, timestamp, 2, 3, &anc));
    }
    for cut in 0..=file.len() {
        let list = compare(&file, &file[..cut], "cut");
        assert_eq!(list.is_empty(), cut == file.len());
    }
}

/// More octets than the program holds at once, the most records of a field,
/// and a count of 65,535 in a file that is too short for it.
#[test]
fn long_files() {
    let mut r = Random::new(1_403);
    let words: Vec<u16> = (0..124).flat_map(|_| record(&mut r, 255)).collect();
    let many: Vec<u16> = (0..4_095).flat_map(|_| record(&mut r, 0)).collect();
    let mut left = Version::Two.start().to_vec();
    let mut right = left.clone();
    for timestamp in 0..6 {
        let cells = if timestamp % 2 == 0 { &words } else { &many };
        let mut other = cells.clone();
        other[2] ^= 1;
        for (file, cells) in [(&mut left, cells), (&mut right, &other)] {
            let anc = anc_of(cells);
            file.extend(file_field(Version::Two, timestamp, 3, anc.len() as u16, &anc));
        }
    }
    let list = compare(&left, &right, "long");
    assert_eq!(list.lines().count(), 6);
    let anc = anc_of(&many);
    right.extend(file_field(Version::Two, 6, 3, u16::MAX, &anc));
    let list = compare(&left, &right, "count");
    assert!(list.ends_with("6 refused - 9\n"));
}

/// A file that can't be opened reads as empty: 50; so does one that is not
/// named.
#[test]
fn missing_files() {
    let there = path("diff-there");
    fs::write(&there, Version::Two.start()).unwrap();
    let missing = path("diff-missing");
    for (words, expected) in [
        (&[there.as_os_str(), there.as_os_str()][..], ""),
        (&[there.as_os_str(), missing.as_os_str()], "0 refused - 50\n"),
        (&[missing.as_os_str(), there.as_os_str()], "0 refused 50 -\n"),
        (&[there.as_os_str()], "0 refused - 50\n"),
        (&[], "0 refused 50 50\n"),
    ] {
        let output = printed(words);
        assert_eq!(String::from_utf8(output.stdout).unwrap(), expected);
    }
}

/// A list of many times the text that the program holds: the first write that
/// fails is told, and is not tried again. So is one of a few lines.
#[test]
fn output_that_cannot_be_written() {
    let mut r = Random::new(1_404);
    let mut file = |records: u16| {
        let cells: Vec<u16> = (0..records).flat_map(|_| record(&mut r, 255)).collect();
        let anc = anc_of(&cells);
        let mut file = Version::Two.start().to_vec();
        file.extend(file_field(Version::Two, 1, 3, records, &anc));
        file
    };
    for (records, least) in [(1, 1), (120, 400_000)] {
        let (left, right) = (file(records), file(records));
        assert!(fielddiff(&left, &right).len() >= least);
        let paths = [path("diff-full-l"), path("diff-full-r")];
        fs::write(&paths[0], left).unwrap();
        fs::write(&paths[1], right).unwrap();
        let mut command = Command::new(program(FIELDDIFF));
        reported_once(FIELDDIFF, command.args(&paths), &[]);
    }
}
