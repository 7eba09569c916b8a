//! Random calls of each entry point on both sides, and which refusals they
//! met: exactly those that 01 and 02 let the entry give in the layout told,
//! each at least once.

use std::collections::BTreeSet;

use differential::call::{compare, compare_wanted, Call, Lengths, Memory};
use differential::inputs::{self, Case};
use differential::{DRAFTS, LAYOUT, RFC8331, ROW};
use reference::coverage::Coverage;
use reference::random::Random;

/// What each entry gives: 0 for an answer, the papers' numbers, 255 for short
/// rows, 254 where it is told no layout.
const GIVEN: [(&str, &[u8]); 20] = [
    (
        "read",
        &[0, 1, 2, 3, 4, 5, 6, 7, 8, 9, 10, 12, 13, 14, 16, ROW],
    ),
    (
        "read old",
        &[0, 1, 2, 3, 4, 5, 7, 8, 9, 10, 12, 13, 14, 15, 16, ROW],
    ),
    ("read none", &[LAYOUT, ROW]),
    (
        "strict",
        &[0, 1, 2, 3, 4, 5, 6, 7, 8, 9, 10, 11, 12, 13, 14, 16, ROW],
    ),
    (
        "strict old",
        &[0, 1, 2, 3, 4, 5, 7, 8, 9, 10, 11, 12, 13, 14, 15, 16, ROW],
    ),
    ("strict none", &[LAYOUT, ROW]),
    ("write", &[0, 16, 20, 21, 23, 24, ROW]),
    ("write old", &[0, 16, 20, 21, 23, 24, 25, ROW]),
    ("write none", &[LAYOUT, ROW]),
    ("open", &[0, 24, ROW]),
    (
        "arrive",
        &[
            0, 1, 2, 3, 4, 5, 6, 7, 8, 9, 10, 11, 12, 13, 16, 30, 31, 32, 35, 36, ROW,
        ],
    ),
    (
        "arrive old",
        &[
            0, 1, 2, 3, 4, 5, 7, 8, 9, 10, 11, 12, 13, 15, 16, 30, 31, 32, 35, 36, ROW,
        ],
    ),
    ("arrive none", &[LAYOUT, ROW]),
    ("sdp_read", &[0, 40, 41, 42, 43, 44, ROW]),
    ("sdp_write", &[0, 41, 43, 44, ROW]),
    ("file_begin", &[0, 23, ROW]),
    ("file_write", &[0, 16, 20, 21, 23, 53, ROW]),
    (
        "file_read",
        &[0, 9, 10, 11, 12, 14, 16, 21, 50, 51, 52, 53, 54, 55, ROW],
    ),
    ("line_write", &[0, 16, 20, 70, 71, 72, ROW]),
    ("line_read", &[0, 9, 10, 11, 14, 16, 20, 70, 71, 73, ROW]),
];

/// Numbers whose index says where; the SDP writer's index is always 0, and so
/// is that of 20 where a line is read.
const INDEXED: [u8; 10] = [9, 10, 11, 12, 15, 16, 20, 41, 42, 43];

/// The entry with the layout told: that of the drafts is the old one.
fn under(entries: &[&'static str], call: &Call) -> &'static str {
    match call {
        Call::Read { layout, .. }
        | Call::ReadStrict { layout, .. }
        | Call::Write { layout, .. }
        | Call::Arrive { layout, .. } => match *layout {
            RFC8331 => entries[0],
            DRAFTS => entries[1],
            _ => entries[2],
        },
        _ => entries[0],
    }
}

fn differ(entries: &[&'static str], seed: u64, rounds: usize, draw: fn(&mut Random) -> Case) {
    let mut r = Random::new(seed);
    let mut met = Coverage::default();
    for _ in 0..rounds {
        let (call, memory) = draw(&mut r);
        let (number, after) = compare(&call, &memory);
        let index = match number {
            0 | LAYOUT | ROW => 0,
            _ => after.answer.get()[0] as usize,
        };
        met.count(under(entries, &call), number, index);
    }
    entries.iter().for_each(|entry| check(entry, &met));
}

fn check(entry: &str, met: &Coverage) {
    let these = met.counts.keys().filter(|(name, _, _)| *name == entry);
    let numbers: BTreeSet<u8> = these.map(|&(_, number, _)| number).collect();
    let given = GIVEN.iter().find(|(name, _)| *name == entry).unwrap().1;
    assert_eq!(numbers, given.iter().copied().collect(), "{entry}");
    for number in numbers {
        let (times, indices) = met.of(entry, number);
        println!("{entry:<12}{number:>4}{times:>8} times{indices:>5} indices");
        let always_0 = entry == "sdp_write" || (entry, number) == ("line_read", 20);
        let several = INDEXED.contains(&number) && !always_0;
        assert_eq!(several, indices > 1, "{entry} {number}: {indices} indices");
    }
}

/// The table above has every number of 01 and 02 but 22, which is reserved, and
/// 60 to 64, which `outlet.rs` has.
#[test]
fn every_number_is_some_entrys() {
    let given: BTreeSet<u8> = GIVEN
        .iter()
        .flat_map(|(_, numbers)| *numbers)
        .copied()
        .collect();
    let of_the_papers = (1..=16)
        .chain([20, 21, 23, 24, 25, 30, 31, 32, 35, 36])
        .chain(40..=44)
        .chain(50..=55)
        .chain(70..=73);
    assert_eq!(given, of_the_papers.chain([0, LAYOUT, ROW]).collect());
}

#[test]
fn packets_read() {
    let entries = ["read", "read old", "read none"];
    differ(&entries, 101, 300_000, inputs::read);
}

#[test]
fn packets_read_strictly() {
    let entries = ["strict", "strict old", "strict none"];
    differ(&entries, 111, 300_000, inputs::read_strict);
}

#[test]
fn packets_written() {
    let entries = ["write", "write old", "write none"];
    differ(&entries, 102, 200_000, inputs::write);
}

#[test]
fn depacketizers_opened() {
    differ(&["open"], 103, 20_000, inputs::open);
}

#[test]
fn single_arrivals() {
    let entries = ["arrive", "arrive old", "arrive none"];
    differ(&entries, 104, 200_000, inputs::arrive);
}

#[test]
fn parameters_read() {
    differ(&["sdp_read"], 105, 200_000, inputs::sdp_read);
}

#[test]
fn parameters_written() {
    differ(&["sdp_write"], 106, 100_000, inputs::sdp_write);
}

#[test]
fn files_begun() {
    differ(&["file_begin"], 107, 10_000, inputs::file_begin);
}

#[test]
fn fields_written() {
    differ(&["file_write"], 108, 100_000, inputs::file_write);
}

#[test]
fn fields_read() {
    differ(&["file_read"], 109, 100_000, inputs::file_read);
}

#[test]
fn lines_written() {
    differ(&["line_write"], 112, 100_000, inputs::line_write);
}

#[test]
fn lines_read() {
    differ(&["line_read"], 113, 150_000, inputs::line_read);
}

/// Both answers, and no other.
#[test]
fn records_wanted() {
    let mut r = Random::new(110);
    let mut met = [0; 2];
    for _ in 0..200_000 {
        let (call, memory) = inputs::wanted(&mut r);
        let (number, _) = compare(&call, &memory);
        met[number as usize] += 1;
    }
    assert!(met[0] > 20_000 && met[1] > 20_000, "{met:?}");
}

/// The same of a row of pairs, and of the row's octets.
#[test]
fn records_wanted_of_pairs() {
    let mut r = Random::new(111);
    let memory = Memory::new(Lengths::default(), &mut r);
    let mut met = [0; 2];
    for _ in 0..200_000 {
        let (asked, row) = inputs::wanted_of(&mut r);
        met[compare_wanted(asked, &row, &memory) as usize] += 1;
    }
    assert!(met[0] > 20_000 && met[1] > 20_000, "{met:?}");
}
