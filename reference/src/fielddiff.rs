//! The program `fielddiff` (02, K14): two field files in, every difference out
//! and nothing else. Fields are matched by position, from 0; the list ends
//! with a file that is refused.

use std::fmt::{self, Display, Formatter, Write};

use crate::anc::{records, Limits};
use crate::file::{read, START};

/// A difference between the fields of one position: the left side's number,
/// then the right side's.
#[derive(Clone, Copy, Debug, PartialEq, Eq, PartialOrd, Ord)]
pub enum Difference {
    Timestamp(u32, u32),
    F(u8, u8),
    Records(usize, usize),
    /// Record, its cell, words included.
    Cell(usize, usize, u16, u16),
    OnlyLeft,
    OnlyRight,
    /// The number that a side is refused with, if it is.
    Refused(Option<u8>, Option<u8>),
}

impl Display for Difference {
    fn fmt(&self, f: &mut Formatter) -> fmt::Result {
        match self {
            Difference::Timestamp(left, right) => write!(f, "ts {left} {right}"),
            Difference::F(left, right) => write!(f, "f {left} {right}"),
            Difference::Records(left, right) => write!(f, "records {left} {right}"),
            Difference::Cell(j, k, left, right) => write!(f, "{j} {k} {left} {right}"),
            Difference::OnlyLeft => f.write_str("only left"),
            Difference::OnlyRight => f.write_str("only right"),
            Difference::Refused(left, right) => {
                write!(f, "refused {} {}", number(*left), number(*right))
            }
        }
    }
}

/// `-` for a side that is not refused.
fn number(refused: Option<u8>) -> String {
    refused.map_or("-".to_string(), |number| number.to_string())
}

/// The program's whole output for two files.
pub fn fielddiff(left: &[u8], right: &[u8]) -> String {
    let mut text = String::new();
    for (position, difference) in differences(left, right) {
        // Writing to a String does not fail.
        let _ = writeln!(text, "{position} {difference}");
    }
    text
}

/// The differences, each with its field's position.
pub fn differences(left: &[u8], right: &[u8]) -> Vec<(usize, Difference)> {
    let mut found = Vec::new();
    let (mut left, mut right) = (Fields::new(left), Fields::new(right));
    for position in 0.. {
        let mut add = |difference| found.push((position, difference));
        match (left.next(), right.next()) {
            (Next::End, Next::End) => break,
            (Next::Field(left), Next::Field(right)) => compare(&left, &right, add),
            (Next::Field(_), Next::End) => add(Difference::OnlyLeft),
            (Next::End, Next::Field(_)) => add(Difference::OnlyRight),
            (left, right) => {
                add(Difference::Refused(left.refused(), right.refused()));
                break;
            }
        }
    }
    found
}

struct Field {
    timestamp: u32,
    f: u8,
    records: usize,
    cells: Vec<u16>,
}

enum Next {
    Field(Field),
    /// 54 is only the end.
    End,
    Refused(u8),
}

impl Next {
    fn refused(&self) -> Option<u8> {
        match self {
            Next::Refused(number) => Some(*number),
            _ => None,
        }
    }
}

/// A file read field by field.
struct Fields<'a> {
    file: &'a [u8],
    at: usize,
    store: Vec<u16>,
}

impl Fields<'_> {
    fn new(file: &[u8]) -> Fields<'_> {
        Fields {
            file,
            at: START.len(),
            store: vec![0; Limits::FIELD.cells],
        }
    }

    /// The next field; the end and a refusal come again.
    fn next(&mut self) -> Next {
        match read(self.file, self.at, &mut self.store) {
            Ok(field) => {
                self.at = field.next;
                Next::Field(Field {
                    timestamp: field.timestamp,
                    f: field.f,
                    records: field.records,
                    cells: self.store[..field.cells].to_vec(),
                })
            }
            Err(refusal) if refusal.number == 54 => Next::End,
            Err(refusal) => Next::Refused(refusal.number),
        }
    }
}

/// Timestamp, F, record count, then, as far as both go, each record by
/// position and each cell or word.
fn compare(left: &Field, right: &Field, mut add: impl FnMut(Difference)) {
    if left.timestamp != right.timestamp {
        add(Difference::Timestamp(left.timestamp, right.timestamp));
    }
    if left.f != right.f {
        add(Difference::F(left.f, right.f));
    }
    if left.records != right.records {
        add(Difference::Records(left.records, right.records));
    }
    let pairs = records(&left.cells).zip(records(&right.cells));
    for (j, ((head, words), (other_head, other_words))) in pairs.enumerate() {
        let cells = head.iter().zip(other_head);
        let cells = cells.chain(words.iter().zip(other_words));
        for (k, (&left, &right)) in cells.enumerate() {
            if left != right {
                add(Difference::Cell(j, k, left, right));
            }
        }
    }
}
