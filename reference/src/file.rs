//! The field file: `ANF`, a 16-bit version, then fields. A field is its
//! timestamp (32 bits), F (one octet), count, ANC packets. The count is one
//! octet in version 1 and two in version 2 (02, K2): both are read, 2 is
//! written. The ANC packets are RFC 8331's,
//! and which packet a record came in is not stored: it reads as 0.

use crate::anc::{check_list, check_run, Limits};
use crate::layout::Layout;
use crate::refusal::Refusal;

#[derive(Clone, Copy, Debug, PartialEq, Eq)]
pub enum Version {
    One,
    Two,
}

impl Version {
    /// The first five octets.
    pub const fn start(self) -> [u8; 5] {
        match self {
            Version::One => *b"ANF\x00\x01",
            Version::Two => *b"ANF\x00\x02",
        }
    }

    /// Octets of a field before its ANC packets.
    pub const fn field_head(self) -> usize {
        match self {
            Version::One => 6,
            Version::Two => 7,
        }
    }
}

/// The first five octets as written.
pub const START: [u8; 5] = Version::Two.start();
const FIELD_HEAD: usize = Version::Two.field_head();

/// A field read, and the offset after it.
#[derive(Clone, Copy, Debug, PartialEq, Eq)]
pub struct Field {
    pub timestamp: u32,
    pub f: u8,
    pub records: usize,
    pub cells: usize,
    pub next: usize,
}

fn is_file_f(f: u8) -> bool {
    matches!(f, 0 | 2 | 3)
}

/// Writes the first five octets: 23.
pub fn begin(out: &mut [u8]) -> Result<usize, Refusal> {
    let Some(out) = out.first_chunk_mut() else {
        return Err(Refusal::plain(23));
    };
    *out = START;
    Ok(START.len())
}

/// Writes one field of version 2 and returns its size: 53, 20, 16, 21, 23.
pub fn write(timestamp: u32, f: u8, cells: &[u16], out: &mut [u8]) -> Result<usize, Refusal> {
    if !is_file_f(f) {
        return Err(Refusal::plain(53));
    }
    let list = check_list(Layout::Rfc8331, cells)?.within(Limits::FIELD)?;
    let Some((head, packets)) = out.split_first_chunk_mut::<FIELD_HEAD>() else {
        return Err(Refusal::plain(23));
    };
    list.write(packets)?;
    let [a, b, c, d] = timestamp.to_be_bytes();
    let [high, low] = (list.records() as u16).to_be_bytes();
    *head = [a, b, c, d, f, high, low];
    Ok(FIELD_HEAD + list.octets())
}

/// Reads the field at an offset into lent cells:
/// 50, 51, 55, 54, 52, 53, 9 to 12 and 16, 21, 14.
pub fn read(file: &[u8], offset: usize, cells: &mut [u16]) -> Result<Field, Refusal> {
    let version = version(file)?;
    if offset < START.len() || offset > file.len() {
        return Err(Refusal::plain(55));
    }
    if offset == file.len() {
        return Err(Refusal::plain(54));
    }
    let Some((head, packets)) = file[offset..].split_at_checked(version.field_head()) else {
        return Err(Refusal::plain(52));
    };
    let f = head[4];
    if !is_file_f(f) {
        return Err(Refusal::plain(53));
    }
    let run = check_run(Layout::Rfc8331, packets, number(&head[5..]))?;
    if !Limits::FIELD.hold(run.records(), run.cells()) {
        return Err(Refusal::plain(21));
    }
    run.read(0, cells)?;
    Ok(Field {
        timestamp: number(&head[..4]) as u32,
        f,
        records: run.records(),
        cells: run.cells(),
        next: offset + head.len() + run.octets(),
    })
}

/// Most significant octet first.
fn number(octets: &[u8]) -> usize {
    octets
        .iter()
        .fold(0, |number, &octet| number << 8 | octet as usize)
}

/// 50: not `ANF` or under 3 octets; 51: version not 1 or 2, or under 5 octets.
fn version(file: &[u8]) -> Result<Version, Refusal> {
    if !file.starts_with(b"ANF") {
        return Err(Refusal::plain(50));
    }
    [Version::One, Version::Two]
        .into_iter()
        .find(|version| file.starts_with(&version.start()))
        .ok_or(Refusal::plain(51))
}
