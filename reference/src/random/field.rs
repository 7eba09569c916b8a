//! Field files, and inputs of `fieldlist`.

use super::*;
use crate::anc::Limits;
use crate::file::Version;
use crate::frames::put_frame;

/// Octets of a field in a file. Version 1 has the count's low octet alone.
pub fn file_field(version: Version, timestamp: u32, f: u8, count: u16, anc: &[Anc]) -> Vec<u8> {
    let mut octets = timestamp.to_be_bytes().to_vec();
    octets.push(f);
    match version {
        Version::One => octets.push(count as u8),
        Version::Two => octets.extend(count.to_be_bytes()),
    }
    octets.extend(run_octets(Layout::Rfc8331, anc));
    octets
}

/// A file and the offsets of its fields.
pub fn valid_file(r: &mut Random, version: Version) -> (Vec<u8>, Vec<usize>) {
    let mut file = version.start().to_vec();
    let mut offsets = Vec::new();
    for _ in 0..r.below(5) {
        offsets.push(file.len());
        let records = r.below(5);
        let anc = anc_of(&list(r, records));
        let f = r.pick(&[0, 2, 3]);
        file.extend(file_field(version, r.number32(), f, records as u16, &anc));
    }
    (file, offsets)
}

/// ANC packets at or over a field's limits; version 1 cannot count over 255.
pub(super) fn large_field(r: &mut Random, version: Version) -> Vec<Anc> {
    let most = Limits::FIELD;
    if version == Version::Two && r.one_in(3) {
        let records = r.pick(&[256, 600, most.records, most.records + 1]);
        return (0..records).map(|_| Anc::of(&record(r, 0))).collect();
    }
    let over = r.pick(&[0, 1, 2, 200, 4000]);
    anc_of(&list_of_cells(r, most.cells + over))
}

/// A field that a file's reader refuses, more often than not.
pub(super) fn damaged_field(r: &mut Random, version: Version) -> Vec<u8> {
    let records = 1 + r.below(6);
    let mut anc = anc_of(&list(r, records));
    let (mut f, mut count) = (r.pick(&[0, 2, 3]), records as u16);
    let mut cut = 0;
    match r.below(8) {
        0 => f = r.octet(),
        1 => count += r.pick(&[1, 2, 3, 250, 256, 65_000]),
        2 => cut = 1 + r.below(30),
        3 if r.one_in(3) => {
            anc = large_field(r, version);
            count = anc.len() as u16;
        }
        _ => {
            let index = r.below(records);
            damage_anc(r, Layout::Rfc8331, &mut anc[index]);
        }
    }
    let mut octets = file_field(version, r.number32(), f, count, &anc);
    octets.truncate(octets.len() - cut.min(octets.len()));
    octets
}

/// An input of the file's reader.
#[derive(Clone, Debug)]
pub struct FileCase {
    pub file: Vec<u8>,
    pub offset: usize,
    /// Cells lent.
    pub room: usize,
}

pub fn file_case(r: &mut Random) -> FileCase {
    let version = r.pick(&[Version::One, Version::Two, Version::Two]);
    let (mut file, mut offsets) = valid_file(r, version);
    if r.one_in(2) {
        offsets.push(file.len());
        file.extend(damaged_field(r, version));
    }
    match r.below(13) {
        0 => file[r.below(5)] ^= 1 << r.below(8),
        1 => file.truncate(r.below(8)),
        2 => file.truncate(r.below(file.len())),
        // The other version's head over these fields.
        3 => file[4] ^= 3,
        _ => {}
    }
    let last = offsets.last().copied().unwrap_or(5);
    let offset = match r.below(12) {
        0 => r.below(6),
        1 => file.len(),
        2 => file.len() + 1 + r.pick(&[0, 1, usize::MAX / 2]),
        3 => file.len().saturating_sub(r.below(7)),
        4 => r.below(file.len()),
        5..8 if !offsets.is_empty() => r.pick(&offsets),
        _ => last,
    };
    let mut cells = vec![0; Limits::FIELD.cells];
    let need = crate::file::read(&file, offset, &mut cells).map_or(64, |field| field.cells);
    let room = r.room(need);
    FileCase { file, offset, room }
}

/// An input of the file's writer.
#[derive(Clone, Debug)]
pub struct FieldCase {
    pub timestamp: u32,
    pub f: u8,
    pub cells: Vec<u16>,
    /// Octets lent.
    pub room: usize,
}

pub fn field_case(r: &mut Random) -> FieldCase {
    let f = match r.below(8) {
        0 => r.octet(),
        _ => r.pick(&[0, 2, 3]),
    };
    let cells = any_list(r, Limits::FIELD);
    let need = needed_octets(Layout::Rfc8331, &cells);
    let room = r.room(Version::Two.field_head() + need);
    FieldCase {
        timestamp: r.number32(),
        f,
        cells,
        room,
    }
}

/// An input of `fieldlist`: a stream with trouble, one whose encoder restarts,
/// or packets that need not be in well-formed fields; the last frame broken at
/// times.
pub fn framed(r: &mut Random, layout: Layout) -> Vec<u8> {
    let mut out = Vec::new();
    match r.below(4) {
        0 => {
            let fields = r.below(12);
            let stream = stream(r, layout, fields, 4);
            for arrival in arrivals(r, &stream) {
                put_frame(stream.octets(&arrival), &mut out);
            }
        }
        1 => {
            for (stream, arrivals) in cycles(r, layout) {
                for arrival in &arrivals {
                    put_frame(stream.octets(arrival), &mut out);
                }
            }
        }
        _ => {
            let count = r.below(24);
            for packet in wild_packets(r, layout, count) {
                put_frame(&packet, &mut out);
            }
        }
    }
    match r.below(8) {
        0 => out.push(r.octet()),
        1 => out.truncate(r.below(out.len())),
        2 => out.extend([0, 0]),
        _ => {}
    }
    out
}
