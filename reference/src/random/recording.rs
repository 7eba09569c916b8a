//! Recordings of an encoder's output, inputs of `streamcheck`.

use super::*;
use crate::frames::put_frame;
use crate::packet::Head;

/// Frames of one source, mostly in well-formed fields. Here and there packets
/// are refused, numbers out of sequence, a timestamp or F changes before a
/// mark, reserved bits are set, records out of raster order; the last frame is
/// broken at times. Some recordings have none of this.
pub fn recording(r: &mut Random, layout: Layout) -> Vec<u8> {
    let trouble = r.pick(&[3, 8, 8, 30, 100_000]);
    let mut recorder = Recorder {
        layout,
        trouble,
        head: head(r),
        place: (0, 0),
    };
    let mut out = Vec::new();
    for _ in 0..r.below(30) {
        let packet = recorder.packet(r);
        // Some are not recorded, some twice.
        if !r.one_in(trouble) {
            put_frame(&packet, &mut out);
        }
        if r.one_in(2 * trouble) {
            put_frame(&packet, &mut out);
        }
    }
    if r.one_in(trouble) {
        match r.below(4) {
            0 => out.push(r.octet()),
            1 => out.truncate(r.below(out.len())),
            2 => out.extend([0, 0]),
            _ => out.extend([0, 9, 0x80]),
        }
    }
    out
}

struct Recorder {
    layout: Layout,
    /// One in so many things goes wrong.
    trouble: usize,
    head: Head,
    /// Where the last record stood.
    place: (u16, u16),
}

impl Recorder {
    fn packet(&mut self, r: &mut Random) -> Vec<u8> {
        let wrong = |r: &mut Random| r.one_in(self.trouble);
        if self.head.marker {
            self.place = (0, 0);
        }
        if self.head.marker || wrong(r) {
            let step = r.pick(&[0, 1501, 3003]);
            self.head.timestamp = self.head.timestamp.wrapping_add(step);
        }
        if self.head.marker || wrong(r) {
            self.head.f = r.pick(&[0, 2, 3]);
        }
        let step = match wrong(r) {
            true => r.pick(&[0, 2, 3, 65_537, u32::MAX]),
            false => 1,
        };
        self.head.number = self.head.number.wrapping_add(step);
        self.head.marker = r.one_in(3);
        let cells = self.records(r);
        let mut parts = Parts::of(self.layout, self.head, &cells);
        if r.one_in(6) {
            dress(r, &mut parts);
            parts.reserved = 0;
        }
        self.spoil(r, &mut parts);
        let mut octets = parts.assemble();
        if r.one_in(4 * self.trouble) {
            damage_octets(r, &mut octets);
        }
        octets
    }

    /// Another source or type, reserved bits, damage.
    fn spoil(&self, r: &mut Random, parts: &mut Parts) {
        let wrong = |r: &mut Random| r.one_in(2 * self.trouble);
        if wrong(r) {
            parts.head.source ^= 1 << r.below(32);
        }
        if wrong(r) {
            parts.head.payload_type ^= 1 << r.below(7);
        }
        if wrong(r) {
            parts.reserved = 1 << r.below(22);
        }
        if wrong(r) {
            damage_parts(r, parts);
        }
    }

    /// Records that go on from the last one's place.
    fn records(&mut self, r: &mut Random) -> Vec<u16> {
        let mut cells = Vec::new();
        for _ in 0..r.pick(&[0, 1, 1, 2, 3, 5]) {
            self.place = self.next_place(r);
            let n = r.below(5);
            let mut record = record(r, n);
            (record[1], record[2]) = self.place;
            if r.one_in(5) {
                record[1] = r.pick(&[0x7FD, 0x7FE, 0x7FF]);
            }
            if r.one_in(5) {
                record[2] = r.pick(&[0xFFC, 0xFFD, 0xFFE, 0xFFF]);
            }
            cells.extend(record);
        }
        carried(self.layout, cells)
    }

    /// The same place, further in the line, or a line further on; and where it
    /// goes wrong, back or anywhere. Some are special.
    fn next_place(&self, r: &mut Random) -> (u16, u16) {
        let (line, offset) = self.place;
        let back = r.below(3) as u16;
        if r.one_in(self.trouble) {
            return match r.below(3) {
                0 => (line, offset.saturating_sub(back)),
                1 => (line.saturating_sub(back), offset),
                _ => (r.below(0x800) as u16, r.below(0x1000) as u16),
            };
        }
        match r.below(4) {
            0 => (line, offset),
            1 if offset < 0xF00 => (line, offset + 1 + back),
            _ if line < 0x700 => (line + 1 + back, r.pick(&[0, 0, 9, 0xFFB])),
            _ => (line, offset),
        }
    }
}
