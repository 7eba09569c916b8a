//! The five findings of `streamcheck`, each defined over the list of packets
//! and without the checker: a line stands in the report exactly when its
//! packet breaks that rule.

use super::*;
use reference::streamcheck;

/// An accepted packet: its summary, the places of its records, reserved bits.
struct Packet {
    summary: Summary,
    places: Vec<(u16, u16)>,
    reserved: u64,
}

/// The strict readings of all packets.
struct Recording(Vec<Refused<Packet>>);

fn naive_packet(layout: Layout, octets: &[u8]) -> Refused<Packet> {
    let (summary, cells) = naive_check(layout, Way::Strict, octets)?;
    let mut header = 12 + 4 * bits(octets, 4, 4) as usize;
    if bits(octets, 3, 1) == 1 {
        header += 4 + 4 * bits(octets, 8 * header + 16, 16) as usize;
    }
    let width = if layout == Layout::Rfc8331 { 22 } else { 0 };
    let records = naive_list(&cells)?;
    Ok(Packet {
        summary,
        places: records
            .iter()
            .map(|record| (record[1], record[2]))
            .collect(),
        reserved: bits(octets, 8 * header + 42, width),
    })
}

impl Recording {
    /// 30 or 31 is against the first accepted packet.
    fn refused(&self, i: usize) -> Option<(u8, usize)> {
        let packet = match &self.0[i] {
            Ok(packet) => packet,
            Err(refusal) => return Some(*refusal),
        };
        let first = self.0.iter().flatten().next().unwrap();
        if packet.summary.source != first.summary.source {
            return Some((30, 0));
        }
        if packet.summary.payload_type != first.summary.payload_type {
            return Some((31, 0));
        }
        None
    }

    /// A packet that is not refused.
    fn sound(&self, i: usize) -> Option<&Packet> {
        let packet = self.0[i].as_ref().ok();
        packet.filter(|_| self.refused(i).is_none())
    }

    /// The last one not refused before a packet.
    fn before(&self, i: usize) -> Option<&Packet> {
        (0..i).rev().find_map(|h| self.sound(h))
    }

    fn number(&self, i: usize) -> bool {
        let Some((packet, before)) = self.sound(i).zip(self.before(i)) else {
            return false;
        };
        let next = (before.summary.number as u64 + 1) % (1 << 32);
        packet.summary.number as u64 != next
    }

    fn change(&self, i: usize) -> bool {
        let Some((packet, before)) = self.sound(i).zip(self.before(i)) else {
            return false;
        };
        let differs = packet.summary.timestamp != before.summary.timestamp
            || packet.summary.f != before.summary.f;
        differs && !before.summary.marker
    }

    fn reserved(&self, i: usize) -> bool {
        self.sound(i).is_some_and(|packet| packet.reserved != 0)
    }

    /// Plain places of a packet: line and offset both plain.
    fn plain(packet: &Packet) -> impl Iterator<Item = (u16, u16)> + '_ {
        let special = |&(line, offset): &(u16, u16)| {
            [0x7FD, 0x7FE, 0x7FF].contains(&line) || [0xFFC, 0xFFD, 0xFFE, 0xFFF].contains(&offset)
        };
        packet
            .places
            .iter()
            .copied()
            .filter(move |place| !special(place))
    }

    /// Some record of the packet is below the plain record just before it, among
    /// those since the last mark.
    fn raster(&self, i: usize) -> bool {
        let Some(packet) = self.sound(i) else {
            return false;
        };
        let marked = |h: &usize| self.sound(*h).is_some_and(|packet| packet.summary.marker);
        let start = (0..i).rev().find(marked).map_or(0, |h| h + 1);
        let field = (start..i)
            .filter_map(|h| self.sound(h))
            .flat_map(Self::plain);
        let before: Vec<(u16, u16)> = field.collect();
        let own: Vec<(u16, u16)> = Self::plain(packet).collect();
        let all = [&before[..], &own].concat();
        (before.len().max(1)..all.len()).any(|k| {
            let ((line, offset), (old_line, old_offset)) = (all[k], all[k - 1]);
            line < old_line || (line == old_line && offset < old_offset)
        })
    }

    fn report(&self, cut: bool) -> String {
        let mut text = String::new();
        for i in 0..self.0.len() {
            if let Some((code, index)) = self.refused(i) {
                text += &format!("{i} refused {code} {index}\n");
            }
            for (breaks, name) in [
                (self.number(i), "number"),
                (self.change(i), "change"),
                (self.reserved(i), "reserved"),
                (self.raster(i), "raster"),
            ] {
                if breaks {
                    text += &format!("{i} {name}\n");
                }
            }
        }
        if cut {
            text += &format!("{} cut\n", self.0.len());
        }
        text
    }
}

fn naive_report(layout: Layout, input: &[u8]) -> String {
    let (packets, cut) = naive_frames(input);
    let read = |octets: &&[u8]| naive_packet(layout, octets);
    Recording(packets.iter().map(read).collect()).report(cut)
}

#[test]
fn reports() {
    let mut r = Random::new(54);
    for round in 0..4_000 {
        let layout = r.layout();
        let input = match round % 4 {
            0 => framed(&mut r, layout),
            _ => recording(&mut r, layout),
        };
        let told = if r.one_in(20) { r.layout() } else { layout };
        assert_eq!(streamcheck(told, &input), naive_report(told, &input));
    }
}
