//! The program `streamcheck` (02, K12): RFC 4571 frames in, a report out of
//! where an encoder's recorded output breaks the rules. A line is the frame's
//! index from 0 and a finding; a clean stream has none.

use std::fmt::{self, Display, Formatter, Write};

use crate::anc::{records, Run};
use crate::frames::{Frame, Frames};
use crate::layout::Layout;
use crate::packet::{check, Accepted, Summary};
use crate::refusal::Refusal;

/// What a packet breaks, in the order in which a packet's findings are listed.
#[derive(Clone, Copy, Debug, PartialEq, Eq, PartialOrd, Ord)]
pub enum Finding {
    /// 1 to 13, 15 or 16, strictly; 30 or 31 against the first accepted
    /// packet. It excludes the rest.
    Refused(Refusal),
    /// The last frame is broken.
    Cut,
    /// Not the number after that of the last packet not refused.
    Number,
    /// Another timestamp or F than the last packet not refused, which had no
    /// mark.
    Change,
    /// Reserved bits set.
    Reserved,
    /// A record whose place is before that of the plain record before it in
    /// the field.
    Raster,
}

impl Display for Finding {
    fn fmt(&self, f: &mut Formatter) -> fmt::Result {
        match self {
            Finding::Refused(Refusal { number, index }) => write!(f, "refused {number} {index}"),
            Finding::Cut => f.write_str("cut"),
            Finding::Number => f.write_str("number"),
            Finding::Change => f.write_str("change"),
            Finding::Reserved => f.write_str("reserved"),
            Finding::Raster => f.write_str("raster"),
        }
    }
}

/// The program's whole output for frames in a layout.
pub fn streamcheck(layout: Layout, input: &[u8]) -> String {
    let mut text = String::new();
    for (index, finding) in findings(layout, input) {
        // Writing to a String does not fail.
        let _ = writeln!(text, "{index} {finding}");
    }
    text
}

/// The findings, each with its frame's index.
pub fn findings(layout: Layout, input: &[u8]) -> Vec<(usize, Finding)> {
    let mut found = Vec::new();
    let mut heard = Heard::default();
    for (index, frame) in Frames::new(input).enumerate() {
        let mut add = |finding| found.push((index, finding));
        let Frame::Packet(octets) = frame else {
            add(Finding::Cut);
            continue;
        };
        match heard.accept(layout, octets) {
            Ok(packet) => heard.packet(&packet, add),
            Err(refusal) => add(Finding::Refused(refusal)),
        }
    }
    found
}

/// Line, then offset.
type Place = (u16, u16);

/// What is known of the packets so far.
#[derive(Default)]
struct Heard {
    /// Source and type of the first accepted packet.
    first: Option<(u32, u8)>,
    /// The last packet not refused.
    last: Option<Summary>,
    /// The last plain record of the field so far.
    place: Option<Place>,
}

impl Heard {
    fn accept<'a>(&mut self, layout: Layout, octets: &'a [u8]) -> Result<Accepted<'a>, Refusal> {
        let packet = check(layout, octets)?;
        let Summary {
            source,
            payload_type,
            ..
        } = packet.summary;
        let first = *self.first.get_or_insert((source, payload_type));
        if source != first.0 {
            return Err(Refusal::plain(30));
        }
        if payload_type != first.1 {
            return Err(Refusal::plain(31));
        }
        Ok(packet)
    }

    /// One packet that is not refused.
    fn packet(&mut self, packet: &Accepted, mut add: impl FnMut(Finding)) {
        let summary = packet.summary;
        if let Some(last) = self.last {
            if summary.number != last.number.wrapping_add(1) {
                add(Finding::Number);
            }
            let same = (summary.timestamp, summary.f) == (last.timestamp, last.f);
            if !last.marker && !same {
                add(Finding::Change);
            }
        }
        if packet.reserved != 0 {
            add(Finding::Reserved);
        }
        if !self.in_order(&packet.run) {
            add(Finding::Raster);
        }
        self.last = Some(summary);
        // A field ends at a mark.
        if summary.marker {
            self.place = None;
        }
    }

    /// Equal places are in order; special ones are passed over.
    fn in_order(&mut self, run: &Run) -> bool {
        let mut in_order = true;
        for (head, _) in records(&run.list()) {
            let place = (head[1], head[2]);
            if is_plain(place) {
                in_order &= self.place.is_none_or(|before| before <= place);
                self.place = Some(place);
            }
        }
        in_order
    }
}

/// No special line (0x7FD to 0x7FF) and no special offset (0xFFC to 0xFFF).
fn is_plain((line, offset): Place) -> bool {
    line < 0x7FD && offset < 0xFFC
}
