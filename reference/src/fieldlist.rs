//! The program `fieldlist`: RFC 4571 frames in, a listing out.

use std::fmt::Write;

use crate::anc::{records, Limits, RECORD_HEAD};
use crate::depacketizer::{arrive, open, Answer, State};
use crate::frames::{Frame, Frames};
use crate::layout::Layout;
use crate::packet::check;
use crate::refusal::Refusal;

/// The program's whole output for frames in a layout.
pub fn fieldlist(layout: Layout, input: &[u8]) -> String {
    let mut listing = Listing::new(layout);
    for frame in Frames::new(input) {
        match frame {
            Frame::Packet(octets) => listing.packet(octets),
            Frame::Cut => listing.line(format_args!("cut")),
        }
    }
    listing.counts();
    listing.text
}

struct Listing {
    layout: Layout,
    text: String,
    depacketizer: Option<State>,
    store: Vec<u16>,
}

impl Listing {
    fn new(layout: Layout) -> Listing {
        Listing {
            layout,
            text: String::from("fieldlist 1\n"),
            depacketizer: None,
            store: vec![0; Limits::FIELD.cells],
        }
    }

    fn line(&mut self, line: std::fmt::Arguments) {
        // Writing to a String does not fail.
        let _ = writeln!(self.text, "{line}");
    }

    fn refused(&mut self, refusal: Refusal) {
        let Refusal { number, index } = refusal;
        self.line(format_args!("refused {number} {index}"));
    }

    /// The first packet that passes 1 to 13, 15 and 16 opens the
    /// depacketizer.
    fn packet(&mut self, octets: &[u8]) {
        let summary = match check(self.layout, octets) {
            Ok(accepted) => accepted.summary,
            Err(refusal) => return self.refused(refusal),
        };
        let opened = match self.depacketizer {
            Some(state) => Ok(state),
            None => open(summary.source, summary.payload_type),
        };
        match opened {
            Ok(state) => self.arrival(summary.number, state, octets),
            Err(refusal) => self.refused(refusal),
        }
    }

    fn arrival(&mut self, number: u32, state: State, octets: &[u8]) {
        let (state, answer) = arrive(state, self.layout, octets, &mut self.store);
        self.depacketizer = Some(state);
        match answer {
            Answer::Skipped => self.line(format_args!("{number} skipped")),
            Answer::Held => self.line(format_args!("{number} held")),
            Answer::Mixed => self.line(format_args!("{number} mixed")),
            Answer::Overfull => self.line(format_args!("{number} overfull")),
            Answer::Refused(refusal) if refusal.number == 32 => {
                self.line(format_args!("{number} late"))
            }
            Answer::Refused(refusal) => self.refused(refusal),
            Answer::Whole {
                timestamp,
                f,
                records,
                cells,
                ..
            } => {
                self.line(format_args!(
                    "{number} whole ts={timestamp} f={f} records={records}"
                ));
                self.records(cells);
            }
        }
    }

    fn records(&mut self, cells: usize) {
        for (head, words) in records(&self.store[..cells]) {
            write_record(&mut self.text, head, words);
        }
    }

    /// Without a depacketizer the counts are 0.
    fn counts(&mut self) {
        let [fresh, late, missing] = match self.depacketizer {
            Some(state) => [state.fresh, state.late, state.missing],
            None => [0; 3],
        };
        self.line(format_args!("fresh={fresh} late={late} missing={missing}"));
    }
}

/// Numbers are decimal, but did and sdid two lower-case hex digits; words
/// follow the count, each a space and three lower-case hex digits.
fn write_record(text: &mut String, head: &[u16; RECORD_HEAD], words: &[u16]) {
    let [c, line, offset, s, stream, did, sdid, n, _] = *head;
    let channel = if c == 0 { 'y' } else { 'c' };
    // Writing to a String does not fail.
    let _ = write!(
        text,
        " {channel} line={line} off={offset} s={s}/{stream} did={did:02x} sdid={sdid:02x} words={n}"
    );
    for word in words {
        let _ = write!(text, " {word:03x}");
    }
    text.push('\n');
}
