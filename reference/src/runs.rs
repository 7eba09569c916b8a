//! The cases that 01 says are run only, as text. `bin/runs.rs` has the
//! inputs and the format; any reader and writer can be put in.

use std::fmt::Write;

use crate::anc::{Limits, COUNT};
use crate::layout::Layout;
use crate::packet::{self, Head, Summary, MAX_PACKET};
use crate::refusal::Refusal;

/// Record A of 01.
pub const A: [u16; 9] = [0, 9, 0, 0, 0, 0x41, 0x05, 0, 0];
/// The head of every packet: the first of the frames that 01 lists.
pub const HEAD: Head = Head {
    source: 1,
    payload_type: 112,
    marker: true,
    number: 7,
    timestamp: 1000,
    f: 2,
};
/// Where record A stands in a packet that has no other.
pub const A_AT: usize = 20;
/// Octets of record A.
pub const A_OCTETS: usize = 12;

/// A reader and a writer of packets.
pub struct Sides<R, W> {
    pub read: R,
    pub write: W,
}

/// The text of the reference's strict reader and its writer.
pub fn reference_text() -> String {
    let read =
        |octets: &[u8], cells: &mut [u16]| packet::read_strict(Layout::Rfc8331, octets, cells);
    let write = |head: &Head, cells: &[u16], out: &mut [u8]| {
        packet::write(Layout::Rfc8331, head, cells, out)
    };
    Sides { read, write }.text()
}

/// That many records A.
pub fn records(count: usize) -> Vec<u16> {
    A.repeat(count)
}

/// Exactly that many cells: records of 255 words and a shorter last one,
/// all else as in record A. The words count on through the list, from 4 to
/// 0x3FB and again: those that are not protected.
pub fn cells(count: usize) -> Vec<u16> {
    let mut list = Vec::new();
    let mut word = 0;
    while list.len() + A.len() <= count {
        let n = (count - list.len() - A.len()).min(255) as u16;
        list.extend(A);
        let head = list.len() - A.len();
        list[head + COUNT] = n;
        list.extend((word..word + n).map(|word| 4 + word % 1016));
        word = (word + n) % 1016;
    }
    list
}

/// A packet with one octet changed.
pub fn changed(packet: &[u8], at: usize, mask: u8) -> Vec<u8> {
    let mut packet = packet.to_vec();
    packet[at] ^= mask;
    packet
}

impl<R, W> Sides<R, W>
where
    R: FnMut(&[u8], &mut [u16]) -> Result<Summary, Refusal>,
    W: FnMut(&Head, &[u16], &mut [u8]) -> Result<usize, Refusal>,
{
    /// The whole text.
    pub fn text(&mut self) -> String {
        let mut text = String::new();
        let most = Limits::PACKET;
        for count in [most.records, most.records + 1] {
            self.written(&mut text, &format!("records {count}"), &records(count));
        }
        for count in [most.cells, most.cells + 1] {
            self.written(&mut text, &format!("cells {count}"), &cells(count));
        }
        let packet = self.packet(&A).unwrap_or_default();
        // The last octet of record A is 0, so P alone makes it a padding of 0.
        line(
            &mut text,
            "padding 0",
            self.read_back(&changed(&packet, 0, 0x20)),
        );
        for bit in 0..8 * A_OCTETS {
            let octets = changed(&packet, A_AT + bit / 8, 0x80 >> (bit % 8));
            line(&mut text, &format!("bit {bit}"), self.read_back(&octets));
        }
        text
    }

    fn packet(&mut self, list: &[u16]) -> Result<Vec<u8>, Refusal> {
        let mut out = vec![0; MAX_PACKET];
        let size = (self.write)(&HEAD, list, &mut out)?;
        out.truncate(size);
        Ok(out)
    }

    fn written(&mut self, text: &mut String, name: &str, list: &[u16]) {
        let outcome = self.packet(list).and_then(|packet| {
            let read = self.read_back(&packet)?;
            Ok(format!("written {} {read}", packet.len()))
        });
        line(text, name, outcome);
    }

    fn read_back(&mut self, octets: &[u8]) -> Result<String, Refusal> {
        let mut cells = vec![0; Limits::PACKET.cells];
        let summary = (self.read)(octets, &mut cells)?;
        let sum = cells[..summary.cells]
            .iter()
            .fold(0_u16, |sum, &cell| sum.wrapping_add(cell));
        Ok(format!("read {} {} {sum}", summary.records, summary.cells))
    }
}

fn line(text: &mut String, name: &str, outcome: Result<String, Refusal>) {
    // Writing to a String does not fail.
    let _ = match outcome {
        Ok(outcome) => writeln!(text, "{name}: {outcome}"),
        Err(Refusal { number, index }) => writeln!(text, "{name}: refused {number} {index}"),
    };
}
