//! RTP packets with ancillary payload, in both layouts: reader and writer.

use crate::anc::{check_list, check_run, tolerate_run, Limits, Run};
use crate::layout::Layout;
use crate::refusal::Refusal;

/// Most octets of a packet.
pub const MAX_PACKET: usize = 65_535;
const RTP_HEADER: usize = 12;
/// Octets before the ANC packets in a written packet of RFC 8331.
const WRITTEN_HEAD: usize = RTP_HEADER + Layout::Rfc8331.payload_header();

/// What the reader returns with the records.
#[derive(Clone, Copy, Debug, PartialEq, Eq)]
pub struct Summary {
    pub source: u32,
    pub payload_type: u8,
    pub marker: bool,
    /// Extended Sequence Number x 65,536 + sequence number.
    pub number: u32,
    pub timestamp: u32,
    pub f: u8,
    pub records: u8,
    pub cells: usize,
    /// Records left out for their checksum; 0 in the strict way.
    pub left_out: u8,
}

/// What the writer takes with the list.
#[derive(Clone, Copy, Debug, PartialEq, Eq)]
pub struct Head {
    pub source: u32,
    pub payload_type: u8,
    pub marker: bool,
    pub number: u32,
    pub timestamp: u32,
    pub f: u8,
}

impl Summary {
    pub fn head(&self) -> Head {
        Head {
            source: self.source,
            payload_type: self.payload_type,
            marker: self.marker,
            number: self.number,
            timestamp: self.timestamp,
            f: self.f,
        }
    }
}

/// A packet that passed: none of 1 to 13, 15 and 16 is given, 11 but in the
/// strict way.
#[derive(Clone, Copy, Debug, PartialEq, Eq)]
pub struct Accepted<'a> {
    pub summary: Summary,
    /// The payload header's 22 reserved bits; the drafts have none.
    pub reserved: u32,
    pub run: Run<'a>,
}

#[inline(always)]
fn be16(octets: &[u8], at: usize) -> usize {
    u16::from_be_bytes([octets[at], octets[at + 1]]) as usize
}

#[inline(always)]
fn be32(octets: &[u8], at: usize) -> u32 {
    u32::from_be_bytes(octets[at..at + 4].try_into().unwrap())
}

/// The strict way, which the demands call accepted. The order of reading: 1,
/// 2 (under 12 octets), 3, 2 (rest), 4, 5, 6, 7, 8; each ANC packet's 9 to 12,
/// 15 and 16; then 13. Without F there is no 6.
#[inline]
pub fn check(layout: Layout, octets: &[u8]) -> Result<Accepted<'_>, Refusal> {
    examine(layout, octets, check_run)
}

/// The tolerant way (02, K9): 11 is not given, a record that fails only its
/// checksum is left out and counted.
#[inline]
pub fn tolerate(layout: Layout, octets: &[u8]) -> Result<Accepted<'_>, Refusal> {
    examine(layout, octets, tolerate_run)
}

#[inline(always)]
fn examine<'a>(
    layout: Layout,
    octets: &'a [u8],
    run: impl Fn(Layout, &'a [u8], usize) -> Result<Run<'a>, Refusal>,
) -> Result<Accepted<'a>, Refusal> {
    let payload = payload(octets).map_err(Refusal::plain)?;
    let Some((head, packets)) = payload.split_at_checked(layout.payload_header()) else {
        return Err(Refusal::plain(5));
    };
    let length = be16(head, 2);
    let count = head[4];
    let (f, reserved) = match layout {
        Layout::Rfc8331 => (head[5] >> 6, be32(head, 4) & 0x3F_FFFF),
        Layout::Draft2015 => (0, 0),
    };
    if f == 1 {
        return Err(Refusal::plain(6));
    }
    if length != packets.len() {
        return Err(Refusal::plain(7));
    }
    if count == 0 && length != 0 {
        return Err(Refusal::plain(8));
    }
    let run = run(layout, packets, count as usize)?;
    if run.octets() != packets.len() {
        return Err(Refusal::plain(13));
    }
    let summary = Summary {
        source: be32(octets, 8),
        payload_type: octets[1] & 0x7F,
        marker: octets[1] & 0x80 != 0,
        number: (be16(head, 0) << 16 | be16(octets, 2)) as u32,
        timestamp: be32(octets, 4),
        f,
        records: run.records() as u8,
        cells: run.cells(),
        left_out: run.left_out() as u8,
    };
    Ok(Accepted {
        summary,
        reserved,
        run,
    })
}

/// What follows the RTP header, less the padding: 1, 2, 3, 2, 4.
#[inline(always)]
fn payload(octets: &[u8]) -> Result<&[u8], u8> {
    if octets.len() > MAX_PACKET {
        return Err(1);
    }
    if octets.len() < RTP_HEADER {
        return Err(2);
    }
    if octets[0] >> 6 != 2 {
        return Err(3);
    }
    let sources = RTP_HEADER + 4 * (octets[0] & 0x0F) as usize;
    let after = match octets[0] & 0x10 {
        0 => sources,
        _ => sources + extension(octets, sources)?,
    };
    let Some(follows) = octets.get(after..) else {
        return Err(2);
    };
    if octets[0] & 0x20 == 0 {
        return Ok(follows);
    }
    let padding = octets[octets.len() - 1] as usize;
    if padding == 0 || padding > follows.len() {
        return Err(4);
    }
    Ok(&follows[..follows.len() - padding])
}

/// 4 octets whose last two count further 32-bit words.
#[inline]
fn extension(octets: &[u8], at: usize) -> Result<usize, u8> {
    match octets.get(at..at + 4) {
        Some(head) => Ok(4 + 4 * be16(head, 2)),
        None => Err(2),
    }
}

/// Reads a packet in the tolerant way and puts the records that come through
/// into lent cells: 1 to 10, 12, 13, 15 and 16, then 14.
#[inline]
pub fn read(layout: Layout, octets: &[u8], cells: &mut [u16]) -> Result<Summary, Refusal> {
    let passed = tolerate(layout, octets)?;
    passed.run.read(0, cells)?;
    Ok(passed.summary)
}

/// The same in the strict way: 1 to 13, 15 and 16, then 14.
#[inline]
pub fn read_strict(layout: Layout, octets: &[u8], cells: &mut [u16]) -> Result<Summary, Refusal> {
    let accepted = check(layout, octets)?;
    accepted.run.read(0, cells)?;
    Ok(accepted.summary)
}

/// Writes a packet into lent octets and returns its size: 24, 20, 16, 21, 25,
/// 23. What 21 lets pass is never over 65,535 octets, so there is no 22 (02,
/// K7). P, X and CC are zero, the reserved and R bits too.
#[inline]
pub fn write(layout: Layout, head: &Head, cells: &[u16], out: &mut [u8]) -> Result<usize, Refusal> {
    if head.payload_type > 127 || head.f == 1 || head.f > 3 {
        return Err(Refusal::plain(24));
    }
    let list = check_list(layout, cells)?.within(Limits::PACKET)?;
    if layout == Layout::Draft2015 && (head.f != 0 || list.has_streams()) {
        return Err(Refusal::plain(25));
    }
    let before = RTP_HEADER + layout.payload_header();
    let Some((start, packets)) = out.split_at_mut_checked(before) else {
        return Err(Refusal::plain(23));
    };
    list.write(packets)?;
    let written = written_head(head, list.records(), list.octets());
    start.copy_from_slice(&written[..before]);
    Ok(before + list.octets())
}

/// The drafts have the first 17 of these octets.
#[inline(always)]
fn written_head(head: &Head, records: usize, length: usize) -> [u8; WRITTEN_HEAD] {
    let mut start = [0; WRITTEN_HEAD];
    start[0] = 2 << 6;
    start[1] = (head.marker as u8) << 7 | head.payload_type;
    start[2..4].copy_from_slice(&(head.number as u16).to_be_bytes());
    start[4..8].copy_from_slice(&head.timestamp.to_be_bytes());
    start[8..12].copy_from_slice(&head.source.to_be_bytes());
    start[12..14].copy_from_slice(&((head.number >> 16) as u16).to_be_bytes());
    start[14..16].copy_from_slice(&(length as u16).to_be_bytes());
    start[16] = records as u8;
    start[17] = head.f << 6;
    start
}
