//! Captures, inputs of `pcapframes`: both formats in both orders, some of them
//! damaged.

use super::*;
use crate::capture::Order;

/// The link types that are taken.
pub const LINKS: [u32; 7] = [1, 101, 12, 113, 276, 228, 229];
const TAGS: [u16; 3] = [0x8100, 0x88A8, 0x9100];

pub fn put16(order: Order, number: u16, out: &mut Vec<u8>) {
    out.extend(match order {
        Order::Big => number.to_be_bytes(),
        Order::Little => number.to_le_bytes(),
    });
}

pub fn put32(order: Order, number: u32, out: &mut Vec<u8>) {
    out.extend(match order {
        Order::Big => number.to_be_bytes(),
        Order::Little => number.to_le_bytes(),
    });
}

/// pcap's file header.
pub fn pcap_head(order: Order, magic: u32, link: u32) -> Vec<u8> {
    let mut out = Vec::new();
    put32(order, magic, &mut out);
    put16(order, 2, &mut out);
    put16(order, 4, &mut out);
    for number in [0, 0, 262_144, link] {
        put32(order, number, &mut out);
    }
    out
}

/// A packet record.
pub fn pcap_record(order: Order, captured: &[u8], out: &mut Vec<u8>) {
    let size = captured.len() as u32;
    for number in [1_700_000_000, 5, size, size] {
        put32(order, number, out);
    }
    out.extend(captured);
}

/// A block of pcapng, its body padded.
pub fn block(order: Order, kind: u32, body: &[u8], out: &mut Vec<u8>) {
    let padded = body.len().next_multiple_of(4);
    let length = 12 + padded as u32;
    put32(order, kind, out);
    put32(order, length, out);
    out.extend(body);
    out.extend(&[0; 3][..padded - body.len()]);
    put32(order, length, out);
}

/// The head of a section of unknown length.
pub fn section(order: Order, out: &mut Vec<u8>) {
    let mut body = Vec::new();
    put32(order, 0x1A2B_3C4D, &mut body);
    put16(order, 1, &mut body);
    put16(order, 0, &mut body);
    body.extend([0xFF; 8]);
    block(order, 0x0A0D_0D0A, &body, out);
}

pub fn interface(order: Order, link: u32, snap: u32, out: &mut Vec<u8>) {
    let mut body = Vec::new();
    put16(order, link as u16, &mut body);
    put16(order, 0, &mut body);
    put32(order, snap, &mut body);
    block(order, 1, &body, out);
}

/// An Enhanced Packet Block, or where `old` a Packet Block.
pub fn packet_block(order: Order, old: bool, id: u32, captured: &[u8], out: &mut Vec<u8>) {
    let mut body = Vec::new();
    if old {
        put16(order, id as u16, &mut body);
        put16(order, 7, &mut body);
    } else {
        put32(order, id, &mut body);
    }
    let size = captured.len() as u32;
    for number in [1, 2, size, size] {
        put32(order, number, &mut body);
    }
    body.extend(captured);
    block(order, if old { 2 } else { 6 }, &body, out);
}

/// A Simple Packet Block of a packet that had `original` octets.
pub fn simple_block(order: Order, original: u32, captured: &[u8], out: &mut Vec<u8>) {
    let mut body = Vec::new();
    put32(order, original, &mut body);
    body.extend(captured);
    block(order, 3, &body, out);
}

/// The last block, which begins there, with a comment behind the rest of it.
pub fn comment(order: Order, at: usize, out: &mut Vec<u8>) {
    let mut length = Vec::new();
    put32(order, (out.len() - at + 12) as u32, &mut length);
    out.truncate(out.len() - 4);
    put16(order, 1, out);
    put16(order, 3, out);
    out.extend(b"ABC\0");
    put32(order, 0, out);
    out.extend(&length);
    out[at + 4..at + 8].copy_from_slice(&length);
}

/// A UDP datagram without a checksum.
pub fn udp_packet(port: u16, payload: &[u8]) -> Vec<u8> {
    let mut out = vec![0x13, 0x8C];
    out.extend(port.to_be_bytes());
    out.extend((8 + payload.len() as u16).to_be_bytes());
    out.extend([0, 0]);
    out.extend(payload);
    out
}

/// The place has IPv4's three flags and the fragment's offset.
pub fn ipv4_packet(place: u16, protocol: u8, options: &[u8], carried: &[u8]) -> Vec<u8> {
    let size = 20 + options.len();
    let mut out = vec![0x40 + (size / 4) as u8, 0];
    out.extend(((size + carried.len()) as u16).to_be_bytes());
    out.extend([0, 1]);
    out.extend(place.to_be_bytes());
    out.extend([64, protocol, 0, 0, 192, 0, 2, 1, 233, 252, 0, 1]);
    out.extend(options);
    out.extend(carried);
    out
}

pub fn ipv6_packet(next: u8, carried: &[u8]) -> Vec<u8> {
    let mut out = vec![0x60, 0, 0, 0];
    out.extend((carried.len() as u16).to_be_bytes());
    out.extend([next, 64]);
    out.extend([0xFE; 32]);
    out.extend(carried);
    out
}

/// A header of eight octets and so many units of eight more: hop-by-hop,
/// routing or destination.
pub fn extension(next: u8, units: u8, filler: u8, carried: &[u8]) -> Vec<u8> {
    let mut out = vec![next, units];
    out.resize(8 * (usize::from(units) + 1), filler);
    out.extend(carried);
    out
}

/// A fragment header; the place has the offset, two reserved bits and M.
pub fn fragment(next: u8, place: u16, carried: &[u8]) -> Vec<u8> {
    let mut out = vec![next, 0];
    out.extend(place.to_be_bytes());
    out.extend([0, 0, 0, 9]);
    out.extend(carried);
    out
}

/// Tags stand in Ethernet and the first Linux cooked header alone.
pub fn on_link(link: u32, tags: &[[u16; 2]], number: u16, carried: &[u8]) -> Vec<u8> {
    let mut out = match link {
        1 => vec![2; 12],
        113 => vec![0; 14],
        276 => [&number.to_be_bytes()[..], &[0; 18]].concat(),
        _ => Vec::new(),
    };
    if matches!(link, 1 | 113) {
        let tags = tags.as_flattened().iter().chain([&number]);
        out.extend(tags.flat_map(|number| number.to_be_bytes()));
    }
    out.extend(carried);
    out
}

/// A length of two octets, at times one too large or too small.
fn nudge(r: &mut Random, octets: &mut [u8], at: usize) {
    let length = u16::from_be_bytes([octets[at], octets[at + 1]]);
    let length = match r.below(60) {
        0 => length.wrapping_add(1),
        1 => length.wrapping_sub(1),
        _ => length,
    };
    octets[at..at + 2].copy_from_slice(&length.to_be_bytes());
}

fn udp(r: &mut Random, port: u16) -> Vec<u8> {
    let size = r.pick(&[0, 1, 3, 40, 200, 1_460]);
    let port = if r.one_in(4) { r.draw() as u16 } else { port };
    let mut out = udp_packet(port, &r.octets(size));
    nudge(r, &mut out, 4);
    out
}

fn ipv4(r: &mut Random, protocol: u8, carried: &[u8]) -> Vec<u8> {
    let place = if r.one_in(8) {
        r.pick(&[0x2000, 0x0001, 0x1F00, 0x20B9, 0x3FFF])
    } else {
        r.pick(&[0, 0x4000, 0x8000])
    };
    let options = 4 * r.pick(&[0, 0, 0, 1, 10]);
    let mut out = ipv4_packet(place, protocol, &vec![1; options], carried);
    nudge(r, &mut out, 2);
    out
}

/// Up to four extension headers in any order.
fn ipv6(r: &mut Random, protocol: u8, mut carried: Vec<u8>) -> Vec<u8> {
    let mut next = protocol;
    for _ in 0..r.pick(&[0, 0, 0, 1, 2, 4]) {
        let header = r.pick(&[0, 43, 60, 44]);
        carried = if header == 44 {
            let place = r.pick(&[0, 0, 0, 6, 1, 8, 0x0100, 0x05C9, 0xFFF8]);
            let mut out = fragment(next, place, &carried);
            // Reserved, where the others have their length.
            out[1] = r.pick(&[0, 0, 1]);
            out
        } else {
            let units = r.pick(&[0, 0, 1, 2, 255]);
            extension(next, units, r.octet(), &carried)
        };
        next = header;
    }
    let mut out = ipv6_packet(next, &carried);
    nudge(r, &mut out, 4);
    out
}

/// Mostly UDP; of the others some are numbers of extension headers.
fn ip(r: &mut Random, port: u16, version: u8) -> Vec<u8> {
    let carried = udp(r, port);
    let protocol = if r.one_in(10) {
        r.pick(&[6, 58, 50, 51, 59, 135, 0, 43, 44, 60])
    } else {
        17
    };
    match version {
        4 => ipv4(r, protocol, &carried),
        _ => ipv6(r, protocol, carried),
    }
}

/// Up to three tags; what they tell looks like a number of a protocol at
/// times.
fn tags(r: &mut Random) -> Vec<[u16; 2]> {
    let count = r.pick(&[0, 0, 0, 1, 2, 3]);
    let mut tag = || [r.pick(&TAGS), r.pick(&[5, 0x0800, 0x8100])];
    (0..count).map(|_| tag()).collect()
}

/// A packet as captured on a link of this type; cut or damaged at times.
pub fn captured(r: &mut Random, port: u16, link: u32) -> Vec<u8> {
    let version = match link {
        228 if !r.one_in(20) => 4,
        229 if !r.one_in(20) => 6,
        _ => r.pick(&[4, 4, 6]),
    };
    let number = match version {
        _ if r.one_in(20) => r.pick(&[0x0800, 0x86DD, 0x0806, 0x8100, 46]),
        4 => 0x0800,
        _ => 0x86DD,
    };
    let carried = ip(r, port, version);
    let mut out = on_link(link, &tags(r), number, &carried);
    if r.one_in(4) {
        out.extend([0; 6]);
    }
    if r.one_in(8) {
        out.truncate(r.below(out.len()));
    }
    if r.one_in(12) && !out.is_empty() {
        let at = r.below(out.len());
        out[at] = r.octet();
    }
    out
}

fn link(r: &mut Random, trouble: usize) -> u32 {
    if r.one_in(trouble) {
        return r.pick(&[0, 105, 147, 65_535]);
    }
    r.pick(&LINKS)
}

fn pcap(r: &mut Random, port: u16, trouble: usize) -> Vec<u8> {
    let order = r.pick(&[Order::Big, Order::Little]);
    let magic = r.pick(&[0xA1B2_C3D4, 0xA1B2_3C4D]);
    let link = link(r, trouble);
    // The bits above the link type tell of an FCS: of four octets, of ten; or
    // are all set.
    let above = r.pick(&[0, 0, 0, 0, 0, 0x2400_0000, 0x5400_0000, 0xFFFF_0000]);
    let mut out = pcap_head(order, magic, above | link);
    for _ in 0..r.below(20) {
        pcap_record(order, &captured(r, port, link), &mut out);
    }
    out
}

fn pcapng(r: &mut Random, port: u16, trouble: usize) -> Vec<u8> {
    let mut out = Vec::new();
    for _ in 0..1 + r.below(3) {
        let order = r.pick(&[Order::Big, Order::Little]);
        section(order, &mut out);
        let mut links = Vec::new();
        let snap = r.pick(&[0, 0, 65_535, 60]);
        for _ in 0..r.below(25) {
            let at = out.len();
            match r.below(10) {
                0 => block(order, r.pick(&[4, 5, 0xBAD, 10]), &[3; 9], &mut out),
                1 | 2 => {
                    links.push(link(r, trouble));
                    interface(order, links[links.len() - 1], snap, &mut out);
                }
                3 if !links.is_empty() || r.one_in(trouble) => {
                    let mut packet = captured(r, port, *links.first().unwrap_or(&1));
                    let original = packet.len() as u32 + if r.one_in(trouble) { 9 } else { 0 };
                    if snap != 0 {
                        packet.truncate(snap as usize);
                    }
                    simple_block(order, original, &packet, &mut out);
                }
                _ if !links.is_empty() || r.one_in(trouble) => {
                    let beyond = usize::from(r.one_in(trouble));
                    let id = r.below(links.len() + beyond);
                    let packet = captured(r, port, *links.get(id).unwrap_or(&1));
                    packet_block(order, r.one_in(5), id as u32, &packet, &mut out);
                }
                _ => {}
            }
            if out.len() > at && r.one_in(5) {
                comment(order, at, &mut out);
            }
        }
    }
    out
}

/// A capture with datagrams to the port. Here and there link types are not
/// taken and interfaces not described, and the whole is cut or damaged, mostly
/// near its front; some captures have none of this.
pub fn capture(r: &mut Random, port: u16) -> Vec<u8> {
    let trouble = r.pick(&[4, 20, 100_000]);
    let mut out = match r.below(2) {
        0 => pcap(r, port, trouble),
        _ => pcapng(r, port, trouble),
    };
    if r.one_in(trouble) {
        out.truncate(r.below(out.len() + 1));
    }
    if r.one_in(trouble) && !out.is_empty() {
        let front = r.pick(&[12, 64, usize::MAX]);
        let at = r.below(out.len().min(front));
        let octet = r.octet();
        out[at] = r.pick(&[0, 1, 4, 0xFF, octet]);
    }
    out
}
