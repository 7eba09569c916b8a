//! What one captured packet holds for a UDP destination port, from RFC 768,
//! RFC 791, RFC 8200 and the tcpdump group's page of link types.
//!
//! A header that was not captured whole is a cut, whatever its first octets
//! say; what the headers say decides everything else.

use std::ops::Range;

/// What a captured packet holds for a port.
#[derive(Clone, Debug, PartialEq, Eq)]
pub enum Found {
    /// The octets of the payload, in the captured ones.
    Payload(Range<usize>),
    /// Another protocol, port or link type, or a malformed header.
    Passed,
    /// A part of a UDP datagram.
    Fragment,
    /// The captured octets end too early to tell, or within the payload.
    Cut,
}

const IPV4: u16 = 0x0800;
const IPV6: u16 = 0x86DD;
/// TPIDs: customer tag, service tag, and the older number of the latter.
const TAGS: [u16; 3] = [0x8100, 0x88A8, 0x9100];

const HOP_BY_HOP: u8 = 0;
const UDP: u8 = 17;
const ROUTING: u8 = 43;
const FRAGMENT: u8 = 44;
const DESTINATION_OPTIONS: u8 = 60;

/// The captured octets, and how many of them are read.
struct Reader<'a> {
    captured: &'a [u8],
    at: usize,
}

impl<'a> Reader<'a> {
    fn take(&mut self, count: usize) -> Result<&'a [u8], Found> {
        let octets = self.captured[self.at..].get(..count).ok_or(Found::Cut)?;
        self.at += count;
        Ok(octets)
    }

    fn number(&mut self) -> Result<u16, Found> {
        self.take(2).map(|octets| be16(octets, 0))
    }
}

fn be16(octets: &[u8], at: usize) -> u16 {
    u16::from_be_bytes([octets[at], octets[at + 1]])
}

/// Whether packets of a link type are looked into.
pub fn is_link_taken(link: u32) -> bool {
    matches!(link, 1 | 12 | 101 | 113 | 228 | 229 | 276)
}

/// What the captured packet of a link type holds for a port.
pub fn find(captured: &[u8], link: u32, port: u16) -> Found {
    let mut reader = Reader { captured, at: 0 };
    let range = network(&mut reader, link)
        .and_then(|protocol| match protocol {
            IPV4 => ipv4(&mut reader),
            IPV6 => ipv6(&mut reader),
            _ => Err(Found::Passed),
        })
        .and_then(|end| udp(&mut reader, end, port));
    range.map_or_else(|found| found, Found::Payload)
}

/// Reads the link's header: the EtherType of what follows.
fn network(reader: &mut Reader, link: u32) -> Result<u16, Found> {
    match link {
        1 => reader.take(12).and_then(|_| ether_type(reader)),
        113 => reader.take(14).and_then(|_| ether_type(reader)),
        276 => reader.take(20).map(|header| be16(header, 0)),
        228 => Ok(IPV4),
        229 => Ok(IPV6),
        12 | 101 => match reader.captured.first().map(|octet| octet >> 4) {
            Some(4) => Ok(IPV4),
            Some(6) => Ok(IPV6),
            Some(_) => Err(Found::Passed),
            None => Err(Found::Cut),
        },
        _ => Err(Found::Passed),
    }
}

/// Any tags, and the EtherType behind them.
fn ether_type(reader: &mut Reader) -> Result<u16, Found> {
    loop {
        let number = reader.number()?;
        if !TAGS.contains(&number) {
            return Ok(number);
        }
        reader.take(2)?;
    }
}

/// Reads the header: where the packet ends, by its Total Length.
fn ipv4(reader: &mut Reader) -> Result<usize, Found> {
    let start = reader.at;
    let header = reader.take(20)?;
    let (version, words) = (header[0] >> 4, usize::from(header[0] & 15));
    let total = usize::from(be16(header, 2));
    if version != 4 || words < 5 || total < 4 * words || header[9] != UDP {
        return Err(Found::Passed);
    }
    let (more, offset) = (header[6] & 0x20 != 0, be16(header, 6) & 0x1FFF);
    if more || offset != 0 {
        return Err(Found::Fragment);
    }
    reader.take(4 * words - 20)?;
    Ok(start + total)
}

fn is_extension(next: u8) -> bool {
    [HOP_BY_HOP, ROUTING, DESTINATION_OPTIONS, FRAGMENT].contains(&next)
}

/// Reads the headers up to UDP's: where the packet ends, by its Payload
/// Length.
fn ipv6(reader: &mut Reader) -> Result<usize, Found> {
    let header = reader.take(40)?;
    if header[0] >> 4 != 6 {
        return Err(Found::Passed);
    }
    let end = reader.at + usize::from(be16(header, 4));
    let mut next = header[6];
    while is_extension(next) {
        let start = reader.at;
        if start + 8 > end {
            return Err(Found::Passed);
        }
        let header = reader.take(8)?;
        let size = match next {
            FRAGMENT => 8,
            _ => 8 * (usize::from(header[1]) + 1),
        };
        let leads = header[0] == UDP || is_extension(header[0]);
        if start + size > end || !leads {
            return Err(Found::Passed);
        }
        let (offset, more) = (header[2] != 0 || header[3] >> 3 != 0, header[3] & 1 != 0);
        if next == FRAGMENT && (offset || more) {
            return Err(Found::Fragment);
        }
        reader.take(size - 8)?;
        next = header[0];
    }
    match next {
        UDP => Ok(end),
        _ => Err(Found::Passed),
    }
}

/// Reads the header: the payload's octets.
fn udp(reader: &mut Reader, end: usize, port: u16) -> Result<Range<usize>, Found> {
    let start = reader.at;
    if start + 8 > end {
        return Err(Found::Passed);
    }
    let header = reader.take(8)?;
    let (destination, length) = (be16(header, 2), usize::from(be16(header, 4)));
    if destination != port || length < 8 || start + length > end {
        return Err(Found::Passed);
    }
    reader.take(length - 8)?;
    Ok(start + 8..start + length)
}

#[cfg(test)]
mod tests {
    use super::*;
    use crate::random::{extension, fragment, ipv4_packet, ipv6_packet, on_link, udp_packet};

    const PORT: u16 = 20_000;

    /// Packets with the payload "ABC" for the port, and their link types.
    fn whole() -> Vec<(u32, Vec<u8>)> {
        let udp = udp_packet(PORT, b"ABC");
        let v4 = ipv4_packet(0x4000, UDP, &[], &udp);
        let v4_options = ipv4_packet(0, UDP, &[1; 40], &udp);
        let v6 = ipv6_packet(UDP, &udp);
        let options = extension(UDP, 2, 1, &udp);
        let routing = extension(DESTINATION_OPTIONS, 0, 1, &options);
        let chain = extension(ROUTING, 255, 1, &routing);
        let atomic = extension(FRAGMENT, 1, 1, &fragment(UDP, 0, &udp));
        let tags = TAGS.map(|tag| [tag, 100]);
        vec![
            (1, on_link(1, &[], IPV4, &v4)),
            (1, on_link(1, &tags, IPV4, &v4)),
            (1, on_link(1, &tags[..1], IPV6, &v6)),
            (1, on_link(1, &[], IPV4, &v4_options)),
            (113, on_link(113, &[], IPV4, &v4)),
            (113, on_link(113, &tags[1..], IPV6, &v6)),
            (276, on_link(276, &[], IPV6, &v6)),
            (101, v4.clone()),
            (12, v6.clone()),
            (228, v4),
            (229, v6),
            (229, ipv6_packet(HOP_BY_HOP, &chain)),
            (229, ipv6_packet(ROUTING, &routing)),
            (229, ipv6_packet(DESTINATION_OPTIONS, &atomic)),
        ]
    }

    #[test]
    fn found_cut_and_padded() {
        for (link, packet) in whole() {
            let size = packet.len();
            let found = Found::Payload(size - 3..size);
            assert_eq!(find(&packet, link, PORT), found, "{link} {packet:?}");
            assert_eq!(find(&packet, link, PORT + 1), Found::Passed);
            assert!(is_link_taken(link));
            assert_eq!(find(&packet, 105, PORT), Found::Passed);
            for cut in 0..size {
                assert_eq!(find(&packet[..cut], link, PORT), Found::Cut, "{link} {cut}");
            }
            let padded = [&packet[..], &[0; 9]].concat();
            assert_eq!(find(&padded, link, PORT), found);
        }
        assert!(!is_link_taken(105));
    }

    #[test]
    fn fragments() {
        let udp = udp_packet(PORT, b"ABC");
        for place in [0x2000, 0x0001, 0x1FFF, 0x6000] {
            let packet = ipv4_packet(place, UDP, &[], &udp);
            assert_eq!(find(&packet, 228, PORT), Found::Fragment);
            assert_eq!(find(&packet[..20], 228, 1), Found::Fragment);
            assert_eq!(
                find(&ipv4_packet(place, 6, &[], &udp), 228, PORT),
                Found::Passed
            );
        }
        for place in [0x0001, 0x0008, 0xFFF8] {
            let packet = ipv6_packet(FRAGMENT, &fragment(UDP, place, &udp));
            assert_eq!(find(&packet, 229, PORT), Found::Fragment);
            let options = ipv6_packet(FRAGMENT, &fragment(DESTINATION_OPTIONS, place, &udp));
            assert_eq!(find(&options, 229, PORT), Found::Fragment);
            let tcp = ipv6_packet(FRAGMENT, &fragment(6, place, &udp));
            assert_eq!(find(&tcp, 229, PORT), Found::Passed);
        }
        // The two bits between the offset and M are reserved.
        let reserved = ipv6_packet(FRAGMENT, &fragment(UDP, 0x0006, &udp));
        assert_eq!(find(&reserved, 229, PORT), Found::Payload(56..59));
    }

    #[test]
    fn malformed() {
        let udp = udp_packet(PORT, b"ABC");
        let good = ipv4_packet(0, UDP, &[], &udp);
        // Version, IHL, Total Length, UDP's length: at an octet, a value.
        for (at, value) in [
            (0, 0x55),
            (0, 0x44),
            (3, 19),
            (3, 27),
            (3, 30),
            (25, 7),
            (25, 12),
        ] {
            let mut packet = good.clone();
            packet[at] = value;
            assert_eq!(find(&packet, 228, PORT), Found::Passed, "{at} {value}");
        }
        let mut shorter = good.clone();
        shorter[25] = 8;
        assert_eq!(find(&shorter, 228, PORT), Found::Payload(28..28));
        let mut packet = ipv6_packet(HOP_BY_HOP, &extension(UDP, 0, 1, &udp));
        assert_eq!(find(&packet, 229, PORT), Found::Payload(56..59));
        for room in [0, 7, 8, 15, 18] {
            packet[5] = room;
            assert_eq!(find(&packet, 229, PORT), Found::Passed, "{room}");
        }
        assert_eq!(find(&good, 229, PORT), Found::Cut);
        assert_eq!(find(&[good, vec![0; 9]].concat(), 229, PORT), Found::Passed);
    }
}
