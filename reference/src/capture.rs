//! Captures of packets: classic pcap and pcapng, from the drafts of the IETF's
//! opsawg group, and the program `pcapframes`: the UDP datagrams to one port as
//! frames of RFC 4571.
//!
//! A capture is read from its first octet on. What is read before a refusal
//! stands; nothing behind it is looked at.

use crate::datagram::{find, is_link_taken, Found};

/// No record or block is longer: a packet of 262,144 octets and some more.
pub const LONGEST: usize = 262_144 + 4_096;
/// Interfaces that a section may describe.
pub const INTERFACES: usize = 64;

const NOT_A_CAPTURE: u8 = 80;
const CUT: u8 = 81;
const LENGTHS_DISAGREE: u8 = 82;
const LINK_NOT_TAKEN: u8 = 83;
const TOO_LONG: u8 = 84;
const TOO_MANY_INTERFACES: u8 = 85;

/// What `pcapframes` writes, and what it tells at the end.
#[derive(Clone, Debug, Default, PartialEq, Eq)]
pub struct Outcome {
    pub frames: Vec<u8>,
    pub packets: u64,
    pub fragments: u64,
    pub cut: u64,
    /// The refusal's number; its index is the number of packets.
    pub refused: Option<u8>,
}

impl Outcome {
    /// The lines on standard error.
    pub fn told(&self) -> String {
        let mut text = String::new();
        if self.fragments + self.cut > 0 {
            text += &format!("fragments={} cut={}\n", self.fragments, self.cut);
        }
        if let Some(number) = self.refused {
            text += &format!("refused {number} {}\n", self.packets);
        }
        text
    }

    fn packet(&mut self, port: u16, link: u32, captured: &[u8]) -> Result<(), u8> {
        if !is_link_taken(link) {
            return Err(LINK_NOT_TAKEN);
        }
        self.packets += 1;
        match find(captured, link, port) {
            Found::Payload(range) => {
                let payload = &captured[range];
                let length = u16::try_from(payload.len()).expect("a UDP length has 16 bits");
                self.frames.extend(length.to_be_bytes());
                self.frames.extend(payload);
            }
            Found::Passed => {}
            Found::Fragment => self.fragments += 1,
            Found::Cut => self.cut += 1,
        }
        Ok(())
    }
}

/// The order of a number's octets.
#[derive(Clone, Copy, Debug, PartialEq, Eq)]
pub enum Order {
    Big,
    Little,
}

impl Order {
    pub fn u16(self, octets: &[u8]) -> u16 {
        let octets = [octets[0], octets[1]];
        match self {
            Order::Big => u16::from_be_bytes(octets),
            Order::Little => u16::from_le_bytes(octets),
        }
    }

    pub fn u32(self, octets: &[u8]) -> u32 {
        let octets = [octets[0], octets[1], octets[2], octets[3]];
        match self {
            Order::Big => u32::from_be_bytes(octets),
            Order::Little => u32::from_le_bytes(octets),
        }
    }

    /// The order in which the octets are one of these numbers.
    fn of(octets: &[u8], magic: &[u32]) -> Option<Order> {
        [Order::Big, Order::Little]
            .into_iter()
            .find(|order| magic.contains(&order.u32(octets)))
    }
}

/// The program's whole output for a capture.
pub fn pcapframes(port: u16, capture: &[u8]) -> Outcome {
    let mut outcome = Outcome::default();
    let read = match capture.first_chunk::<4>() {
        None => Err(CUT),
        Some([0x0A, 0x0D, 0x0D, 0x0A]) => blocks(port, capture, &mut outcome),
        Some(magic) => match Order::of(magic, &[0xA1B2_C3D4, 0xA1B2_3C4D]) {
            None => Err(NOT_A_CAPTURE),
            Some(order) => records(port, order, capture, &mut outcome),
        },
    };
    outcome.refused = read.err();
    outcome
}

/// pcap: a file header of 24 octets, then packet records.
fn records(port: u16, order: Order, capture: &[u8], outcome: &mut Outcome) -> Result<(), u8> {
    let (header, mut rest) = capture.split_at_checked(24).ok_or(CUT)?;
    // FCS length and reserved bits stand above the link type.
    let link = order.u32(&header[20..]) & 0xFFFF;
    while !rest.is_empty() {
        let header = rest.get(..16).ok_or(CUT)?;
        let size = order.u32(&header[8..]) as usize;
        if 16 + size > LONGEST {
            return Err(TOO_LONG);
        }
        let captured = rest[16..].get(..size).ok_or(CUT)?;
        outcome.packet(port, link, captured)?;
        rest = &rest[16 + size..];
    }
    Ok(())
}

/// An Interface Description Block.
#[derive(Clone, Copy)]
struct Interface {
    link: u32,
    snap: usize,
}

/// pcapng: blocks, of which each Section Header Block begins a section.
fn blocks(port: u16, capture: &[u8], outcome: &mut Outcome) -> Result<(), u8> {
    let mut rest = capture;
    let mut order = Order::Big;
    let mut interfaces: Vec<Interface> = Vec::new();
    while !rest.is_empty() {
        let front = rest.get(..12).ok_or(CUT)?;
        // The type of a section's head reads the same in both orders.
        let head = front[..4] == [0x0A, 0x0D, 0x0D, 0x0A];
        if head {
            order = Order::of(&front[8..], &[0x1A2B_3C4D]).ok_or(LENGTHS_DISAGREE)?;
            interfaces.clear();
        }
        let kind = order.u32(front);
        let length = order.u32(&front[4..]) as usize;
        let least = match kind {
            _ if head => 28,
            1 => 20,
            2 | 6 => 32,
            3 => 16,
            _ => 12,
        };
        if length < least || !length.is_multiple_of(4) {
            return Err(LENGTHS_DISAGREE);
        }
        if length > LONGEST {
            return Err(TOO_LONG);
        }
        let block = rest.get(..length).ok_or(CUT)?;
        if order.u32(&block[length - 4..]) as usize != length {
            return Err(LENGTHS_DISAGREE);
        }
        let body = &block[8..length - 4];
        match kind {
            1 if interfaces.len() == INTERFACES => return Err(TOO_MANY_INTERFACES),
            1 => interfaces.push(Interface {
                link: u32::from(order.u16(body)),
                snap: order.u32(&body[4..]) as usize,
            }),
            3 => {
                let original = order.u32(body) as usize;
                let size = match interfaces.first().map(|first| first.snap) {
                    None | Some(0) => original,
                    Some(snap) => original.min(snap),
                };
                let captured = body[4..].get(..size).ok_or(LENGTHS_DISAGREE)?;
                let first = interfaces.first().ok_or(LINK_NOT_TAKEN)?;
                outcome.packet(port, first.link, captured)?;
            }
            2 | 6 => {
                let id = match kind {
                    2 => usize::from(order.u16(body)),
                    _ => order.u32(body) as usize,
                };
                let size = order.u32(&body[12..]) as usize;
                let captured = body[20..].get(..size).ok_or(LENGTHS_DISAGREE)?;
                let interface = interfaces.get(id).ok_or(LINK_NOT_TAKEN)?;
                outcome.packet(port, interface.link, captured)?;
            }
            _ => {}
        }
        rest = &rest[length..];
    }
    Ok(())
}
