//! SDP format parameters: reader, writer and the filter.

use crate::refusal::Refusal;

pub const MAX_TEXT: usize = 4_096;
pub const MAX_PAIRS: usize = 64;
const PAIR_NAME: &[u8] = b"DID_SDID";
const VPID_NAME: &[u8] = b"VPID_Code";
const HEX: &[u8; 16] = b"0123456789abcdef";

/// The reader's answer: how many pairs were put into the lent octets, and
/// the VPID_Code or none.
#[derive(Clone, Copy, Debug, PartialEq, Eq)]
pub struct Parameters {
    pub pairs: usize,
    pub vpid: Option<u8>,
}

/// One well-formed item.
#[derive(Clone, Copy, Debug, PartialEq, Eq)]
enum Item {
    Pair([u8; 2]),
    Vpid(u8),
    Other,
}

/// Reads a text; the pairs go into lent octets, DID then SDID.
/// 40; items left to right, the first that offends (41, then 42 and 43);
/// 44.
pub fn read(text: &[u8], room: &mut [u8]) -> Result<Parameters, Refusal> {
    if text.len() > MAX_TEXT {
        return Err(Refusal::plain(40));
    }
    let mut pairs = [0; 2 * MAX_PAIRS];
    let parameters = read_items(text, &mut pairs)?;
    let used = 2 * parameters.pairs;
    let Some(room) = room.get_mut(..used) else {
        return Err(Refusal::plain(44));
    };
    room.copy_from_slice(&pairs[..used]);
    Ok(parameters)
}

fn read_items(text: &[u8], into: &mut [u8; 2 * MAX_PAIRS]) -> Result<Parameters, Refusal> {
    let (mut pairs, mut vpid) = (0, None);
    for (index, item) in items(text).enumerate() {
        match read_item(item) {
            None => return Err(Refusal::at(41, index)),
            Some(Item::Vpid(_)) if vpid.is_some() => return Err(Refusal::at(42, index)),
            Some(Item::Pair(_)) if pairs == MAX_PAIRS => return Err(Refusal::at(43, index)),
            Some(Item::Vpid(code)) => vpid = Some(code),
            Some(Item::Pair(pair)) => {
                into[2 * pairs..2 * pairs + 2].copy_from_slice(&pair);
                pairs += 1;
            }
            Some(Item::Other) => {}
        }
    }
    Ok(Parameters { pairs, vpid })
}

/// Items are separated by `;` and any spaces after it; empty text has none.
fn items(text: &[u8]) -> impl Iterator<Item = &[u8]> {
    let count = if text.is_empty() { 0 } else { usize::MAX };
    text.split(|&octet| octet == b';')
        .enumerate()
        .map(|(index, item)| if index == 0 { item } else { skip_spaces(item) })
        .take(count)
}

fn skip_spaces(mut item: &[u8]) -> &[u8] {
    while let Some((b' ', rest)) = item.split_first() {
        item = rest;
    }
    item
}

/// A name, `=` and a value; a known name with a wrong value is malformed.
fn read_item(item: &[u8]) -> Option<Item> {
    let equals = item.iter().position(|&octet| octet == b'=')?;
    let (name, value) = (&item[..equals], &item[equals + 1..]);
    match name {
        PAIR_NAME => read_pair(value).map(Item::Pair),
        VPID_NAME => read_vpid(value).map(Item::Vpid),
        _ => is_other(name, value).then_some(Item::Other),
    }
}

fn is_other(name: &[u8], value: &[u8]) -> bool {
    let in_name = |octet: &u8| octet.is_ascii_alphanumeric() || matches!(octet, b'_' | b'-');
    !name.is_empty() && name.iter().all(in_name) && !value.is_empty() && !value.contains(&b' ')
}

/// `{0xH,0xH}`, H one or two hex digits of either case.
fn read_pair(value: &[u8]) -> Option<[u8; 2]> {
    let inner = value.strip_prefix(b"{")?.strip_suffix(b"}")?;
    let comma = inner.iter().position(|&octet| octet == b',')?;
    Some([read_hex(&inner[..comma])?, read_hex(&inner[comma + 1..])?])
}

fn read_hex(number: &[u8]) -> Option<u8> {
    let digit = |octet: u8| (octet as char).to_digit(16).map(|digit| digit as u8);
    match *number.strip_prefix(b"0x")? {
        [low] => digit(low),
        [high, low] => Some(digit(high)? << 4 | digit(low)?),
        _ => None,
    }
}

/// One to three digits, at most 255.
fn read_vpid(value: &[u8]) -> Option<u8> {
    if !(1..=3).contains(&value.len()) || !value.iter().all(u8::is_ascii_digit) {
        return None;
    }
    let code = value
        .iter()
        .fold(0, |code: u16, octet| code * 10 + (octet & 0x0F) as u16);
    u8::try_from(code).ok()
}

/// Octets of `DID_SDID={0x61,0x02}`.
const PAIR_TEXT: usize = 20;

/// Writes pairs (DID then SDID) in order, then the VPID_Code, and returns
/// the size of the text: 41 (an odd octet), 43, 44, all with index 0.
pub fn write(pairs: &[u8], vpid: Option<u8>, out: &mut [u8]) -> Result<usize, Refusal> {
    let (pairs, odd) = pairs.as_chunks::<2>();
    if !odd.is_empty() {
        return Err(Refusal::plain(41));
    }
    if pairs.len() > MAX_PAIRS {
        return Err(Refusal::plain(43));
    }
    let mut text = [0; (PAIR_TEXT + 1) * MAX_PAIRS + 13];
    let mut used = 0;
    for &pair in pairs {
        used = put_separator(&mut text, used);
        used = put(&mut text, used, &pair_text(pair));
    }
    if let Some(code) = vpid {
        used = put_separator(&mut text, used);
        used = put(&mut text, used, b"VPID_Code=");
        used = put(&mut text, used, decimal(code, &mut [0; 3]));
    }
    let Some(out) = out.get_mut(..used) else {
        return Err(Refusal::plain(44));
    };
    out.copy_from_slice(&text[..used]);
    Ok(used)
}

fn put(text: &mut [u8], at: usize, what: &[u8]) -> usize {
    text[at..at + what.len()].copy_from_slice(what);
    at + what.len()
}

/// A `;` before every item but the first.
fn put_separator(text: &mut [u8], at: usize) -> usize {
    match at {
        0 => 0,
        _ => put(text, at, b";"),
    }
}

fn pair_text(pair: [u8; 2]) -> [u8; PAIR_TEXT] {
    let [[a, b], [c, d]] = pair.map(|x| [HEX[(x >> 4) as usize], HEX[(x & 15) as usize]]);
    let mut text = *b"DID_SDID={0x..,0x..}";
    text[12..14].copy_from_slice(&[a, b]);
    text[17..19].copy_from_slice(&[c, d]);
    text
}

/// Without leading zeros.
fn decimal(code: u8, digits: &mut [u8; 3]) -> &[u8] {
    *digits = [code / 100, code / 10 % 10, code % 10].map(|digit| b'0' + digit);
    match code {
        100.. => &digits[..],
        10.. => &digits[1..],
        _ => &digits[2..],
    }
}

/// An entry of the row of wanted pairs.
#[derive(Clone, Copy, Debug, PartialEq, Eq)]
pub struct Pair {
    pub did: u8,
    pub sdid: u8,
}

/// From here on a DID is of Type 1: what stands beside it is a data block
/// number.
pub const TYPE_1: u8 = 0x80;

impl Pair {
    /// Both numbers match; of a Type 1 record the DID alone.
    fn admits(self, did: u8, sdid: u8) -> bool {
        match did {
            TYPE_1.. => self.did == did,
            _ => self == Pair { did, sdid },
        }
    }
}

/// A record is wanted if the row is empty or it matches an entry.
pub fn wanted(row: &[Pair], did: u8, sdid: u8) -> bool {
    row.is_empty() || row.iter().any(|entry| entry.admits(did, sdid))
}

/// The same over plain octets, DID then SDID, as the reader puts them; a
/// last octet without an SDID is no entry.
pub fn wanted_octets(row: &[u8], did: u8, sdid: u8) -> bool {
    let (entries, _) = row.as_chunks::<2>();
    let row: Vec<Pair> = entries
        .iter()
        .map(|&[did, sdid]| Pair { did, sdid })
        .collect();
    wanted(&row, did, sdid)
}
