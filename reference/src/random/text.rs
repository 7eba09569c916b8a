//! SDP texts.

use super::*;

pub(super) fn hex_number(r: &mut Random) -> String {
    let x = r.octet();
    match r.below(4) {
        0 => format!("0x{x:X}"),
        1 => format!("0x{x:02X}"),
        2 => format!("0x{x:x}"),
        _ => format!("0x{x:02x}"),
    }
}

pub(super) fn pair_item(r: &mut Random) -> String {
    format!("DID_SDID={{{},{}}}", hex_number(r), hex_number(r))
}

pub(super) fn vpid_item(r: &mut Random) -> String {
    let code = r.octet();
    match r.below(3) {
        0 => format!("VPID_Code={code:03}"),
        _ => format!("VPID_Code={code}"),
    }
}

pub(super) fn other_item(r: &mut Random) -> String {
    let name = r.pick(&[
        "width",
        "DID-SDID",
        "did_sdid",
        "VPID_Cod",
        "x",
        "a_-9",
        "VPID_Code2",
    ]);
    let value = r.pick(&[
        "1",
        "{0x61,0x02}",
        "a=b",
        "=",
        "\t",
        "0x",
        "{",
        "\u{e9}",
        "256",
    ]);
    format!("{name}={value}")
}

/// Text whose items are all well-formed, at most 64 pairs and one VPID_Code.
pub fn valid_text(r: &mut Random) -> String {
    let items = match r.below(16) {
        0 => 0,
        1 => 64,
        _ => r.below(8),
    };
    let mut vpid = r.one_in(2);
    let mut text = Vec::new();
    for _ in 0..items {
        text.push(match r.below(8) {
            0 if vpid => {
                vpid = false;
                vpid_item(r)
            }
            1 => other_item(r),
            _ => pair_item(r),
        });
    }
    join_items(r, &text)
}

pub(super) fn join_items(r: &mut Random, items: &[String]) -> String {
    let mut text = String::new();
    for (index, item) in items.iter().enumerate() {
        if index > 0 {
            text.push(';');
            text.push_str(r.pick(&["", "", " ", "   "]));
        }
        text.push_str(item);
    }
    text
}

const WRONG_ITEMS: [&str; 28] = [
    "",
    " ",
    "DID_SDID",
    "DID_SDID=",
    "DID_SDID={}",
    "DID_SDID={0x61}",
    "DID_SDID={0x61,0x02",
    "DID_SDID={0x61,0x02}}",
    "DID_SDID={0x61, 0x02}",
    "DID_SDID={0x,0x02}",
    "DID_SDID={0x161,0x02}",
    "DID_SDID={0X61,0x02}",
    "DID_SDID={61,02}",
    "DID_SDID={0x6g,0x02}",
    "DID_SDID={0x61,0x02} ",
    "DID_SDID ={0x61,0x02}",
    "VPID_Code",
    "VPID_Code=",
    "VPID_Code=256",
    "VPID_Code=0001",
    "VPID_Code=1a",
    "VPID_Code=-1",
    "VPID_Code=1 ",
    "=x",
    "a=",
    "a b=c",
    "a=b c",
    "a.b=c",
];

/// Text with faults: malformed items, second VPID_Codes, too many pairs,
/// too many octets, changed octets.
pub fn damaged_text(r: &mut Random) -> Vec<u8> {
    let mut items: Vec<String> = match r.below(10) {
        0 => (0..62 + r.below(12))
            .map(|_| pair_or_other_item(r))
            .collect(),
        _ => (0..r.below(8)).map(|_| any_item(r)).collect(),
    };
    for _ in 0..r.pick(&[0, 0, 1, 1, 2]) {
        let place = r.below(items.len() + 1);
        let item = r.pick(&WRONG_ITEMS).to_string();
        items.insert(place, item);
    }
    let mut text = join_items(r, &items).into_bytes();
    match r.below(8) {
        0 if !text.is_empty() => {
            let at = r.below(text.len());
            text[at] = r.pick(b"; =,{}0xg\0\xFF_-zA9");
        }
        1 => text.push(b';'),
        2 => text.insert(0, b' '),
        3 => text.truncate(r.below(text.len())),
        4 if r.one_in(2) => lengthen(r, &mut text),
        _ => {}
    }
    text
}

pub(super) fn any_item(r: &mut Random) -> String {
    match r.below(8) {
        0 => vpid_item(r),
        _ => pair_or_other_item(r),
    }
}

pub(super) fn pair_or_other_item(r: &mut Random) -> String {
    match r.below(16) {
        0 => other_item(r),
        _ => pair_item(r),
    }
}

/// To about 4,096 octets: at, under or over it.
pub(super) fn lengthen(r: &mut Random, text: &mut Vec<u8>) {
    if !text.is_empty() {
        text.extend(b"; ");
    }
    text.extend(b"x=");
    text.resize(4_094 + r.below(5), b'y');
}

/// An input of the SDP reader.
#[derive(Clone, Debug)]
pub struct TextCase {
    pub text: Vec<u8>,
    /// Octets lent.
    pub room: usize,
}

pub fn text_case(r: &mut Random) -> TextCase {
    let text = match r.below(3) {
        0 => valid_text(r).into_bytes(),
        _ => damaged_text(r),
    };
    let mut pairs = [0; 128];
    let need = crate::sdp::read(&text, &mut pairs).map_or(8, |read| 2 * read.pairs);
    let room = r.room(need);
    TextCase { text, room }
}

/// An input of the SDP writer.
#[derive(Clone, Debug)]
pub struct PairsCase {
    pub pairs: Vec<u8>,
    pub vpid: Option<u8>,
    /// Octets lent.
    pub room: usize,
}

pub fn pairs_case(r: &mut Random) -> PairsCase {
    let count = match r.below(8) {
        0 => r.below(160),
        1 => r.pick(&[126, 127, 128, 129, 130, 131]),
        2 => r.below(10),
        _ => 2 * r.below(8),
    };
    let pairs = r.octets(count);
    let vpid = r.one_in(2).then(|| r.pick(&[0, 7, 10, 99, 100, 132, 255]));
    let text = 21 * (count / 2) + vpid.map_or(0, |_| 13);
    let room = r.room(text);
    PairsCase { pairs, vpid, room }
}
