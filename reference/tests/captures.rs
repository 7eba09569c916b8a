//! The random captures reach every refusal number but 85, and their packets
//! every finding on every link type, behind each header that may stand before
//! UDP's.

use std::collections::BTreeMap;

use reference::capture::pcapframes;
use reference::datagram::{find, Found};
use reference::random::{capture, captured, Random, LINKS};

const PORT: u16 = 20_000;

fn name(found: &Found) -> &'static str {
    match found {
        Found::Payload(_) => "payload",
        Found::Passed => "passed",
        Found::Fragment => "fragment",
        Found::Cut => "cut",
    }
}

#[test]
fn every_number_is_reached() {
    let mut r = Random::new(2_911);
    let mut refused = BTreeMap::new();
    for _ in 0..8_000 {
        let outcome = pcapframes(PORT, &capture(&mut r, PORT));
        *refused.entry(outcome.refused).or_insert(0) += 1;
    }
    let numbers: Vec<Option<u8>> = refused.keys().copied().collect();
    let expected = [None, Some(80), Some(81), Some(82), Some(83), Some(84)];
    assert_eq!(numbers, expected);
    assert!(refused.values().all(|times| *times > 20), "{refused:?}");
}

#[test]
fn every_finding_on_every_link() {
    let mut r = Random::new(2_912);
    for link in LINKS {
        let mut times = BTreeMap::new();
        for _ in 0..2_000 {
            let packet = captured(&mut r, PORT, link);
            *times.entry(name(&find(&packet, link, PORT))).or_insert(0) += 1;
        }
        let names: Vec<&str> = times.keys().copied().collect();
        assert_eq!(names, ["cut", "fragment", "passed", "payload"], "{link}");
        assert!(times.values().all(|times| *times > 50), "{link} {times:?}");
    }
}

/// The numbers in the link's header up to the first that is no tag's.
fn tags(packet: &[u8]) -> Vec<u16> {
    let numbers = packet[12..].chunks_exact(4);
    numbers
        .map(|tag| u16::from_be_bytes([tag[0], tag[1]]))
        .take_while(|number| ![0x0800, 0x86DD].contains(number))
        .collect()
}

#[test]
fn payloads_behind_every_tag() {
    let mut r = Random::new(2_913);
    let mut times = BTreeMap::new();
    for _ in 0..5_000 {
        let packet = captured(&mut r, PORT, 1);
        if let Found::Payload(_) = find(&packet, 1, PORT) {
            *times.entry(tags(&packet)).or_insert(0) += 1;
        }
    }
    // None, and every row of one, two and three of three.
    assert_eq!(times.len(), 1 + 3 + 9 + 27);
}

/// The extension headers of an IPv6 packet.
fn headers(packet: &[u8]) -> Vec<u8> {
    let (mut next, mut at) = (packet[6], 40);
    let mut all = Vec::new();
    while next != 17 {
        all.push(next);
        let units = if next == 44 { 0 } else { packet[at + 1] };
        next = packet[at];
        at += 8 * (usize::from(units) + 1);
    }
    all
}

#[test]
fn payloads_behind_every_extension_header() {
    let mut r = Random::new(2_914);
    let mut times = BTreeMap::new();
    for _ in 0..20_000 {
        let packet = captured(&mut r, PORT, 229);
        if let Found::Payload(_) = find(&packet, 229, PORT) {
            *times.entry(headers(&packet)).or_insert(0) += 1;
        }
    }
    let of = |count| times.keys().filter(|all| all.len() == count).count();
    assert_eq!([of(0), of(1), of(2), of(3)], [1, 4, 16, 0]);
    assert!(of(4) > 150, "{}", of(4));
}
