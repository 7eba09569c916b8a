//! Number 22 cannot be given in either layout (02, K7), and stays reserved.

use reference::anc::Limits;
use reference::packet::{read, write, Head, MAX_PACKET};
use reference::Layout;

/// A record of n words takes 9 + n cells and never more than 12 + 1.5n octets,
/// in the old layout no more.
#[test]
fn octets_of_a_record() {
    for n in 0..256 {
        let [new, old] = Layout::ALL.map(|layout| layout.packet_octets(n));
        assert!(2 * new <= 24 + 3 * n);
        assert!(old <= new);
    }
}

/// So a list takes at most 1.5 octets a cell: 20 + 55,296 for all that 21 lets
/// pass.
#[test]
fn octets_of_a_list() {
    const MOST: usize = 20 + 3 * Limits::PACKET.cells / 2;
    const { assert!(MOST <= MAX_PACKET) };
    assert_eq!(MOST, 55_316);
}

/// For each n as many records as both limits allow, the last with the words
/// that are left: each is written, and read back.
#[test]
fn lists_at_the_limits() {
    let head = Head {
        source: 1,
        payload_type: 96,
        marker: true,
        number: 7,
        timestamp: 9,
        f: 0,
    };
    let mut out = vec![0; MAX_PACKET];
    let mut longest = 0;
    for (n, layout) in (0..256).flat_map(|n| Layout::ALL.map(|layout| (n, layout))) {
        let Limits { records, cells } = Limits::PACKET;
        let records = records.min(cells / (9 + n));
        let last = (n + cells - records * (9 + n)).min(255);
        let list = [record(n).repeat(records - 1), record(last)].concat();
        let size = write(layout, &head, &list, &mut out).unwrap();
        longest = longest.max(size);
        let mut back = vec![0; list.len()];
        read(layout, &out[..size], &mut back).unwrap();
        assert_eq!(back, list);
    }
    assert!((40_000..=55_316).contains(&longest), "{longest}");
}

fn record(n: usize) -> Vec<u16> {
    let mut cells = vec![0, 9, 0, 0, 0, 0x61, 0x02, n as u16, 0];
    cells.resize(9 + n, 0x155);
    cells
}
