//! Round trips: demand 2 for packets, "reads back the same" for parameters
//! and files; of records apart from the index of their packet, which is read
//! as 0 (02, K13).

use reference::packet::{check, read, read_strict, write, Head};
use reference::random::*;
use reference::{file, sdp, Layout};

/// A head that the layout carries.
fn carried_head(r: &mut Random, layout: Layout) -> Head {
    let made = head(r);
    match layout {
        Layout::Rfc8331 => made,
        Layout::Draft2015 => Head { f: 0, ..made },
    }
}

#[test]
fn records_written_and_read() {
    let mut r = Random::new(11);
    for round in 0..12_000 {
        let layout = r.layout();
        let head = carried_head(&mut r, layout);
        let records = round % 20;
        let cells = match round % 100 {
            0 => list_of_cells(&mut r, 36_864),
            1 => (0..255).flat_map(|_| record(&mut r, 2)).collect(),
            _ => list(&mut r, records),
        };
        let cells = carried(layout, cells);
        let mut out = vec![0x5A; 65_535];
        let size = write(layout, &head, &cells, &mut out).unwrap();
        let mut back = vec![0; 36_864];
        let summary = read(layout, &out[..size], &mut back).unwrap();
        assert_eq!(summary.head(), head);
        let cells = indexed(&cells, 0);
        assert_eq!(back[..summary.cells], cells);
        assert_eq!(summary.records as usize, split_records(&cells).len());
        assert_eq!(summary.left_out, 0);
        back.fill(0);
        assert_eq!(read_strict(layout, &out[..size], &mut back), Ok(summary));
        assert_eq!(back[..summary.cells], cells);
    }
}

/// Every n, every word the least, the largest, alternating and random.
#[test]
fn every_count_of_words() {
    let mut r = Random::new(12);
    for (n, layout) in (0..256).flat_map(|n| Layout::ALL.map(|layout| (n, layout))) {
        for filling in [4, 0x3FB, 0x155, 0xFFFF] {
            let mut cells = carried(layout, record(&mut r, n));
            if filling != 0xFFFF {
                cells[9..].fill(filling);
            }
            let head = carried_head(&mut r, layout);
            let mut out = vec![0; 400];
            let size = write(layout, &head, &cells, &mut out).unwrap();
            assert_eq!(out[..size], Parts::of(layout, head, &cells).assemble());
            let mut back = vec![0; 300];
            let summary = read(layout, &out[..size], &mut back).unwrap();
            assert_eq!(summary.cells, cells.len());
            assert_eq!(back[..cells.len()], indexed(&cells, 0));
        }
    }
}

/// Rewriting an accepted packet whose list fits the writer gives the same
/// octets exactly when it had no padding, extension or contributing sources,
/// and zero reserved bits; the old layout has none of these bits. In the
/// tolerant way the same holds where no record was left out.
#[test]
fn rewriting() {
    for layout in Layout::ALL {
        rewriting_in(layout);
    }
}

fn rewriting_in(layout: Layout) {
    let mut r = Random::new(13);
    let (mut same, mut changed) = (0, 0);
    for _ in 0..12_000 {
        let mut made = parts(&mut r, layout);
        dress(&mut r, &mut made);
        let plain = made.padding.is_none()
            && made.extension.is_none()
            && made.sources.is_empty()
            && (made.reserved == 0 || layout == Layout::Draft2015);
        let octets = made.assemble();
        if octets.len() > 65_535 {
            continue;
        }
        let mut cells = vec![0; 60_000];
        let summary = read(layout, &octets, &mut cells).unwrap();
        assert_eq!(summary.left_out, 0);
        if summary.cells > 36_864 {
            continue;
        }
        let mut out = vec![0; 65_535];
        let size = write(layout, &summary.head(), &cells[..summary.cells], &mut out).unwrap();
        assert_eq!(out[..size] == octets, plain);
        if plain {
            same += 1
        } else {
            changed += 1
        }
    }
    assert!(same > 1_000 && changed > 1_000);
}

/// Length counts from another place in each layout, so no packet is accepted
/// in both.
#[test]
fn no_packet_of_both_layouts() {
    let mut r = Random::new(16);
    let mut accepted = 0;
    for _ in 0..10_000 {
        let octets = read_case(&mut r).octets;
        let [new, old] = Layout::ALL.map(|layout| check(layout, &octets).is_ok());
        assert!(!(new && old));
        accepted += (new || old) as usize;
    }
    assert!(accepted > 1_000);
}

#[test]
fn parameters_written_and_read() {
    let mut r = Random::new(14);
    for _ in 0..10_000 {
        let case = pairs_case(&mut r);
        let mut text = [0; 2_000];
        let Ok(size) = sdp::write(&case.pairs, case.vpid, &mut text) else {
            assert!(case.pairs.len() % 2 == 1 || case.pairs.len() > 128);
            continue;
        };
        let mut pairs = [0; 128];
        let read = sdp::read(&text[..size], &mut pairs).unwrap();
        assert_eq!(read.vpid, case.vpid);
        assert_eq!(pairs[..2 * read.pairs], case.pairs);
    }
}

#[test]
fn fields_written_and_read() {
    let mut r = Random::new(15);
    for round in 0..1_000 {
        let fields: Vec<(u32, u8, Vec<u16>)> = (0..r.below(6))
            .map(|_| {
                let records = r.below(12);
                let cells = match round % 50 {
                    0 => list_of_cells(&mut r, 36_864),
                    1 => (0..4_095).flat_map(|_| record(&mut r, 0)).collect(),
                    2 => (0..256).flat_map(|_| record(&mut r, 100)).collect(),
                    _ => list(&mut r, records),
                };
                (r.draw() as u32, r.pick(&[0, 2, 3]), cells)
            })
            .collect();
        let mut file = vec![0; 300_000];
        let mut end = file::begin(&mut file).unwrap();
        for (timestamp, f, cells) in &fields {
            end += file::write(*timestamp, *f, cells, &mut file[end..]).unwrap();
        }
        file.truncate(end);
        let mut at = 5;
        for (timestamp, f, cells) in &fields {
            let mut back = vec![0; 36_864];
            let field = file::read(&file, at, &mut back).unwrap();
            assert_eq!((field.timestamp, field.f), (*timestamp, *f));
            assert_eq!(field.records, split_records(cells).len());
            assert_eq!(back[..field.cells], indexed(cells, 0));
            at = field.next;
        }
        assert_eq!(file::read(&file, at, &mut []).unwrap_err().number, 54);
    }
}
