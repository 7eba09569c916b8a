//! The cases that 01 says are run only: through both sides and in both
//! layouts, and as the text of the reference's program `runs`, which is in
//! RFC 8331's.

use differential::call::{compare, Call, Lengths, Memory};
use differential::model::{number_of, row_of};
use differential::{Archive, Head, Side, ANSWER, RFC8331, STATE};
use reference::depacketizer::{open, State, READY};
use reference::packet::{self, Summary};
use reference::random::{Parts, Random};
use reference::runs::{cells, changed, records, reference_text, Sides, A, A_OCTETS, HEAD};
use reference::{Layout, Refusal};

/// The drafts' layout carries no F.
fn head(layout: Layout) -> packet::Head {
    let f = match layout {
        Layout::Rfc8331 => HEAD.f,
        Layout::Draft2015 => 0,
    };
    packet::Head { f, ..HEAD }
}

fn boundary_head(head: &packet::Head) -> Head {
    Head {
        source: head.source,
        payload_type: head.payload_type,
        marker: head.marker as u8,
        number: head.number,
        timestamp: head.timestamp,
        f: head.f,
    }
}

fn settle<T>(number: u8, answer: &[u64], value: impl Fn() -> T) -> Result<T, Refusal> {
    match number {
        0 => Ok(value()),
        _ => Err(Refusal::at(number, answer[0] as usize)),
    }
}

fn archive_read(octets: &[u8], cells: &mut [u16]) -> Result<Summary, Refusal> {
    let mut answer = [0; ANSWER];
    let number = Archive::read_strict(RFC8331, octets, cells, &mut answer);
    settle(number, &answer, || Summary {
        source: answer[0] as u32,
        payload_type: answer[1] as u8,
        marker: answer[2] == 1,
        number: answer[3] as u32,
        timestamp: answer[4] as u32,
        f: answer[5] as u8,
        records: answer[6] as u8,
        cells: answer[7] as usize,
        left_out: answer[8] as u8,
    })
}

fn archive_write(head: &packet::Head, cells: &[u16], out: &mut [u8]) -> Result<usize, Refusal> {
    let mut answer = [0; ANSWER];
    let number = Archive::write(RFC8331, &boundary_head(head), cells, out, &mut answer);
    settle(number, &answer, || answer[0] as usize)
}

#[test]
fn the_text_is_the_same() {
    let ours = Sides {
        read: archive_read,
        write: archive_write,
    }
    .text();
    assert_eq!(ours, reference_text());
    assert_eq!(ours.lines().count(), 5 + 8 * A_OCTETS);
    let begins = "records 255: written 3080 read 255 2295 20145\nrecords 256: refused 21 0\n";
    assert!(ours.starts_with(begins));
    assert!(ours.contains("\ncells 36865: refused 21 0\npadding 0: refused 4 0\n"));
}

fn lent(cells: usize, octets: usize, r: &mut Random) -> Memory {
    let lengths = Lengths {
        answer: ANSWER,
        state: STATE,
        cells,
        octets,
    };
    Memory::new(lengths, r)
}

/// Writes a list as a packet and reads it back.
fn packet_and_back(layout: Layout, list: &[u16], r: &mut Random) -> [u8; 2] {
    let head = boundary_head(&head(layout));
    let (layout, cells) = (number_of(layout), list.to_vec());
    let call = Call::Write {
        layout,
        head,
        cells,
    };
    let (written, after) = compare(&call, &lent(0, 60_000, r));
    let size = after.answer.get()[0] as usize;
    let octets = after.octets.get()[..size].to_vec();
    let (read, back) = compare(&Call::Read { layout, octets }, &lent(36_870, 0, r));
    assert!(read != 0 || back.cells.get()[..list.len()] == *list);
    [written, read]
}

/// The same as a field of a file.
fn field_and_back(list: &[u16], r: &mut Random) -> [u8; 2] {
    let (timestamp, f, cells) = (9, 3, list.to_vec());
    let call = Call::FileWrite {
        timestamp,
        f,
        cells,
    };
    let (written, after) = compare(&call, &lent(0, 60_000, r));
    let size = after.answer.get()[0] as usize;
    let file = [b"ANF\0\x02", &after.octets.get()[..size]].concat();
    let (read, back) = compare(&Call::FileRead { file, at: 5 }, &lent(36_870, 0, r));
    assert!(read != 0 || back.cells.get()[..list.len()] == *list);
    [written, read]
}

/// What is refused leaves an index of 0, so nothing is there to be read.
#[test]
fn the_limits_of_a_list() {
    let mut r = Random::new(401);
    for (list, in_packet, in_field) in [
        (records(255), true, true),
        (records(256), false, true),
        (records(4_095), false, true),
        (records(4_096), false, false),
        (cells(36_864), true, true),
        (cells(36_865), false, false),
    ] {
        for layout in Layout::ALL {
            let expected = if in_packet { [0, 0] } else { [21, 2] };
            assert_eq!(packet_and_back(layout, &list, &mut r), expected);
        }
        let expected = if in_field { [0, 0] } else { [21, 54] };
        assert_eq!(field_and_back(&list, &mut r), expected);
    }
}

/// A packet written by the reference.
fn written(layout: Layout, head: &packet::Head, list: &[u16]) -> Vec<u8> {
    let mut octets = vec![0; 60_000];
    let size = packet::write(layout, head, list, &mut octets).unwrap();
    octets.truncate(size);
    octets
}

/// A depacketizer that is ready for the packet of `HEAD`'s number, and a
/// store.
fn ready(store: usize, r: &mut Random) -> Memory {
    let state = State {
        phase: READY,
        heard: true,
        last: HEAD.number - 1,
        ..open(HEAD.source, HEAD.payload_type).unwrap()
    };
    let mut memory = lent(store, 0, r);
    memory.state.get_mut().copy_from_slice(&row_of(&state));
    memory
}

fn arrive(layout: Layout, octets: Vec<u8>, memory: &Memory) -> (u8, Memory) {
    let layout = number_of(layout);
    compare(&Call::Arrive { layout, octets }, memory)
}

/// Fields at and over the limits of cells and of the store, one packet each.
#[test]
fn the_limits_of_a_field() {
    let mut r = Random::new(402);
    for (list, store, kind) in [
        (records(255), 2_295, 4),
        (records(255), 2_294, 3),
        (cells(36_864), 36_864, 4),
        (cells(36_864), 36_863, 3),
    ] {
        for layout in Layout::ALL {
            let octets = written(layout, &head(layout), &list);
            let (number, after) = arrive(layout, octets, &ready(store, &mut r));
            assert_eq!((number, after.answer.get()[0]), (0, kind));
        }
    }
}

/// A field of 17 packets, 4,095 records and 4,096: whole, and overfull.
#[test]
fn the_records_of_a_field() {
    let mut r = Random::new(404);
    for (layout, last, kind) in Layout::ALL
        .into_iter()
        .flat_map(|layout| [(layout, 15, 4), (layout, 16, 3)])
    {
        let mut memory = ready(36_864, &mut r);
        for k in 0..17 {
            let (number, marker) = (HEAD.number + k, k == 16);
            let head = packet::Head {
                number,
                marker,
                ..head(layout)
            };
            let list = records(if marker { last } else { 255 });
            let (number, after) = arrive(layout, written(layout, &head, &list), &memory);
            let expected = if marker { kind } else { 1 };
            assert_eq!((number, after.answer.get()[0]), (0, expected));
            memory = after;
        }
    }
}

/// P set over a last octet of 0: that of record A's alignment in RFC 8331's
/// layout, and one that follows the records in either.
#[test]
fn padding_0() {
    let mut r = Random::new(403);
    let [rfc, old] = Layout::ALL;
    let followed = |layout| [written(layout, &head(layout), &A), vec![0]].concat();
    for (layout, octets) in [
        (rfc, written(rfc, &HEAD, &A)),
        (rfc, followed(rfc)),
        (old, followed(old)),
    ] {
        assert_eq!(octets.last(), Some(&0));
        let (layout, octets) = (number_of(layout), changed(&octets, 0, 0x20));
        let (number, after) = compare(&Call::Read { layout, octets }, &lent(40, 0, &mut r));
        assert_eq!((number, after.answer.get()[0]), (4, 0));
    }
}

/// Each bit of the whole packet, record A's among them, read and arrived.
/// C, line, offset, S and StreamNum are free: 32 bits, in the drafts 24. A
/// bit of the three header words is 10, an R bit 15, of the checksum 11, of
/// the alignment 12.
#[test]
fn each_bit_changed() {
    let mut r = Random::new(405);
    let state = row_of(&open(HEAD.source, HEAD.payload_type).unwrap());
    for (layout, expected) in [
        (Layout::Rfc8331, [32, 30, 0, 10, 24]),
        (Layout::Draft2015, [24, 30, 2, 10, 6]),
    ] {
        let packet = Parts::of(layout, HEAD, &A).assemble();
        let mut of_a = [0; 256];
        for bit in 0..8 * packet.len() {
            let octets = changed(&packet, bit / 8, 0x80 >> (bit % 8));
            let mut memory = lent(40, 0, &mut r);
            let told = number_of(layout);
            let tolerant = Call::Read {
                layout: told,
                octets: octets.clone(),
            };
            compare(&tolerant, &memory);
            let strict = Call::ReadStrict {
                layout: told,
                octets: octets.clone(),
            };
            let (number, _) = compare(&strict, &memory);
            if bit >= 8 * (12 + layout.payload_header()) {
                of_a[number as usize] += 1;
            }
            memory.state.get_mut().copy_from_slice(&state);
            arrive(layout, octets, &memory);
        }
        assert_eq!([0, 10, 15, 11, 12].map(|number| of_a[number]), expected);
    }
}
