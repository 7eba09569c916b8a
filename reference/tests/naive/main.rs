//! The rules once more, bit by bit and without any care for speed, compared
//! with the library on random inputs: answers, refusals and lent memory.

use reference::depacketizer::{arrive, Answer, State, FILLING, LOST, READY};
use reference::packet::{self, Head, Summary};
use reference::random::*;
use reference::{file, Layout, Refusal};

mod fielddiff;
mod outlet;
mod sdi;
mod sdp;
mod streamcheck;

type Refused<T> = Result<T, (u8, usize)>;

fn pair<T>(answer: Result<T, Refusal>) -> Refused<T> {
    answer.map_err(|refusal| (refusal.number, refusal.index))
}

/// `width` bits from bit `at`, most significant first.
fn bits(octets: &[u8], at: usize, width: usize) -> u64 {
    (at..at + width).fold(0, |value, bit| {
        value * 2 + (octets[bit / 8] as u64 >> (7 - bit % 8)) % 2
    })
}

fn well_formed(word: u64) -> bool {
    let ones: u64 = (0..9).map(|bit| word >> bit & 1).sum();
    ones.is_multiple_of(2) && (word >> 9 & 1) != (word >> 8 & 1)
}

/// Where the bits of an ANC packet stand: DID, the R bits (as many as the
/// layout has), the user data words; what its size is a multiple of.
fn places(layout: Layout) -> (usize, usize, usize, usize) {
    match layout {
        Layout::Rfc8331 => (32, 0, 32 + 30, 32),
        Layout::Draft2015 => (24, 2, 24 + 30 + 2, 8),
    }
}

/// What is done about a wrong checksum.
#[derive(Clone, Copy, PartialEq)]
enum Way {
    Strict,
    Tolerant,
}

/// The cells of `count` ANC packets, which came in a packet of index 0, the
/// octets they take, and how many were left out.
fn naive_run(
    layout: Layout,
    way: Way,
    octets: &[u8],
    count: usize,
) -> Refused<(Vec<u16>, usize, usize)> {
    let (did, r, words, multiple) = places(layout);
    let (mut cells, mut at, mut left_out) = (Vec::new(), 0, 0);
    for index in 0..count {
        let left = octets.len() - at;
        let size = |n: usize| (words + 10 * n + 10).div_ceil(multiple) * multiple / 8;
        if left < size(0) {
            return Err((9, index));
        }
        let word = |k: usize| match k {
            0..3 => bits(octets, 8 * at + did + 10 * k, 10),
            _ => bits(octets, 8 * at + words + 10 * (k - 3), 10),
        };
        if !(0..3).all(|k| well_formed(word(k))) {
            return Err((10, index));
        }
        let n = (word(2) % 256) as usize;
        let size = size(n);
        if left < size {
            return Err((9, index));
        }
        if bits(octets, 8 * at + did + 30, r) != 0 {
            return Err((15, index));
        }
        if (3..n + 3).any(|k| word(k) / 4 == 0 || word(k) / 4 == 255) {
            return Err((16, index));
        }
        let sum: u64 = (0..n + 3).map(|k| word(k) % 512).sum();
        let sum = sum % 512;
        let b8 = sum / 256;
        let wrong = word(n + 3) != sum + 512 * (1 - b8);
        if wrong && way == Way::Strict {
            return Err((11, index));
        }
        let used = words + 10 * n + 10;
        if bits(octets, 8 * at + used, 8 * size - used) != 0 {
            return Err((12, index));
        }
        if wrong {
            left_out += 1;
            at += size;
            continue;
        }
        // S and StreamNum stand before DID or nowhere.
        for (place, width) in [(0, 1), (1, 11), (12, 12), (24, 1), (25, 7)] {
            let width = if place < did { width } else { 0 };
            cells.push(bits(octets, 8 * at + place, width) as u16);
        }
        cells.extend((0..3).map(|k| (word(k) % 256) as u16));
        cells.push(0);
        cells.extend((3..n + 3).map(|k| word(k) as u16));
        at += size;
    }
    Ok((cells, at, left_out))
}

fn naive_check(layout: Layout, way: Way, o: &[u8]) -> Refused<(Summary, Vec<u16>)> {
    if o.len() > 65_535 {
        return Err((1, 0));
    }
    if o.len() < 12 {
        return Err((2, 0));
    }
    if bits(o, 0, 2) != 2 {
        return Err((3, 0));
    }
    let mut header = 12 + 4 * bits(o, 4, 4) as usize;
    if header > o.len() {
        return Err((2, 0));
    }
    if bits(o, 3, 1) == 1 {
        if header + 4 > o.len() {
            return Err((2, 0));
        }
        header += 4 + 4 * bits(o, 8 * header + 16, 16) as usize;
        if header > o.len() {
            return Err((2, 0));
        }
    }
    let mut payload = &o[header..];
    if bits(o, 2, 1) == 1 {
        let padding = o[o.len() - 1] as usize;
        if padding == 0 || padding > payload.len() {
            return Err((4, 0));
        }
        payload = &payload[..payload.len() - padding];
    }
    let header = if layout == Layout::Rfc8331 { 8 } else { 5 };
    if payload.len() < header {
        return Err((5, 0));
    }
    let f = bits(payload, 40, if header == 8 { 2 } else { 0 });
    if f == 1 {
        return Err((6, 0));
    }
    let length = bits(payload, 16, 16) as usize;
    if length != payload.len() - header {
        return Err((7, 0));
    }
    let count = bits(payload, 32, 8) as usize;
    if count == 0 && length != 0 {
        return Err((8, 0));
    }
    let (cells, used, left_out) = naive_run(layout, way, &payload[header..], count)?;
    if used != length {
        return Err((13, 0));
    }
    let summary = Summary {
        source: bits(o, 64, 32) as u32,
        payload_type: bits(o, 9, 7) as u8,
        marker: bits(o, 8, 1) == 1,
        number: (bits(payload, 0, 16) * 65_536 + bits(o, 16, 16)) as u32,
        timestamp: bits(o, 32, 32) as u32,
        f: f as u8,
        records: (count - left_out) as u8,
        cells: cells.len(),
        left_out: left_out as u8,
    };
    Ok((summary, cells))
}

/// The start of `lent` becomes `new`; the rest stays.
fn overwritten<T: Clone>(lent: &[T], at: usize, new: &[T]) -> Vec<T> {
    let mut after = lent.to_vec();
    after[at..at + new.len()].clone_from_slice(new);
    after
}

#[test]
fn packet_reader() {
    let mut r = Random::new(1);
    for _ in 0..20_000 {
        let case = read_case(&mut r);
        compare_reader(&case, Way::Tolerant, packet::read);
        compare_reader(&case, Way::Strict, packet::read_strict);
    }
}

type Reader = fn(Layout, &[u8], &mut [u16]) -> Result<Summary, Refusal>;

fn compare_reader(case: &ReadCase, way: Way, read: Reader) {
    let lent = vec![0x5A5A; case.room];
    let (expected, after) = match naive_check(case.layout, way, &case.octets) {
        Ok((_, cells)) if cells.len() > case.room => (Err((14, 0)), lent.clone()),
        Ok((summary, cells)) => (Ok(summary), overwritten(&lent, 0, &cells)),
        Err(refusal) => (Err(refusal), lent.clone()),
    };
    let mut cells = lent;
    let answer = read(case.layout, &case.octets, &mut cells);
    assert_eq!(pair(answer), expected);
    assert_eq!(cells, after);
}

/// Records of a list, or the index of the first malformed one.
fn naive_list(cells: &[u16]) -> Refused<Vec<&[u16]>> {
    let (mut records, mut at) = (Vec::new(), 0);
    while at < cells.len() {
        let refusal = (20, records.len());
        let head = cells.get(at..at + 9).ok_or(refusal)?;
        let limits = [1, 2047, 4095, 1, 127, 255, 255, 255, 4095];
        if (0..9).any(|k| head[k] > limits[k]) {
            return Err(refusal);
        }
        let end = at + 9 + head[7] as usize;
        let record = cells.get(at..end).ok_or(refusal)?;
        if record[9..].iter().any(|&word| word > 1023) {
            return Err(refusal);
        }
        records.push(record);
        at = end;
    }
    Ok(records)
}

/// Records of a list in writing: 20, 16.
fn naive_clear(cells: &[u16]) -> Refused<Vec<&[u16]>> {
    let records = naive_list(cells)?;
    for (index, record) in records.iter().enumerate() {
        if record[9..]
            .iter()
            .any(|word| [0, 255].contains(&(word / 4)))
        {
            return Err((16, index));
        }
    }
    Ok(records)
}

/// The same, and then 21.
fn naive_records(cells: &[u16], most: usize) -> Refused<Vec<&[u16]>> {
    let records = naive_clear(cells)?;
    if records.len() > most || cells.len() > 36_864 {
        return Err((21, 0));
    }
    Ok(records)
}

fn naive_write(layout: Layout, head: &Head, cells: &[u16]) -> Refused<Vec<u8>> {
    if head.payload_type > 127 || ![0, 2, 3].contains(&head.f) {
        return Err((24, 0));
    }
    let records = naive_records(cells, 255)?;
    let streams = records.iter().any(|record| record[3..5] != [0, 0]);
    if layout == Layout::Draft2015 && (head.f != 0 || streams) {
        return Err((25, 0));
    }
    let octets = Parts::of(layout, *head, cells).assemble();
    // The writer has no such test, and its answers are the same.
    if octets.len() > 65_535 {
        return Err((22, 0));
    }
    Ok(octets)
}

fn lent_octets(answer: Refused<Vec<u8>>, room: usize, small: u8) -> (Refused<usize>, Vec<u8>) {
    let lent = vec![0x5A; room];
    match answer {
        Ok(octets) if octets.len() > room => (Err((small, 0)), lent),
        Ok(octets) => (Ok(octets.len()), overwritten(&lent, 0, &octets)),
        Err(refusal) => (Err(refusal), lent),
    }
}

#[test]
fn packet_writer() {
    let mut r = Random::new(2);
    for _ in 0..20_000 {
        let case = write_case(&mut r);
        let written = naive_write(case.layout, &case.head, &case.cells);
        let (expected, after) = lent_octets(written, case.room, 23);
        let mut out = vec![0x5A; case.room];
        let answer = packet::write(case.layout, &case.head, &case.cells, &mut out);
        assert_eq!(pair(answer), expected);
        assert_eq!(out, after);
    }
}

#[test]
fn file_writer() {
    let mut r = Random::new(3);
    for _ in 0..20_000 {
        let case = field_case(&mut r);
        let written = match case.f {
            0 | 2 | 3 => naive_records(&case.cells, 4_095).map(|records| {
                let mut octets = case.timestamp.to_be_bytes().to_vec();
                let count = records.len();
                octets.extend([case.f, (count / 256) as u8, (count % 256) as u8]);
                let anc = records.into_iter().map(Anc::of);
                octets.extend(anc.flat_map(|anc| anc.octets(Layout::Rfc8331)));
                octets
            }),
            _ => Err((53, 0)),
        };
        let (expected, after) = lent_octets(written, case.room, 23);
        let mut out = vec![0x5A; case.room];
        let answer = file::write(case.timestamp, case.f, &case.cells, &mut out);
        assert_eq!(pair(answer), expected);
        assert_eq!(out, after);
    }
}

fn naive_field(file: &[u8], offset: usize) -> Refused<(file::Field, Vec<u16>)> {
    if file.len() < 3 || &file[..3] != b"ANF" {
        return Err((50, 0));
    }
    if file.len() < 5 || ![1, 2].contains(&bits(file, 24, 16)) {
        return Err((51, 0));
    }
    // The count's octets are as many as the version's number.
    let width = bits(file, 24, 16) as usize;
    if offset < 5 || offset > file.len() {
        return Err((55, 0));
    }
    let left = file.len() - offset;
    if left == 0 {
        return Err((54, 0));
    }
    if left < 5 + width {
        return Err((52, 0));
    }
    let at = &file[offset..];
    if ![0, 2, 3].contains(&at[4]) {
        return Err((53, 0));
    }
    let count = bits(at, 40, 8 * width) as usize;
    let packets = &at[5 + width..];
    let (cells, used, _) = naive_run(Layout::Rfc8331, Way::Strict, packets, count)?;
    if count > 4_095 || cells.len() > 36_864 {
        return Err((21, 0));
    }
    let field = file::Field {
        timestamp: bits(at, 0, 32) as u32,
        f: at[4],
        records: count,
        cells: cells.len(),
        next: offset + 5 + width + used,
    };
    Ok((field, cells))
}

#[test]
fn file_reader() {
    let mut r = Random::new(4);
    for _ in 0..10_000 {
        let case = file_case(&mut r);
        let lent = vec![0x5A5A; case.room];
        let (expected, after) = match naive_field(&case.file, case.offset) {
            Ok((_, cells)) if cells.len() > case.room => (Err((14, 0)), lent.clone()),
            Ok((field, cells)) => (Ok(field), overwritten(&lent, 0, &cells)),
            Err(refusal) => (Err(refusal), lent.clone()),
        };
        let mut cells = lent;
        assert_eq!(
            pair(file::read(&case.file, case.offset, &mut cells)),
            expected
        );
        assert_eq!(cells, after);
    }
}

fn naive_arrive(
    s: State,
    layout: Layout,
    octets: &[u8],
    store: &[u16],
) -> (State, Refused<Answer>, Vec<u16>) {
    let unchanged = store.to_vec();
    let (r, c) = (s.records, s.cells);
    let unsound = r > 4_095
        || c > 36_864
        || s.packets > 4_096
        || (s.phase == FILLING && s.packets == 0)
        || (s.phase != FILLING && s.packets != 0)
        || c > store.len()
        || (s.phase != FILLING && (r != 0 || c != 0))
        || (!s.heard && s.phase != LOST);
    if unsound {
        return (s, Err((35, 0)), unchanged);
    }
    let (p, cells) = match naive_check(layout, Way::Strict, octets) {
        Ok(accepted) => accepted,
        Err(refusal) => return (s, Err(refusal), unchanged),
    };
    if p.source != s.source {
        return (s, Err((30, 0)), unchanged);
    }
    if p.payload_type != s.payload_type {
        return (s, Err((31, 0)), unchanged);
    }
    // Steps ahead modulo 2^32, of which the last 99 are behind.
    let away = (p.number as i64 - s.last as i64).rem_euclid(1 << 32);
    let mut after = s;
    if s.heard && (away == 0 || away > (1 << 32) - 100) {
        after.late = s.late.saturating_add(1);
        return (after, Err((32, 0)), unchanged);
    }
    if s.heard && away >= 3_000 {
        if s.remembered == Some(p.number) {
            let opened = just_opened(s.source, s.payload_type);
            return naive_arrive(opened, layout, octets, store);
        }
        after.remembered = Some(((p.number as u64 + 1) % (1 << 32)) as u32);
        return (after, Err((36, 0)), unchanged);
    }
    after.remembered = None;
    after.heard = true;
    after.last = p.number;
    after.fresh = s.fresh.saturating_add(1);
    if s.heard {
        after.missing = s.missing.saturating_add(away as u64 - 1);
    }
    (after.timestamp, after.f) = (0, 0);
    (after.records, after.cells, after.packets) = (0, 0, 0);
    after.phase = if p.marker { READY } else { LOST };
    if !s.heard || away > 1 || s.phase == LOST {
        return (after, Ok(Answer::Skipped), unchanged);
    }
    if s.phase == FILLING && (p.timestamp, p.f) != (s.timestamp, s.f) {
        return (after, Ok(Answer::Mixed), unchanged);
    }
    let (records, all) = (r + p.records as usize, c + cells.len());
    // Its index is the number of packets before it.
    if s.packets > 4_095 || records > 4_095 || all > 36_864 || all > store.len() {
        return (after, Ok(Answer::Overfull), unchanged);
    }
    let mut cells = cells;
    let mut at = 0;
    while at < cells.len() {
        cells[at + 8] = s.packets as u16;
        at += 9 + cells[at + 7] as usize;
    }
    let written = overwritten(store, c, &cells);
    if p.marker {
        let whole = Answer::Whole {
            timestamp: p.timestamp,
            f: p.f,
            records,
            cells: all,
            packets: s.packets + 1,
        };
        return (after, Ok(whole), written);
    }
    after.phase = FILLING;
    (after.timestamp, after.f) = (p.timestamp, p.f);
    (after.records, after.cells, after.packets) = (records, all, s.packets + 1);
    (after, Ok(Answer::Held), written)
}

fn compare_arrival(state: State, layout: Layout, octets: &[u8], store: &mut [u16]) -> State {
    let (after, expected, written) = naive_arrive(state, layout, octets, store);
    let (next, answer) = arrive(state, layout, octets, store);
    let answer = match answer {
        Answer::Refused(refusal) => pair(Err(refusal)),
        answer => Ok(answer),
    };
    assert_eq!(answer, expected);
    assert_eq!(next, after);
    assert_eq!(store, written);
    next
}

#[test]
fn depacketizer_at_any_state() {
    let mut r = Random::new(5);
    for _ in 0..20_000 {
        let mut case = arrive_case(&mut r);
        compare_arrival(case.state, case.layout, &case.octets, &mut case.store);
    }
}

#[test]
fn depacketizer_over_wild_packets() {
    let mut r = Random::new(6);
    for _ in 0..300 {
        let layout = r.layout();
        let packets = wild_packets(&mut r, layout, 60);
        let accepted = |octets: &Vec<u8>| naive_check(layout, Way::Strict, octets).ok();
        let Some(first) = packets.iter().find_map(accepted) else {
            continue;
        };
        let mut state =
            reference::depacketizer::open(first.0.source, first.0.payload_type).unwrap();
        let size = r.pick(&[0, 40, 200, 1000, 36_863, 36_864, 40_000]);
        let mut store = vec![0x5A5A; size];
        for octets in &packets {
            state = compare_arrival(state, layout, octets, &mut store);
        }
    }
}

fn just_opened(source: u32, payload_type: u8) -> State {
    State {
        source,
        payload_type,
        phase: LOST,
        heard: false,
        last: 0,
        timestamp: 0,
        f: 0,
        records: 0,
        cells: 0,
        packets: 0,
        fresh: 0,
        late: 0,
        missing: 0,
        remembered: None,
    }
}

fn digits(number: u16, count: u32) -> String {
    let digit = |place| char::from(b"0123456789abcdef"[(number >> (4 * place)) as usize % 16]);
    (0..count).rev().map(digit).collect()
}

fn naive_record(record: &[u16]) -> String {
    let mut line = String::from(if record[0] == 1 {
        " c line="
    } else {
        " y line="
    });
    line += &(record[1].to_string() + " off=" + &record[2].to_string());
    line += &(" s=".to_string() + &record[3].to_string() + "/" + &record[4].to_string());
    line += &(" did=".to_string() + &digits(record[5], 2) + " sdid=" + &digits(record[6], 2));
    line += &(" words=".to_string() + &record[7].to_string());
    for &word in &record[9..] {
        line += &(" ".to_string() + &digits(word, 3));
    }
    line
}

/// The packets of RFC 4571 frames, and whether the last frame is broken.
fn naive_frames(mut input: &[u8]) -> (Vec<&[u8]>, bool) {
    let mut packets = Vec::new();
    while input.len() >= 2 {
        let size = 256 * input[0] as usize + input[1] as usize;
        if input.len() < 2 + size {
            break;
        }
        packets.push(&input[2..2 + size]);
        input = &input[2 + size..];
    }
    (packets, !input.is_empty())
}

fn naive_listing(layout: Layout, input: &[u8]) -> String {
    let mut lines = vec!["fieldlist 1".to_string()];
    let mut depacketizer: Option<State> = None;
    let mut store = vec![0; 36_864];
    let (packets, cut) = naive_frames(input);
    for packet in packets {
        let number = match naive_check(layout, Way::Strict, packet) {
            Err((code, index)) => {
                lines.push(format!("refused {code} {index}"));
                continue;
            }
            Ok((summary, _)) => {
                depacketizer.get_or_insert(just_opened(summary.source, summary.payload_type));
                summary.number
            }
        };
        let (after, answer, written) = naive_arrive(depacketizer.unwrap(), layout, packet, &store);
        (depacketizer, store) = (Some(after), written);
        match answer {
            Err((32, _)) => lines.push(format!("{number} late")),
            Err((code, index)) => lines.push(format!("refused {code} {index}")),
            Ok(Answer::Whole {
                timestamp,
                f,
                records,
                cells,
                ..
            }) => {
                lines.push(format!(
                    "{number} whole ts={timestamp} f={f} records={records}"
                ));
                let records = naive_list(&store[..cells]).unwrap();
                lines.extend(records.into_iter().map(naive_record));
            }
            Ok(other) => lines.push(format!("{number} {other:?}").to_lowercase()),
        }
    }
    if cut {
        lines.push("cut".to_string());
    }
    let counts = depacketizer.map_or((0, 0, 0), |state| (state.fresh, state.late, state.missing));
    lines.push(format!(
        "fresh={} late={} missing={}",
        counts.0, counts.1, counts.2
    ));
    lines.join("\n") + "\n"
}

#[test]
fn listings() {
    let mut r = Random::new(9);
    for _ in 0..2_500 {
        let layout = r.layout();
        let input = framed(&mut r, layout);
        let listing = reference::fieldlist(layout, &input);
        assert_eq!(listing, naive_listing(layout, &input));
    }
}
