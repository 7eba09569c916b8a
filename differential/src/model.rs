//! The boundary over the reference: its rows, and nothing else of its own.

use reference::depacketizer::{arrive, open, Answer, State, FILLING};
use reference::sdi::{self, Place};
use reference::{file, outlet, packet, sdp, Layout, Refusal};

use crate::{Head, Pair, Side, ANSWER, DRAFTS, HELD, LAYOUT, MIXED, OVERFULL, RFC8331, ROW};
use crate::{OUTLET_STATE, SKIPPED, STATE, WHOLE};

pub struct Model;

/// The values at the row's beginning, or a refusal's index; the rest stays.
fn settle<const N: usize>(outcome: Result<[u64; N], Refusal>, answer: &mut [u64]) -> u8 {
    match outcome {
        Ok(values) => {
            answer[..N].copy_from_slice(&values);
            0
        }
        Err(Refusal { number, index }) => {
            answer[0] = index as u64;
            number
        }
    }
}

/// A layout's number, as a caller tells it.
pub fn number_of(layout: Layout) -> u8 {
    match layout {
        Layout::Rfc8331 => RFC8331,
        Layout::Draft2015 => DRAFTS,
    }
}

/// None where no layout has the number.
fn layout_of(number: u8) -> Option<Layout> {
    Layout::ALL
        .into_iter()
        .find(|&layout| number_of(layout) == number)
}

/// A state's numbers in the order of the row.
pub fn row_of(state: &State) -> [u64; STATE] {
    [
        state.source as u64,
        state.payload_type as u64,
        state.phase as u64,
        state.heard as u64,
        state.last as u64,
        state.timestamp as u64,
        state.f as u64,
        state.records as u64,
        state.cells as u64,
        state.fresh,
        state.late,
        state.missing,
        state.remembered.is_some() as u64,
        state.remembered.unwrap_or(0) as u64,
        state.packets as u64,
    ]
}

/// None where the numbers are no state.
pub fn state_of(row: &[u64]) -> Option<State> {
    let flag = |number: u64| [false, true].get(usize::try_from(number).ok()?).copied();
    let (remembers, remembered) = (flag(row[12])?, row[13].try_into().ok()?);
    Some(State {
        source: row[0].try_into().ok()?,
        payload_type: row[1].try_into().ok()?,
        phase: row[2].try_into().ok().filter(|&phase| phase <= FILLING)?,
        heard: flag(row[3])?,
        last: row[4].try_into().ok()?,
        timestamp: row[5].try_into().ok()?,
        f: row[6].try_into().ok()?,
        records: row[7].try_into().ok()?,
        cells: row[8].try_into().ok()?,
        packets: row[14].try_into().ok()?,
        fresh: row[9],
        late: row[10],
        missing: row[11],
        remembered: remembers.then_some(remembered),
    })
}

/// Kind, then timestamp, F, records, cells and packets, which are 0 unless whole.
fn values_of(answer: Answer) -> Result<[u64; 6], Refusal> {
    let kind = |kind| Ok([kind, 0, 0, 0, 0, 0]);
    match answer {
        Answer::Skipped => kind(SKIPPED),
        Answer::Held => kind(HELD),
        Answer::Mixed => kind(MIXED),
        Answer::Overfull => kind(OVERFULL),
        Answer::Whole {
            timestamp,
            f,
            records,
            cells,
            packets,
        } => Ok([
            WHOLE,
            timestamp as u64,
            f as u64,
            records as u64,
            cells as u64,
            packets as u64,
        ]),
        Answer::Refused(refusal) => Err(refusal),
    }
}

/// A packet read in one of the two ways: 255, 254, then what the reader gives.
fn packet_read(
    layout: u8,
    answer: &mut [u64],
    read: impl FnOnce(Layout) -> Result<packet::Summary, Refusal>,
) -> u8 {
    if answer.len() < ANSWER {
        return ROW;
    }
    let Some(layout) = layout_of(layout) else {
        return LAYOUT;
    };
    let values = read(layout).map(|read| {
        [
            read.source as u64,
            read.payload_type as u64,
            read.marker as u64,
            read.number as u64,
            read.timestamp as u64,
            read.f as u64,
            read.records as u64,
            read.cells as u64,
            read.left_out as u64,
        ]
    });
    settle(values, answer)
}

/// A call at the outlet whose state stands in a row: the rows' lengths, then
/// 64 where the numbers are no state.
fn at_outlet<const N: usize>(
    state: &mut [u64],
    answer: &mut [u64],
    call: impl FnOnce(outlet::State) -> Result<(outlet::State, [u64; N]), Refusal>,
) -> u8 {
    let (Some(row), true) = (
        state.first_chunk_mut::<OUTLET_STATE>(),
        answer.len() >= ANSWER,
    ) else {
        return ROW;
    };
    let before = outlet::State::of_row(row).ok_or(Refusal::plain(64));
    let outcome = before.and_then(call).map(|(after, values)| {
        *row = after.row();
        values
    });
    settle(outcome, answer)
}

impl Side for Model {
    fn read(layout: u8, octets: &[u8], cells: &mut [u16], answer: &mut [u64]) -> u8 {
        packet_read(layout, answer, |layout| packet::read(layout, octets, cells))
    }

    fn read_strict(layout: u8, octets: &[u8], cells: &mut [u16], answer: &mut [u64]) -> u8 {
        packet_read(layout, answer, |layout| {
            packet::read_strict(layout, octets, cells)
        })
    }

    fn write(layout: u8, head: &Head, cells: &[u16], out: &mut [u8], answer: &mut [u64]) -> u8 {
        if answer.len() < ANSWER {
            return ROW;
        }
        let Some(layout) = layout_of(layout) else {
            return LAYOUT;
        };
        let head = packet::Head {
            source: head.source,
            payload_type: head.payload_type,
            marker: head.marker != 0,
            number: head.number,
            timestamp: head.timestamp,
            f: head.f,
        };
        let octets = packet::write(layout, &head, cells, out);
        settle(octets.map(|octets| [octets as u64]), answer)
    }

    fn open(source: u32, payload_type: u8, state: &mut [u64], answer: &mut [u64]) -> u8 {
        if answer.len() < ANSWER || state.len() < STATE {
            return ROW;
        }
        let opened = open(source, payload_type).map(|opened| {
            state[..STATE].copy_from_slice(&row_of(&opened));
            []
        });
        settle(opened, answer)
    }

    fn arrive(
        layout: u8,
        state: &mut [u64],
        octets: &[u8],
        store: &mut [u16],
        answer: &mut [u64],
    ) -> u8 {
        if answer.len() < ANSWER || state.len() < STATE {
            return ROW;
        }
        let Some(layout) = layout_of(layout) else {
            return LAYOUT;
        };
        let Some(before) = state_of(state) else {
            return settle::<0>(Err(Refusal::plain(35)), answer);
        };
        let (after, outcome) = arrive(before, layout, octets, store);
        let mut row = row_of(&after);
        // A refusal keeps the number that stands where none is remembered.
        if matches!(outcome, Answer::Refused(_)) && after.remembered.is_none() {
            row[13] = state[13];
        }
        state[..STATE].copy_from_slice(&row);
        settle(values_of(outcome), answer)
    }

    fn sdp_read(text: &[u8], pairs: &mut [u8], answer: &mut [u64]) -> u8 {
        if answer.len() < ANSWER {
            return ROW;
        }
        let values = sdp::read(text, pairs).map(|read| {
            let code = read.vpid.unwrap_or(0);
            [read.pairs as u64, read.vpid.is_some() as u64, code as u64]
        });
        settle(values, answer)
    }

    fn sdp_write(pairs: &[u8], vpid: u16, out: &mut [u8], answer: &mut [u64]) -> u8 {
        if answer.len() < ANSWER {
            return ROW;
        }
        let octets = sdp::write(pairs, u8::try_from(vpid).ok(), out);
        settle(octets.map(|octets| [octets as u64]), answer)
    }

    fn file_begin(out: &mut [u8], answer: &mut [u64]) -> u8 {
        if answer.len() < ANSWER {
            return ROW;
        }
        settle(file::begin(out).map(|octets| [octets as u64]), answer)
    }

    fn file_write(timestamp: u32, f: u8, cells: &[u16], out: &mut [u8], answer: &mut [u64]) -> u8 {
        if answer.len() < ANSWER {
            return ROW;
        }
        let octets = file::write(timestamp, f, cells, out);
        settle(octets.map(|octets| [octets as u64]), answer)
    }

    fn file_read(file: &[u8], at: usize, cells: &mut [u16], answer: &mut [u64]) -> u8 {
        if answer.len() < ANSWER {
            return ROW;
        }
        let values = file::read(file, at, cells).map(|field| {
            [
                field.timestamp as u64,
                field.f as u64,
                field.records as u64,
                field.cells as u64,
                field.next as u64,
            ]
        });
        settle(values, answer)
    }

    fn line_write(line: &mut [u16], start: usize, cells: &[u16], answer: &mut [u64]) -> u8 {
        if answer.len() < ANSWER {
            return ROW;
        }
        let end = sdi::write(line, start, cells);
        settle(end.map(|end| [end as u64]), answer)
    }

    fn line_read(
        line: &[u16],
        start: usize,
        place: &[u16; 5],
        cells: &mut [u16],
        answer: &mut [u64],
    ) -> u8 {
        if answer.len() < ANSWER {
            return ROW;
        }
        let [c, line_number, offset, s, stream] = *place;
        let place = Place {
            c,
            line: line_number,
            offset,
            s,
            stream,
        };
        let values = sdi::read(line, start, place, cells)
            .map(|found| [found.records, found.cells, found.end].map(|value| value as u64));
        settle(values, answer)
    }

    fn wanted(did: u8, sdid: u8, pairs: &[u8]) -> u8 {
        sdp::wanted_octets(pairs, did, sdid) as u8
    }

    fn wanted_of(did: u8, sdid: u8, pairs: &[Pair]) -> u8 {
        let entry = |&Pair { did, sdid }: &Pair| sdp::Pair { did, sdid };
        let row: Vec<_> = pairs.iter().map(entry).collect();
        sdp::wanted(&row, did, sdid) as u8
    }

    fn outlet_open(state: &mut [u64]) -> u8 {
        let Some(row) = state.first_chunk_mut::<OUTLET_STATE>() else {
            return ROW;
        };
        *row = outlet::open().row();
        0
    }

    fn outlet_offer(
        state: &mut [u64],
        channel: u8,
        packet: &[u8],
        memory: &mut [u8],
        answer: &mut [u64],
    ) -> u8 {
        at_outlet(state, answer, |before| {
            let after = outlet::offer(before, memory, channel, packet)?;
            Ok((after, []))
        })
    }

    fn outlet_take(state: &mut [u64], memory: &[u8], out: &mut [u8], answer: &mut [u64]) -> u8 {
        at_outlet(state, answer, |before| {
            let (after, taken) = outlet::take(before, memory, out)?;
            Ok((after, [taken.channel as u64, taken.octets as u64]))
        })
    }
}
