//! The program `fieldsave`: RFC 4571 frames in, a field file out.

use crate::anc::Limits;
use crate::depacketizer::{arrive, open, Answer, State};
use crate::file::{write, START};
use crate::frames::{Frame, Frames};
use crate::layout::Layout;
use crate::packet::check;

/// More octets than a field takes.
const ROOM: usize = 60_000;

/// The file of the whole fields of frames in a layout, in order.
pub fn fieldsave(layout: Layout, input: &[u8]) -> Vec<u8> {
    let mut file = START.to_vec();
    let mut depacketizer = None;
    let mut store = vec![0; Limits::FIELD.cells];
    let mut out = vec![0; ROOM];
    for frame in Frames::new(input) {
        let Frame::Packet(octets) = frame else {
            break;
        };
        let Some(state) = depacketizer.or_else(|| opened(layout, octets)) else {
            continue;
        };
        let (state, answer) = arrive(state, layout, octets, &mut store);
        depacketizer = Some(state);
        if let Answer::Whole {
            timestamp,
            f,
            cells,
            ..
        } = answer
        {
            let size = write(timestamp, f, &store[..cells], &mut out)
                .expect("a field that is handed out can be filed");
            file.extend_from_slice(&out[..size]);
        }
    }
    file
}

/// The first packet that passes 1 to 13, 15 and 16 opens the depacketizer.
fn opened(layout: Layout, octets: &[u8]) -> Option<State> {
    let summary = check(layout, octets).ok()?.summary;
    open(summary.source, summary.payload_type).ok()
}
