//! Which answers and refusals the random inputs reach, and how often.

use std::collections::BTreeMap;

use crate::depacketizer::{arrive, distance, open, Answer, Distance, State};
use crate::fielddiff::{differences, Difference};
use crate::packet::{self, check};
use crate::random::*;
use crate::refusal::Refusal;
use crate::streamcheck::{findings, Finding};
use crate::{file, frames, outlet, sdi, sdp};

/// How often each entry point gave each refusal (number, index) or, under
/// number 0, an answer.
#[derive(Debug, Default)]
pub struct Coverage {
    pub counts: BTreeMap<(&'static str, u8, usize), u64>,
    /// The depacketizer's answers by name.
    pub answers: BTreeMap<(&'static str, &'static str), u64>,
}

impl Coverage {
    /// One more answer (number 0) or refusal of an entry point.
    pub fn count(&mut self, entry: &'static str, number: u8, index: usize) {
        *self.counts.entry((entry, number, index)).or_default() += 1;
    }

    fn add<T>(&mut self, entry: &'static str, answer: Result<T, Refusal>) {
        match answer {
            Ok(_) => self.count(entry, 0, 0),
            Err(refusal) => self.count(entry, refusal.number, refusal.index),
        }
    }

    fn add_answer(&mut self, entry: &'static str, answer: Answer) {
        let name = match answer {
            Answer::Skipped => "skipped",
            Answer::Held => "held",
            Answer::Mixed => "mixed",
            Answer::Overfull => "overfull",
            Answer::Whole { .. } => "whole",
            Answer::Refused(refusal) => return self.add::<()>(entry, Err(refusal)),
        };
        *self.answers.entry((entry, name)).or_default() += 1;
        self.add::<()>(entry, Ok(()));
    }

    /// A far arrival that is fresh is a restart.
    fn add_restart(&mut self, entry: &'static str, before: State, after: State) {
        let far = before.heard && distance(before.last, after.last) == Distance::Far;
        if far {
            *self.answers.entry((entry, "restarted")).or_default() += 1;
        }
    }

    /// Occurrences of a number, and how many different indices it had.
    pub fn of(&self, entry: &str, number: u8) -> (u64, usize) {
        let these = self
            .counts
            .iter()
            .filter(|((e, n, _), _)| *e == entry && *n == number);
        these.fold((0, 0), |(sum, indices), (_, count)| {
            (sum + count, indices + 1)
        })
    }
}

/// Draws `rounds` inputs for every entry point.
pub fn cover(seed: u64, rounds: usize) -> Coverage {
    let mut r = Random::new(seed);
    let mut c = Coverage::default();
    for _ in 0..rounds {
        cover_packets(&mut r, &mut c);
        cover_parameters(&mut r, &mut c);
        cover_files(&mut r, &mut c);
        cover_lines(&mut r, &mut c);
        cover_outlet(&mut r, &mut c);
        let mut case = arrive_case(&mut r);
        let (after, answer) = arrive(case.state, case.layout, &case.octets, &mut case.store);
        c.add_restart("arrive", case.state, after);
        c.add_answer("arrive", answer);
        c.add("open", open(0, r.octet()));
    }
    for _ in 0..rounds / 8 {
        cover_frames(&mut r, &mut c);
        cover_recording(&mut r, &mut c);
        cover_pair(&mut r, &mut c);
    }
    c
}

fn cover_packets(r: &mut Random, c: &mut Coverage) {
    let case = read_case(r);
    let (layout, octets, mut cells) = (case.layout, &case.octets, vec![0; case.room]);
    let tolerant = packet::read(layout, octets, &mut cells);
    if tolerant.is_ok_and(|summary| summary.left_out > 0) {
        *c.answers.entry(("read", "left out")).or_default() += 1;
    }
    c.add("read", tolerant);
    c.add(
        "read strict",
        packet::read_strict(layout, octets, &mut cells),
    );
    let case = write_case(r);
    c.add(
        "write",
        packet::write(
            case.layout,
            &case.head,
            &case.cells,
            &mut vec![0; case.room],
        ),
    );
}

fn cover_parameters(r: &mut Random, c: &mut Coverage) {
    let case = text_case(r);
    c.add("sdp read", sdp::read(&case.text, &mut vec![0; case.room]));
    let case = pairs_case(r);
    c.add(
        "sdp write",
        sdp::write(&case.pairs, case.vpid, &mut vec![0; case.room]),
    );
}

fn cover_files(r: &mut Random, c: &mut Coverage) {
    let case = file_case(r);
    c.add(
        "file read",
        file::read(&case.file, case.offset, &mut vec![0; case.room]),
    );
    let case = field_case(r);
    let mut out = vec![0; case.room];
    c.add(
        "file write",
        file::write(case.timestamp, case.f, &case.cells, &mut out),
    );
    c.add("file begin", file::begin(&mut vec![0; r.below(10)]));
}

fn cover_lines(r: &mut Random, c: &mut Coverage) {
    let mut case = line_write_case(r);
    c.add(
        "line write",
        sdi::write(&mut case.line, case.start, &case.cells),
    );
    let case = line_read_case(r);
    let mut cells = vec![0; case.room];
    c.add(
        "line read",
        sdi::read(&case.line, case.start, case.place, &mut cells),
    );
}

fn cover_outlet(r: &mut Random, c: &mut Coverage) {
    let mut case = outlet_case(r);
    match case.call {
        OutletCall::Offer { channel, octets } => c.add(
            "offer",
            outlet::offer(case.state, &mut case.memory, channel, &octets),
        ),
        OutletCall::Take { room } => c.add(
            "take",
            outlet::take(case.state, &case.memory, &mut vec![0; room]),
        ),
    }
}

/// What `streamcheck` finds; a recording without a finding is clean.
fn cover_recording(r: &mut Random, c: &mut Coverage) {
    let layout = r.layout();
    let input = recording(r, layout);
    let found = findings(layout, &input);
    if found.is_empty() {
        *c.answers.entry(("recording", "clean")).or_default() += 1;
    }
    for (_, finding) in found {
        let name = match finding {
            Finding::Refused(refusal) => {
                c.add::<()>("recording", Err(refusal));
                continue;
            }
            Finding::Cut => "cut",
            Finding::Number => "number",
            Finding::Change => "change",
            Finding::Reserved => "reserved",
            Finding::Raster => "raster",
        };
        *c.answers.entry(("recording", name)).or_default() += 1;
    }
}

/// What `fielddiff` lists; two files without a difference are alike.
fn cover_pair(r: &mut Random, c: &mut Coverage) {
    let (left, right) = file_pair(r);
    let found = differences(&left, &right);
    if found.is_empty() {
        *c.answers.entry(("pair", "alike")).or_default() += 1;
    }
    for (_, difference) in found {
        let name = match difference {
            Difference::Timestamp(..) => "ts",
            Difference::F(..) => "f",
            Difference::Records(..) => "records",
            Difference::Cell(..) => "cell",
            Difference::OnlyLeft | Difference::OnlyRight => "only",
            Difference::Refused(left, right) => {
                for number in [left, right].into_iter().flatten() {
                    c.count("pair", number, 0);
                }
                match (left, right) {
                    (Some(_), Some(_)) => "refused both",
                    (Some(_), None) => "refused left",
                    _ => "refused right",
                }
            }
        };
        *c.answers.entry(("pair", name)).or_default() += 1;
    }
}

/// The frames of a `fieldlist` input, given to a depacketizer as it does.
fn cover_frames(r: &mut Random, c: &mut Coverage) {
    let layout = r.layout();
    let input = framed(r, layout);
    let mut depacketizer = None;
    let mut store = vec![0; crate::anc::Limits::FIELD.cells];
    for frame in frames::Frames::new(&input) {
        let frames::Frame::Packet(octets) = frame else {
            *c.answers.entry(("frames", "cut")).or_default() += 1;
            continue;
        };
        let state = match (depacketizer, check(layout, octets)) {
            (Some(state), _) => state,
            (None, Ok(accepted)) => {
                let summary = accepted.summary;
                open(summary.source, summary.payload_type).unwrap()
            }
            (None, Err(refusal)) => {
                c.add::<()>("frames", Err(refusal));
                continue;
            }
        };
        let (after, answer) = arrive(state, layout, octets, &mut store);
        depacketizer = Some(after);
        c.add_restart("frames", state, after);
        c.add_answer("frames", answer);
    }
}
