//! Reader, writer and depacketizer of the archive and of the reference over
//! the same packets of RFC 8331's layout in the same run, and a plain copy of
//! their octets; then the shared outlet's offers and takes.
//!
//! Each measurement is the best of some rounds; the four sides take turns
//! within a round. The archive is called through the C boundary, the
//! reference through its own functions, kept from being inlined, and once
//! more behind the same boundary. No side clears a buffer between calls. The
//! varied packets are so many, of counts and sizes drawn at random, that no
//! branch predictor learns them.

use std::hint::black_box;
use std::time::Instant;

use differential::{Archive, Behind, Head, Side, ANSWER, OUTLET_MEMORY, OUTLET_PACKET, OUTLET_STATE};
use differential::{RFC8331, STATE};
use reference::anc::Limits;
use reference::depacketizer::{self, State};
use reference::outlet;
use reference::packet;
use reference::random::{record, Parts, Random};
use reference::realistic::{Packets, PACKETS};
use reference::Layout;

const ROUNDS: usize = 100;
/// Octets that one side goes through in a round, about.
const OCTETS: usize = 2_000_000;
const CELLS: usize = Limits::PACKET.cells;
const MOST: usize = 65_535;

struct Packet {
    head: packet::Head,
    cells: Vec<u16>,
    octets: Vec<u8>,
}

struct Input {
    name: &'static str,
    packets: Vec<Packet>,
    fields: usize,
}

impl Input {
    fn octets(&self) -> usize {
        self.packets.iter().map(|packet| packet.octets.len()).sum()
    }
}

fn realistic() -> Input {
    let fields = 40;
    let made = Packets::new(1).take(fields * PACKETS);
    let packets = made.map(|(head, cells, octets)| Packet {
        head,
        cells,
        octets,
    });
    Input {
        name: "realistic",
        packets: packets.collect(),
        fields,
    }
}

/// Fields of one packet each, with the lists that are drawn.
fn fields_of(name: &'static str, fields: usize, list: impl Fn(&mut Random) -> Vec<u16>) -> Input {
    let mut r = Random::new(2);
    let mut packets = Vec::new();
    for field in 0..fields as u32 {
        let head = packet::Head {
            source: 1,
            payload_type: 112,
            marker: true,
            number: field,
            timestamp: 1501 * field,
            f: 2 + field as u8 % 2,
        };
        let cells = list(&mut r);
        let octets = Parts::plain(head, &cells).assemble();
        packets.push(Packet {
            head,
            cells,
            octets,
        });
    }
    Input {
        name,
        packets,
        fields,
    }
}

/// Every packet with so many records of n words.
fn alike(name: &'static str, fields: usize, records: usize, n: usize) -> Input {
    fields_of(name, fields, |r| {
        (0..records).flat_map(|_| record(r, n)).collect()
    })
}

/// Up to twelve records, of up to 63 words each.
fn varied() -> Input {
    fields_of("varied", 4_000, |r| {
        let records = r.below(13);
        (0..records)
            .flat_map(|_| {
                let n = r.below(64);
                record(r, n)
            })
            .collect()
    })
}

/// Buffers that one side uses throughout, and the sum of what its calls
/// returned, by which the sides are compared.
struct Bench {
    cells: Vec<u16>,
    out: Vec<u8>,
    answer: [u64; ANSWER],
    state: [u64; STATE],
    kept: State,
    sum: u64,
}

type Step = fn(&mut Bench, &Packet);

#[inline(never)]
fn archive_read(bench: &mut Bench, packet: &Packet) {
    let octets = black_box(&packet.octets);
    let number = Archive::read(RFC8331, octets, &mut bench.cells, &mut bench.answer);
    bench.sum += number as u64 + black_box(&bench.answer)[7];
}

#[inline(never)]
fn reference_read(bench: &mut Bench, packet: &Packet) {
    let read = packet::read(Layout::Rfc8331, black_box(&packet.octets), &mut bench.cells);
    bench.sum += black_box(read).unwrap().cells as u64;
}

#[inline(never)]
fn behind_read(bench: &mut Bench, packet: &Packet) {
    let octets = black_box(&packet.octets);
    let number = Behind::read(RFC8331, octets, &mut bench.cells, &mut bench.answer);
    bench.sum += number as u64 + black_box(&bench.answer)[7];
}

#[inline(always)]
fn head_of(packet: &Packet) -> Head {
    let packet::Head {
        source,
        payload_type,
        marker,
        number,
        timestamp,
        f,
    } = packet.head;
    let marker = marker as u8;
    Head {
        source,
        payload_type,
        marker,
        number,
        timestamp,
        f,
    }
}

#[inline(never)]
fn archive_write(bench: &mut Bench, packet: &Packet) {
    let (head, cells) = (head_of(packet), black_box(&packet.cells));
    let number = Archive::write(RFC8331, &head, cells, &mut bench.out, &mut bench.answer);
    bench.sum += number as u64 + black_box(&bench.answer)[0];
}

#[inline(never)]
fn behind_write(bench: &mut Bench, packet: &Packet) {
    let (head, cells) = (head_of(packet), black_box(&packet.cells));
    let number = Behind::write(RFC8331, &head, cells, &mut bench.out, &mut bench.answer);
    bench.sum += number as u64 + black_box(&bench.answer)[0];
}

#[inline(never)]
fn reference_write(bench: &mut Bench, packet: &Packet) {
    let octets = packet::write(
        Layout::Rfc8331,
        &packet.head,
        black_box(&packet.cells),
        &mut bench.out,
    );
    bench.sum += black_box(octets).unwrap() as u64;
}

#[inline(never)]
fn archive_arrive(bench: &mut Bench, packet: &Packet) {
    let octets = black_box(&packet.octets);
    let Bench {
        state,
        cells,
        answer,
        ..
    } = bench;
    let number = Archive::arrive(RFC8331, state, octets, cells, answer);
    bench.sum += number as u64 + black_box(&bench.answer)[4];
}

#[inline(never)]
fn behind_arrive(bench: &mut Bench, packet: &Packet) {
    let octets = black_box(&packet.octets);
    let Bench {
        state,
        cells,
        answer,
        ..
    } = bench;
    let number = Behind::arrive(RFC8331, state, octets, cells, answer);
    bench.sum += number as u64 + black_box(&bench.answer)[4];
}

#[inline(never)]
fn reference_arrive(bench: &mut Bench, packet: &Packet) {
    let octets = black_box(&packet.octets);
    let (state, answer) =
        depacketizer::arrive(bench.kept, Layout::Rfc8331, octets, &mut bench.cells);
    bench.kept = state;
    if let depacketizer::Answer::Whole { cells, .. } = black_box(answer) {
        bench.sum += cells as u64;
    }
}

#[inline(never)]
fn copy(bench: &mut Bench, packet: &Packet) {
    let octets = black_box(&packet.octets);
    bench.out[..octets.len()].copy_from_slice(octets);
    bench.sum += bench.out.len() as u64;
}

impl Bench {
    fn new() -> Bench {
        Bench {
            cells: vec![0; CELLS],
            out: vec![0; MOST],
            answer: [0; ANSWER],
            state: [0; STATE],
            kept: depacketizer::open(0, 0).unwrap(),
            sum: 0,
        }
    }

    /// The whole stream once, from depacketizers just opened.
    fn pass(&mut self, input: &Input, step: Step) {
        let head = input.packets[0].head;
        let (source, payload_type) = (head.source, head.payload_type);
        Archive::open(source, payload_type, &mut self.state, &mut self.answer);
        self.kept = depacketizer::open(source, payload_type).unwrap();
        for packet in &input.packets {
            step(self, packet);
            black_box((&self.cells, &self.out));
        }
    }

    /// Seconds for one pass, over many.
    fn time(&mut self, input: &Input, step: Step) -> f64 {
        let passes = 1 + OCTETS / input.octets();
        let start = Instant::now();
        for _ in 0..passes {
            self.pass(input, step);
        }
        start.elapsed().as_secs_f64() / passes as f64
    }
}

/// All sides' buffers and sums after one pass.
fn check(input: &Input, steps: &[Step]) {
    let passed = steps.iter().map(|&step| {
        let mut bench = Bench::new();
        bench.pass(input, step);
        bench
    });
    let passed: Vec<Bench> = passed.collect();
    for bench in &passed[1..] {
        assert_eq!(bench.sum, passed[0].sum);
        assert!(bench.cells == passed[0].cells && bench.out == passed[0].out);
    }
}

fn measure(input: &Input, what: &str, archive: Step, reference: Step, behind: Step) {
    let steps = [archive, reference, behind, copy];
    check(input, &steps[..3]);
    let mut benches = steps.map(|_| Bench::new());
    let mut best = [f64::INFINITY; 4];
    for _ in 0..ROUNDS {
        for ((step, bench), best) in steps.into_iter().zip(&mut benches).zip(&mut best) {
            *best = best.min(bench.time(input, step));
        }
    }
    let [ours, theirs, behind, copied] = best;
    let name = format!("{} {what}", input.name);
    let (packets, octets) = (input.packets.len() as f64, input.octets() as f64);
    println!(
        "{name:<23}{:>10.1}{:>8.0}{:>8.0}{:>8.0}{:>8.0}{:>9.2}{:>11.2}{:>9.3}",
        1e9 * ours / packets,
        octets / ours / 1e6,
        octets / theirs / 1e6,
        octets / behind / 1e6,
        octets / copied / 1e6,
        theirs / ours,
        behind / ours,
        copied / ours,
    );
}

/// Eight packets of each channel, and an outlet as each side keeps it.
struct Outlet {
    packets: Vec<(u8, Vec<u8>)>,
    memory: Vec<u8>,
    out: [u8; OUTLET_PACKET],
    answer: [u64; ANSWER],
    row: [u64; OUTLET_STATE],
    state: outlet::State,
    sum: u64,
}

type Calls = fn(&mut Outlet);

#[inline(never)]
fn archive_offers(bench: &mut Outlet) {
    Archive::outlet_open(&mut bench.row);
    for (channel, packet) in black_box(&bench.packets) {
        let (row, memory) = (&mut bench.row, &mut bench.memory);
        let number = Archive::outlet_offer(row, *channel, packet, memory, &mut bench.answer);
        bench.sum += number as u64 + 1;
    }
}

#[inline(never)]
fn reference_offers(bench: &mut Outlet) {
    bench.state = outlet::open();
    for (channel, packet) in black_box(&bench.packets) {
        bench.state = outlet::offer(bench.state, &mut bench.memory, *channel, packet).unwrap();
        bench.sum += 1;
    }
}

#[inline(never)]
fn archive_takes(bench: &mut Outlet) {
    let mut row = bench.row;
    for _ in 0..bench.packets.len() {
        let (memory, out) = (black_box(&bench.memory), &mut bench.out);
        let number = Archive::outlet_take(&mut row, memory, out, &mut bench.answer);
        bench.sum += number as u64 + black_box(&bench.answer)[1];
    }
}

#[inline(never)]
fn reference_takes(bench: &mut Outlet) {
    let mut state = bench.state;
    for _ in 0..bench.packets.len() {
        let (memory, out) = (black_box(&bench.memory), &mut bench.out);
        let (after, taken) = outlet::take(state, memory, out).unwrap();
        state = after;
        bench.sum += black_box(taken).octets as u64;
    }
}

impl Outlet {
    /// With all packets of so many octets copied in.
    fn full(octets: usize) -> Outlet {
        let packets = (0..64).map(|packet| (packet % 8, vec![packet; octets]));
        let mut bench = Outlet {
            packets: packets.collect(),
            memory: vec![0; OUTLET_MEMORY],
            out: [0; OUTLET_PACKET],
            answer: [0; ANSWER],
            row: [0; OUTLET_STATE],
            state: outlet::open(),
            sum: 0,
        };
        archive_offers(&mut bench);
        reference_offers(&mut bench);
        assert_eq!(bench.row, bench.state.row());
        bench
    }
}

/// Calls a second, of an outlet that goes from empty to full and back.
fn measure_outlet(octets: usize, what: &str, archive: Calls, reference: Calls) {
    let calls = [archive, reference];
    let mut benches = calls.map(|_| Outlet::full(octets));
    for (calls, bench) in calls.into_iter().zip(&mut benches) {
        bench.sum = 0;
        calls(bench);
    }
    assert_eq!(benches[0].sum, benches[1].sum);
    let mut best = [f64::INFINITY; 2];
    for _ in 0..ROUNDS {
        for ((calls, bench), best) in calls.into_iter().zip(&mut benches).zip(&mut best) {
            let start = Instant::now();
            for _ in 0..20 {
                calls(bench);
            }
            *best = best.min(start.elapsed().as_secs_f64() / 20.0);
        }
    }
    let [ours, theirs] = best.map(|seconds| 64.0 / seconds);
    let name = format!("{octets} octets {what}");
    println!(
        "{name:<25}{ours:>10.0}{theirs:>14.0}{:>12.2}",
        ours / theirs
    );
}

fn main() {
    let inputs = [
        realistic(),
        varied(),
        alike("255 words", 20, 62, 255),
        alike("tiny", 4_000, 1, 0),
    ];
    for input in &inputs {
        let (packets, octets) = (input.packets.len(), input.octets());
        let records: usize = input
            .packets
            .iter()
            .map(|packet| packet.octets[16] as usize)
            .sum();
        println!(
            "{}: {} fields, {packets} packets, {records} records, {octets} octets",
            input.name, input.fields
        );
    }
    println!("Best of {ROUNDS} rounds. No side clears its buffers between calls.");
    println!("Nanoseconds a packet; millions of packet octets a second of the");
    println!("archive, the reference, the reference behind the same C boundary,");
    println!("and a copy; and the archive's speed by each of these three.\n");
    println!(
        "{:<23}{:>10}{:>8}{:>8}{:>8}{:>8}{:>9}{:>11}{:>9}",
        "archive", "ns/packet", "MB/s", "ref.", "behind", "copy", "by ref.", "by behind", "by copy"
    );
    for input in &inputs {
        measure(input, "reader", archive_read, reference_read, behind_read);
        measure(
            input,
            "writer",
            archive_write,
            reference_write,
            behind_write,
        );
        measure(
            input,
            "depacketizer",
            archive_arrive,
            reference_arrive,
            behind_arrive,
        );
    }
    println!();
    println!(
        "{:<25}{:>10}{:>14}{:>12}",
        "outlet", "calls/s", "ref. calls/s", "of ref."
    );
    for octets in [64, OUTLET_PACKET] {
        measure_outlet(octets, "offers", archive_offers, reference_offers);
        measure_outlet(octets, "takes", archive_takes, reference_takes);
    }
}
