//! Writes RFC 4571 frames of realistic fields to standard output, for runs
//! of `fieldlist` over long inputs. Arguments: megabytes, seed.
//! One packet in 200 is lost, one in 400 comes twice.

use std::io::{stdout, BufWriter, Write};

use reference::frames::put_frame;
use reference::random::Random;
use reference::realistic::Packets;

fn main() -> std::io::Result<()> {
    let mut arguments = std::env::args().skip(1).flat_map(|text| text.parse().ok());
    let wanted = 1_000_000 * arguments.next().unwrap_or(1);
    let seed = arguments.next().unwrap_or(1);
    let mut r = Random::new(seed);
    let mut out = BufWriter::new(stdout().lock());
    let mut written = 0;
    for (_, _, packet) in Packets::new(seed) {
        if written >= wanted {
            break;
        }
        let mut frames = Vec::new();
        if !r.one_in(200) {
            put_frame(&packet, &mut frames);
        }
        if r.one_in(400) {
            put_frame(&packet, &mut frames);
        }
        out.write_all(&frames)?;
        written += frames.len() as u64;
    }
    out.flush()
}
