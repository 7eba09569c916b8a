//! The program `streamcheck` against the reference's report, byte for byte:
//! its input through a pipe, in pieces, and as a file that its argument
//! names, with `old` before it and without; and on the samples beside it.

use std::fs;
use std::path::Path;
use std::process::{Command, Stdio};

use differential::program::{from_file, piped, program, same, told, unwritable};
use reference::frames::put_frame;
use reference::packet::{self, Head};
use reference::random::{carried, framed, record, recording, Parts, Random};
use reference::realistic::Packets;
use reference::runs::{A, HEAD};
use reference::{streamcheck, Layout};

const STREAMCHECK: &str = "streamcheck";

/// The report where that layout is told, from a pipe and from a file.
fn compare(layout: Layout, input: &[u8], piece: usize, name: &str) -> String {
    let expected = streamcheck(layout, input);
    let output = piped(&mut told(STREAMCHECK, layout), input, piece);
    same(output, &expected, &format!("{name}, {layout:?}, piped"));
    let path = Path::new(env!("CARGO_TARGET_TMPDIR")).join(format!("check-{name}"));
    let output = from_file(&mut told(STREAMCHECK, layout), input, &path);
    same(output, &expected, &format!("{name}, {layout:?}, a file"));
    expected
}

/// One sample a finding, and a clean one; the report of each is beside it.
#[test]
fn samples() {
    let folder = Path::new(env!("CARGO_MANIFEST_DIR")).join("../crates/streamcheck/data");
    for name in [
        "clean", "refused", "cut", "number", "change", "reserved", "raster",
    ] {
        let input = fs::read(folder.join(format!("{name}.frames"))).unwrap();
        let expected = fs::read_to_string(folder.join(format!("{name}.txt"))).unwrap();
        let report = compare(Layout::Rfc8331, &input, usize::MAX, name);
        assert_eq!(report, expected, "{name}");
        assert_eq!(expected.is_empty(), name == "clean");
        assert!(expected.lines().all(|line| line.contains(name)));
    }
}

/// Of either layout, told each.
#[test]
fn random_recordings() {
    let mut r = Random::new(1_201);
    for _ in 0..400 {
        let made = r.layout();
        let input = match r.below(8) {
            0 => framed(&mut r, made),
            _ => recording(&mut r, made),
        };
        let piece = r.pick(&[1 << 20, 4_096, 1_000, 97, 1]);
        for layout in Layout::ALL {
            compare(layout, &input, piece, "random");
        }
    }
}

#[test]
fn small_inputs() {
    let inputs: [(&[u8], &str); 6] = [
        (&[], ""),
        (&[0], "0 cut\n"),
        (&[0, 0], "0 refused 2 0\n"),
        (&[0, 0, 0, 0], "0 refused 2 0\n1 refused 2 0\n"),
        (
            &[0, 0, 0, 1, 0x80, 0],
            "0 refused 2 0\n1 refused 2 0\n2 cut\n",
        ),
        (&[0, 5, 1], "0 cut\n"),
    ];
    for (input, expected) in inputs {
        for layout in Layout::ALL {
            assert_eq!(compare(layout, input, 1, "small"), expected);
        }
    }
}

/// An accepted packet with more cells than a field may have: no packet is
/// refused by 14.
#[test]
fn the_longest_packets() {
    let mut r = Random::new(1_202);
    let many: Vec<u16> = (0..199).flat_map(|_| record(&mut r, 255)).collect();
    for layout in Layout::ALL {
        let mut input = Vec::new();
        for number in [7, 8, 10] {
            let parts = Parts::of(layout, Head { number, ..HEAD }, &many);
            put_frame(&parts.assemble(), &mut input);
        }
        let report = compare(layout, &input, 50_000, "longest");
        assert!(!report.contains("refused"));
        assert!(report.contains("2 number\n"));
    }
}

/// `old` is a word by itself and the first: any other is a file's name.
#[test]
fn arguments() {
    let folder = Path::new(env!("CARGO_TARGET_TMPDIR")).join("check-arguments");
    fs::create_dir_all(&folder).unwrap();
    let mut input = Vec::new();
    let octets = Parts::of(Layout::Rfc8331, HEAD, &A).assemble();
    put_frame(&octets, &mut input);
    for (arguments, file, layout) in [
        (&["older"][..], "older", Layout::Rfc8331),
        (&["./old"], "old", Layout::Rfc8331),
        (&["./-x"], "-x", Layout::Rfc8331),
        (&["old", "old"], "old", Layout::Draft2015),
        (&["old", "name"], "name", Layout::Draft2015),
    ] {
        fs::write(folder.join(file), &input).unwrap();
        let output = Command::new(program(STREAMCHECK))
            .args(arguments)
            .current_dir(&folder)
            .stdin(Stdio::null())
            .output()
            .unwrap();
        same(
            output,
            &streamcheck(layout, &input),
            &format!("{arguments:?}"),
        );
    }
    fs::remove_dir_all(&folder).unwrap();
}

/// A file that cannot be opened is named on standard error, and nothing else.
#[test]
fn no_such_file() {
    let output = Command::new(program(STREAMCHECK))
        .arg("no such file")
        .stdin(Stdio::null())
        .output()
        .unwrap();
    assert!(output.stdout.is_empty());
    let errors = String::from_utf8_lossy(&output.stderr).into_owned();
    assert_eq!(
        errors,
        "streamcheck: no such file: No such file or directory\n"
    );
}

/// The first finding already cannot be written.
#[test]
fn output_that_cannot_be_written() {
    unwritable(STREAMCHECK, &[0, 0]);
}

/// Twenty megabytes, in an address space that has no room for them.
#[test]
fn a_long_input_in_little_memory() {
    for (layout, arguments) in [(Layout::Rfc8331, ""), (Layout::Draft2015, " old")] {
        let mut input = Vec::new();
        for (head, cells, _) in Packets::new(1_203) {
            let f = match layout {
                Layout::Rfc8331 => head.f,
                Layout::Draft2015 => 0,
            };
            let mut out = vec![0; 30_000];
            let cells = carried(layout, cells.to_vec());
            let size = packet::write(layout, &Head { f, ..head }, &cells, &mut out).unwrap();
            put_frame(&out[..size], &mut input);
            if input.len() > 20_000_000 {
                break;
            }
        }
        let mut limited = Command::new("sh");
        limited
            .arg("-c")
            .arg(format!("ulimit -v 8192 && exec \"$0\"{arguments}"))
            .arg(program(STREAMCHECK));
        let output = piped(&mut limited, &input, 1 << 16);
        same(
            output,
            &streamcheck(layout, &input),
            &format!("long, {layout:?}"),
        );
    }
}
