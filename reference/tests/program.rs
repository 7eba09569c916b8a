//! The programs that read frames: their arguments and their input.

use std::fs;
use std::io::Write;
use std::path::Path;
use std::process::{Command, Stdio};

use reference::frames::put_frame;
use reference::packet::Head;
use reference::random::Parts;
use reference::{fieldlist, streamcheck, Layout};

fn input(layout: Layout) -> Vec<u8> {
    let mut input = Vec::new();
    for number in [7, 8] {
        let head = Head {
            source: 1,
            payload_type: 112,
            marker: true,
            number,
            timestamp: 1000,
            f: 0,
        };
        let cells = [0, 9, 0, 0, 0, 0x41, 0x05, 0, 0];
        put_frame(&Parts::of(layout, head, &cells).assemble(), &mut input);
    }
    input
}

const FIELDLIST: &str = env!("CARGO_BIN_EXE_fieldlist");
const STREAMCHECK: &str = env!("CARGO_BIN_EXE_streamcheck");

fn run(program: &str, arguments: &[&str], input: &[u8]) -> String {
    let mut child = Command::new(program)
        .args(arguments)
        .stdin(Stdio::piped())
        .stdout(Stdio::piped())
        .spawn()
        .unwrap();
    // A program that reads a file does not read its input.
    let _ = child.stdin.take().unwrap().write_all(input);
    let output = child.wait_with_output().unwrap();
    assert!(output.status.success());
    String::from_utf8(output.stdout).unwrap()
}

/// `old` first, then a file; without a file, standard input.
#[test]
fn arguments() {
    let path = Path::new(env!("CARGO_TARGET_TMPDIR")).join("frames");
    let path = path.to_str().unwrap();
    for made in Layout::ALL {
        let input = input(made);
        fs::write(path, &input).unwrap();
        for told in Layout::ALL {
            let old: &[&str] = match told {
                Layout::Rfc8331 => &[],
                Layout::Draft2015 => &["old"],
            };
            let listing = fieldlist(told, &input);
            assert_eq!(listing.contains("8 whole"), told == made);
            let report = streamcheck(told, &input);
            assert_eq!(report.is_empty(), told == made);
            for (program, text) in [(FIELDLIST, listing), (STREAMCHECK, report)] {
                assert_eq!(run(program, old, &input), text);
                assert_eq!(run(program, &[old, &[path]].concat(), &[]), text);
            }
        }
    }
}

/// A file that can't be opened is told on standard error.
#[test]
fn no_file() {
    for program in [FIELDLIST, STREAMCHECK] {
        for arguments in [&["/nowhere/frames"][..], &["old", "/nowhere/old"]] {
            let output = Command::new(program)
                .args(arguments)
                .stdin(Stdio::null())
                .output()
                .unwrap();
            assert!(output.stdout.is_empty() && !output.stderr.is_empty());
        }
    }
}
