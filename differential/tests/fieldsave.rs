//! The program `fieldsave` against the reference's file, byte for byte, and
//! read back: every field that is listed as whole is in it. Its input is a
//! file, or a pipe that is named. A file that is there is not written over, and
//! one whose disk is full reads up to its last whole field.

use std::fs;
use std::path::{Path, PathBuf};
use std::process::{Command, Output, Stdio};

use differential::program::{piped, program, same, told};
use reference::anc::Limits;
use reference::file::{self, START};
use reference::frames::put_frame;
use reference::packet::{self, Head};
use reference::random::{carried, framed, record, recording, Random};
use reference::realistic::Packets;
use reference::runs::{A, HEAD};
use reference::{fielddiff, fieldlist, fieldsave, Layout};

const FIELDSAVE: &str = "fieldsave";

fn folder(name: &str) -> PathBuf {
    let folder = Path::new(env!("CARGO_TARGET_TMPDIR")).join(format!("save-{name}"));
    let _ = fs::remove_dir_all(&folder);
    fs::create_dir_all(&folder).unwrap();
    folder
}

fn told_nothing(output: Output, what: &str) {
    same(output, "", what);
}

/// How many fields are read, and the number that ends the reading.
fn read_back(octets: &[u8]) -> (usize, u8) {
    let mut cells = vec![0; Limits::FIELD.cells];
    let (mut fields, mut at) = (0, START.len());
    loop {
        match file::read(octets, at, &mut cells) {
            Ok(field) => (fields, at) = (fields + 1, field.next),
            Err(refusal) => return (fields, refusal.number),
        }
    }
}

/// What the program files in a layout, from a file and from a pipe.
fn compare(layout: Layout, input: &[u8], piece: usize, name: &str) -> Vec<u8> {
    let folder = folder(name);
    let expected = fieldsave(layout, input);
    let listing = fieldlist(layout, input);
    let cut = if listing.contains("\ncut\n") {
        "the last frame is cut\n"
    } else {
        ""
    };
    fs::write(folder.join("frames"), input).unwrap();
    let mut from_file = told(FIELDSAVE, layout);
    from_file.args(["frames", "from-file"]).current_dir(&folder);
    let mut from_pipe = told(FIELDSAVE, layout);
    from_pipe
        .args(["/dev/stdin", "from-pipe"])
        .current_dir(&folder);
    let outputs = [
        from_file.stdin(Stdio::null()).output().unwrap(),
        piped(&mut from_pipe, input, piece),
    ];
    for (mut output, filed) in outputs.into_iter().zip(["from-file", "from-pipe"]) {
        assert_eq!(String::from_utf8_lossy(&output.stderr), cut, "{name}");
        output.stderr.clear();
        told_nothing(output, name);
        let filed = fs::read(folder.join(filed)).unwrap();
        assert!(filed == expected, "{name}, {layout:?}");
    }
    let whole = listing.matches(" whole ts=").count();
    assert_eq!(read_back(&expected), (whole, 54), "{name}");
    assert_eq!(fielddiff(&expected, &expected), "");
    expected
}

fn packet(layout: Layout, head: &Head, cells: &[u16]) -> Vec<u8> {
    let mut out = vec![0; 30_000];
    let f = match layout {
        Layout::Rfc8331 => head.f,
        Layout::Draft2015 => 0,
    };
    let cells = carried(layout, cells.to_vec());
    let size = packet::write(layout, &Head { f, ..*head }, &cells, &mut out).unwrap();
    out.truncate(size);
    out
}

/// Packets one behind the other, each marked: all but the first are a field.
fn marked(layout: Layout, count: u32) -> Vec<u8> {
    let mut input = Vec::new();
    for k in 0..count {
        let head = Head {
            number: HEAD.number.wrapping_add(k),
            timestamp: HEAD.timestamp.wrapping_add(k),
            marker: true,
            ..HEAD
        };
        put_frame(&packet(layout, &head, &A), &mut input);
    }
    input
}

/// Of either layout, valid and damaged, told each.
#[test]
fn random_frames() {
    let mut r = Random::new(2_901);
    let mut fields = 0;
    for _ in 0..300 {
        let made = r.layout();
        let input = match r.below(2) {
            0 => framed(&mut r, made),
            _ => recording(&mut r, made),
        };
        let piece = r.pick(&[1 << 20, 4_096, 1_000, 97]);
        for layout in Layout::ALL {
            fields += read_back(&compare(layout, &input, piece, "random")).0;
        }
    }
    assert!(fields > 300, "{fields}");
}

#[test]
fn cut_anywhere() {
    for layout in Layout::ALL {
        let input = marked(layout, 4);
        for size in 0..=input.len() {
            let filed = compare(layout, &input[..size], 1 + size % 7, "cut");
            if size == input.len() {
                assert_eq!(read_back(&filed), (3, 54));
            }
        }
    }
}

/// 4,095 records of 36,864 cells in 17 packets, and then one more cell.
#[test]
fn fields_of_the_limit() {
    let mut r = Random::new(2_902);
    for layout in Layout::ALL {
        for (words, fields) in [(9, 1), (10, 0)] {
            let mut records = vec![record(&mut r, words)];
            records.extend((1..4_095).map(|_| record(&mut r, 0)));
            let mut input = Vec::new();
            put_frame(&packet(layout, &HEAD, &A), &mut input);
            for (k, part) in records.chunks(255).enumerate() {
                let head = Head {
                    number: HEAD.number + 1 + k as u32,
                    marker: k == 16,
                    ..HEAD
                };
                put_frame(&packet(layout, &head, &part.concat()), &mut input);
            }
            let filed = compare(layout, &input, 30_000, "limits");
            assert_eq!(read_back(&filed), (fields, 54));
        }
    }
}

/// Twenty megabytes, in an address space that has no room for them.
#[test]
fn a_long_input_in_little_memory() {
    let folder = folder("long");
    for (layout, old) in [(Layout::Rfc8331, ""), (Layout::Draft2015, " old")] {
        let mut input = Vec::new();
        for (head, cells, _) in Packets::new(2_903) {
            put_frame(&packet(layout, &head, &cells), &mut input);
            if input.len() > 20_000_000 {
                break;
            }
        }
        let mut limited = Command::new("sh");
        let name = format!("{layout:?}");
        limited
            .arg("-c")
            .arg(format!(
                "ulimit -v 8192 && exec \"$0\"{old} /dev/stdin {name}"
            ))
            .arg(program(FIELDSAVE))
            .current_dir(&folder);
        told_nothing(piped(&mut limited, &input, 1 << 16), "long");
        let filed = fs::read(folder.join(name)).unwrap();
        assert!(filed == fieldsave(layout, &input));
        assert!(filed.len() > 10_000_000);
    }
    fs::remove_dir_all(&folder).unwrap();
}

/// A file that may not grow over some blocks, as where a disk is full: the
/// write that fails is told, and what is there reads up to its last whole
/// field.
#[test]
fn a_full_disk() {
    let folder = folder("full");
    let input = marked(Layout::Rfc8331, 8_000);
    let whole = fieldsave(Layout::Rfc8331, &input);
    fs::write(folder.join("frames"), &input).unwrap();
    for blocks in [0, 1, 2, 7, 100] {
        let name = format!("out-{blocks}");
        let output = Command::new("sh")
            .arg("-c")
            .arg(format!(
                "trap '' XFSZ; ulimit -f {blocks}; exec \"$0\" frames {name}"
            ))
            .arg(program(FIELDSAVE))
            .current_dir(&folder)
            .output()
            .unwrap();
        let told = String::from_utf8_lossy(&output.stderr).into_owned();
        assert_eq!(told, format!("fieldsave: {name}: File too large\n"));
        let filed = fs::read(folder.join(name)).unwrap();
        assert!(filed.len() < whole.len() && whole.starts_with(&filed));
        let (fields, end) = read_back(&filed);
        match blocks {
            0 => assert_eq!((fields, end), (0, 50)),
            _ => {
                assert_eq!(fields, (filed.len() - START.len()) / 19);
                assert!([9, 52, 54].contains(&end));
            }
        }
    }
    fs::remove_dir_all(&folder).unwrap();
}

/// Nothing is printed, and this is told.
fn refuses(folder: &Path, arguments: &[&str], told: &str) {
    let output = Command::new(program(FIELDSAVE))
        .args(arguments)
        .current_dir(folder)
        .stdin(Stdio::null())
        .output()
        .unwrap();
    assert!(output.stdout.is_empty());
    assert_eq!(
        String::from_utf8_lossy(&output.stderr),
        told,
        "{arguments:?}"
    );
}

#[test]
fn arguments() {
    let folder = folder("arguments");
    let input = marked(Layout::Rfc8331, 3);
    for file in ["frames", "old", "-x"] {
        fs::write(folder.join(file), &input).unwrap();
    }
    fs::create_dir(folder.join("directory")).unwrap();
    fs::write(folder.join("there"), b"kept").unwrap();
    let few = "fieldsave: too few arguments, see --help\n";
    let many = "fieldsave: too many arguments, see --help\n";
    let long = "x".repeat(5_000);
    let failed = |what: &str| format!("fieldsave: {what}\n");
    for (arguments, told) in [
        (&[][..], few),
        (&["frames"], few),
        (&["old", "frames"], few),
        (&["frames", "out", "more"], many),
        (&["old", "frames", "out", "more"], many),
        (
            &["missing", "out"],
            &failed("missing: No such file or directory"),
        ),
        (&["directory", "out"], &failed("directory: Is a directory")),
        (&[&long, "out"], &failed("path: File name too long")),
        (&["frames", &long], &failed("path: File name too long")),
        (&["frames", "there"], &failed("there: File exists")),
        (&["frames", "frames"], &failed("frames: File exists")),
        (&["frames", "directory"], &failed("directory: File exists")),
        (
            &["frames", "missing/out"],
            &failed("missing/out: No such file or directory"),
        ),
        (&["frames", "-x"], "-x: unknown option, see --help\n"),
    ] {
        refuses(&folder, arguments, told);
        assert!(!folder.join("out").exists(), "{arguments:?}");
    }
    assert_eq!(fs::read(folder.join("there")).unwrap(), b"kept");
    assert_eq!(fs::read(folder.join("frames")).unwrap(), input);
    for (arguments, out, layout) in [
        (&["frames", "a"][..], "a", Layout::Rfc8331),
        (&["old", "old", "b"], "b", Layout::Draft2015),
        (&["./old", "c"], "c", Layout::Rfc8331),
        (&["./-x", "./--help"], "--help", Layout::Rfc8331),
    ] {
        refuses(&folder, arguments, "");
        let filed = fs::read(folder.join(out)).unwrap();
        assert_eq!(filed, fieldsave(layout, &input), "{arguments:?}");
    }
    fs::remove_dir_all(&folder).unwrap();
}
