//! Reads that fail: nothing more is printed than what the reference prints for
//! any input that begins with the octets read, neither `cut` nor counts, and
//! standard error names the file. A read that a signal interrupts is tried
//! again. `fielddiff` takes a file whose first read fails for an empty one
//! (02, K14: "A file that can't be opened reads as empty: 50").
//!
//! A library that is preloaded (`reads.c`) makes a read fail after any number
//! of octets; `/proc/self/mem` is a file whose first read fails.

use std::fs::{self, File};
use std::path::{Path, PathBuf};
use std::process::{Command, Stdio};
use std::sync::OnceLock;

use differential::program::program;
use reference::capture::{pcapframes, Order};
use reference::file::Version;
use reference::frames::put_frame;
use reference::packet::Head;
use reference::random::{anc_of, captured, file_field, pcap_head, pcap_record, record};
use reference::random::{Parts, Random};
use reference::{fielddiff, fieldlist, fieldsave, streamcheck, Layout};

const EINTR: i32 = 4;
const EIO: i32 = 5;
const REASON: &str = "Input/output error";
const PORT: u16 = 20_000;

/// The descriptor of the first file that a program opens.
const FIRST: i32 = 3;

fn folder(name: &str) -> PathBuf {
    let folder = Path::new(env!("CARGO_TARGET_TMPDIR")).join(format!("reads-{name}"));
    let _ = fs::remove_dir_all(&folder);
    fs::create_dir_all(&folder).unwrap();
    folder
}

/// `reads.c`, compiled once.
fn preloaded() -> &'static Path {
    static LIBRARY: OnceLock<PathBuf> = OnceLock::new();
    LIBRARY.get_or_init(|| {
        let library = Path::new(env!("CARGO_TARGET_TMPDIR")).join("reads.so");
        let source = Path::new(env!("CARGO_MANIFEST_DIR")).join("tests/reads.c");
        let output = Command::new("cc")
            .args([
                "-std=c11", "-Wall", "-Wextra", "-Werror", "-shared", "-fPIC",
            ])
            .arg(source)
            .arg("-o")
            .arg(&library)
            .arg("-ldl")
            .output()
            .unwrap();
        let errors = String::from_utf8_lossy(&output.stderr);
        assert!(output.status.success(), "{errors}");
        library
    })
}

/// Which read fails, and how.
struct Failure {
    descriptor: i32,
    after: usize,
    number: i32,
}

impl Failure {
    fn eio(descriptor: i32, after: usize) -> Failure {
        let number = EIO;
        Failure {
            descriptor,
            after,
            number,
        }
    }
}

/// What a program prints and reports.
fn run(name: &str, words: &[&str], folder: &Path, failure: &Failure) -> (Vec<u8>, String) {
    let mut command = Command::new(program(name));
    if failure.number == EINTR {
        command.env("FAIL_ONCE", "1");
    }
    let output = command
        .args(words)
        .current_dir(folder)
        .env("LD_PRELOAD", preloaded())
        .env("FAIL_FD", failure.descriptor.to_string())
        .env("FAIL_AFTER", failure.after.to_string())
        .env("FAIL_ERRNO", failure.number.to_string())
        .stdin(File::open(folder.join("input")).unwrap())
        .stdout(Stdio::piped())
        .stderr(Stdio::piped())
        .output()
        .unwrap();
    assert!(output.status.success(), "{name} {words:?}");
    let errors = String::from_utf8(output.stderr).unwrap();
    (output.stdout, errors)
}

/// Packets with a record each, every second marked, in frames.
fn recording() -> Vec<u8> {
    let mut input = Vec::new();
    for number in 7..12 {
        let head = Head {
            source: 1,
            payload_type: 112,
            marker: number % 2 == 1,
            number,
            timestamp: 1_000 + number / 2,
            f: 0,
        };
        let cells = [0, 9, 0, 0, 0, 0x41, 0x05, 2, 0, 0x123, 0x145];
        let packet = Parts::of(Layout::Rfc8331, head, &cells).assemble();
        put_frame(&packet, &mut input);
    }
    input
}

fn capture() -> Vec<u8> {
    let mut r = Random::new(2_910);
    let mut capture = pcap_head(Order::Big, 0xA1B2_C3D4, 1);
    for _ in 0..4 {
        pcap_record(Order::Big, &captured(&mut r, PORT, 1), &mut capture);
    }
    capture
}

/// With what all of these begin; of texts whole lines.
fn common(outputs: &[Vec<u8>], is_text: bool) -> &[u8] {
    let first = &outputs[0];
    let same = |at: &usize| {
        outputs
            .iter()
            .all(|output| output.get(*at) == first.get(*at))
    };
    let common = &first[..(0..first.len()).take_while(same).count()];
    let last = common.iter().rposition(|&octet| octet == b'\n');
    match is_text {
        true => &common[..last.map_or(0, |last| last + 1)],
        false => common,
    }
}

/// A program over frames or captures that fails to read after some two hundred
/// numbers of octets: it prints the beginning that is sure, whatever follows what was read
/// (nothing, an empty frame, octets that are no packet, or the rest), and names
/// what it reads.
fn stops(name: &str, words: &[&str], input: &[u8], output: impl Fn(&[u8]) -> Vec<u8>) {
    let folder = folder(name);
    fs::write(folder.join("input"), input).unwrap();
    fs::write(folder.join("recording.rtp"), input).unwrap();
    for after in (0..input.len()).step_by(1 + input.len() / 200) {
        let read = &input[..after];
        let longer = [read, &[0, 0]].concat();
        let longest = [read, &[0xFF; 70_000]].concat();
        let outputs = [read, &longer, &longest, input].map(&output);
        let sure = common(&outputs, name != "pcapframes");
        for (word, file, descriptor) in [
            (None, "standard input", 0),
            (Some("recording.rtp"), "recording.rtp", FIRST),
        ] {
            let words = [words, word.as_slice()].concat();
            let (printed, errors) = run(name, &words, &folder, &Failure::eio(descriptor, after));
            assert_eq!(errors, format!("{name}: {file}: {REASON}\n"), "{after}");
            assert_eq!(printed, sure, "{name} {after}");
            if after % 5 > 0 {
                continue;
            }
            let signal = Failure {
                descriptor,
                after,
                number: EINTR,
            };
            let (printed, errors) = run(name, &words, &folder, &signal);
            assert_eq!(printed, output(input), "{name} {after}");
            assert!(!errors.contains(':'), "{errors}");
        }
    }
}

#[test]
fn fieldlist_stops() {
    stops("fieldlist", &[], &recording(), |input| {
        fieldlist(Layout::Rfc8331, input).into_bytes()
    });
}

#[test]
fn streamcheck_stops() {
    // A packet number that is not the next, so that something is printed.
    let mut input = recording();
    let half = input.len() / 5 * 2;
    input.drain(half..half + input.len() / 5);
    stops("streamcheck", &[], &input, |input| {
        streamcheck(Layout::Rfc8331, input).into_bytes()
    });
}

/// Neither frames after the failure nor `refused 81`, "capture cut".
#[test]
fn pcapframes_stops() {
    let port = PORT.to_string();
    stops("pcapframes", &[&port], &capture(), |input| {
        pcapframes(PORT, input).frames
    });
}

/// The file has the fields that were whole, and no message of a cut frame.
#[test]
fn fieldsave_stops() {
    let folder = folder("fieldsave");
    let input = recording();
    fs::write(folder.join("input"), &input).unwrap();
    for after in 0..input.len() {
        let words = ["input", "out.anf"];
        let (printed, errors) = run("fieldsave", &words, &folder, &Failure::eio(FIRST, after));
        assert_eq!(errors, format!("fieldsave: input: {REASON}\n"));
        assert!(printed.is_empty());
        let filed = fs::read(folder.join("out.anf")).unwrap();
        assert_eq!(filed, fieldsave(Layout::Rfc8331, &input[..after]));
        fs::remove_file(folder.join("out.anf")).unwrap();
    }
}

/// Two field files of 30 fields that differ in each, of more octets than
/// `fielddiff` reads before it looks at the first.
fn field_files() -> [Vec<u8>; 2] {
    let mut r = Random::new(2_911);
    let cells: Vec<u16> = (0..3).flat_map(|n| record(&mut r, n)).collect();
    [5, 6].map(|word| {
        let mut cells = cells.clone();
        cells[2] = word;
        let anc = anc_of(&cells);
        let mut file = Version::Two.start().to_vec();
        for timestamp in 0..30 {
            file.extend(file_field(Version::Two, timestamp, 2, 3, &anc));
        }
        file
    })
}

/// A first read that fails is 50 on its side; a later one ends the list, which
/// is a beginning of the right one, and says which of the files failed.
#[test]
fn fielddiff_stops() {
    let folder = folder("fielddiff");
    let [left, right] = field_files();
    fs::write(folder.join("input"), "").unwrap();
    fs::write(folder.join("left.anf"), &left).unwrap();
    fs::write(folder.join("right.anf"), &right).unwrap();
    let whole = fielddiff(&left, &right);
    let mut lines = 0;
    for after in (0..left.len()).step_by(7) {
        for (side, descriptor) in [("left", FIRST), ("right", FIRST + 1)] {
            let words = ["left.anf", "right.anf"];
            let failure = Failure::eio(descriptor, after);
            let (printed, errors) = run("fielddiff", &words, &folder, &failure);
            let printed = String::from_utf8(printed).unwrap();
            assert_eq!(errors, format!("fielddiff: {side}.anf: {REASON}\n"));
            match (after, side) {
                (0, "left") => assert_eq!(printed, fielddiff(&[], &right)),
                (0, _) => assert_eq!(printed, fielddiff(&left, &[])),
                _ => assert!(whole.starts_with(&printed) && printed.len() < whole.len()),
            }
            lines = lines.max(printed.lines().count());
            let signal = Failure {
                descriptor,
                after,
                number: EINTR,
            };
            let again = run("fielddiff", &words, &folder, &signal);
            assert_eq!(again, (whole.clone().into_bytes(), String::new()));
        }
    }
    assert!(lines > 15, "{lines} of {whole}");
}

/// `/proc/self/mem` can be opened, and its first read fails.
#[test]
fn first_reads_that_fail() {
    let folder = folder("first");
    fs::write(folder.join("there.anf"), Version::Two.start()).unwrap();
    let memory = "/proc/self/mem";
    for (words, list, times) in [
        ([memory, "there.anf"], "0 refused 50 -\n", 1),
        (["there.anf", memory], "0 refused - 50\n", 1),
        ([memory, memory], "0 refused 50 50\n", 2),
    ] {
        let output = Command::new(program("fielddiff"))
            .args(words)
            .current_dir(&folder)
            .output()
            .unwrap();
        let message = format!("fielddiff: {memory}: {REASON}\n");
        assert_eq!(
            String::from_utf8(output.stderr).unwrap(),
            message.repeat(times)
        );
        assert_eq!(String::from_utf8(output.stdout).unwrap(), list);
    }
    for (name, words, printed) in [
        ("fieldlist", &[memory][..], "fieldlist 1\n"),
        ("streamcheck", &[memory], ""),
        ("pcapframes", &["20000", memory], ""),
        ("fieldsave", &[memory, "out.anf"], ""),
    ] {
        let output = Command::new(program(name))
            .args(words)
            .current_dir(&folder)
            .output()
            .unwrap();
        let message = format!("{name}: {memory}: {REASON}\n");
        assert_eq!(String::from_utf8(output.stderr).unwrap(), message);
        assert_eq!(String::from_utf8(output.stdout).unwrap(), printed);
    }
    assert_eq!(
        fs::read(folder.join("out.anf")).unwrap(),
        Version::Two.start()
    );
}
