//! The header: C programs that use all of it, the examples in C and C++, and
//! the declarations in Rust and the table of docs/FORMATS.md, which must say the same.

use std::collections::BTreeMap;
use std::fs;
use std::path::{Path, PathBuf};
use std::process::Command;

use reference::depacketizer::{arrive, open, Answer};
use reference::file::{write, START};
use reference::frames::{Frame, Frames};
use reference::packet::{check, MAX_PACKET};
use reference::{outlet, sdp, Layout};

const HEADER: &str = include_str!("../../include/jibhotran.h");
const FORMATS: &str = include_str!("../../docs/FORMATS.md");
const DECLARATIONS: &str = include_str!("../src/archive.rs");

fn root() -> PathBuf {
    Path::new(env!("CARGO_MANIFEST_DIR")).join("..")
}

/// A source compiled with the header, as strictly as compilers are told, and
/// linked with the archives.
fn compiled(compiler: &str, standard: &str, source: &str) -> PathBuf {
    let source = root().join(source);
    let name = source
        .file_name()
        .unwrap()
        .to_str()
        .unwrap()
        .replace('.', "-");
    let program = Path::new(env!("CARGO_TARGET_TMPDIR")).join(name);
    let compiled = Command::new(compiler)
        .arg(standard)
        .args(["-Wall", "-Wextra", "-Wpedantic", "-Werror", "-I"])
        .arg(root().join("include"))
        .arg(source)
        .args(
            env!("CAPI_ARCHIVES")
                .split(' ')
                .map(|name| Path::new(env!("CAPI_FOLDER")).join(format!("lib{name}.a"))),
        )
        .arg("-o")
        .arg(&program)
        .output()
        .unwrap_or_else(|e| panic!("the compiler `{compiler}`: {e}"));
    let errors = String::from_utf8_lossy(&compiled.stderr);
    assert!(compiled.status.success(), "{errors}");
    program
}

/// What a program prints.
fn printed(command: &mut Command) -> String {
    let output = command.output().unwrap();
    assert!(output.status.success(), "{:?}", output.status);
    String::from_utf8(output.stdout).unwrap()
}

/// Every function through a pointer of its type.
#[test]
fn a_c_program() {
    let program = compiled("cc", "-std=c11", "differential/tests/header.c");
    assert_eq!(
        printed(&mut Command::new(program)),
        include_str!("header.txt")
    );
}

/// Texts, structs, sizes at their borders, and what an empty slice means.
#[test]
fn names_and_structs() {
    let program = compiled("cc", "-std=c11", "differential/tests/names.c");
    assert_eq!(
        printed(&mut Command::new(program)),
        include_str!("names.txt")
    );
}

/// The fields of a recorded stream as the reference files them, and how many
/// packets were fresh, late and missing.
fn filed(frames: &[u8]) -> (Vec<u8>, String) {
    let (mut file, mut counts) = (START.to_vec(), String::new());
    let mut store = vec![0; 36_864];
    let mut out = vec![0; 49_159];
    let mut state = None;
    for frame in Frames::new(frames) {
        let Frame::Packet(packet) = frame else { break };
        if state.is_none() {
            let Ok(first) = check(Layout::Rfc8331, packet) else {
                continue;
            };
            state = open(first.summary.source, first.summary.payload_type).ok();
        }
        let (next, answer) = arrive(state.unwrap(), Layout::Rfc8331, packet, &mut store);
        state = Some(next);
        counts = format!(
            "fresh={} late={} missing={}\n",
            next.fresh, next.late, next.missing
        );
        if let Answer::Whole {
            timestamp,
            f,
            cells,
            ..
        } = answer
        {
            let size = write(timestamp, f, &store[..cells], &mut out).unwrap();
            file.extend(&out[..size]);
        }
    }
    (file, counts)
}

/// The examples gather recorded streams, and file what the reference does.
#[test]
fn the_examples() {
    let programs = [
        compiled("cc", "-std=c11", "examples/gather.c"),
        compiled("c++", "-std=c++17", "examples/gather.cpp"),
    ];
    let out = Path::new(env!("CARGO_TARGET_TMPDIR")).join("gathered.anf");
    for frames in [
        "crates/fieldlist/stdin",
        "differential/tests/power-cycle.rtp",
    ] {
        let frames = root().join(frames);
        let (file, counts) = filed(&fs::read(&frames).unwrap());
        assert!(file.len() > START.len());
        for program in &programs {
            assert_eq!(
                printed(Command::new(program).arg(&frames).arg(&out)),
                counts
            );
            assert_eq!(fs::read(&out).unwrap(), file);
        }
    }
}

/// A parameter's name and its type as Rust says it.
type Parameters = Vec<(String, String)>;

/// The types that the header uses.
fn rust_type(c: &str) -> String {
    let plain = |name: &str| match name {
        "uint8_t" => "u8",
        "uint16_t" => "u16",
        "uint32_t" => "u32",
        "uint64_t" => "u64",
        "size_t" => "usize",
        "struct jibhotran_pair" => "Pair",
        other => panic!("{other}"),
    };
    match (c.strip_prefix("const "), c.strip_suffix("*")) {
        (_, None) => plain(c).to_string(),
        (None, Some(target)) => format!("*mut {}", plain(target.trim())),
        (Some(_), Some(target)) => format!("*const {}", plain(target["const ".len()..].trim())),
    }
}

/// `const uint8_t *octets` as name and type.
fn c_parameter(text: &str) -> (String, String) {
    let text = text.trim();
    let name = text.rfind([' ', '*']).unwrap() + 1;
    (text[name..].to_string(), rust_type(text[..name].trim()))
}

fn rust_parameter(text: &str) -> (String, String) {
    let (name, kind) = text.split_once(':').unwrap();
    (name.trim().to_string(), kind.trim().to_string())
}

/// All functions that are declared after `before`, each with its end.
fn functions(
    text: &str,
    before: &str,
    end: &str,
    parameter: fn(&str) -> (String, String),
) -> BTreeMap<String, Parameters> {
    let pieces = text.split(before).skip(1);
    pieces
        .map(|piece| {
            let (name, rest) = piece.split_once('(').unwrap();
            let (parameters, rest) = rest.split_once(')').unwrap();
            assert!(rest.starts_with(end), "{name}");
            let parameters = parameters.split(',').map(parameter).collect();
            (name.to_string(), parameters)
        })
        .collect()
}

#[test]
fn the_declarations_agree() {
    let in_c = functions(HEADER, "\nuint8_t jibhotran_", ";", c_parameter);
    let in_rust = functions(
        DECLARATIONS,
        "\n    fn jibhotran_",
        " -> u8;",
        rust_parameter,
    );
    assert_eq!(in_c.len(), 17);
    assert_eq!(in_c, in_rust);
}

/// The numbers that the header defines.
fn defined() -> BTreeMap<&'static str, u64> {
    HEADER
        .lines()
        .filter_map(|line| line.strip_prefix("#define JIBHOTRAN_")?.split_once(' '))
        .filter_map(|(name, value)| Some((name, value.parse().ok()?)))
        .collect()
}

#[test]
fn the_constants_agree() {
    let expected = [
        ("ANSWER", differential::ANSWER as u64),
        ("STATE", differential::STATE as u64),
        ("OUTLET_STATE", differential::OUTLET_STATE as u64),
        ("OUTLET_MEMORY", differential::OUTLET_MEMORY as u64),
        ("OUTLET_PACKET", differential::OUTLET_PACKET as u64),
        ("ROW", differential::ROW as u64),
        ("LAYOUT", differential::LAYOUT as u64),
        ("RFC8331", differential::RFC8331 as u64),
        ("DRAFTS", differential::DRAFTS as u64),
        ("SKIPPED", differential::SKIPPED),
        ("HELD", differential::HELD),
        ("MIXED", differential::MIXED),
        ("OVERFULL", differential::OVERFULL),
        ("WHOLE", differential::WHOLE),
        ("NO_VPID", differential::NO_VPID as u64),
        ("PACKET_OCTETS", MAX_PACKET as u64),
        ("FILE_HEAD_OCTETS", START.len() as u64),
        ("PAIR_OCTETS", 2 * sdp::MAX_PAIRS as u64),
        ("CHANNELS", outlet::CHANNELS as u64),
    ];
    let defined = defined();
    for (name, value) in expected {
        assert_eq!(defined.get(name), Some(&value), "{name}");
    }
    // The first five `names.c` tries at their borders.
    let tried = [
        "PACKET_CELLS",
        "FIELD_CELLS",
        "LINE_CELLS",
        "FIELD_OCTETS",
        "TEXT_OCTETS",
    ];
    let places = ["RECORD_HEAD", "COUNT_CELL", "INDEX_CELL"];
    let version = ["VERSION_MAJOR", "VERSION_MINOR", "VERSION_PATCH"];
    let others = [&tried[..], &places, &version].concat();
    assert_eq!(defined.len(), expected.len() + others.len());
    assert!(others.iter().all(|name| defined.contains_key(name)));
    let numbers = version.map(|name| defined[name].to_string());
    let line = format!("#define JIBHOTRAN_VERSION \"{}\"\n", numbers.join("."));
    assert!(HEADER.contains(&line));
}

/// The enum has FORMATS' numbers and names, without the reserved one, and each
/// has a text.
#[test]
fn the_refusals_agree() {
    let in_c: BTreeMap<u8, &str> = HEADER
        .lines()
        .filter_map(|line| line.strip_prefix("    JIBHOTRAN_")?.split_once(" = "))
        .map(|(name, value)| (value.trim_end_matches(',').parse().unwrap(), name))
        .collect();
    let mut in_formats: BTreeMap<u8, &str> = FORMATS
        .lines()
        .filter_map(|line| line.strip_prefix("| ")?.split_once(" | `"))
        .filter_map(|(number, rest)| Some((number.parse().ok()?, rest.split_once('`')?.0)))
        .collect();
    assert_eq!(in_formats.remove(&22), Some("PACKET_TOO_LONG"));
    in_formats.insert(0, "ACCEPTED");
    assert_eq!(in_c, in_formats);
    for number in in_c.keys() {
        let text = format!("\n{number} ");
        assert!(include_str!("names.txt").contains(&text), "{number}");
    }
}
