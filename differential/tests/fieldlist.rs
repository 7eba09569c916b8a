//! The program `fieldlist` against the reference's listing, byte for byte:
//! its input through a pipe, in pieces, and as a file that its argument
//! names, with `old` before it and without. The program is the one that
//! FIELDLIST names, otherwise `../target/bin/fieldlist`.

use std::fs;
use std::path::Path;
use std::process::{Command, Stdio};

use differential::program::{from_file, piped, program, same, told, unwritable};
use reference::frames::put_frame;
use reference::packet::{self, Head};
use reference::random::{carried, framed, record, Parts, Random};
use reference::realistic::Packets;
use reference::runs::{A, HEAD};
use reference::Layout;

const FIELDLIST: &str = "fieldlist";

/// The listing where that layout is told, from a pipe and from a file.
fn compare(layout: Layout, input: &[u8], piece: usize, name: &str) -> String {
    let expected = reference::fieldlist(layout, input);
    let output = piped(&mut told(FIELDLIST, layout), input, piece);
    same(output, &expected, &format!("{name}, {layout:?}, piped"));
    let path = Path::new(env!("CARGO_TARGET_TMPDIR")).join(name);
    let output = from_file(&mut told(FIELDLIST, layout), input, &path);
    same(output, &expected, &format!("{name}, {layout:?}, a file"));
    expected
}

/// The listings of one input, told each layout.
fn compare_both(input: &[u8], piece: usize, name: &str) -> [String; 2] {
    Layout::ALL.map(|layout| compare(layout, input, piece, name))
}

/// The drafts' layout carries no F, S and StreamNum.
fn packet(layout: Layout, head: &Head, cells: &[u16]) -> Vec<u8> {
    let mut out = vec![0; 30_000];
    let f = match layout {
        Layout::Rfc8331 => head.f,
        Layout::Draft2015 => 0,
    };
    let cells = carried(layout, cells.to_vec());
    let size = packet::write(layout, &Head { f, ..*head }, &cells, &mut out).unwrap();
    out.truncate(size);
    out
}

/// 01's input: four marked frames with record A.
fn example(layout: Layout) -> Vec<u8> {
    let mut input = Vec::new();
    for (number, timestamp, f) in [(7, 1000, 2), (8, 2501, 3), (8, 2501, 3), (10, 5504, 3)] {
        let head = Head {
            number,
            timestamp,
            f,
            ..HEAD
        };
        put_frame(&packet(layout, &head, &A), &mut input);
    }
    input
}

/// A recorded power cycle, as the README shows it.
#[test]
fn power_cycle() {
    let input = include_bytes!("power-cycle.rtp");
    let listed = compare(Layout::Rfc8331, input, 7, "power_cycle");
    assert_eq!(listed, include_str!("power-cycle.txt"));
}

/// In its own layout; told the other, each frame is 7.
#[test]
fn the_example_of_01() {
    let listing = |f: u8| {
        format!(
            "fieldlist 1\n\
            7 skipped\n\
            8 whole ts=2501 f={f} records=1\n \
            y line=9 off=0 s=0/0 did=41 sdid=05 words=0\n\
            8 late\n\
            10 skipped\n\
            fresh=3 late=1 missing=1\n"
        )
    };
    let refused = format!(
        "fieldlist 1\n{}fresh=0 late=0 missing=0\n",
        "refused 7 0\n".repeat(4)
    );
    let [rfc, old] = Layout::ALL.map(example);
    let listings = compare_both(&rfc, usize::MAX, "example");
    assert_eq!(listings, [listing(3), refused.clone()]);
    let listings = compare_both(&old, usize::MAX, "example");
    assert_eq!(listings, [refused, listing(0)]);
}

#[test]
fn the_example_cut_everywhere() {
    for layout in Layout::ALL {
        let input = example(layout);
        for size in 0..=input.len() {
            compare(layout, &input[..size], 1 + size % 7, "cut");
        }
    }
}

/// `old` is a word by itself and the first: any other is a file's name, and
/// so is a second `old`. `options.rs` has the options.
#[test]
fn arguments() {
    let folder = Path::new(env!("CARGO_TARGET_TMPDIR")).join("arguments");
    fs::create_dir_all(&folder).unwrap();
    let [rfc, old] = Layout::ALL;
    for (arguments, file, layout) in [
        (&["ol"][..], "ol", rfc),
        (&["older"], "older", rfc),
        (&["Old"], "Old", rfc),
        (&["OLD"], "OLD", rfc),
        (&["./-old"], "-old", rfc),
        (&["./old"], "old", rfc),
        (&["name"], "name", rfc),
        (&["old", "old"], "old", old),
        (&["old", "name"], "name", old),
    ] {
        for made in Layout::ALL {
            let input = example(made);
            fs::write(folder.join(file), &input).unwrap();
            let output = Command::new(program(FIELDLIST))
                .args(arguments)
                .current_dir(&folder)
                .stdin(Stdio::null())
                .output()
                .unwrap();
            let expected = reference::fieldlist(layout, &input);
            same(output, &expected, &format!("{arguments:?}"));
        }
    }
    fs::remove_dir_all(&folder).unwrap();
}

#[test]
fn small_inputs() {
    let inputs: [&[u8]; 7] = [
        &[],
        &[0],
        &[255],
        &[0, 0],
        &[0, 0, 0, 0],
        &[0, 0, 0, 1, 0x80],
        &[0, 5, 1],
    ];
    for input in inputs {
        let [rfc, old] = compare_both(input, 1, "small");
        assert_eq!(rfc, old);
    }
}

/// Packets of 65,535 octets, the most that a frame holds: one of few records
/// behind a long extension, which makes a whole field; one of 199 records,
/// which no field holds; and the first refused by its version and by the
/// checksum of its last record.
#[test]
fn the_longest_frames() {
    let mut r = Random::new(601);
    let list: Vec<u16> = (0..62).flat_map(|_| record(&mut r, 255)).collect();
    let many: Vec<u16> = (0..199).flat_map(|_| record(&mut r, 255)).collect();
    let numbered = |number| Head { number, ..HEAD };
    for layout in Layout::ALL {
        let mut whole = Parts::of(layout, numbered(8), &list);
        fill(&mut whole);
        let mut bad = whole.clone();
        bad.anc[61].words[100] ^= 1;
        let mut overfull = Parts::of(layout, numbered(9), &many);
        fill(&mut overfull);
        let mut input = Vec::new();
        put_frame(&packet(layout, &HEAD, &A), &mut input);
        for parts in [&whole, &bad, &overfull] {
            put_frame(&parts.assemble(), &mut input);
        }
        put_frame(&[0; 65_535], &mut input);
        let f = if layout == Layout::Rfc8331 { 2 } else { 0 };
        let listing = compare(layout, &input, 50_000, "longest");
        for line in [
            &format!("\n8 whole ts=1000 f={f} records=62\n"),
            "\nrefused 11 61\n",
            "\n9 overfull\n",
            "\nrefused 3 0\n",
        ] {
            assert!(listing.contains(line), "{layout:?}: {line}");
        }
    }
}

/// Up to 65,535 octets: by an extension where padding cannot do it, and by
/// padding.
fn fill(parts: &mut Parts) {
    let mut left = 65_535 - parts.assemble().len();
    if left > 255 {
        parts.extension = Some((9, vec![0xABCD_EF01; (left - 4) / 4]));
        left %= 4;
    }
    let mut padding = vec![0; left];
    if let Some(last) = padding.last_mut() {
        *last = left as u8;
        parts.padding = Some(padding);
    }
    assert_eq!(parts.assemble().len(), 65_535);
}

/// The limits of a field, each in 17 packets: 4,095 records of 36,864 cells in
/// all are one; a cell more is overfull, and so is a record more.
#[test]
fn fields_of_the_limit() {
    let mut r = Random::new(604);
    let mut records = |first, count| -> Vec<Vec<u16>> {
        let words = |k| if k == 0 { first } else { 0 };
        (0..count).map(|k| record(&mut r, words(k))).collect()
    };
    let fields = [records(9, 4_095), records(10, 4_095), records(0, 4_096)];
    let sizes = fields.each_ref().map(|field| field.concat().len());
    assert_eq!(sizes, [36_864, 36_865, 36_864]);
    for (layout, f) in [(Layout::Rfc8331, 2), (Layout::Draft2015, 0)] {
        let mut input = Vec::new();
        let mut expected = vec!["7 skipped".to_string()];
        put_frame(&packet(layout, &HEAD, &A), &mut input);
        let mut number = HEAD.number;
        let whole = format!("whole ts=1000 f={f} records=4095");
        for (field, last) in fields.iter().zip([&whole, "overfull", "overfull"]) {
            for (k, part) in field.chunks(255).enumerate() {
                number += 1;
                let marker = k == 16;
                let head = Head {
                    number,
                    marker,
                    ..HEAD
                };
                put_frame(&packet(layout, &head, &part.concat()), &mut input);
                expected.push(format!("{number} {}", if marker { last } else { "held" }));
            }
        }
        let listing = compare(layout, &input, 30_000, "limits");
        let answers: Vec<&str> = listing
            .split('\n')
            .filter(|line| line.starts_with(|c: char| c.is_ascii_digit()))
            .collect();
        assert_eq!(answers, expected);
    }
}

/// Its first line already cannot be written.
#[test]
fn output_that_cannot_be_written() {
    unwritable(FIELDLIST, &[]);
}

/// Of either layout, told each.
#[test]
fn random_frames() {
    let mut r = Random::new(602);
    for _ in 0..400 {
        let layout = r.layout();
        let input = framed(&mut r, layout);
        let piece = r.pick(&[1 << 20, 4_096, 1_000, 97]);
        compare_both(&input, piece, "random");
    }
}

/// Twenty megabytes, in an address space that has no room for them.
#[test]
fn a_long_input_in_little_memory() {
    for (layout, arguments) in [(Layout::Rfc8331, ""), (Layout::Draft2015, " old")] {
        let mut input = Vec::new();
        for (head, cells, _) in Packets::new(603) {
            put_frame(&packet(layout, &head, &cells), &mut input);
            if input.len() > 20_000_000 {
                break;
            }
        }
        let mut limited = Command::new("sh");
        limited
            .arg("-c")
            .arg(format!("ulimit -v 8192 && exec \"$0\"{arguments}"))
            .arg(program(FIELDLIST));
        let output = piped(&mut limited, &input, 1 << 16);
        let expected = reference::fieldlist(layout, &input);
        assert!(expected.contains(" whole "));
        same(output, &expected, &format!("long, {layout:?}"));
    }
}
