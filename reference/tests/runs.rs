//! The text of the run-only cases, worked out by hand.

use reference::runs::reference_text;

/// The cells of record A sum to 79. Its bits are C 1, line 11 (9), offset
/// 12, S 1, StreamNum 7, three header words, the checksum, the alignment.
fn bit_line(bit: u32) -> String {
    let read = |sum: u32| format!("bit {bit}: read 1 9 {sum}");
    match bit {
        0 | 24 => read(80),
        1..12 => read(70 + (9 ^ 1 << (11 - bit))),
        12..24 => read(79 + (1 << (23 - bit))),
        25..32 => read(79 + (1 << (31 - bit))),
        32..62 => format!("bit {bit}: refused 10 0"),
        62..72 => format!("bit {bit}: refused 11 0"),
        _ => format!("bit {bit}: refused 12 0"),
    }
}

/// 255 records take 20 + 255 x 12 octets and sum to 255 x 79. The 36,864
/// cells are 139 records of 255 words and one of 159: 20 + 139 x 328 + 208
/// octets. Their heads sum to 140 x 79 + 139 x 255 + 159 = 46,664 and their
/// 35,604 words, 35 times 4 to 1,019 and then 4 to 47, to
/// 35 x 519,684 + 1,122 = 18,190,062: 17,718 modulo 65,536.
#[test]
fn the_text() {
    let mut lines = vec![
        "records 255: written 3080 read 255 2295 20145".to_string(),
        "records 256: refused 21 0".to_string(),
        "cells 36864: written 45820 read 140 36864 17718".to_string(),
        "cells 36865: refused 21 0".to_string(),
        "padding 0: refused 4 0".to_string(),
    ];
    lines.extend((0..96).map(bit_line));
    let text = reference_text();
    assert_eq!(text.lines().collect::<Vec<_>>(), lines);
    assert!(text.ends_with('\n'));
}

/// The proved program prints the same: its check compares it with this file.
#[test]
fn the_proved_program() {
    let proved = include_str!("../../crates/example_limits/stdout");
    assert_eq!(reference_text(), proved);
}
