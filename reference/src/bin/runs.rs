//! Prints the cases that 01 says are run only, a line each.
//!
//! A line is a name, `: ` and one of
//!
//!     written OCTETS read RECORDS CELLS SUM
//!     read RECORDS CELLS SUM
//!     refused NUMBER INDEX
//!
//! and a line feed; all numbers are decimal without leading zeros. SUM is
//! the sum of the cells read, modulo 65,536.
//!
//! The layout is RFC 8331's, the reader the strict one. Every packet has
//! source 1, payload type 112, M set, number 7, timestamp 1000 and F 2. The
//! writer is lent 65,535 octets, the reader 36,864 cells. The lines, in order:
//!
//! - `records 255`, `records 256`: a list of that many records A (cells
//!   0 9 0 0 0 0x41 0x05 0 0) is written and, if it was, the packet is read.
//! - `cells 36864`, `cells 36865`: the same for a list of 139 records of 255
//!   words and one of 159 words, or of 160. Their nine cells before the words
//!   are those of record A but for n. The words count on through the whole list from 4 to
//!   1,019 and again: the first record's are 4 to 258, the second's begin
//!   with 259.
//! - `padding 0`: the packet of one record A, with 0x20 added to its first
//!   octet (P), is read. Its last octet is 0.
//! - `bit 0` to `bit 95`: the packet of one record A, with that bit of the
//!   record's 12 octets changed, is read. The record begins at octet 20;
//!   bit 0 is the most significant bit of that octet.

use std::io::{stdout, Write};

use reference::runs::reference_text;

fn main() -> std::io::Result<()> {
    stdout().lock().write_all(reference_text().as_bytes())
}
