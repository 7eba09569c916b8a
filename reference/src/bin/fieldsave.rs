//! `fieldsave [old] [FILE]`: frames from standard input, or from the file
//! that the argument names; the field file to standard output. `old` says that
//! the packets have the layout of the drafts of 2015.

use std::io::{stdout, Write};

use reference::fieldsave;
use reference::program::layout_and_input;

fn main() -> std::io::Result<()> {
    let (layout, input) = layout_and_input()?;
    stdout().lock().write_all(&fieldsave(layout, &input))
}
