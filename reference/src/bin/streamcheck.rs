//! `streamcheck [old] [FILE]`: an encoder's recorded output, as frames from
//! standard input or from the file that the argument names; where it breaks
//! the rules to standard output, and nothing else. `old` says that the packets
//! have the layout of the drafts of 2015.

use std::io::{stdout, Write};

use reference::program::layout_and_input;
use reference::streamcheck;

fn main() -> std::io::Result<()> {
    let (layout, input) = layout_and_input()?;
    stdout()
        .lock()
        .write_all(streamcheck(layout, &input).as_bytes())
}
