//! What the programs that read frames share: `[old] [FILE]`.

use std::env::args_os;
use std::fs;
use std::io::{stdin, Read, Result};

use crate::layout::Layout;

/// The layout and the whole input. `old` as the first argument says that the
/// packets have the layout of the drafts of 2015; the next argument names a
/// file, without which the input is standard input.
pub fn layout_and_input() -> Result<(Layout, Vec<u8>)> {
    let mut arguments = args_os().skip(1).peekable();
    let layout = match arguments.next_if(|argument| argument == "old") {
        Some(_) => Layout::Draft2015,
        None => Layout::Rfc8331,
    };
    let mut input = Vec::new();
    match arguments.next() {
        Some(path) => input = fs::read(path)?,
        None => {
            stdin().lock().read_to_end(&mut input)?;
        }
    }
    Ok((layout, input))
}
