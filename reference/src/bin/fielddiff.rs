//! `fielddiff LEFT RIGHT`: every difference of two field files to standard
//! output, and nothing else. A file that can't be opened, or is not named,
//! reads as empty.

use std::env::args_os;
use std::ffi::OsString;
use std::fs::File;
use std::io::{stdout, Read, Write};

use reference::fielddiff;

fn contents(path: Option<OsString>) -> std::io::Result<Vec<u8>> {
    let mut octets = Vec::new();
    if let Some(Ok(mut file)) = path.map(File::open) {
        file.read_to_end(&mut octets)?;
    }
    Ok(octets)
}

fn main() -> std::io::Result<()> {
    let mut arguments = args_os().skip(1);
    let left = contents(arguments.next())?;
    let right = contents(arguments.next())?;
    stdout()
        .lock()
        .write_all(fielddiff(&left, &right).as_bytes())
}
