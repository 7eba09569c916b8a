//! The programs that read frames, run on an input: through a pipe, in pieces,
//! and as a file that an argument names, with `old` before it and without. A
//! program is the one that the variable of its name in capitals tells,
//! otherwise the one in `../target/bin`.

use std::env;
use std::fs;
use std::io::Write;
use std::path::{Path, PathBuf};
use std::process::{Command, Output, Stdio};
use std::thread;

use reference::Layout;

pub fn program(name: &str) -> PathBuf {
    let built = Path::new(env!("CARGO_MANIFEST_DIR"))
        .join("../target/bin")
        .join(name);
    let path = env::var_os(name.to_uppercase()).map_or(built, PathBuf::from);
    assert!(path.is_file(), "no program {}", path.display());
    path
}

/// The program, told a layout.
pub fn told(name: &str, layout: Layout) -> Command {
    let mut command = Command::new(program(name));
    if layout == Layout::Draft2015 {
        command.arg("old");
    }
    command
}

/// Through a pipe, that many octets at a time.
pub fn piped(command: &mut Command, input: &[u8], piece: usize) -> Output {
    let mut child = command
        .stdin(Stdio::piped())
        .stdout(Stdio::piped())
        .stderr(Stdio::piped())
        .spawn()
        .unwrap();
    let mut pipe = child.stdin.take().unwrap();
    let pieces: Vec<Vec<u8>> = input.chunks(piece).map(<[u8]>::to_vec).collect();
    // A program that ends early closes the pipe; its output tells.
    let writer = thread::spawn(move || pieces.iter().try_for_each(|piece| pipe.write_all(piece)));
    let output = child.wait_with_output().unwrap();
    let _ = writer.join();
    output
}

/// From a file at that path, which is then removed.
pub fn from_file(command: &mut Command, input: &[u8], path: &Path) -> Output {
    fs::write(path, input).unwrap();
    let output = command.arg(path).stdin(Stdio::null()).output().unwrap();
    fs::remove_file(path).unwrap();
    output
}

/// A write that fails is reported once, and ends the run: it does not wait for
/// more of its input.
pub fn unwritable(name: &str, input: &[u8]) {
    reported_once(name, &mut Command::new(program(name)), input);
}

pub fn reported_once(name: &str, command: &mut Command, input: &[u8]) {
    let full = fs::OpenOptions::new()
        .write(true)
        .open("/dev/full")
        .unwrap();
    let mut child = command
        .stdin(Stdio::piped())
        .stdout(full)
        .stderr(Stdio::piped())
        .spawn()
        .unwrap();
    let mut pipe = child.stdin.take().unwrap();
    // A program that has ended closes the pipe.
    let _ = pipe.write_all(input);
    let output = child.wait_with_output().unwrap();
    drop(pipe);
    let errors = String::from_utf8_lossy(&output.stderr);
    let full = format!("{name}: standard output: No space left on device\n");
    assert_eq!(errors, full);
}

/// The first line that differs is told, and no more of it than fits.
pub fn same(output: Output, expected: &str, what: &str) {
    let errors = String::from_utf8_lossy(&output.stderr);
    assert!(
        output.status.success(),
        "{what}: {:?} {errors}",
        output.status
    );
    assert_eq!(errors, "", "{what}");
    let printed = String::from_utf8_lossy(&output.stdout);
    if printed != expected {
        let (mut ours, mut theirs) = (printed.split('\n'), expected.split('\n'));
        let lines = || (ours.next(), theirs.next());
        let (ours, theirs) = std::iter::repeat_with(lines).find(|(a, b)| a != b).unwrap();
        let cut = |line: &str| line.chars().take(200).collect::<String>();
        let (ours, theirs) = (ours.map(cut), theirs.map(cut));
        panic!("{what}: printed {ours:?}, expected {theirs:?}");
    }
}
