//! What the programs do with their arguments: `--help` and `--version`, and on
//! standard error what is wrong with them. The version is the header's.

use std::fs;
use std::path::{Path, PathBuf};
use std::process::{Command, Output, Stdio};

use differential::program::program;

const PROGRAMS: [&str; 5] = [
    "fieldlist",
    "streamcheck",
    "fielddiff",
    "fieldsave",
    "pcapframes",
];

/// A field file without fields.
const VERSION_2: [u8; 5] = *b"ANF\x00\x02";

fn folder(name: &str) -> PathBuf {
    let folder = Path::new(env!("CARGO_TARGET_TMPDIR")).join(name);
    let _ = fs::remove_dir_all(&folder);
    fs::create_dir_all(&folder).unwrap();
    folder
}

fn run(name: &str, arguments: &[&str], folder: &Path) -> Output {
    let output = Command::new(program(name))
        .args(arguments)
        .current_dir(folder)
        .stdin(Stdio::null())
        .output()
        .unwrap();
    assert!(output.status.success(), "{name} {arguments:?}");
    output
}

/// Printed, and told on standard error.
fn texts(output: Output) -> (String, String) {
    let text = |octets| String::from_utf8(octets).unwrap();
    (text(output.stdout), text(output.stderr))
}

/// Nothing is printed, and this is told.
fn refuses(name: &str, arguments: &[&str], folder: &Path, told: &str) {
    let expected = (String::new(), told.to_string());
    assert_eq!(
        texts(run(name, arguments, folder)),
        expected,
        "{name} {arguments:?}"
    );
}

fn version() -> &'static str {
    let header = include_str!("../../include/jibhotran.h");
    let mut versions = header
        .lines()
        .filter_map(|line| line.strip_prefix("#define JIBHOTRAN_VERSION \""));
    versions.next().unwrap().strip_suffix('"').unwrap()
}

/// The option may stand behind files, which are not opened.
#[test]
fn version_of_the_header() {
    let folder = folder("options-version");
    for name in PROGRAMS {
        let expected = format!("{name} (Jibhotran) {}\n", version());
        for arguments in [
            &["--version"][..],
            &["missing", "--version"],
            &["old", "--version"],
            &["a", "b", "c", "--version"],
            &["--version", "--help"],
        ] {
            let printed = texts(run(name, arguments, &folder));
            assert_eq!(printed, (expected.clone(), String::new()));
        }
    }
}

/// The manual's synopsis is the help's.
#[test]
fn help() {
    let folder = folder("options-help");
    for name in PROGRAMS {
        let (printed, told) = texts(run(name, &["--help"], &folder));
        assert_eq!(told, "");
        let usage = match name {
            "fielddiff" => "LEFT RIGHT",
            "fieldsave" => "[old] FRAMES OUT",
            "pcapframes" => "PORT [FILE]",
            _ => "[old] [FILE]",
        };
        assert!(printed.starts_with(&format!("Usage: {name} {usage}\n")));
        for option in ["--help ", "--version "] {
            assert!(printed.contains(&format!("\n  {option}")), "{printed}");
        }
        assert!(printed.ends_with(".\n"));
        assert!(printed.lines().all(|line| line.len() <= 120), "{printed}");
        let again = texts(run(name, &["missing", "--help", "-x"], &folder));
        assert_eq!(again, (printed, String::new()));
    }
}

/// Any other argument that begins with `-`, and nothing is read.
#[test]
fn unknown_options() {
    let folder = folder("options-unknown");
    for option in [
        "-",
        "--",
        "-h",
        "-x",
        "-old",
        "--hel",
        "--helper",
        "--Version",
    ] {
        fs::write(folder.join(option), [0]).unwrap();
        let told = format!("{option}: unknown option, see --help\n");
        for name in PROGRAMS {
            refuses(name, &[option], &folder, &told);
            refuses(name, &["old", option], &folder, &told);
        }
    }
}

#[test]
fn too_many_arguments() {
    let folder = folder("options-many");
    for file in ["a", "b", "c", "old"] {
        fs::write(folder.join(file), [0]).unwrap();
    }
    for (name, arguments) in [
        ("fieldlist", &["a", "b"][..]),
        ("fieldlist", &["a", "old"]),
        ("fieldlist", &["old", "a", "b"]),
        ("fieldlist", &["old", "old", "old"]),
        ("streamcheck", &["a", "b"]),
        ("streamcheck", &["old", "a", "b"]),
        ("fielddiff", &["a", "b", "c"]),
        ("fielddiff", &["old", "a", "b"]),
        ("pcapframes", &["1", "a", "b"]),
    ] {
        let told = format!("{name}: too many arguments, see --help\n");
        refuses(name, arguments, &folder, &told);
    }
}

/// A file of any name can be named.
#[test]
fn names_like_options() {
    let folder = folder("options-names");
    for (path, file) in [("./-x", "-x"), ("./old", "old"), ("./--help", "--help")] {
        fs::write(folder.join(file), [0]).unwrap();
        let listing = "fieldlist 1\ncut\nfresh=0 late=0 missing=0\n";
        for (name, arguments, printed) in [
            ("fieldlist", &[path][..], listing),
            ("fieldlist", &["old", path], listing),
            ("streamcheck", &[path], "0 cut\n"),
            ("streamcheck", &["old", path], "0 cut\n"),
            ("fielddiff", &[path, path], "0 refused 50 50\n"),
        ] {
            let expected = (printed.to_string(), String::new());
            assert_eq!(texts(run(name, arguments, &folder)), expected);
        }
    }
}

/// `fielddiff` reads what cannot be opened as empty (02, K14), on either side
/// and on both, and a directory too. The reason is reported by name.
#[test]
fn files_that_cannot_be_read() {
    let folder = folder("options-files");
    fs::create_dir(folder.join("directory")).unwrap();
    fs::write(folder.join("there"), VERSION_2).unwrap();
    let longest = "x/".repeat(2_047) + "y";
    let (long, longer) = ("x".repeat(4_096), "x".repeat(5_000));
    for (file, reason) in [
        ("missing", "missing: No such file or directory"),
        (&longest, &format!("{longest}: No such file or directory")),
        (&long, &format!("{long}: File name too long")),
        (&longer, "path: File name too long"),
        ("directory", "directory: Is a directory"),
        ("", ": No such file or directory"),
    ] {
        for name in ["fieldlist", "streamcheck"] {
            let told = format!("{name}: {reason}\n");
            refuses(name, &[file], &folder, &told);
            refuses(name, &["old", file], &folder, &told);
        }
        let told = format!("pcapframes: {reason}\n");
        refuses("pcapframes", &["1", file], &folder, &told);
        let told = format!("fielddiff: {reason}\n");
        for (left, right, list) in [
            (file, "there", "0 refused 50 -\n"),
            ("there", file, "0 refused - 50\n"),
        ] {
            let expected = (list.to_string(), told.clone());
            assert_eq!(texts(run("fielddiff", &[left, right], &folder)), expected);
        }
        let missing = "fielddiff: missing: No such file or directory\n";
        for (left, right, told) in [
            (file, file, format!("{told}{told}")),
            (file, "missing", format!("{told}{missing}")),
            ("missing", file, format!("{missing}{told}")),
        ] {
            let expected = ("0 refused 50 50\n".to_string(), told);
            assert_eq!(texts(run("fielddiff", &[left, right], &folder)), expected);
        }
    }
}

/// What is shown on a terminal, of which `script` makes one.
fn shown(name: &str, words: &str, folder: &Path) -> String {
    let line = format!("'{}' {words}", program(name).display());
    let output = Command::new("script")
        .args(["-q", "-e", "-c", &line, "/dev/null"])
        .current_dir(folder)
        .stdin(Stdio::null())
        .output()
        .unwrap();
    assert!(output.status.success(), "{line}");
    String::from_utf8(output.stdout).unwrap()
}

/// Long work is shown where standard error is a terminal, but not between the
/// lines that are printed there.
#[test]
fn progress_on_a_terminal() {
    let folder = folder("options-progress");
    // Frames of length 0, one a turn.
    fs::write(folder.join("long"), vec![0; 2 * 300_000]).unwrap();
    fs::write(folder.join("short"), vec![0; 2 * 1_000]).unwrap();
    let steps = "\r262144 steps\r\n";
    for (name, long, short) in [
        ("fieldlist", "long > list", "short > list"),
        ("streamcheck", "long > report", "short > report"),
        ("fieldsave", "long long.anf", "short short.anf"),
    ] {
        assert_eq!(shown(name, long, &folder), steps, "{name}");
        assert_eq!(shown(name, short, &folder), "", "{name}");
    }
    assert!(!shown("fieldlist", "long", &folder).contains("steps"));
    let (_, told) = texts(run("fieldlist", &["long"], &folder));
    assert_eq!(told, "");
}

/// The manual has the header's version.
#[test]
fn version_of_the_manual() {
    for name in PROGRAMS {
        let page = Path::new(env!("CARGO_MANIFEST_DIR")).join(format!("../docs/{name}.1"));
        let title = format!("\"Jibhotran {}\"", version());
        assert!(fs::read_to_string(page).unwrap().contains(&title), "{name}");
    }
}
