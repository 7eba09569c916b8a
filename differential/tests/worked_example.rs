//! README's worked example: its commands run, and what they print compared
//! with what README shows; and its two captures, made here.

use std::fs;
use std::path::{Path, PathBuf};
use std::process::Command;

use differential::program::program;
use reference::packet::{write, Head};
use reference::Layout;

const README: &str = include_str!("../../README.md");

/// Written anew where this is set; otherwise compared.
const WRITE: &str = "WRITE_CAPTURES";

fn root() -> PathBuf {
    Path::new(env!("CARGO_MANIFEST_DIR")).join("..")
}

/// A word of eight bits: parity in b8, its opposite in b9.
fn word(octet: u8) -> u16 {
    let odd = octet.count_ones() % 2 == 1;
    octet as u16 | if odd { 0x100 } else { 0x200 }
}

/// A record of luma at a line, its words of eight bits.
fn record(line: u16, did: u8, sdid: u8, octets: &[u8]) -> Vec<u16> {
    let head = [0, line, 0, 0, 0, did as u16, sdid as u16];
    let words = octets.iter().map(|&octet| word(octet));
    let counts = [octets.len() as u16, 0];
    head.into_iter().chain(counts).chain(words).collect()
}

fn packet(number: u32, timestamp: u32, f: u8, marker: bool, cells: &[u16]) -> Vec<u8> {
    let head = Head {
        source: 0x4A49_4248,
        payload_type: 112,
        marker,
        number,
        timestamp,
        f,
    };
    let mut out = vec![0; 1_400];
    let size = write(Layout::Rfc8331, &head, cells, &mut out).unwrap();
    out.truncate(size);
    out
}

/// Aspect code, a caption and time code in three fields of 50 a second; the
/// RTP sequence number wraps within the second. `frames` is of the time code.
fn stream(frames: u8) -> Vec<Vec<u8>> {
    let aspect = record(11, 0x41, 0x05, &[0x50, 0, 0, 0, 0, 0, 0, 0]);
    let caption = record(12, 0x61, 0x01, b"GOOD EVENING");
    let time = record(9, 0x60, 0x60, &[frames, 0x10, 0x23, 0x59]);
    let both = [aspect.clone(), caption.clone()].concat();
    vec![
        packet(65_534, 898_200, 3, true, &time),
        packet(65_535, 900_000, 2, true, &both),
        packet(65_536, 901_800, 3, false, &time),
        packet(65_537, 901_800, 3, true, &caption),
        packet(65_538, 903_600, 2, true, &aspect),
    ]
}

fn ones_sum(octets: &[u8]) -> u16 {
    let pairs = octets
        .chunks(2)
        .map(|pair| (pair[0] as u32) << 8 | pair[1] as u32);
    let sum: u32 = pairs.sum();
    let folded = (sum & 0xFFFF) + (sum >> 16);
    !(((folded & 0xFFFF) + (folded >> 16)) as u16)
}

/// IPv4 and UDP around a payload; `fragment` is its flags and offset.
fn datagram(port: u16, fragment: u16, payload: &[u8]) -> Vec<u8> {
    let length = 20 + 8 + payload.len() as u16;
    let mut ip = vec![0x45, 0];
    ip.extend(length.to_be_bytes());
    ip.extend([0, 1]);
    ip.extend(fragment.to_be_bytes());
    ip.extend([16, 17, 0, 0, 192, 0, 2, 1, 233, 252, 0, 1]);
    let sum = ones_sum(&ip);
    ip[10..12].copy_from_slice(&sum.to_be_bytes());
    ip.extend(30_000u16.to_be_bytes());
    ip.extend(port.to_be_bytes());
    ip.extend((8 + payload.len() as u16).to_be_bytes());
    ip.extend([0, 0]);
    ip.extend(payload);
    ip
}

/// Classic pcap, Ethernet, each frame with a VLAN tag.
fn main_capture() -> Vec<u8> {
    let mut out = 0xA1B2_C3D4u32.to_le_bytes().to_vec();
    out.extend([2, 0, 4, 0]);
    out.extend([0; 8]);
    out.extend(65_535u32.to_le_bytes());
    out.extend(1u32.to_le_bytes());
    for (index, packet) in stream(0x07).iter().enumerate() {
        let mut frame = vec![1, 0, 0x5E, 0x7C, 0, 1, 2, 0, 0, 0, 0, 1];
        frame.extend([0x81, 0, 0, 20, 8, 0]);
        frame.extend(datagram(20_000, 0x4000, packet));
        let size = (frame.len() as u32).to_le_bytes();
        out.extend(1_794_816_000u32.to_le_bytes());
        out.extend((20_000 * index as u32).to_le_bytes());
        out.extend([size, size].concat());
        out.extend(frame);
    }
    out
}

fn block(kind: u32, body: &[u8]) -> Vec<u8> {
    let size = 12 + body.len().next_multiple_of(4) as u32;
    let mut out = [kind.to_le_bytes(), size.to_le_bytes()].concat();
    out.extend(body);
    out.resize(size as usize - 4, 0);
    out.extend(size.to_le_bytes());
    out
}

fn enhanced(packet: &[u8]) -> Vec<u8> {
    let size = (packet.len() as u32).to_le_bytes();
    let body = [&[0; 12][..], &size, &size, packet].concat();
    block(6, &body)
}

/// pcapng, Linux cooked: packet 65,535 twice, another frame number in the time
/// code, the last packet not captured; and beside it another port and a
/// fragment.
fn backup_capture() -> Vec<u8> {
    let cooked = |ip: Vec<u8>| {
        let head = [0, 0, 0, 1, 0, 6, 2, 0, 0, 0, 0, 1, 0, 0, 8, 0];
        enhanced(&[&head[..], &ip].concat())
    };
    let section = [&0x1A2B_3C4Du32.to_le_bytes()[..], &[1, 0, 0, 0], &[0xFF; 8]].concat();
    let mut out = block(0x0A0D_0D0A, &section);
    out.extend(block(1, &[113, 0, 0, 0, 0, 0, 4, 0]));
    let packets = stream(0x08);
    for index in [0, 1, 1, 2, 3] {
        out.extend(cooked(datagram(20_001, 0x4000, &packets[index])));
        out.extend(cooked(datagram(20_000, 0x4000, &packets[index])));
    }
    out.extend(cooked(datagram(20_000, 0x2000, &packets[4])));
    out
}

#[test]
fn the_captures() {
    let made = [
        ("examples/main.pcap", main_capture()),
        ("examples/backup.pcapng", backup_capture()),
    ];
    for (name, octets) in made {
        let path = root().join(name);
        if std::env::var_os(WRITE).is_some() {
            fs::write(&path, &octets).unwrap();
        }
        assert_eq!(fs::read(&path).unwrap(), octets, "{name}");
    }
}

/// Each command of README, behind `$`, and the lines below it.
fn commands() -> Vec<(String, String)> {
    let mut found: Vec<(String, String)> = Vec::new();
    let mut shown = false;
    for line in README.lines() {
        if let Some(command) = line.strip_prefix("    $ ") {
            let command = command.split("    #").next().unwrap();
            found.push((command.to_string(), String::new()));
            shown = true;
        } else if let (true, Some(printed)) = (shown, line.strip_prefix("    ")) {
            let (_, output) = found.last_mut().unwrap();
            output.push_str(printed);
            output.push('\n');
        } else {
            shown = false;
        }
    }
    found
}

/// In a folder of its own, from which the repository's are seen.
#[test]
fn what_readme_shows() {
    let folder = Path::new(env!("CARGO_TARGET_TMPDIR")).join("worked-example");
    let _ = fs::remove_dir_all(&folder);
    fs::create_dir_all(&folder).unwrap();
    for seen in ["crates", "differential", "examples"] {
        std::os::unix::fs::symlink(root().join(seen), folder.join(seen)).unwrap();
    }
    let programs = program("fieldlist")
        .parent()
        .unwrap()
        .canonicalize()
        .unwrap();
    let path = format!("{}:{}", programs.display(), std::env::var("PATH").unwrap());
    let commands = commands();
    assert!(commands.len() > 8);
    for (command, expected) in commands {
        let output = Command::new("sh")
            .args(["-c", &format!("{{ {command}; }} 2>&1")])
            .current_dir(&folder)
            .env("PATH", &path)
            .output()
            .unwrap();
        let printed = String::from_utf8(output.stdout).unwrap();
        assert_eq!(printed, expected, "{command}");
    }
}
