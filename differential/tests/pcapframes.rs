//! The program `pcapframes` against the reference, byte for byte, with what it
//! tells on standard error: on random captures of both formats, some of them
//! damaged; on captures cut or changed at any octet; on the longest items and
//! on long captures in little memory; and on words that are no port. Where
//! `tshark` is installed, against that too, on captures that have no damage.

use std::fs;
use std::io::{stderr, Write};
use std::path::{Path, PathBuf};
use std::process::{Command, Output, Stdio};

use differential::program::{from_file, piped, program};
use reference::capture::{pcapframes, Order, INTERFACES, LONGEST};
use reference::datagram::{find, Found};
use reference::frames::put_frame;
use reference::random::{
    block, capture, captured, comment, extension, fragment, interface, ipv4_packet, ipv6_packet,
    on_link, packet_block, pcap_head, pcap_record, section, simple_block, udp_packet, Random,
    LINKS,
};

const PORT: u16 = 20_000;

fn told(port: &str) -> Command {
    let mut command = Command::new(program("pcapframes"));
    command.arg(port);
    command
}

fn path(name: &str) -> PathBuf {
    Path::new(env!("CARGO_TARGET_TMPDIR")).join(name)
}

/// What was written and told is what the reference says.
fn same(output: Output, capture: &[u8], what: &str) {
    let expected = pcapframes(PORT, capture);
    assert!(output.status.success(), "{what}");
    assert_eq!(
        String::from_utf8_lossy(&output.stderr),
        expected.told(),
        "{what}"
    );
    let wrong = output
        .stdout
        .iter()
        .zip(&expected.frames)
        .position(|(a, b)| a != b);
    assert_eq!(wrong, None, "{what}");
    assert_eq!(output.stdout.len(), expected.frames.len(), "{what}");
}

fn compare(capture: &[u8], piece: usize, what: &str) {
    same(
        piped(&mut told(&PORT.to_string()), capture, piece),
        capture,
        what,
    );
}

#[test]
fn random_captures() {
    let mut r = Random::new(2_901);
    let (mut whole, mut refused) = (0, 0);
    for n in 0..1_500 {
        let capture = capture(&mut r, PORT);
        let outcome = pcapframes(PORT, &capture);
        whole += usize::from(outcome.refused.is_none() && !outcome.frames.is_empty());
        refused += usize::from(outcome.refused.is_some());
        if n % 2 == 0 {
            compare(
                &capture,
                r.pick(&[1, 7, 100, 65_536]),
                &format!("capture {n}"),
            );
        } else {
            let file = path("pcapframes-random");
            let output = from_file(&mut told(&PORT.to_string()), &capture, &file);
            same(output, &capture, &format!("capture {n}"));
        }
    }
    assert!(whole > 300 && refused > 300, "{whole} {refused}");
}

/// A packet of few octets that holds a payload.
fn little(r: &mut Random, link: u32) -> Vec<u8> {
    loop {
        let packet = captured(r, PORT, link);
        let found = find(&packet, link, PORT);
        if matches!(found, Found::Payload(_)) && packet.len() < 120 {
            return packet;
        }
    }
}

/// A small capture of each format and order.
fn small() -> Vec<Vec<u8>> {
    let mut r = Random::new(2_902);
    let mut all = Vec::new();
    for order in [Order::Big, Order::Little] {
        for (magic, link) in [(0xA1B2_C3D4, 1), (0xA1B2_3C4D, 113)] {
            let mut out = pcap_head(order, magic, link);
            for _ in 0..2 {
                pcap_record(order, &little(&mut r, link), &mut out);
            }
            all.push(out);
        }
        let mut out = Vec::new();
        section(order, &mut out);
        interface(order, 229, 0, &mut out);
        interface(order, 1, 65_535, &mut out);
        block(order, 5, &[0; 12], &mut out);
        packet_block(order, false, 1, &little(&mut r, 1), &mut out);
        packet_block(order, true, 0, &little(&mut r, 229), &mut out);
        let packet = little(&mut r, 229);
        simple_block(order, packet.len() as u32, &packet, &mut out);
        all.push(out);
    }
    all
}

#[test]
fn cut_anywhere() {
    for capture in small() {
        for cut in 0..=capture.len() {
            compare(&capture[..cut], 4_096, &format!("cut at {cut}"));
        }
    }
}

/// Each octet, changed in one bit.
#[test]
fn changed_anywhere() {
    for capture in small() {
        for at in 0..capture.len() {
            let mut changed = capture.clone();
            changed[at] ^= 1 << (at % 8);
            compare(&changed, 4_096, &format!("changed at {at}"));
        }
    }
}

/// The longest records and blocks, and those that are longer.
#[test]
fn longest_items() {
    let mut r = Random::new(2_903);
    for order in [Order::Big, Order::Little] {
        for more in [0, 1, 4] {
            let mut packet = captured(&mut r, PORT, 1);
            packet.resize(LONGEST - 16 + more, 0x55);
            let mut out = pcap_head(order, 0xA1B2_C3D4, 1);
            for _ in 0..2 {
                pcap_record(order, &packet, &mut out);
                pcap_record(order, &captured(&mut r, PORT, 1), &mut out);
            }
            compare(&out, 65_536, "longest record");
            let mut out = Vec::new();
            section(order, &mut out);
            interface(order, 1, 0, &mut out);
            packet.truncate(LONGEST - 32 + more);
            for _ in 0..2 {
                packet_block(order, false, 0, &packet, &mut out);
                packet_block(order, false, 0, &captured(&mut r, PORT, 1), &mut out);
            }
            compare(&out, 65_536, "longest block");
        }
    }
}

/// The longest datagrams: twenty megabytes of each format, in an address space
/// that has no room for them.
#[test]
fn long_captures_in_little_memory() {
    let mut r = Random::new(2_904);
    let order = Order::Little;
    let mut records = pcap_head(order, 0xA1B2_C3D4, 228);
    let mut blocks = Vec::new();
    section(order, &mut blocks);
    interface(order, 228, 0, &mut blocks);
    for _ in 0..320 {
        let longest = udp_packet(PORT, &r.octets(65_507));
        let other = captured(&mut r, PORT, 228);
        for packet in [ipv4_packet(0, 17, &[], &longest), other] {
            pcap_record(order, &packet, &mut records);
            packet_block(order, false, 0, &packet, &mut blocks);
        }
    }
    for capture in [records, blocks] {
        assert!(pcapframes(PORT, &capture).frames.len() > 20_000_000);
        let mut limited = Command::new("sh");
        limited
            .arg("-c")
            .arg(format!("ulimit -v 8192 && exec \"$0\" {PORT}"))
            .arg(program("pcapframes"));
        same(piped(&mut limited, &capture, 100_000), &capture, "long");
    }
}

/// As many interfaces as a section may describe, and one more; a new section
/// describes its own.
#[test]
fn interfaces() {
    let mut r = Random::new(2_905);
    for count in [INTERFACES, INTERFACES + 1] {
        let mut out = Vec::new();
        for order in [Order::Little, Order::Big] {
            section(order, &mut out);
            for n in 0..count {
                interface(order, [1, 228][n % 2], 0, &mut out);
            }
            for id in 0..count as u32 + 1 {
                let packet = captured(&mut r, PORT, [1, 228][id as usize % 2]);
                packet_block(order, false, id % count as u32, &packet, &mut out);
            }
        }
        let outcome = pcapframes(PORT, &out);
        assert_eq!(outcome.refused, (count > INTERFACES).then_some(85));
        compare(&out, 4_096, "interfaces");
    }
}

/// A word that is no port is told, and so is a file that is not there.
#[test]
fn words() {
    let capture = &small()[0];
    for word in ["0", "65536", "", "20000x", "x", "99999999999999999999"] {
        let output = piped(&mut told(word), capture, 4_096);
        assert_eq!(output.stdout, b"", "{word}");
        assert!(output.stderr.starts_with(b"pcapframes: PORT"), "{word}");
    }
    let output = piped(&mut told("020000"), capture, 4_096);
    same(output, capture, "a zero before it");
    let missing = path("pcapframes-missing");
    let output = told("1").arg(&missing).output().unwrap();
    assert_eq!(output.stdout, b"");
    let errors = String::from_utf8_lossy(&output.stderr).into_owned();
    assert!(
        errors.ends_with(": No such file or directory\n"),
        "{errors}"
    );
}

/// A write that fails is reported once.
#[test]
fn unwritable() {
    let full = fs::OpenOptions::new()
        .write(true)
        .open("/dev/full")
        .unwrap();
    let mut out = pcap_head(Order::Big, 0xA1B2_C3D4, 1);
    let mut r = Random::new(2_906);
    while pcapframes(PORT, &out).frames.is_empty() {
        pcap_record(Order::Big, &captured(&mut r, PORT, 1), &mut out);
    }
    let file = path("pcapframes-unwritable");
    fs::write(&file, &out).unwrap();
    let output = told(&PORT.to_string())
        .arg(&file)
        .stdout(full)
        .stderr(Stdio::piped())
        .output()
        .unwrap();
    let errors = String::from_utf8_lossy(&output.stderr).into_owned();
    let full = "pcapframes: standard output: No space left on device\n";
    assert_eq!(errors, full);
}

const UDP: u8 = 17;
const IPV4: u16 = 0x0800;
const IPV6: u16 = 0x86DD;

/// A datagram in every way that is taken, each with the EtherType before it.
fn taken(udp: &[u8]) -> Vec<(u16, Vec<u8>)> {
    let destination = extension(UDP, 1, 0, udp);
    let routing = extension(60, 0, 0, &destination);
    let hop_by_hop = extension(43, 2, 0, &routing);
    vec![
        (IPV4, ipv4_packet(0x4000, UDP, &[], udp)),
        (IPV4, ipv4_packet(0, UDP, &[1; 4], udp)),
        (IPV4, ipv4_packet(0, UDP, &[1; 40], udp)),
        (IPV6, ipv6_packet(UDP, udp)),
        (IPV6, ipv6_packet(0, &extension(UDP, 0, 0, udp))),
        (IPV6, ipv6_packet(43, &extension(UDP, 0, 0, udp))),
        (IPV6, ipv6_packet(60, &destination)),
        (IPV6, ipv6_packet(0, &hop_by_hop)),
        (IPV6, ipv6_packet(44, &fragment(UDP, 0, udp))),
    ]
}

/// Fragments of the datagram, and another protocol with its octets.
fn not_taken(udp: &[u8]) -> Vec<(u16, Vec<u8>)> {
    vec![
        (IPV4, ipv4_packet(0x2000, UDP, &[], udp)),
        (IPV4, ipv4_packet(0x0003, UDP, &[], udp)),
        (IPV4, ipv4_packet(0, 6, &[], udp)),
        (IPV6, ipv6_packet(44, &fragment(UDP, 0x0001, udp))),
        (IPV6, ipv6_packet(44, &fragment(UDP, 0x0018, udp))),
        (IPV6, ipv6_packet(60, &extension(6, 0, 0, udp))),
    ]
}

fn tags(link: u32) -> &'static [&'static [[u16; 2]]] {
    match link {
        1 | 113 => &[
            &[],
            &[[0x8100, 5]],
            &[[0x88A8, 6]],
            &[[0x88A8, 6], [0x8100, 5]],
        ],
        _ => &[&[]],
    }
}

fn versions(link: u32) -> &'static [u16] {
    match link {
        228 => &[IPV4],
        229 => &[IPV6],
        _ => &[IPV4, IPV6],
    }
}

/// Packets, with the payload of those that hold one for the port.
type Packets = Vec<(Vec<u8>, Option<Vec<u8>>)>;

/// Every way on a link of this type, some padded as on Ethernet.
fn packets(r: &mut Random, link: u32) -> Packets {
    let mut all = Vec::new();
    for tags in tags(link) {
        for (size, port) in [(0, PORT), (1, PORT), (40, PORT), (1_000, PORT), (40, 5_004)] {
            let payload = r.octets(size);
            let udp = udp_packet(port, &payload);
            let payload = (port == PORT).then_some(payload);
            for (ways, payload) in [(taken(&udp), payload), (not_taken(&udp), None)] {
                for (number, ip) in ways {
                    if versions(link).contains(&number) {
                        all.push((on_link(link, tags, number, &ip), payload.clone()));
                    }
                }
            }
        }
    }
    for (packet, _) in all.iter_mut().step_by(2) {
        packet.resize(packet.len().max(60), 0);
    }
    all
}

/// The payloads as frames.
fn framed(packets: &Packets) -> Vec<u8> {
    let mut frames = Vec::new();
    for payload in packets.iter().filter_map(|(_, payload)| payload.as_ref()) {
        put_frame(payload, &mut frames);
    }
    frames
}

fn classic(order: Order, magic: u32, link: u32, packets: &Packets) -> Vec<u8> {
    let mut out = pcap_head(order, magic, link);
    for (packet, _) in packets {
        pcap_record(order, packet, &mut out);
    }
    out
}

/// The link types in a section: each in the two kinds of blocks that name an
/// interface, half of them with a comment, and the first in Simple Packet
/// Blocks too.
fn one_section(r: &mut Random, order: Order, links: &[u32]) -> (Vec<u8>, Packets) {
    let (mut out, mut all) = (Vec::new(), Vec::new());
    section(order, &mut out);
    for link in links {
        let at = out.len();
        interface(order, *link, 262_144, &mut out);
        comment(order, at, &mut out);
    }
    block(order, 5, &[0; 12], &mut out);
    for (packet, payload) in packets(r, links[0]) {
        simple_block(order, packet.len() as u32, &packet, &mut out);
        all.push((packet, payload));
    }
    for (id, link) in links.iter().enumerate() {
        for (n, (packet, payload)) in packets(r, *link).into_iter().enumerate() {
            let at = out.len();
            packet_block(order, n % 4 == 3, id as u32, &packet, &mut out);
            if n % 2 == 0 {
                comment(order, at, &mut out);
            }
            all.push((packet, payload));
        }
    }
    (out, all)
}

/// Captures that have no damage, with their packets.
fn undamaged() -> Vec<(Vec<u8>, Packets)> {
    let mut r = Random::new(2_907);
    let mut all = Vec::new();
    for (order, magics) in [
        (Order::Big, [0xA1B2_C3D4, 0xA1B2_3C4D]),
        (Order::Little, [0xA1B2_3C4D, 0xA1B2_C3D4]),
    ] {
        for (n, link) in LINKS.into_iter().enumerate() {
            let packets = packets(&mut r, link);
            all.push((classic(order, magics[n % 2], link, &packets), packets));
        }
        all.push(one_section(&mut r, order, &LINKS));
        let mut turned = LINKS;
        turned.rotate_left(3);
        all.push(one_section(&mut r, order, &turned));
    }
    all
}

/// The payloads that `tshark` finds, as frames. It would look into a fragment
/// that is the first.
fn by_tshark(file: &Path) -> Vec<u8> {
    let filter = format!(
        "udp.dstport == {PORT} && !(ip.flags.mf == 1) && !(ip.frag_offset > 0) \
         && !(ipv6.fraghdr.more == 1) && !(ipv6.fraghdr.offset > 0)"
    );
    let output = Command::new("tshark")
        .args(["-n".as_ref(), "-r".as_ref(), file.as_os_str()])
        .args(["-o", "ip.defragment:FALSE", "-o", "ipv6.defragment:FALSE"])
        .args(["-Y", &filter, "-T", "fields", "-E", "occurrence=f"])
        .args(["-e", "udp.payload"])
        .output()
        .unwrap();
    let errors = String::from_utf8_lossy(&output.stderr);
    assert!(output.status.success(), "{:?} {errors}", output.status);
    let mut frames = Vec::new();
    for line in String::from_utf8(output.stdout).unwrap().lines() {
        let digits = line.replace(':', "");
        let octets = (0..digits.len() / 2)
            .map(|n| u8::from_str_radix(&digits[2 * n..2 * n + 2], 16).unwrap());
        put_frame(&octets.collect::<Vec<u8>>(), &mut frames);
    }
    frames
}

/// The program gives what was put in, and the reference the same.
#[test]
fn undamaged_captures() {
    for (n, (capture, packets)) in undamaged().into_iter().enumerate() {
        let file = path("pcapframes-undamaged");
        let output = from_file(&mut told(&PORT.to_string()), &capture, &file);
        assert!(output.stdout == framed(&packets), "capture {n}");
        same(output, &capture, &format!("capture {n}"));
    }
}

#[test]
fn against_tshark() {
    if Command::new("tshark").arg("--version").output().is_err() {
        // Past the harness, which keeps what a test that passes prints.
        writeln!(stderr(), "tshark is not installed: not compared").unwrap();
        return;
    }
    for (n, (capture, _)) in undamaged().into_iter().enumerate() {
        let file = path(&format!("pcapframes-tshark-{n}"));
        fs::write(&file, &capture).unwrap();
        let output = told(&PORT.to_string()).arg(&file).output().unwrap();
        assert!(!output.stdout.is_empty(), "capture {n}");
        assert!(output.stdout == by_tshark(&file), "capture {n}");
        fs::remove_file(&file).unwrap();
    }
}
