//! Protected words in user data (02, K5): 0x000 to 0x003 and 0x3FC to 0x3FF,
//! in packets of both layouts, in lists and in files of both versions.

use reference::depacketizer::{arrive, open, Answer, State};
use reference::file::{self, Version};
use reference::frames::put_frame;
use reference::packet::{self, Head};
use reference::random::{anc_of, file_field, Anc, Parts};
use reference::{fieldlist, Layout, Refusal};

const HEAD: Head = Head {
    source: 5,
    payload_type: 96,
    marker: true,
    number: 8,
    timestamp: 9,
    f: 0,
};

fn record(words: &[u16]) -> Vec<u16> {
    let head = [0, 9, 0, 0, 0, 0x61, 0x02, words.len() as u16, 0];
    [&head, words].concat()
}

fn pair<T>(answer: Result<T, Refusal>) -> Option<(u8, usize)> {
    answer.err().map(|refusal| (refusal.number, refusal.index))
}

/// The strict way's refusal. The tolerant way gives the same but for 11.
fn read(parts: &Parts) -> Option<(u8, usize)> {
    let mut cells = vec![0x5A5A; 1_000];
    let octets = parts.assemble();
    let refusal = pair(packet::read_strict(parts.layout, &octets, &mut cells));
    assert!(refusal.is_none() || cells.iter().all(|&cell| cell == 0x5A5A));
    let tolerant = pair(packet::read(parts.layout, &octets, &mut cells));
    assert!(tolerant == refusal || refusal.is_some_and(|(number, _)| number == 11));
    refusal
}

fn write(layout: Layout, head: &Head, cells: &[u16], room: usize) -> Option<(u8, usize)> {
    let mut out = vec![0x5A; room];
    let refusal = pair(packet::write(layout, head, cells, &mut out));
    assert!(refusal.is_none() || out.iter().all(|&octet| octet == 0x5A));
    refusal
}

fn file_write(f: u8, cells: &[u16], room: usize) -> Option<(u8, usize)> {
    let mut out = vec![0x5A; room];
    let refusal = pair(file::write(9, f, cells, &mut out));
    assert!(refusal.is_none() || out.iter().all(|&octet| octet == 0x5A));
    refusal
}

fn file_read(version: Version, anc: &[Anc]) -> Option<(u8, usize)> {
    let mut octets = version.start().to_vec();
    octets.extend(file_field(version, 9, 2, anc.len() as u16, anc));
    let mut cells = vec![0x5A5A; 40_000];
    let refusal = pair(file::read(&octets, 5, &mut cells));
    assert!(refusal.is_none() || cells.iter().all(|&cell| cell == 0x5A5A));
    refusal
}

/// Every ten-bit number, in the third record's last word but one.
#[test]
fn every_word() {
    for word in 0..1024 {
        let is = !(4..=0x3FB).contains(&word);
        let refusal = is.then_some((16, 2));
        let list = [record(&[]), record(&[7]), record(&[8, word, 9])].concat();
        for layout in Layout::ALL {
            assert_eq!(read(&Parts::of(layout, HEAD, &list)), refusal);
            assert_eq!(write(layout, &HEAD, &list, 100), refusal);
        }
        for version in [Version::One, Version::Two] {
            assert_eq!(file_read(version, &anc_of(&list)), refusal);
        }
        assert_eq!(file_write(3, &list, 100), refusal);
    }
}

/// In every place of every count of words.
#[test]
fn every_place() {
    for n in 1..256 {
        let good = record(&vec![0x155; n]);
        for place in 0..n {
            let word = [0, 3, 0x3FC, 0x3FF][(n + place) % 4];
            let mut list = good.clone();
            list[9 + place] = word;
            for layout in Layout::ALL {
                assert_eq!(read(&Parts::of(layout, HEAD, &list)), Some((16, 0)));
                assert_eq!(write(layout, &HEAD, &list, 0), Some((16, 0)));
                list[9 + place] = [4, 0x3FB][place % 2];
                assert_eq!(read(&Parts::of(layout, HEAD, &list)), None);
                list[9 + place] = word;
            }
        }
    }
}

/// 9, 10, 9, 15, 16, 11, 12 for one ANC packet, each before the next.
#[test]
fn the_order_of_reading() {
    for (layout, index) in [(0, 0), (0, 3), (1, 0), (1, 3)] {
        let layout = Layout::ALL[layout];
        let mut parts = Parts::of(layout, HEAD, &record(&[9, 2, 7, 7]).repeat(index + 1));
        for anc in &mut parts.anc[..index] {
            *anc = Anc::of(&record(&[4, 0x3FB, 5, 6]));
        }
        parts.anc[index].alignment = 1;
        assert_eq!(read(&parts), Some((16, index)));
        parts.anc[index].words[7] ^= 1;
        assert_eq!(read(&parts), Some((16, index)));
        if layout == Layout::Draft2015 {
            parts.anc[index].r = 1;
            assert_eq!(read(&parts), Some((15, index)));
        }
        parts.cut = 1;
        assert_eq!(read(&parts), Some((9, index)));
        parts.anc[index].words[0] ^= 1;
        assert_eq!(read(&parts), Some((10, index)));
        parts.anc[index] = Anc::of(&record(&[9, 4, 7, 7]));
        parts.cut = 0;
        assert_eq!(read(&parts), None);
    }
    // An earlier packet's 12 comes before a later one's 16, and 16 before 13.
    let list = [record(&[5]), record(&[0])].concat();
    let mut parts = Parts::plain(HEAD, &list);
    parts.anc[0].alignment = 1;
    parts.extra = vec![0];
    assert_eq!(read(&parts), Some((12, 0)));
    parts.anc[0].alignment = 0;
    assert_eq!(read(&parts), Some((16, 1)));
}

/// 24, 20 over the whole list, 16, 21, 25, 23; of a file 53, 20, 16, 21, 23.
#[test]
fn the_order_of_writing() {
    let (clear, bad) = (record(&[5, 6]), record(&[5, 0x3FE]));
    let cut = &clear[..10];
    let both = [&bad[..], cut].concat();
    let later = [&clear[..], &bad, &bad].concat();
    let many = [clear.repeat(4_096), bad.clone()].concat();
    let mut wide = [bad.clone(), bad.clone()].concat();
    wide[11 + 9] = 1024;
    for layout in Layout::ALL {
        let write = |head: &Head, list: &[u16]| write(layout, head, list, 0);
        assert_eq!(write(&Head { f: 1, ..HEAD }, &bad), Some((24, 0)));
        assert_eq!(write(&HEAD, &both), Some((20, 1)));
        assert_eq!(write(&HEAD, &wide), Some((20, 1)));
        assert_eq!(write(&HEAD, &later), Some((16, 1)));
        assert_eq!(write(&HEAD, &many), Some((16, 4_096)));
        assert_eq!(write(&Head { f: 2, ..HEAD }, &bad), Some((16, 0)));
    }
    let mut streamed = later.clone();
    streamed[3] = 1;
    assert_eq!(write(Layout::Draft2015, &HEAD, &streamed, 0), Some((16, 1)));
    assert_eq!(file_write(1, &bad, 0), Some((53, 0)));
    assert_eq!(file_write(2, &both, 0), Some((20, 1)));
    assert_eq!(file_write(2, &wide, 0), Some((20, 1)));
    assert_eq!(file_write(2, &later, 0), Some((16, 1)));
    assert_eq!(file_write(2, &many, 0), Some((16, 4_096)));
}

/// In a file 16 comes before 21, for either version.
#[test]
fn the_order_in_a_file() {
    let mut anc = anc_of(&record(&[0x200; 255]).repeat(140));
    for version in [Version::One, Version::Two] {
        assert_eq!(file_read(version, &anc), Some((21, 0)));
    }
    anc[139] = Anc::of(&record(&[3]));
    for version in [Version::One, Version::Two] {
        assert_eq!(file_read(version, &anc), Some((16, 139)));
    }
}

/// To the depacketizer such a packet is refused octets, whoever sent it.
#[test]
fn arrivals_and_listings() {
    let opened = open(5, 96).unwrap();
    let state = State {
        phase: 1,
        heard: true,
        last: 7,
        ..opened
    };
    for layout in Layout::ALL {
        let list = [record(&[5]), record(&[0x3FD])].concat();
        let octets = Parts::of(layout, HEAD, &list).assemble();
        for state in [opened, state, State { source: 6, ..state }] {
            let mut store = [0x5A5A; 40];
            let (after, answer) = arrive(state, layout, &octets, &mut store);
            assert_eq!(answer, Answer::Refused(Refusal::at(16, 1)));
            assert_eq!((after, store), (state, [0x5A5A; 40]));
        }
        let mut input = Vec::new();
        put_frame(&octets, &mut input);
        let listing = "fieldlist 1\nrefused 16 1\nfresh=0 late=0 missing=0\n";
        assert_eq!(fieldlist(layout, &input), listing);
    }
}
