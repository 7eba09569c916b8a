//! Ten-bit words: header words, the checksum, and rows of words, four of
//! which fill five octets.

pub(super) const WORD: u64 = 0x3FF;
/// The second and fourth word of a group of four.
const EVEN_WORDS: u64 = WORD << 20 | WORD;
/// One word in each 32-bit half.
const HALF_WORDS: u64 = WORD << 32 | WORD;
/// The lowest bit of each word of a group.
const LANES: u64 = 1 << 30 | 1 << 20 | 1 << 10 | 1;

/// The header words of all 256 numbers.
pub static HEADER_WORDS: [u16; 256] = header_words();

const fn header_words() -> [u16; 256] {
    let mut table = [0; 256];
    let mut number = 0;
    while number < 256 {
        table[number] = header_word(number as u8);
        number += 1;
    }
    table
}

/// b7..b0 the number, b8 makes the ones in b8..b0 even, b9 opposite of b8.
const fn header_word(number: u8) -> u16 {
    let b8 = (number.count_ones() & 1) as u16;
    (b8 ^ 1) << 9 | b8 << 8 | number as u16
}

#[inline(always)]
pub(super) fn is_header_word(word: u16) -> bool {
    HEADER_WORDS[(word & 0xFF) as usize] == word
}

/// ST 291-1 keeps 0x000 to 0x003 and 0x3FC to 0x3FF for timing (02, K5).
#[inline(always)]
pub const fn is_protected(word: u16) -> bool {
    word <= 0x003 || word >= 0x3FC
}

/// The sum modulo 512 in b8..b0, b9 opposite of b8.
#[inline(always)]
pub fn checksum_word(sum: u64) -> u16 {
    let low = (sum & 0x1FF) as u16;
    low | (!low << 1 & 0x200)
}

#[inline(always)]
pub(super) fn load4(octets: &[u8], at: usize) -> u32 {
    u32::from_be_bytes(octets[at..at + 4].try_into().unwrap())
}

#[inline(always)]
pub(super) fn load8(octets: &[u8], at: usize) -> u64 {
    u64::from_be_bytes(octets[at..at + 8].try_into().unwrap())
}

/// One group: four words in five octets.
#[inline(always)]
fn load_group(o: &[u8; 5]) -> u64 {
    (u32::from_be_bytes([o[0], o[1], o[2], o[3]]) as u64) << 8 | o[4] as u64
}

/// Four groups: sixteen words in twenty octets.
#[inline(always)]
fn load_groups(o: &[u8; 20]) -> [u64; 4] {
    [
        load8(o, 0) >> 24,
        load8(o, 5) >> 24,
        load8(o, 10) >> 24,
        load8(o, 12) & 0xFF_FFFF_FFFF,
    ]
}

/// The sum of ten-bit words, of which only the low nine bits of the result
/// count: since 512 divides 1,024, b9 of each word falls out by itself.
/// `even` gathers the second and fourth words, so that `all - even` is the
/// first and third; 65 groups stay below a lane's twenty bits.
///
/// `clear` keeps b8 of each lane as long as no word in it was protected. Of a
/// protected word the upper eight bits are all zeros or all ones: with 0xFF
/// added they do not reach b8, or with 1 added they do.
pub(super) struct Sum {
    all: u64,
    even: u64,
    clear: u64,
}

impl Sum {
    /// The words of whole groups.
    #[inline(always)]
    pub(super) fn of_groups(mut octets: &[u8]) -> Sum {
        let (all, even, clear) = (0, 0, 0x100 * LANES);
        let mut sum = Sum { all, even, clear };
        while let Some((block, rest)) = octets.split_first_chunk::<20>() {
            for group in load_groups(block) {
                sum.add(group);
                sum.test(group);
            }
            octets = rest;
        }
        while let Some((group, rest)) = octets.split_first_chunk::<5>() {
            sum.add(load_group(group));
            sum.test(load_group(group));
            octets = rest;
        }
        sum
    }

    /// Up to three words more; in the other lanes a clear word is tested.
    #[inline(always)]
    pub(super) fn add_over(&mut self, words: u64, over: u32) {
        self.add(words);
        self.test(words | (0x200 * LANES) << (10 * over));
    }

    #[inline(always)]
    fn add(&mut self, group: u64) {
        self.all += group;
        self.even += group & EVEN_WORDS;
    }

    #[inline(always)]
    fn test(&mut self, group: u64) {
        let upper = group >> 2 & (0xFF * LANES);
        self.clear &= (upper + 0xFF * LANES) & !(upper + LANES);
    }

    /// Whether a word was protected. Well-formed header words are not: their
    /// b9 and b8 differ.
    #[inline(always)]
    pub(super) fn met_protected(&self) -> bool {
        self.clear != 0x100 * LANES
    }

    #[inline(always)]
    pub(super) fn total(self) -> u64 {
        let lanes = self.even + ((self.all - self.even) >> 10);
        lanes + (lanes >> 20)
    }
}

/// Whole groups into as many cells.
#[inline(always)]
pub(super) fn read_groups(mut octets: &[u8], mut cells: &mut [u16]) {
    while let Some((block, rest)) = octets.split_first_chunk::<20>() {
        let Some((words, left)) = cells.split_first_chunk_mut::<16>() else {
            return;
        };
        let [a, b, c, d] = load_groups(block).map(spread);
        words[..4].copy_from_slice(&a);
        words[4..8].copy_from_slice(&b);
        words[8..12].copy_from_slice(&c);
        words[12..].copy_from_slice(&d);
        (octets, cells) = (rest, left);
    }
    while let Some((group, rest)) = octets.split_first_chunk::<5>() {
        let Some((words, left)) = cells.split_first_chunk_mut::<4>() else {
            return;
        };
        *words = spread(load_group(group));
        (octets, cells) = (rest, left);
    }
}

/// Up to three words that stand before the checksum, which is the last word
/// of `tail`.
#[inline(always)]
pub(super) fn read_over(tail: u64, over: &mut [u16]) {
    let back = |words: u32| (tail >> (10 * words) & WORD) as u16;
    match over {
        [a, b, c] => [*a, *b, *c] = [back(3), back(2), back(1)],
        [a, b] => [*a, *b] = [back(2), back(1)],
        [a] => *a = back(1),
        _ => {}
    }
}

/// Up to three words and the checksum.
#[inline(always)]
pub(super) fn write_over(over: &[u16], checksum: u64) -> u64 {
    let words = match *over {
        [a, b, c] => (a as u64) << 20 | (b as u64) << 10 | c as u64,
        [a, b] => (a as u64) << 10 | b as u64,
        [a] => a as u64,
        _ => 0,
    };
    words << 10 | checksum
}

/// The checksum of header words and user data words.
#[inline(always)]
pub(super) fn checksum_of(header: [u16; 3], words: &[u16]) -> u64 {
    let [did, sdid, count] = header;
    let sum = words
        .iter()
        .fold(did + sdid + count, |sum, &word| sum.wrapping_add(word));
    checksum_word(sum as u64) as u64
}

/// The four ten-bit words of a group.
#[inline(always)]
fn spread(group: u64) -> [u16; 4] {
    [
        (group >> 30 & WORD) as u16,
        (group >> 20 & WORD) as u16,
        (group >> 10 & WORD) as u16,
        (group & WORD) as u16,
    ]
}

/// Cells, a multiple of four, into their groups.
#[inline(always)]
pub(super) fn write_groups(mut cells: &[u16], mut octets: &mut [u8]) {
    while let Some((words, left)) = cells.split_first_chunk::<16>() {
        let Some((block, rest)) = octets.split_first_chunk_mut::<20>() else {
            return;
        };
        *block = write_block(words);
        (cells, octets) = (left, rest);
    }
    while let Some((words, left)) = cells.split_first_chunk::<4>() {
        let Some((group, rest)) = octets.split_first_chunk_mut::<5>() else {
            return;
        };
        group.copy_from_slice(&gather(words).to_be_bytes()[3..]);
        (cells, octets) = (left, rest);
    }
}

/// Sixteen words into twenty octets: two times 64 bits and 32.
#[inline(always)]
fn write_block(cells: &[u16; 16]) -> [u8; 20] {
    let (quads, _) = cells.as_chunks::<4>();
    let [a, b, c, d] = [
        gather(&quads[0]),
        gather(&quads[1]),
        gather(&quads[2]),
        gather(&quads[3]),
    ];
    let mut octets = [0; 20];
    octets[..8].copy_from_slice(&(a << 24 | b >> 16).to_be_bytes());
    octets[8..16].copy_from_slice(&(b << 48 | c << 8 | d >> 32).to_be_bytes());
    octets[16..].copy_from_slice(&(d as u32).to_be_bytes());
    octets
}

/// Four ten-bit words out of sixteen-bit cells into a group.
#[inline(always)]
fn gather(quad: &[u16; 4]) -> u64 {
    let [a, b, c, d] = quad.map(u64::from);
    let lanes = a | b << 16 | c << 32 | d << 48;
    let halves = (lanes & HALF_WORDS) << 10 | (lanes >> 16 & HALF_WORDS);
    (halves & 0xFFFF_FFFF) << 20 | halves >> 32
}

#[cfg(test)]
mod tests {
    use super::*;

    #[test]
    fn marked_header_words() {
        for (number, word) in [(0x00, 0x200), (0x41, 0x241), (0x61, 0x161), (0xFF, 0x2FF)] {
            assert_eq!(HEADER_WORDS[number], word);
        }
    }

    #[test]
    fn parity_rule_over_the_table() {
        for (number, &word) in HEADER_WORDS.iter().enumerate() {
            assert_eq!(word as usize & 0xFF, number);
            assert_eq!((word & 0x1FF).count_ones() % 2, 0);
            assert_ne!(word >> 9 & 1, word >> 8 & 1);
            assert!(word < 1024);
        }
        let words = (0..=u16::MAX).filter(|&word| is_header_word(word)).count();
        assert_eq!(words, 256);
    }

    #[test]
    fn marked_checksum() {
        let words = [0x161, 0x102, 0x102, 0x2AA, 0x155];
        let sum = words.iter().map(|word| word & 0x1FF).sum();
        assert_eq!(checksum_word(sum), 0x164);
        assert_eq!(checksum_word(0), 0x200);
        assert_eq!(checksum_word(511), 0x1FF);
    }

    /// Every word in each lane of a group and of what is left over one.
    #[test]
    fn protected_in_every_lane() {
        for word in 0..1024 {
            let is = is_protected(word as u16);
            assert_eq!(is, [0, 1, 2, 3, 1020, 1021, 1022, 1023].contains(&word));
            for lane in 0..4 {
                let others = (0x155 * LANES) & !(WORD << (10 * lane));
                let group = others | word << (10 * lane);
                let sum = Sum::of_groups(&group.to_be_bytes()[3..]);
                assert_eq!(sum.met_protected(), is, "{word} {lane}");
                for over in lane + 1..4 {
                    let mut sum = Sum::of_groups(&[]);
                    sum.add_over(group & ((1 << (10 * over)) - 1), over);
                    assert_eq!(sum.met_protected(), is, "{word} {lane} {over}");
                }
            }
        }
        let header = |word: &u16| !is_protected(*word);
        assert!(HEADER_WORDS.iter().all(header));
        assert!((0..512).all(|sum| header(&checksum_word(sum))));
    }

    #[test]
    fn groups_there_and_back() {
        for group in [0, 0xFF_FFFF_FFFF, 0x12_3456_789A, 0x80_0402_0080] {
            assert_eq!(gather(&spread(group)), group);
        }
    }
}
