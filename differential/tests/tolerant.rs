//! The two ways of reading a packet (02, K9): every choice of four records
//! whose checksum is wrong, alone and beside what both ways refuse.

use differential::call::{compare, Call, Lengths, Memory};
use differential::model::number_of;
use differential::ANSWER;
use reference::random::{Parts, Random};
use reference::runs::HEAD;
use reference::Layout;

/// Words of the four records: alignment bits, none, many, few.
const COUNTS: [u16; 4] = [2, 0, 255, 5];

fn record(n: u16) -> Vec<u16> {
    let mut cells = vec![1, 9, 4095, 0, 0, 0x61, 0x02, n, 0];
    cells.extend((0..n).map(|word| 4 + word * 37 % 1016));
    cells
}

/// A packet of the four, of which the chosen have another checksum word.
fn packet(layout: Layout, choice: usize) -> Parts {
    let cells: Vec<u16> = COUNTS.into_iter().flat_map(record).collect();
    let mut parts = Parts::of(layout, HEAD, &cells);
    for index in (0..4).filter(|index| choice >> index & 1 == 1) {
        *parts.anc[index].words.last_mut().unwrap() ^= 1 << (3 * index);
    }
    parts
}

fn lent(cells: usize, r: &mut Random) -> Memory {
    let lengths = Lengths {
        answer: ANSWER,
        cells,
        ..Lengths::default()
    };
    Memory::new(lengths, r)
}

/// The number and the index of a refusal, in the tolerant way and in the
/// strict one; 0 and 0 where the packet is accepted.
fn read(layout: Layout, parts: &Parts, r: &mut Random) -> [(u8, u64); 2] {
    let (layout, octets) = (number_of(layout), parts.assemble());
    let tolerant = Call::Read {
        layout,
        octets: octets.clone(),
    };
    let strict = Call::ReadStrict { layout, octets };
    [tolerant, strict].map(|call| {
        let (number, after) = compare(&call, &lent(400, r));
        (number, if number == 0 { 0 } else { after.answer.get()[0] })
    })
}

/// The least of a choice, if there is one.
fn first(choice: usize) -> Option<u64> {
    (0..4)
        .find(|index| choice >> index & 1 == 1)
        .map(|index| index as u64)
}

/// What comes through, and how many are left out; 14 by what comes through.
#[test]
fn every_choice_of_four() {
    let mut r = Random::new(901);
    for (layout, choice) in Layout::ALL
        .into_iter()
        .flat_map(|layout| (0..16).map(move |choice| (layout, choice)))
    {
        let through: Vec<u16> = (0..4)
            .filter(|index| choice >> index & 1 == 0)
            .flat_map(|index| record(COUNTS[index]))
            .collect();
        let call = Call::Read {
            layout: number_of(layout),
            octets: packet(layout, choice).assemble(),
        };
        let (number, after) = compare(&call, &lent(through.len(), &mut r));
        assert_eq!((number, after.cells.get()), (0, &through[..]));
        let wrong = choice.count_ones() as u64;
        assert_eq!(
            after.answer.get()[6..9],
            [4 - wrong, through.len() as u64, wrong]
        );
        if !through.is_empty() {
            let (number, _) = compare(&call, &lent(through.len() - 1, &mut r));
            assert_eq!(number, 14);
        }
        let strict = first(choice).map_or((0, 0), |index| (11, index));
        assert_eq!(read(layout, &packet(layout, choice), &mut r)[1], strict);
    }
}

/// Beside each choice an alignment bit, a protected word or a malformed
/// header word in each record that has a place for it: both ways refuse it,
/// the strict one if no wrong checksum comes before.
#[test]
fn every_choice_beside_another_fault() {
    let mut r = Random::new(902);
    type Damage = fn(&mut Parts, usize);
    let faults: [(u8, Damage); 3] = [
        (12, |parts, index| parts.anc[index].alignment = 1),
        (16, |parts, index| parts.anc[index].words[3] = 0x3FC),
        (10, |parts, index| parts.anc[index].words[1] ^= 0x100),
    ];
    let mut met = [0; 3];
    for layout in Layout::ALL {
        for (choice, index) in (0..16).flat_map(|choice| (0..4).map(move |index| (choice, index))) {
            for (kind, (number, damage)) in faults.into_iter().enumerate() {
                if number == 16 && COUNTS[index] == 0 {
                    continue;
                }
                let mut parts = packet(layout, choice);
                let whole = parts.assemble();
                damage(&mut parts, index);
                if parts.assemble() == whole {
                    // No alignment bits.
                    continue;
                }
                let here = index as u64;
                let strict = match first(choice) {
                    Some(wrong) if wrong < here || (wrong == here && number == 12) => (11, wrong),
                    _ => (number, here),
                };
                let given = read(layout, &parts, &mut r);
                assert_eq!(given, [(number, here), strict], "{choice:b} {index}");
                met[kind] += 1;
            }
        }
    }
    assert!(met.iter().all(|&times| times >= 64), "{met:?}");
}
