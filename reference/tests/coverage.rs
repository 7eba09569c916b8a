//! The random inputs reach every refusal number, those with an index with
//! several. 22 cannot be given, and 1 not in a frame.

use reference::coverage::cover;

const INDEXED: [u8; 10] = [9, 10, 11, 12, 15, 16, 20, 41, 42, 43];

#[test]
fn every_number_is_reached() {
    let coverage = cover(1, 8_000);
    let strict: Vec<u8> = (0..=16).collect();
    let reads: Vec<u8> = (0..=10).chain(12..=16).collect();
    let arrivals: Vec<u8> = (0..=13).chain([15, 16, 30, 31, 32, 35, 36]).collect();
    let frames: Vec<u8> = (2..=13).chain([0, 15, 16, 30, 31, 32, 36]).collect();
    let recordings: Vec<u8> = (2..=13).chain([15, 16, 30, 31]).collect();
    let expected: [(&str, &[u8]); 17] = [
        ("read", &reads),
        ("read strict", &strict),
        ("write", &[0, 16, 20, 21, 23, 24, 25]),
        ("arrive", &arrivals),
        ("frames", &frames),
        ("recording", &recordings),
        ("pair", &[9, 10, 11, 12, 16, 21, 50, 51, 52, 53]),
        ("open", &[0, 24]),
        ("sdp read", &[0, 40, 41, 42, 43, 44]),
        ("sdp write", &[0, 41, 43, 44]),
        (
            "file read",
            &[0, 9, 10, 11, 12, 14, 16, 21, 50, 51, 52, 53, 54, 55],
        ),
        ("file write", &[0, 16, 20, 21, 23, 53]),
        ("file begin", &[0, 23]),
        ("line write", &[0, 16, 20, 70, 71, 72]),
        ("line read", &[0, 9, 10, 11, 14, 16, 20, 70, 71, 73]),
        ("offer", &[0, 60, 61, 62, 64]),
        ("take", &[0, 23, 63, 64]),
    ];
    for (entry, numbers) in expected {
        for &number in numbers {
            let (times, indices) = coverage.of(entry, number);
            assert!(times > 0, "{entry} {number}");
            let alone =
                ["sdp write", "pair"].contains(&entry) || (entry, number) == ("line read", 20);
            let several = INDEXED.contains(&number) && !alone;
            assert!(!several || indices > 2, "{entry} {number}: {indices}");
        }
        let others = coverage
            .counts
            .keys()
            .filter(|(e, n, _)| *e == entry && !numbers.contains(n));
        assert_eq!(others.count(), 0, "{entry}");
    }
    assert!(coverage.answers[&("read", "left out")] > 100);
    for kind in ["clean", "cut", "number", "change", "reserved", "raster"] {
        assert!(coverage.answers[&("recording", kind)] > 20, "{kind}");
    }
    let lists = ["alike", "ts", "f", "records", "cell", "only"];
    let refused = ["refused both", "refused left", "refused right"];
    for kind in lists.into_iter().chain(refused) {
        assert!(coverage.answers[&("pair", kind)] > 20, "{kind}");
    }
    for answer in ["skipped", "held", "mixed", "overfull", "whole", "restarted"] {
        for entry in ["arrive", "frames"] {
            assert!(
                coverage.answers.contains_key(&(entry, answer)),
                "{entry} {answer}"
            );
        }
    }
}

#[test]
fn the_same_seed_gives_the_same_inputs() {
    assert_eq!(cover(5, 300).counts, cover(5, 300).counts);
}
