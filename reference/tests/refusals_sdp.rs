//! Every refusal number of SDP texts by hand, with its index and unchanged
//! lent memory; the filter.

use reference::{sdp, Refusal};

fn sdp_read(text: &str, room: usize) -> Result<(Vec<u8>, Option<u8>), (u8, usize)> {
    let mut octets = vec![0x5A; room];
    match sdp::read(text.as_bytes(), &mut octets) {
        Ok(read) => {
            assert!(octets[2 * read.pairs..].iter().all(|&octet| octet == 0x5A));
            Ok((octets[..2 * read.pairs].to_vec(), read.vpid))
        }
        Err(Refusal { number, index }) => {
            assert!(octets.iter().all(|&octet| octet == 0x5A));
            Err((number, index))
        }
    }
}

#[test]
fn sdp_reading() {
    let sample = "DID_SDID={0x61,0x02};DID_SDID={0x41,0x05};VPID_Code=132";
    assert_eq!(sdp_read(sample, 9), Ok((vec![0x61, 2, 0x41, 5], Some(132))));
    assert_eq!(sdp_read("", 0), Ok((vec![], None)));
    assert_eq!(
        sdp_read("DID_SDID={0xA,0xfF};   a=b=c", 2),
        Ok((vec![10, 255], None))
    );
    assert_eq!(sdp_read("VPID_Code=007", 0), Ok((vec![], Some(7))));
    assert_eq!(
        sdp_read("did_sdid=x;VPID_CODE=y;vpid_code=\t", 0),
        Ok((vec![], None))
    );
    let longest = format!("x={}", "y".repeat(4094));
    assert_eq!(sdp_read(&longest, 0), Ok((vec![], None)));
    assert_eq!(sdp_read(&format!("{longest};"), 0), Err((40, 0)));
    for (text, index) in [
        (" ", 0),
        (";", 0),
        ("a=b;", 1),
        ("a=b; ", 1),
        ("a=b;;c=d", 1),
        (" a=b", 0),
        ("a=b ;c=d", 0),
        ("a=b;c", 1),
        ("a=b;c=", 1),
        ("a=b;=c", 1),
        ("a=b;c=d;VPID_Code=256", 2),
        ("a=b;c=d;VPID_Code=", 2),
        ("a=b;c=d;VPID_Code=0001", 2),
        ("DID_SDID={0x61,0x02};DID_SDID={0x61,0x002}", 1),
        ("DID_SDID={0X61,0x02}", 0),
        ("DID_SDID={0x61, 0x02}", 0),
        ("DID_SDID={0x61,0x02}x", 0),
        ("DID_SDID={0x61,0x02,0x03}", 0),
        ("VPID_Code=1;VPID_Code=256", 1),
        ("VPID_Code=1;;VPID_Code=2", 1),
    ] {
        assert_eq!(sdp_read(text, 200), Err((41, index)), "{text}");
    }
    assert_eq!(sdp_read("VPID_Code=1;a=b;VPID_Code=1;;", 200), Err((42, 2)));
    let pair = "DID_SDID={0x1,0x2};";
    let full = pair.repeat(64);
    assert!(sdp_read(&full[..full.len() - 1], 128).is_ok());
    assert_eq!(sdp_read(&full[..full.len() - 1], 127), Err((44, 0)));
    assert_eq!(
        sdp_read(&format!("x=y;{full}DID_SDID={{0x1,0x2}};;"), 0),
        Err((43, 65))
    );
    assert_eq!(
        sdp_read(&format!("{full}VPID_Code=1;DID_SDID={{0x1,0x2}}"), 0),
        Err((43, 65))
    );
    assert_eq!(
        sdp_read(&format!("{full}DID_SDID={{0x1,0x}}"), 0),
        Err((41, 64))
    );
}

fn sdp_write(pairs: &[u8], vpid: Option<u8>, room: usize) -> Result<String, (u8, usize)> {
    let mut out = vec![0x5A; room];
    match sdp::write(pairs, vpid, &mut out) {
        Ok(size) => {
            assert!(out[size..].iter().all(|&octet| octet == 0x5A));
            Ok(String::from_utf8(out[..size].to_vec()).unwrap())
        }
        Err(Refusal { number, index }) => {
            assert!(out.iter().all(|&octet| octet == 0x5A));
            Err((number, index))
        }
    }
}

#[test]
fn sdp_writing() {
    let sample = "DID_SDID={0x61,0x02};DID_SDID={0x4a,0x05};VPID_Code=132";
    assert_eq!(
        sdp_write(&[0x61, 2, 0x4A, 5], Some(132), 100).as_deref(),
        Ok(sample)
    );
    assert_eq!(sdp_write(&[], Some(0), 11).as_deref(), Ok("VPID_Code=0"));
    assert_eq!(sdp_write(&[], Some(10), 99).as_deref(), Ok("VPID_Code=10"));
    assert_eq!(sdp_write(&[], None, 0).as_deref(), Ok(""));
    assert_eq!(sdp_write(&[0; 131], None, 0), Err((41, 0)));
    assert_eq!(sdp_write(&[0; 130], None, 0), Err((43, 0)));
    assert_eq!(sdp_write(&[0; 128], None, 1342), Err((44, 0)));
    assert_eq!(
        sdp_write(&[0; 128], None, 1343).map(|text| text.len()),
        Ok(1343)
    );
    assert_eq!(
        sdp_write(&[0; 128], Some(255), 1357).map(|text| text.len()),
        Ok(1357)
    );
}

#[test]
fn the_filter() {
    use sdp::{wanted, wanted_octets, Pair};
    let row = [Pair { did: 0x61, sdid: 2 }, Pair { did: 0x41, sdid: 5 }];
    for (did, sdid, is) in [
        (0x61, 2, true),
        (0x41, 5, true),
        (0x61, 5, false),
        (0x41, 2, false),
    ] {
        assert_eq!(wanted(&row, did, sdid), is);
        assert_eq!(wanted_octets(&[0x61, 2, 0x41, 5], did, sdid), is);
        assert!(wanted(&[], did, sdid));
        assert!(wanted_octets(&[], did, sdid));
        // A last octet without an SDID is no entry.
        assert!(wanted_octets(&[0x61], did, sdid));
        assert_eq!(
            wanted_octets(&[0x61, 2, 0x41], did, sdid),
            did == 0x61 && sdid == 2
        );
    }
}

/// Of a DID of 0x80 or above the second number is a data block number, and
/// matters on neither side.
#[test]
fn the_filter_by_type() {
    use sdp::{wanted, wanted_octets, Pair};
    for did in 0..=255 {
        for (entry, asked) in [(0, 0), (0, 7), (7, 0), (7, 255), (255, 255)] {
            let is = did >= 0x80 || entry == asked;
            let row = [Pair { did: 9, sdid: 9 }, Pair { did, sdid: entry }];
            let found = did == 9 && asked == 9;
            assert_eq!(wanted(&row, did, asked), is || found);
            assert_eq!(wanted_octets(&[did, entry], did, asked), is);
            assert!(!wanted_octets(&[did ^ 1, entry], did, asked));
        }
    }
}
