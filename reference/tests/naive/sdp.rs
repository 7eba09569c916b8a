//! SDP texts.

use super::*;
use reference::sdp::{self, Parameters};

/// Taken octet by octet from the left.
struct Cursor<'a>(&'a [u8]);

impl Cursor<'_> {
    fn take(&mut self, octet: u8) -> bool {
        let is = self.0.first() == Some(&octet);
        if is {
            self.0 = &self.0[1..];
        }
        is
    }

    fn take_all(&mut self, text: &[u8]) -> bool {
        text.iter().all(|&octet| self.take(octet))
    }

    fn take_while(&mut self, is: impl Fn(u8) -> bool) -> Vec<u8> {
        let mut taken = Vec::new();
        while let Some(&octet) = self.0.first().filter(|&&octet| is(octet)) {
            taken.push(octet);
            self.0 = &self.0[1..];
        }
        taken
    }

    fn hex(&mut self) -> Option<u8> {
        let digits = self
            .take_all(b"0x")
            .then(|| self.take_while(|x| x.is_ascii_hexdigit()))?;
        let text = String::from_utf8(digits).ok()?;
        u8::from_str_radix(&text, 16)
            .ok()
            .filter(|_| text.len() <= 2)
    }

    fn pair(&mut self) -> Option<(u8, u8)> {
        let did = self.take(b'{').then(|| self.hex())??;
        let sdid = self.take(b',').then(|| self.hex())??;
        self.take(b'}').then_some((did, sdid))
    }

    fn vpid(&mut self) -> Option<u8> {
        let digits = self.take_while(|x| x.is_ascii_digit());
        let text = String::from_utf8(digits).ok()?;
        text.parse().ok().filter(|_| text.len() <= 3)
    }

    fn ended(&self) -> bool {
        matches!(self.0.first(), None | Some(b';'))
    }
}

fn naive_text(text: &[u8]) -> Refused<(Parameters, Vec<u8>)> {
    if text.len() > 4_096 {
        return Err((40, 0));
    }
    let mut cursor = Cursor(text);
    let (mut index, mut pairs, mut vpid) = (0, Vec::new(), None);
    while !text.is_empty() {
        let name = cursor.take_while(|x| x.is_ascii_alphanumeric() || x == b'_' || x == b'-');
        if name.is_empty() || !cursor.take(b'=') {
            return Err((41, index));
        }
        if name == b"DID_SDID" {
            let pair = cursor.pair().filter(|_| cursor.ended());
            let (did, sdid) = pair.ok_or((41, index))?;
            if pairs.len() == 128 {
                return Err((43, index));
            }
            pairs.extend([did, sdid]);
        } else if name == b"VPID_Code" {
            let code = cursor.vpid().filter(|_| cursor.ended());
            let code = code.ok_or((41, index))?;
            if vpid.replace(code).is_some() {
                return Err((42, index));
            }
        } else if cursor.take_while(|x| x != b';' && x != b' ').is_empty() || !cursor.ended() {
            return Err((41, index));
        }
        if !cursor.take(b';') {
            break;
        }
        cursor.take_while(|x| x == b' ');
        index += 1;
    }
    let parameters = Parameters {
        pairs: pairs.len() / 2,
        vpid,
    };
    Ok((parameters, pairs))
}

#[test]
fn sdp_reader() {
    let mut r = Random::new(7);
    for _ in 0..30_000 {
        let TextCase { text, room } = text_case(&mut r);
        let lent = vec![0x5A; room];
        let (expected, after) = match naive_text(&text) {
            Ok((_, pairs)) if pairs.len() > room => (Err((44, 0)), lent.clone()),
            Ok((parameters, pairs)) => (Ok(parameters), overwritten(&lent, 0, &pairs)),
            Err(refusal) => (Err(refusal), lent.clone()),
        };
        let mut octets = lent;
        let answer = pair(sdp::read(&text, &mut octets));
        assert_eq!(answer, expected, "{}", String::from_utf8_lossy(&text));
        assert_eq!(octets, after);
    }
}

#[test]
fn sdp_writer() {
    let mut r = Random::new(8);
    for _ in 0..20_000 {
        let PairsCase { pairs, vpid, room } = pairs_case(&mut r);
        let items = pairs.chunks(2).map(|pair| match pair {
            [did, sdid] => format!("DID_SDID={{0x{did:02x},0x{sdid:02x}}}"),
            _ => String::new(),
        });
        let items: Vec<String> = items
            .chain(vpid.map(|code| format!("VPID_Code={code}")))
            .collect();
        let text = match pairs.len() {
            odd if odd % 2 == 1 => Err((41, 0)),
            over if over > 128 => Err((43, 0)),
            _ => Ok(items.join(";").into_bytes()),
        };
        let (expected, after) = lent_octets(text, room, 44);
        let mut out = vec![0x5A; room];
        assert_eq!(pair(sdp::write(&pairs, vpid, &mut out)), expected);
        assert_eq!(out, after);
    }
}
