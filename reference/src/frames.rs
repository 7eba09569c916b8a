//! Frames of RFC 4571: a 16-bit length, then that many octets.

/// One frame, or the broken last one.
#[derive(Clone, Copy, Debug, PartialEq, Eq)]
pub enum Frame<'a> {
    Packet(&'a [u8]),
    Cut,
}

/// The frames of an input, in order.
#[derive(Clone, Copy, Debug)]
pub struct Frames<'a> {
    rest: &'a [u8],
}

impl<'a> Frames<'a> {
    pub fn new(input: &'a [u8]) -> Frames<'a> {
        Frames { rest: input }
    }

    fn packet(&self) -> Option<(&'a [u8], &'a [u8])> {
        let (length, rest) = self.rest.split_first_chunk()?;
        rest.split_at_checked(u16::from_be_bytes(*length) as usize)
    }
}

impl<'a> Iterator for Frames<'a> {
    type Item = Frame<'a>;

    fn next(&mut self) -> Option<Frame<'a>> {
        if self.rest.is_empty() {
            return None;
        }
        let Some((packet, rest)) = self.packet() else {
            self.rest = &[];
            return Some(Frame::Cut);
        };
        self.rest = rest;
        Some(Frame::Packet(packet))
    }
}

/// Puts a packet into a frame at the end of `out`; one too long for the
/// length is left out.
pub fn put_frame(packet: &[u8], out: &mut Vec<u8>) {
    if let Ok(length) = u16::try_from(packet.len()) {
        out.extend_from_slice(&length.to_be_bytes());
        out.extend_from_slice(packet);
    }
}

#[cfg(test)]
mod tests {
    use super::*;

    fn frames(input: &[u8]) -> Vec<Frame<'_>> {
        Frames::new(input).collect()
    }

    #[test]
    fn whole_and_cut() {
        use Frame::*;
        assert_eq!(frames(&[]), []);
        assert_eq!(frames(&[0]), [Cut]);
        assert_eq!(frames(&[0, 0]), [Packet(&[])]);
        assert_eq!(frames(&[0, 1, 9, 0, 2, 7]), [Packet(&[9]), Cut]);
        assert_eq!(frames(&[0, 2, 7, 8, 1]), [Packet(&[7, 8]), Cut]);
    }
}
