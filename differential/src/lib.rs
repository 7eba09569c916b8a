//! The proved archive beside the reference: one boundary, two sides.
//!
//! [`Archive`] is the proved archives through the C boundary. [`Model`] is the same
//! boundary over the reference. [`call::compare`] makes one call on both and
//! compares all that can be seen of it. [`Behind`] is the reference called as
//! the archive is, for measuring.

pub mod archive;
pub mod behind;
pub mod call;
pub mod edges;
pub mod inputs;
pub mod model;
pub mod program;

pub use archive::Archive;
pub use behind::Behind;
pub use model::Model;

/// Numbers that an answer row needs.
pub const ANSWER: usize = 9;
/// Numbers that a state row needs.
pub const STATE: usize = 15;
/// Numbers that an outlet's state row needs.
pub const OUTLET_STATE: usize = 145;
/// Octets of the memory that an outlet is lent.
pub const OUTLET_MEMORY: usize = 65_536;
/// The most octets of a packet that an outlet takes.
pub const OUTLET_PACKET: usize = 1_024;
/// A row is too short.
pub const ROW: u8 = 255;
/// A layout's number is that of neither.
pub const LAYOUT: u8 = 254;
/// The layouts' numbers: RFC 8331's, and that of the drafts of 2015.
pub const RFC8331: u8 = 0;
pub const DRAFTS: u8 = 1;
/// The first number that is no VPID code.
pub const NO_VPID: u16 = 256;
/// Answers of `arrive`.
pub const SKIPPED: u64 = 0;
pub const HELD: u64 = 1;
pub const MIXED: u64 = 2;
pub const OVERFULL: u64 = 3;
pub const WHOLE: u64 = 4;

/// What the packet writer takes with the list. A marker other than 0 marks.
#[derive(Clone, Copy, Debug, PartialEq, Eq)]
pub struct Head {
    pub source: u32,
    pub payload_type: u8,
    pub marker: u8,
    pub number: u32,
    pub timestamp: u32,
    pub f: u8,
}

/// A wanted pair, laid out as the header's `struct jibhotran_pair`.
#[repr(C)]
#[derive(Clone, Copy, Debug, PartialEq, Eq)]
pub struct Pair {
    pub did: u8,
    pub sdid: u8,
}

/// The boundary's fourteen functions over slices.
pub trait Side {
    fn read(layout: u8, octets: &[u8], cells: &mut [u16], answer: &mut [u64]) -> u8;
    fn read_strict(layout: u8, octets: &[u8], cells: &mut [u16], answer: &mut [u64]) -> u8;
    fn write(layout: u8, head: &Head, cells: &[u16], out: &mut [u8], answer: &mut [u64]) -> u8;
    fn open(source: u32, payload_type: u8, state: &mut [u64], answer: &mut [u64]) -> u8;
    fn arrive(
        layout: u8,
        state: &mut [u64],
        octets: &[u8],
        store: &mut [u16],
        answer: &mut [u64],
    ) -> u8;
    fn sdp_read(text: &[u8], pairs: &mut [u8], answer: &mut [u64]) -> u8;
    fn sdp_write(pairs: &[u8], vpid: u16, out: &mut [u8], answer: &mut [u64]) -> u8;
    fn file_begin(out: &mut [u8], answer: &mut [u64]) -> u8;
    fn file_write(timestamp: u32, f: u8, cells: &[u16], out: &mut [u8], answer: &mut [u64]) -> u8;
    fn file_read(file: &[u8], at: usize, cells: &mut [u16], answer: &mut [u64]) -> u8;
    fn line_write(line: &mut [u16], start: usize, cells: &[u16], answer: &mut [u64]) -> u8;
    /// The place is C, line number, offset, S and StreamNum.
    fn line_read(
        line: &[u16],
        start: usize,
        place: &[u16; 5],
        cells: &mut [u16],
        answer: &mut [u64],
    ) -> u8;
    fn wanted(did: u8, sdid: u8, pairs: &[u8]) -> u8;
    fn wanted_of(did: u8, sdid: u8, pairs: &[Pair]) -> u8;
    fn outlet_open(state: &mut [u64]) -> u8;
    fn outlet_offer(
        state: &mut [u64],
        channel: u8,
        packet: &[u8],
        memory: &mut [u8],
        answer: &mut [u64],
    ) -> u8;
    fn outlet_take(state: &mut [u64], memory: &[u8], out: &mut [u8], answer: &mut [u64]) -> u8;
}
