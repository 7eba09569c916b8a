//! The declarations of `include/jibhotran.h`, and the slices' side of them.
//! This is the only unsafe code that calls the archive: a slice's pointer and length name memory
//! that may be read, or written where the slice is mutable, and mutable
//! slices do not overlap others. `tests/header.rs` compares the
//! declarations with the header.

use crate::{Head, Pair, Side};

pub struct Archive;

#[rustfmt::skip]
extern "C" {
    fn jibhotran_read(layout: u8, octets: *const u8, octets_len: usize, cells: *mut u16, cells_len: usize, answer: *mut u64, answer_len: usize) -> u8;
    fn jibhotran_read_strict(layout: u8, octets: *const u8, octets_len: usize, cells: *mut u16, cells_len: usize, answer: *mut u64, answer_len: usize) -> u8;
    fn jibhotran_write(layout: u8, source: u32, payload_type: u8, marker: u8, number: u32, timestamp: u32, f: u8, cells: *const u16, cells_len: usize, out: *mut u8, out_len: usize, answer: *mut u64, answer_len: usize) -> u8;
    fn jibhotran_open(source: u32, payload_type: u8, state: *mut u64, state_len: usize, answer: *mut u64, answer_len: usize) -> u8;
    fn jibhotran_arrive(layout: u8, state: *mut u64, state_len: usize, octets: *const u8, octets_len: usize, store: *mut u16, store_len: usize, answer: *mut u64, answer_len: usize) -> u8;
    fn jibhotran_sdp_read(text: *const u8, text_len: usize, pairs: *mut u8, pairs_len: usize, answer: *mut u64, answer_len: usize) -> u8;
    fn jibhotran_sdp_write(pairs: *const u8, pairs_len: usize, vpid: u16, out: *mut u8, out_len: usize, answer: *mut u64, answer_len: usize) -> u8;
    fn jibhotran_file_begin(out: *mut u8, out_len: usize, answer: *mut u64, answer_len: usize) -> u8;
    fn jibhotran_file_write(timestamp: u32, f: u8, cells: *const u16, cells_len: usize, out: *mut u8, out_len: usize, answer: *mut u64, answer_len: usize) -> u8;
    fn jibhotran_file_read(file: *const u8, file_len: usize, at: usize, cells: *mut u16, cells_len: usize, answer: *mut u64, answer_len: usize) -> u8;
    fn jibhotran_line_write(line: *mut u16, line_len: usize, start: usize, cells: *const u16, cells_len: usize, answer: *mut u64, answer_len: usize) -> u8;
    fn jibhotran_line_read(line: *const u16, line_len: usize, start: usize, c: u16, line_number: u16, offset: u16, s: u16, stream: u16, cells: *mut u16, cells_len: usize, answer: *mut u64, answer_len: usize) -> u8;
    fn jibhotran_wanted(did: u8, sdid: u8, pairs: *const u8, pairs_len: usize) -> u8;
    fn jibhotran_wanted_of(did: u8, sdid: u8, pairs: *const Pair, pairs_len: usize) -> u8;
    fn jibhotran_outlet_open(state: *mut u64, state_len: usize) -> u8;
    fn jibhotran_outlet_offer(state: *mut u64, state_len: usize, channel: u8, packet: *const u8, packet_len: usize, memory: *mut u8, memory_len: usize, answer: *mut u64, answer_len: usize) -> u8;
    fn jibhotran_outlet_take(state: *mut u64, state_len: usize, memory: *const u8, memory_len: usize, out: *mut u8, out_len: usize, answer: *mut u64, answer_len: usize) -> u8;
}

/// Calls with each slice as a pointer and a length; `in` is only read, `mut`
/// may be written.
macro_rules! call {
    (@ [$name:ident] [$($done:expr,)*]) => { unsafe { $name($($done),*) } };
    (@ [$name:ident] [$($done:expr,)*] in $slice:ident, $($rest:tt)*) => {
        call!(@ [$name] [$($done,)* $slice.as_ptr(), $slice.len(),] $($rest)*)
    };
    (@ [$name:ident] [$($done:expr,)*] mut $slice:ident, $($rest:tt)*) => {
        call!(@ [$name] [$($done,)* $slice.as_mut_ptr(), $slice.len(),] $($rest)*)
    };
    (@ [$name:ident] [$($done:expr,)*] $plain:expr, $($rest:tt)*) => {
        call!(@ [$name] [$($done,)* $plain,] $($rest)*)
    };
    ($name:ident($($arguments:tt)*)) => { call!(@ [$name] [] $($arguments)*,) };
}

impl Side for Archive {
    #[inline]
    fn read(layout: u8, octets: &[u8], cells: &mut [u16], answer: &mut [u64]) -> u8 {
        call!(jibhotran_read(layout, in octets, mut cells, mut answer))
    }

    #[inline]
    fn read_strict(layout: u8, octets: &[u8], cells: &mut [u16], answer: &mut [u64]) -> u8 {
        call!(jibhotran_read_strict(layout, in octets, mut cells, mut answer))
    }

    #[inline]
    fn write(layout: u8, head: &Head, cells: &[u16], out: &mut [u8], answer: &mut [u64]) -> u8 {
        let Head {
            source,
            payload_type,
            marker,
            number,
            timestamp,
            f,
        } = *head;
        call!(jibhotran_write(
            layout, source, payload_type, marker, number, timestamp, f, in cells, mut out, mut answer
        ))
    }

    fn open(source: u32, payload_type: u8, state: &mut [u64], answer: &mut [u64]) -> u8 {
        call!(jibhotran_open(source, payload_type, mut state, mut answer))
    }

    #[inline]
    fn arrive(
        layout: u8,
        state: &mut [u64],
        octets: &[u8],
        store: &mut [u16],
        answer: &mut [u64],
    ) -> u8 {
        call!(jibhotran_arrive(layout, mut state, in octets, mut store, mut answer))
    }

    fn sdp_read(text: &[u8], pairs: &mut [u8], answer: &mut [u64]) -> u8 {
        call!(jibhotran_sdp_read(in text, mut pairs, mut answer))
    }

    fn sdp_write(pairs: &[u8], vpid: u16, out: &mut [u8], answer: &mut [u64]) -> u8 {
        call!(jibhotran_sdp_write(in pairs, vpid, mut out, mut answer))
    }

    fn file_begin(out: &mut [u8], answer: &mut [u64]) -> u8 {
        call!(jibhotran_file_begin(mut out, mut answer))
    }

    fn file_write(timestamp: u32, f: u8, cells: &[u16], out: &mut [u8], answer: &mut [u64]) -> u8 {
        call!(jibhotran_file_write(timestamp, f, in cells, mut out, mut answer))
    }

    fn file_read(file: &[u8], at: usize, cells: &mut [u16], answer: &mut [u64]) -> u8 {
        call!(jibhotran_file_read(in file, at, mut cells, mut answer))
    }

    fn line_write(line: &mut [u16], start: usize, cells: &[u16], answer: &mut [u64]) -> u8 {
        call!(jibhotran_line_write(mut line, start, in cells, mut answer))
    }

    fn line_read(
        line: &[u16],
        start: usize,
        place: &[u16; 5],
        cells: &mut [u16],
        answer: &mut [u64],
    ) -> u8 {
        let [c, line_number, offset, s, stream] = *place;
        call!(jibhotran_line_read(
            in line, start, c, line_number, offset, s, stream, mut cells, mut answer
        ))
    }

    fn wanted(did: u8, sdid: u8, pairs: &[u8]) -> u8 {
        call!(jibhotran_wanted(did, sdid, in pairs))
    }

    fn wanted_of(did: u8, sdid: u8, pairs: &[Pair]) -> u8 {
        call!(jibhotran_wanted_of(did, sdid, in pairs))
    }

    fn outlet_open(state: &mut [u64]) -> u8 {
        call!(jibhotran_outlet_open(mut state))
    }

    #[inline]
    fn outlet_offer(
        state: &mut [u64],
        channel: u8,
        packet: &[u8],
        memory: &mut [u8],
        answer: &mut [u64],
    ) -> u8 {
        call!(jibhotran_outlet_offer(mut state, channel, in packet, mut memory, mut answer))
    }

    #[inline]
    fn outlet_take(state: &mut [u64], memory: &[u8], out: &mut [u8], answer: &mut [u64]) -> u8 {
        call!(jibhotran_outlet_take(mut state, in memory, mut out, mut answer))
    }
}
