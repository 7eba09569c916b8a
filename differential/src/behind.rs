//! The reference behind the archive's boundary: C functions of the header's
//! types over [`Model`], for measuring. A call costs what the archive's does:
//! slices taken apart, and rows written.

use std::slice::{from_raw_parts, from_raw_parts_mut};

use crate::{Head, Model, Side};

/// [`Model`] through C calls.
pub struct Behind;

#[rustfmt::skip]
#[inline(never)]
unsafe extern "C" fn read(layout: u8, octets: *const u8, octets_len: usize, cells: *mut u16, cells_len: usize, answer: *mut u64, answer_len: usize) -> u8 {
    let (octets, cells) = (from_raw_parts(octets, octets_len), from_raw_parts_mut(cells, cells_len));
    Model::read(layout, octets, cells, from_raw_parts_mut(answer, answer_len))
}

#[rustfmt::skip]
#[inline(never)]
unsafe extern "C" fn write(layout: u8, source: u32, payload_type: u8, marker: u8, number: u32, timestamp: u32, f: u8, cells: *const u16, cells_len: usize, out: *mut u8, out_len: usize, answer: *mut u64, answer_len: usize) -> u8 {
    let head = Head { source, payload_type, marker, number, timestamp, f };
    let (cells, out) = (from_raw_parts(cells, cells_len), from_raw_parts_mut(out, out_len));
    Model::write(layout, &head, cells, out, from_raw_parts_mut(answer, answer_len))
}

#[rustfmt::skip]
#[inline(never)]
unsafe extern "C" fn arrive(layout: u8, state: *mut u64, state_len: usize, octets: *const u8, octets_len: usize, store: *mut u16, store_len: usize, answer: *mut u64, answer_len: usize) -> u8 {
    let (state, octets) = (from_raw_parts_mut(state, state_len), from_raw_parts(octets, octets_len));
    let store = from_raw_parts_mut(store, store_len);
    Model::arrive(layout, state, octets, store, from_raw_parts_mut(answer, answer_len))
}

// The slices stand for the time of the call, and the mutable ones do not
// overlap others.
#[rustfmt::skip]
impl Behind {
    #[inline]
    pub fn read(layout: u8, octets: &[u8], cells: &mut [u16], answer: &mut [u64]) -> u8 {
        unsafe { read(layout, octets.as_ptr(), octets.len(), cells.as_mut_ptr(), cells.len(), answer.as_mut_ptr(), answer.len()) }
    }

    #[inline]
    pub fn write(layout: u8, head: &Head, cells: &[u16], out: &mut [u8], answer: &mut [u64]) -> u8 {
        let Head { source, payload_type, marker, number, timestamp, f } = *head;
        unsafe { write(layout, source, payload_type, marker, number, timestamp, f, cells.as_ptr(), cells.len(), out.as_mut_ptr(), out.len(), answer.as_mut_ptr(), answer.len()) }
    }

    #[inline]
    pub fn arrive(layout: u8, state: &mut [u64], octets: &[u8], store: &mut [u16], answer: &mut [u64]) -> u8 {
        unsafe { arrive(layout, state.as_mut_ptr(), state.len(), octets.as_ptr(), octets.len(), store.as_mut_ptr(), store.len(), answer.as_mut_ptr(), answer.len()) }
    }
}
