//! The shared outlet over its row of numbers, from any state.

use super::*;
use reference::outlet::{self, State};

type Row = [u64; 145];

/// Where a channel's k-th packet stands: the numbers of its slot and length.
fn naive_place(row: &Row, channel: usize, k: u64) -> (usize, usize) {
    let place = 8 * channel + ((row[channel] + k) % 8) as usize;
    (16 + place, 80 + place)
}

fn naive_sound(row: &Row, memory: &[u8]) -> bool {
    if memory.len() != 65_536 || row[144] > 7 {
        return false;
    }
    if row[16..80].iter().any(|&slot| slot > 63) {
        return false;
    }
    let mut held = Vec::new();
    for channel in 0..8 {
        if row[channel] > 7 || row[8 + channel] > 8 {
            return false;
        }
        for k in 0..row[8 + channel] {
            let (slot, length) = naive_place(row, channel, k);
            if row[slot] > 63 || row[length] == 0 || row[length] > 1_024 {
                return false;
            }
            if held.contains(&row[slot]) {
                return false;
            }
            held.push(row[slot]);
        }
    }
    true
}

fn naive_free(row: &Row) -> u64 {
    let held = |slot| {
        let mut channels = 0..8;
        channels.any(|channel| {
            let mut packets = 0..row[8 + channel];
            packets.any(|k| row[naive_place(row, channel, k).0] == slot)
        })
    };
    (0..64).find(|&slot| !held(slot)).unwrap()
}

fn naive_offer(row: &Row, memory: &[u8], channel: u8, octets: &[u8]) -> Refused<(Row, Vec<u8>)> {
    if !naive_sound(row, memory) {
        return Err((64, 0));
    }
    if channel > 7 {
        return Err((60, 0));
    }
    if octets.is_empty() || octets.len() > 1_024 {
        return Err((61, 0));
    }
    let channel = channel as usize;
    if row[8 + channel] == 8 {
        return Err((62, 0));
    }
    let mut after = *row;
    let (slot, length) = naive_place(row, channel, row[8 + channel]);
    after[slot] = naive_free(row);
    after[length] = octets.len() as u64;
    after[8 + channel] += 1;
    let memory = overwritten(memory, 1_024 * after[slot] as usize, octets);
    Ok((after, memory))
}

fn naive_take(row: &Row, memory: &[u8], room: usize) -> Refused<(Row, u8, Vec<u8>)> {
    if !naive_sound(row, memory) {
        return Err((64, 0));
    }
    let mut channel = row[144] as usize;
    while row[8 + channel] == 0 {
        channel = (channel + 1) % 8;
        if channel as u64 == row[144] {
            return Err((63, 0));
        }
    }
    let (slot, length) = naive_place(row, channel, 0);
    let start = 1_024 * row[slot] as usize;
    let octets = memory[start..start + row[length] as usize].to_vec();
    if octets.len() > room {
        return Err((23, 0));
    }
    let mut after = *row;
    after[channel] = (row[channel] + 1) % 8;
    after[8 + channel] -= 1;
    after[144] = (channel as u64 + 1) % 8;
    Ok((after, channel as u8, octets))
}

fn compare_offer(state: State, memory: &[u8], channel: u8, octets: &[u8]) {
    let expected = naive_offer(&state.row(), memory, channel, octets);
    let mut lent = memory.to_vec();
    let answer = outlet::offer(state, &mut lent, channel, octets);
    let untouched = expected.is_err().then_some(memory);
    let answer = pair(answer).map(|after| (after.row(), lent.clone()));
    assert_eq!(answer, expected);
    assert!(untouched.is_none_or(|memory| lent == memory));
}

fn compare_take(state: State, memory: &[u8], room: usize) {
    let lent = vec![0x5A; room];
    let mut out = lent.clone();
    let answer = outlet::take(state, memory, &mut out);
    match naive_take(&state.row(), memory, room) {
        Ok((row, channel, octets)) => {
            let (after, taken) = answer.unwrap();
            assert_eq!((after.row(), taken.channel), (row, channel));
            assert_eq!(taken.octets, octets.len());
            assert_eq!(out, overwritten(&lent, 0, &octets));
        }
        Err(refusal) => {
            assert_eq!(pair(answer), Err(refusal));
            assert_eq!(out, lent);
        }
    }
}

#[test]
fn outlet_at_any_state() {
    let mut r = Random::new(53);
    for _ in 0..10_000 {
        let OutletCase {
            state,
            memory,
            call,
        } = outlet_case(&mut r);
        assert_eq!(State::of_row(&state.row()), Some(state));
        match call {
            OutletCall::Offer { channel, octets } => {
                compare_offer(state, &memory, channel, &octets)
            }
            OutletCall::Take { room } => compare_take(state, &memory, room),
        }
    }
}
