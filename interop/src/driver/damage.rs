//! Ways to spoil what an engine is given.

use super::circuits::{Circuit, Gate, Ring};
use super::random::Random;

/// A lock's bytes with one rule or more broken, or with only its meaning changed.
pub fn damaged_lock(random: &mut Random, circuit: &Circuit) -> Vec<u8> {
    let (mut bytes, starts) = circuit.lock_with_starts();
    loop {
        damage_lock(random, circuit, &mut bytes, &starts);
        if !random.once_in(3) {
            return bytes;
        }
    }
}

fn damage_lock(random: &mut Random, circuit: &Circuit, bytes: &mut Vec<u8>, starts: &[usize]) {
    let ring = circuit.ring;
    let record = random.index(starts.len());
    let start = starts[record];
    match random.below(16) {
        0 => put(bytes, 2, &[random.one_of(&[0, 1, 2, 3, 4, 255])]),
        1 | 2 => {
            let field = random.index(3);
            let now = [circuit.inputs, circuit.gates.len(), circuit.outputs.len()][field] as u32;
            let most = [1_024, 200_000, 1_024][field];
            let choices = [0, 1, now.wrapping_sub(1), now + 1, most, most + 1, 1 << 31, u32::MAX, now + 256, now << 8];
            put(bytes, 3 + 4 * field, &random.one_of(&choices).to_be_bytes());
        }
        3 | 4 => {
            let marks = [b"LK", b"AC", b"MC", b"AD", b"MU", b"OU", b"FM", b"ac", b"CA", b"\0\0"];
            put(bytes, start, &random.one_of(&marks)[..]);
        }
        5 => put(bytes, start + random.index(2), &[random.byte()]),
        6 | 7 => {
            // A wire that is not below its own, or, in an output, below none.
            let own =
                if record == 0 || record > circuit.gates.len() { circuit.wires() } else { circuit.inputs + record - 1 };
            let own = own as u32;
            let wire = random.one_of(&[own, own, own + 1, own.wrapping_sub(1), u32::MAX, 1 << 31, own + (1 << 16)]);
            let second = matches!(
                record.checked_sub(1).and_then(|gate| circuit.gates.get(gate)),
                Some(Gate::Add(..) | Gate::Mul(..))
            );
            let field = if second && random.once_in(2) { 6 } else { 2 };
            put(bytes, start + field, &wire.to_be_bytes());
        }
        8 | 9 => {
            // A constant or a target.
            let row = match ring.draw_unlawful(random) {
                Some(row) if !random.once_in(4) => row,
                _ => ring.draw(random),
            };
            let with_row: Vec<usize> = starts[1..]
                .iter()
                .enumerate()
                .filter(|(i, _)| !matches!(circuit.gates.get(*i), Some(Gate::Add(..) | Gate::Mul(..))))
                .map(|(_, &start)| start)
                .collect();
            let start = random.one_of(&with_row);
            put(bytes, start + 6, &ring.row(row));
        }
        10 => bytes.truncate(random.index(bytes.len() + 1)),
        11 => bytes.truncate(start + random.one_of(&[0, 0, 1, 2, 3, 5, 6])),
        12 => {
            let more = random.within(1, 20);
            bytes.extend(random.bytes(more));
        }
        13 => {
            // A record too few or too many.
            let end = starts.get(record + 1).copied().unwrap_or(bytes.len()).min(bytes.len());
            if let Some(copy) = bytes.get(start..end).map(<[u8]>::to_vec) {
                if random.once_in(2) {
                    bytes.drain(start..end);
                } else {
                    bytes.splice(start..start, copy);
                }
            }
        }
        14 if random.once_in(6) => *bytes = Vec::new(),
        14 if random.once_in(6) => {
            let length = random.index(60);
            *bytes = random.bytes(length);
        }
        _ => change_byte(random, bytes),
    }
}

/// Puts bytes over those at an offset, as far as there are any.
fn put(bytes: &mut [u8], at: usize, new: &[u8]) {
    for (i, &byte) in new.iter().enumerate() {
        if let Some(place) = bytes.get_mut(at + i) {
            *place = byte;
        }
    }
}

/// Changes some byte, if there is one.
pub fn change_byte(random: &mut Random, bytes: &mut [u8]) {
    if !bytes.is_empty() {
        let at = random.index(bytes.len());
        bytes[at] ^= random.one_of(&[1, 2, 0x80, 0xff]);
    }
}

/// Another length: a little shorter or longer, none, or any.
pub fn resize(random: &mut Random, bytes: &mut Vec<u8>) {
    let length = other_length(random, bytes.len());
    if length > bytes.len() {
        let more = random.bytes(length - bytes.len());
        bytes.extend(more);
    } else {
        bytes.truncate(length);
    }
}

pub fn other_length(random: &mut Random, length: usize) -> usize {
    match random.below(6) {
        0 | 1 => length.saturating_sub(1),
        2 | 3 => length + 1,
        4 => 0,
        _ => random.index(2 * length + 2),
    }
}

/// A length for a work slice: often too short, else longer than needed.
pub fn work_length(random: &mut Random, due: usize) -> usize {
    match random.below(5) {
        0 | 1 => due.saturating_sub(1),
        2 => 0,
        3 => due + random.within(1, 40),
        _ => random.index(due + 1),
    }
}

/// Changes an element of a group: to another one, or to an unlawful row where there are such.
pub fn change_element(random: &mut Random, ring: Ring, group: &mut [u8], unlawful: bool) {
    let elements = group.len() / ring.width;
    if elements == 0 {
        return;
    }
    let at = match random.below(4) {
        0 => 0,
        1 => elements - 1,
        _ => random.index(elements),
    } * ring.width;
    let row = &mut group[at..at + ring.width];
    let unlawful = if unlawful { ring.draw_unlawful(random) } else { None };
    let number = unlawful.unwrap_or_else(|| {
        let now = ring.numbers(row)[0] % ring.modulus;
        ring.draw_other(random, now)
    });
    row.copy_from_slice(&ring.row(number));
}

/// A first message of the right length, spoilt in some place.
pub fn damage_first(random: &mut Random, circuit: &Circuit, first: &mut Vec<u8>) {
    let shares = 3 * circuit.outputs.len() * circuit.ring.width;
    match random.below(8) {
        0 if !first.is_empty() => first[0] ^= 1 << random.below(8),
        1 if first.len() > 1 => first[1] ^= 1 << random.below(8),
        2 | 3 if first.len() >= 2 + shares => change_element(random, circuit.ring, &mut first[2..2 + shares], false),
        4 if first.len() >= 2 + shares => change_element(random, circuit.ring, &mut first[2..2 + shares], true),
        5 if first.len() > 2 + shares => {
            let at = random.within(2 + shares, first.len() - 1);
            first[at] ^= 1 << random.below(8);
        }
        6 => resize(random, first),
        _ => change_byte(random, first),
    }
}

/// An answer of the right length, spoilt in some place: the mark, the pick byte, or any part of either view.
pub fn damage_answer(random: &mut Random, circuit: &Circuit, answer: &mut Vec<u8>) {
    if answer.len() != circuit.answer_length() {
        change_byte(random, answer);
        return;
    }
    let ring = circuit.ring;
    let shares = circuit.inputs * ring.width;
    let products = circuit.products() * ring.width;
    let view = 3 + random.index(2) * circuit.view_length();
    match random.below(12) {
        0 => answer[random.index(2)] ^= 1 << random.below(8),
        1 => answer[2] = random.one_of(&[0, 1, 2, 3, 4, 255]),
        2 => answer[view + random.index(32)] ^= 1 << random.below(8),
        3 | 4 => change_element(random, ring, &mut answer[view + 32..][..shares], false),
        5 => change_element(random, ring, &mut answer[view + 32 + shares..][..products], false),
        6 | 7 => change_element(random, ring, &mut answer[view + 32 + shares + products..][..products], false),
        8 | 9 => {
            let length = circuit.view_length() - 32;
            change_element(random, ring, &mut answer[view + 32..][..length], true);
        }
        10 => resize(random, answer),
        _ => change_byte(random, answer),
    }
}
