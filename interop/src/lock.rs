//! Locks: circuits with required outputs, read from their bytes.

use std::marker::PhantomData;

use crate::faults::{Fault, Reason};
use crate::kinds::Kind;
use crate::lengths::most_products;

const MOST_INPUTS: u32 = 1_024;
const MOST_GATES: u32 = 200_000;
const MOST_OUTPUTS: u32 = 1_024;

/// Bytes of a wire's number.
const WIRE: usize = 4;

/// What a gate writes on its wire.
#[derive(Clone, Copy, Debug, PartialEq, Eq)]
pub enum Gate<E> {
    AddConstant(usize, E),
    /// The constant is the left factor.
    MulConstant(usize, E),
    Add(usize, usize),
    Mul(usize, usize),
}

/// A lock that was read whole and found in order; it borrows its records.
#[derive(Debug)]
pub struct Lock<'a, K> {
    inputs: usize,
    gates: usize,
    outputs: usize,
    products: usize,
    gate_records: &'a [u8],
    output_records: &'a [u8],
    kind: PhantomData<K>,
}

impl<'a, K: Kind> Lock<'a, K> {
    pub fn inputs(&self) -> usize {
        self.inputs
    }

    pub fn outputs(&self) -> usize {
        self.outputs
    }

    /// The number of gates of all sorts.
    pub fn gates(&self) -> usize {
        self.gates
    }

    /// The number of gates that multiply two wires.
    pub fn products(&self) -> usize {
        self.products
    }

    pub fn wires(&self) -> usize {
        self.inputs + self.gates
    }

    /// The gates in order; the first writes wire k.
    pub fn each_gate(&self) -> Gates<'a, K> {
        Gates { rest: self.gate_records, kind: PhantomData }
    }

    /// Each output's wire and target.
    pub fn each_output(&self) -> impl Iterator<Item = (usize, K::Row)> + use<'a, K> {
        self.output_records.chunks_exact(2 + WIRE + K::WIDTH).map(|record| {
            let (wire, target) = record[2..].split_first_chunk().expect("a whole record");
            (wire_number(wire), K::rows(target)[0])
        })
    }

    /// Reads a lock. Records are read one behind the other, and the first that breaks a rule decides.
    pub fn read(bytes: &'a [u8]) -> Result<Self, Fault> {
        let mut reader = Reader { rest: bytes, whole: bytes.len() };

        let record = reader.start()?;
        record.check_mark(b"LK")?;
        let header = record.body(13)?;
        let (kind, counts) = (header[0], header[1..].as_chunks().0);
        if kind != K::NUMBER {
            return Err(Fault::at(Reason::OutsideLimits, 2));
        }
        let limits = [1..=MOST_INPUTS, 0..=MOST_GATES, 1..=MOST_OUTPUTS];
        for (i, (limit, count)) in limits.iter().zip(counts).enumerate() {
            if !limit.contains(&u32::from_be_bytes(*count)) {
                return Err(Fault::at(Reason::OutsideLimits, 3 + 4 * i));
            }
        }
        reader.rest = record.behind(13);
        let [inputs, gates, outputs] = [0, 1, 2].map(|i| wire_number(&counts[i]));

        let gates_start = reader.rest;
        let most_products = most_products(inputs, K::WIDTH);
        let mut products = 0;
        for wire in inputs..inputs + gates {
            reader.gate::<K>(wire, &mut products, most_products)?;
        }
        let outputs_start = reader.rest;
        for _ in 0..outputs {
            reader.output::<K>(inputs + gates)?;
        }
        if !reader.rest.is_empty() {
            return Err(Fault::at(Reason::TrailingBytes, reader.offset()));
        }

        Ok(Self {
            inputs,
            gates,
            outputs,
            products,
            gate_records: &gates_start[..gates_start.len() - outputs_start.len()],
            output_records: outputs_start,
            kind: PhantomData,
        })
    }
}

fn wire_number(bytes: &[u8; WIRE]) -> usize {
    u32::from_be_bytes(*bytes) as usize
}

/// The gates of a lock that was read before, decoded on the way.
pub struct Gates<'a, K> {
    rest: &'a [u8],
    kind: PhantomData<K>,
}

impl<K: Kind> Iterator for Gates<'_, K> {
    type Item = Gate<K::Element>;

    #[inline(always)]
    fn next(&mut self) -> Option<Self::Item> {
        let (mark, body) = self.rest.split_first_chunk::<2>()?;
        let (a, body) = body.split_first_chunk()?;
        let a = wire_number(a);
        Some(match mark {
            b"AD" | b"MU" => {
                let (b, rest) = body.split_first_chunk()?;
                self.rest = rest;
                if mark == b"AD" { Gate::Add(a, wire_number(b)) } else { Gate::Mul(a, wire_number(b)) }
            }
            _ => {
                let (c, rest) = body.split_at_checked(K::WIDTH)?;
                self.rest = rest;
                let c = K::decode(K::rows(c)[0]);
                if mark == b"AC" { Gate::AddConstant(a, c) } else { Gate::MulConstant(a, c) }
            }
        })
    }
}

struct Reader<'a> {
    rest: &'a [u8],
    whole: usize,
}

/// A record whose mark is there.
struct Record<'a> {
    start: usize,
    mark: &'a [u8; 2],
    /// All that lies behind the mark.
    rest: &'a [u8],
}

impl<'a> Reader<'a> {
    fn offset(&self) -> usize {
        self.whole - self.rest.len()
    }

    #[inline(always)]
    fn start(&self) -> Result<Record<'a>, Fault> {
        let start = self.offset();
        match self.rest.split_first_chunk() {
            Some((mark, rest)) => Ok(Record { start, mark, rest }),
            None => Err(Fault::at(Reason::Truncated, start)),
        }
    }

    /// Reads the gate that writes this wire, and counts it if it multiplies two wires.
    #[inline(always)]
    fn gate<K: Kind>(&mut self, wire: usize, products: &mut usize, most_products: usize) -> Result<(), Fault> {
        // Where all records are equally long, a gate's sort decides on nothing but its tests. They are made without
        // branches, which would often be foretold wrongly; if one fails, the gate is read again to find the fault.
        if K::WIDTH == WIRE
            && let Some((record, rest)) = self.rest.split_first_chunk::<{ 2 + 2 * WIRE }>()
        {
            let (mark, fields) = record.split_at(2);
            let [a, b] = [0, 1].map(|i| wire_number(&fields.as_chunks().0[i]));
            let c = K::rows(&fields[WIRE..])[0];
            let is_product = mark == b"MU";
            let has_wires = is_product | (mark == b"AD");
            let has_row = (mark == b"AC") | (mark == b"MC");
            let second = (has_wires & (b < wire)) | (has_row & K::is_lawful(c));
            let more = *products + usize::from(is_product);
            if (a < wire) & second & (more <= most_products) {
                self.rest = rest;
                *products = more;
                return Ok(());
            }
        }

        let record = self.start()?;
        match record.mark {
            b"AC" | b"MC" => {
                let body = record.body(WIRE + K::WIDTH)?;
                record.check_wire(body, 0, wire)?;
                record.check_row::<K>(body)?;
                self.rest = record.behind(WIRE + K::WIDTH);
            }
            b"AD" | b"MU" => {
                let body = record.body(2 * WIRE)?;
                record.check_wire(body, 0, wire)?;
                record.check_wire(body, WIRE, wire)?;
                self.rest = record.behind(2 * WIRE);
                if record.mark == b"MU" {
                    *products += 1;
                    if *products > most_products {
                        return Err(Fault::at(Reason::OutsideLimits, record.start));
                    }
                }
            }
            _ => return Err(Fault::at(Reason::WrongMark, record.start)),
        }
        Ok(())
    }

    fn output<K: Kind>(&mut self, wires: usize) -> Result<(), Fault> {
        let record = self.start()?;
        record.check_mark(b"OU")?;
        let body = record.body(WIRE + K::WIDTH)?;
        record.check_wire(body, 0, wires)?;
        record.check_row::<K>(body)?;
        self.rest = record.behind(WIRE + K::WIDTH);
        Ok(())
    }
}

impl<'a> Record<'a> {
    fn check_mark(&self, due: &[u8; 2]) -> Result<(), Fault> {
        if self.mark == due { Ok(()) } else { Err(Fault::at(Reason::WrongMark, self.start)) }
    }

    #[inline(always)]
    fn body(&self, length: usize) -> Result<&'a [u8], Fault> {
        self.rest.get(..length).ok_or(Fault::at(Reason::Truncated, self.start))
    }

    fn behind(&self, length: usize) -> &'a [u8] {
        &self.rest[length..]
    }

    /// The wire in the body at an offset must be below a bound.
    #[inline(always)]
    fn check_wire(&self, body: &[u8], at: usize, bound: usize) -> Result<(), Fault> {
        let wire = body[at..].first_chunk().expect("a body that holds the field");
        if wire_number(wire) < bound { Ok(()) } else { Err(Fault::at(Reason::WireTooHigh, self.start + 2 + at)) }
    }

    /// The row behind the first wire must be lawful.
    #[inline(always)]
    fn check_row<K: Kind>(&self, body: &[u8]) -> Result<(), Fault> {
        if K::is_lawful(K::rows(&body[WIRE..])[0]) {
            Ok(())
        } else {
            Err(Fault::at(Reason::UnlawfulConstant, self.start + 2 + WIRE))
        }
    }
}

#[cfg(test)]
pub(crate) mod tests {
    use super::*;
    use crate::kinds::{Bit, Residue, Word};

    /// The bytes of hexadecimal digits, with blanks between them.
    pub(crate) fn hex(digits: &str) -> Vec<u8> {
        let digits: Vec<u8> = digits.chars().filter_map(|c| c.to_digit(16)).map(|digit| digit as u8).collect();
        digits.chunks(2).map(|pair| pair[0] << 4 | pair[1]).collect()
    }

    /// (x times y) plus 5 must be 17.
    pub(crate) fn worked() -> Vec<u8> {
        hex("4C4B 02 00000002 00000002 00000001 \
             4D55 00000000 00000001 4143 00000002 00000005 4F55 00000003 00000011")
    }

    fn refused<K: Kind>(bytes: &[u8]) -> (u8, u64) {
        let fault = Lock::<K>::read(bytes).err().expect("a refusal");
        assert_eq!(fault.branch, 0);
        (fault.reason.number(), fault.place)
    }

    fn changed(at: usize, by: &[u8]) -> Vec<u8> {
        let mut bytes = worked();
        bytes[at..at + by.len()].copy_from_slice(by);
        bytes
    }

    #[test]
    fn worked_lock() {
        let bytes = worked();
        let lock = Lock::<Word>::read(&bytes).unwrap();
        assert_eq!((lock.inputs(), lock.gates(), lock.outputs(), lock.products()), (2, 2, 1, 1));
        let gates: Vec<_> = lock.each_gate().collect();
        assert_eq!(gates, [Gate::Mul(0, 1), Gate::AddConstant(2, 5)]);
        let outputs: Vec<_> = lock.each_output().collect();
        assert_eq!(outputs, [(3, [0, 0, 0, 17])]);
    }

    #[test]
    fn every_truncation() {
        let bytes = worked();
        for n in 0..bytes.len() {
            let start = [0, 15, 25, 35].into_iter().rev().find(|&start| start <= n).unwrap();
            // Of a record that lacks only its end, the mark is read first and is right.
            assert_eq!(refused::<Word>(&bytes[..n]), (1, start as u64), "{n}");
        }
    }

    #[test]
    fn each_fault() {
        assert_eq!(refused::<Word>(b""), (1, 0));
        assert_eq!(refused::<Word>(b"L"), (1, 0));
        assert_eq!(refused::<Word>(b"XK"), (2, 0));
        assert_eq!(refused::<Word>(b"LK"), (1, 0));
        assert_eq!(refused::<Bit>(&worked()), (3, 2));
        assert_eq!(refused::<Residue>(&worked()), (3, 2));
        for (at, count) in [(3, 0u32), (3, 1025), (7, 200_001), (7, u32::MAX), (11, 0), (11, 1025)] {
            assert_eq!(refused::<Word>(&changed(at, &count.to_be_bytes())), (3, at as u64));
        }
        // An output where a gate is due, even without its body.
        assert_eq!(refused::<Word>(&changed(15, b"OU")[..17]), (2, 15));
        assert_eq!(refused::<Word>(&changed(35, b"AC")), (2, 35));
        assert_eq!(refused::<Word>(&changed(17, &[0, 0, 0, 2])), (4, 17));
        assert_eq!(refused::<Word>(&changed(21, &[0, 0, 0, 2])), (4, 21));
        assert_eq!(refused::<Word>(&changed(27, &[0, 0, 0, 3])), (4, 27));
        assert_eq!(refused::<Word>(&changed(37, &[0, 0, 0, 4])), (4, 37));
        assert_eq!(refused::<Word>(&[worked(), vec![0]].concat()), (6, 45));

        let mut residue = changed(2, &[3]);
        assert!(Lock::<Residue>::read(&residue).is_ok());
        residue[31..35].copy_from_slice(&Residue::MODULUS.to_be_bytes());
        assert_eq!(refused::<Residue>(&residue), (5, 31));
        residue[27..31].copy_from_slice(&[0, 0, 0, 9]);
        assert_eq!(refused::<Residue>(&residue), (4, 27));
        let mut residue = changed(2, &[3]);
        residue[41..45].copy_from_slice(&[0xff; 4]);
        assert_eq!(refused::<Residue>(&residue), (5, 41));
    }

    #[test]
    fn view_length_limit() {
        // 32 + (1 + 2M) is 65,535 for M = 32,751.
        for (products, refusal) in [(32_751usize, None), (32_752, Some((3, 15 + 10 * 32_751u64)))] {
            let mut bytes = hex("4C4B 01 00000001");
            bytes.extend((products as u32).to_be_bytes());
            bytes.extend(hex("00000001"));
            for _ in 0..products {
                bytes.extend(hex("4D55 00000000 00000000"));
            }
            bytes.extend(hex("4F55 00000000 01"));
            match refusal {
                None => assert_eq!(Lock::<Bit>::read(&bytes).unwrap().products(), products),
                Some(fault) => assert_eq!(refused::<Bit>(&bytes), fault),
            }
        }
    }
}
