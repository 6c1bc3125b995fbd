//! The kinds of element, and their arithmetic.

/// A kind of element: a ring whose elements are told by rows of `WIDTH` bytes.
pub trait Kind {
    const NUMBER: u8;
    const WIDTH: usize;
    const ZERO: Self::Element;

    /// `WIDTH` bytes.
    type Row: Copy + PartialEq;
    /// What is reckoned with.
    type Element: Copy + PartialEq;

    /// A group of elements as its rows; bytes that are no whole row are left out.
    fn rows(group: &[u8]) -> &[Self::Row];
    fn rows_mut(group: &mut [u8]) -> &mut [Self::Row];

    fn is_lawful(row: Self::Row) -> bool;
    /// The element of a lawful row.
    fn decode(row: Self::Row) -> Self::Element;
    fn encode(element: Self::Element) -> Self::Row;

    fn add(a: Self::Element, b: Self::Element) -> Self::Element;
    fn neg(a: Self::Element) -> Self::Element;
    fn mul(a: Self::Element, b: Self::Element) -> Self::Element;

    fn sub(a: Self::Element, b: Self::Element) -> Self::Element {
        Self::add(a, Self::neg(b))
    }

    /// A branch's part of a product: from the factors `a`, `b` and the mask `r` in the branch itself and in the one after it.
    fn product_share([a, b, r]: [Self::Element; 3], [a_next, b_next, r_next]: [Self::Element; 3]) -> Self::Element {
        let sum = Self::add(Self::mul(a, b), Self::mul(a_next, b));
        let sum = Self::add(sum, Self::mul(a, b_next));
        Self::sub(Self::add(sum, r), r_next)
    }

    /// The index of the first unlawful row.
    fn first_unlawful(rows: &[Self::Row]) -> Option<usize> {
        // One pass that never stops early is quick; the search is made only where something is to be found.
        let all = rows.iter().fold(true, |all, &row| all & Self::is_lawful(row));
        if all { None } else { rows.iter().position(|&row| !Self::is_lawful(row)) }
    }
}

/// 0 and 1, with exclusive or and and.
pub enum Bit {}

impl Kind for Bit {
    const NUMBER: u8 = 1;
    const WIDTH: usize = 1;
    const ZERO: u8 = 0;

    type Row = [u8; 1];
    type Element = u8;

    fn rows(group: &[u8]) -> &[[u8; 1]] {
        group.as_chunks().0
    }

    fn rows_mut(group: &mut [u8]) -> &mut [[u8; 1]] {
        group.as_chunks_mut().0
    }

    fn is_lawful([byte]: [u8; 1]) -> bool {
        byte <= 1
    }

    fn decode([byte]: [u8; 1]) -> u8 {
        byte
    }

    fn encode(element: u8) -> [u8; 1] {
        [element]
    }

    fn add(a: u8, b: u8) -> u8 {
        a ^ b
    }

    fn neg(a: u8) -> u8 {
        a
    }

    fn mul(a: u8, b: u8) -> u8 {
        a & b
    }
}

/// Whole numbers modulo 2^32.
pub enum Word {}

impl Kind for Word {
    const NUMBER: u8 = 2;
    const WIDTH: usize = 4;
    const ZERO: u32 = 0;

    type Row = [u8; 4];
    type Element = u32;

    fn rows(group: &[u8]) -> &[[u8; 4]] {
        group.as_chunks().0
    }

    fn rows_mut(group: &mut [u8]) -> &mut [[u8; 4]] {
        group.as_chunks_mut().0
    }

    fn is_lawful(_: [u8; 4]) -> bool {
        true
    }

    fn decode(row: [u8; 4]) -> u32 {
        u32::from_be_bytes(row)
    }

    fn encode(element: u32) -> [u8; 4] {
        element.to_be_bytes()
    }

    fn add(a: u32, b: u32) -> u32 {
        a.wrapping_add(b)
    }

    fn neg(a: u32) -> u32 {
        a.wrapping_neg()
    }

    fn mul(a: u32, b: u32) -> u32 {
        a.wrapping_mul(b)
    }
}

/// Whole numbers modulo the prime 2^31 - 1.
pub enum Residue {}

impl Residue {
    pub const MODULUS: u32 = (1 << 31) - 1;

    /// The residue of any number: 2^31 counts as 1, so the upper bits are added to the lower ones.
    fn reduce(n: u64) -> u32 {
        let p = u64::from(Self::MODULUS);
        let n = (n & p) + (n >> 31);
        let n = ((n & p) + (n >> 31)) as u32;
        n.min(n.wrapping_sub(Self::MODULUS))
    }
}

impl Kind for Residue {
    const NUMBER: u8 = 3;
    const WIDTH: usize = 4;
    const ZERO: u32 = 0;

    type Row = [u8; 4];
    type Element = u32;

    fn rows(group: &[u8]) -> &[[u8; 4]] {
        group.as_chunks().0
    }

    fn rows_mut(group: &mut [u8]) -> &mut [[u8; 4]] {
        group.as_chunks_mut().0
    }

    fn is_lawful(row: [u8; 4]) -> bool {
        u32::from_be_bytes(row) < Self::MODULUS
    }

    fn decode(row: [u8; 4]) -> u32 {
        u32::from_be_bytes(row)
    }

    fn encode(element: u32) -> [u8; 4] {
        element.to_be_bytes()
    }

    fn add(a: u32, b: u32) -> u32 {
        // The sum is below 2p, so either it or (by wrapping, else a huge number) the sum less p is the residue.
        let sum = a + b;
        sum.min(sum.wrapping_sub(Self::MODULUS))
    }

    fn neg(a: u32) -> u32 {
        if a == 0 { 0 } else { Self::MODULUS - a }
    }

    fn mul(a: u32, b: u32) -> u32 {
        Self::reduce(u64::from(a) * u64::from(b))
    }

    /// The three products and the masks fit in 64 bits together, so one reduction is enough.
    fn product_share([a, b, r]: [u32; 3], [a_next, b_next, r_next]: [u32; 3]) -> u32 {
        let [a, b, r] = [a, b, r].map(u64::from);
        let [a_next, b_next, r_next] = [a_next, b_next, r_next].map(u64::from);
        Self::reduce(a * b + a_next * b + a * b_next + r + (u64::from(Self::MODULUS) - r_next))
    }
}

#[cfg(test)]
mod tests {
    use super::*;

    #[test]
    fn residues_by_division() {
        let p = u64::from(Residue::MODULUS);
        let mut numbers: Vec<u32> =
            [0, 1, 2, 3, p - 1, p - 2, p / 2, p / 2 + 1, 1 << 30, 46341, 65536].map(|n| n as u32).to_vec();
        let mut n = 12345u64;
        for _ in 0..40 {
            n = n.wrapping_mul(6364136223846793005).wrapping_add(1442695040888963407);
            numbers.push(((n >> 33) % p) as u32);
        }
        for &a in &numbers {
            let wide = u64::from(a);
            assert_eq!(u64::from(Residue::neg(a)), (p - wide) % p);
            for &b in &numbers {
                assert_eq!(u64::from(Residue::add(a, b)), (wide + u64::from(b)) % p);
                assert_eq!(u64::from(Residue::mul(a, b)), (wide * u64::from(b)) % p);
                assert_eq!(Residue::sub(a, b), Residue::add(a, Residue::neg(b)));
            }
        }
        assert_eq!(Residue::reduce(u64::MAX), (u64::MAX % p) as u32);
        assert_eq!(Residue::reduce(p), 0);
        assert_eq!(Residue::reduce(p * p), 0);
        assert_eq!(Residue::reduce(2 * p), 0);
        assert_eq!(Residue::reduce(p + 1), 1);
    }

    /// The product of a residue's shares by its short form and by the general one.
    #[test]
    fn product_shares_agree() {
        let p = Residue::MODULUS;
        let numbers = [0, 1, 7, p / 2, p - 2, p - 1];
        for &a in &numbers {
            for &b in &numbers {
                for &c in &numbers {
                    for &d in &numbers {
                        for (r, s) in [(0, 0), (0, p - 1), (p - 1, 0), (p - 1, p - 1), (5, 9)] {
                            let long = Residue::add(Residue::mul(a, b), Residue::mul(c, b));
                            let long = Residue::add(long, Residue::mul(a, d));
                            let long = Residue::sub(Residue::add(long, r), s);
                            assert_eq!(Residue::product_share([a, b, r], [c, d, s]), long);
                        }
                    }
                }
            }
        }
    }

    #[test]
    fn lawful_rows() {
        assert_eq!(Bit::first_unlawful(&[[0], [1], [1]]), None);
        assert_eq!(Bit::first_unlawful(&[[0], [2], [255]]), Some(1));
        assert_eq!(Word::first_unlawful(&[[255; 4]]), None);
        let top = Residue::MODULUS;
        let rows = [0, top - 1, top, u32::MAX].map(u32::to_be_bytes);
        assert_eq!(Residue::first_unlawful(&rows[..2]), None);
        assert_eq!(Residue::first_unlawful(&rows), Some(2));
    }
}
