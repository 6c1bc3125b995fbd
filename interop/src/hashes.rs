//! SHA-256 (FIPS 180-4) and SHA3-256 (FIPS 202), over a whole message in place.

const SHA256_START: [u32; 8] =
    [0x6a09e667, 0xbb67ae85, 0x3c6ef372, 0xa54ff53a, 0x510e527f, 0x9b05688c, 0x1f83d9ab, 0x5be0cd19];

const SHA256_ROUNDS: [u32; 64] = [
    0x428a2f98, 0x71374491, 0xb5c0fbcf, 0xe9b5dba5, 0x3956c25b, 0x59f111f1, 0x923f82a4, 0xab1c5ed5, 0xd807aa98,
    0x12835b01, 0x243185be, 0x550c7dc3, 0x72be5d74, 0x80deb1fe, 0x9bdc06a7, 0xc19bf174, 0xe49b69c1, 0xefbe4786,
    0x0fc19dc6, 0x240ca1cc, 0x2de92c6f, 0x4a7484aa, 0x5cb0a9dc, 0x76f988da, 0x983e5152, 0xa831c66d, 0xb00327c8,
    0xbf597fc7, 0xc6e00bf3, 0xd5a79147, 0x06ca6351, 0x14292967, 0x27b70a85, 0x2e1b2138, 0x4d2c6dfc, 0x53380d13,
    0x650a7354, 0x766a0abb, 0x81c2c92e, 0x92722c85, 0xa2bfe8a1, 0xa81a664b, 0xc24b8b70, 0xc76c51a3, 0xd192e819,
    0xd6990624, 0xf40e3585, 0x106aa070, 0x19a4c116, 0x1e376c08, 0x2748774c, 0x34b0bcb5, 0x391c0cb3, 0x4ed8aa4a,
    0x5b9cca4f, 0x682e6ff3, 0x748f82ee, 0x78a5636f, 0x84c87814, 0x8cc70208, 0x90befffa, 0xa4506ceb, 0xbef9a3f7,
    0xc67178f2,
];

pub fn sha256(message: &[u8]) -> [u8; 32] {
    let mut state = SHA256_START;
    let (blocks, tail) = message.as_chunks::<64>();
    for block in blocks {
        compress(&mut state, block);
    }

    // The tail, a one bit, zeros, and the message's length in bits: one block or two.
    let mut last = [0; 128];
    last[..tail.len()].copy_from_slice(tail);
    last[tail.len()] = 0x80;
    let end = if tail.len() < 56 { 64 } else { 128 };
    last[end - 8..end].copy_from_slice(&(message.len() as u64 * 8).to_be_bytes());
    for block in last[..end].as_chunks::<64>().0 {
        compress(&mut state, block);
    }

    let mut digest = [0; 32];
    for (bytes, word) in digest.as_chunks_mut::<4>().0.iter_mut().zip(state) {
        *bytes = word.to_be_bytes();
    }
    digest
}

/// One round. The eight words stay where they are; rounds that follow name them one place further on.
macro_rules! round {
    ($a:ident $b:ident $c:ident $d:ident $e:ident $f:ident $g:ident $h:ident, $word:expr) => {
        let big1 = $e.rotate_right(6) ^ $e.rotate_right(11) ^ $e.rotate_right(25);
        let choice = $g ^ ($e & ($f ^ $g));
        let t1 = $h.wrapping_add($word).wrapping_add(choice).wrapping_add(big1);
        let big0 = $a.rotate_right(2) ^ $a.rotate_right(13) ^ $a.rotate_right(22);
        let majority = ($a & $b) ^ ($c & ($a ^ $b));
        $d = $d.wrapping_add(t1);
        $h = t1.wrapping_add(majority).wrapping_add(big0);
    };
}

/// Eight rounds from round `$t` on, after which each word has its own name again.
macro_rules! eight_rounds {
    ($a:ident $b:ident $c:ident $d:ident $e:ident $f:ident $g:ident $h:ident, $word:ident, $t:expr) => {
        round!($a $b $c $d $e $f $g $h, $word($t));
        round!($h $a $b $c $d $e $f $g, $word($t + 1));
        round!($g $h $a $b $c $d $e $f, $word($t + 2));
        round!($f $g $h $a $b $c $d $e, $word($t + 3));
        round!($e $f $g $h $a $b $c $d, $word($t + 4));
        round!($d $e $f $g $h $a $b $c, $word($t + 5));
        round!($c $d $e $f $g $h $a $b, $word($t + 6));
        round!($b $c $d $e $f $g $h $a, $word($t + 7));
    };
}

fn compress(state: &mut [u32; 8], block: &[u8; 64]) {
    let mut w = [0u32; 16];
    for (word, bytes) in w.iter_mut().zip(block.as_chunks::<4>().0) {
        *word = u32::from_be_bytes(*bytes);
    }
    let [mut a, mut b, mut c, mut d, mut e, mut f, mut g, mut h] = *state;

    let [first, others @ ..] = SHA256_ROUNDS.as_chunks::<16>().0 else { unreachable!("64 constants") };
    let word = |t: usize| first[t].wrapping_add(w[t]);
    eight_rounds!(a b c d e f g h, word, 0);
    eight_rounds!(a b c d e f g h, word, 8);
    for constants in others {
        // Each word of the schedule is written over the one sixteen places before it.
        let mut word = |t: usize| {
            let x = w[(t + 1) % 16];
            let y = w[(t + 14) % 16];
            let small0 = x.rotate_right(7) ^ x.rotate_right(18) ^ (x >> 3);
            let small1 = y.rotate_right(17) ^ y.rotate_right(19) ^ (y >> 10);
            w[t] = w[t].wrapping_add(small0).wrapping_add(w[(t + 9) % 16]).wrapping_add(small1);
            constants[t].wrapping_add(w[t])
        };
        eight_rounds!(a b c d e f g h, word, 0);
        eight_rounds!(a b c d e f g h, word, 8);
    }

    for (word, more) in state.iter_mut().zip([a, b, c, d, e, f, g, h]) {
        *word = word.wrapping_add(more);
    }
}

/// Bytes that the sponge of SHA3-256 takes in at a time.
const RATE: usize = 136;

#[rustfmt::skip]
const KECCAK_ROUNDS: [u64; 24] = [
    0x0000000000000001, 0x0000000000008082, 0x800000000000808a, 0x8000000080008000,
    0x000000000000808b, 0x0000000080000001, 0x8000000080008081, 0x8000000000008009,
    0x000000000000008a, 0x0000000000000088, 0x0000000080008009, 0x000000008000000a,
    0x000000008000808b, 0x800000000000008b, 0x8000000000008089, 0x8000000000008003,
    0x8000000000008002, 0x8000000000000080, 0x000000000000800a, 0x800000008000000a,
    0x8000000080008081, 0x8000000000008080, 0x0000000080000001, 0x8000000080008008,
];

/// How far each lane is turned; lane (x, y) stands at x + 5y.
const TURNS: [u32; 25] = [
    0, 1, 62, 28, 27, //
    36, 44, 6, 55, 20, //
    3, 10, 43, 25, 39, //
    41, 45, 15, 21, 8, //
    18, 2, 61, 56, 14,
];

pub fn sha3_256(message: &[u8]) -> [u8; 32] {
    let mut lanes = [0; 25];
    let (blocks, tail) = message.as_chunks::<RATE>();
    for block in blocks {
        absorb(&mut lanes, block);
    }

    // The tail, the two bits 01 of SHA-3, and the padding 10...01; lowest bit first in each byte.
    let mut last = [0; RATE];
    last[..tail.len()].copy_from_slice(tail);
    last[tail.len()] = 0x06;
    last[RATE - 1] |= 0x80;
    absorb(&mut lanes, &last);

    let mut digest = [0; 32];
    for (bytes, lane) in digest.as_chunks_mut::<8>().0.iter_mut().zip(lanes) {
        *bytes = lane.to_le_bytes();
    }
    digest
}

fn absorb(lanes: &mut [u64; 25], block: &[u8; RATE]) {
    for (lane, bytes) in lanes.iter_mut().zip(block.as_chunks::<8>().0) {
        *lane ^= u64::from_le_bytes(*bytes);
    }
    permute(lanes);
}

fn permute(lanes: &mut [u64; 25]) {
    let mut a = *lanes;
    for constant in KECCAK_ROUNDS {
        // Theta: each lane takes in the parities of two columns beside it.
        let mut parity = [0; 5];
        for x in 0..5 {
            parity[x] = a[x] ^ a[x + 5] ^ a[x + 10] ^ a[x + 15] ^ a[x + 20];
        }
        for x in 0..5 {
            let d = parity[(x + 4) % 5] ^ parity[(x + 1) % 5].rotate_left(1);
            for y in 0..5 {
                a[x + 5 * y] ^= d;
            }
        }
        // Rho and pi: each lane is turned and goes to another place.
        let mut b = [0; 25];
        for x in 0..5 {
            for y in 0..5 {
                b[y + 5 * ((2 * x + 3 * y) % 5)] = a[x + 5 * y].rotate_left(TURNS[x + 5 * y]);
            }
        }
        // Chi, row by row, and iota.
        for y in 0..5 {
            for x in 0..5 {
                a[x + 5 * y] = b[x + 5 * y] ^ (!b[(x + 1) % 5 + 5 * y] & b[(x + 2) % 5 + 5 * y]);
            }
        }
        a[0] ^= constant;
    }
    *lanes = a;
}

#[cfg(test)]
mod tests {
    use super::*;

    fn hex(bytes: &[u8]) -> String {
        bytes.iter().map(|byte| format!("{byte:02x}")).collect()
    }

    const TWO_BLOCKS: &[u8] = b"abcdbcdecdefdefgefghfghighijhijkijkljklmklmnlmnomnopnopq";
    const LONGER: &[u8] = b"abcdefghbcdefghicdefghijdefghijkefghijklfghijklmghijklmnhijklmnoijklmnopjklmnopqklmnopqrlmnopqrsmnopqrstnopqrstu";

    #[test]
    fn sha256_published() {
        let cases: [(&[u8], &str); 4] = [
            (b"", "e3b0c44298fc1c149afbf4c8996fb92427ae41e4649b934ca495991b7852b855"),
            (b"abc", "ba7816bf8f01cfea414140de5dae2223b00361a396177a9cb410ff61f20015ad"),
            (TWO_BLOCKS, "248d6a61d20638b8e5c026930c3e6039a33ce45964ff2167f6ecedd419db06c1"),
            (LONGER, "cf5b16a778af8380036ce59e7b0492370b249b11e8f07a51afac45037afee9d1"),
        ];
        for (message, digest) in cases {
            assert_eq!(hex(&sha256(message)), digest);
        }
        assert_eq!(
            hex(&sha256(&vec![b'a'; 1_000_000])),
            "cdc76e5c9914fb9281a1c7e284d73e67f1809a48a497200e046d39ccc7112cd0"
        );
    }

    #[test]
    fn sha3_256_published() {
        let cases: [(&[u8], &str); 4] = [
            (b"", "a7ffc6f8bf1ed76651c14756a061d662f580ff4de43b49fa82d80a4b80f8434a"),
            (b"abc", "3a985da74fe225b2045c172d6bd390bd855f086e3e9d525b46bfe24511431532"),
            (TWO_BLOCKS, "41c0dba2a9d6240849100376a8235e2c82e1b9998a999e21db32dd97496d3376"),
            (LONGER, "916f6061fe879741ca6469b43971dfdb28b1a32dc36cb3254e812be27aad1d18"),
        ];
        for (message, digest) in cases {
            assert_eq!(hex(&sha3_256(message)), digest);
        }
        assert_eq!(
            hex(&sha3_256(&vec![b'a'; 1_000_000])),
            "5c8875ae474a3634ba4fd55ec85bffd661f32aca75c6d699d0cdcb6c115891c1"
        );
    }

    /// The constants from their definitions: fractions of the square and cube roots of the first primes.
    #[test]
    fn sha256_constants() {
        let mut primes = (2u128..).filter(|n| (2..*n).all(|d| n % d != 0));
        let root = |power: u32, n: u128| {
            let (mut low, mut high) = (0u128, 1 << 40);
            while high - low > 1 {
                let middle = (low + high) / 2;
                if middle.pow(power) <= n { low = middle } else { high = middle }
            }
            low as u32
        };
        for (i, prime) in primes.by_ref().take(64).enumerate() {
            if i < 8 {
                assert_eq!(SHA256_START[i], root(2, prime << 64));
            }
            assert_eq!(SHA256_ROUNDS[i], root(3, prime << 96));
        }
    }

    /// The constants from their definitions: a shift register, and a walk over the lanes.
    #[test]
    fn keccak_constants() {
        let mut register = 1u8;
        let mut bit = || {
            let out = register & 1;
            let carry = register >> 7;
            register = (register << 1) ^ (carry * 0x71);
            u64::from(out)
        };
        for constant in KECCAK_ROUNDS {
            let built = (0..7).fold(0, |sum, j| sum | bit() << ((1 << j) - 1));
            assert_eq!(constant, built);
        }

        let mut turns = [0; 25];
        let (mut x, mut y) = (1, 0);
        for t in 0..24 {
            turns[x + 5 * y] = (t + 1) * (t + 2) / 2 % 64;
            (x, y) = (y, (2 * x + 3 * y) % 5);
        }
        assert_eq!(TURNS, turns);
    }

    /// The same digest by the plainest padding into a whole vector, at every length about the block edges.
    #[test]
    fn padding_at_block_edges() {
        let message: Vec<u8> = (0..600u32).map(|i| (i * 7 + i / 251) as u8).collect();
        for n in 0..message.len() {
            let mut padded = message[..n].to_vec();
            padded.push(0x80);
            while padded.len() % 64 != 56 {
                padded.push(0);
            }
            padded.extend((8 * n as u64).to_be_bytes());
            let mut state = SHA256_START;
            for block in padded.chunks(64) {
                compress(&mut state, block.try_into().unwrap());
            }
            let digest: Vec<u8> = state.iter().flat_map(|word| word.to_be_bytes()).collect();
            assert_eq!(sha256(&message[..n])[..], digest);

            let mut padded = message[..n].to_vec();
            padded.push(0x06);
            while !padded.len().is_multiple_of(RATE) {
                padded.push(0);
            }
            *padded.last_mut().unwrap() ^= 0x80;
            let mut lanes = [0; 25];
            for block in padded.chunks(RATE) {
                absorb(&mut lanes, block.try_into().unwrap());
            }
            let digest: Vec<u8> = lanes[..4].iter().flat_map(|lane| lane.to_le_bytes()).collect();
            assert_eq!(sha3_256(&message[..n])[..], digest);
        }
    }
}
