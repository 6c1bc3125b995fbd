//! Drawn circuits, and the plainest model of their arithmetic: each kind is the whole numbers modulo some number.
//!
//! Nothing here uses the engine's own arithmetic, so that targets and forged messages do not follow its mistakes.

use super::random::Random;
use crate::messages::next;

/// A kind by its number.
#[derive(Clone, Copy, Debug, PartialEq, Eq)]
pub struct Ring {
    pub number: u8,
    pub width: usize,
    pub modulus: u64,
}

pub const RINGS: [Ring; 3] = [
    Ring { number: 1, width: 1, modulus: 2 },
    Ring { number: 2, width: 4, modulus: 1 << 32 },
    Ring { number: 3, width: 4, modulus: (1 << 31) - 1 },
];

impl Ring {
    pub fn add(self, a: u64, b: u64) -> u64 {
        (a + b) % self.modulus
    }

    pub fn neg(self, a: u64) -> u64 {
        (self.modulus - a) % self.modulus
    }

    pub fn mul(self, a: u64, b: u64) -> u64 {
        (u128::from(a) * u128::from(b) % u128::from(self.modulus)) as u64
    }

    pub fn sum(self, numbers: impl IntoIterator<Item = u64>) -> u64 {
        numbers.into_iter().fold(0, |sum, n| self.add(sum, n))
    }

    /// A lawful element, often one at an edge.
    pub fn draw(self, random: &mut Random) -> u64 {
        match random.below(8) {
            0 => 0,
            1 => 1,
            2 => self.modulus - 1,
            3 => random.below(20) % self.modulus,
            _ => random.below(self.modulus),
        }
    }

    /// Another element than this one.
    pub fn draw_other(self, random: &mut Random, than: u64) -> u64 {
        self.add(than, 1 + random.below(self.modulus - 1))
    }

    /// A row that belongs to no element; none in a kind that has no such rows.
    pub fn draw_unlawful(self, random: &mut Random) -> Option<u64> {
        let rows = 1u64 << (8 * self.width);
        if self.modulus == rows {
            return None;
        }
        Some(match random.below(3) {
            0 => self.modulus,
            1 => rows - 1,
            _ => self.modulus + random.below(rows - self.modulus),
        })
    }

    pub fn row(self, n: u64) -> Vec<u8> {
        n.to_be_bytes()[8 - self.width..].to_vec()
    }

    pub fn group(self, numbers: &[u64]) -> Vec<u8> {
        numbers.iter().flat_map(|&n| self.row(n)).collect()
    }

    pub fn numbers(self, group: &[u8]) -> Vec<u64> {
        group.chunks(self.width).map(|row| row.iter().fold(0, |n, &byte| n << 8 | u64::from(byte))).collect()
    }
}

#[derive(Clone, Copy, Debug)]
pub enum Gate {
    AddConstant(u32, u64),
    MulConstant(u32, u64),
    Add(u32, u32),
    Mul(u32, u32),
}

/// A circuit with targets.
#[derive(Clone, Debug)]
pub struct Circuit {
    pub ring: Ring,
    pub inputs: usize,
    pub gates: Vec<Gate>,
    pub outputs: Vec<(u32, u64)>,
}

/// How large a circuit is to be.
#[derive(Clone, Copy, Debug)]
pub struct Shape {
    pub inputs: usize,
    pub gates: usize,
    pub outputs: usize,
    /// At most this many gates multiply wires.
    pub most_products: usize,
    /// As many of 16 gates are to multiply wires, as long as that is allowed.
    pub products_in_16: u64,
}

impl Circuit {
    /// Draws the circuit; its targets are what the key gives.
    pub fn draw(random: &mut Random, ring: Ring, shape: Shape, key: &[u64]) -> Self {
        let most = shape.most_products.min(most_products(ring, shape.inputs));
        let mut products = 0;
        let gates = (0..shape.gates)
            .map(|gate| {
                let bound = shape.inputs + gate;
                // Often a wire written lately, so that circuits are deep, and often any.
                let mut wire = || {
                    let back = if random.once_in(2) { random.index(bound) } else { random.index(bound.min(8)) };
                    (bound - 1 - back) as u32
                };
                let (a, b) = (wire(), wire());
                if products < most && random.below(16) < shape.products_in_16 {
                    products += 1;
                    return Gate::Mul(a, b);
                }
                match random.below(3) {
                    0 => Gate::AddConstant(a, ring.draw(random)),
                    1 => Gate::MulConstant(a, ring.draw(random)),
                    _ => Gate::Add(a, b),
                }
            })
            .collect();
        let wires = shape.inputs + shape.gates;
        let outputs = (0..shape.outputs)
            .map(|_| {
                let back = if random.once_in(2) { random.index(wires) } else { random.index(wires.min(4)) };
                ((wires - 1 - back) as u32, 0)
            })
            .collect();
        let mut circuit = Self { ring, inputs: shape.inputs, gates, outputs };
        circuit.fit(key);
        circuit
    }

    /// Sets the targets to what the key gives.
    pub fn fit(&mut self, key: &[u64]) {
        let values = self.values(key);
        for (wire, target) in &mut self.outputs {
            *target = values[*wire as usize];
        }
    }

    pub fn products(&self) -> usize {
        self.gates.iter().filter(|gate| matches!(gate, Gate::Mul(..))).count()
    }

    pub fn wires(&self) -> usize {
        self.inputs + self.gates.len()
    }

    pub fn view_length(&self) -> usize {
        32 + (self.inputs + 2 * self.products()) * self.ring.width
    }

    pub fn work_length(&self) -> usize {
        self.wires() * self.ring.width
    }

    pub fn first_length(&self) -> usize {
        2 + 3 * self.outputs.len() * self.ring.width + 96
    }

    pub fn answer_length(&self) -> usize {
        3 + 2 * self.view_length()
    }

    pub fn tape_elements(&self) -> usize {
        2 * self.inputs + 3 * self.products()
    }

    /// The lock's bytes and where each record starts.
    pub fn lock_with_starts(&self) -> (Vec<u8>, Vec<usize>) {
        let mut bytes = b"LK".to_vec();
        bytes.push(self.ring.number);
        for count in [self.inputs, self.gates.len(), self.outputs.len()] {
            bytes.extend((count as u32).to_be_bytes());
        }
        let mut starts = vec![0];
        for gate in &self.gates {
            starts.push(bytes.len());
            let (mark, a, second) = match *gate {
                Gate::AddConstant(a, c) => (b"AC", a, self.ring.row(c)),
                Gate::MulConstant(a, c) => (b"MC", a, self.ring.row(c)),
                Gate::Add(a, b) => (b"AD", a, b.to_be_bytes().to_vec()),
                Gate::Mul(a, b) => (b"MU", a, b.to_be_bytes().to_vec()),
            };
            bytes.extend(mark);
            bytes.extend(a.to_be_bytes());
            bytes.extend(second);
        }
        for &(wire, target) in &self.outputs {
            starts.push(bytes.len());
            bytes.extend(b"OU");
            bytes.extend(wire.to_be_bytes());
            bytes.extend(self.ring.row(target));
        }
        (bytes, starts)
    }

    pub fn lock(&self) -> Vec<u8> {
        self.lock_with_starts().0
    }

    /// The plain run.
    pub fn values(&self, key: &[u64]) -> Vec<u64> {
        self.run(key, true, |circuit, values, _, a, b| circuit.ring.mul(values[a], values[b]))
    }

    /// A branch's run with the products told.
    pub fn branch_values(&self, branch: u8, shares: &[u64], products: &[u64]) -> Vec<u64> {
        self.run(shares, branch == 1, |_, _, product, _, _| products[product])
    }

    fn run(&self, inputs: &[u64], adds: bool, product: impl Fn(&Self, &[u64], usize, usize, usize) -> u64) -> Vec<u64> {
        let mut values = inputs.to_vec();
        let mut products = 0;
        for gate in &self.gates {
            let value = match *gate {
                Gate::AddConstant(a, c) if adds => self.ring.add(values[a as usize], c),
                Gate::AddConstant(a, _) => values[a as usize],
                Gate::MulConstant(a, c) => self.ring.mul(c, values[a as usize]),
                Gate::Add(a, b) => self.ring.add(values[a as usize], values[b as usize]),
                Gate::Mul(a, b) => {
                    products += 1;
                    product(self, &values, products - 1, a as usize, b as usize)
                }
            };
            values.push(value);
        }
        values
    }

    pub fn draw_key(random: &mut Random, ring: Ring, inputs: usize) -> Vec<u64> {
        (0..inputs).map(|_| ring.draw(random)).collect()
    }

    pub fn draw_tape(&self, random: &mut Random) -> Vec<u8> {
        let mut tape = random.bytes(96);
        for _ in 0..self.tape_elements() {
            tape.extend(self.ring.row(self.ring.draw(random)));
        }
        tape
    }
}

/// As many products as a view of at most 65,535 bytes allows.
pub fn most_products(ring: Ring, inputs: usize) -> usize {
    (65_535 - 32 - inputs * ring.width) / (2 * ring.width)
}

/// The three views of a round, taken apart so that they can be changed.
#[derive(Clone)]
pub struct Branches {
    pub blinds: [Vec<u8>; 3],
    pub shares: [Vec<u64>; 3],
    pub masks: [Vec<u64>; 3],
    pub products: [Vec<u64>; 3],
}

impl Branches {
    pub fn of(circuit: &Circuit, views: &[Vec<u8>; 3]) -> Self {
        let (ring, k, m) = (circuit.ring, circuit.inputs, circuit.products());
        let numbers = views.each_ref().map(|view| ring.numbers(&view[32..]));
        Self {
            blinds: views.each_ref().map(|view| view[..32].to_vec()),
            shares: numbers.each_ref().map(|numbers| numbers[..k].to_vec()),
            masks: numbers.each_ref().map(|numbers| numbers[k..k + m].to_vec()),
            products: numbers.each_ref().map(|numbers| numbers[k + m..].to_vec()),
        }
    }

    pub fn views(&self, ring: Ring) -> [Vec<u8>; 3] {
        [0, 1, 2].map(|i| {
            let groups = [&self.shares[i], &self.masks[i], &self.products[i]].map(|numbers| ring.group(numbers));
            [self.blinds[i].clone(), groups.concat()].concat()
        })
    }

    /// The output shares that a rerun of each branch gives.
    pub fn output_shares(&self, circuit: &Circuit) -> [Vec<u64>; 3] {
        [0, 1, 2].map(|i| {
            let values = circuit.branch_values(i as u8 + 1, &self.shares[i], &self.products[i]);
            circuit.outputs.iter().map(|&(wire, _)| values[wire as usize]).collect()
        })
    }
}

/// The answer to a pick from three views.
pub fn answer_of(views: &[Vec<u8>; 3], pick: u8) -> Vec<u8> {
    let view = |branch: u8| &views[usize::from(branch - 1)][..];
    [b"AN", &[pick][..], view(pick), view(next(pick))].concat()
}
