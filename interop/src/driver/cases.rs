//! The cases: a fixed list for the edges, then as many drawn ones as wanted.

use super::circuits::{Branches, Circuit, Gate, RINGS, Ring, Shape, answer_of, most_products};
use super::compare::{Call, Compare, Outcome, Told};
use super::damage::{change_element, damage_answer, damage_first, damaged_lock, other_length, resize, work_length};
use super::random::Random;
use crate::hashes::{sha3_256, sha256};
use crate::interface::{BAD_KEEPER, DONE, NO_KIND, NO_SEALER, PzKeeper, REFUSED};
use crate::messages::next;

const SEALERS: [u8; 2] = [1, 2];

type Special = fn(&mut Compare, Ring, u8);

/// The fixed cases; each is run for every kind and sealer.
const SPECIAL: [(&str, Special); 14] = [
    ("every byte of a lock", sweep_lock),
    ("every byte of a first message", sweep_first),
    ("every byte of the answers", sweep_answers),
    ("every byte of key and tape", sweep_key_and_tape),
    ("every size", sweep_sizes),
    ("unknown numbers and bad keepers", sweep_numbers),
    ("keepers at the edges", keeper_edges),
    ("a full table", full_table),
    ("a product that nothing reads", dangling_product),
    ("the most gates", most_gates),
    ("the longest view", longest_view),
    ("the most inputs and outputs", most_inputs_and_outputs),
    ("the least lock", least_lock),
    ("views of many lengths", many_lengths),
];

/// The drawn cases, with how often each comes.
const DRAWN: [(&str, Drawn, u64); 6] = [
    ("reading", drawn_reading, 3),
    ("history", drawn_history, 4),
    ("promise", drawn_promise, 3),
    ("verify", drawn_verify, 5),
    ("extract", drawn_extract, 4),
    ("forged", drawn_forged, 5),
];

type Drawn = fn(&mut Compare);

/// The number of fixed cases.
pub const FIXED: u64 = (SPECIAL.len() * RINGS.len() * SEALERS.len()) as u64;

/// Runs a case by its number and tells its name.
pub fn run(compare: &mut Compare, case: u64) -> String {
    compare.start(case);
    if case < FIXED {
        let case = case as usize;
        let (name, special) = SPECIAL[case / 6];
        let (ring, sealer) = (RINGS[case % 6 / 2], SEALERS[case % 2]);
        special(compare, ring, sealer);
        return format!("{name}, kind {}, sealer {sealer}", ring.number);
    }
    let total = DRAWN.iter().map(|(_, _, weight)| weight).sum();
    let mut n = compare.random.below(total);
    for (name, drawn, weight) in DRAWN {
        if n < weight {
            drawn(compare);
            return name.to_string();
        }
        n -= weight;
    }
    unreachable!("the weights add up")
}

/// What must have come up in a whole run.
pub fn expected() -> Vec<Outcome> {
    let mut all = Vec::new();
    let mut add = |call, status, number, place, branch, pick| {
        all.push(Outcome { call, status, number, place, branch, pick });
    };
    for call in [Call::ReadLock, Call::Promise, Call::Verify, Call::Extract] {
        for number in [1, 2, 4, 5, 6] {
            add(call, REFUSED, number, 0, 0, 0);
        }
        for place in [2, 3, 7, 11, 15] {
            add(call, REFUSED, 3, place, 0, 0);
        }
        add(call, NO_KIND, 0, 0, 0, 0);
        add(call, NO_SEALER, 0, 0, 0, 0);
    }
    for call in [Call::ReadLock, Call::Promise, Call::Answer, Call::Drop, Call::Verify, Call::Extract] {
        add(call, DONE, 0, 0, 0, 0);
    }
    for call in [Call::Promise, Call::Answer, Call::Drop] {
        add(call, BAD_KEEPER, 0, 0, 0, 0);
    }
    // Place 0 cannot come up: both sealers take messages longer than any view.
    for (call, places) in [(Call::Promise, 7), (Call::Answer, 1), (Call::Verify, 4), (Call::Extract, 7)] {
        for place in 1..=places {
            add(call, REFUSED, 7, place, 0, 0);
        }
    }
    for (call, numbers) in [
        (Call::Promise, &[11, 12, 13, 14][..]),
        (Call::Answer, &[8, 9, 10]),
        (Call::Drop, &[9, 10]),
        (Call::Verify, &[8, 15, 16, 17]),
    ] {
        for &number in numbers {
            add(call, REFUSED, number, 0, 0, 0);
        }
    }
    for branch in 1..=3 {
        for number in [18, 19, 20] {
            add(Call::Verify, REFUSED, number, 0, branch, 0);
        }
    }
    for pick in 1..=3 {
        add(Call::Extract, REFUSED, 16, 0, 0, pick);
        add(Call::Extract, REFUSED, 18, 0, pick, pick);
        add(Call::Extract, REFUSED, 18, 0, next(pick), pick);
        add(Call::Extract, REFUSED, 20, 0, pick, pick);
    }
    add(Call::Extract, REFUSED, 15, 0, 0, 1);
    add(Call::Extract, REFUSED, 17, 0, 0, 1);
    // A view that stood a rerun once stands it again, so behind pick 1 only branch 3 can be told, at pick 2.
    add(Call::Extract, REFUSED, 19, 0, 1, 1);
    add(Call::Extract, REFUSED, 19, 0, 2, 1);
    add(Call::Extract, REFUSED, 19, 0, 3, 2);
    all
}

fn digest(sealer: u8, message: &[u8]) -> [u8; 32] {
    if sealer == 1 { sha256(message) } else { sha3_256(message) }
}

/// A lock with a key that fits, and a round of it.
#[derive(Clone)]
struct Scene {
    circuit: Circuit,
    kind: u8,
    sealer: u8,
    lock: Vec<u8>,
    key: Vec<u8>,
    tape: Vec<u8>,
    first: Vec<u8>,
    views: [Vec<u8>; 3],
    answers: [Vec<u8>; 3],
}

impl Scene {
    /// Promises a round in a store of its own, and takes its views from there.
    fn promised(compare: &mut Compare, circuit: Circuit, key: &[u64], sealer: u8) -> Self {
        let tape = circuit.draw_tape(&mut compare.random);
        Self::promised_with(compare, circuit, key, sealer, tape)
    }

    fn promised_with(compare: &mut Compare, circuit: Circuit, key: &[u64], sealer: u8, tape: Vec<u8>) -> Self {
        let kind = circuit.ring.number;
        let lock = circuit.lock();
        let key = circuit.ring.group(key);
        let length = circuit.view_length();
        let mut keeper = compare.keeper_new(length as u64);
        let extra = compare.random.index(3 * length);
        let mut store = compare.random.bytes(3 * length + extra);
        let mut first = compare.random.bytes(circuit.first_length());
        let work = [circuit.work_length(); 3];
        let told = compare.promise(kind, sealer, &mut keeper, &mut store, &lock, &key, &tape, work, &mut first);
        compare.expect("an honest promise to be accepted", told.status == DONE);
        let views = [0, 1, 2].map(|i| store[i * length..(i + 1) * length].to_vec());
        let answers = [1, 2, 3].map(|pick| answer_of(&views, pick));
        Self { circuit, kind, sealer, lock, key, tape, first, views, answers }
    }

    fn work2(&self) -> [usize; 2] {
        [self.circuit.work_length(); 2]
    }

    fn work3(&self) -> [usize; 3] {
        [self.circuit.work_length(); 3]
    }

    fn answer(&self, pick: u8) -> &[u8] {
        &self.answers[usize::from(pick - 1)]
    }

    fn verify(&self, compare: &mut Compare, pick: u8) -> Told {
        compare.verify(self.kind, self.sealer, &self.lock, &self.first, pick, self.answer(pick), self.work2())
    }

    fn extract(&self, compare: &mut Compare) -> (Told, Vec<u8>) {
        let answers = self.answers.each_ref().map(|answer| &answer[..]);
        compare.extract(self.kind, self.sealer, &self.lock, &self.first, answers, self.work2(), self.key.len())
    }

    /// A promise of this scene in a fresh keeper for one round.
    fn promise(&self, compare: &mut Compare, key: &[u8], tape: &[u8]) -> Told {
        let length = self.circuit.view_length();
        let mut keeper = compare.keeper_new(length as u64);
        let mut store = compare.random.bytes(3 * length);
        let mut first = compare.random.bytes(self.circuit.first_length());
        compare.promise(
            self.kind,
            self.sealer,
            &mut keeper,
            &mut store,
            &self.lock,
            key,
            tape,
            self.work3(),
            &mut first,
        )
    }

    /// All honest calls: every pick is accepted, and the three answers give the key.
    fn expect_honest(&self, compare: &mut Compare) {
        for pick in 1..=3 {
            let told = self.verify(compare, pick);
            compare.expect("an honest answer to be accepted", told.status == DONE);
        }
        let (told, key) = self.extract(compare);
        compare.expect("honest answers to give the key", told.status == DONE && key == self.key);
    }
}

fn draw_ring(random: &mut Random) -> Ring {
    random.one_of(&RINGS)
}

fn draw_shape(random: &mut Random) -> Shape {
    let inputs = match random.below(40) {
        0 => random.within(900, 1_024),
        1..=6 => random.within(5, 40),
        _ => random.within(1, 4),
    };
    let gates = match random.below(16) {
        0 => 0,
        1..=8 => random.within(1, 12),
        9..=13 => random.within(10, 60),
        _ => random.within(60, 400),
    };
    let outputs = match random.below(40) {
        0 => random.within(900, 1_024),
        1..=6 => random.within(4, 30),
        _ => random.within(1, 3),
    };
    Shape { inputs, gates, outputs, most_products: usize::MAX, products_in_16: random.one_of(&[0, 2, 4, 4, 8, 16]) }
}

fn draw_circuit(random: &mut Random) -> (Circuit, Vec<u64>) {
    let ring = draw_ring(random);
    draw_circuit_in(random, ring)
}

fn draw_circuit_in(random: &mut Random, ring: Ring) -> (Circuit, Vec<u64>) {
    let shape = draw_shape(random);
    let key = Circuit::draw_key(random, ring, shape.inputs);
    (Circuit::draw(random, ring, shape, &key), key)
}

/// A small circuit with a gate of each sort, two products one behind the other, and two outputs.
fn small_circuit(random: &mut Random, ring: Ring) -> (Circuit, Vec<u64>) {
    let gates = vec![
        Gate::Mul(0, 1),
        Gate::AddConstant(2, ring.draw(random)),
        Gate::MulConstant(3, ring.modulus - 1),
        Gate::Mul(4, 2),
        Gate::Add(5, 0),
        Gate::AddConstant(1, 1),
    ];
    let key = Circuit::draw_key(random, ring, 2);
    let mut circuit = Circuit { ring, inputs: 2, gates, outputs: vec![(6, 0), (7, 0)] };
    circuit.fit(&key);
    (circuit, key)
}

fn small_scene(compare: &mut Compare, ring: Ring, sealer: u8) -> Scene {
    let (circuit, key) = small_circuit(&mut compare.random, ring);
    Scene::promised(compare, circuit, &key, sealer)
}

/// One of the calls that read a lock, with everything else as it was for the lock's own round.
fn call_with_lock(compare: &mut Compare, scene: &Scene, lock: &[u8], call: usize) {
    let spoilt = Scene { lock: lock.to_vec(), ..scene.clone() };
    match call % 4 {
        0 => {
            compare.read_lock(scene.kind, scene.sealer, lock);
        }
        1 => {
            let pick = compare.random.within(1, 3) as u8;
            spoilt.verify(compare, pick);
        }
        2 => {
            spoilt.promise(compare, &scene.key, &scene.tape);
        }
        _ => {
            spoilt.extract(compare);
        }
    }
}

fn sweep_lock(compare: &mut Compare, ring: Ring, sealer: u8) {
    let scene = small_scene(compare, ring, sealer);
    scene.expect_honest(compare);
    let lock = scene.lock.clone();
    let mut turn = 0;
    for at in 0..lock.len() {
        for change in [1, 2, 4, 8, 16, 32, 64, 128, 255] {
            let mut bytes = lock.clone();
            bytes[at] ^= change;
            compare.read_lock(scene.kind, sealer, &bytes);
            turn += 1;
            call_with_lock(compare, &scene, &bytes, 1 + turn % 3);
        }
        for call in 0..4 {
            call_with_lock(compare, &scene, &lock[..at], call);
        }
    }
    for more in 1..=20 {
        let bytes = [lock.clone(), compare.random.bytes(more)].concat();
        for call in 0..4 {
            call_with_lock(compare, &scene, &bytes, call);
        }
    }
    // Limits of the header's fields, one beyond, and far beyond; the lock of another kind.
    for (field, counts) in [
        (3, [0, 1, 2, 1_024, 1_025, u32::MAX]),
        (7, [0, 5, 7, 200_000, 200_001, u32::MAX]),
        (11, [0, 1, 3, 1_024, 1_025, u32::MAX]),
    ] {
        for count in counts {
            let mut bytes = lock.clone();
            bytes[field..field + 4].copy_from_slice(&count.to_be_bytes());
            for call in 0..4 {
                call_with_lock(compare, &scene, &bytes, call);
            }
        }
    }
    for other in RINGS {
        if other != ring {
            let other = Scene { kind: other.number, ..scene.clone() };
            for call in 0..4 {
                call_with_lock(compare, &other, &lock, call);
            }
        }
    }
}

fn sweep_first(compare: &mut Compare, ring: Ring, sealer: u8) {
    let scene = small_scene(compare, ring, sealer);
    for at in 0..scene.first.len() {
        for change in [1, 2, 128, 255] {
            let mut spoilt = scene.clone();
            spoilt.first[at] ^= change;
            for pick in 1..=3 {
                spoilt.verify(compare, pick);
            }
            spoilt.extract(compare);
        }
    }
}

fn sweep_answers(compare: &mut Compare, ring: Ring, sealer: u8) {
    let scene = small_scene(compare, ring, sealer);
    for pick in 1..=3u8 {
        for at in 0..scene.answer(pick).len() {
            for change in [1, 2, 128, 255] {
                let mut spoilt = scene.clone();
                spoilt.answers[usize::from(pick - 1)][at] ^= change;
                spoilt.verify(compare, pick);
                spoilt.extract(compare);
            }
        }
    }
    // The answers in every order, and one answer for all.
    for a in 0..3 {
        for b in 0..3 {
            for c in 0..3 {
                let answers = [a, b, c].map(|i| scene.answers[i].clone());
                Scene { answers, ..scene.clone() }.extract(compare);
            }
        }
    }
    for given in 0..3 {
        for pick in [0, 1, 2, 3, 4, 5, 128, 255] {
            let answer = &scene.answers[given];
            compare.verify(scene.kind, sealer, &scene.lock, &scene.first, pick, answer, scene.work2());
        }
    }
}

fn sweep_key_and_tape(compare: &mut Compare, ring: Ring, sealer: u8) {
    let scene = small_scene(compare, ring, sealer);
    for change in [1, 2, 128, 255] {
        for at in 0..scene.key.len() {
            let mut key = scene.key.clone();
            key[at] ^= change;
            scene.promise(compare, &key, &scene.tape);
            // Together with a tape that is unlawful too, if there are such.
            let mut tape = scene.tape.clone();
            change_element(&mut compare.random, ring, &mut tape[96..], true);
            scene.promise(compare, &key, &tape);
        }
        for at in 0..scene.tape.len() {
            let mut tape = scene.tape.clone();
            tape[at] ^= change;
            scene.promise(compare, &scene.key, &tape);
        }
    }
}

/// Every buffer of every call with every sort of wrong size, the others right or wrong too.
fn sweep_sizes(compare: &mut Compare, ring: Ring, sealer: u8) {
    let scene = small_scene(compare, ring, sealer);
    let (kind, lock) = (scene.kind, &scene.lock);
    let view = scene.circuit.view_length();
    let work = scene.circuit.work_length();
    let cut = |bytes: &[u8], length: usize| -> Vec<u8> { bytes.iter().copied().cycle().take(length).collect() };
    // The lengths due, then a function from these to the wrong ones.
    let variants = |due: usize| [0, 1, due - 1, due + 1, due + 100, 2 * due];

    let due = [scene.key.len(), scene.tape.len(), work, work, work, scene.first.len(), view];
    let promise = |compare: &mut Compare, sizes: [usize; 7]| {
        let mut keeper = compare.keeper_new(sizes[6] as u64);
        let mut store = compare.random.bytes(3 * view);
        let mut first = compare.random.bytes(sizes[5]);
        let (key, tape) = (cut(&scene.key, sizes[0]), cut(&scene.tape, sizes[1]));
        let work = [sizes[2], sizes[3], sizes[4]];
        compare.promise(kind, sealer, &mut keeper, &mut store, lock, &key, &tape, work, &mut first);
    };
    for i in 0..7 {
        for size in variants(due[i]) {
            let mut sizes = due;
            sizes[i] = size;
            promise(compare, sizes);
            for j in i + 1..7 {
                let mut both = sizes;
                both[j] = due[j] - 1;
                promise(compare, both);
            }
        }
    }

    let due = [scene.first.len(), scene.answers[0].len(), work, work];
    let verify = |compare: &mut Compare, sizes: [usize; 4], pick: u8| {
        let (first, answer) = (cut(&scene.first, sizes[0]), cut(&scene.answers[0], sizes[1]));
        compare.verify(kind, sealer, lock, &first, pick, &answer, [sizes[2], sizes[3]]);
    };
    for i in 0..4 {
        for size in variants(due[i]) {
            let mut sizes = due;
            sizes[i] = size;
            verify(compare, sizes, 1);
            verify(compare, sizes, 4);
            for j in i + 1..4 {
                let mut both = sizes;
                both[j] = due[j] - 1;
                verify(compare, both, 1);
            }
        }
    }

    let answer = scene.answers[0].len();
    let due = [scene.first.len(), answer, answer, answer, work, work, scene.key.len()];
    let extract = |compare: &mut Compare, sizes: [usize; 7]| {
        let first = cut(&scene.first, sizes[0]);
        let answers = [0, 1, 2].map(|i| cut(&scene.answers[i], sizes[i + 1]));
        let answers = answers.each_ref().map(|answer| &answer[..]);
        compare.extract(kind, sealer, lock, &first, answers, [sizes[4], sizes[5]], sizes[6]);
    };
    for i in 0..7 {
        for size in variants(due[i]) {
            let mut sizes = due;
            sizes[i] = size;
            extract(compare, sizes);
            for j in i + 1..7 {
                let mut both = sizes;
                both[j] = due[j] - 1;
                extract(compare, both);
            }
        }
    }

    // Answers into buffers of every length about the right one.
    let mut keeper = compare.keeper_new(view as u64);
    let mut store = compare.random.bytes(3 * view);
    let mut first = scene.first.clone();
    compare.promise(kind, sealer, &mut keeper, &mut store, lock, &scene.key, &scene.tape, scene.work3(), &mut first);
    for length in [0, 1, 2, 3, view, answer - 2, answer - 1, answer + 1, answer + 2, 2 * answer, answer] {
        let mut buffer = compare.random.bytes(length);
        let mut pick = compare.random.one_of(&[0, 1, 2, 3, 4, 255]);
        compare.answer(&mut keeper, &mut store, 1, pick, &mut buffer);
        pick = compare.random.within(1, 3) as u8;
        compare.answer(&mut keeper, &mut store, 1, pick, &mut buffer);
    }
}

/// Numbers of kinds and sealers that stand for none, and states that no keeper has, alone and together.
fn sweep_numbers(compare: &mut Compare, ring: Ring, sealer: u8) {
    let scene = small_scene(compare, ring, sealer);
    let view = scene.circuit.view_length();
    let mut good = compare.keeper_new(view as u64);
    let mut store = compare.random.bytes(3 * 3 * view + 7);
    for _ in 0..3 {
        let mut first = compare.random.bytes(scene.first.len());
        compare.promise(
            scene.kind,
            sealer,
            &mut good,
            &mut store,
            &scene.lock,
            &scene.key,
            &scene.tape,
            scene.work3(),
            &mut first,
        );
    }

    let mut states = vec![good];
    for promised in [0, 1, 2, 4, 5, 63, 64, 65, 66, 1 << 32, u64::MAX] {
        states.push(PzKeeper { promised, ..good });
    }
    for (i, record) in [(0, 3), (1, 3), (2, 255), (3, 3), (63, 9), (0, 1), (1, 2), (2, 1)] {
        let mut state = good;
        state.records[i] = record;
        states.push(state);
        state.promised = 2;
        states.push(state);
    }
    for view_length in [
        0,
        1,
        31,
        32,
        33,
        view as u64 - 1,
        view as u64 + 1,
        3 * view as u64,
        65_535,
        65_536,
        1 << 32,
        1 << 62,
        u64::MAX,
    ] {
        states.push(PzKeeper { view_length, ..good });
        states.push(PzKeeper { view_length, promised: 0, ..good });
        states.push(PzKeeper { view_length, promised: 1, ..good });
    }
    for state in &states {
        for (kind, sealer) in
            [(scene.kind, sealer), (0, sealer), (scene.kind, 0), (4, 3), (255, 255), (scene.kind, 3), (scene.kind, 255)]
        {
            let (mut keeper, mut store) = (*state, store.clone());
            let mut first = compare.random.bytes(scene.first.len());
            let lock = if compare.random.once_in(3) { &scene.lock[1..] } else { &scene.lock };
            compare.promise(
                kind,
                sealer,
                &mut keeper,
                &mut store,
                lock,
                &scene.key,
                &scene.tape,
                scene.work3(),
                &mut first,
            );
        }
        for round in [0, 1, 2, 3, 4, 64, 65, 1 << 32, (1 << 32) + 1, u64::MAX] {
            let (mut keeper, mut other_store) = (*state, store.clone());
            compare.drop_round(&mut keeper, &mut other_store, round);
            let (mut keeper, mut other_store) = (*state, store.clone());
            let length = 3 + 2 * (state.view_length.min(100_000) as usize);
            let mut answer = compare.random.bytes(length);
            let pick = compare.random.one_of(&[1, 2, 3, 3, 0]);
            compare.answer(&mut keeper, &mut other_store, round, pick, &mut answer);
        }
        let (mut keeper, mut short) = (*state, store[..3 * view - 1].to_vec());
        compare.drop_round(&mut keeper, &mut short, 1);
        compare.drop_round(&mut keeper, &mut [], 1);
    }

    for kind in [0, 1, 2, 3, 4, 5, 128, 255] {
        for sealer in [0, 1, 2, 3, 4, 128, 255] {
            let other = Scene { kind, sealer, ..scene.clone() };
            for call in 0..4 {
                call_with_lock(compare, &other, &scene.lock, call);
            }
        }
    }
}

/// View lengths at the limits, with stores of many sizes.
fn keeper_edges(compare: &mut Compare, ring: Ring, sealer: u8) {
    for view_length in [0u64, 1, 32, 33, 34, 48, 65_535, 65_536, 1 << 31, 1 << 32, u64::MAX / 3 + 1, u64::MAX] {
        compare.keeper_new(view_length);
    }
    // The shortest view that this kind has.
    let key = Circuit::draw_key(&mut compare.random, ring, 1);
    let shape = Shape { inputs: 1, gates: 3, outputs: 1, most_products: 0, products_in_16: 0 };
    let circuit = Circuit::draw(&mut compare.random, ring, shape, &key);
    let scene = Scene::promised(compare, circuit, &key, sealer);
    scene.expect_honest(compare);
    let view = scene.circuit.view_length();
    for view_length in [32, 33, 34, view - 1, view, view + 1, 65_535, 65_536] {
        for store_length in
            [0, 1, 3 * view_length - 1, 3 * view_length, 3 * view_length + 1, 6 * view_length - 1, 6 * view_length]
        {
            // A state that says of a round or two that they were promised, which may be more than there are.
            for promised in 1..=2 {
                let state = PzKeeper { promised, ..compare.keeper_new(view_length as u64) };
                let store = compare.random.bytes(store_length);
                let mut answer = compare.random.bytes(3 + 2 * view_length);
                compare.answer(&mut state.clone(), &mut store.clone(), promised, 3, &mut answer);
                compare.drop_round(&mut state.clone(), &mut store.clone(), promised);
            }
            let mut keeper = compare.keeper_new(view_length as u64);
            let mut store = compare.random.bytes(store_length);
            for _ in 0..3 {
                let mut first = compare.random.bytes(scene.first.len());
                compare.promise(
                    scene.kind,
                    sealer,
                    &mut keeper,
                    &mut store,
                    &scene.lock,
                    &scene.key,
                    &scene.tape,
                    scene.work3(),
                    &mut first,
                );
            }
            for round in 0..4 {
                let mut answer = compare.random.bytes(3 + 2 * view_length);
                compare.answer(&mut keeper, &mut store, round, 1 + (round % 3) as u8, &mut answer);
                compare.drop_round(&mut keeper, &mut store, round);
            }
        }
    }
}

/// Sixty-four rounds in a store that would hold more; then all are spent, and nothing more is promised.
fn full_table(compare: &mut Compare, ring: Ring, sealer: u8) {
    let scene = small_scene(compare, ring, sealer);
    let view = scene.circuit.view_length();
    for rounds in [64, 67] {
        let mut keeper = compare.keeper_new(view as u64);
        let mut store = compare.random.bytes(3 * view * rounds + 5);
        for _ in 0..66 {
            let tape = scene.circuit.draw_tape(&mut compare.random);
            let mut first = compare.random.bytes(scene.first.len());
            compare.promise(
                scene.kind,
                sealer,
                &mut keeper,
                &mut store,
                &scene.lock,
                &scene.key,
                &tape,
                scene.work3(),
                &mut first,
            );
        }
        compare.expect("64 promises", keeper.promised == 64);
        for round in (0..=66).rev() {
            let mut answer = compare.random.bytes(scene.answers[0].len());
            if compare.random.once_in(2) {
                compare.drop_round(&mut keeper, &mut store, round);
            }
            let pick = compare.random.within(1, 3) as u8;
            compare.answer(&mut keeper, &mut store, round, pick, &mut answer);
        }
        let mut first = compare.random.bytes(scene.first.len());
        compare.promise(
            scene.kind,
            sealer,
            &mut keeper,
            &mut store,
            &scene.lock,
            &scene.key,
            &scene.tape,
            scene.work3(),
            &mut first,
        );
        compare.drop_round(&mut keeper, &mut store, 64);
    }
}

/// A product that no output and no other product reads: a wrong one is seen only by its own pick.
fn dangling_product(compare: &mut Compare, ring: Ring, sealer: u8) {
    let (mut circuit, key) = small_circuit(&mut compare.random, ring);
    circuit.gates.push(Gate::Mul(0, 6));
    circuit.gates.push(Gate::Mul(8, 1));
    circuit.gates.push(Gate::Mul(0, 1));
    circuit.gates.push(Gate::Add(10, 0));
    let scene = Scene::promised(compare, circuit, &key, sealer);
    scene.expect_honest(compare);
    for branch in 0..3 {
        for product in 0..5 {
            let mut branches = Branches::of(&scene.circuit, &scene.views);
            let now = branches.products[branch][product];
            branches.products[branch][product] = ring.draw_other(&mut compare.random, now);
            let forged = reseal(&scene, &branches, None, [true; 3], [true; 3]);
            for pick in 1..=3 {
                forged.verify(compare, pick);
            }
            forged.extract(compare);
        }
    }
}

fn run_large(compare: &mut Compare, ring: Ring, sealer: u8, shape: Shape) -> Scene {
    let key = Circuit::draw_key(&mut compare.random, ring, shape.inputs);
    let circuit = Circuit::draw(&mut compare.random, ring, shape, &key);
    let scene = Scene::promised(compare, circuit, &key, sealer);
    scene.expect_honest(compare);
    // One late change in each sort of data.
    let mut spoilt = scene.clone();
    let last = spoilt.answers[1].len() - 1;
    spoilt.answers[1][last] ^= 1;
    spoilt.verify(compare, 2);
    spoilt.extract(compare);
    let mut lock = scene.lock.clone();
    let end = lock.len();
    lock[end - ring.width - 1] ^= 0x80;
    compare.read_lock(scene.kind, sealer, &lock);
    let last = scene.lock.len() - 1;
    compare.read_lock(scene.kind, sealer, &scene.lock[..last]);
    let mut branches = Branches::of(&scene.circuit, &scene.views);
    if let Some(product) = branches.products[0].last_mut() {
        *product = ring.draw_other(&mut compare.random, *product);
        reseal(&scene, &branches, Some(2), [true; 3], [true; 3]).verify(compare, 1);
    }
    scene
}

fn most_gates(compare: &mut Compare, ring: Ring, sealer: u8) {
    let shape = Shape { inputs: 3, gates: 200_000, outputs: 3, most_products: 40, products_in_16: 1 };
    let scene = run_large(compare, ring, sealer, shape);
    let mut more = scene.circuit.clone();
    more.gates.push(Gate::Add(0, 0));
    compare.read_lock(scene.kind, sealer, &more.lock());
    let short = scene.circuit.work_length() - 1;
    let pick = compare.random.within(1, 3) as u8;
    compare.verify(scene.kind, sealer, &scene.lock, &scene.first, pick, scene.answer(pick), [short + 1, short]);
}

/// As many products as the longest view holds, and one more.
fn longest_view(compare: &mut Compare, ring: Ring, sealer: u8) {
    // An odd number of inputs makes 65,535 bytes in a kind of width 1.
    let inputs = compare.random.one_of(&[1, 3, 51, 1_023]);
    let products = most_products(ring, inputs);
    let shape = Shape { inputs, gates: products + 50, outputs: 5, most_products: products, products_in_16: 16 };
    let scene = run_large(compare, ring, sealer, shape);
    compare.expect("the longest view", scene.circuit.view_length() > 65_535 - 2 * ring.width);

    let mut more = scene.circuit.clone();
    let at = compare.random.one_of(&[0, more.gates.len()]);
    more.gates.insert(at, Gate::Mul(0, 0));
    let lock = more.lock();
    compare.read_lock(scene.kind, sealer, &lock);
    for call in 0..4 {
        call_with_lock(compare, &scene, &lock, call);
    }
    // A keeper for views of this length, and for one byte more, with a second round.
    let view = scene.circuit.view_length();
    for view_length in [view, view + 1] {
        let mut keeper = compare.keeper_new(view_length as u64);
        let mut store = compare.random.bytes(6 * view_length + 1);
        for _ in 0..3 {
            let mut first = compare.random.bytes(scene.first.len());
            compare.promise(
                scene.kind,
                sealer,
                &mut keeper,
                &mut store,
                &scene.lock,
                &scene.key,
                &scene.tape,
                scene.work3(),
                &mut first,
            );
        }
        let mut answer = compare.random.bytes(3 + 2 * view_length);
        compare.answer(&mut keeper, &mut store, 2, 3, &mut answer);
        compare.drop_round(&mut keeper, &mut store, 1);
    }
}

fn most_inputs_and_outputs(compare: &mut Compare, ring: Ring, sealer: u8) {
    let shape = Shape { inputs: 1_024, gates: 700, outputs: 1_024, most_products: usize::MAX, products_in_16: 4 };
    let scene = run_large(compare, ring, sealer, shape);
    let mut more = scene.circuit.clone();
    more.outputs.push((0, 0));
    compare.read_lock(scene.kind, sealer, &more.lock());
    // The last elements of everything.
    let mut key = scene.key.clone();
    let last = key.len() - ring.width;
    change_element(&mut compare.random, ring, &mut key[last..], true);
    scene.promise(compare, &key, &scene.tape);
    let mut tape = scene.tape.clone();
    let last = tape.len() - ring.width;
    change_element(&mut compare.random, ring, &mut tape[last..], true);
    scene.promise(compare, &scene.key, &tape);
    let mut spoilt = scene.clone();
    let last = 2 + (3 * 1_024 - 1) * ring.width;
    change_element(&mut compare.random, ring, &mut spoilt.first[last..last + ring.width], true);
    spoilt.verify(compare, 3);
    spoilt.extract(compare);
    let mut other = scene.circuit.clone();
    let (_, target) = &mut other.outputs[1_023];
    *target = ring.add(*target, 1);
    let other = Scene { lock: other.lock(), ..scene.clone() };
    other.promise(compare, &scene.key, &scene.tape);
    other.verify(compare, 2);
}

/// One input, no gates, one output.
fn least_lock(compare: &mut Compare, ring: Ring, sealer: u8) {
    for value in [0, 1, ring.modulus - 1] {
        let circuit = Circuit { ring, inputs: 1, gates: Vec::new(), outputs: vec![(0, value)] };
        let scene = Scene::promised(compare, circuit, &[value], sealer);
        scene.expect_honest(compare);
        for _ in 0..40 {
            let lock = damaged_lock(&mut compare.random, &scene.circuit);
            let call = compare.random.index(4);
            call_with_lock(compare, &scene, &lock, call);
        }
        let (wrong, tape) = (ring.row(ring.add(value, 1)), scene.tape.clone());
        scene.promise(compare, &wrong, &tape);
    }
}

/// Views of every length up to some hundred bytes, so that they end at every place in a sealer's block.
fn many_lengths(compare: &mut Compare, ring: Ring, sealer: u8) {
    for inputs in 1..=320 / ring.width {
        let key = Circuit::draw_key(&mut compare.random, ring, inputs);
        let products = compare.random.index(3);
        let shape = Shape { inputs, gates: 4, outputs: 1, most_products: products, products_in_16: 8 };
        let circuit = Circuit::draw(&mut compare.random, ring, shape, &key);
        let scene = Scene::promised(compare, circuit, &key, sealer);
        let pick = compare.random.within(1, 3) as u8;
        let told = scene.verify(compare, pick);
        compare.expect("an honest answer to be accepted", told.status == DONE);
    }
}

fn drawn_reading(compare: &mut Compare) {
    let (circuit, _) = draw_circuit(&mut compare.random);
    let kind = circuit.ring.number;
    let told = compare.read_lock(kind, compare.random.clone().one_of(&SEALERS), &circuit.lock());
    compare.expect("a lock in order to be read", told.status == DONE);
    for _ in 0..12 {
        let lock = damaged_lock(&mut compare.random, &circuit);
        let kind = if compare.random.once_in(12) { compare.random.one_of(&[0, 1, 2, 3, 4, 255]) } else { kind };
        let sealer = if compare.random.once_in(12) {
            compare.random.one_of(&[0, 3, 255])
        } else {
            compare.random.one_of(&SEALERS)
        };
        compare.read_lock(kind, sealer, &lock);
    }
}

/// A circuit that a keeper for the given one may promise too: as many inputs and products, of a kind as wide.
fn draw_companion(random: &mut Random, circuit: &Circuit) -> (Circuit, Vec<u64>) {
    let kinds: Vec<Ring> = RINGS.into_iter().filter(|ring| ring.width == circuit.ring.width).collect();
    let ring = random.one_of(&kinds);
    let key = Circuit::draw_key(random, ring, circuit.inputs);
    let gates = circuit.gates.iter().map(|gate| match *gate {
        Gate::Mul(a, b) => Gate::Mul(b, a),
        Gate::Add(a, b) => Gate::Add(b, a),
        Gate::AddConstant(a, _) => Gate::MulConstant(a, ring.draw(random)),
        Gate::MulConstant(a, _) => Gate::AddConstant(a, ring.draw(random)),
    });
    let mut companion =
        Circuit { ring, inputs: circuit.inputs, gates: gates.collect(), outputs: circuit.outputs.clone() };
    companion.fit(&key);
    (companion, key)
}

/// What a promise is given, to be spoilt.
struct Offer {
    kind: u8,
    sealer: u8,
    lock: Vec<u8>,
    key: Vec<u8>,
    tape: Vec<u8>,
    work: [usize; 3],
    first: usize,
}

impl Offer {
    fn honest(random: &mut Random, circuit: &Circuit, key: &[u64], sealer: u8) -> Self {
        let work = [(); 3].map(|()| circuit.work_length() + if random.once_in(4) { random.index(50) } else { 0 });
        Self {
            kind: circuit.ring.number,
            sealer,
            lock: circuit.lock(),
            key: circuit.ring.group(key),
            tape: circuit.draw_tape(random),
            work,
            first: circuit.first_length(),
        }
    }

    fn spoil(&mut self, random: &mut Random, circuit: &Circuit) {
        let ring = circuit.ring;
        match random.below(16) {
            0 => self.lock = damaged_lock(random, circuit),
            1 => resize(random, &mut self.key),
            2 => resize(random, &mut self.tape),
            3 | 4 => {
                let i = random.index(3);
                self.work[i] = work_length(random, self.work[i]);
            }
            5 => self.first = other_length(random, self.first),
            6 | 7 => change_element(random, ring, &mut self.key, false),
            8 | 9 => change_element(random, ring, &mut self.key, true),
            10 | 11 if self.tape.len() > 96 => change_element(random, ring, &mut self.tape[96..], true),
            12 if random.once_in(4) => self.kind = random.one_of(&[0, 1, 2, 3, 4, 255]),
            13 if random.once_in(4) => self.sealer = random.one_of(&[0, 3, 255]),
            14 => {
                let other = Circuit::draw_key(random, ring, circuit.inputs);
                self.key = ring.group(&other);
            }
            _ => {
                // Another target for the same key.
                let mut other = circuit.clone();
                let output = random.index(other.outputs.len());
                let (_, target) = &mut other.outputs[output];
                *target = ring.draw_other(random, *target);
                self.lock = other.lock();
            }
        }
    }

    fn make(&self, compare: &mut Compare, keeper: &mut PzKeeper, store: &mut [u8]) -> (Told, Vec<u8>) {
        let mut first = compare.random.bytes(self.first);
        let told = compare.promise(
            self.kind,
            self.sealer,
            keeper,
            store,
            &self.lock,
            &self.key,
            &self.tape,
            self.work,
            &mut first,
        );
        (told, first)
    }
}

fn drawn_promise(compare: &mut Compare) {
    let (circuit, key) = draw_circuit(&mut compare.random);
    let view = circuit.view_length();
    for _ in 0..6 {
        let sealer = compare.random.one_of(&SEALERS);
        let mut offer = Offer::honest(&mut compare.random, &circuit, &key, sealer);
        loop {
            offer.spoil(&mut compare.random, &circuit);
            if !compare.random.once_in(3) {
                break;
            }
        }
        let view_length = if compare.random.once_in(10) { other_length(&mut compare.random, view) } else { view };
        let store_length = if compare.random.once_in(10) { compare.random.index(3 * view) } else { 3 * view };
        let mut keeper = compare.keeper_new(view_length as u64);
        let mut store = compare.random.bytes(store_length);
        offer.make(compare, &mut keeper, &mut store);
    }
}

/// One keeper through promises, answers and drops, good and bad.
fn drawn_history(compare: &mut Compare) {
    let (circuit, key) = draw_circuit(&mut compare.random);
    let companion = draw_companion(&mut compare.random, &circuit);
    let stranger = draw_circuit(&mut compare.random);
    let view = circuit.view_length();
    let most = (200_000 / (3 * view)).max(2);
    let rounds = compare.random.one_of(&[0, 1, 2, 3, 4, 5, 8, 16, 63, 64, 65, 70]).min(most);
    let view_length = match compare.random.below(12) {
        0 => compare.random.one_of(&[0, 32, 33, view - 1, view + 1, 65_535, 65_536]),
        _ => view,
    } as u64;
    let extra = compare.random.index(3 * view);
    let mut store = compare.random.bytes(3 * view * rounds + extra);
    let mut keeper = compare.keeper_new(view_length);
    // What is behind the records of promised rounds means nothing.
    if compare.random.once_in(3) {
        keeper.records = std::array::from_fn(|_| compare.random.byte());
    }
    let mut promises: Vec<(Circuit, u8, Vec<u8>, Vec<u8>)> = Vec::new();

    let steps = compare.random.within(3, 4 * rounds.min(12) + 10).max(rounds.min(66));
    for _ in 0..steps {
        if compare.random.once_in(14) {
            bad_state(compare, &keeper, &store);
            continue;
        }
        match compare.random.below(if promises.len() < rounds { 4 } else { 9 }) {
            0 | 1 => {
                let (circuit, key) = match compare.random.below(12) {
                    0 => &stranger,
                    1..=3 => &companion,
                    _ => &(circuit.clone(), key.clone()),
                };
                let sealer = compare.random.one_of(&SEALERS);
                let mut offer = Offer::honest(&mut compare.random, circuit, key, sealer);
                let honest = !compare.random.once_in(3);
                if !honest {
                    offer.spoil(&mut compare.random, circuit);
                }
                let (told, first) = offer.make(compare, &mut keeper, &mut store);
                if told.status == DONE {
                    promises.push((circuit.clone(), offer.sealer, offer.lock, first));
                }
            }
            step => {
                let round = match compare.random.below(8) {
                    0 => compare.random.one_of(&[0, promises.len() as u64 + 1, 64, 65, 1 << 32, u64::MAX]),
                    _ => compare.random.within(0, promises.len()) as u64,
                };
                if step == 2 {
                    compare.drop_round(&mut keeper, &mut store, round);
                    continue;
                }
                let pick = match compare.random.below(6) {
                    0 => compare.random.one_of(&[0, 4, 255]),
                    _ => compare.random.within(1, 3) as u8,
                };
                let due = 3 + 2 * view_length.min(100_000) as usize;
                let length = if compare.random.once_in(6) { other_length(&mut compare.random, due) } else { due };
                let mut answer = compare.random.bytes(length);
                let told = compare.answer(&mut keeper, &mut store, round, pick, &mut answer);
                if told.status == DONE {
                    let (circuit, sealer, lock, first) = &promises[round as usize - 1];
                    let work = [circuit.work_length(); 2];
                    let told = compare.verify(circuit.ring.number, *sealer, lock, first, pick, &answer, work);
                    compare.expect("a keeper's answer to be accepted", told.status == DONE);
                }
            }
        }
    }
}

/// A call on a copy of a keeper whose state was spoilt.
fn bad_state(compare: &mut Compare, keeper: &PzKeeper, store: &[u8]) {
    let (mut state, mut store) = (*keeper, store.to_vec());
    let random = &mut compare.random;
    match random.below(4) {
        0 => state.promised = random.one_of(&[state.promised + 1, 64, 65, 1 << 40, u64::MAX]),
        1 => state.records[random.index(64)] = random.one_of(&[0, 1, 2, 3, 4, 255]),
        2 => state.view_length = random.one_of(&[0, 32, 33, 65_535, 65_536, u64::MAX, state.view_length + 1]),
        _ => store.truncate(random.index(store.len() + 1)),
    }
    let round = random.below(keeper.promised + 2);
    let mut answer = random.bytes(3 + 2 * state.view_length.min(70_000) as usize);
    match random.below(3) {
        0 => {
            let (circuit, key) = draw_circuit(random);
            let sealer = random.one_of(&[1, 2, 1, 2, 0]);
            let mut offer = Offer::honest(random, &circuit, &key, sealer);
            offer.spoil(random, &circuit);
            offer.make(compare, &mut state, &mut store);
        }
        1 => {
            compare.answer(&mut state, &mut store, round, 2, &mut answer);
        }
        _ => {
            compare.drop_round(&mut state, &mut store, round);
        }
    }
}

fn drawn_scene(compare: &mut Compare) -> Scene {
    let (circuit, key) = draw_circuit(&mut compare.random);
    let sealer = compare.random.one_of(&SEALERS);
    Scene::promised(compare, circuit, &key, sealer)
}

fn drawn_verify(compare: &mut Compare) {
    let scene = drawn_scene(compare);
    for _ in 0..8 {
        let Scene { mut kind, mut sealer, mut lock, mut first, .. } = scene.clone();
        let random = &mut compare.random;
        let mut pick = random.within(1, 3) as u8;
        let mut answer = scene.answer(pick).to_vec();
        let mut work = scene.work2();
        loop {
            match random.below(20) {
                0 => lock = damaged_lock(random, &scene.circuit),
                1 => pick = random.one_of(&[0, 1, 2, 3, 4, 255]),
                2 => {
                    let i = random.index(2);
                    work[i] = work_length(random, work[i]);
                }
                3 if random.once_in(2) => kind = random.one_of(&[0, 1, 2, 3, 4, 255]),
                4 if random.once_in(2) => sealer = random.one_of(&[0, 1, 2, 3, 255]),
                5..=10 => damage_first(random, &scene.circuit, &mut first),
                _ => damage_answer(random, &scene.circuit, &mut answer),
            }
            if !random.once_in(3) {
                break;
            }
        }
        compare.verify(kind, sealer, &lock, &first, pick, &answer, work);
    }
    let pick = compare.random.within(1, 3) as u8;
    let told = scene.verify(compare, pick);
    compare.expect("an honest answer to be accepted", told.status == DONE);
}

fn drawn_extract(compare: &mut Compare) {
    let scene = drawn_scene(compare);
    scene.expect_honest(compare);
    // Another round of the same key: its answers are good, but not with this first message.
    let key = scene.circuit.ring.numbers(&scene.key);
    let other = Scene::promised(compare, scene.circuit.clone(), &key, scene.sealer);
    for _ in 0..8 {
        let mut spoilt = scene.clone();
        let mut work = scene.work2();
        let mut key = scene.key.len();
        let random = &mut compare.random;
        loop {
            let i = random.index(3);
            match random.below(20) {
                0 => spoilt.lock = damaged_lock(random, &scene.circuit),
                1 => {
                    let j = random.index(2);
                    work[j] = work_length(random, work[j]);
                }
                2 if random.once_in(2) => key = other_length(random, key),
                3 if random.once_in(2) => spoilt.kind = random.one_of(&[0, 1, 2, 3, 4, 255]),
                4 if random.once_in(2) => spoilt.sealer = random.one_of(&[0, 1, 2, 3, 255]),
                5 | 6 => spoilt.answers[i] = other.answers[i].clone(),
                7 => spoilt.first = other.first.clone(),
                8..=10 => damage_first(random, &scene.circuit, &mut spoilt.first),
                _ => damage_answer(random, &scene.circuit, &mut spoilt.answers[i]),
            }
            if !random.once_in(3) {
                break;
            }
        }
        let answers = spoilt.answers.each_ref().map(|answer| &answer[..]);
        compare.extract(spoilt.kind, spoilt.sealer, &spoilt.lock, &spoilt.first, answers, work, key);
    }
}

/// A scene with other views. Of the branches marked in `shares`, the first message tells what a rerun gives; `balance`
/// names the branch (from 0) whose output shares then make up the targets; of those marked in `seals` it has the seals.
fn reseal(scene: &Scene, branches: &Branches, balance: Option<usize>, shares: [bool; 3], seals: [bool; 3]) -> Scene {
    let circuit = &scene.circuit;
    let ring = circuit.ring;
    let mut views = branches.views(ring);
    let rerun = branches.output_shares(circuit);
    let m = circuit.outputs.len();
    let mut told: Vec<u64> = ring.numbers(&scene.first[2..2 + 3 * m * ring.width]);
    for i in 0..3 {
        if shares[i] {
            told[i * m..(i + 1) * m].copy_from_slice(&rerun[i]);
        }
    }
    if let Some(branch) = balance {
        for (output, &(_, target)) in circuit.outputs.iter().enumerate() {
            let others = (0..3).filter(|&i| i != branch).map(|i| told[i * m + output]);
            told[branch * m + output] = ring.add(target, ring.neg(ring.sum(others)));
        }
    }
    let mut first = scene.first[..2].to_vec();
    first.extend(ring.group(&told));
    for i in 0..3 {
        if seals[i] {
            first.extend(digest(scene.sealer, &views[i]));
        } else {
            let at = 2 + 3 * m * ring.width + 32 * i;
            first.extend(&scene.first[at..at + 32]);
        }
    }
    let answers = [1, 2, 3].map(|pick| answer_of(&views, pick));
    let views = std::array::from_fn(|i| std::mem::take(&mut views[i]));
    Scene { first, views, answers, ..scene.clone() }
}

/// Messages of a sender who lies with care: views changed, output shares and seals made to go with them.
fn drawn_forged(compare: &mut Compare) {
    let scene = drawn_scene(compare);
    let ring = scene.circuit.ring;
    for _ in 0..6 {
        let random = &mut compare.random;
        let mut branches = Branches::of(&scene.circuit, &scene.views);
        for _ in 0..random.within(1, 3) {
            let i = random.index(3);
            let part = match random.below(6) {
                0 => &mut branches.shares[i],
                1 | 2 => &mut branches.masks[i],
                3..=5 => &mut branches.products[i],
                _ => unreachable!("a number below 6"),
            };
            if part.is_empty() || random.once_in(8) {
                branches.blinds[i][31] ^= 1;
                continue;
            }
            let at = match random.below(3) {
                0 => part.len() - 1,
                _ => random.index(part.len()),
            };
            part[at] = ring.draw_other(random, part[at]);
        }
        let balance = if random.once_in(5) { None } else { Some(random.index(3)) };
        let shares = [(); 3].map(|()| !random.once_in(5));
        let seals = [(); 3].map(|()| !random.once_in(9));
        let forged = reseal(&scene, &branches, balance, shares, seals);
        for pick in 1..=3 {
            forged.verify(compare, pick);
        }
        forged.extract(compare);
    }

    // Output shares moved from one branch to another: the sums stand, the reruns do not.
    let branches = Branches::of(&scene.circuit, &scene.views);
    let mut moved = reseal(&scene, &branches, None, [true; 3], [true; 3]);
    let random = &mut compare.random;
    let m = scene.circuit.outputs.len();
    let (output, from) = (random.index(m), random.index(3));
    let to = (from + random.within(1, 2)) % 3;
    let shift = 1 + random.below(ring.modulus - 1);
    for (branch, shift) in [(from, ring.neg(shift)), (to, shift)] {
        let at = 2 + (branch * m + output) * ring.width;
        let now = ring.numbers(&moved.first[at..at + ring.width])[0];
        moved.first[at..at + ring.width].copy_from_slice(&ring.row(ring.add(now, shift)));
    }
    for pick in 1..=3 {
        moved.verify(compare, pick);
    }
    moved.extract(compare);

    // A key that does not fit, carried through to the first message, where one branch makes up the targets.
    let key = Circuit::draw_key(&mut compare.random, ring, scene.circuit.inputs);
    let mut other = scene.circuit.clone();
    other.fit(&key);
    let other = Scene::promised(compare, other, &key, scene.sealer);
    let unfit = Scene { circuit: scene.circuit.clone(), lock: scene.lock.clone(), ..other };
    let branches = Branches::of(&unfit.circuit, &unfit.views);
    let balance = if compare.random.once_in(4) { None } else { Some(compare.random.index(3)) };
    let unfit = reseal(&unfit, &branches, balance, [true; 3], [true; 3]);
    for pick in 1..=3 {
        unfit.verify(compare, pick);
    }
    unfit.extract(compare);
}
