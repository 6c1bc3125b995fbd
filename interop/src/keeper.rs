//! The side that has the key: it promises rounds, and answers or drops each of them once.

use crate::faults::{Fault, Reason, check_sizes};
use crate::kinds::Kind;
use crate::lengths::{BLIND, LONGEST_VIEW, Lengths, answer_length};
use crate::lock::{Gate, Lock};
use crate::messages::{ANSWER_MARK, ANSWER_VIEWS, FIRST_MARK, FIRST_SHARES, next};
use crate::sealers::Sealer;

/// The most rounds that a keeper has.
pub const MOST_ROUNDS: usize = 64;

/// What became of a round.
#[derive(Clone, Copy, Debug, PartialEq, Eq)]
pub enum Record {
    Promised,
    Answered,
    Dropped,
}

/// A keeper over a store that holds the three views of each round.
#[derive(Debug)]
pub struct Keeper<'s> {
    view_length: usize,
    store: &'s mut [u8],
    rounds: usize,
    promised: usize,
    records: [Record; MOST_ROUNDS],
}

impl<'s> Keeper<'s> {
    /// A keeper that has promised nothing. Never refuses, but over a store that is too small, or with a length
    /// that no view has, it has no rounds.
    pub fn make(view_length: usize, store: &'s mut [u8]) -> Self {
        let rounds = match view_length {
            33..=LONGEST_VIEW => MOST_ROUNDS.min(store.len() / (3 * view_length)),
            _ => 0,
        };
        Self { view_length, store, rounds, promised: 0, records: [Record::Promised; MOST_ROUNDS] }
    }

    /// A keeper that has promised some rounds before, with what became of them. None if it cannot have.
    pub fn resume(view_length: usize, store: &'s mut [u8], records: &[Record]) -> Option<Self> {
        let mut keeper = Self::make(view_length, store);
        if records.len() > keeper.rounds {
            return None;
        }
        keeper.promised = records.len();
        keeper.records[..records.len()].copy_from_slice(records);
        Some(keeper)
    }

    pub fn rounds(&self) -> usize {
        self.rounds
    }

    /// What became of the rounds promised so far, from round 1 on.
    pub fn records(&self) -> &[Record] {
        &self.records[..self.promised]
    }

    /// Shares the key out to three branches, runs them, and keeps their views as a new round, whose number it tells.
    pub fn promise<K: Kind, S: Sealer>(
        &mut self,
        lock: &[u8],
        key: &[u8],
        tape: &[u8],
        work: [&mut [u8]; 3],
        first: &mut [u8],
    ) -> Result<usize, Fault> {
        let [work1, work2, work3] = work;
        let outcome = self.promise_in::<K, S>(lock, key, tape, [work1, work2, work3], first);
        work1.fill(0);
        work2.fill(0);
        work3.fill(0);
        outcome
    }

    fn promise_in<K: Kind, S: Sealer>(
        &mut self,
        lock: &[u8],
        key: &[u8],
        tape: &[u8],
        [work1, work2, work3]: [&mut [u8]; 3],
        first: &mut [u8],
    ) -> Result<usize, Fault> {
        let lock = &Lock::<K>::read(lock)?;
        let lengths = Lengths::of::<K, S>(lock);
        if lengths.view > S::LONGEST {
            return Err(Fault::at(Reason::WrongSize, 0));
        }
        check_sizes([
            key.len() == lengths.key,
            tape.len() == lengths.tape,
            work1.len() >= lengths.work,
            work2.len() >= lengths.work,
            work3.len() >= lengths.work,
            first.len() == lengths.first,
            self.view_length == lengths.view,
        ])?;
        if self.promised == self.rounds {
            return Err(Fault::at(Reason::KeeperFull, self.rounds));
        }

        let mut wires = [work1, work2, work3].map(|work| K::rows_mut(&mut work[..lengths.work]));
        let key = K::rows(key);
        if let Some(index) = K::first_unlawful(key) {
            return Err(Fault::at(Reason::UnlawfulKey, index));
        }
        check_fit(lock, key, wires[0])?;
        let (blinds, elements) = tape.split_at(3 * BLIND);
        let elements = K::rows(elements);
        if let Some(index) = K::first_unlawful(elements) {
            return Err(Fault::at(Reason::UnlawfulTape, 3 * BLIND + index * K::WIDTH));
        }

        // Nothing is refused from here on.
        let (k, m) = (lock.inputs(), lock.products());
        let (shares1, elements) = elements.split_at(k);
        let (shares2, elements) = elements.split_at(k);
        let (masks1, elements) = elements.split_at(m);
        let (masks2, masks3) = elements.split_at(m);

        wires[0][..k].copy_from_slice(shares1);
        wires[1][..k].copy_from_slice(shares2);
        for (share, ((&whole, &one), &two)) in wires[2].iter_mut().zip(key.iter().zip(shares1).zip(shares2)) {
            let rest = K::sub(K::decode(whole), K::decode(one));
            *share = K::encode(K::sub(rest, K::decode(two)));
        }

        let round = &mut self.store[3 * lengths.view * self.promised..][..3 * lengths.view];
        let (view1, rest) = round.split_at_mut(lengths.view);
        let (view2, view3) = rest.split_at_mut(lengths.view);
        let masks = [masks1, masks2, masks3];
        let mut views = [view1, view2, view3];
        let mut branch = 0;
        let products = views.each_mut().map(|view| {
            let (blind, elements) = view.split_at_mut(BLIND);
            blind.copy_from_slice(&blinds[branch * BLIND..][..BLIND]);
            let (shares, elements) = K::rows_mut(elements).split_at_mut(k);
            shares.copy_from_slice(&wires[branch][..k]);
            let (own_masks, products) = elements.split_at_mut(m);
            own_masks.copy_from_slice(masks[branch]);
            branch += 1;
            products
        });
        run(lock, masks, wires.each_mut().map(|wires| &mut **wires), products);

        let (mark, rest) = first.split_at_mut(FIRST_SHARES);
        mark.copy_from_slice(FIRST_MARK);
        let (shares, seals) = rest.split_at_mut(3 * lock.outputs() * K::WIDTH);
        for (shares, wires) in K::rows_mut(shares).chunks_exact_mut(lock.outputs()).zip(&wires) {
            for (share, (wire, _)) in shares.iter_mut().zip(lock.each_output()) {
                *share = wires[wire];
            }
        }
        for (seal, view) in seals.chunks_exact_mut(S::LENGTH).zip(views) {
            S::digest(view, seal);
        }

        self.records[self.promised] = Record::Promised;
        self.promised += 1;
        Ok(self.promised)
    }

    /// Opens the views of the picked branch and of the one after it, and forgets the round.
    pub fn answer(&mut self, round: u64, pick: u8, answer: &mut [u8]) -> Result<(), Fault> {
        let index = self.open_round(round)?;
        if !(1..=3).contains(&pick) {
            return Err(Fault::at(Reason::WrongPick, pick.into()));
        }
        check_sizes([answer.len() == answer_length(self.view_length)])?;

        let views = self.views(index);
        let view = |branch: u8| &views[usize::from(branch - 1) * views.len() / 3..][..views.len() / 3];
        let (head, opened) = answer.split_at_mut(ANSWER_VIEWS);
        head[..2].copy_from_slice(ANSWER_MARK);
        head[2] = pick;
        let (own, after) = opened.split_at_mut(view(pick).len());
        own.copy_from_slice(view(pick));
        after.copy_from_slice(view(next(pick)));
        self.close_round(index, Record::Answered);
        Ok(())
    }

    /// Forgets a round without an answer.
    pub fn drop_round(&mut self, round: u64) -> Result<(), Fault> {
        let index = self.open_round(round)?;
        self.close_round(index, Record::Dropped);
        Ok(())
    }

    /// The index of a round that is neither answered nor dropped.
    fn open_round(&self, round: u64) -> Result<usize, Fault> {
        let fault = |reason| Err(Fault { reason, branch: 0, place: round });
        if !(1..=self.promised as u64).contains(&round) {
            return fault(Reason::UnknownRound);
        }
        let index = (round - 1) as usize;
        match self.records[index] {
            Record::Promised => Ok(index),
            Record::Answered | Record::Dropped => fault(Reason::SpentRound),
        }
    }

    fn views(&mut self, index: usize) -> &mut [u8] {
        let length = 3 * self.view_length;
        &mut self.store[index * length..][..length]
    }

    fn close_round(&mut self, index: usize, record: Record) {
        self.views(index).fill(0);
        self.records[index] = record;
    }
}

/// The plain run on the key itself.
fn check_fit<K: Kind>(lock: &Lock<K>, key: &[K::Row], wires: &mut [K::Row]) -> Result<(), Fault> {
    wires[..key.len()].copy_from_slice(key);
    for (wire, gate) in (lock.inputs()..wires.len()).zip(lock.each_gate()) {
        let at = |wire: usize| K::decode(wires[wire]);
        let value = match gate {
            Gate::AddConstant(a, c) => K::add(at(a), c),
            Gate::MulConstant(a, c) => K::mul(c, at(a)),
            Gate::Add(a, b) => K::add(at(a), at(b)),
            Gate::Mul(a, b) => K::mul(at(a), at(b)),
        };
        wires[wire] = K::encode(value);
    }
    match lock.each_output().position(|(wire, target)| wires[wire] != target) {
        None => Ok(()),
        Some(output) => Err(Fault::at(Reason::KeyDoesNotFit, output)),
    }
}

/// Runs the three branches together, from their shares on the input wires.
fn run<K: Kind>(lock: &Lock<K>, masks: [&[K::Row]; 3], wires: [&mut [K::Row]; 3], products: [&mut [K::Row]; 3]) {
    let [wires1, wires2, wires3] = wires;
    let mut masks = masks[0].iter().zip(masks[1]).zip(masks[2]);
    let [products1, products2, products3] = products;
    let mut products = products1.iter_mut().zip(products2).zip(products3);

    for (wire, gate) in (lock.inputs()..lock.wires()).zip(lock.each_gate()) {
        let rows = |wire: usize| [wires1[wire], wires2[wire], wires3[wire]];
        let at = |wire: usize| rows(wire).map(K::decode);
        let new = match gate {
            Gate::AddConstant(a, c) => {
                let [x1, x2, x3] = rows(a);
                [K::encode(K::add(K::decode(x1), c)), x2, x3]
            }
            Gate::MulConstant(a, c) => at(a).map(|x| K::encode(K::mul(c, x))),
            Gate::Add(a, b) => {
                let ([x1, x2, x3], [y1, y2, y3]) = (at(a), at(b));
                [K::add(x1, y1), K::add(x2, y2), K::add(x3, y3)].map(K::encode)
            }
            Gate::Mul(a, b) => {
                let ([x1, x2, x3], [y1, y2, y3]) = (at(a), at(b));
                let (((r1, r2), r3), ((p1, p2), p3)) =
                    masks.next().zip(products.next()).expect("a mask and a place for each product");
                let one = [x1, y1, K::decode(*r1)];
                let two = [x2, y2, K::decode(*r2)];
                let three = [x3, y3, K::decode(*r3)];
                let new = [K::product_share(one, two), K::product_share(two, three), K::product_share(three, one)]
                    .map(K::encode);
                [*p1, *p2, *p3] = new;
                new
            }
        };
        [wires1[wire], wires2[wire], wires3[wire]] = new;
    }
}
