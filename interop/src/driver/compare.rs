//! Calls made on two engines with the same input, and everything they leave compared.

use std::collections::BTreeMap;
use std::fmt::Debug;

use super::random::Random;
use crate::interface::{DONE, Engine, PzExtracted, PzFault, PzKeeper, PzLengths, REFUSED};

#[derive(Clone, Copy, Debug, PartialEq, Eq, PartialOrd, Ord)]
pub enum Call {
    ReadLock,
    KeeperNew,
    Promise,
    Answer,
    Drop,
    Verify,
    Extract,
}

impl Call {
    pub const fn name(self) -> &'static str {
        match self {
            Self::ReadLock => "read_lock",
            Self::KeeperNew => "keeper_new",
            Self::Promise => "promise",
            Self::Answer => "answer",
            Self::Drop => "drop",
            Self::Verify => "verify",
            Self::Extract => "extract",
        }
    }
}

/// What is counted of a call: the status, the fault's number, its place where that is told by a number of its own
/// (fault 7 and the header's fields of fault 3), its branch and the pick beside it.
#[derive(Clone, Copy, Debug, PartialEq, Eq, PartialOrd, Ord)]
pub struct Outcome {
    pub call: Call,
    pub status: u8,
    pub number: u8,
    pub place: u64,
    pub branch: u8,
    pub pick: u8,
}

/// A call's status and fault as the first engine told them.
#[derive(Clone, Copy, Debug, PartialEq, Eq)]
pub struct Told {
    pub status: u8,
    pub fault: PzFault,
}

/// A buffer with random bytes before and behind it, at any alignment.
#[derive(Clone)]
struct Guarded {
    bytes: Vec<u8>,
    start: usize,
    length: usize,
}

impl Guarded {
    fn new(random: &mut Random, contents: &[u8]) -> Self {
        let start = 16 + random.index(16);
        let mut bytes = Vec::with_capacity(start + contents.len() + 16);
        bytes.extend(random.bytes(start));
        bytes.extend(contents);
        bytes.extend(random.bytes(16));
        Self { bytes, start, length: contents.len() }
    }

    fn random(random: &mut Random, length: usize) -> Self {
        let contents = random.bytes(length);
        Self::new(random, &contents)
    }

    fn slice(&self) -> &[u8] {
        &self.bytes[self.start..][..self.length]
    }

    fn slice_mut(&mut self) -> &mut [u8] {
        &mut self.bytes[self.start..][..self.length]
    }

    /// Whether what lies around the buffer is as it was.
    fn guards_stand(&self, before: &Self) -> bool {
        let end = self.start + self.length;
        self.bytes[..self.start] == before.bytes[..self.start] && self.bytes[end..] == before.bytes[end..]
    }
}

/// One call's differences.
#[derive(Default)]
struct Verdict(Vec<String>);

impl Verdict {
    fn same<T: PartialEq + Debug>(&mut self, what: &str, ours: &T, theirs: &T) {
        if ours != theirs {
            self.0.push(format!("{what}: {ours:?} here, {theirs:?} there"));
        }
    }

    /// Bytes that are to be equal in both engines, with their guards.
    fn bytes(&mut self, what: &str, before: &Guarded, ours: &Guarded, theirs: &Guarded) {
        let (a, b) = (ours.slice(), theirs.slice());
        if a != b {
            let at = a.iter().zip(b).take_while(|(a, b)| a == b).count();
            let end = (at + 16).min(a.len());
            self.0.push(format!(
                "{what} ({} bytes) differs from offset {at}: {:02x?} here, {:02x?} there",
                a.len(),
                &a[at..end],
                &b[at..end]
            ));
        }
        for (who, after) in [("here", ours), ("there", theirs)] {
            if !after.guards_stand(before) {
                self.0.push(format!("{what}: written outside of the buffer {who}"));
            }
        }
    }

    /// A buffer that is only read.
    fn read_only(&mut self, what: &str, before: &[u8], after: &[u8]) {
        if before != after {
            self.0.push(format!("{what}: changed, though it is only read"));
        }
    }

    /// A slice that is to be zero in both engines.
    fn zero(&mut self, what: &str, before: &Guarded, ours: &Guarded, theirs: &Guarded) {
        for (who, after) in [("here", ours), ("there", theirs)] {
            if let Some(at) = after.slice().iter().position(|&byte| byte != 0) {
                self.0.push(format!("{what} ({} bytes): not zero {who} at offset {at}", after.slice().len()));
            }
            if !after.guards_stand(before) {
                self.0.push(format!("{what}: written outside of the slice {who}"));
            }
        }
    }

    /// What must be as it was unless the call was done.
    fn kept<T: PartialEq + ?Sized>(&mut self, what: &str, told: Told, before: &T, after: &T) {
        if told.status != DONE && before != after {
            self.0.push(format!("{what}: changed by a call that was not done"));
        }
    }
}

/// Two engines, what they have been compared on so far, and where the drawing stands.
pub struct Compare<'e> {
    ours: &'e dyn Engine,
    theirs: &'e dyn Engine,
    pub random: Random,
    seed: u64,
    case: u64,
    call: u64,
    /// Whether each call is told.
    pub tell: bool,
    pub counts: BTreeMap<Outcome, u64>,
    pub accepted: BTreeMap<(Call, u8, u8), u64>,
    pub passed: u64,
    pub failed: u64,
    /// What differed, with the seed and the case.
    pub failures: Vec<String>,
    /// Stop at the first failure.
    pub stop: bool,
}

impl<'e> Compare<'e> {
    pub fn new(ours: &'e dyn Engine, theirs: &'e dyn Engine, seed: u64) -> Self {
        Self {
            ours,
            theirs,
            random: Random::new(seed, 0),
            seed,
            case: 0,
            call: 0,
            tell: false,
            counts: BTreeMap::new(),
            accepted: BTreeMap::new(),
            passed: 0,
            failed: 0,
            failures: Vec::new(),
            stop: false,
        }
    }

    /// Starts a case; what it draws depends on the seed and its number only.
    pub fn start(&mut self, case: u64) {
        self.random = Random::new(self.seed, case + 1);
        self.case = case;
        self.call = 0;
    }

    pub fn done(&self) -> bool {
        self.stop && self.failed > 0
    }

    fn conclude(&mut self, call: Call, kind: u8, sealer: u8, told: Told, verdict: Verdict) -> Told {
        self.call += 1;
        let fault = told.fault;
        let place = match fault.number {
            7 => fault.place,
            3 if fault.place < 15 => fault.place,
            3 => 15,
            _ => 0,
        };
        let outcome =
            Outcome { call, status: told.status, number: fault.number, place, branch: fault.branch, pick: fault.pick };
        *self.counts.entry(outcome).or_default() += 1;
        if told.status == DONE {
            *self.accepted.entry((call, kind, sealer)).or_default() += 1;
        }
        if self.tell {
            println!(
                "  call {} {} kind {kind} sealer {sealer}: status {} fault {} branch {} place {} pick {}",
                self.call,
                call.name(),
                told.status,
                fault.number,
                fault.branch,
                fault.place,
                fault.pick
            );
        }
        if verdict.0.is_empty() {
            self.passed += 1;
        } else {
            self.failed += 1;
            for difference in &verdict.0 {
                self.failures.push(format!(
                    "seed {} case {} call {} ({} kind {kind} sealer {sealer}): {difference}",
                    self.seed,
                    self.case,
                    self.call,
                    call.name()
                ));
            }
        }
        told
    }

    fn draw_fault(&mut self) -> PzFault {
        let n = self.random.next_u64();
        PzFault { place: self.random.next_u64(), number: n as u8, branch: (n >> 8) as u8, pick: (n >> 16) as u8 }
    }

    fn judge_status(verdict: &mut Verdict, ours: (u8, PzFault), theirs: (u8, PzFault)) -> Told {
        verdict.same("status", &ours.0, &theirs.0);
        verdict.same("fault", &ours.1, &theirs.1);
        for (who, (status, fault)) in [("here", ours), ("there", theirs)] {
            if (status == REFUSED) != (fault != PzFault::default()) {
                verdict.0.push(format!("status {status} beside fault {fault:?} {who}"));
            }
        }
        Told { status: ours.0, fault: ours.1 }
    }

    pub fn read_lock(&mut self, kind: u8, sealer: u8, lock: &[u8]) -> Told {
        let lock_in = Guarded::new(&mut self.random, lock);
        let mut draw = || self.random.next_u64();
        let before = PzLengths {
            inputs: draw() as u32,
            gates: draw() as u32,
            outputs: draw() as u32,
            products: draw() as u32,
            key: draw(),
            view: draw(),
            tape: draw(),
            first: draw(),
            answer: draw(),
            work: draw(),
        };
        let fault = self.draw_fault();
        let (mut out1, mut out2, mut fault1, mut fault2) = (before, before, fault, fault);
        let status1 = self.ours.read_lock(kind, sealer, lock_in.slice(), &mut out1, &mut fault1);
        let status2 = self.theirs.read_lock(kind, sealer, lock_in.slice(), &mut out2, &mut fault2);

        let mut verdict = Verdict::default();
        let told = Self::judge_status(&mut verdict, (status1, fault1), (status2, fault2));
        verdict.same("lengths", &out1, &out2);
        verdict.kept("lengths", told, &before, &out1);
        verdict.read_only("lock", lock, lock_in.slice());
        self.conclude(Call::ReadLock, kind, sealer, told, verdict)
    }

    pub fn keeper_new(&mut self, view_length: u64) -> PzKeeper {
        let mut out1 = PzKeeper {
            view_length: self.random.next_u64(),
            promised: self.random.next_u64(),
            records: std::array::from_fn(|_| self.random.byte()),
        };
        let mut out2 = out1;
        self.ours.keeper_new(view_length, &mut out1);
        self.theirs.keeper_new(view_length, &mut out2);
        let mut verdict = Verdict::default();
        verdict.same("keeper", &out1, &out2);
        self.conclude(Call::KeeperNew, 0, 0, Told { status: DONE, fault: PzFault::default() }, verdict);
        out1
    }

    /// A promise; keeper, store and first message are those of the first engine afterwards.
    #[allow(clippy::too_many_arguments)]
    pub fn promise(
        &mut self,
        kind: u8,
        sealer: u8,
        keeper: &mut PzKeeper,
        store: &mut [u8],
        lock: &[u8],
        key: &[u8],
        tape: &[u8],
        work: [usize; 3],
        first: &mut [u8],
    ) -> Told {
        let random = &mut self.random;
        let [lock_in, key_in, tape_in] = [lock, key, tape].map(|bytes| Guarded::new(random, bytes));
        let works = work.map(|length| Guarded::random(random, length));
        let store_before = Guarded::new(random, store);
        let first_before = Guarded::new(random, first);
        let round = random.next_u64();
        let fault = self.draw_fault();

        let run = |engine: &dyn Engine| {
            let (mut keeper, mut store, mut works) = (*keeper, store_before.clone(), works.clone());
            let (mut first, mut round, mut fault) = (first_before.clone(), round, fault);
            let status = engine.promise(
                kind,
                sealer,
                &mut keeper,
                store.slice_mut(),
                lock_in.slice(),
                key_in.slice(),
                tape_in.slice(),
                works.each_mut().map(|work| work.slice_mut()),
                first.slice_mut(),
                &mut round,
                &mut fault,
            );
            (status, fault, keeper, store, works, first, round)
        };
        let ours = run(self.ours);
        let theirs = run(self.theirs);

        let mut verdict = Verdict::default();
        let told = Self::judge_status(&mut verdict, (ours.0, ours.1), (theirs.0, theirs.1));
        verdict.same("keeper", &ours.2, &theirs.2);
        verdict.kept("keeper", told, keeper, &ours.2);
        verdict.bytes("store", &store_before, &ours.3, &theirs.3);
        verdict.kept("store", told, &*store, ours.3.slice());
        for (i, before) in works.iter().enumerate() {
            verdict.zero(["work 1", "work 2", "work 3"][i], before, &ours.4[i], &theirs.4[i]);
        }
        verdict.bytes("first message", &first_before, &ours.5, &theirs.5);
        verdict.kept("first message", told, &*first, ours.5.slice());
        verdict.same("round", &ours.6, &theirs.6);
        verdict.kept("round", told, &round, &ours.6);
        verdict.read_only("lock", lock, lock_in.slice());
        verdict.read_only("key", key, key_in.slice());
        verdict.read_only("tape", tape, tape_in.slice());
        *keeper = ours.2;
        store.copy_from_slice(ours.3.slice());
        first.copy_from_slice(ours.5.slice());
        self.conclude(Call::Promise, kind, sealer, told, verdict)
    }

    /// An answer; keeper, store and answer are those of the first engine afterwards.
    pub fn answer(&mut self, keeper: &mut PzKeeper, store: &mut [u8], round: u64, pick: u8, answer: &mut [u8]) -> Told {
        let store_before = Guarded::new(&mut self.random, store);
        let answer_before = Guarded::new(&mut self.random, answer);
        let fault = self.draw_fault();
        let run = |engine: &dyn Engine| {
            let (mut keeper, mut store, mut answer, mut fault) =
                (*keeper, store_before.clone(), answer_before.clone(), fault);
            let status = engine.answer(&mut keeper, store.slice_mut(), round, pick, answer.slice_mut(), &mut fault);
            (status, fault, keeper, store, answer)
        };
        let ours = run(self.ours);
        let theirs = run(self.theirs);

        let mut verdict = Verdict::default();
        let told = Self::judge_status(&mut verdict, (ours.0, ours.1), (theirs.0, theirs.1));
        verdict.same("keeper", &ours.2, &theirs.2);
        verdict.kept("keeper", told, keeper, &ours.2);
        verdict.bytes("store", &store_before, &ours.3, &theirs.3);
        verdict.kept("store", told, &*store, ours.3.slice());
        verdict.bytes("answer", &answer_before, &ours.4, &theirs.4);
        verdict.kept("answer", told, &*answer, ours.4.slice());
        *keeper = ours.2;
        store.copy_from_slice(ours.3.slice());
        answer.copy_from_slice(ours.4.slice());
        self.conclude(Call::Answer, 0, 0, told, verdict)
    }

    /// A drop; keeper and store are those of the first engine afterwards.
    pub fn drop_round(&mut self, keeper: &mut PzKeeper, store: &mut [u8], round: u64) -> Told {
        let store_before = Guarded::new(&mut self.random, store);
        let fault = self.draw_fault();
        let run = |engine: &dyn Engine| {
            let (mut keeper, mut store, mut fault) = (*keeper, store_before.clone(), fault);
            let status = engine.drop_round(&mut keeper, store.slice_mut(), round, &mut fault);
            (status, fault, keeper, store)
        };
        let ours = run(self.ours);
        let theirs = run(self.theirs);

        let mut verdict = Verdict::default();
        let told = Self::judge_status(&mut verdict, (ours.0, ours.1), (theirs.0, theirs.1));
        verdict.same("keeper", &ours.2, &theirs.2);
        verdict.kept("keeper", told, keeper, &ours.2);
        verdict.bytes("store", &store_before, &ours.3, &theirs.3);
        verdict.kept("store", told, &*store, ours.3.slice());
        *keeper = ours.2;
        store.copy_from_slice(ours.3.slice());
        self.conclude(Call::Drop, 0, 0, told, verdict)
    }

    #[allow(clippy::too_many_arguments)]
    pub fn verify(
        &mut self,
        kind: u8,
        sealer: u8,
        lock: &[u8],
        first: &[u8],
        pick: u8,
        answer: &[u8],
        work: [usize; 2],
    ) -> Told {
        let random = &mut self.random;
        let [lock_in, first_in, answer_in] = [lock, first, answer].map(|bytes| Guarded::new(random, bytes));
        let works = work.map(|length| Guarded::random(random, length));
        let fault = self.draw_fault();
        let run = |engine: &dyn Engine| {
            let (mut works, mut fault) = (works.clone(), fault);
            let status = engine.verify(
                kind,
                sealer,
                lock_in.slice(),
                first_in.slice(),
                pick,
                answer_in.slice(),
                works.each_mut().map(|work| work.slice_mut()),
                &mut fault,
            );
            (status, fault, works)
        };
        let ours = run(self.ours);
        let theirs = run(self.theirs);

        let mut verdict = Verdict::default();
        let told = Self::judge_status(&mut verdict, (ours.0, ours.1), (theirs.0, theirs.1));
        for (i, before) in works.iter().enumerate() {
            verdict.zero(["work 1", "work 2"][i], before, &ours.2[i], &theirs.2[i]);
        }
        verdict.read_only("lock", lock, lock_in.slice());
        verdict.read_only("first message", first, first_in.slice());
        verdict.read_only("answer", answer, answer_in.slice());
        self.conclude(Call::Verify, kind, sealer, told, verdict)
    }

    /// An extraction; tells also what the key buffer holds afterwards.
    #[allow(clippy::too_many_arguments)]
    pub fn extract(
        &mut self,
        kind: u8,
        sealer: u8,
        lock: &[u8],
        first: &[u8],
        answers: [&[u8]; 3],
        work: [usize; 2],
        key: usize,
    ) -> (Told, Vec<u8>) {
        let random = &mut self.random;
        let [lock_in, first_in] = [lock, first].map(|bytes| Guarded::new(random, bytes));
        let answers_in = answers.map(|bytes| Guarded::new(random, bytes));
        let works = work.map(|length| Guarded::random(random, length));
        let key_before = Guarded::random(random, key);
        let out = PzExtracted { offset: random.next_u64(), branch: random.byte() };
        let fault = self.draw_fault();
        let run = |engine: &dyn Engine| {
            let (mut works, mut key, mut out, mut fault) = (works.clone(), key_before.clone(), out, fault);
            let status = engine.extract(
                kind,
                sealer,
                lock_in.slice(),
                first_in.slice(),
                answers_in.each_ref().map(|answer| answer.slice()),
                works.each_mut().map(|work| work.slice_mut()),
                key.slice_mut(),
                &mut out,
                &mut fault,
            );
            (status, fault, works, key, out)
        };
        let ours = run(self.ours);
        let theirs = run(self.theirs);

        let mut verdict = Verdict::default();
        let told = Self::judge_status(&mut verdict, (ours.0, ours.1), (theirs.0, theirs.1));
        for (i, before) in works.iter().enumerate() {
            verdict.zero(["work 1", "work 2"][i], before, &ours.2[i], &theirs.2[i]);
        }
        verdict.bytes("key", &key_before, &ours.3, &theirs.3);
        verdict.kept("key", told, key_before.slice(), ours.3.slice());
        verdict.same("extracted", &ours.4, &theirs.4);
        verdict.kept("extracted", told, &out, &ours.4);
        verdict.read_only("lock", lock, lock_in.slice());
        verdict.read_only("first message", first, first_in.slice());
        for (before, after) in answers.iter().zip(&answers_in) {
            verdict.read_only("answer", before, after.slice());
        }
        (self.conclude(Call::Extract, kind, sealer, told, verdict), ours.3.slice().to_vec())
    }

    /// Something that must hold of the first engine's outcome in this case, whatever the other says.
    pub fn expect(&mut self, what: &str, holds: bool) {
        if holds {
            self.passed += 1;
        } else {
            self.failed += 1;
            self.failures.push(format!("seed {} case {} call {}: expected {what}", self.seed, self.case, self.call));
        }
    }
}
