//! This engine with one bug planted, to see that the comparison notices it.

use crate::interface::{
    DONE, Engine, Independent, NO_KIND, NO_SEALER, PzExtracted, PzFault, PzKeeper, PzLengths, REFUSED,
};

/// The bugs, each a small departure from the documents.
#[derive(Clone, Copy, Debug, PartialEq, Eq)]
pub enum Bug {
    LengthsWrittenOnRefusal,
    FirstLengthWithoutMark,
    TrailingByteAllowed,
    SealerTestedBeforeKind,
    FaultLeftWithoutKind,
    WorkLeftBehindLeastLength,
    WorkLeftOnUnknownSealer,
    KeyUnfitBehindTape,
    StoreTouchedOnRefusal,
    FirstTouchedOnRefusal,
    RoundWrittenOnRefusal,
    MoreThan64Rounds,
    BadRecordAllowed,
    RecordsCleared,
    PickTestedBeforeRound,
    StoreNotZeroed,
    DropCountsAsAnswer,
    NextRoundZeroedToo,
    OutputNamedFromOne,
    ProductNamedByIndex,
    SecondViewsSealIgnored,
    SealsBranchSwapped,
    WriteBeyondSlice,
    ExtractWithoutPick,
    KeyWrittenOnRefusal,
    ExtractedNotWritten,
    KeeperRecordsNotCleared,
}

pub const BUGS: [Bug; 27] = [
    Bug::LengthsWrittenOnRefusal,
    Bug::FirstLengthWithoutMark,
    Bug::TrailingByteAllowed,
    Bug::SealerTestedBeforeKind,
    Bug::FaultLeftWithoutKind,
    Bug::WorkLeftBehindLeastLength,
    Bug::WorkLeftOnUnknownSealer,
    Bug::KeyUnfitBehindTape,
    Bug::StoreTouchedOnRefusal,
    Bug::FirstTouchedOnRefusal,
    Bug::RoundWrittenOnRefusal,
    Bug::MoreThan64Rounds,
    Bug::BadRecordAllowed,
    Bug::RecordsCleared,
    Bug::PickTestedBeforeRound,
    Bug::StoreNotZeroed,
    Bug::DropCountsAsAnswer,
    Bug::NextRoundZeroedToo,
    Bug::OutputNamedFromOne,
    Bug::ProductNamedByIndex,
    Bug::SecondViewsSealIgnored,
    Bug::SealsBranchSwapped,
    Bug::WriteBeyondSlice,
    Bug::ExtractWithoutPick,
    Bug::KeyWrittenOnRefusal,
    Bug::ExtractedNotWritten,
    Bug::KeeperRecordsNotCleared,
];

pub struct Planted(pub Bug);

impl Planted {
    fn has(&self, bug: Bug) -> bool {
        self.0 == bug
    }

    /// Bugs of all calls that take a kind and a sealer.
    fn numbers(&self, kind: u8, sealer: u8, status: u8, fault: &mut PzFault, before: PzFault) -> u8 {
        if self.has(Bug::FaultLeftWithoutKind) && status == NO_KIND {
            *fault = before;
        }
        if self.has(Bug::SealerTestedBeforeKind) && !(1..=2).contains(&sealer) && kind > 3 {
            return NO_SEALER;
        }
        status
    }

    /// Bugs of all calls with work slices.
    fn work(&self, slice: &mut [u8], least: usize, status: u8) {
        if self.has(Bug::WorkLeftBehindLeastLength) && slice.len() > least && least > 0 {
            slice[least] = 1;
        }
        if self.has(Bug::WorkLeftOnUnknownSealer) && status == NO_SEALER && !slice.is_empty() {
            slice[0] = 1;
        }
        if self.has(Bug::WriteBeyondSlice) && status == DONE && !slice.is_empty() {
            // The comparison gives every slice a margin, so this stays inside of its own memory.
            unsafe { *slice.as_mut_ptr().add(slice.len()) ^= 1 };
        }
    }

    fn verdict(&self, status: u8, fault: &mut PzFault, pick: u8) -> u8 {
        match (self.0, fault.number) {
            (Bug::OutputNamedFromOne, 19) => fault.place += 1,
            (Bug::ProductNamedByIndex, 20) => fault.place = fault.place.saturating_sub(1),
            (Bug::SealsBranchSwapped, 18) => fault.branch = fault.branch % 3 + 1,
            (Bug::SecondViewsSealIgnored, 18) if fault.branch != pick => {
                *fault = PzFault::default();
                return DONE;
            }
            _ => {}
        }
        status
    }
}

impl Engine for Planted {
    fn read_lock(&self, kind: u8, sealer: u8, lock: &[u8], out: &mut PzLengths, fault: &mut PzFault) -> u8 {
        let before = *fault;
        let status = Independent.read_lock(kind, sealer, lock, out, fault);
        if self.has(Bug::LengthsWrittenOnRefusal) && status == REFUSED {
            out.inputs = 0;
        }
        if self.has(Bug::FirstLengthWithoutMark) && status == DONE {
            out.first -= 2;
        }
        if self.has(Bug::TrailingByteAllowed) && fault.number == 6 && fault.place + 1 == lock.len() as u64 {
            return Independent.read_lock(kind, sealer, &lock[..lock.len() - 1], out, fault);
        }
        self.numbers(kind, sealer, status, fault, before)
    }

    fn keeper_new(&self, view_length: u64, out: &mut PzKeeper) {
        let records = out.records;
        Independent.keeper_new(view_length, out);
        if self.has(Bug::KeeperRecordsNotCleared) {
            out.records[63] = records[63];
        }
    }

    fn promise(
        &self,
        kind: u8,
        sealer: u8,
        keeper: &mut PzKeeper,
        store: &mut [u8],
        lock: &[u8],
        key: &[u8],
        tape: &[u8],
        work: [&mut [u8]; 3],
        first: &mut [u8],
        round: &mut u64,
        fault: &mut PzFault,
    ) -> u8 {
        let before = *fault;
        let [work1, work2, work3] = work;
        if self.has(Bug::BadRecordAllowed) {
            for record in &mut keeper.records[..keeper.promised.min(64) as usize] {
                *record = (*record).min(2);
            }
        }
        let mut lengths = PzLengths::default();
        let status = {
            let work = [&mut *work1, &mut *work2, &mut *work3];
            Independent.promise(kind, sealer, keeper, store, lock, key, tape, work, first, round, fault)
        };
        let mut ignored = PzFault::default();
        Independent.read_lock(kind, sealer, lock, &mut lengths, &mut ignored);
        for slice in [work1, work2, work3] {
            self.work(slice, lengths.work as usize, status);
        }
        match (self.0, fault.number) {
            (Bug::KeyUnfitBehindTape, 13) => {
                let elements = &tape[96..];
                let unlawful = match kind {
                    1 => elements.iter().position(|&byte| byte > 1),
                    3 => elements.chunks(4).position(|row| row >= &[0x7f, 0xff, 0xff, 0xff][..]).map(|i| 4 * i),
                    _ => None,
                };
                if let Some(at) = unlawful {
                    *fault = PzFault { number: 14, place: 96 + at as u64, ..PzFault::default() };
                }
            }
            (Bug::StoreTouchedOnRefusal, 14) if !store.is_empty() => store[0] ^= 1,
            (Bug::FirstTouchedOnRefusal, 13) => first[0] = b'F',
            (Bug::RoundWrittenOnRefusal, 11) => *round = 0,
            (Bug::MoreThan64Rounds, 11) if store.len() as u64 >= 65 * 3 * keeper.view_length => fault.place = 65,
            _ => {}
        }
        if self.has(Bug::RecordsCleared) && status == DONE {
            keeper.records[keeper.promised as usize..].fill(0);
        }
        self.numbers(kind, sealer, status, fault, before)
    }

    fn answer(
        &self,
        keeper: &mut PzKeeper,
        store: &mut [u8],
        round: u64,
        pick: u8,
        answer: &mut [u8],
        fault: &mut PzFault,
    ) -> u8 {
        let before = store.to_vec();
        let status = Independent.answer(keeper, store, round, pick, answer, fault);
        if self.has(Bug::PickTestedBeforeRound) && matches!(fault.number, 9 | 10) && !(1..=3).contains(&pick) {
            *fault = PzFault { number: 8, place: pick.into(), ..PzFault::default() };
        }
        if self.has(Bug::StoreNotZeroed) && status == DONE {
            store.copy_from_slice(&before);
        }
        status
    }

    fn drop_round(&self, keeper: &mut PzKeeper, store: &mut [u8], round: u64, fault: &mut PzFault) -> u8 {
        let status = Independent.drop_round(keeper, store, round, fault);
        if status == DONE {
            if self.has(Bug::DropCountsAsAnswer) {
                keeper.records[round as usize - 1] = 1;
            }
            if self.has(Bug::NextRoundZeroedToo) {
                let end = (3 * keeper.view_length * round) as usize;
                if let Some(byte) = store.get_mut(end) {
                    *byte = 0;
                }
            }
        }
        status
    }

    fn verify(
        &self,
        kind: u8,
        sealer: u8,
        lock: &[u8],
        first: &[u8],
        pick: u8,
        answer: &[u8],
        work: [&mut [u8]; 2],
        fault: &mut PzFault,
    ) -> u8 {
        let before = *fault;
        let [work1, work2] = work;
        let status = Independent.verify(kind, sealer, lock, first, pick, answer, [work1, work2], fault);
        let (mut lengths, mut ignored) = (PzLengths::default(), PzFault::default());
        Independent.read_lock(kind, sealer, lock, &mut lengths, &mut ignored);
        self.work(work2, lengths.work as usize, status);
        let status = self.verdict(status, fault, pick);
        self.numbers(kind, sealer, status, fault, before)
    }

    fn extract(
        &self,
        kind: u8,
        sealer: u8,
        lock: &[u8],
        first: &[u8],
        answers: [&[u8]; 3],
        work: [&mut [u8]; 2],
        key: &mut [u8],
        out: &mut PzExtracted,
        fault: &mut PzFault,
    ) -> u8 {
        let (before, out_before) = (*fault, *out);
        let status = Independent.extract(kind, sealer, lock, first, answers, work, key, out, fault);
        if self.has(Bug::ExtractWithoutPick) {
            fault.pick = 0;
        }
        if self.has(Bug::KeyWrittenOnRefusal) && fault.number == 20 {
            key.fill(0);
        }
        if self.has(Bug::ExtractedNotWritten) {
            *out = out_before;
        }
        self.numbers(kind, sealer, status, fault, before)
    }
}
