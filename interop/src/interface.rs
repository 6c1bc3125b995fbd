//! The C interface: its structures, its calls as a trait, and this engine behind that trait.

use crate::extractor::{Extracted, extract};
use crate::faults;
use crate::keeper::{Keeper, MOST_ROUNDS, Record};
use crate::kinds::{Bit, Kind, Residue, Word};
use crate::lengths::Lengths;
use crate::lock::Lock;
use crate::sealers::{Sealer, Sha3_256, Sha256};
use crate::verifier::verify;

pub const DONE: u8 = 0;
pub const REFUSED: u8 = 1;
pub const NO_KIND: u8 = 2;
pub const NO_SEALER: u8 = 3;
pub const BAD_KEEPER: u8 = 4;

/// `struct pz_fault`: all zero where nothing was refused.
#[repr(C)]
#[derive(Clone, Copy, Debug, Default, PartialEq, Eq)]
pub struct PzFault {
    pub place: u64,
    pub number: u8,
    pub branch: u8,
    pub pick: u8,
}

/// `struct pz_lengths`.
#[repr(C)]
#[derive(Clone, Copy, Debug, Default, PartialEq, Eq)]
pub struct PzLengths {
    pub inputs: u32,
    pub gates: u32,
    pub outputs: u32,
    pub products: u32,
    pub key: u64,
    pub view: u64,
    pub tape: u64,
    pub first: u64,
    pub answer: u64,
    pub work: u64,
}

/// `struct pz_extracted`: branch 0 where the key was written.
#[repr(C)]
#[derive(Clone, Copy, Debug, Default, PartialEq, Eq)]
pub struct PzExtracted {
    pub offset: u64,
    pub branch: u8,
}

/// `struct pz_keeper`: records are 0 promised, 1 answered, 2 dropped.
#[repr(C)]
#[derive(Clone, Copy, Debug, PartialEq, Eq)]
pub struct PzKeeper {
    pub view_length: u64,
    pub promised: u64,
    pub records: [u8; MOST_ROUNDS],
}

const _: () = {
    assert!(size_of::<PzFault>() == 16 && align_of::<PzFault>() == 8);
    assert!(size_of::<PzLengths>() == 64 && align_of::<PzLengths>() == 8);
    assert!(size_of::<PzExtracted>() == 16 && align_of::<PzExtracted>() == 8);
    assert!(size_of::<PzKeeper>() == 80 && align_of::<PzKeeper>() == 8);
};

/// The calls of the C interface over slices. Each tells a status and always writes the fault.
pub trait Engine {
    fn read_lock(&self, kind: u8, sealer: u8, lock: &[u8], out: &mut PzLengths, fault: &mut PzFault) -> u8;

    fn keeper_new(&self, view_length: u64, out: &mut PzKeeper);

    #[allow(clippy::too_many_arguments)]
    fn promise(
        &self,
        kind: u8,
        sealer: u8,
        keeper: &mut PzKeeper,
        store: &mut [u8],
        lock: &[u8],
        key: &[u8],
        tape: &[u8],
        work: [&mut [u8]; 3],
        first: &mut [u8],
        round: &mut u64,
        fault: &mut PzFault,
    ) -> u8;

    fn answer(
        &self,
        keeper: &mut PzKeeper,
        store: &mut [u8],
        round: u64,
        pick: u8,
        answer: &mut [u8],
        fault: &mut PzFault,
    ) -> u8;

    fn drop_round(&self, keeper: &mut PzKeeper, store: &mut [u8], round: u64, fault: &mut PzFault) -> u8;

    #[allow(clippy::too_many_arguments)]
    fn verify(
        &self,
        kind: u8,
        sealer: u8,
        lock: &[u8],
        first: &[u8],
        pick: u8,
        answer: &[u8],
        work: [&mut [u8]; 2],
        fault: &mut PzFault,
    ) -> u8;

    #[allow(clippy::too_many_arguments)]
    fn extract(
        &self,
        kind: u8,
        sealer: u8,
        lock: &[u8],
        first: &[u8],
        answers: [&[u8]; 3],
        work: [&mut [u8]; 2],
        key: &mut [u8],
        out: &mut PzExtracted,
        fault: &mut PzFault,
    ) -> u8;
}

/// The engine of this package.
pub struct Independent;

/// Runs a body with the types that two numbers stand for; a number that stands for none gives its status.
macro_rules! by_numbers {
    ($kind:expr, $sealer:expr, |$K:ident, $S:ident| $body:expr) => {
        match ($kind, $sealer) {
            (1, 1) => {
                type $K = Bit;
                type $S = Sha256;
                $body
            }
            (1, 2) => {
                type $K = Bit;
                type $S = Sha3_256;
                $body
            }
            (2, 1) => {
                type $K = Word;
                type $S = Sha256;
                $body
            }
            (2, 2) => {
                type $K = Word;
                type $S = Sha3_256;
                $body
            }
            (3, 1) => {
                type $K = Residue;
                type $S = Sha256;
                $body
            }
            (3, 2) => {
                type $K = Residue;
                type $S = Sha3_256;
                $body
            }
            (1..=3, _) => Err(Stop::Status(NO_SEALER)),
            _ => Err(Stop::Status(NO_KIND)),
        }
    };
}

/// Why a call was not done.
enum Stop {
    Status(u8),
    Refused(PzFault),
}

impl From<faults::Fault> for Stop {
    fn from(fault: faults::Fault) -> Self {
        Self::Refused(PzFault { place: fault.place, number: fault.reason.number(), branch: fault.branch, pick: 0 })
    }
}

/// Writes the fault and gives the status.
fn conclude(outcome: Result<(), Stop>, fault: &mut PzFault) -> u8 {
    let (status, told) = match outcome {
        Ok(()) => (DONE, PzFault::default()),
        Err(Stop::Status(status)) => (status, PzFault::default()),
        Err(Stop::Refused(told)) => (REFUSED, told),
    };
    *fault = told;
    status
}

fn resume<'s>(state: &PzKeeper, store: &'s mut [u8]) -> Result<Keeper<'s>, Stop> {
    let bad = || Stop::Status(BAD_KEEPER);
    let promised = usize::try_from(state.promised).map_err(|_| bad())?;
    let mut records = [Record::Promised; MOST_ROUNDS];
    let told = state.records.get(..promised).ok_or_else(bad)?;
    for (record, told) in records.iter_mut().zip(told) {
        *record = match told {
            0 => Record::Promised,
            1 => Record::Answered,
            2 => Record::Dropped,
            _ => return Err(bad()),
        };
    }
    // A length that no view has gives a keeper without rounds, as does one that is no size here.
    let view_length = usize::try_from(state.view_length).unwrap_or(usize::MAX);
    Keeper::resume(view_length, store, &records[..promised]).ok_or_else(bad)
}

fn save(keeper: &Keeper, state: &mut PzKeeper) {
    state.promised = keeper.records().len() as u64;
    for (told, record) in state.records.iter_mut().zip(keeper.records()) {
        *told = match record {
            Record::Promised => 0,
            Record::Answered => 1,
            Record::Dropped => 2,
        };
    }
}

fn read_lock<K: Kind, S: Sealer>(bytes: &[u8]) -> Result<PzLengths, faults::Fault> {
    let lock = Lock::<K>::read(bytes)?;
    let lengths = Lengths::of::<K, S>(&lock);
    Ok(PzLengths {
        inputs: lock.inputs() as u32,
        gates: lock.gates() as u32,
        outputs: lock.outputs() as u32,
        products: lock.products() as u32,
        key: lengths.key as u64,
        view: lengths.view as u64,
        tape: lengths.tape as u64,
        first: lengths.first as u64,
        answer: lengths.answer as u64,
        work: lengths.work as u64,
    })
}

impl Engine for Independent {
    fn read_lock(&self, kind: u8, sealer: u8, lock: &[u8], out: &mut PzLengths, fault: &mut PzFault) -> u8 {
        let outcome = by_numbers!(kind, sealer, |K, S| read_lock::<K, S>(lock).map_err(Stop::from));
        conclude(outcome.map(|lengths| *out = lengths), fault)
    }

    fn keeper_new(&self, view_length: u64, out: &mut PzKeeper) {
        *out = PzKeeper { view_length, promised: 0, records: [0; MOST_ROUNDS] };
    }

    fn promise(
        &self,
        kind: u8,
        sealer: u8,
        keeper: &mut PzKeeper,
        store: &mut [u8],
        lock: &[u8],
        key: &[u8],
        tape: &[u8],
        work: [&mut [u8]; 3],
        first: &mut [u8],
        round: &mut u64,
        fault: &mut PzFault,
    ) -> u8 {
        let [work1, work2, work3] = work;
        let outcome = by_numbers!(kind, sealer, |K, S| {
            resume(keeper, store).and_then(|mut resumed| {
                let work = [&mut *work1, &mut *work2, &mut *work3];
                *round = resumed.promise::<K, S>(lock, key, tape, work, first)? as u64;
                save(&resumed, keeper);
                Ok(())
            })
        });
        if let Err(Stop::Status(_)) = outcome {
            // The engine, which leaves the slices clear, was not reached.
            for work in [work1, work2, work3] {
                work.fill(0);
            }
        }
        conclude(outcome, fault)
    }

    fn answer(
        &self,
        keeper: &mut PzKeeper,
        store: &mut [u8],
        round: u64,
        pick: u8,
        answer: &mut [u8],
        fault: &mut PzFault,
    ) -> u8 {
        let outcome = resume(keeper, store).and_then(|mut resumed| {
            resumed.answer(round, pick, answer)?;
            save(&resumed, keeper);
            Ok(())
        });
        conclude(outcome, fault)
    }

    fn drop_round(&self, keeper: &mut PzKeeper, store: &mut [u8], round: u64, fault: &mut PzFault) -> u8 {
        let outcome = resume(keeper, store).and_then(|mut resumed| {
            resumed.drop_round(round)?;
            save(&resumed, keeper);
            Ok(())
        });
        conclude(outcome, fault)
    }

    fn verify(
        &self,
        kind: u8,
        sealer: u8,
        lock: &[u8],
        first: &[u8],
        pick: u8,
        answer: &[u8],
        work: [&mut [u8]; 2],
        fault: &mut PzFault,
    ) -> u8 {
        let [work1, work2] = work;
        let outcome = by_numbers!(kind, sealer, |K, S| {
            verify::<K, S>(lock, first, pick, answer, [&mut *work1, &mut *work2]).map_err(Stop::from)
        });
        if let Err(Stop::Status(_)) = outcome {
            for work in [work1, work2] {
                work.fill(0);
            }
        }
        conclude(outcome, fault)
    }

    fn extract(
        &self,
        kind: u8,
        sealer: u8,
        lock: &[u8],
        first: &[u8],
        answers: [&[u8]; 3],
        work: [&mut [u8]; 2],
        key: &mut [u8],
        out: &mut PzExtracted,
        fault: &mut PzFault,
    ) -> u8 {
        let [work1, work2] = work;
        let outcome = by_numbers!(kind, sealer, |K, S| {
            match extract::<K, S>(lock, first, answers, [&mut *work1, &mut *work2], key) {
                Ok(Extracted::Key) => Ok(PzExtracted { offset: 0, branch: 0 }),
                Ok(Extracted::Differ { branch, offset }) => Ok(PzExtracted { offset: offset as u64, branch }),
                Err(refusal) => Err(match Stop::from(refusal.fault) {
                    Stop::Refused(told) => Stop::Refused(PzFault { pick: refusal.pick, ..told }),
                    stop => stop,
                }),
            }
        });
        if let Err(Stop::Status(_)) = outcome {
            for work in [work1, work2] {
                work.fill(0);
            }
        }
        conclude(outcome.map(|told| *out = told), fault)
    }
}
