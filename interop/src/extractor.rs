//! What three answers to one first message give away: the key.

use crate::faults::{Fault, Reason, check_sizes};
use crate::kinds::Kind;
use crate::lengths::Lengths;
use crate::lock::Lock;
use crate::messages::{View, next, views_of};
use crate::sealers::Sealer;
use crate::verifier::{check_answer, check_first, check_runs, check_seal, check_targets};

/// What was found in three answers that are each accepted.
#[derive(Clone, Copy, Debug, PartialEq, Eq)]
pub enum Extracted {
    /// The key, which was written.
    Key,
    /// Two different views with one seal: the lowest such branch, and where its copies differ first.
    Differ { branch: u8, offset: usize },
}

/// Verify's fault for the answer to a pick; the pick is 0 if the fault was found before any answer was looked at.
#[derive(Clone, Copy, Debug, PartialEq, Eq)]
pub struct ExtractFault {
    pub pick: u8,
    pub fault: Fault,
}

impl From<Fault> for ExtractFault {
    fn from(fault: Fault) -> Self {
        Self { pick: 0, fault }
    }
}

/// Takes the key out of the answers to picks 1, 2 and 3.
pub fn extract<K: Kind, S: Sealer>(
    lock: &[u8],
    first: &[u8],
    answers: [&[u8]; 3],
    work: [&mut [u8]; 2],
    key: &mut [u8],
) -> Result<Extracted, ExtractFault> {
    let [work1, work2] = work;
    let outcome = extract_in::<K, S>(lock, first, answers, [work1, work2], key);
    work1.fill(0);
    work2.fill(0);
    outcome
}

fn extract_in<K: Kind, S: Sealer>(
    lock: &[u8],
    first: &[u8],
    answers: [&[u8]; 3],
    [work1, work2]: [&mut [u8]; 2],
    key: &mut [u8],
) -> Result<Extracted, ExtractFault> {
    let lock = &Lock::<K>::read(lock)?;
    let lengths = Lengths::of::<K, S>(lock);
    if lengths.view > S::LONGEST {
        return Err(Fault::at(Reason::WrongSize, 0).into());
    }
    check_sizes([
        first.len() == lengths.first,
        answers[0].len() == lengths.answer,
        answers[1].len() == lengths.answer,
        answers[2].len() == lengths.answer,
        work1.len() >= lengths.work,
        work2.len() >= lengths.work,
        key.len() == lengths.key,
    ])?;

    // The two copies of each branch's view: in the answer to the branch, and in the one to the branch before.
    let [[own1, after2], [own2, after3], [own3, after1]] = answers.map(|answer| views_of::<K>(answer, lock));
    let copies = [[&own1, &after1], [&own2, &after2], [&own3, &after3]];
    for pick in 1..=3 {
        check_pick::<K, S>(lock, first, pick, answers, copies, [work1, work2])
            .map_err(|fault| ExtractFault { pick, fault })?;
    }

    for (branch, [own, after]) in (1..).zip(copies) {
        if own.bytes != after.bytes {
            let pairs = own.bytes.iter().zip(after.bytes);
            let offset = pairs.take_while(|(a, b)| a == b).count();
            return Ok(Extracted::Differ { branch, offset });
        }
    }
    let shares = own1.shares.iter().zip(own2.shares).zip(own3.shares);
    for (element, ((&one, &two), &three)) in K::rows_mut(key).iter_mut().zip(shares) {
        let sum = K::add(K::add(K::decode(one), K::decode(two)), K::decode(three));
        *element = K::encode(sum);
    }
    Ok(Extracted::Key)
}

/// Verify's tests 15 to 20, less what the picks before have settled.
fn check_pick<K: Kind, S: Sealer>(
    lock: &Lock<K>,
    first: &[u8],
    pick: u8,
    answers: [&[u8]; 3],
    copies: [[&View<K>; 2]; 3],
    [work1, work2]: [&mut [u8]; 2],
) -> Result<(), Fault> {
    if pick == 1 {
        check_first(lock, first)?;
    }
    check_answer(lock, pick, answers[usize::from(pick - 1)])?;
    if pick == 1 {
        check_targets(lock, first)?;
    }

    // Of a view's two copies the one in the lower answer is met first; one that equals it need not be sealed again.
    let after = next(pick);
    let [own_view, own_copy] = copies[usize::from(pick - 1)];
    let [after_copy, after_view] = copies[usize::from(after - 1)];
    if pick == 1 || own_view.bytes != own_copy.bytes {
        check_seal::<K, S>(lock, first, pick, own_view)?;
    }
    if pick < 3 || after_view.bytes != after_copy.bytes {
        check_seal::<K, S>(lock, first, after, after_view)?;
    }
    check_runs(lock, first, pick, [*own_view, *after_view], [work1, work2])
}
