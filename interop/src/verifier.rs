//! The side that checks an answer against a first message.

use crate::faults::{Fault, Reason, check_sizes};
use crate::kinds::Kind;
use crate::lengths::{BLIND, Lengths};
use crate::lock::{Gate, Lock};
use crate::messages::{
    ANSWER_MARK, ANSWER_VIEWS, FIRST_MARK, FIRST_SHARES, View, next, output_shares, seal_of, views_of,
};
use crate::sealers::Sealer;

/// Whether an answer to a pick goes with a first message for this lock.
pub fn verify<K: Kind, S: Sealer>(
    lock: &[u8],
    first: &[u8],
    pick: u8,
    answer: &[u8],
    work: [&mut [u8]; 2],
) -> Result<(), Fault> {
    let [work1, work2] = work;
    let outcome = verify_in::<K, S>(lock, first, pick, answer, [work1, work2]);
    work1.fill(0);
    work2.fill(0);
    outcome
}

fn verify_in<K: Kind, S: Sealer>(
    lock: &[u8],
    first: &[u8],
    pick: u8,
    answer: &[u8],
    [work1, work2]: [&mut [u8]; 2],
) -> Result<(), Fault> {
    let lock = &Lock::<K>::read(lock)?;
    let lengths = Lengths::of::<K, S>(lock);
    if lengths.view > S::LONGEST {
        return Err(Fault::at(Reason::WrongSize, 0));
    }
    check_sizes([
        first.len() == lengths.first,
        answer.len() == lengths.answer,
        work1.len() >= lengths.work,
        work2.len() >= lengths.work,
    ])?;
    if !(1..=3).contains(&pick) {
        return Err(Fault::at(Reason::WrongPick, pick.into()));
    }

    check_first(lock, first)?;
    check_answer(lock, pick, answer)?;
    check_targets(lock, first)?;
    let views = views_of(answer, lock);
    check_seal::<K, S>(lock, first, pick, &views[0])?;
    check_seal::<K, S>(lock, first, next(pick), &views[1])?;
    check_runs(lock, first, pick, views, [work1, work2])
}

/// Fault 15: the mark, and the output shares of all branches, which lie together.
pub(crate) fn check_first<K: Kind>(lock: &Lock<K>, first: &[u8]) -> Result<(), Fault> {
    let fault = |place| Err(Fault::at(Reason::MalformedFirstMessage, place));
    let (mark, rest) = first.split_at(FIRST_SHARES);
    if mark != FIRST_MARK {
        return fault(0);
    }
    match K::first_unlawful(&K::rows(rest)[..3 * lock.outputs()]) {
        None => Ok(()),
        Some(index) => fault(FIRST_SHARES + index * K::WIDTH),
    }
}

/// Fault 16: the mark, the pick byte, and the elements of both views.
pub(crate) fn check_answer<K: Kind>(lock: &Lock<K>, pick: u8, answer: &[u8]) -> Result<(), Fault> {
    let fault = |place| Err(Fault::at(Reason::MalformedAnswer, place));
    if &answer[..2] != ANSWER_MARK {
        return fault(0);
    }
    if answer[2] != pick {
        return fault(2);
    }
    let mut start = ANSWER_VIEWS;
    for view in views_of::<K>(answer, lock) {
        if let Some(index) = K::first_unlawful(K::rows(&view.bytes[BLIND..])) {
            return fault(start + BLIND + index * K::WIDTH);
        }
        start += view.bytes.len();
    }
    Ok(())
}

/// Fault 17: the shares of each output add up to its target.
pub(crate) fn check_targets<K: Kind>(lock: &Lock<K>, first: &[u8]) -> Result<(), Fault> {
    let [one, two, three] = [1, 2, 3].map(|branch| output_shares(first, lock, branch));
    let shares = one.iter().zip(two).zip(three);
    for (output, (((&one, &two), &three), (_, target))) in shares.zip(lock.each_output()).enumerate() {
        let sum = K::add(K::add(K::decode(one), K::decode(two)), K::decode(three));
        if K::encode(sum) != target {
            return Err(Fault::at(Reason::MissedTarget, output));
        }
    }
    Ok(())
}

/// Fault 18.
pub(crate) fn check_seal<K: Kind, S: Sealer>(
    lock: &Lock<K>,
    first: &[u8],
    branch: u8,
    view: &View<K>,
) -> Result<(), Fault> {
    if S::has_seal(view.bytes, seal_of(first, lock, branch)) {
        Ok(())
    } else {
        Err(Fault::in_branch(Reason::WrongSeal, branch, 0))
    }
}

/// Faults 19 and 20: both branches are run again, with the products that their views tell.
pub(crate) fn check_runs<K: Kind>(
    lock: &Lock<K>,
    first: &[u8],
    pick: u8,
    views: [View<K>; 2],
    work: [&mut [u8]; 2],
) -> Result<(), Fault> {
    let wires = work.map(|work| &mut K::rows_mut(work)[..lock.wires()]);
    let [own, after] = wires;
    let wrong_product = rerun(lock, pick, views, [own, after]);
    for (branch, wires) in [(pick, own), (next(pick), after)] {
        let shares = output_shares(first, lock, branch);
        let wrong = lock.each_output().zip(shares).position(|((wire, _), share)| wires[wire] != *share);
        if let Some(output) = wrong {
            return Err(Fault::in_branch(Reason::WrongOutputShare, branch, output));
        }
    }
    match wrong_product {
        None => Ok(()),
        Some(wire) => Err(Fault::in_branch(Reason::WrongProduct, pick, wire)),
    }
}

/// Runs the picked branch and the one after it together, and tells the wire of the first product that is not right.
fn rerun<K: Kind>(lock: &Lock<K>, pick: u8, views: [View<K>; 2], wires: [&mut [K::Row]; 2]) -> Option<usize> {
    let [own, after] = views;
    let [wires1, wires2] = wires;
    wires1[..lock.inputs()].copy_from_slice(own.shares);
    wires2[..lock.inputs()].copy_from_slice(after.shares);
    let mut masks = own.masks.iter().zip(after.masks);
    let mut products = own.products.iter().zip(after.products);
    // Branch 1 alone adds constants.
    let [adds1, adds2] = [pick == 1, next(pick) == 1];
    let mut wrong = None;

    for (wire, gate) in (lock.inputs()..lock.wires()).zip(lock.each_gate()) {
        let at = |wire: usize| [wires1[wire], wires2[wire]].map(K::decode);
        let new = match gate {
            Gate::AddConstant(a, c) => {
                let [x1, x2] = at(a);
                let add = |x, adds: bool| K::add(x, if adds { c } else { K::ZERO });
                [add(x1, adds1), add(x2, adds2)].map(K::encode)
            }
            Gate::MulConstant(a, c) => at(a).map(|x| K::encode(K::mul(c, x))),
            Gate::Add(a, b) => {
                let ([x1, x2], [y1, y2]) = (at(a), at(b));
                [K::add(x1, y1), K::add(x2, y2)].map(K::encode)
            }
            Gate::Mul(a, b) => {
                let ([x1, x2], [y1, y2]) = (at(a), at(b));
                let ((r1, r2), (p1, p2)) =
                    masks.next().zip(products.next()).expect("a mask and a value of each product");
                let due = K::product_share([x1, y1, K::decode(*r1)], [x2, y2, K::decode(*r2)]);
                if K::encode(due) != *p1 && wrong.is_none() {
                    wrong = Some(wire);
                }
                [*p1, *p2]
            }
        };
        [wires1[wire], wires2[wire]] = new;
    }
    wrong
}
