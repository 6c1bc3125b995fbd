//! The static library behind the same trait.
//!
//! Nothing checks these declarations against the library, so they follow the C interface word by word: a byte slice is a
//! pointer and then a length, structures are passed by pointer.

use crate::interface::{Engine, PzExtracted, PzFault, PzKeeper, PzLengths};

unsafe extern "C" {
    fn pz_read_lock(
        kind: u8,
        sealer: u8,
        lock: *const u8,
        lock_n: usize,
        out: *mut PzLengths,
        fault: *mut PzFault,
    ) -> u8;

    fn pz_keeper_new(view_length: u64, out: *mut PzKeeper);

    fn pz_promise(
        kind: u8,
        sealer: u8,
        keeper: *mut PzKeeper,
        store: *mut u8,
        store_n: usize,
        lock: *const u8,
        lock_n: usize,
        key: *const u8,
        key_n: usize,
        tape: *const u8,
        tape_n: usize,
        work1: *mut u8,
        work1_n: usize,
        work2: *mut u8,
        work2_n: usize,
        work3: *mut u8,
        work3_n: usize,
        first: *mut u8,
        first_n: usize,
        round: *mut u64,
        fault: *mut PzFault,
    ) -> u8;

    fn pz_answer(
        keeper: *mut PzKeeper,
        store: *mut u8,
        store_n: usize,
        round: u64,
        pick: u8,
        answer: *mut u8,
        answer_n: usize,
        fault: *mut PzFault,
    ) -> u8;

    fn pz_drop(keeper: *mut PzKeeper, store: *mut u8, store_n: usize, round: u64, fault: *mut PzFault) -> u8;

    fn pz_verify(
        kind: u8,
        sealer: u8,
        lock: *const u8,
        lock_n: usize,
        first: *const u8,
        first_n: usize,
        pick: u8,
        answer: *const u8,
        answer_n: usize,
        work1: *mut u8,
        work1_n: usize,
        work2: *mut u8,
        work2_n: usize,
        fault: *mut PzFault,
    ) -> u8;

    fn pz_extract(
        kind: u8,
        sealer: u8,
        lock: *const u8,
        lock_n: usize,
        first: *const u8,
        first_n: usize,
        answer1: *const u8,
        answer1_n: usize,
        answer2: *const u8,
        answer2_n: usize,
        answer3: *const u8,
        answer3_n: usize,
        work1: *mut u8,
        work1_n: usize,
        work2: *mut u8,
        work2_n: usize,
        key: *mut u8,
        key_n: usize,
        out: *mut PzExtracted,
        fault: *mut PzFault,
    ) -> u8;
}

/// The engine in the static library.
pub struct Exported;

// In every call below the pointers come from references, so they are valid for their lengths and, being distinct
// borrows, none overlaps another that is written.
impl Engine for Exported {
    fn read_lock(&self, kind: u8, sealer: u8, lock: &[u8], out: &mut PzLengths, fault: &mut PzFault) -> u8 {
        unsafe { pz_read_lock(kind, sealer, lock.as_ptr(), lock.len(), out, fault) }
    }

    fn keeper_new(&self, view_length: u64, out: &mut PzKeeper) {
        unsafe { pz_keeper_new(view_length, out) }
    }

    fn promise(
        &self,
        kind: u8,
        sealer: u8,
        keeper: &mut PzKeeper,
        store: &mut [u8],
        lock: &[u8],
        key: &[u8],
        tape: &[u8],
        work: [&mut [u8]; 3],
        first: &mut [u8],
        round: &mut u64,
        fault: &mut PzFault,
    ) -> u8 {
        let [work1, work2, work3] = work;
        unsafe {
            pz_promise(
                kind,
                sealer,
                keeper,
                store.as_mut_ptr(),
                store.len(),
                lock.as_ptr(),
                lock.len(),
                key.as_ptr(),
                key.len(),
                tape.as_ptr(),
                tape.len(),
                work1.as_mut_ptr(),
                work1.len(),
                work2.as_mut_ptr(),
                work2.len(),
                work3.as_mut_ptr(),
                work3.len(),
                first.as_mut_ptr(),
                first.len(),
                round,
                fault,
            )
        }
    }

    fn answer(
        &self,
        keeper: &mut PzKeeper,
        store: &mut [u8],
        round: u64,
        pick: u8,
        answer: &mut [u8],
        fault: &mut PzFault,
    ) -> u8 {
        unsafe {
            pz_answer(keeper, store.as_mut_ptr(), store.len(), round, pick, answer.as_mut_ptr(), answer.len(), fault)
        }
    }

    fn drop_round(&self, keeper: &mut PzKeeper, store: &mut [u8], round: u64, fault: &mut PzFault) -> u8 {
        unsafe { pz_drop(keeper, store.as_mut_ptr(), store.len(), round, fault) }
    }

    fn verify(
        &self,
        kind: u8,
        sealer: u8,
        lock: &[u8],
        first: &[u8],
        pick: u8,
        answer: &[u8],
        work: [&mut [u8]; 2],
        fault: &mut PzFault,
    ) -> u8 {
        let [work1, work2] = work;
        unsafe {
            pz_verify(
                kind,
                sealer,
                lock.as_ptr(),
                lock.len(),
                first.as_ptr(),
                first.len(),
                pick,
                answer.as_ptr(),
                answer.len(),
                work1.as_mut_ptr(),
                work1.len(),
                work2.as_mut_ptr(),
                work2.len(),
                fault,
            )
        }
    }

    fn extract(
        &self,
        kind: u8,
        sealer: u8,
        lock: &[u8],
        first: &[u8],
        answers: [&[u8]; 3],
        work: [&mut [u8]; 2],
        key: &mut [u8],
        out: &mut PzExtracted,
        fault: &mut PzFault,
    ) -> u8 {
        let [answer1, answer2, answer3] = answers;
        let [work1, work2] = work;
        unsafe {
            pz_extract(
                kind,
                sealer,
                lock.as_ptr(),
                lock.len(),
                first.as_ptr(),
                first.len(),
                answer1.as_ptr(),
                answer1.len(),
                answer2.as_ptr(),
                answer2.len(),
                answer3.as_ptr(),
                answer3.len(),
                work1.as_mut_ptr(),
                work1.len(),
                work2.as_mut_ptr(),
                work2.len(),
                key.as_mut_ptr(),
                key.len(),
                out,
                fault,
            )
        }
    }
}
