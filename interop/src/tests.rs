//! Whole rounds: the worked lock of the documents, every sort of refusal, and sealers made for the purpose.

use crate::extractor::{Extracted, extract};
use crate::faults::{Fault, Reason};
use crate::hashes::sha256;
use crate::keeper::{Keeper, MOST_ROUNDS, Record};
use crate::kinds::{Bit, Kind, Residue, Word};
use crate::lengths::Lengths;
use crate::lock::Lock;
use crate::lock::tests::{hex, worked};
use crate::messages::next;
use crate::sealers::{Sealer, Sha3_256, Sha256};
use crate::verifier::verify;

/// The first byte is the message's sum, so that collisions are easy; messages of at most 1,000 bytes.
enum Weak {}

impl Sealer for Weak {
    const LENGTH: usize = 1;
    const LONGEST: usize = 1_000;

    fn digest(message: &[u8], seal: &mut [u8]) {
        seal[0] = message.iter().fold(0, |sum, &byte| sum.wrapping_add(byte));
    }
}

/// Seals nothing that is as long as a view.
enum Short {}

impl Sealer for Short {
    const LENGTH: usize = 64;
    const LONGEST: usize = 47;

    fn digest(_: &[u8], seal: &mut [u8]) {
        seal.fill(7);
    }
}

fn rows(numbers: &[i64]) -> Vec<u8> {
    numbers.iter().flat_map(|&n| (n as u32).to_be_bytes()).collect()
}

/// The tape of the worked example; the blinds are bytes 1, 2 and 3 over and over.
fn worked_tape() -> Vec<u8> {
    let mut tape = [[1; 32], [2; 32], [3; 32]].concat();
    tape.extend(rows(&[10, 20, 1, 2, 100, 7, 50]));
    tape
}

/// The pick, then the fault's number, branch and place.
type Refusal = (u8, u8, u8, u64);

struct Round {
    first: Vec<u8>,
    views: [Vec<u8>; 3],
}

impl Round {
    fn answer(&self, pick: u8) -> Vec<u8> {
        let view = |branch: u8| &self.views[usize::from(branch - 1)][..];
        [b"AN", &[pick][..], view(pick), view(next(pick))].concat()
    }
}

fn promise<K: Kind, S: Sealer>(lock: &[u8], key: &[u8], tape: &[u8]) -> Result<Round, Fault> {
    let lengths = Lengths::of::<K, S>(&Lock::<K>::read(lock).unwrap());
    let mut store = vec![9; 3 * lengths.view];
    let mut first = vec![9; lengths.first];
    let mut work = [(); 3].map(|()| vec![9; lengths.work + 3]);
    let mut keeper = Keeper::make(lengths.view, &mut store);
    let outcome = keeper.promise::<K, S>(lock, key, tape, work.each_mut().map(|work| &mut work[..]), &mut first);
    assert!(work.iter().flatten().all(|&byte| byte == 0));
    match outcome {
        Ok(round) => {
            assert_eq!(round, 1);
            assert_eq!(keeper.records(), [Record::Promised]);
        }
        Err(fault) => {
            assert_eq!(keeper.records(), []);
            assert!(store.iter().chain(&first).all(|&byte| byte == 9));
            return Err(fault);
        }
    }
    let (view1, rest) = store.split_at(lengths.view);
    let (view2, view3) = rest.split_at(lengths.view);
    Ok(Round { first, views: [view1.to_vec(), view2.to_vec(), view3.to_vec()] })
}

fn check<K: Kind, S: Sealer>(lock: &[u8], first: &[u8], pick: u8, answer: &[u8]) -> Result<(), (u8, u8, u64)> {
    let wires = Lock::<K>::read(lock).unwrap().wires();
    let mut work = [(); 2].map(|()| vec![9; wires * K::WIDTH]);
    let outcome = verify::<K, S>(lock, first, pick, answer, work.each_mut().map(|work| &mut work[..]));
    assert!(work.iter().flatten().all(|&byte| byte == 0));
    outcome.map_err(|fault| (fault.reason.number(), fault.branch, fault.place))
}

fn take_key<K: Kind, S: Sealer>(
    lock: &[u8],
    first: &[u8],
    answers: [&[u8]; 3],
) -> (Result<Extracted, Refusal>, Vec<u8>) {
    let lengths = Lengths::of::<K, S>(&Lock::<K>::read(lock).unwrap());
    let mut work = [(); 2].map(|()| vec![9; lengths.work]);
    let mut key = vec![9; lengths.key];
    let outcome = extract::<K, S>(lock, first, answers, work.each_mut().map(|work| &mut work[..]), &mut key);
    assert!(work.iter().flatten().all(|&byte| byte == 0));
    let outcome = outcome.map_err(|refusal| {
        let fault = refusal.fault;
        (refusal.pick, fault.reason.number(), fault.branch, fault.place)
    });
    (outcome, key)
}

#[test]
fn worked_round() {
    let lock = worked();
    let round = promise::<Word, Sha256>(&lock, &rows(&[3, 4]), &worked_tape()).unwrap();

    let views = [
        [vec![1; 32], rows(&[10, 20, 100, 333])].concat(),
        [vec![2; 32], rows(&[1, 2, 7, -75])].concat(),
        [vec![3; 32], rows(&[-8, -18, 50, -246])].concat(),
    ];
    assert_eq!(round.views, views);
    let mut first = [b"FM".to_vec(), rows(&[338, -75, -246])].concat();
    for view in &views {
        first.extend(sha256(view));
    }
    assert_eq!(round.first, first);

    for pick in 1..=3 {
        assert_eq!(check::<Word, Sha256>(&lock, &first, pick, &round.answer(pick)), Ok(()));
        assert_eq!(check::<Word, Sha3_256>(&lock, &first, pick, &round.answer(pick)), Err((18, pick, 0)));
    }
    let answers = [1, 2, 3].map(|pick| round.answer(pick));
    let (outcome, key) = take_key::<Word, Sha256>(&lock, &first, answers.each_ref().map(|answer| &answer[..]));
    assert_eq!(outcome, Ok(Extracted::Key));
    assert_eq!(key, rows(&[3, 4]));

    let misfit = promise::<Word, Sha256>(&lock, &rows(&[3, 5]), &worked_tape()).err();
    assert_eq!(misfit, Some(Fault::at(Reason::KeyDoesNotFit, 0)));
}

#[test]
fn other_sealer() {
    let lock = worked();
    let round = promise::<Word, Sha3_256>(&lock, &rows(&[4, 3]), &worked_tape()).unwrap();
    for pick in 1..=3 {
        assert_eq!(check::<Word, Sha3_256>(&lock, &round.first, pick, &round.answer(pick)), Ok(()));
    }
}

/// The same circuit over residues: the target is still met, and the negatives are others.
#[test]
fn residue_round() {
    let mut lock = worked();
    lock[2] = 3;
    let p = i64::from(Residue::MODULUS);
    let round = promise::<Residue, Sha256>(&lock, &rows(&[3, 4]), &worked_tape()).unwrap();
    assert_eq!(round.views[2][32..], rows(&[p - 8, p - 18, 50, p - 246]));
    for pick in 1..=3 {
        assert_eq!(check::<Residue, Sha256>(&lock, &round.first, pick, &round.answer(pick)), Ok(()));
    }

    let refused = |key: &[i64], tape: Vec<u8>| {
        let fault = promise::<Residue, Sha256>(&lock, &rows(key), &tape).err().unwrap();
        (fault.reason.number(), fault.place)
    };
    assert_eq!(refused(&[3, p], worked_tape()), (12, 1));
    for element in 0..7 {
        let mut tape = worked_tape();
        tape[96 + 4 * element..][..4].fill(255);
        assert_eq!(refused(&[3, 4], tape.clone()), (14, 96 + 4 * element as u64));
        assert_eq!(refused(&[3, 5], tape), (13, 0));
    }
}

/// A constant bit added to a product; all keys, all picks.
#[test]
fn bit_rounds() {
    let lock = hex("4C4B 01 00000002 00000003 00000002 \
                    4D55 00000000 00000001 4143 00000002 01 4D43 00000003 01 4F55 00000003 00 4F55 00000004 00");
    for tape_bits in 0..128u32 {
        let mut tape = vec![5; 96];
        tape.extend((0..7).map(|i| (tape_bits >> i & 1) as u8));
        let round = promise::<Bit, Sha256>(&lock, &[1, 1], &tape).unwrap();
        for pick in 1..=3 {
            assert_eq!(check::<Bit, Sha256>(&lock, &round.first, pick, &round.answer(pick)), Ok(()));
        }
        for key in [[0, 0], [0, 1], [1, 0]] {
            let fault = promise::<Bit, Sha256>(&lock, &key, &tape).err().unwrap();
            assert_eq!((fault.reason.number(), fault.place), (13, 0));
        }
        let fault = promise::<Bit, Sha256>(&lock, &[1, 2], &tape).err().unwrap();
        assert_eq!((fault.reason.number(), fault.place), (12, 1));
    }
}

#[test]
fn refused_answers() {
    let lock = worked();
    let round = promise::<Word, Sha256>(&lock, &rows(&[3, 4]), &worked_tape()).unwrap();
    let judge = |first: &[u8], pick: u8, answer: &[u8]| check::<Word, Sha256>(&lock, first, pick, answer).unwrap_err();
    let turned = |bytes: &[u8], at: usize| {
        let mut bytes = bytes.to_vec();
        bytes[at] ^= 1;
        bytes
    };
    let answer = round.answer(2);

    assert_eq!(judge(&round.first[1..], 2, &answer), (7, 0, 1));
    assert_eq!(judge(&round.first, 2, &answer[1..]), (7, 0, 2));
    for pick in [0, 4, 255] {
        assert_eq!(judge(&round.first, pick, &answer), (8, 0, pick.into()));
    }
    assert_eq!(judge(&turned(&round.first, 1), 2, &turned(&answer, 0)), (15, 0, 0));
    assert_eq!(judge(&round.first, 2, &turned(&answer, 1)), (16, 0, 0));
    assert_eq!(judge(&round.first, 1, &answer), (16, 0, 2));
    for at in 2..14 {
        assert_eq!(judge(&turned(&round.first, at), 2, &answer), (17, 0, 0));
    }
    for at in 14..110 {
        let changed = turned(&round.first, at);
        match (at - 14) / 32 {
            0 => assert_eq!(check::<Word, Sha256>(&lock, &changed, 2, &answer), Ok(())),
            1 => assert_eq!(judge(&changed, 2, &answer), (18, 2, 0)),
            _ => assert_eq!(judge(&changed, 2, &answer), (18, 3, 0)),
        }
    }
    for at in 3..answer.len() {
        let branch = if at < 3 + 48 { 2 } else { 3 };
        assert_eq!(judge(&round.first, 2, &turned(&answer, at)), (18, branch, 0));
    }
}

/// With seals that are easy to meet, what lies behind them is tested too.
#[test]
fn forged_views() {
    let lock = worked();
    let round = promise::<Word, Weak>(&lock, &rows(&[3, 4]), &worked_tape()).unwrap();
    // The first blind byte makes up for the change of another byte.
    let forged = |answer: &[u8], view: usize, at: usize| {
        let mut answer = answer.to_vec();
        answer[3 + 48 * view] = answer[3 + 48 * view].wrapping_sub(1);
        answer[3 + 48 * view + at] = answer[3 + 48 * view + at].wrapping_add(1);
        answer
    };
    for pick in 1..=3 {
        let answer = round.answer(pick);
        let judge = |view, at| check::<Word, Weak>(&lock, &round.first, pick, &forged(&answer, view, at));
        // Another blind is as good; a wrong product shows in the output share; shares and masks in the product.
        assert_eq!(judge(0, 1), Ok(()));
        assert_eq!(judge(0, 47), Err((19, pick, 0)));
        assert_eq!(judge(1, 47), Err((19, next(pick), 0)));
        for at in [35, 39, 43] {
            assert_eq!(judge(0, at), Err((20, pick, 2)));
            assert_eq!(judge(1, at), Err((20, pick, 2)));
        }
    }

    // Two views with one seal are told; the lowest branch counts, and the first offset.
    let answers = [1, 2, 3].map(|pick| round.answer(pick));
    let other2 = forged(&answers[1], 0, 5);
    let other3 = forged(&answers[2], 0, 1);
    let (outcome, key) = take_key::<Word, Weak>(&lock, &round.first, [&answers[0], &other2, &other3]);
    assert_eq!(outcome, Ok(Extracted::Differ { branch: 2, offset: 0 }));
    assert_eq!(key, [9; 8]);
    let other1 = forged(&answers[2], 1, 1);
    let (outcome, _) = take_key::<Word, Weak>(&lock, &round.first, [&answers[0], &other2, &other1]);
    assert_eq!(outcome, Ok(Extracted::Differ { branch: 1, offset: 0 }));
    let wrong = forged(&answers[2], 0, 47);
    let (outcome, key) = take_key::<Word, Weak>(&lock, &round.first, [&answers[0], &answers[1], &wrong]);
    assert_eq!(outcome, Err((3, 19, 3, 0)));
    assert_eq!(key, [9; 8]);
}

#[test]
fn sealer_too_short() {
    let lock = worked();
    let fault = promise::<Word, Short>(&lock, &rows(&[3, 4]), &worked_tape()).err();
    assert_eq!(fault, Some(Fault::at(Reason::WrongSize, 0)));
    assert_eq!(check::<Word, Short>(&lock, &[], 9, &[]), Err((7, 0, 0)));
    assert_eq!(take_key::<Word, Short>(&lock, &[], [&[], &[], &[]]).0, Err((0, 7, 0, 0)));
    let mut seal = [0; 64];
    assert_eq!(Short::seal(&[0; 48], &mut seal), Err(Fault::at(Reason::WrongSize, 0)));
    assert_eq!(Short::seal(&[0; 47], &mut seal[1..]), Err(Fault::at(Reason::WrongSize, 1)));
    assert_eq!(Short::seal(&[0; 47], &mut seal), Ok(()));
    assert_eq!(seal, [7; 64]);
}

#[test]
fn sizes_of_a_promise() {
    let lock = worked();
    let (key, tape) = (rows(&[3, 4]), worked_tape());
    let attempt = |sizes: [usize; 6], view_length: usize, rounds: usize| {
        let mut store = vec![0; 3 * view_length * rounds];
        let mut first = vec![0; sizes[5]];
        let mut work = [sizes[2], sizes[3], sizes[4]].map(|size| vec![1; size]);
        let key: Vec<u8> = key.iter().copied().cycle().take(sizes[0]).collect();
        let tape: Vec<u8> = tape.iter().copied().cycle().take(sizes[1]).collect();
        let work = work.each_mut().map(|work| &mut work[..]);
        Keeper::make(view_length, &mut store)
            .promise::<Word, Sha256>(&lock, &key, &tape, work, &mut first)
            .map_err(|fault| (fault.reason.number(), fault.place))
    };
    let right = [8, 124, 16, 16, 16, 110];
    assert_eq!(attempt(right, 48, 1), Ok(1));
    assert_eq!(attempt([8, 124, 99, 17, 18, 110], 48, 1), Ok(1));
    for i in 0..6 {
        let mut sizes = right;
        sizes[i] -= 1;
        // The place is the lowest of several.
        assert_eq!(attempt(sizes, 47, 1), Err((7, i as u64 + 1)));
        sizes[i] = right[i] + 1;
        let due = if (2..5).contains(&i) { 7 } else { i as u64 + 1 };
        assert_eq!(attempt(sizes, 47, 1), Err((7, due)));
    }
    assert_eq!(attempt(right, 48, 0), Err((11, 0)));
}

#[test]
fn rounds_of_a_keeper() {
    for (view_length, store, rounds) in [
        (48, 143, 0),
        (48, 144, 1),
        (48, 48 * 3 * 64, 64),
        (48, 48 * 3 * 70, 64),
        (32, 1_000, 0),
        (33, 1_000, 10),
        (65_535, 196_605, 1),
        (65_536, 196_608, 0),
        (0, 9, 0),
        (usize::MAX, 9, 0),
    ] {
        assert_eq!(Keeper::make(view_length, &mut vec![0; store]).rounds(), rounds);
    }
}

#[test]
fn history() {
    let lock = worked();
    let (key, tape) = (rows(&[3, 4]), worked_tape());
    let mut store = vec![9; 3 * 48 * 3 + 5];
    let mut keeper = Keeper::make(48, &mut store);
    let round = promise::<Word, Sha256>(&lock, &key, &tape).unwrap();
    let told = |fault: Fault| (fault.reason.number(), fault.place);
    let promised = |keeper: &mut Keeper| {
        let mut work = [[0; 16]; 3];
        let mut first = [0; 110];
        let outcome =
            keeper.promise::<Word, Sha256>(&lock, &key, &tape, work.each_mut().map(|work| &mut work[..]), &mut first);
        outcome.map_err(told)
    };

    let mut answer = vec![0; 99];
    assert_eq!(keeper.answer(1, 1, &mut answer).map_err(told), Err((9, 1)));
    for number in 1..=3 {
        assert_eq!(promised(&mut keeper), Ok(number));
    }
    assert_eq!(promised(&mut keeper), Err((11, 3)));
    assert_eq!(keeper.answer(0, 0, &mut []).map_err(told), Err((9, 0)));
    assert_eq!(keeper.answer(4, 0, &mut []).map_err(told), Err((9, 4)));
    assert_eq!(keeper.answer(u64::MAX, 0, &mut []).map_err(told), Err((9, u64::MAX)));
    assert_eq!(keeper.answer(2, 0, &mut []).map_err(told), Err((8, 0)));
    assert_eq!(keeper.answer(2, 3, &mut []).map_err(told), Err((7, 1)));
    assert_eq!(keeper.answer(2, 3, &mut answer).map_err(told), Ok(()));
    assert_eq!(answer, round.answer(3));
    assert_eq!(keeper.answer(2, 0, &mut []).map_err(told), Err((10, 2)));
    assert_eq!(keeper.drop_round(2).map_err(told), Err((10, 2)));
    assert_eq!(keeper.drop_round(4).map_err(told), Err((9, 4)));
    assert_eq!(keeper.drop_round(3).map_err(told), Ok(()));
    assert_eq!(keeper.records(), [Record::Promised, Record::Answered, Record::Dropped]);
    assert_eq!(promised(&mut keeper), Err((11, 3)));

    // Spent rounds are zeroed, round 1 and the bytes behind the last round are as they were.
    assert_eq!(store[..144], round.views.concat());
    assert!(store[144..432].iter().all(|&byte| byte == 0));
    assert_eq!(store[432..], [9; 5]);
    assert!(Keeper::resume(48, &mut store, &[Record::Dropped; 3]).is_some());
    assert!(Keeper::resume(48, &mut store, &[Record::Dropped; 4]).is_none());
    assert!(Keeper::resume(32, &mut store, &[Record::Dropped]).is_none());
    assert!(Keeper::resume(33, &mut vec![0; 99 * 70], &[Record::Promised; MOST_ROUNDS]).is_some());
}
