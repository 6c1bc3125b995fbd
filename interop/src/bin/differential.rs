//! Compares the engine of this package with the static library, call by call and byte by byte.
//!
//!     differential [--cases N] [SEED [CASE]]
//!     differential --self [SEED]
//!
//! With a case, only that one is run, and every call is told. With `--self` no library is needed: this engine is
//! compared with itself, then with copies of itself that have a bug each, which must be noticed.

use std::process::ExitCode;
use std::time::Instant;

use independent::driver::cases;
use independent::driver::compare::{Call, Compare};
use independent::driver::planted::{BUGS, Planted};
use independent::interface::{Engine, Independent};

const SEED: u64 = 1;
const DRAWN: u64 = 20_000;

struct Arguments {
    own: bool,
    loud: bool,
    drawn: u64,
    seed: u64,
    case: Option<u64>,
}

fn arguments() -> Result<Arguments, String> {
    let mut parsed = Arguments { own: false, loud: false, drawn: DRAWN, seed: SEED, case: None };
    let mut numbers = Vec::new();
    let mut words = std::env::args().skip(1);
    let number = |word: Option<String>| match word {
        Some(word) => word.parse().map_err(|_| format!("not a number: {word}")),
        None => Err("a number is missing".to_string()),
    };
    while let Some(word) = words.next() {
        match &word[..] {
            "--self" => parsed.own = true,
            "--loud" => parsed.loud = true,
            "--cases" => parsed.drawn = number(words.next())?,
            _ => numbers.push(number(Some(word))?),
        }
    }
    match numbers[..] {
        [] => {}
        [seed] => parsed.seed = seed,
        [seed, case] => (parsed.seed, parsed.case) = (seed, Some(case)),
        _ => return Err("too many numbers".to_string()),
    }
    Ok(parsed)
}

fn main() -> ExitCode {
    let arguments = match arguments() {
        Ok(arguments) => arguments,
        Err(error) => {
            eprintln!("{error}; usage: differential [--self] [--loud] [--cases N] [SEED [CASE]]");
            return ExitCode::from(2);
        }
    };
    let succeeded = if arguments.own { compare_own(&arguments) } else { compare_exported(&arguments) };
    match succeeded {
        Some(true) => ExitCode::SUCCESS,
        Some(false) => ExitCode::from(1),
        None => ExitCode::from(2),
    }
}

#[cfg(exported)]
fn compare_exported(arguments: &Arguments) -> Option<bool> {
    Some(whole_run(arguments, &independent::ffi::Exported))
}

#[cfg(not(exported))]
fn compare_exported(_: &Arguments) -> Option<bool> {
    eprintln!("built without the static library (PZ_LIB_DIR was not set); only --self can be run");
    None
}

/// This engine against itself, and against itself with each bug.
fn compare_own(arguments: &Arguments) -> Option<bool> {
    let mut succeeded = whole_run(arguments, &Independent);
    let mut noticed = 0;
    for bug in BUGS {
        let planted = Planted(bug);
        let mut compare = Compare::new(&Independent, &planted, arguments.seed);
        compare.stop = true;
        let mut case = 0;
        while !compare.done() && case < cases::FIXED + arguments.drawn {
            cases::run(&mut compare, case);
            case += 1;
        }
        match compare.failures.first() {
            Some(failure) => {
                noticed += 1;
                println!("bug {bug:?} noticed: {failure}");
            }
            None => {
                succeeded = false;
                println!("bug {bug:?} NOT noticed");
            }
        }
    }
    println!("{noticed} of {} planted bugs noticed", BUGS.len());
    Some(succeeded)
}

/// All cases, or the one that was asked for.
fn whole_run(arguments: &Arguments, theirs: &dyn Engine) -> bool {
    let start = Instant::now();
    let mut compare = Compare::new(&Independent, theirs, arguments.seed);
    let total = cases::FIXED + arguments.drawn;
    match arguments.case {
        Some(case) => {
            compare.tell = true;
            let name = cases::run(&mut compare, case);
            println!("case {case}: {name}");
        }
        None => {
            for case in 0..total {
                if arguments.loud {
                    eprintln!("case {case}");
                }
                cases::run(&mut compare, case);
            }
        }
    }

    for failure in compare.failures.iter().take(40) {
        println!("FAILED {failure}");
    }
    if compare.failures.len() > 40 {
        println!("... and {} more differences", compare.failures.len() - 40);
    }
    if arguments.case.is_none() {
        print_counts(&compare);
        check_coverage(&mut compare);
        println!("seed {}, {total} cases, {:.1} s", arguments.seed, start.elapsed().as_secs_f64());
    }
    println!("{} passed, {} failed", compare.passed, compare.failed);
    compare.failed == 0
}

fn print_counts(compare: &Compare) {
    println!("{:<11} {:<46} {:>8}", "call", "outcome", "times");
    for (outcome, times) in &compare.counts {
        let told = match (outcome.status, outcome.number) {
            (0, _) => "done".to_string(),
            (2, _) => "no such kind".to_string(),
            (3, _) => "no such sealer".to_string(),
            (4, _) => "no state of a keeper".to_string(),
            (_, 3) if outcome.place == 15 => "fault 3, place of a product".to_string(),
            (_, number @ (3 | 7)) => format!("fault {number}, place {}", outcome.place),
            (_, number) => {
                let branch = if outcome.branch == 0 { String::new() } else { format!(", branch {}", outcome.branch) };
                let pick = if outcome.pick == 0 { String::new() } else { format!(", pick {}", outcome.pick) };
                format!("fault {number}{branch}{pick}")
            }
        };
        println!("{:<11} {told:<46} {times:>8}", outcome.call.name());
    }
}

/// Every outcome that is expected must have come up, and each call with each kind and sealer must have been done.
fn check_coverage(compare: &mut Compare) {
    let mut missing = Vec::new();
    for outcome in cases::expected() {
        if !compare.counts.contains_key(&outcome) {
            missing.push(format!("{outcome:?}"));
        }
    }
    for call in [Call::ReadLock, Call::Promise, Call::Verify, Call::Extract] {
        for kind in 1..=3 {
            for sealer in 1..=2 {
                if !compare.accepted.contains_key(&(call, kind, sealer)) {
                    missing.push(format!("{} done with kind {kind} and sealer {sealer}", call.name()));
                }
            }
        }
    }
    for what in missing {
        println!("FAILED never came up: {what}");
        compare.failed += 1;
    }
}
