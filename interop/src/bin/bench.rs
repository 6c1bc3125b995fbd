//! Measures reading a lock, promise, answer, verify and extract of both engines in one run, on the same inputs and in turns.
//!
//!     bench [SECONDS [SIZE]]
//!
//! The engines take turns, and every other turn the other one begins. A turn is one call, or as many as take some
//! microseconds. The best turn is by the clock, so that turns in which the thread was held up do not count; the sum of
//! all turns is by the processor time of the thread. Buffers are not cleared before a call: work slices hold the zeros
//! that the call before left, output buffers what it wrote. The store is not set back either: an answer copies the
//! round's bytes whatever they are, and only the keeper's state is made new for each call.

use std::time::Instant;

use independent::driver::circuits::{Circuit, RINGS, Ring, Shape, answer_of, most_products};
use independent::driver::random::Random;
use independent::interface::{DONE, Engine, Independent, PzExtracted, PzFault, PzKeeper, PzLengths};

/// The processor time that this thread has used, in nanoseconds.
fn thread_time() -> u64 {
    #[repr(C)]
    struct Time {
        seconds: i64,
        nanoseconds: i64,
    }
    unsafe extern "C" {
        fn clock_gettime(clock: i32, time: *mut Time) -> i32;
    }
    const THREAD: i32 = 3;
    let mut time = Time { seconds: 0, nanoseconds: 0 };
    // The clock is that of Linux; the pointer is to a structure of its form.
    let failed = unsafe { clock_gettime(THREAD, &mut time) } != 0;
    assert!(!failed, "the thread's clock");
    time.seconds as u64 * 1_000_000_000 + time.nanoseconds as u64
}

/// One engine's buffers.
struct Side<'e> {
    engine: &'e dyn Engine,
    work: [Vec<u8>; 3],
    store: Vec<u8>,
    first: Vec<u8>,
    answer: Vec<u8>,
    key: Vec<u8>,
}

/// The input of all calls.
struct Input {
    kind: u8,
    sealer: u8,
    view: usize,
    lock: Vec<u8>,
    key: Vec<u8>,
    tape: Vec<u8>,
    first: Vec<u8>,
    answers: [Vec<u8>; 3],
}

const CALLS: [&str; 5] = ["read", "promise", "answer", "verify", "extract"];
/// The views that a call seals or copies.
const VIEWS: [usize; 5] = [0, 3, 2, 2, 6];

impl Side<'_> {
    fn call(&mut self, input: &Input, call: usize) {
        let Input { kind, sealer, .. } = *input;
        let mut fault = PzFault::default();
        let mut keeper = PzKeeper { view_length: input.view as u64, promised: 0, records: [0; 64] };
        let [work1, work2, work3] = &mut self.work;
        let status = match call {
            0 => self.engine.read_lock(kind, sealer, &input.lock, &mut PzLengths::default(), &mut fault),
            1 => self.engine.promise(
                kind,
                sealer,
                &mut keeper,
                &mut self.store,
                &input.lock,
                &input.key,
                &input.tape,
                [work1, work2, work3],
                &mut self.first,
                &mut 0,
                &mut fault,
            ),
            2 => {
                keeper.promised = 1;
                self.engine.answer(&mut keeper, &mut self.store, 1, 2, &mut self.answer, &mut fault)
            }
            3 => self.engine.verify(
                kind,
                sealer,
                &input.lock,
                &input.first,
                1,
                &input.answers[0],
                [work1, work2],
                &mut fault,
            ),
            _ => self.engine.extract(
                kind,
                sealer,
                &input.lock,
                &input.first,
                input.answers.each_ref().map(|answer| &answer[..]),
                [work1, work2],
                &mut self.key,
                &mut PzExtracted::default(),
                &mut fault,
            ),
        };
        assert_eq!(status, DONE);
    }
}

struct Size {
    name: &'static str,
    shape: fn(Ring) -> Shape,
}

const SIZES: [Size; 4] = [
    Size {
        name: "small",
        shape: |_| Shape { inputs: 8, gates: 100, outputs: 4, most_products: usize::MAX, products_in_16: 4 },
    },
    Size {
        name: "middle",
        shape: |_| Shape { inputs: 32, gates: 10_000, outputs: 16, most_products: usize::MAX, products_in_16: 4 },
    },
    Size {
        name: "gates",
        shape: |_| Shape { inputs: 32, gates: 200_000, outputs: 16, most_products: 100, products_in_16: 1 },
    },
    Size {
        name: "view",
        shape: |ring| {
            let products = most_products(ring, 31);
            Shape { inputs: 31, gates: products, outputs: 16, most_products: products, products_in_16: 16 }
        },
    },
];

/// The same input for all engines; a promise of this package's engine gives the messages.
fn draw_input(ring: Ring, sealer: u8, shape: Shape) -> (Circuit, Input) {
    let mut random = Random::new(7, u64::from(ring.number));
    let key = Circuit::draw_key(&mut random, ring, shape.inputs);
    let circuit = Circuit::draw(&mut random, ring, shape, &key);
    let view = circuit.view_length();
    let mut input = Input {
        kind: ring.number,
        sealer,
        view,
        lock: circuit.lock(),
        key: ring.group(&key),
        tape: circuit.draw_tape(&mut random),
        first: Vec::new(),
        answers: [const { Vec::new() }; 3],
    };
    let mut side = new_side(&Independent, &circuit);
    side.call(&input, 1);
    let views = [0, 1, 2].map(|i| side.store[i * view..(i + 1) * view].to_vec());
    input.answers = [1, 2, 3].map(|pick| answer_of(&views, pick));
    input.first = side.first;
    (circuit, input)
}

fn new_side<'e>(engine: &'e dyn Engine, circuit: &Circuit) -> Side<'e> {
    Side {
        engine,
        work: [(); 3].map(|()| vec![0; circuit.work_length()]),
        store: vec![0; 3 * circuit.view_length()],
        first: vec![0; circuit.first_length()],
        answer: vec![0; circuit.answer_length()],
        key: vec![0; circuit.inputs * circuit.ring.width],
    }
}

/// In nanoseconds for one call.
#[derive(Clone, Copy)]
struct Times {
    best: f64,
    sum: f64,
}

/// Turns of all engines until the time is over, at least five of each.
fn measure(sides: &mut [Side], input: &Input, call: usize, seconds: f64) -> (Vec<Times>, u64) {
    // The first calls also tell how many make a turn.
    let start = Instant::now();
    for side in sides.iter_mut() {
        for _ in 0..3 {
            side.call(input, call);
        }
    }
    let once = start.elapsed().as_nanos() as f64 / (3 * sides.len()) as f64;
    let batch = (20_000.0 / once).ceil().max(1.0) as u64;

    let mut times = vec![Times { best: f64::MAX, sum: 0.0 }; sides.len()];
    let start = Instant::now();
    let mut turns = 0;
    while turns < 5 || start.elapsed().as_secs_f64() < seconds {
        for i in 0..sides.len() {
            let i = if turns % 2 == 0 { i } else { sides.len() - 1 - i };
            let (used, start) = (thread_time(), Instant::now());
            for _ in 0..batch {
                sides[i].call(input, call);
            }
            times[i].best = times[i].best.min(start.elapsed().as_nanos() as f64 / batch as f64);
            times[i].sum += (thread_time() - used) as f64;
        }
        turns += 1;
    }
    (times, turns * batch)
}

#[cfg(exported)]
const EXPORTED: Option<&dyn Engine> = Some(&independent::ffi::Exported);
#[cfg(not(exported))]
const EXPORTED: Option<&dyn Engine> = None;

fn main() {
    let mut words = std::env::args().skip(1);
    let seconds = words.next().map_or(0.3, |word| word.parse().expect("a number of seconds"));
    let only = words.next();
    println!(
        "Microseconds of the best turn by the clock, and from these nanoseconds per gate and per byte of the views that a call"
    );
    println!("seals or copies (promise 3, answer 2, verify 2, extract 6; the independent engine seals 3 of these 6).");
    println!(
        "Ratio: exported to independent, by the best turn and by the processor time of all. Buffers not cleared before a call."
    );
    println!(
        "{:<7} {:<8} {:<4} {:>6} {:>6} {:>6} {:<8}| {:>11} {:>8} {:>8} | {:>11} {:>8} {:>8} | {:>6} {:>6} {:>7}",
        "size",
        "kind",
        "seal",
        "gates",
        "prods",
        "view",
        "call",
        "exported us",
        "ns/gate",
        "ns/byte",
        "indep. us",
        "ns/gate",
        "ns/byte",
        "best",
        "all",
        "calls"
    );
    for size in SIZES.iter().filter(|size| only.as_ref().is_none_or(|only| only == size.name)) {
        for ring in RINGS {
            for sealer in [1, 2] {
                let (circuit, input) = draw_input(ring, sealer, (size.shape)(ring));
                let mut sides = vec![new_side(&Independent, &circuit)];
                if let Some(exported) = EXPORTED {
                    sides.push(new_side(exported, &circuit));
                }
                for (call, name) in CALLS.iter().enumerate() {
                    let (times, calls) = measure(&mut sides, &input, call, seconds);
                    let bytes = VIEWS[call] * input.view;
                    let per =
                        |best: f64, n: usize| if n == 0 { "-".to_string() } else { format!("{:.2}", best / n as f64) };
                    let columns = |times: Option<&Times>| match times {
                        None => format!("{:>11} {:>8} {:>8}", "-", "-", "-"),
                        Some(Times { best, .. }) => {
                            format!(
                                "{:>11.2} {:>8} {:>8}",
                                best / 1e3,
                                per(*best, circuit.gates.len()),
                                per(*best, bytes)
                            )
                        }
                    };
                    let ratio = |of: fn(&Times) -> f64| match times.get(1) {
                        None => "-".to_string(),
                        Some(theirs) => format!("{:.2}", of(theirs) / of(&times[0])),
                    };
                    println!(
                        "{:<7} {:<8} {:<4} {:>6} {:>6} {:>6} {:<8}| {} | {} | {:>6} {:>6} {:>7}",
                        size.name,
                        ["bit", "word", "residue"][usize::from(ring.number) - 1],
                        ["SHA2", "SHA3"][usize::from(sealer) - 1],
                        circuit.gates.len(),
                        circuit.products(),
                        input.view,
                        name,
                        columns(times.get(1)),
                        columns(times.first()),
                        ratio(|times| times.best),
                        ratio(|times| times.sum),
                        calls
                    );
                }
            }
        }
    }
}
