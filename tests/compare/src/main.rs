//! Compares the eight calls of the library with the reference, on inputs that are drawn from a seed.
//!
//!     compare --seed S --inputs N [--from K] [--threads 2]     compares inputs K to K + N - 1 of the seed
//!     compare --seed S --inputs N --seconds T [--least M]      the same for T seconds at the most, or longer, until M were compared
//!     compare --seed S --only K                                compares input K alone and prints it with both answers
//!
//! It ends with 0 if both sides agree on every input, every outcome that a call can have was seen, and every sort of input was seen often
//! enough, else with 1; with 2 if it is not called as above. An input that takes over half a minute ends it too. Should the library break
//! off the whole program, then halving with --from and --inputs finds the input.

mod calls;
mod cards;
mod declined;
mod draw;
mod faults;
mod inputs;
mod limits;
mod lines;
mod outcomes;
mod rules;
mod sorts;
mod tables;
mod tokens;
mod truths;

use calls::Space;
use outcomes::Tally;
use std::panic::{catch_unwind, AssertUnwindSafe};
use std::process::ExitCode;
use std::sync::atomic::{AtomicBool, AtomicU64, Ordering};
use std::sync::Mutex;
use std::time::{Duration, Instant};

/// Inputs that a thread takes at a time.
const BATCH: u64 = 64;

/// No input takes as long as this, unless one side comes to no end.
const LONGEST: Duration = Duration::from_secs(30);

/// What stands for no input.
const NONE: u64 = u64::MAX;

/// What the program is asked to do.
struct Order {
    seed: u64,
    from: u64,
    inputs: u64,
    only: Option<u64>,
    seconds: Option<u64>,
    least: u64,
    threads: u64,
}

fn order() -> Result<Order, String> {
    let mut order = Order { seed: 1, from: 0, inputs: 1_000_000, only: None, seconds: None, least: 20_000, threads: 1 };
    let mut words = std::env::args().skip(1);
    while let Some(word) = words.next() {
        let given = words.next().ok_or(format!("{word} needs a number"))?;
        let number: u64 = given.parse().map_err(|_| format!("{word} needs a number, not {given}"))?;
        match word.as_str() {
            "--seed" => order.seed = number,
            "--from" => order.from = number,
            "--inputs" => order.inputs = number,
            "--only" => order.only = Some(number),
            "--seconds" => order.seconds = Some(number),
            "--least" => order.least = number,
            "--threads" => order.threads = number.clamp(1, 2),
            _ => return Err(format!("{word} is unknown")),
        }
    }
    Ok(order)
}

/// What the threads share.
struct Shared {
    next: AtomicU64,
    stop: AtomicBool,
    total: Mutex<Tally>,
    difference: Mutex<Option<String>>,
    /// The input that each thread is at.
    at: [AtomicU64; 2],
}

/// Compares one input. Where the sides differ, or the reference breaks off, the error tells everything.
fn compare(order: &Order, number: u64, space: &mut Space, tally: &mut Tally) -> Result<(), String> {
    let again = format!("again:  compare --seed {} --only {number}", order.seed);
    let compared = catch_unwind(AssertUnwindSafe(|| {
        let input = inputs::input(order.seed, number);
        match space.compare(&input) {
            Ok(outcome) => {
                tally.count(input.call, outcome, &space.seen(&input, outcome));
                Ok(())
            }
            Err(what) => Err(format!("difference: {what}\n{}\n{}\n{again}", calls::printed(&input), space.describe(&input))),
        }
    }));
    compared.unwrap_or_else(|_| Err(format!("difference: the reference, or the drawing, broke off at input {number}\n{again}")))
}

/// Compares inputs until there are none left, the time is over or a difference was found.
fn work(order: &Order, shared: &Shared, at: &AtomicU64, started: Instant) {
    let (mut space, mut tally) = (Space::default(), Tally::default());
    let end = order.from + order.inputs;
    while !shared.stop.load(Ordering::Relaxed) {
        let first = shared.next.fetch_add(BATCH, Ordering::Relaxed);
        let time_is_over = order.seconds.is_some_and(|seconds| started.elapsed() >= Duration::from_secs(seconds));
        if first >= end || time_is_over && first >= order.from + order.least {
            break;
        }
        for number in first..end.min(first + BATCH) {
            at.store(number, Ordering::Relaxed);
            if let Err(difference) = compare(order, number, &mut space, &mut tally) {
                shared.stop.store(true, Ordering::Relaxed);
                shared.difference.lock().expect("no thread panics").get_or_insert(difference);
                break;
            }
        }
    }
    shared.total.lock().expect("no thread panics").add(&tally);
    at.store(NONE, Ordering::Relaxed);
}

/// Waits until every thread is at no input any more, and ends the program if one stays at the same input for too long.
fn watch(order: &Order, shared: &Shared) {
    let mut seen = [(NONE, Instant::now()); 2];
    while shared.at.iter().any(|at| at.load(Ordering::Relaxed) != NONE) {
        std::thread::sleep(Duration::from_millis(5));
        for (at, (number, since)) in shared.at.iter().zip(&mut seen) {
            let now = at.load(Ordering::Relaxed);
            if now != *number {
                (*number, *since) = (now, Instant::now());
            } else if now != NONE && since.elapsed() > LONGEST {
                println!("compare: no answer within {} seconds: compare --seed {} --only {now}", LONGEST.as_secs(), order.seed);
                std::process::exit(1);
            }
        }
    }
}

/// Compares input after input, and says whether all is well.
fn compare_many(order: &Order) -> bool {
    // a thread that is not started is at no input, and one that is counts as being at the first until it says more
    let at = [0, 1].map(|thread| AtomicU64::new(if thread < order.threads { order.from } else { NONE }));
    let shared = Shared {
        next: AtomicU64::new(order.from),
        stop: AtomicBool::new(false),
        total: Mutex::new(Tally::default()),
        difference: Mutex::new(None),
        at,
    };
    let started = Instant::now();
    std::thread::scope(|scope| {
        for at in shared.at.iter().take(order.threads as usize) {
            scope.spawn(|| work(order, &shared, at, started));
        }
        watch(order, &shared);
    });
    let tally = shared.total.into_inner().expect("no thread panics");
    if let Some(difference) = shared.difference.into_inner().expect("no thread panics") {
        println!("{difference}\ncompare: a difference after {} inputs that agree (seed {})", tally.total(), order.seed);
        return false;
    }
    tally.print();
    let seconds = started.elapsed().as_secs_f64();
    println!("{seconds:.1} seconds, {:.0} inputs a second", tally.total() as f64 / seconds);
    enough(order, &tally)
}

/// Whether as many inputs were compared as wanted, every outcome was seen, and every sort of input often enough.
fn enough(order: &Order, tally: &Tally) -> bool {
    let unseen = tally.unseen();
    let wanted = if order.seconds.is_some() { order.least.min(order.inputs) } else { order.inputs };
    if tally.total() < wanted {
        println!("compare: only {} inputs compared, wanted {wanted} (seed {})", tally.total(), order.seed);
        return false;
    }
    if !unseen.is_empty() {
        println!(
            "compare: {} inputs agree, but these outcomes or sorts of input were not seen, or too seldom: {} (seed {})",
            tally.total(),
            unseen.join(", "),
            order.seed
        );
        return false;
    }
    println!("compare: {} inputs agree (seed {})", tally.total(), order.seed);
    true
}

/// Compares one input and prints everything about it.
fn compare_one(order: &Order, number: u64) -> bool {
    let input = inputs::input(order.seed, number);
    println!("{}", calls::printed(&input));
    let mut space = Space::default();
    let compared = space.compare(&input);
    println!("{}", space.describe(&input));
    match compared {
        Ok(_) => println!("compare: input {number} agrees (seed {})", order.seed),
        Err(ref what) => println!("compare: input {number} differs: {what} (seed {})", order.seed),
    }
    compared.is_ok()
}

fn main() -> ExitCode {
    let order = match order() {
        Ok(order) => order,
        Err(what) => {
            eprintln!("compare: {what}");
            return ExitCode::from(2);
        }
    };
    let well = match order.only {
        Some(number) => compare_one(&order, number),
        None => compare_many(&order),
    };
    ExitCode::from(u8::from(!well))
}
