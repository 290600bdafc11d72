//! The tables of calls on stores of N things: each call made alone, after what the one before it changed has been put back.
//! A table is printed in nanoseconds, or one of its calls is made for callgrind to count.

use std::hint::black_box;
use std::sync::atomic::{AtomicBool, Ordering};
use std::time::{Duration, Instant};

/// What the tables are gone through for.
pub enum Plan {
    /// Each is printed, in nanoseconds.
    Times,
    /// Each call is named in a line: table, size, side, and the side's name.
    Names,
    /// One call is made, of a table, a size and a side as they are named.
    One([String; 3]),
}

/// The fewest and the most calls for a figure, and about how long they may take.
const FEWEST: usize = 31;
const MOST: usize = 2001;
const TIME: Duration = Duration::from_millis(300);

/// A named way to do one call: puts back what the last one changed, then answers the call's own time.
pub type Side<'a> = (&'a str, Box<dyn FnMut() -> Duration + 'a>);

/// Makes both sides of so many things; the sides of a table.
pub type Make<B> = fn(usize) -> B;
pub type Sides<B> = for<'a> fn(&'a B) -> Vec<Side<'a>>;

/// One table of a title, with a line for each number of such things.
pub fn table<B>(plan: &Plan, [title, things]: [&str; 2], sizes: &[usize], make: Make<B>, sides: Sides<B>) {
    match plan {
        Plan::Times => print_times([title, things], sizes, make, sides),
        Plan::Names => print_names(title, sizes, make, sides),
        Plan::One([of, size, side]) if of == title => {
            let (size, side) = (size.parse().expect("a size"), side.parse::<usize>().expect("a side"));
            let both = make(size);
            make_one(&mut sides(&both)[side]);
        }
        Plan::One(_) => {}
    }
}

/// A line for each size: nanoseconds per call of each side.
fn print_times<B>([title, things]: [&str; 2], sizes: &[usize], make: Make<B>, sides: Sides<B>) {
    println!("\n{title}");
    let sample = make(1);
    let names = sides(&sample).into_iter().map(|(name, _)| format!("{name:>34}"));
    println!("{things:>7} {}", names.collect::<Vec<_>>().join(" "));
    for size in sizes {
        let both = make(*size);
        let figures = medians(&mut sides(&both)).into_iter().map(|time| format!("{time:>34}"));
        println!("{size:>7} {}", figures.collect::<Vec<_>>().join(" "));
    }
}

/// A line for each size and side.
fn print_names<B>(title: &str, sizes: &[usize], make: Make<B>, sides: Sides<B>) {
    let sample = make(1);
    for size in sizes {
        for (index, (name, _)) in sides(&sample).into_iter().enumerate() {
            println!("{title}\t{size}\t{index}\t{name}");
        }
    }
}

/// Whether a call is made only so that the next one finds everything in place.
static FIRST: AtomicBool = AtomicBool::new(false);

/// Makes a call twice; only the second one goes through `measured`.
fn make_one((_, call): &mut Side) {
    FIRST.store(true, Ordering::Relaxed);
    call();
    FIRST.store(false, Ordering::Relaxed);
    call();
}

/// The median time of one call of each side, in nanoseconds. The sides take turns, so that both meet the same load; each
/// makes a call untimed before, so that the caches hold its own bytes.
fn medians(sides: &mut [Side]) -> Vec<u128> {
    let start = Instant::now();
    for (_, call) in sides.iter_mut() {
        call();
    }
    let rounds = (TIME.as_nanos() / start.elapsed().as_nanos().max(1)) as usize;
    let mut times = vec![Vec::new(); sides.len()];
    for _ in 0..rounds.clamp(FEWEST, MOST) {
        for (index, (_, call)) in sides.iter_mut().enumerate() {
            call();
            times[index].push(call().as_nanos());
        }
    }
    let clock = median((0..MOST).map(|_| timed(|| ()).as_nanos()).collect());
    let less_clock = |times| median(times).saturating_sub(clock);
    times.into_iter().map(less_clock).collect()
}

/// The number in the middle.
fn median(mut numbers: Vec<u128>) -> u128 {
    numbers.sort_unstable();
    numbers[numbers.len() / 2]
}

/// The time of one call.
pub fn timed<T>(call: impl FnOnce() -> T) -> Duration {
    if FIRST.load(Ordering::Relaxed) {
        black_box(call());
        return Duration::ZERO;
    }
    let start = Instant::now();
    black_box(measured(call));
    start.elapsed()
}

/// The call itself, in a function that callgrind can tell by its name.
#[inline(never)]
fn measured<T>(call: impl FnOnce() -> T) -> T {
    call()
}
