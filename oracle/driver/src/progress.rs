//! How many calls have been compared, and the line on standard error that says so while a long run works.

use std::cell::{Cell, RefCell};
use std::io::IsTerminal;
use std::time::{Duration, Instant};

thread_local! {
    static COMPARED: Cell<u64> = const { Cell::new(0) };
    static DIFFERING: Cell<u64> = const { Cell::new(0) };
    static LINE: RefCell<Option<Line>> = const { RefCell::new(None) };
}

/// The line: what is compared now, how many calls there are to be, and when it was last written.
struct Line {
    part: &'static str,
    calls: u64,
    written: Instant,
}

/// The clock is looked at after so many calls.
const CALLS: u64 = 1000;

/// Begins the line of a run of so many calls.
pub fn begin(calls: u64) {
    COMPARED.set(0);
    DIFFERING.set(0);
    let line = Line {
        part: "",
        calls,
        written: Instant::now(),
    };
    LINE.set(Some(line));
}

/// Says what is compared from now on.
pub fn part(part: &'static str) {
    LINE.with_borrow_mut(|line| {
        if let Some(line) = line {
            line.part = part;
            line.write();
        }
    });
}

/// Counts a call that was compared.
pub fn compared(same: bool) {
    let compared = COMPARED.get() + 1;
    COMPARED.set(compared);
    DIFFERING.set(DIFFERING.get() + u64::from(!same));
    if compared % CALLS == 0 {
        LINE.with_borrow_mut(|line| {
            if let Some(line) = line.as_mut().filter(|line| line.written.elapsed() >= pause()) {
                line.write();
            }
        });
    }
}

/// How many calls were compared since `begin`.
pub fn so_far() -> u64 {
    COMPARED.get()
}

/// Ends the line.
pub fn end() {
    part("done");
    if LINE.take().is_some() && std::io::stderr().is_terminal() {
        eprintln!();
    }
}

/// How long a line stands before the next one: a kept log gets fewer of them.
fn pause() -> Duration {
    if std::io::stderr().is_terminal() {
        Duration::from_millis(500)
    } else {
        Duration::from_secs(10)
    }
}

impl Line {
    /// Writes it, on a terminal over the last one.
    fn write(&mut self) {
        let (compared, differing) = (COMPARED.get(), DIFFERING.get());
        let text = format!(
            "{compared} of {} calls compared, {differing} differing; {}",
            self.calls, self.part
        );
        if std::io::stderr().is_terminal() {
            eprint!("\r{text:<79}");
        } else {
            eprintln!("{text}");
        }
        self.written = Instant::now();
    }
}
