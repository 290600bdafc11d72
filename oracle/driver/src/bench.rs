//! Times: nanoseconds per call of the port beside the Rust, or beside the stand-in where the Rust has no such function,
//! on the same bytes in one run. Each figure is the median of several rounds after a warm-up.

mod by_identifier;
mod dialogs;
mod numbers;
mod pracks;
mod rseqs;
mod store;
mod tables;

use dialogs::dialogs;
use sip_core::{block, Headers, SipUri};
use sip_dialog::storage::private;
use smol_str::SmolStr;
use std::hint::black_box;
use std::time::{Duration, Instant};
use tables::Plan;

/// Rounds per figure, and how long a round lasts.
const ROUNDS: usize = 25;
const ROUND: Duration = Duration::from_millis(2);

/// A named way to do the work on one text.
type Side<'a> = (&'a str, Box<dyn Fn() + 'a>);

/// Times every reading for sizes 64, 128, .. 8,192 bytes and prints a table for each.
pub fn run() -> bool {
    println!("Nanoseconds per call (and per byte), medians of {ROUNDS} rounds after a warm-up.");
    println!("A port call on a block includes the check of the whole block, as its contract asks.");
    println!("The stand-in's texts are copied to the heap; the real SmolStr keeps those up to 23 bytes in place.");
    table("block check", lines_block, block_check);
    table("header look-up, on the last line", lines_block, look_up);
    table("tag, after other parameters", tag_value, tag);
    table("URI, a long user", uri_text, uri);
    table("CSeq number, leading zeros", cseq_block, cseq);
    dialogs();
    on_stores(&Plan::Times);
    true
}

/// The tables of calls on stores.
fn on_stores(plan: &Plan) {
    store::stores(plan);
    numbers::numbers(plan);
}

/// Names every call on a store, a line each.
pub fn names() -> bool {
    on_stores(&Plan::Names);
    true
}

/// Makes one of these calls, for callgrind to count.
pub fn one(call: [String; 3]) -> bool {
    on_stores(&Plan::One(call));
    true
}

/// One table: a line for each size.
fn table(title: &str, text: fn(usize) -> Vec<u8>, sides: for<'a> fn(&'a [u8]) -> Vec<Side<'a>>) {
    table_from(64, title, text, sides);
}

/// The same from a given size on.
fn table_from(smallest: usize, title: &str, text: fn(usize) -> Vec<u8>, sides: for<'a> fn(&'a [u8]) -> Vec<Side<'a>>) {
    println!("\n{title}");
    let sample = text(smallest);
    let names = sides(&sample).into_iter().map(|(name, _)| format!("{name:>34}"));
    println!("{:>6} {}", "bytes", names.collect::<Vec<_>>().join(" "));
    for size in (6..=13).map(|power| 1 << power).filter(|size| *size >= smallest) {
        let text = text(size);
        assert_eq!(text.len(), size);
        let figures = medians(&sides(&text)).into_iter().map(|time| {
            let per_byte = time / size as f64;
            format!("{:>34}", format!("{time:.0} ({per_byte:.2})"))
        });
        println!("{size:>6} {}", figures.collect::<Vec<_>>().join(" "));
    }
}

/// The median time of one call of each side, in nanoseconds. The sides take turns, so that both meet the same load.
fn medians(sides: &[Side]) -> Vec<f64> {
    let calls: Vec<u32> = sides.iter().map(|(_, work)| warm_up(work)).collect();
    let mut times = vec![Vec::new(); sides.len()];
    for _ in 0..ROUNDS {
        for (index, (_, work)) in sides.iter().enumerate() {
            times[index].push(round(work, calls[index]));
        }
    }
    let middle = |mut rounds: Vec<f64>| {
        rounds.sort_by(f64::total_cmp);
        rounds[ROUNDS / 2]
    };
    times.into_iter().map(middle).collect()
}

/// Works for the length of a round; answers how many calls that takes.
fn warm_up(work: &dyn Fn()) -> u32 {
    let start = Instant::now();
    let mut calls = 0;
    while start.elapsed() < ROUND {
        work();
        calls += 1;
    }
    calls
}

/// One round: the time of one call.
fn round(work: &dyn Fn(), calls: u32) -> f64 {
    let start = Instant::now();
    for _ in 0..calls {
        work();
    }
    start.elapsed().as_nanos() as f64 / f64::from(calls)
}

/// A block of ordinary lines whose last line is `CSeq`.
fn lines_block(size: usize) -> Vec<u8> {
    let line = b"Via: SIP/2.0/UDP h;rport\r\n";
    let last = b"CSeq: 7 BYE\r\n";
    let mut text = line.repeat((size - last.len()) / line.len() - 1);
    let missing = size - text.len() - last.len() - b"Q: \r\n".len();
    text.extend([b"Q: ", vec![b'x'; missing].as_slice(), b"\r\n", last].concat());
    text
}

/// A From value whose tag comes last.
fn tag_value(size: usize) -> Vec<u8> {
    padded(b"<sip:alice@example.org>", b";p=1", b";tag=1928301774", size)
}

/// A URI whose user fills it.
fn uri_text(size: usize) -> Vec<u8> {
    padded(b"sip:", b"u", b"@example.org:5060;lr", size)
}

/// A block of one CSeq line, its number after leading zeros.
fn cseq_block(size: usize) -> Vec<u8> {
    padded(b"CSeq: ", b"0", b"314159 INVITE\r\n", size)
}

/// Front and end with a repeated filling between them, the last filling cut to the size.
fn padded(front: &[u8], filling: &[u8], end: &[u8], size: usize) -> Vec<u8> {
    let missing = size - front.len() - end.len();
    let between: Vec<u8> = filling.iter().copied().cycle().take(missing).collect();
    [front, &between, end].concat()
}

/// The bytes as text.
fn text_of(bytes: &[u8]) -> &str {
    std::str::from_utf8(bytes).expect("ASCII")
}

/// The form of a block. The Rust has no such function.
fn block_check(bytes: &[u8]) -> Vec<Side<'_>> {
    vec![
        (
            "Rattle check_block",
            Box::new(|| {
                black_box(port::check_block(black_box(bytes)));
            }),
        ),
        (
            "stand-in: list of lines",
            Box::new(|| {
                black_box(block::lines(black_box(bytes)));
            }),
        ),
        (
            "stand-in: Headers::parse",
            Box::new(|| {
                black_box(Headers::parse(black_box(bytes)));
            }),
        ),
    ]
}

/// The first line of a name. The Rust looks up in lines that are already parsed.
fn look_up(bytes: &[u8]) -> Vec<Side<'_>> {
    let headers = Headers::parse(bytes).expect("a block");
    vec![
        (
            "Rattle header",
            Box::new(|| {
                let mut part = port::Part {
                    found: 0,
                    place: 0,
                    length: 0,
                };
                port::header(black_box(bytes), black_box(b"cseq"), &mut part);
                black_box(part);
            }),
        ),
        (
            "stand-in: Headers::parse, get",
            Box::new(|| {
                let headers = Headers::parse(black_box(bytes)).expect("a block");
                black_box(headers.get(black_box("cseq")));
            }),
        ),
        (
            "stand-in: get, already parsed",
            Box::new(move || {
                black_box(black_box(&headers).get(black_box("cseq")));
            }),
        ),
    ]
}

/// The tag of a value. The Rust's value is already a text of its own.
fn tag(bytes: &[u8]) -> Vec<Side<'_>> {
    let value = SmolStr::new(text_of(bytes));
    vec![
        (
            "Rattle extract_tag",
            Box::new(|| {
                let (mut place, mut length) = (0, 0);
                port::extract_tag(black_box(bytes), &mut place, &mut length);
                black_box((place, length));
            }),
        ),
        (
            "Rust extract_tag",
            Box::new(move || {
                drop(black_box(sip_dialog::extract_tag(black_box(&value))));
            }),
        ),
    ]
}

/// The parts of a URI. The Rust has no such function in a listed file.
fn uri(bytes: &[u8]) -> Vec<Side<'_>> {
    vec![
        (
            "Rattle sip_uri",
            Box::new(|| {
                let mut uri = port::Uri {
                    secure: 0,
                    user: 0,
                    user_length: 0,
                    host: 0,
                    host_length: 0,
                    has_port: 0,
                    port: 0,
                };
                port::sip_uri(black_box(bytes), &mut uri);
                black_box(uri);
            }),
        ),
        (
            "stand-in: SipUri::parse",
            Box::new(|| {
                drop(black_box(SipUri::parse(black_box(text_of(bytes)))));
            }),
        ),
    ]
}

/// The CSeq's number. The Rust reads from lines that are already parsed.
fn cseq(bytes: &[u8]) -> Vec<Side<'_>> {
    let headers = Headers::parse(bytes).expect("a block");
    vec![
        (
            "Rattle cseq_number",
            Box::new(|| {
                let mut number = 0;
                port::cseq_number(black_box(bytes), &mut number);
                black_box(number);
            }),
        ),
        (
            "stand-in parse, Rust parse_cseq",
            Box::new(|| {
                let headers = Headers::parse(black_box(bytes)).expect("a block");
                black_box(private::parse_cseq_number(&headers));
            }),
        ),
        (
            "Rust parse_cseq, already parsed",
            Box::new(move || {
                black_box(private::parse_cseq_number(black_box(&headers)));
            }),
        ),
    ]
}
