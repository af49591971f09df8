//! Compares the proved report with the second program's on every text that
//! libFuzzer makes, led by the coverage of both. libFuzzer has the `main`.

#![no_main]

mod change;

use second::random::Random;
use second::report::report;
use std::sync::atomic::{AtomicU64, Ordering::Relaxed};
use std::sync::Once;

#[link(name = "outside_report", kind = "static")]
extern "C" {
    fn dentralupo_report(
        text: *const u8,
        text_len: usize,
        first: *mut u8,
        first_len: usize,
        stop: *mut usize,
        rest: *mut u8,
        rest_len: usize,
        upto: *mut usize,
    ) -> u32;
}

extern "C" {
    fn LLVMFuzzerMutate(data: *mut u8, size: usize, most: usize) -> usize;
    fn atexit(f: extern "C" fn()) -> i32;
}

/// No byte of a report.
const UNTOUCHED: u8 = 0xaa;

/// Room for every report: its first line, and the others.
const WHOLE: [usize; 2] = [64, 131_072];

/// What a call leaves in two buffers, and what it says.
#[derive(PartialEq, Eq)]
struct Lent {
    number: u32,
    first: Vec<u8>,
    stop: usize,
    rest: Vec<u8>,
    upto: usize,
}

impl Lent {
    /// As the proved report leaves them.
    fn given(text: &[u8], rooms: [usize; 2]) -> Lent {
        let [mut first, mut rest] = rooms.map(|room| vec![UNTOUCHED; room]);
        let (mut stop, mut upto) = (usize::MAX, usize::MAX);
        // SAFETY: every pointer goes with the length of its own live array, and
        // no two of them overlap.
        let number = unsafe {
            dentralupo_report(
                text.as_ptr(),
                text.len(),
                first.as_mut_ptr(),
                first.len(),
                &mut stop,
                rest.as_mut_ptr(),
                rest.len(),
                &mut upto,
            )
        };
        Lent { number, first, stop, rest, upto }
    }

    /// As a report has to stand in them: whole lines up to one that has no
    /// room, which is 15.
    fn due(report: &[u8], rooms: [usize; 2]) -> Lent {
        let mut lines = report.split_inclusive(|&byte| byte == b'\n');
        let first = put(lines.by_ref().take(1), rooms[0]);
        let rest = put(lines, rooms[1]);
        let number = if first.1.and(rest.1).is_some() { 0 } else { 15 };
        let ends = [first.1, rest.1].map(|end| end.unwrap_or(0));
        Lent { number, first: first.0, stop: ends[0], rest: rest.0, upto: ends[1] }
    }

    /// The bytes that it says are the report's.
    fn shown(&self) -> String {
        let [first, rest] = [(&self.first, self.stop), (&self.rest, self.upto)]
            .map(|(bytes, end)| String::from_utf8_lossy(&bytes[..end.min(bytes.len())]));
        format!("number {}, first {}, rest {}:\n{first}{rest}", self.number, self.stop, self.upto)
    }
}

/// Lines put into a room, and where they end if all had room.
fn put<'a>(lines: impl Iterator<Item = &'a [u8]>, room: usize) -> (Vec<u8>, Option<usize>) {
    let mut bytes = vec![UNTOUCHED; room];
    let mut end = 0;
    for line in lines {
        match bytes.get_mut(end..end + line.len()) {
            Some(place) => place.copy_from_slice(line),
            None => return (bytes, None),
        }
        end += line.len();
    }
    (bytes, Some(end))
}

fn compare(text: &[u8], report: &[u8], rooms: [usize; 2]) {
    let (due, given) = (Lent::due(report, rooms), Lent::given(text, rooms));
    if due != given {
        eprintln!("fuzz: they differ, with rooms of {rooms:?}");
        eprintln!("--- due: {}--- given: {}", due.shown(), given.shown());
        std::process::abort();
    }
}

/// How many texts ended with which refusal of the text or a step, 0 for none,
/// and how many steps were taken.
static TEXTS: [AtomicU64; 16] = [const { AtomicU64::new(0) }; 16];
static STEPS: [AtomicU64; 16] = [const { AtomicU64::new(0) }; 16];
static TAKEN: AtomicU64 = AtomicU64::new(0);

fn count(report: &[u8]) {
    let report = std::str::from_utf8(report).expect("a report is ASCII");
    let second = |line: Option<&str>| -> usize {
        let word = line.and_then(|line| line.split(' ').nth(1));
        word.and_then(|word| word.parse().ok()).expect("a number is second")
    };
    let first = second(report.lines().next());
    if report.starts_with("text") {
        TEXTS[first].fetch_add(1, Relaxed);
    } else {
        STEPS[second(report.lines().last())].fetch_add(1, Relaxed);
        TAKEN.fetch_add(first as u64, Relaxed);
    }
}

extern "C" fn tell() {
    let list = |counts: &[AtomicU64]| {
        let each = counts.iter().enumerate().map(|(n, many)| (n, many.load(Relaxed)));
        let each = each.filter(|&(_, many)| many > 0).map(|(n, many)| format!("{n}: {many}"));
        each.collect::<Vec<_>>().join(", ")
    };
    eprintln!(
        "fuzz: texts refused by {}; steps refused by (0: none) {}; steps taken {}",
        list(&TEXTS),
        list(&STEPS),
        TAKEN.load(Relaxed)
    );
}

/// # Safety
/// libFuzzer lends `size` bytes at `data`.
#[no_mangle]
pub unsafe extern "C" fn LLVMFuzzerTestOneInput(data: *const u8, size: usize) -> i32 {
    static ONCE: Once = Once::new();
    ONCE.call_once(|| {
        atexit(tell);
    });
    // An empty text may come with no address.
    let text = if size == 0 { &[] } else { std::slice::from_raw_parts(data, size) };
    let report = report(text);
    compare(text, &report, WHOLE);
    // Some room that is mostly too short, the same for the same text.
    let mut random = Random::of_case(text.len() as u64, text.iter().map(|&b| u64::from(b)).sum());
    compare(text, &report, [random.below(16), random.below(report.len() + 1)]);
    count(&report);
    0
}

/// Changes a text by the steps that it says, by a damage, or as libFuzzer
/// would.
///
/// # Safety
/// libFuzzer lends `most` bytes at `data`, of which the first `size` are the
/// text.
#[no_mangle]
pub unsafe extern "C" fn LLVMFuzzerCustomMutator(
    data: *mut u8,
    size: usize,
    most: usize,
    seed: u32,
) -> usize {
    let mut random = Random::of_case(u64::from(seed), size as u64);
    let text = std::slice::from_raw_parts(data, size);
    match change::changed(&mut random, text) {
        Some(text) if text.len() <= most => {
            std::ptr::copy_nonoverlapping(text.as_ptr(), data, text.len());
            text.len()
        }
        _ => LLVMFuzzerMutate(data, size, most),
    }
}
