//! Compares single steps of the proved runner with this one's, from random
//! states, by calls that are sometimes odd.

use second::call::{make_odd, Words, ODD};
use second::image::{answer_words, state_words, step_words, word_name, KINDS, WORDS};
use second::machine::{Answer, Machine, Write};
use second::random::Random;
use second::states::{any_step, of_case, Case};
use std::collections::BTreeMap;
use std::process::ExitCode;

const USAGE: &str = "usage:
  steps [--seed N] [--count N]
  steps [--seed N] --case K
";

const SEED: u64 = 1;
const COUNT: u64 = 1_000_000;

/// A write as the library is lent it.
#[repr(C)]
#[derive(Clone, Copy, Debug, PartialEq, Eq)]
struct Record {
    cell: u32,
    stamp: u32,
    value: u32,
}

impl From<&Write> for Record {
    fn from(&Write { cell, stamp, value }: &Write) -> Record {
        Record { cell, stamp, value }
    }
}

#[link(name = "outside", kind = "static")]
extern "C" {
    fn dentralupo_step(
        state: *mut u32,
        state_len: usize,
        writes: *mut Record,
        writes_len: usize,
        asked: *const u32,
        asked_len: usize,
        answer: *mut u32,
        answer_len: usize,
    ) -> u32;
}

/// Neither a kind nor a value of ours, so that an answer that is missing shows,
/// and one that is written though the call is refused.
const UNANSWERED: [u32; 2] = [u32::MAX; 2];

/// What the library is lent.
#[derive(Clone, PartialEq, Eq)]
struct Lent {
    words: Words,
    list: Vec<Record>,
}

impl Lent {
    fn of_case(case: &Case) -> Lent {
        let state = image(&case.machine).to_vec();
        let words = Words { state, asked: Vec::new(), answer: UNANSWERED.to_vec() };
        Lent { words, list: case.list.iter().map(Record::from).collect() }
    }

    /// Lets the library take one step; gives the number that it returns.
    fn call(&mut self) -> u32 {
        let Lent { words: Words { state, asked, answer }, list } = self;
        // SAFETY: every pointer goes with the length of its own live vector, and
        // no two of them overlap.
        unsafe {
            dentralupo_step(
                state.as_mut_ptr(),
                state.len(),
                list.as_mut_ptr(),
                list.len(),
                asked.as_ptr(),
                asked.len(),
                answer.as_mut_ptr(),
                answer.len(),
            )
        }
    }

    /// What a taken step leaves; what follows image and answer stays.
    fn take(&mut self, machine: &Machine, list: &[Write], answer: Answer) {
        self.words.state[..WORDS].copy_from_slice(&image(machine));
        self.words.answer[..2].copy_from_slice(&answer_words(answer));
        self.list.clear();
        self.list.extend(list.iter().map(Record::from));
    }

    /// Each word that is not as it is due.
    fn differences(&self, due: &Lent) -> Vec<String> {
        let state = apart(&due.words.state, &self.words.state)
            .map(|(at, due, given)| format!("word {at} ({}): due {due}, given {given}", name(at)));
        let answer = apart(&due.words.answer, &self.words.answer)
            .map(|(at, due, given)| format!("answer {at}: due {due}, given {given}"));
        let records = apart(&due.list, &self.list)
            .map(|(at, due, given)| format!("record {at}: due {due:?}, given {given:?}"));
        state.chain(answer).chain(records).collect()
    }
}

fn image(machine: &Machine) -> [u32; WORDS] {
    let mut words = [0; WORDS];
    state_words(machine, &mut words);
    words
}

fn name(word: usize) -> String {
    if word < WORDS {
        word_name(word)
    } else {
        "past the image".into()
    }
}

/// Where two lists of one length differ, and how.
fn apart<'a, T: Copy + PartialEq>(
    due: &'a [T],
    given: &'a [T],
) -> impl Iterator<Item = (usize, T, T)> + 'a {
    let pairs = due.iter().copied().zip(given.iter().copied()).enumerate();
    pairs.filter(|(_, (due, given))| due != given).map(|(at, (due, given))| (at, due, given))
}

#[derive(Default)]
struct Counts {
    calls: u64,
    cases: u64,
    kinds: [u64; KINDS.len()],
    refused: BTreeMap<u32, u64>,
    /// Of the refused ones, those that are refused before their step.
    before: BTreeMap<u32, u64>,
    odd: [u64; ODD.len()],
    /// Of the odd ones, those that are odd in several ways.
    several: u64,
}

impl Counts {
    fn line(&self) -> String {
        let named = |names: &[&str], many: &[u64]| {
            let each = names.iter().zip(many).map(|(name, many)| format!("{name} {many}"));
            each.collect::<Vec<_>>().join(", ")
        };
        let numbered = |many: &BTreeMap<u32, u64>| {
            let each = many.iter().map(|(number, many)| format!("{number}: {many}"));
            each.collect::<Vec<_>>().join(", ")
        };
        format!(
            "{}; refused by {}; of these before the step {}; odd calls: {}, in several ways {}",
            named(&KINDS, &self.kinds),
            numbered(&self.refused),
            numbered(&self.before),
            named(&ODD, &self.odd),
            self.several
        )
    }
}

/// Compares the calls of one case; says whether all agree.
fn compare(seed: u64, number: u64, counts: &mut Counts, show: bool) -> bool {
    let mut random = Random::of_case(seed, number);
    let mut case = of_case(&mut random);
    let mut plain = Lent::of_case(&case);
    for before in 0..case.steps {
        let step = any_step(&mut random, &case.machine, &case.list);
        plain.words.asked.clear();
        plain.words.asked.extend(step_words(step));
        plain.words.answer.copy_from_slice(&UNANSWERED);
        let mut lent = plain.clone();
        let odd = match random.below(10) {
            0 => make_odd(&mut random, &mut lent.words),
            _ => Vec::new(),
        };

        let mut due = lent.clone();
        let refused = lent.words.refused();
        let stepped = match refused {
            Some(number) => Err(number),
            None => {
                let stepped = case.machine.step(&mut case.list, step);
                stepped.map_err(|refusal| refusal.number().into())
            }
        };
        if let Ok(answer) = stepped {
            due.take(&case.machine, &case.list, answer);
        }
        let due_number = stepped.err().unwrap_or(0);
        let given_number = lent.call();

        if show {
            let ways: Vec<_> = odd.iter().map(|&way| ODD[way]).collect();
            println!("{step:?} {ways:?}: {stepped:?}");
        }
        if due_number != given_number || due != lent {
            println!("steps: case {number} of seed {seed} differs at its call {}", before + 1);
            println!("{step:?}");
            println!("due {stepped:?}, number {due_number}, given {given_number}");
            for difference in lent.differences(&due) {
                println!("{difference}");
            }
            println!("made again by: steps --seed {seed} --case {number}");
            return false;
        }

        counts.calls += 1;
        match stepped {
            Ok(_) => counts.kinds[lent.words.answer[0] as usize] += 1,
            Err(number) => *counts.refused.entry(number).or_default() += 1,
        }
        if let Some(number) = refused {
            *counts.before.entry(number).or_default() += 1;
        } else {
            // The library goes on from what it wrote itself.
            plain.words.state.copy_from_slice(&lent.words.state[..WORDS]);
            plain.list = lent.list;
        }
        counts.several += u64::from(odd.len() > 1);
        for way in odd {
            counts.odd[way] += 1;
        }
    }
    counts.cases += 1;
    true
}

struct Options {
    seed: u64,
    count: Option<u64>,
    case: Option<u64>,
}

fn options() -> Option<Options> {
    let mut options = Options { seed: SEED, count: None, case: None };
    let mut words = std::env::args().skip(1);
    while let Some(word) = words.next() {
        let given = words.next()?.parse().ok()?;
        match word.as_str() {
            "--seed" => options.seed = given,
            "--count" => options.count = Some(given),
            "--case" => options.case = Some(given),
            _ => return None,
        }
    }
    let both = options.count.is_some() && options.case.is_some();
    (!both).then_some(options)
}

fn main() -> ExitCode {
    let Some(Options { seed, count, case }) = options() else {
        eprint!("{USAGE}");
        return ExitCode::from(2);
    };
    let mut counts = Counts::default();
    if let Some(case) = case {
        if !compare(seed, case, &mut counts, true) {
            return ExitCode::FAILURE;
        }
    } else {
        let count = count.unwrap_or(COUNT);
        for case in 0.. {
            if counts.calls >= count {
                break;
            }
            if !compare(seed, case, &mut counts, false) {
                return ExitCode::FAILURE;
            }
        }
    }
    println!(
        "steps: {} agree in {} cases (seed {seed}): {}",
        counts.calls,
        counts.cases,
        counts.line()
    );
    ExitCode::SUCCESS
}
