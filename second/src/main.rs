//! The commands: the report itself, and comparisons of a report program with it
//! on many texts.

use second::{damage, report, schedules, text};
use std::collections::BTreeMap;
use std::io::{self, Read, Write};
use std::process::{Command, ExitCode, ExitStatus, Stdio};
use std::thread;

const USAGE: &str = "usage:
  second report
  second schedules [--seed N] [--count N] --against PATH
  second damaged   [--seed N] [--count N] --against PATH
  second one schedules|damaged [--seed N] --case K
";

const SEED: u64 = 1;
const COUNT: u64 = 2_000;

/// Which texts to make.
#[derive(Clone, Copy)]
enum Texts {
    Schedules,
    Damaged,
}

impl Texts {
    fn named(word: &str) -> Option<Texts> {
        match word {
            "schedules" => Some(Texts::Schedules),
            "damaged" => Some(Texts::Damaged),
            _ => None,
        }
    }

    fn name(self) -> &'static str {
        match self {
            Texts::Schedules => "schedules",
            Texts::Damaged => "damaged",
        }
    }

    fn text(self, seed: u64, case: u64) -> Vec<u8> {
        match self {
            Texts::Schedules => schedules::of_case(seed, case),
            Texts::Damaged => damage::of_case(seed, case),
        }
    }
}

#[derive(Default)]
struct Options {
    seed: Option<u64>,
    count: Option<u64>,
    case: Option<u64>,
    against: Option<String>,
}

fn options(mut words: impl Iterator<Item = String>) -> Option<Options> {
    let mut options = Options::default();
    while let Some(word) = words.next() {
        let given = words.next()?;
        match word.as_str() {
            "--seed" => options.seed = Some(given.parse().ok()?),
            "--count" => options.count = Some(given.parse().ok()?),
            "--case" => options.case = Some(given.parse().ok()?),
            "--against" => options.against = Some(given),
            _ => return None,
        }
    }
    Some(options)
}

fn usage() -> ExitCode {
    eprint!("{USAGE}");
    ExitCode::from(2)
}

fn main() -> ExitCode {
    let mut words = std::env::args().skip(1);
    let command = words.next().unwrap_or_default();
    match command.as_str() {
        "report" => {
            if words.next().is_some() {
                return usage();
            }
            let mut input = Vec::new();
            if let Err(error) = io::stdin().read_to_end(&mut input) {
                eprintln!("second: {error}");
                return ExitCode::FAILURE;
            }
            print(&report::report(&input))
        }
        "one" => {
            let texts = words.next().and_then(|word| Texts::named(&word));
            match (texts, options(words)) {
                (
                    Some(texts),
                    Some(Options { seed, case: Some(case), count: None, against: None }),
                ) => print(&texts.text(seed.unwrap_or(SEED), case)),
                _ => usage(),
            }
        }
        _ => match (Texts::named(&command), options(words)) {
            (Some(texts), Some(Options { seed, count, case: None, against: Some(program) })) => {
                compare(texts, seed.unwrap_or(SEED), count.unwrap_or(COUNT), &program)
            }
            _ => usage(),
        },
    }
}

/// A reader that went away is no fault of ours.
fn print(bytes: &[u8]) -> ExitCode {
    match io::stdout().write_all(bytes) {
        Err(error) if error.kind() != io::ErrorKind::BrokenPipe => {
            eprintln!("second: {error}");
            ExitCode::FAILURE
        }
        _ => ExitCode::SUCCESS,
    }
}

/// What the program prints for a text. It may stop reading early, so a broken
/// pipe while writing to it is ignored.
fn printed(program: &str, input: &[u8]) -> io::Result<(Vec<u8>, ExitStatus)> {
    let mut child = Command::new(program).stdin(Stdio::piped()).stdout(Stdio::piped()).spawn()?;
    let mut stdin = child.stdin.take();
    let output = thread::scope(|scope| {
        // Written beside the reading, since both pipes may fill up.
        scope.spawn(move || {
            if let Some(pipe) = &mut stdin {
                let _ = pipe.write_all(input);
            }
        });
        child.wait_with_output()
    })?;
    Ok((output.stdout, output.status))
}

/// How many cases came to what.
#[derive(Default)]
struct Counts {
    good: u64,
    text: BTreeMap<u8, u64>,
    step: BTreeMap<u8, u64>,
    steps: u64,
    writes: u64,
}

impl Counts {
    fn add(&mut self, input: &[u8]) {
        match text::read(input) {
            Err(refusal) => *self.text.entry(refusal.number).or_default() += 1,
            Ok(schedule) => {
                let run = report::run(&schedule).expect("the reader's ranges are the opening's");
                self.steps += run.answers.len() as u64;
                self.writes = self.writes.max(u64::from(run.held));
                match run.refused {
                    None => self.good += 1,
                    Some((_, refusal)) => *self.step.entry(refusal.number()).or_default() += 1,
                }
            }
        }
    }

    fn line(&self) -> String {
        let list = |counts: &BTreeMap<u8, u64>| {
            let each: Vec<String> = counts.iter().map(|(n, many)| format!("{n}: {many}")).collect();
            if each.is_empty() {
                "no case".into()
            } else {
                each.join(", ")
            }
        };
        format!(
            "no refusal {}; step refused by {}; text refused by {}; steps taken {}, most writes held {}",
            self.good,
            list(&self.step),
            list(&self.text),
            self.steps,
            self.writes
        )
    }
}

fn compare(texts: Texts, seed: u64, count: u64, program: &str) -> ExitCode {
    let name = texts.name();
    let mut counts = Counts::default();
    for case in 0..count {
        let input = texts.text(seed, case);
        let due = report::report(&input);
        let (given, status) = match printed(program, &input) {
            Ok(printed) => printed,
            Err(error) => {
                eprintln!("second: {program}: {error}");
                return ExitCode::from(2);
            }
        };
        if given != due {
            println!("{name}: case {case} of seed {seed} differs ({status}); input:");
            println!("{}", String::from_utf8_lossy(&input));
            println!("--- due:\n{}", String::from_utf8_lossy(&due));
            println!("--- given:\n{}", String::from_utf8_lossy(&given));
            println!("--- {}", first_difference(&due, &given));
            println!("made again by: second one {name} --seed {seed} --case {case}");
            return ExitCode::FAILURE;
        }
        counts.add(&input);
    }
    println!("{name}: {count} agree (seed {seed}): {}", counts.line());
    ExitCode::SUCCESS
}

/// The first line in which two outputs differ.
fn first_difference(due: &[u8], given: &[u8]) -> String {
    let mut due = due.split(|&byte| byte == b'\n');
    let mut given = given.split(|&byte| byte == b'\n');
    for number in 1.. {
        let (wanted, got) = (due.next(), given.next());
        if wanted != got {
            let show = |line: Option<&[u8]>| {
                line.map_or("no line".into(), |line| format!("`{}`", String::from_utf8_lossy(line)))
            };
            return format!("line {number}: due {}, given {}", show(wanted), show(got));
        }
        if wanted.is_none() {
            break;
        }
    }
    "no line differs".into()
}
