//! Schedule text: its reader, with refusals 1 to 4, and its writer.

use crate::machine::{
    Act, Step, MOST_FLAGS, MOST_PLAIN, MOST_SLOTS, MOST_STEPS, MOST_THREADS, MOST_WEIGHT,
};
use std::fmt::Write as _;

pub const MOST_BYTES: usize = 65_536;

#[derive(Clone, Debug, Default, PartialEq, Eq)]
pub struct Schedule {
    pub threads: u32,
    pub slots: u32,
    pub plain: Vec<u32>,
    pub flags: Vec<u32>,
    pub steps: Vec<Step>,
}

/// A text refusal with its place and the part of the text at fault.
#[derive(Clone, Copy, Debug, PartialEq, Eq)]
pub struct Refusal<'a> {
    pub number: u8,
    pub place: usize,
    pub part: &'a [u8],
}

/// What an operand of a step line is; it decides form and range.
#[derive(Clone, Copy, PartialEq, Eq)]
enum Operand {
    Cell,
    Flag,
    /// A weight or a stamp.
    Weight,
}

use Operand::{Cell, Flag, Weight};

/// The nine line forms: verb, operands, and the act they make.
type Form = (&'static str, &'static [Operand], fn(&[u32]) -> Act);

const FORMS: [Form; 9] = [
    ("get", &[Cell, Weight], |n| Act::Get { cell: n[0], stamp: n[1] }),
    ("set", &[Cell, Weight, Weight], |n| Act::Set { cell: n[0], value: n[1], stamp: n[2] }),
    ("load", &[Flag], |n| Act::Load { flag: n[0] }),
    ("store", &[Flag, Weight], |n| Act::Store { flag: n[0], value: n[1] }),
    ("swap", &[Flag, Weight, Weight], |n| Act::Swap { flag: n[0], old: n[1], new: n[2] }),
    ("put", &[Weight], |n| Act::Put { value: n[0] }),
    ("take", &[], |_| Act::Take),
    ("go", &[], |_| Act::Go),
    ("go", &[Weight], |n| Act::GoStamp { stamp: n[0] }),
];

/// Why a line is refused, before its place is known.
#[derive(Clone, Copy, PartialEq, Eq)]
enum Fault {
    Form = 2,
    Range = 3,
}

/// The number of a field of one to `most` digits, with no leading zero unless
/// it is `0`.
fn digits(field: &[u8], most: usize) -> Result<u32, Fault> {
    let formed = (1..=most).contains(&field.len())
        && field.iter().all(u8::is_ascii_digit)
        && (field.len() == 1 || field[0] != b'0');
    if !formed {
        return Err(Fault::Form);
    }
    Ok(field.iter().fold(0, |sum, digit| 10 * sum + u32::from(digit - b'0')))
}

/// A number without a point.
fn number(field: &[u8]) -> Result<u32, Fault> {
    digits(field, 4)
}

/// A weight or stamp in thousandths; it may lie above the range, and above what
/// 32 bits hold.
fn thousandths(field: &[u8]) -> Result<u64, Fault> {
    let point = field.len().checked_sub(4).ok_or(Fault::Form)?;
    let (whole, fraction) = field.split_at(point);
    if fraction[0] != b'.' || !fraction[1..].iter().all(u8::is_ascii_digit) {
        return Err(Fault::Form);
    }
    let rest = fraction[1..].iter().fold(0, |sum, digit| 10 * sum + u64::from(digit - b'0'));
    Ok(1_000 * u64::from(digits(whole, 7)?) + rest)
}

fn within(number: u64, least: u64, most: u64) -> Result<u32, Fault> {
    if (least..=most).contains(&number) {
        Ok(number as u32)
    } else {
        Err(Fault::Range)
    }
}

fn weight_line(line: &[u8]) -> Result<u32, Fault> {
    within(thousandths(line)?, 0, u64::from(MOST_WEIGHT))
}

/// A line of a word, one space and a number in its range.
fn headed_line(line: &[u8], word: &str, least: u64, most: u64) -> Result<u32, Fault> {
    let field = line
        .strip_prefix(word.as_bytes())
        .and_then(|rest| rest.strip_prefix(b" "))
        .ok_or(Fault::Form)?;
    within(u64::from(number(field)?), least, most)
}

impl Operand {
    fn read(self, field: &[u8]) -> Result<u64, Fault> {
        match self {
            Cell | Flag => number(field).map(u64::from),
            Weight => thousandths(field),
        }
    }

    fn check(self, number: u64) -> Result<u32, Fault> {
        match self {
            Cell => within(number, 1, MOST_PLAIN as u64),
            Flag => within(number, 1, MOST_FLAGS as u64),
            Weight => within(number, 0, u64::from(MOST_WEIGHT)),
        }
    }
}

/// A step line: the whole form first, then the ranges from left to right.
fn step_line(line: &[u8]) -> Result<Step, Fault> {
    let fields: Vec<&[u8]> = line.split(|&byte| byte == b' ').collect();
    let [thread, verb, operands @ ..] = &fields[..] else {
        return Err(Fault::Form);
    };
    let thread = number(thread)?;
    let (_, kinds, make) = FORMS
        .iter()
        .find(|(word, kinds, _)| word.as_bytes() == *verb && kinds.len() == operands.len())
        .ok_or(Fault::Form)?;
    let read = |(kind, field): (&Operand, &&[u8])| kind.read(field);
    let numbers: Vec<u64> = kinds.iter().zip(operands).map(read).collect::<Result<_, _>>()?;

    let thread = within(u64::from(thread), 1, MOST_THREADS as u64)?;
    let check = |(kind, &number): (&Operand, &u64)| kind.check(number);
    let numbers: Vec<u32> = kinds.iter().zip(&numbers).map(check).collect::<Result<_, _>>()?;
    Ok(Step { thread, act: make(&numbers) })
}

/// The text and the position of the line that is due.
struct Reader<'a> {
    text: &'a [u8],
    position: usize,
}

impl<'a> Reader<'a> {
    /// Reads the line that is due by `form` and goes behind its LF.
    fn line<T>(&mut self, form: impl FnOnce(&[u8]) -> Result<T, Fault>) -> Result<T, Refusal<'a>> {
        let place = self.position;
        let rest = &self.text[place..];
        let end = rest.iter().position(|&byte| byte == b'\n');
        let part = &rest[..end.unwrap_or(rest.len())];
        // A line that lacks its LF is a fault of form, whatever its numbers.
        let read = end.ok_or(Fault::Form).and_then(|_| form(part));
        match read {
            Ok(read) => {
                self.position += part.len() + 1;
                Ok(read)
            }
            Err(fault) => Err(Refusal { number: fault as u8, place, part }),
        }
    }

    fn headed(&mut self, word: &str, least: u64, most: u64) -> Result<u32, Refusal<'a>> {
        self.line(|line| headed_line(line, word, least, most))
    }

    fn section<T>(
        &mut self,
        word: &str,
        most: u64,
        form: fn(&[u8]) -> Result<T, Fault>,
    ) -> Result<Vec<T>, Refusal<'a>> {
        let count = self.headed(word, 0, most)?;
        (0..count).map(|_| self.line(form)).collect()
    }
}

/// Reads a whole schedule text.
pub fn read(text: &[u8]) -> Result<Schedule, Refusal<'_>> {
    if text.len() > MOST_BYTES {
        return Err(Refusal { number: 1, place: 0, part: &text[..0] });
    }
    let mut reader = Reader { text, position: 0 };
    reader.headed("shape", 2, 2)?;
    let threads = reader.headed("threads", 1, MOST_THREADS as u64)?;
    let slots = reader.headed("slots", 1, MOST_SLOTS as u64)?;
    let plain = reader.section("plain", MOST_PLAIN as u64, weight_line)?;
    let flags = reader.section("flag", MOST_FLAGS as u64, weight_line)?;
    let steps = reader.section("steps", u64::from(MOST_STEPS), step_line)?;
    if reader.position < text.len() {
        return Err(Refusal { number: 4, place: reader.position, part: &text[reader.position..] });
    }
    Ok(Schedule { threads, slots, plain, flags, steps })
}

/// A weight or stamp as it stands in a text.
pub fn weight(thousandths: u32) -> String {
    format!("{}.{:03}", thousandths / 1_000, thousandths % 1_000)
}

/// A step line with its LF.
pub fn line(step: &Step) -> String {
    let thread = step.thread;
    match step.act {
        Act::Get { cell, stamp } => format!("{thread} get {cell} {}\n", weight(stamp)),
        Act::Set { cell, value, stamp } => {
            format!("{thread} set {cell} {} {}\n", weight(value), weight(stamp))
        }
        Act::Load { flag } => format!("{thread} load {flag}\n"),
        Act::Store { flag, value } => format!("{thread} store {flag} {}\n", weight(value)),
        Act::Swap { flag, old, new } => {
            format!("{thread} swap {flag} {} {}\n", weight(old), weight(new))
        }
        Act::Put { value } => format!("{thread} put {}\n", weight(value)),
        Act::Take => format!("{thread} take\n"),
        Act::Go => format!("{thread} go\n"),
        Act::GoStamp { stamp } => format!("{thread} go {}\n", weight(stamp)),
    }
}

/// The schedule's text, whatever its length.
pub fn text(schedule: &Schedule) -> String {
    let mut text = format!("shape 2\nthreads {}\nslots {}\n", schedule.threads, schedule.slots);
    for (word, weights) in [("plain", &schedule.plain), ("flag", &schedule.flags)] {
        let _ = writeln!(text, "{word} {}", weights.len());
        for &thousandths in weights {
            let _ = writeln!(text, "{}", weight(thousandths));
        }
    }
    let _ = writeln!(text, "steps {}", schedule.steps.len());
    for step in &schedule.steps {
        text.push_str(&line(step));
    }
    text
}

#[cfg(test)]
mod tests {
    use super::*;

    const GOOD: &str = "shape 2\nthreads 2\nslots 1\nplain 1\n0.000\nflag 0\nsteps 1\n1 go\n";

    fn refused(text: &str) -> Option<(u8, usize)> {
        let read = read(text.as_bytes());
        read.err().map(|refusal| (refusal.number, refusal.place))
    }

    /// The refusal of a text with one of its lines (from 0) replaced, its place
    /// counted from that line.
    fn with_line(number: usize, line: &str) -> Option<(u8, usize)> {
        let mut lines: Vec<&str> = GOOD.split_inclusive('\n').collect();
        let before: usize = lines[..number].iter().map(|line| line.len()).sum();
        let line = format!("{line}\n");
        lines[number] = &line;
        refused(&lines.concat()).map(|(number, place)| (number, place - before))
    }

    #[test]
    fn weights_at_the_edge() {
        assert_eq!(weight_line(b"1.500").ok(), Some(1_500));
        for line in ["1.500", "1000000.000", "0.000"] {
            assert_eq!(with_line(4, line), None, "{line}");
        }
        let formless = [
            "1,500",
            "1.50",
            "01.500",
            ".500",
            "10000000.000",
            "1.5000",
            "",
            "1",
            "00.000",
            "1.500 ",
            " 1.500",
            "1.500\r",
            "-1.500",
            "1..500",
            "flag 0",
        ];
        for line in formless {
            assert_eq!(with_line(4, line), Some((2, 0)), "{line}");
        }
        for line in ["1000000.001", "9999999.999", "4294967.296"] {
            assert_eq!(with_line(4, line), Some((3, 0)), "{line}");
        }
    }

    #[test]
    fn heads_at_the_edge() {
        let good = [(1, "threads 1"), (1, "threads 8"), (2, "slots 1"), (2, "slots 16")];
        for (number, line) in good {
            assert_eq!(with_line(number, line), None, "{line}");
        }
        let ranges = [
            (0, "shape 3"),
            (0, "shape 0"),
            (1, "threads 0"),
            (1, "threads 9"),
            (1, "threads 9999"),
            (2, "slots 0"),
            (2, "slots 17"),
            (3, "plain 17"),
            (5, "flag 9"),
            (6, "steps 4097"),
        ];
        for (number, line) in ranges {
            assert_eq!(with_line(number, line), Some((3, 0)), "{line}");
        }
        let forms = [
            (0, "shape"),
            (0, "shape x"),
            (0, "shape 02"),
            (1, "threads 10000"),
            (1, "threads  2"),
            (1, "Threads 2"),
            (2, "slots 1.000"),
            (3, "plain"),
            (6, "steps 0001"),
        ];
        for (number, line) in forms {
            assert_eq!(with_line(number, line), Some((2, 0)), "{line}");
        }
    }

    #[test]
    fn step_lines() {
        let good = [
            "8 get 16 0.000",
            "1 set 1 1000000.000 1000000.000",
            "1 load 8",
            "1 store 1 1.000",
            "1 swap 1 0.000 1.000",
            "1 put 0.000",
            "1 take",
            "1 go",
            "1 go 1.000",
        ];
        for text in good {
            assert_eq!(with_line(7, text), None, "{text}");
            let read = step_line(text.as_bytes()).ok().map(|step| line(&step));
            assert_eq!(read, Some(format!("{text}\n")));
        }
        let ranges = [
            "0 go",
            "9 go",
            "1 get 0 0.000",
            "1 get 17 0.000",
            "1 load 0",
            "1 load 9",
            "1 set 1 1000000.001 0.000",
            "1 go 1000000.001",
        ];
        for line in ranges {
            assert_eq!(with_line(7, line), Some((3, 0)), "{line}");
        }
        let forms = [
            "9 get 17 1.00",
            "9 goo",
            "1",
            "1 ",
            " 1 go",
            "1 go ",
            "1  go",
            "1\tgo",
            "1 go 1",
            "1 go 1.000 2.000",
            "1 take 1.000",
            "1 get 1",
            "1 get 1.000 1.000",
            "1 set 1 1.000",
            "1 swap 1 1.000",
            "1 load 1 1.000",
            "1 put",
            "01 go",
            "1.000 go",
            "1 ticket 1",
            "1 Go",
        ];
        for line in forms {
            assert_eq!(with_line(7, line), Some((2, 0)), "{line}");
        }
    }

    #[test]
    fn places_of_damaged_texts() {
        assert_eq!(refused(GOOD), None);
        assert_eq!(refused(""), Some((2, 0)));
        // A line without its LF: the line's first byte. Ended: the length.
        assert_eq!(refused("shape 2"), Some((2, 0)));
        assert_eq!(refused("shape 2\n"), Some((2, 8)));
        assert_eq!(refused("shape 2\nthreads 9"), Some((2, 8)));
        assert_eq!(refused("shape 2\nthreads 9\nx"), Some((3, 8)));
        assert_eq!(refused("shape 2\n\nthreads 9\n"), Some((2, 8)));
        assert_eq!(refused("shape 2\r\n"), Some((2, 0)));
        assert_eq!(refused(&GOOD[..GOOD.len() - 1]), Some((2, GOOD.len() - 5)));
        // Too many lines are judged as what is due next, or as extra.
        assert_eq!(with_line(4, "0.000\n0.000"), Some((2, 6)));
        for extra in ["\n", " ", "1 go\n", "\0"] {
            let text = format!("{GOOD}{extra}");
            assert_eq!(refused(&text), Some((4, GOOD.len())));
            let refusal = read(text.as_bytes()).unwrap_err();
            assert_eq!(refusal.part, extra.as_bytes());
        }
    }

    #[test]
    fn parts_at_fault() {
        let part = |text: &'static str| read(text.as_bytes()).unwrap_err().part;
        assert_eq!(part(""), b"");
        assert_eq!(part("shape 2\nthreads 9\nslots"), b"threads 9");
        assert_eq!(part("shape 2\nthreads"), b"threads");
        assert_eq!(part("shape 2\r\n"), b"shape 2\r");
    }

    #[test]
    fn lengths_at_the_edge() {
        // Number 1 goes before all others.
        let long = "x".repeat(MOST_BYTES);
        assert_eq!(refused(&long), Some((2, 0)));
        let longer = "x".repeat(MOST_BYTES + 1);
        assert_eq!(refused(&longer), Some((1, 0)));
        assert_eq!(read(longer.as_bytes()).unwrap_err().part, b"");
        let padded = format!("{GOOD}{}", "y".repeat(MOST_BYTES - GOOD.len()));
        assert_eq!(refused(&padded), Some((4, GOOD.len())));
        assert_eq!(refused(&format!("{padded}y")), Some((1, 0)));
    }

    #[test]
    fn reading_and_writing_agree() {
        let schedule = read(GOOD.as_bytes()).unwrap();
        assert_eq!(text(&schedule), GOOD);
    }
}
