//! The report program: from the bytes of a text to the bytes it prints.

use crate::machine::{Answer, Machine, Refusal, Write, MOST_HELD};
use crate::text::{self, Schedule};
use std::fmt::Write as _;

/// What a run with 1,024 records came to.
pub struct Run {
    /// Thread and answer of each taken step.
    pub answers: Vec<(u32, Answer)>,
    /// Each rank that the queue holds, with its weight if it is published.
    pub queue: Vec<(u32, Option<u32>)>,
    /// Number (from 1) and refusal of the step that ended the run.
    pub refused: Option<(usize, Refusal)>,
    /// Writes held at the end.
    pub held: u32,
}

/// Runs a schedule until its first refused step. A schedule that was read from
/// a text always opens.
pub fn run(schedule: &Schedule) -> Result<Run, Refusal> {
    let mut machine =
        Machine::open(schedule.threads, schedule.slots, &schedule.plain, &schedule.flags)?;
    let mut list = vec![Write::default(); MOST_HELD as usize];
    let mut answers = Vec::new();
    let mut refused = None;
    for (before, step) in schedule.steps.iter().enumerate() {
        match machine.step(&mut list, *step) {
            Ok(answer) => answers.push((step.thread, answer)),
            Err(refusal) => {
                refused = Some((before + 1, refusal));
                break;
            }
        }
    }
    Ok(Run { answers, queue: machine.queue(&list), refused, held: machine.held })
}

fn answer_text(answer: Answer) -> String {
    match answer {
        Answer::Dash => "-".into(),
        Answer::Ok => "ok".into(),
        Answer::Value(value) => text::weight(value),
        Answer::Yes => "yes".into(),
        Answer::No => "no".into(),
        Answer::Nothing => "none".into(),
        Answer::Got(weight) => format!("got {}", text::weight(weight)),
    }
}

/// The lines that a run prints.
fn lines(run: &Run) -> String {
    let mut out = String::new();
    let _ = writeln!(out, "answers {}", run.answers.len());
    for &(thread, answer) in &run.answers {
        let _ = writeln!(out, "{thread} {}", answer_text(answer));
    }
    let _ = writeln!(out, "queue {}", run.queue.len());
    for &(rank, weight) in &run.queue {
        let _ = writeln!(out, "{rank} {}", weight.map_or("-".into(), text::weight));
    }
    match run.refused {
        None => out.push_str("refused 0\n"),
        Some((step, refusal)) => {
            let _ = writeln!(out, "refused 1\n{step} {}", refusal.number());
        }
    }
    out
}

/// The whole report on any input.
pub fn report(input: &[u8]) -> Vec<u8> {
    match text::read(input) {
        Ok(schedule) => {
            let run = run(&schedule).expect("the reader's ranges are the opening's");
            lines(&run).into_bytes()
        }
        Err(refusal) => format!("text {} {}\n", refusal.number, refusal.place).into_bytes(),
    }
}

#[cfg(test)]
mod tests {
    use super::*;

    fn printed(input: &str) -> String {
        String::from_utf8(report(input.as_bytes())).unwrap()
    }

    /// Document 01's whole listing.
    #[test]
    fn listing() {
        let input = "\
shape 2
threads 2
slots 1
plain 1
0.000
flag 0
steps 13
1 set 1 70.000 1.000
1 put 12.500
1 go
1 go
1 go 1.000
1 go
2 take
2 go
2 go
2 go 1.000
2 go
2 get 1 1.000
2 get 1 0.000
";
        let output = "\
answers 12
1 ok
1 -
1 -
1 -
1 -
1 yes
2 -
2 -
2 -
2 -
2 got 12.500
2 70.000
queue 0
refused 1
13 12
";
        assert_eq!(printed(input), output);
    }

    #[test]
    fn no_steps() {
        let input = "shape 2\nthreads 1\nslots 1\nplain 0\nflag 0\nsteps 0\n";
        assert_eq!(printed(input), "answers 0\nqueue 0\nrefused 0\n");
    }

    /// A published rank shows its weight, an unpublished one `-`.
    #[test]
    fn queue_lines() {
        let steps = [
            "1 put 1.000",
            "1 go",
            "1 go",
            "1 go 5.000",
            "2 put 2.000",
            "2 go",
            "2 go",
            "2 go 0.001",
            "2 go",
        ];
        let head = "shape 2\nthreads 2\nslots 2\nplain 0\nflag 0\n";
        let input = format!("{head}steps {}\n{}\n", steps.len(), steps.join("\n"));
        let answers = "1 -\n".repeat(4) + &"2 -\n".repeat(4) + "2 yes\n";
        let due = format!("answers 9\n{answers}queue 2\n0 -\n1 2.000\nrefused 0\n");
        assert_eq!(printed(&input), due);
    }

    #[test]
    fn every_answer() {
        let head = "shape 2\nthreads 1\nslots 1\nplain 0\nflag 1\n3.000\n";
        let steps = "\
1 load 1
1 store 1 4.000
1 swap 1 4.000 5.000
1 swap 1 4.000 6.000
1 take
1 go
";
        let input = format!("{head}steps 6\n{steps}");
        let due = "answers 6\n1 3.000\n1 ok\n1 yes\n1 no\n1 -\n1 none\nqueue 0\nrefused 0\n";
        assert_eq!(printed(&input), due);
    }

    #[test]
    fn text_refusals_print_one_line() {
        assert_eq!(printed(""), "text 2 0\n");
        assert_eq!(printed("shape 2\nthreads 9\n"), "text 3 8\n");
        assert_eq!(printed(&"x".repeat(65_537)), "text 1 0\n");
        let good = "shape 2\nthreads 1\nslots 1\nplain 0\nflag 0\nsteps 0\n";
        assert_eq!(printed(&format!("{good}\n")), "text 4 49\n");
    }
}
