//! Changes of a text that know what it says. libFuzzer's own know bytes only,
//! and a header that counts lines makes most of theirs a refused text.

use second::damage;
use second::machine::{Act, Machine, Step, Write, MOST_HELD, MOST_WEIGHT};
use second::random::Random;
use second::states::any_step;
use second::text::{self, Schedule};

/// The text changed, or nothing where libFuzzer is to change it.
pub fn changed(random: &mut Random, text: &[u8]) -> Option<Vec<u8>> {
    match random.below(12) {
        0 => None,
        1 => {
            let mut text = text.to_vec();
            damage::once(random, &mut text);
            Some(text)
        }
        _ => match text::read(text) {
            Ok(mut schedule) => {
                for _ in 0..random.between(1, 3) {
                    change(random, &mut schedule);
                }
                // What stands behind a refused step is never run.
                if random.chance(2, 3) {
                    only_taken(random, &mut schedule);
                }
                Some(text::text(&schedule).into_bytes())
            }
            Err(refusal) if random.chance(1, 2) => Some(mended(text, refusal.place)),
            Err(_) => None,
        },
    }
}

/// The text without the line at fault, if it has one, and with as many in each
/// count as lines follow.
fn mended(text: &[u8], fault: usize) -> Vec<u8> {
    let (before, rest) = text.split_at(fault);
    let end = rest.iter().position(|&byte| byte == b'\n').map_or(rest.len(), |end| end + 1);
    let lines = [before, &rest[end..]].concat();
    let mut many = 0;
    let mut mended = Vec::new();
    for line in lines.split_inclusive(|&byte| byte == b'\n').rev() {
        let word = ["plain", "flag", "steps"].into_iter().find(|w| line.starts_with(w.as_bytes()));
        mended.push(word.map_or(line.to_vec(), |word| format!("{word} {many}\n").into_bytes()));
        many = if word.is_some() { 0 } else { many + 1 };
    }
    mended.reverse();
    mended.concat()
}

/// One change; it may leave numbers that the reader refuses.
fn change(random: &mut Random, schedule: &mut Schedule) {
    let many = schedule.steps.len();
    let way = random.below(if many == 0 { 2 } else { 8 });
    let place = random.below(many + 1);
    let steps = &mut schedule.steps;
    match way {
        0 => sizes(random, schedule),
        1 => {
            if let Some((machine, list, _)) = run(schedule, place) {
                schedule.steps.insert(place, any_step(random, &machine, &list));
            }
        }
        2 => {
            steps.remove(random.below(many));
        }
        3 => steps.insert(place, steps[random.below(many)]),
        4 => steps.swap(random.below(many), random.below(many)),
        5 => {
            let from = random.below(many);
            let upto = (from + 1 + random.below(8)).min(many);
            let part = steps[from..upto].to_vec();
            steps.splice(place..place, part);
        }
        6 => steps[random.below(many)].thread = random.between(1, schedule.threads.max(1)),
        _ => {
            let other = steps[random.below(many)].act;
            let act = &mut steps[random.below(many)].act;
            number(random, act, other);
        }
    }
}

/// A thread, slot, plain cell or flag more or less.
fn sizes(random: &mut Random, schedule: &mut Schedule) {
    let more = random.chance(1, 2);
    match random.below(4) {
        0 if more => schedule.threads += 1,
        0 => schedule.threads = schedule.threads.saturating_sub(1),
        1 if more => schedule.slots += 1,
        1 => schedule.slots = schedule.slots.saturating_sub(1),
        way => {
            let weights = if way == 2 { &mut schedule.plain } else { &mut schedule.flags };
            if more {
                let drawn = random.between(0, MOST_WEIGHT);
                weights.push(random.pick(&[0, 1_000, 1_500, MOST_WEIGHT, drawn]));
            } else {
                weights.pop();
            }
        }
    }
}

/// The first steps of a schedule, run: the state and list they reach, and those
/// that were taken; a refused one is passed over. Nothing where sizes that were
/// changed do not open.
fn run(schedule: &Schedule, many: usize) -> Option<(Machine, Vec<Write>, Vec<Step>)> {
    let Schedule { threads, slots, plain, flags, steps } = schedule;
    let mut machine = Machine::open(*threads, *slots, plain, flags).ok()?;
    let mut list = vec![Write::default(); MOST_HELD as usize];
    let taken = |step: &&Step| machine.step(&mut list, **step).is_ok();
    let taken = steps[..many].iter().filter(taken).copied().collect();
    Some((machine, list, taken))
}

/// Leaves the steps that are taken, and draws a last one or two.
fn only_taken(random: &mut Random, schedule: &mut Schedule) {
    if let Some((mut machine, mut list, taken)) = run(schedule, schedule.steps.len()) {
        schedule.steps = taken;
        for _ in 0..random.between(0, 2) {
            let step = any_step(random, &machine, &list);
            schedule.steps.push(step);
            let _ = machine.step(&mut list, step);
        }
    }
}

/// Another value for one of the numbers of an act.
fn number(random: &mut Random, act: &mut Act, other: Act) {
    let mut other = other;
    let others: Vec<u32> = numbers(&mut other).into_iter().map(|number| *number).collect();
    let mut numbers = numbers(act);
    if numbers.is_empty() {
        return;
    }
    let at = random.below(numbers.len());
    let number = &mut numbers[at];
    **number = match random.below(6) {
        0 => number.saturating_add(1),
        1 => number.saturating_sub(1),
        2 => number.saturating_add(1_000),
        3 => number.saturating_sub(1_000),
        4 if !others.is_empty() => random.pick(&others),
        _ => random.pick(&[0, 1, 1_000, MOST_WEIGHT, MOST_WEIGHT + 1]),
    };
}

fn numbers(act: &mut Act) -> Vec<&mut u32> {
    match act {
        Act::Get { cell, stamp } => vec![cell, stamp],
        Act::Set { cell, value, stamp } => vec![cell, value, stamp],
        Act::Load { flag } => vec![flag],
        Act::Store { flag, value } => vec![flag, value],
        Act::Swap { flag, old, new } => vec![flag, old, new],
        Act::Put { value } => vec![value],
        Act::Take | Act::Go => vec![],
        Act::GoStamp { stamp } => vec![stamp],
    }
}
