//! Seeded schedules as text, of kinds that each try something else.

mod author;
mod edges;
mod relay;

use crate::machine::{Act, Place, Step, MOST_HELD, MOST_SLOTS, MOST_STEPS, MOST_WEIGHT};
use crate::random::Random;
use crate::text::{self, Schedule, MOST_BYTES};
use author::{Author, Habit, EVENLY};
use relay::relay;

/// What a schedule is to try.
#[derive(Clone, Copy, Debug, PartialEq, Eq)]
enum Kind {
    /// Puts and takes of several threads at once, with accesses between.
    Contending,
    /// The same with C = 1.
    OneSlot,
    /// The same with T = 8.
    Crowd,
    /// T = 1.
    Alone,
    /// No plain cells, no flags, or neither.
    Bare,
    /// Plain cells and flags with stamps next to each other.
    Memory,
    /// A write made known from thread to thread through atomic cells, then
    /// reads exactly at the view it gave and just below.
    Relay,
    /// A refused step among the first.
    Early,
    /// 1,024 writes and beyond.
    ManyWrites,
    /// 4,096 steps, or one less.
    ManySteps,
    /// A text of 65,535, 65,536 or 65,537 bytes.
    Sized,
}

/// The kinds and how many of each hundred cases they get.
const SHARES: [(Kind, u64); 11] = [
    (Kind::Contending, 20),
    (Kind::OneSlot, 12),
    (Kind::Crowd, 8),
    (Kind::Alone, 6),
    (Kind::Bare, 6),
    (Kind::Memory, 13),
    (Kind::Relay, 19),
    (Kind::Early, 7),
    (Kind::ManyWrites, 4),
    (Kind::ManySteps, 2),
    (Kind::Sized, 3),
];

impl Kind {
    /// Goes by turns, so that any hundred cases in a row have all kinds.
    fn of_case(case: u64) -> Kind {
        // 37 has no factor in common with 100 and strews the kinds.
        let mut turn = case.wrapping_mul(37) % 100;
        for (kind, share) in SHARES {
            if turn < share {
                return kind;
            }
            turn -= share;
        }
        unreachable!("the shares come to a hundred")
    }
}

/// The text of one case.
pub fn of_case(seed: u64, case: u64) -> Vec<u8> {
    let mut random = Random::of_case(seed, case);
    of_kind(&mut random, Kind::of_case(case))
}

/// A text of at most a few thousand bytes, for damage.
pub fn small(random: &mut Random) -> Vec<u8> {
    let kinds = [
        Kind::Contending,
        Kind::OneSlot,
        Kind::Alone,
        Kind::Bare,
        Kind::Memory,
        Kind::Relay,
        Kind::Early,
    ];
    let kind = random.pick(&kinds);
    of_kind(random, kind)
}

/// A text of 65,535 to 65,537 bytes, for damage.
pub fn big(random: &mut Random) -> Vec<u8> {
    of_kind(random, Kind::Sized)
}

fn of_kind(random: &mut Random, kind: Kind) -> Vec<u8> {
    let schedule = match kind {
        Kind::Contending => {
            let threads = random.between(2, 8);
            let slots = random.pick(&[1, 2, 2, 3, 3, 4, 5, 7, 8, 15, 16]);
            let plain = random.pick(&[0, 1, 1, 2, 3]);
            let flags = random.pick(&[0, 1, 2]);
            mixed(random, [threads, slots, plain, flags], &QUEUE)
        }
        Kind::OneSlot => {
            let threads = random.between(2, 8);
            let plain = random.between(0, 2);
            mixed(random, [threads, 1, plain, 0], &QUEUE)
        }
        Kind::Crowd => {
            let slots = random.between(1, 16);
            let plain = random.pick(&[0, 1, 4, 16]);
            let flags = random.pick(&[0, 1, 8]);
            mixed(random, [8, slots, plain, flags], &EVENLY)
        }
        Kind::Alone => {
            let slots = random.pick(&[1, 1, 2, 16]);
            let plain = random.between(0, 3);
            let flags = random.between(0, 2);
            mixed(random, [1, slots, plain, flags], &EVENLY)
        }
        Kind::Bare => {
            let threads = random.between(1, 8);
            let slots = random.between(1, 4);
            let (plain, flags) = random.pick(&[(0, 0), (0, 2), (2, 0)]);
            mixed(random, [threads, slots, plain, flags], &EVENLY)
        }
        Kind::Memory => {
            let threads = random.between(2, 5);
            let slots = random.between(1, 2);
            let plain = random.pick(&[1, 1, 2, 3, 16]);
            let flags = random.pick(&[1, 1, 2, 3, 8]);
            mixed(random, [threads, slots, plain, flags], &MEMORY)
        }
        Kind::Relay => relay(random),
        Kind::Early => early(random),
        Kind::ManyWrites => many_writes(random),
        Kind::ManySteps => many_steps(random),
        Kind::Sized => sized(random),
    };
    text::text(&schedule).into_bytes()
}

const QUEUE: Habit = [6, 5, 3, 3, 3, 40, 40];
const MEMORY: Habit = [24, 30, 14, 14, 14, 2, 2];
const WRITING: Habit = [3, 90, 1, 2, 1, 2, 1];
const SHORT: Habit = [8, 2, 10, 3, 3, 37, 37];
const LONG: Habit = [3, 8, 2, 40, 40, 4, 3];

fn mixed(random: &mut Random, sizes: [u32; 4], habit: &Habit) -> Schedule {
    let count = match random.below(5) {
        0 => random.between(0, 12),
        1..=3 => random.between(12, 100),
        _ => random.between(100, 300),
    };
    let mut author = Author::new(random, sizes);
    author.high = author.random.chance(1, 4);
    author.fill(habit, count as usize);
    author.finish()
}

fn early(random: &mut Random) -> Schedule {
    let sizes = [
        random.between(1, 8),
        random.between(1, 16),
        random.pick(&[0, 1, 2, 15, 16]),
        random.pick(&[0, 1, 2, 7, 8]),
    ];
    let before = random.below(8);
    let behind = random.below(30);
    let mut author = Author::new(random, sizes);
    author.fill(&EVENLY, before);
    author.refuse(&[4, 4, 4, 2, 4]);
    for _ in 0..behind {
        let step = author.wild();
        author.add_step(step);
    }
    author.schedule
}

fn many_writes(random: &mut Random) -> Schedule {
    let sizes = [
        random.pick(&[1, 2, 3, 8]),
        random.pick(&[1, 2, 16]),
        random.pick(&[1, 2, 5, 16]),
        random.between(0, 1),
    ];
    let mut author = Author::new(random, sizes);
    let short = author.random.pick(&[0, 0, 0, 1, 2]);
    while author.machine.held + short < MOST_HELD {
        let steps = author.schedule.steps.len();
        author.fill(&WRITING, 1);
        if author.schedule.steps.len() == steps {
            break;
        }
    }
    // Reads and atomic accesses still go on when no record is free.
    let more = author.random.below(6);
    author.fill(&[10, 1, 5, 5, 5, 5, 5], more);
    for _ in 0..author.random.between(1, 4) {
        author.write_beyond();
    }
    author.finish()
}

impl Author<'_> {
    /// A plain write, of a set or a put, at a stamp that may also be refused
    /// by 12 or 13 when a record is free.
    fn write_beyond(&mut self) {
        let thread = self.any_thread();
        if self.random.chance(1, 3) {
            let value = self.value();
            self.stop_before_fourth(thread, Act::Put { value });
        }
        let act = match self.place(thread) {
            Place::Idle => {
                let cell = self.random.between(1, self.machine.plain);
                let fresh = self.write_stamp(thread, cell);
                let seen = self.seen(thread, cell);
                let stamp = self.random.pick(&[fresh, fresh, seen, 0]);
                let value = self.value();
                Act::Set { cell, value, stamp }
            }
            Place::PutFourth { rank, .. } => {
                let cell = self.machine.slot_cell(rank);
                let stamp = self.write_stamp(thread, cell);
                Act::GoStamp { stamp }
            }
            _ => return,
        };
        self.add_step(Step { thread, act });
    }
}

fn many_steps(random: &mut Random) -> Schedule {
    let sizes = [
        random.pick(&[1, 2, 3, 8]),
        random.pick(&[1, 2, 5, 16]),
        random.between(0, 2),
        random.between(0, 2),
    ];
    let last = random.below(4);
    let mut author = Author::new(random, sizes);
    author.fill(&SHORT, MOST_STEPS as usize - last);
    if author.random.chance(1, 2) {
        // There is room for it unless all steps are written.
        author.refuse(&[1, 2, 1, 2, 1]);
    }
    author.schedule
}

fn sized(random: &mut Random) -> Schedule {
    let target = MOST_BYTES - 1 + random.below(3);
    let slots = random.between(1, MOST_SLOTS as u32);
    let sizes = [random.between(1, 8), slots, random.between(0, 16), 1];
    let mut author = Author::new(random, sizes);
    author.most_bytes = target;
    author.long = true;
    // Some lines of `store` make up the rest exactly; each has 16 to 22 bytes,
    // so that three of them make any length from 48 to 66.
    while author.bytes + 120 < target {
        let steps = author.schedule.steps.len();
        author.fill(&LONG, 1);
        if author.schedule.steps.len() == steps {
            break;
        }
    }
    for thread in 1..=author.machine.threads {
        // Room for a store line or more must be left.
        if author.bytes + 90 < target {
            author.settle(thread);
        }
    }
    let thread = author.idle_thread().unwrap_or(1);
    loop {
        let rest = target - author.bytes;
        let full = author.schedule.steps.len() == MOST_STEPS as usize;
        let line = match rest {
            _ if full => break,
            0 => break,
            67.. => (rest - 48).min(22),
            45..=66 => rest / 3,
            23..=44 => rest / 2,
            _ => rest,
        };
        let value = author.value_of_length(line - 11);
        let act = Act::Store { flag: 1, value };
        author.add_step(Step { thread, act });
    }
    author.schedule
}

impl Author<'_> {
    /// A weight written with this many bytes, 5 to 11.
    fn value_of_length(&mut self, bytes: usize) -> u32 {
        let least = 10_u32.pow(bytes as u32 - 2);
        match bytes {
            5 => self.random.between(0, 9_999),
            11 => MOST_WEIGHT,
            _ => self.random.between(least, 10 * least - 1),
        }
    }
}

#[cfg(test)]
mod tests {
    use super::*;

    /// Every text is good but the one that is a byte too long.
    #[test]
    fn texts_are_good() {
        let mut lengths = Vec::new();
        for case in 0..200 {
            let text = of_case(5, case);
            assert_eq!(text, of_case(5, case), "case {case}");
            let number = text::read(&text).err().map(|refusal| refusal.number);
            let due = (text.len() > MOST_BYTES).then_some(1);
            assert_eq!(number, due, "case {case}");
            if Kind::of_case(case) == Kind::Sized {
                lengths.push(text.len());
            }
        }
        lengths.sort_unstable();
        lengths.dedup();
        assert_eq!(lengths, [65_535, 65_536, 65_537]);
    }

    #[test]
    fn a_hundred_cases_have_every_kind() {
        for (kind, share) in SHARES {
            let cases = (700..800).filter(|&case| Kind::of_case(case) == kind);
            assert_eq!(cases.count() as u64, share, "{kind:?}");
        }
    }
}
