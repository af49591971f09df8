//! The author of a schedule: it runs the machine while it writes, so that most
//! steps are taken and a refused one, which ends the run, comes on purpose.

use crate::machine::{Act, Machine, Place, Step, Write, MOST_HELD, MOST_STEPS, MOST_WEIGHT};
use crate::random::Random;
use crate::text::{self, Schedule, MOST_BYTES};

/// How often an idle thread begins what: get, set, load, store, swap, put,
/// take.
pub(super) type Habit = [usize; 7];

/// A little of all.
pub(super) const EVENLY: Habit = [12, 14, 8, 8, 10, 24, 24];

/// Writes one schedule and runs it at the same time.
pub(super) struct Author<'a> {
    pub(super) random: &'a mut Random,
    pub(super) schedule: Schedule,
    pub(super) machine: Machine,
    pub(super) list: Vec<Write>,
    /// The thread of each held write, to tell views that came from another.
    pub(super) writers: Vec<u32>,
    /// A refused step was written: the run is over.
    pub(super) over: bool,
    /// Bytes of the text so far, counting four digits of steps.
    pub(super) bytes: usize,
    pub(super) most_bytes: usize,
    /// Draw long weights.
    pub(super) long: bool,
    /// Draw stamps at the top of the range, above which no write can follow.
    pub(super) high: bool,
}

impl<'a> Author<'a> {
    pub(super) fn new(
        random: &'a mut Random,
        [threads, slots, plain, flags]: [u32; 4],
    ) -> Author<'a> {
        let plain: Vec<u32> = (0..plain).map(|_| value(random, false)).collect();
        let flags: Vec<u32> = (0..flags).map(|_| flag_value(random)).collect();
        let machine = Machine::open(threads, slots, &plain, &flags).expect("the sizes are good");
        let schedule = Schedule { threads, slots, plain, flags, steps: Vec::new() };
        let bytes = text::text(&schedule).len() + 3;
        Author {
            random,
            schedule,
            machine,
            list: vec![Write::default(); MOST_HELD as usize],
            writers: Vec::new(),
            over: false,
            bytes,
            most_bytes: MOST_BYTES,
            long: false,
            high: false,
        }
    }

    pub(super) fn has_room(&self, step: &Step) -> bool {
        self.schedule.steps.len() < MOST_STEPS as usize
            && self.bytes + text::line(step).len() <= self.most_bytes
    }

    pub(super) fn write(&mut self, step: Step) {
        self.bytes += text::line(&step).len();
        self.schedule.steps.push(step);
    }

    /// Runs a step; a refused one changes nothing.
    pub(super) fn run(&mut self, step: Step) -> bool {
        let held = self.machine.held;
        let taken = self.machine.step(&mut self.list, step).is_ok();
        if self.machine.held > held {
            self.writers.push(step.thread);
        }
        taken
    }

    /// Writes a step only if it is taken.
    pub(super) fn try_step(&mut self, step: Step) -> bool {
        let taken = !self.over && self.has_room(&step) && self.run(step);
        if taken {
            self.write(step);
        }
        taken
    }

    /// Writes a step whatever comes of it.
    pub(super) fn add_step(&mut self, step: Step) {
        if self.has_room(&step) {
            self.over = self.over || !self.run(step);
            self.write(step);
        }
    }

    pub(super) fn place(&self, thread: u32) -> Place {
        self.machine.places[thread as usize - 1]
    }

    pub(super) fn seen(&self, thread: u32, cell: u32) -> u32 {
        self.machine.views[thread as usize - 1][cell as usize - 1]
    }

    pub(super) fn stamps(&self, cell: u32) -> Vec<u32> {
        let history = self.machine.history(&self.list, cell);
        history.map(|write| write.stamp).collect()
    }

    pub(super) fn any_thread(&mut self) -> u32 {
        self.random.between(1, self.machine.threads)
    }

    /// Another thread of the machine, if there is one.
    pub(super) fn other_thread(&mut self, not: &[u32]) -> Option<u32> {
        let others: Vec<u32> =
            (1..=self.machine.threads).filter(|thread| !not.contains(thread)).collect();
        (!others.is_empty()).then(|| self.random.pick(&others))
    }

    pub(super) fn idle_thread(&mut self) -> Option<u32> {
        let idle: Vec<u32> = (1..=self.machine.threads)
            .filter(|&thread| self.place(thread) == Place::Idle)
            .collect();
        (!idle.is_empty()).then(|| self.random.pick(&idle))
    }

    pub(super) fn value(&mut self) -> u32 {
        value(self.random, self.long)
    }

    /// A stamp in the history that the thread may read; the lowest often, as
    /// it tells whether the view was raised too far.
    pub(super) fn read_stamp(&mut self, thread: u32, cell: u32) -> u32 {
        let seen = self.seen(thread, cell);
        let mut stamps = self.stamps(cell);
        stamps.retain(|&stamp| stamp >= seen);
        stamps.sort_unstable();
        match (stamps.first(), stamps.last()) {
            (Some(&lowest), Some(&greatest)) => match self.random.below(10) {
                0..=3 => lowest,
                4..=5 => greatest,
                _ => self.random.pick(&stamps),
            },
            _ => seen,
        }
    }

    /// A stamp that the thread may write, mostly next to one in use. Now and
    /// then it is in the history after all.
    pub(super) fn write_stamp(&mut self, thread: u32, cell: u32) -> u32 {
        let seen = self.seen(thread, cell);
        let stamps = self.stamps(cell);
        let greatest = stamps.iter().copied().max().unwrap_or(0);
        let stamp = match self.random.below(200) {
            0..=59 => seen + 1,
            60..=109 => greatest + 1,
            110..=139 => greatest + 1_000,
            140..=159 => self.random.pick(&stamps) + 1,
            160..=179 => self.random.pick(&stamps).saturating_sub(1),
            180..=196 => seen + self.random.between(1, 3_000),
            197 => greatest + self.random.between(1, 30_000_000),
            _ if self.high => self.random.pick(&[MOST_WEIGHT - 1, MOST_WEIGHT]),
            _ => seen + 2,
        };
        stamp.min(MOST_WEIGHT)
    }

    /// Something an idle thread may begin.
    pub(super) fn begin(&mut self, thread: u32, habit: &Habit) -> Act {
        let mut shares = *habit;
        if self.machine.plain == 0 {
            shares[..2].fill(0);
        }
        if self.machine.flags == 0 {
            shares[2..5].fill(0);
        }
        let cell = self.random.between(1, self.machine.plain.max(1));
        let flag = self.random.between(1, self.machine.flags.max(1));
        match self.random.weighted(&shares) {
            0 => Act::Get { cell, stamp: self.read_stamp(thread, cell) },
            1 => Act::Set { cell, value: self.value(), stamp: self.write_stamp(thread, cell) },
            2 => Act::Load { flag },
            3 => Act::Store { flag, value: self.flag_value() },
            4 => {
                let won = self.random.chance(3, 5);
                self.swap(flag, won)
            }
            5 => Act::Put { value: self.value() },
            _ => Act::Take,
        }
    }

    pub(super) fn flag_value(&mut self) -> u32 {
        if self.long {
            self.value()
        } else {
            flag_value(self.random)
        }
    }

    pub(super) fn swap(&mut self, flag: u32, won: bool) -> Act {
        let now = self.machine.flag[flag as usize - 1].value;
        let off = if now == MOST_WEIGHT { now - 1 } else { now + 1 };
        Act::Swap { flag, old: if won { now } else { off }, new: self.flag_value() }
    }

    /// A step of this thread that will most likely be taken.
    pub(super) fn likely(&mut self, thread: u32, habit: &Habit) -> Step {
        let act = match self.place(thread) {
            Place::Idle => self.begin(thread, habit),
            Place::PutFourth { rank, .. } => {
                let cell = self.machine.slot_cell(rank);
                Act::GoStamp { stamp: self.write_stamp(thread, cell) }
            }
            Place::TakeFourth { rank } => {
                let cell = self.machine.slot_cell(rank);
                Act::GoStamp { stamp: self.read_stamp(thread, cell) }
            }
            _ => Act::Go,
        };
        Step { thread, act }
    }

    /// Writes up to `count` taken steps; fewer where none can be found.
    pub(super) fn fill(&mut self, habit: &Habit, count: usize) {
        // A thread that keeps its turn gets through a call; one that seldom
        // does meets the others.
        let keep = self.random.pick(&[0, 0, 1, 4]);
        let mut thread = self.any_thread();
        for _ in 0..count {
            if !self.random.chance(keep, 5) {
                thread = self.any_thread();
            }
            let found = (0..40).any(|_| {
                let step = self.likely(thread, habit);
                let taken = self.try_step(step);
                if !taken {
                    thread = self.any_thread();
                }
                taken
            });
            if !found {
                return;
            }
        }
    }

    /// Brings a thread to the end of its call, by taken steps.
    pub(super) fn settle(&mut self, thread: u32) {
        for _ in 0..60 {
            if self.place(thread) == Place::Idle {
                return;
            }
            let step = self.likely(thread, &EVENLY);
            self.try_step(step);
        }
    }

    /// A whole call of one thread.
    pub(super) fn call(&mut self, thread: u32, act: Act) {
        self.settle(thread);
        self.try_step(Step { thread, act });
        self.settle(thread);
    }

    /// The first three steps of a call, if it gets so far.
    pub(super) fn stop_before_fourth(&mut self, thread: u32, act: Act) {
        self.settle(thread);
        self.try_step(Step { thread, act });
        for _ in 0..2 {
            if self.place(thread) != Place::Idle {
                let act = Act::Go;
                self.try_step(Step { thread, act });
            }
        }
    }
}

fn value(random: &mut Random, long: bool) -> u32 {
    if long && random.chance(9, 10) {
        return random.between(100_000_000, MOST_WEIGHT);
    }
    match random.below(10) {
        0 => 0,
        1..=4 => random.pick(&[1, 500, 1_000, 2_000, 12_500, 70_000]),
        5..=7 => random.between(0, 99_999),
        8 => random.between(0, MOST_WEIGHT),
        _ => random.pick(&[MOST_WEIGHT, MOST_WEIGHT - 1, 999_999, 1_000_000]),
    }
}

/// Few values, so that swaps by different threads meet.
fn flag_value(random: &mut Random) -> u32 {
    random.pick(&[0, 0, 1_000, 1_000, 2_000, MOST_WEIGHT])
}
