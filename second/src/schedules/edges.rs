//! Steps at the edges: reads exactly at a view and just below, steps to be
//! refused, and the end of a schedule.

use super::author::Author;
use crate::machine::{Act, Place, Step, MOST_FLAGS, MOST_PLAIN, MOST_THREADS, MOST_WEIGHT};
use crate::text::Schedule;

impl Author<'_> {
    /// Any step that a reader takes.
    pub(super) fn wild(&mut self) -> Step {
        let thread = match self.random.below(6) {
            0 => self.random.between(1, MOST_THREADS as u32),
            _ => self.any_thread(),
        };
        let cell = match self.random.below(4) {
            0 => self.random.between(1, MOST_PLAIN as u32),
            _ => self.random.between(1, self.machine.plain.max(1)),
        };
        let flag = match self.random.below(4) {
            0 => self.random.between(1, MOST_FLAGS as u32),
            _ => self.random.between(1, self.machine.flags.max(1)),
        };
        let stamp = self.random.pick(&[0, 1, 1_000, 1_001, 2_000, 5_000]);
        let act = match self.random.below(9) {
            0 => Act::Get { cell, stamp },
            1 => Act::Set { cell, value: self.value(), stamp },
            2 => Act::Load { flag },
            3 => Act::Store { flag, value: self.value() },
            4 => Act::Swap { flag, old: self.flag_value(), new: self.value() },
            5 => Act::Put { value: self.value() },
            6 => Act::Take,
            7 => Act::Go,
            _ => Act::GoStamp { stamp },
        };
        Step { thread, act }
    }

    /// A step to be refused by this number, if the state has one.
    pub(super) fn refused(&mut self, number: u8) -> Option<Step> {
        match number {
            7 => {
                let above = self.machine.threads + 1;
                let most = MOST_THREADS as u32;
                let thread = self.random.pick(&[above, above, most]).max(above);
                let act = self.wild().act;
                (above <= most).then_some(Step { thread, act })
            }
            8 => Some(self.out_of_place()),
            9 => self.lacking_cell(),
            12 => self.below_view(),
            _ => self.against_history(),
        }
    }

    pub(super) fn out_of_place(&mut self) -> Step {
        let thread = self.any_thread();
        let stamp = self.random.pick(&[0, 1, 1_000]);
        let go = [Act::Go, Act::GoStamp { stamp }];
        let place = self.place(thread);
        let act = if place == Place::Idle {
            self.random.pick(&go)
        } else if self.random.chance(1, 2) {
            go[usize::from(!place.stamp_due())]
        } else {
            match self.wild().act {
                Act::Go | Act::GoStamp { .. } => Act::Take,
                act => act,
            }
        };
        Step { thread, act }
    }

    pub(super) fn lacking_cell(&mut self) -> Option<Step> {
        let thread = self.idle_thread()?;
        let cell = self.machine.plain + 1;
        let flag = self.machine.flags + 1;
        // Cell N + 1 is a slot's number in the list and must still be refused.
        let cell = self.random.pick(&[cell, cell, 16]).max(cell);
        let flag = self.random.pick(&[flag, flag, 8]).max(flag);
        let stamp = self.random.pick(&[0, 1, 1_000]);
        let value = self.value();
        let mut acts = Vec::new();
        if cell <= MOST_PLAIN as u32 {
            acts.push(Act::Get { cell, stamp });
            acts.push(Act::Set { cell, value, stamp });
        }
        if flag <= MOST_FLAGS as u32 {
            acts.push(Act::Load { flag });
            acts.push(Act::Store { flag, value });
            let (old, new) = (0, value);
            acts.push(Act::Swap { flag, old, new });
        }
        let act = (!acts.is_empty()).then(|| self.random.pick(&acts))?;
        Some(Step { thread, act })
    }

    /// The places where a plain read or write may come next: thread, cell, and
    /// whether the view there came from another thread.
    pub(super) fn accesses(&self) -> Vec<(u32, u32, bool)> {
        let mut accesses = Vec::new();
        for thread in 1..=self.machine.threads {
            match self.place(thread) {
                Place::Idle => {
                    for cell in 1..=self.machine.plain {
                        accesses.push((thread, cell, self.learnt(thread, cell)));
                    }
                }
                Place::PutFourth { rank, .. } | Place::TakeFourth { rank } => {
                    let cell = self.machine.slot_cell(rank);
                    accesses.push((thread, cell, self.learnt(thread, cell)));
                }
                _ => {}
            }
        }
        accesses
    }

    pub(super) fn learnt(&self, thread: u32, cell: u32) -> bool {
        let stamp = self.seen(thread, cell);
        let held = self.machine.written(&self.list);
        held.iter()
            .zip(&self.writers)
            .any(|(write, &writer)| (write.cell, write.stamp) == (cell, stamp) && writer != thread)
    }

    pub(super) fn some_access(&mut self) -> Option<(u32, u32)> {
        let mut accesses = self.accesses();
        if self.random.chance(4, 5) && accesses.iter().any(|access| access.2) {
            accesses.retain(|access| access.2);
        }
        let (thread, cell, _) = (!accesses.is_empty()).then(|| self.random.pick(&accesses))?;
        Some((thread, cell))
    }

    pub(super) fn below_view(&mut self) -> Option<Step> {
        let (thread, cell) = self.some_access()?;
        self.below_view_at(thread, cell)
    }

    /// A read just below the thread's view of this cell, by one history entry
    /// or one thousandth; or a write not above it.
    pub(super) fn below_view_at(&mut self, thread: u32, cell: u32) -> Option<Step> {
        let seen = self.seen(thread, cell);
        let older = self.stamps(cell).into_iter().filter(|&stamp| stamp < seen);
        let older = older.max();
        let write_stamp = match self.random.below(4) {
            0 => older.unwrap_or(0),
            1 => seen.saturating_sub(1),
            _ => seen,
        };
        let read_stamp = match self.random.below(4) {
            0 => seen.checked_sub(1),
            _ => older,
        };
        let value = self.value();
        let act = match self.place(thread) {
            Place::Idle if read_stamp.is_some() && self.random.chance(3, 4) => {
                Act::Get { cell, stamp: read_stamp? }
            }
            Place::Idle => Act::Set { cell, value, stamp: write_stamp },
            Place::PutFourth { .. } => Act::GoStamp { stamp: write_stamp },
            _ => Act::GoStamp { stamp: read_stamp? },
        };
        Some(Step { thread, act })
    }

    /// A read at no write's stamp, or a write at one's, not below the view.
    pub(super) fn against_history(&mut self) -> Option<Step> {
        let (thread, cell) = self.some_access()?;
        let seen = self.seen(thread, cell);
        let stamps = self.stamps(cell);
        let above: Vec<u32> = stamps.iter().copied().filter(|&s| s > seen).collect();
        let written = (!above.is_empty()).then(|| self.random.pick(&above));
        let next_to = match written {
            Some(stamp) => self.random.pick(&[stamp - 1, stamp + 1, seen + 1]),
            None => seen + self.random.pick(&[1, 2, 1_000]),
        };
        let absent = (!stamps.contains(&next_to) && next_to <= MOST_WEIGHT).then_some(next_to);
        let value = self.value();
        let act = match self.place(thread) {
            Place::Idle if written.is_none() || self.random.chance(1, 2) => {
                Act::Get { cell, stamp: absent? }
            }
            Place::Idle => Act::Set { cell, value, stamp: written? },
            Place::PutFourth { .. } => Act::GoStamp { stamp: written? },
            _ => Act::GoStamp { stamp: absent? },
        };
        Some(Step { thread, act })
    }

    /// Writes a step to be refused, mostly by a number given here.
    pub(super) fn refuse(&mut self, shares: &[usize; 5]) {
        for _ in 0..30 {
            let number = [7, 8, 9, 12, 13][self.random.weighted(shares)];
            if let Some(step) = self.refused(number) {
                self.add_step(step);
                return;
            }
        }
    }

    /// Ends the schedule: as it is, or by reads at the edge, a step to be
    /// refused or a wild one, and steps behind it that only the reader sees.
    pub(super) fn finish(mut self) -> Schedule {
        if self.random.chance(1, 2) {
            for thread in 1..=self.machine.threads {
                self.settle(thread);
            }
        }
        if self.random.chance(1, 2) {
            self.read_at_view();
        }
        match self.random.below(10) {
            0..=2 => return self.schedule,
            3 => {
                let step = self.wild();
                self.add_step(step);
            }
            _ => self.refuse(&[3, 3, 3, 9, 7]),
        }
        for _ in 0..self.random.below(4) {
            let step = self.wild();
            self.add_step(step);
        }
        self.schedule
    }

    /// A read exactly at a view, which is taken.
    pub(super) fn read_at_view(&mut self) {
        if let Some((thread, cell)) = self.some_access() {
            let stamp = self.seen(thread, cell);
            let act = match self.place(thread) {
                Place::Idle => Act::Get { cell, stamp },
                _ => Act::GoStamp { stamp },
            };
            self.try_step(Step { thread, act });
        }
    }
}
