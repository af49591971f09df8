//! Relays: a write made known from thread to thread.

use super::author::{Author, EVENLY};
use crate::machine::{Act, Place, Step};
use crate::random::Random;
use crate::text::Schedule;

/// Thread a writes a cell, others learn of it one from another through atomic
/// cells, and the last one reads at its view and just below. A join left out
/// on the way shows in that last read alone.
pub(super) fn relay(random: &mut Random) -> Schedule {
    let sizes = [
        random.between(2, 8),
        random.pick(&[1, 1, 1, 2, 2, 3, 16]),
        random.between(1, 3),
        random.between(1, 2),
    ];
    let warm = random.pick(&[0, 0, 2, 12]);
    let mut author = Author::new(random, sizes);
    author.fill(&EVENLY, warm);

    let cell = author.random.between(1, sizes[2]);
    let mut from = author.any_thread();
    for _ in 0..author.random.between(1, 3) {
        // The last of these is the one to be made known.
        author.settle(from);
        for _ in 0..5 {
            let step = Step {
                thread: from,
                act: Act::Set {
                    cell,
                    value: author.value(),
                    stamp: author.write_stamp(from, cell),
                },
            };
            if author.try_step(step) {
                break;
            }
        }
    }
    for _ in 0..author.random.between(1, 3) {
        if let Some(to) = author.other_thread(&[from]) {
            author.hop(from, to);
            from = to;
        }
    }
    author.settle(from);
    if author.random.chance(1, 2) {
        let stamp = author.seen(from, cell);
        author.try_step(Step { thread: from, act: Act::Get { cell, stamp } });
    }
    match author.random.below(5) {
        0 => return author.finish(),
        1 => author.end_in_a_slot(from),
        _ => {
            if let Some(step) = author.below_view_at(from, cell) {
                author.add_step(step);
            }
        }
    }
    author.schedule
}

impl Author<'_> {
    /// Lets thread `to` learn what thread `from` knows.
    fn hop(&mut self, from: u32, to: u32) {
        self.settle(from);
        self.settle(to);
        let put = Act::Put { value: 12_500 };
        let flag = self.random.between(1, self.machine.flags);
        match self.random.below(12) {
            0..=3 => {
                // Both kinds of atomic write give, all four accesses get.
                let given = [
                    Act::Store { flag, value: 1_000 },
                    self.swap(flag, true),
                    self.swap(flag, true),
                ];
                let act = self.random.pick(&given);
                self.try_step(Step { thread: from, act });
                // A third thread's write must keep what the cell knew.
                if let Some(thread) = self.other_thread(&[from, to]) {
                    self.settle(thread);
                    if self.random.chance(1, 2) {
                        let won = self.random.chance(2, 3);
                        let acts = [Act::Store { flag, value: 2_000 }, self.swap(flag, won)];
                        let act = self.random.pick(&acts);
                        self.try_step(Step { thread, act });
                    }
                }
                let got = [
                    Act::Load { flag },
                    Act::Store { flag, value: 0 },
                    self.swap(flag, true),
                    self.swap(flag, false),
                ];
                let act = self.random.pick(&got);
                self.try_step(Step { thread: to, act });
            }
            // Through the status that a put writes.
            4 => {
                self.call(from, put);
                self.call(to, Act::Take);
            }
            // Through the status that a take writes.
            5 => {
                self.call(to, put);
                self.call(from, Act::Take);
                self.call(to, put);
            }
            // Through head, where the swap joins too.
            6 => {
                self.call(from, put);
                self.call(to, put);
            }
            // Through the first read of head or tail, where the status then
            // ends the call.
            7 => {
                self.stop_before_fourth(from, put);
                self.call(to, put);
            }
            8 => {
                self.call(to, put);
                self.stop_before_fourth(from, Act::Take);
                self.call(to, Act::Take);
            }
            // Through a swap that is lost.
            9 => self.lose(from, to, put),
            _ => {
                self.call(to, put);
                self.lose(from, to, Act::Take);
            }
        }
    }

    /// Ends by a read or write of a slot that its last writer, another thread,
    /// made known through the status alone.
    fn end_in_a_slot(&mut self, thread: u32) {
        let put = Act::Put { value: 12_500 };
        let Some(other) = self.other_thread(&[thread]) else {
            return;
        };
        self.call(other, put);
        if self.random.chance(1, 2) {
            self.stop_before_fourth(thread, Act::Take);
        } else {
            self.call(other, Act::Take);
            self.stop_before_fourth(thread, put);
        }
        if let Place::PutFourth { rank, .. } | Place::TakeFourth { rank } = self.place(thread) {
            let cell = self.machine.slot_cell(rank);
            if let Some(step) = self.below_view_at(thread, cell) {
                self.add_step(step);
            }
        }
    }

    /// Both begin the same call; `from` wins the swap, then `to` loses it.
    fn lose(&mut self, from: u32, to: u32, act: Act) {
        let thread = to;
        self.try_step(Step { thread, act });
        if self.place(thread) != Place::Idle {
            self.try_step(Step { thread, act: Act::Go });
        }
        self.call(from, act);
        self.settle(to);
    }
}
