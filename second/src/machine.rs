//! The machine of document 01: opening, standing, one step, and what the queue
//! holds.
//!
//! The fields are open and may hold anything, so that states not of our making
//! can be stepped too; `stands` says which of them a step accepts.

/// The most threads, slots, plain cells and flags that a machine has room for.
pub const MOST_THREADS: usize = 8;
pub const MOST_SLOTS: usize = 16;
pub const MOST_PLAIN: usize = 16;
pub const MOST_FLAGS: usize = 8;

pub const MOST_STEPS: u32 = 4_096;
pub const MOST_HELD: u32 = 1_024;

/// Weights and stamps are counts of thousandths.
pub const MOST_WEIGHT: u32 = 1_000_000_000;

/// Room of one view: one stamp per plain cell and per slot.
pub const ROW: usize = MOST_PLAIN + MOST_SLOTS;

/// One stamp per cell, at the cell's record number less 1.
pub type View = [u32; ROW];

/// The refusals of openings and steps; the discriminants are document 01's
/// numbers.
#[derive(Clone, Copy, Debug, PartialEq, Eq)]
#[repr(u8)]
pub enum Refusal {
    Shape = 5,
    StepsSpent = 6,
    Thread = 7,
    Call = 8,
    Cell = 9,
    Weight = 10,
    NoRecord = 11,
    View = 12,
    History = 13,
    Standing = 14,
}

impl Refusal {
    pub fn number(self) -> u8 {
        self as u8
    }
}

/// One record of the lent list.
#[derive(Clone, Copy, Debug, Default, PartialEq, Eq)]
pub struct Write {
    pub cell: u32,
    pub stamp: u32,
    pub value: u32,
}

/// Where a thread stands: idle, or before the named step of a call.
#[derive(Clone, Copy, Debug, Default, PartialEq, Eq)]
pub enum Place {
    #[default]
    Idle,
    PutSecond {
        rank: u32,
        weight: u32,
    },
    PutThird {
        rank: u32,
        weight: u32,
    },
    PutFourth {
        rank: u32,
        weight: u32,
    },
    PutFifth {
        rank: u32,
    },
    TakeSecond {
        rank: u32,
    },
    TakeThird {
        rank: u32,
    },
    TakeFourth {
        rank: u32,
    },
    TakeFifth {
        rank: u32,
        weight: u32,
    },
}

impl Place {
    pub fn rank(self) -> Option<u32> {
        match self {
            Place::Idle => None,
            Place::PutSecond { rank, .. }
            | Place::PutThird { rank, .. }
            | Place::PutFourth { rank, .. }
            | Place::PutFifth { rank }
            | Place::TakeSecond { rank }
            | Place::TakeThird { rank }
            | Place::TakeFourth { rank }
            | Place::TakeFifth { rank, .. } => Some(rank),
        }
    }

    pub fn weight(self) -> Option<u32> {
        match self {
            Place::PutSecond { weight, .. }
            | Place::PutThird { weight, .. }
            | Place::PutFourth { weight, .. }
            | Place::TakeFifth { weight, .. } => Some(weight),
            _ => None,
        }
    }

    /// Whether the step made next here is a plain read or write, which has a
    /// stamp.
    pub fn stamp_due(self) -> bool {
        matches!(self, Place::PutFourth { .. } | Place::TakeFourth { .. })
    }
}

/// An atomic cell: a flag, head, tail or a slot's status.
#[derive(Clone, Copy, Debug, Default, PartialEq, Eq)]
pub struct Atomic {
    pub value: u32,
    pub view: View,
}

/// What a step asks for, in the nine forms of a step line.
#[derive(Clone, Copy, Debug, PartialEq, Eq)]
pub enum Act {
    Get { cell: u32, stamp: u32 },
    Set { cell: u32, value: u32, stamp: u32 },
    Load { flag: u32 },
    Store { flag: u32, value: u32 },
    Swap { flag: u32, old: u32, new: u32 },
    Put { value: u32 },
    Take,
    Go,
    GoStamp { stamp: u32 },
}

#[derive(Clone, Copy, Debug, PartialEq, Eq)]
pub struct Step {
    pub thread: u32,
    pub act: Act,
}

#[derive(Clone, Copy, Debug, PartialEq, Eq)]
pub enum Answer {
    /// A step of a call that does not end it, written `-`.
    Dash,
    Ok,
    Value(u32),
    Yes,
    No,
    /// A take that got nothing, written `none`.
    Nothing,
    Got(u32),
}

#[derive(Clone, Debug, PartialEq, Eq)]
pub struct Machine {
    pub threads: u32,
    pub slots: u32,
    pub plain: u32,
    pub flags: u32,
    pub steps: u32,
    pub held: u32,
    /// Values of the plain cells' first writes; a slot's is always 0.
    pub first: [u32; MOST_PLAIN],
    pub places: [Place; MOST_THREADS],
    /// Thread by cell.
    pub views: [View; MOST_THREADS],
    pub head: Atomic,
    pub tail: Atomic,
    pub flag: [Atomic; MOST_FLAGS],
    pub status: [Atomic; MOST_SLOTS],
}

fn weighs(numbers: &[u32]) -> bool {
    numbers.iter().all(|&number| number <= MOST_WEIGHT)
}

fn weights(numbers: &[u32]) -> Result<(), Refusal> {
    if weighs(numbers) {
        Ok(())
    } else {
        Err(Refusal::Weight)
    }
}

/// Makes `into` the join of both. The caller hands over only the machine's own
/// cells, so that the room behind them stays as it was.
fn join(into: &mut [u32], other: &[u32]) {
    for (stamp, &seen) in into.iter_mut().zip(other) {
        *stamp = (*stamp).max(seen);
    }
}

/// Names an atomic cell, to lend it together with a thread's view.
#[derive(Clone, Copy)]
enum Name {
    Head,
    Tail,
    Flag(usize),
    Status(usize),
}

impl Machine {
    /// Opens a machine: refused by 5 for its sizes, then by 10 for its values.
    pub fn open(
        threads: u32,
        slots: u32,
        plain: &[u32],
        flags: &[u32],
    ) -> Result<Machine, Refusal> {
        let shape = (1..=MOST_THREADS).contains(&(threads as usize))
            && (1..=MOST_SLOTS).contains(&(slots as usize))
            && plain.len() <= MOST_PLAIN
            && flags.len() <= MOST_FLAGS;
        if !shape {
            return Err(Refusal::Shape);
        }
        weights(plain)?;
        weights(flags)?;
        let mut machine = Machine {
            threads,
            slots,
            plain: plain.len() as u32,
            flags: flags.len() as u32,
            steps: 0,
            held: 0,
            first: [0; MOST_PLAIN],
            places: [Place::Idle; MOST_THREADS],
            views: [[0; ROW]; MOST_THREADS],
            head: Atomic::default(),
            tail: Atomic::default(),
            flag: [Atomic::default(); MOST_FLAGS],
            status: [Atomic::default(); MOST_SLOTS],
        };
        machine.first[..plain.len()].copy_from_slice(plain);
        for (cell, &value) in machine.flag.iter_mut().zip(flags) {
            cell.value = value;
        }
        for (i, cell) in (0..slots).zip(&mut machine.status) {
            cell.value = 2 * i;
        }
        Ok(machine)
    }

    /// Number of plain cells and slots, which is the used length of a view.
    pub fn cells(&self) -> usize {
        (self.plain + self.slots) as usize
    }

    /// Whether the state can stand with this list. Only what the machine has is
    /// judged.
    pub fn stands(&self, list: &[Write]) -> bool {
        let sizes = (1..=MOST_THREADS as u32).contains(&self.threads)
            && (1..=MOST_SLOTS as u32).contains(&self.slots)
            && self.plain <= MOST_PLAIN as u32
            && self.flags <= MOST_FLAGS as u32
            && self.steps <= MOST_STEPS
            && self.held <= MOST_HELD
            && self.held as usize <= list.len();
        // Everything below counts on the sizes.
        if !sizes {
            return false;
        }
        let cells = self.cells();
        let threads = self.threads as usize;
        let flag = &self.flag[..self.flags as usize];
        let status = &self.status[..self.slots as usize];
        let top = 2 * (self.steps + self.slots) + 1;

        let places = self.places[..threads].iter().all(|place| {
            place.rank().is_none_or(|rank| rank <= self.steps)
                && place.weight().is_none_or(|weight| weight <= MOST_WEIGHT)
        });
        let ranks = self.head.value <= self.steps && self.tail.value <= self.steps;
        let statuses = status.iter().all(|cell| cell.value <= top);
        let values = weighs(&self.first[..self.plain as usize])
            && flag.iter().all(|cell| cell.value <= MOST_WEIGHT);
        let views = self.views[..threads].iter().all(|view| weighs(&view[..cells]))
            && [&self.head, &self.tail]
                .into_iter()
                .chain(flag)
                .chain(status)
                .all(|cell| weighs(&cell.view[..cells]));
        let records = self.written(list).iter().all(|write| {
            (1..=cells as u32).contains(&write.cell) && weighs(&[write.stamp, write.value])
        });
        places && ranks && statuses && values && views && records
    }

    /// Takes one step, or refuses it and leaves state and list as they were.
    pub fn step(&mut self, list: &mut [Write], step: Step) -> Result<Answer, Refusal> {
        if !self.stands(list) {
            return Err(Refusal::Standing);
        }
        if self.steps == MOST_STEPS {
            return Err(Refusal::StepsSpent);
        }
        if step.thread == 0 || step.thread > self.threads {
            return Err(Refusal::Thread);
        }
        let answer = self.act(list, (step.thread - 1) as usize, step.act)?;
        self.steps += 1;
        Ok(answer)
    }

    /// Decides by the thread's place and what is asked; every pair not named
    /// is refused by 8. Within an arm all refusals come before any change.
    fn act(&mut self, list: &mut [Write], thread: usize, act: Act) -> Result<Answer, Refusal> {
        let place = self.places[thread];
        let (next, answer) = match (place, act) {
            (Place::Idle, Act::Get { cell, stamp }) => {
                among(cell, self.plain)?;
                weights(&[stamp])?;
                let value = self.plain_read(list, thread, cell, stamp)?;
                (Place::Idle, Answer::Value(value))
            }
            (Place::Idle, Act::Set { cell, value, stamp }) => {
                among(cell, self.plain)?;
                weights(&[value, stamp])?;
                let write = Write { cell, stamp, value };
                self.plain_write(list, thread, write)?;
                (Place::Idle, Answer::Ok)
            }
            (Place::Idle, Act::Load { flag }) => {
                among(flag, self.flags)?;
                let value = self.atomic_read(thread, Name::Flag(flag as usize - 1));
                (Place::Idle, Answer::Value(value))
            }
            (Place::Idle, Act::Store { flag, value }) => {
                among(flag, self.flags)?;
                weights(&[value])?;
                self.atomic_write(thread, Name::Flag(flag as usize - 1), value);
                (Place::Idle, Answer::Ok)
            }
            (Place::Idle, Act::Swap { flag, old, new }) => {
                among(flag, self.flags)?;
                weights(&[old, new])?;
                let won = self.swap(thread, Name::Flag(flag as usize - 1), old, new);
                (Place::Idle, if won { Answer::Yes } else { Answer::No })
            }
            (Place::Idle, Act::Put { value }) => {
                weights(&[value])?;
                let rank = self.atomic_read(thread, Name::Head);
                let weight = value;
                (Place::PutSecond { rank, weight }, Answer::Dash)
            }
            (Place::Idle, Act::Take) => {
                let rank = self.atomic_read(thread, Name::Tail);
                (Place::TakeSecond { rank }, Answer::Dash)
            }

            (Place::PutSecond { rank, weight }, Act::Go) => {
                if self.atomic_read(thread, self.status_of(rank)) == 2 * rank {
                    (Place::PutThird { rank, weight }, Answer::Dash)
                } else {
                    (Place::Idle, Answer::No)
                }
            }
            (Place::PutThird { rank, weight }, Act::Go) => {
                if self.swap(thread, Name::Head, rank, rank + 1) {
                    (Place::PutFourth { rank, weight }, Answer::Dash)
                } else {
                    (Place::Idle, Answer::No)
                }
            }
            (Place::PutFourth { rank, weight }, Act::GoStamp { stamp }) => {
                weights(&[stamp])?;
                let write = Write { cell: self.slot_cell(rank), stamp, value: weight };
                self.plain_write(list, thread, write)?;
                (Place::PutFifth { rank }, Answer::Dash)
            }
            (Place::PutFifth { rank }, Act::Go) => {
                self.atomic_write(thread, self.status_of(rank), 2 * rank + 1);
                (Place::Idle, Answer::Yes)
            }

            (Place::TakeSecond { rank }, Act::Go) => {
                if self.atomic_read(thread, self.status_of(rank)) == 2 * rank + 1 {
                    (Place::TakeThird { rank }, Answer::Dash)
                } else {
                    (Place::Idle, Answer::Nothing)
                }
            }
            (Place::TakeThird { rank }, Act::Go) => {
                if self.swap(thread, Name::Tail, rank, rank + 1) {
                    (Place::TakeFourth { rank }, Answer::Dash)
                } else {
                    (Place::Idle, Answer::Nothing)
                }
            }
            (Place::TakeFourth { rank }, Act::GoStamp { stamp }) => {
                weights(&[stamp])?;
                let weight = self.plain_read(list, thread, self.slot_cell(rank), stamp)?;
                (Place::TakeFifth { rank, weight }, Answer::Dash)
            }
            (Place::TakeFifth { rank, weight }, Act::Go) => {
                self.atomic_write(thread, self.status_of(rank), 2 * (rank + self.slots));
                (Place::Idle, Answer::Got(weight))
            }

            _ => return Err(Refusal::Call),
        };
        self.places[thread] = next;
        Ok(answer)
    }

    /// What the queue holds: each rank from tail up to head less one, with its
    /// weight if it is published.
    pub fn queue(&self, list: &[Write]) -> Vec<(u32, Option<u32>)> {
        (self.tail.value..self.head.value)
            .map(|rank| {
                let status = self.status[(rank % self.slots) as usize].value;
                let published = status == 2 * rank + 1;
                (rank, published.then(|| self.newest(list, rank)))
            })
            .collect()
    }

    /// The held records.
    pub fn written<'a>(&self, list: &'a [Write]) -> &'a [Write] {
        &list[..self.held as usize]
    }

    /// The record number of the slot that a rank uses.
    pub fn slot_cell(&self, rank: u32) -> u32 {
        self.plain + 1 + rank % self.slots
    }

    /// The cell's history, first write first, then in order of happening.
    pub fn history<'a>(
        &self,
        list: &'a [Write],
        cell: u32,
    ) -> impl Iterator<Item = Write> + use<'a> {
        let value = if cell <= self.plain { self.first[cell as usize - 1] } else { 0 };
        let first = Write { cell, stamp: 0, value };
        let later = self.written(list).iter().copied();
        std::iter::once(first).chain(later.filter(move |write| write.cell == cell))
    }

    /// The weight at the greatest stamp of the rank's slot; of equal stamps the
    /// earliest counts.
    fn newest(&self, list: &[Write], rank: u32) -> u32 {
        let newest = self.history(list, self.slot_cell(rank)).reduce(|best, write| {
            if write.stamp > best.stamp {
                write
            } else {
                best
            }
        });
        newest.map_or(0, |write| write.value)
    }

    fn status_of(&self, rank: u32) -> Name {
        Name::Status((rank % self.slots) as usize)
    }

    /// Never raises the reader's view: a later read may still be older.
    fn plain_read(
        &self,
        list: &[Write],
        thread: usize,
        cell: u32,
        stamp: u32,
    ) -> Result<u32, Refusal> {
        if stamp < self.views[thread][cell as usize - 1] {
            return Err(Refusal::View);
        }
        self.history(list, cell)
            .find(|write| write.stamp == stamp)
            .map(|write| write.value)
            .ok_or(Refusal::History)
    }

    fn plain_write(
        &mut self,
        list: &mut [Write],
        thread: usize,
        write: Write,
    ) -> Result<(), Refusal> {
        if self.held == MOST_HELD || self.held as usize == list.len() {
            return Err(Refusal::NoRecord);
        }
        let column = write.cell as usize - 1;
        if write.stamp <= self.views[thread][column] {
            return Err(Refusal::View);
        }
        let taken = self.history(list, write.cell).any(|earlier| earlier.stamp == write.stamp);
        if taken {
            return Err(Refusal::History);
        }
        list[self.held as usize] = write;
        self.held += 1;
        self.views[thread][column] = write.stamp;
        Ok(())
    }

    /// Lends an atomic cell and a thread's view, each as far as the machine has
    /// cells: value, the cell's view, the thread's view.
    fn lend(&mut self, thread: usize, name: Name) -> (&mut u32, &mut [u32], &mut [u32]) {
        let cells = self.cells();
        let cell = match name {
            Name::Head => &mut self.head,
            Name::Tail => &mut self.tail,
            Name::Flag(i) => &mut self.flag[i],
            Name::Status(i) => &mut self.status[i],
        };
        (&mut cell.value, &mut cell.view[..cells], &mut self.views[thread][..cells])
    }

    fn atomic_read(&mut self, thread: usize, name: Name) -> u32 {
        let (value, cell, view) = self.lend(thread, name);
        join(view, cell);
        *value
    }

    fn atomic_write(&mut self, thread: usize, name: Name, new: u32) {
        let (value, cell, view) = self.lend(thread, name);
        join(view, cell);
        cell.copy_from_slice(view);
        *value = new;
    }

    /// Whether the swap was won; a lost one is an atomic read.
    fn swap(&mut self, thread: usize, name: Name, old: u32, new: u32) -> bool {
        let won = self.atomic_read(thread, name) == old;
        if won {
            self.atomic_write(thread, name, new);
        }
        won
    }
}

/// Refuses by 9 a cell or flag that the machine lacks; they count from 1.
fn among(number: u32, most: u32) -> Result<(), Refusal> {
    if (1..=most).contains(&number) {
        Ok(())
    } else {
        Err(Refusal::Cell)
    }
}

#[cfg(test)]
mod tests;
