//! Random states with their lists, standing and not, and random steps for them.

use crate::machine::{
    Act, Atomic, Machine, Place, Step, View, Write, MOST_FLAGS, MOST_HELD, MOST_PLAIN, MOST_SLOTS,
    MOST_STEPS, MOST_THREADS, MOST_WEIGHT, ROW,
};
use crate::random::Random;

/// A state to begin at and how many steps to ask of it in turn.
pub struct Case {
    pub machine: Machine,
    pub list: Vec<Write>,
    pub steps: usize,
}

/// Three kinds: reached from an opening, standing anyhow, or one rule of
/// standing broken.
pub fn of_case(random: &mut Random) -> Case {
    match random.below(100) {
        0..=9 => reached(random),
        10..=74 => {
            let (machine, list) = standing(random);
            let steps = random.below(12) + 1;
            Case { machine, list, steps }
        }
        _ => {
            let (mut machine, mut list) = standing(random);
            break_rule(random, &mut machine, &mut list);
            let steps = random.below(3) + 1;
            Case { machine, list, steps }
        }
    }
}

/// An opening; its steps are all compared, so the states they reach are too.
fn reached(random: &mut Random) -> Case {
    let plain: Vec<u32> = (0..size(random, 0, 16)).map(|_| weight(random)).collect();
    let flags: Vec<u32> = (0..size(random, 0, 8)).map(|_| weight(random)).collect();
    let (threads, slots) = (size(random, 1, 8), size(random, 1, 16));
    let machine = Machine::open(threads, slots, &plain, &flags).expect("the sizes are good");
    let (length, steps) = match random.below(400) {
        // Enough asked that 4,096 are taken, or all records used.
        0 if random.chance(1, 2) => (random.pick(&[1_023, 1_024, 1_025, 1_100]), 6_000),
        0..=7 => (random.pick(&[100, 1_024]), 600),
        8..=99 => (random.below(4), random.below(40) + 1),
        _ => (random.below(60) + 20, random.below(80) + 1),
    };
    Case { machine, list: (0..length).map(|_| junk_write(random)).collect(), steps }
}

/// A size in its range, its ends often.
fn size(random: &mut Random, least: u32, most: u32) -> u32 {
    match random.below(6) {
        0 => least,
        1 => most,
        2..=3 => random.between(least, most),
        _ => random.between(least, most.min(3)),
    }
}

fn weight(random: &mut Random) -> u32 {
    match random.below(8) {
        0 => 0,
        1 => MOST_WEIGHT,
        2 => random.between(0, MOST_WEIGHT),
        _ => random.between(0, 3) * 1_000,
    }
}

/// Any word at all, for room that the machine lacks.
fn junk(random: &mut Random) -> u32 {
    match random.below(8) {
        0 => u32::MAX,
        1 => MOST_WEIGHT + 1,
        2 => 0,
        _ => random.draw() as u32,
    }
}

fn junk_write(random: &mut Random) -> Write {
    match random.below(3) {
        0 => Write::default(),
        // Looks like a write that happened, though it is not held.
        1 => Write {
            cell: random.between(1, 8),
            stamp: random.between(0, 5),
            value: random.between(0, 5),
        },
        _ => Write { cell: junk(random), stamp: junk(random), value: junk(random) },
    }
}

/// Few stamps, so that equal ones meet.
fn stamp_pool(random: &mut Random) -> [u32; 6] {
    match random.below(5) {
        0 => [0, 1, 2, 3, 4, 5],
        1 => [0, 0, 0, 1, 1, 1_000],
        2 => [0, 1, MOST_WEIGHT - 2, MOST_WEIGHT - 1, MOST_WEIGHT, MOST_WEIGHT],
        3 => [0, 1_000, 1_001, 2_000, 2_001, 999],
        _ => std::array::from_fn(|_| random.between(0, MOST_WEIGHT)),
    }
}

fn view(random: &mut Random, pool: &[u32; 6]) -> View {
    match random.below(6) {
        0 => [0; ROW],
        1 => [random.pick(pool); ROW],
        _ => {
            // One drawn number serves for many entries.
            let mut bits = 0;
            std::array::from_fn(|entry| {
                if entry % 16 == 0 {
                    bits = random.draw();
                }
                let at = bits & 15;
                bits >>= 4;
                pool[(at % 6) as usize]
            })
        }
    }
}

/// A place of any kind; whether it notes these is up to the place.
fn place(number: usize, rank: u32, weight: u32) -> Place {
    match number {
        0 => Place::Idle,
        1 => Place::PutSecond { rank, weight },
        2 => Place::PutThird { rank, weight },
        3 => Place::PutFourth { rank, weight },
        4 => Place::PutFifth { rank },
        5 => Place::TakeSecond { rank },
        6 => Place::TakeThird { rank },
        7 => Place::TakeFourth { rank },
        _ => Place::TakeFifth { rank, weight },
    }
}

/// A state that stands, though no run need reach it.
fn standing(random: &mut Random) -> (Machine, Vec<Write>) {
    let (threads, slots) = (size(random, 1, 8), size(random, 1, 16));
    let (plain, flags) = (size(random, 0, 16), size(random, 0, 8));
    let steps = match random.below(12) {
        0 => 0,
        1 => MOST_STEPS,
        2 => MOST_STEPS - 1,
        3..=7 => random.between(1, 12),
        _ => random.between(0, MOST_STEPS),
    };
    let pool = stamp_pool(random);
    let centre = match random.below(4) {
        0 => steps,
        _ => random.between(0, steps),
    };
    let head = near(random, centre, steps);
    let tail = near(random, centre, steps);
    let mut machine = Machine {
        threads,
        slots,
        plain,
        flags,
        steps,
        held: 0,
        first: std::array::from_fn(|_| weight(random)),
        places: [Place::Idle; MOST_THREADS],
        views: std::array::from_fn(|_| view(random, &pool)),
        head: Atomic { value: head, view: view(random, &pool) },
        tail: Atomic { value: tail, view: view(random, &pool) },
        flag: std::array::from_fn(|_| Atomic { value: weight(random), view: view(random, &pool) }),
        status: std::array::from_fn(|_| Atomic { value: 0, view: view(random, &pool) }),
    };
    for thread in 0..threads as usize {
        let number = match random.below(3) {
            0 => 0,
            _ => random.below(9),
        };
        let own = if number < 5 { head } else { tail };
        let rank = match random.below(10) {
            0 => random.between(0, steps),
            1 => steps,
            2..=3 => near(random, centre, steps),
            _ => own,
        };
        machine.places[thread] = place(number, rank, weight(random));
    }
    let top = 2 * (steps + slots) + 1;
    for slot in 0..slots {
        // A rank near the others that uses this slot.
        let rank = (centre + 1).saturating_sub((centre + 1 + slots - slot) % slots);
        let value = match random.below(12) {
            0 => random.between(0, top),
            1 => top,
            2 => 0,
            3 => 2 * (rank + slots),
            4..=7 => 2 * rank + 1,
            _ => 2 * rank,
        };
        machine.status[slot as usize].value = value.min(top);
    }
    // Some noted ranks find just the status they need.
    for thread in 0..threads as usize {
        let place = machine.places[thread];
        if let (Some(rank), true) = (place.rank(), random.chance(1, 2)) {
            let taking = matches!(place, Place::TakeSecond { .. });
            let status = &mut machine.status[(rank % slots) as usize];
            status.value = 2 * rank + u32::from(taking);
        }
    }
    let list = list(random, &mut machine, &pool);
    if random.chance(1, 2) {
        fill_room(random, &mut machine);
    } else {
        clear_room(&mut machine);
    }
    (machine, list)
}

/// A rank near another, and not above the steps.
fn near(random: &mut Random, rank: u32, steps: u32) -> u32 {
    match random.below(6) {
        0 => rank.saturating_sub(1),
        1 => (rank + 1).min(steps),
        _ => rank,
    }
}

/// A lent list for the machine, whose held count it sets. Stamps may be equal
/// or 0; what lies behind the held records is anything.
fn list(random: &mut Random, machine: &mut Machine, pool: &[u32; 6]) -> Vec<Write> {
    let most = MOST_HELD as usize;
    let (length, held) = match random.below(40) {
        0..=3 => (0, 0),
        4..=9 => {
            let full = random.below(9);
            (full, full)
        }
        10..=34 => {
            let length = random.below(14) + 1;
            (length, random.below(length + 1))
        }
        35 => (random.pick(&[most, most + 1, most + 7]), most),
        36 => (random.pick(&[most, most + 1, most + 7]), most - 1),
        37 => (most - 1, most - 1),
        _ => {
            let length = random.below(1_200);
            (length, random.below(length.min(most) + 1))
        }
    };
    let cells = machine.plain + machine.slots;
    let wide = random.chance(1, 2);
    machine.held = held as u32;
    (0..length)
        .map(|at| {
            if at >= held && random.chance(1, 2) {
                return junk_write(random);
            }
            Write {
                cell: match random.below(8) {
                    0 => cells,
                    1 => 1,
                    _ => random.between(1, cells),
                },
                stamp: match random.below(16) {
                    0 => 0,
                    1 => MOST_WEIGHT,
                    _ if wide => random.between(0, 2_000),
                    _ => random.pick(pool),
                },
                value: match random.below(16) {
                    0 => MOST_WEIGHT,
                    _ => random.between(0, 9_999),
                },
            }
        })
        .collect()
}

/// Calls `change` for each word of room that the machine lacks, but for the
/// places of threads above T.
fn each_of_room(machine: &mut Machine, mut change: impl FnMut(&mut u32)) {
    let cells = machine.cells();
    let (threads, plain) = (machine.threads as usize, machine.plain as usize);
    let (flags, slots) = (machine.flags as usize, machine.slots as usize);
    machine.first[plain..].iter_mut().for_each(&mut change);
    for (thread, view) in machine.views.iter_mut().enumerate() {
        let from = if thread < threads { cells } else { 0 };
        view[from..].iter_mut().for_each(&mut change);
    }
    let ends = [&mut machine.head, &mut machine.tail];
    let atomics = ends
        .into_iter()
        .map(|cell| (true, cell))
        .chain((0..).map(|i| i < flags).zip(&mut machine.flag))
        .chain((0..).map(|i| i < slots).zip(&mut machine.status));
    for (present, cell) in atomics {
        if !present {
            change(&mut cell.value);
        }
        let from = if present { cells } else { 0 };
        cell.view[from..].iter_mut().for_each(&mut change);
    }
}

fn fill_room(random: &mut Random, machine: &mut Machine) {
    each_of_room(machine, |word| *word = junk(random));
    for thread in machine.threads as usize..MOST_THREADS {
        let number = random.below(9);
        machine.places[thread] = place(number, junk(random), junk(random));
    }
}

fn clear_room(machine: &mut Machine) {
    each_of_room(machine, |word| *word = 0);
    machine.places[machine.threads as usize..].fill(Place::Idle);
}

/// One too many, or far too many.
fn above(random: &mut Random, most: u32) -> u32 {
    match random.below(4) {
        0 => u32::MAX,
        1 => most + random.between(1, 1_000),
        _ => most + 1,
    }
}

/// Breaks one rule of 'A state stands if', alone.
fn break_rule(random: &mut Random, machine: &mut Machine, list: &mut Vec<Write>) {
    let cells = machine.plain + machine.slots;
    let entry = random.below(cells as usize);
    let thread = random.below(machine.threads as usize);
    let slot = random.below(machine.slots as usize);
    let flag = random.below(machine.flags.max(1) as usize);
    let steps = machine.steps;
    // Which rules there is something to break of.
    let has_plain = usize::from(machine.plain > 0);
    let has_flags = usize::from(machine.flags > 0);
    let has_held = usize::from(machine.held > 0);
    let shares = [
        2,
        2,
        1,
        1,
        2,
        2,
        2,
        2,
        2,
        3,
        2,
        2,
        has_flags,
        2,
        2,
        has_plain,
        has_flags,
        3,
        has_held,
        has_held,
        2 * has_held,
    ];
    match random.weighted(&shares) {
        0 => machine.threads = zero_or_above(random, MOST_THREADS),
        1 => machine.slots = zero_or_above(random, MOST_SLOTS),
        2 => machine.plain = above(random, MOST_PLAIN as u32),
        3 => machine.flags = above(random, MOST_FLAGS as u32),
        4 => machine.steps = above(random, MOST_STEPS),
        5 => {
            // More than 1,024 held, each of them good and in the list.
            let more = random.between(1, 3);
            machine.held = MOST_HELD + more;
            let good = Write { cell: cells, ..Write::default() };
            list.clear();
            list.resize((machine.held + random.between(0, 2)) as usize, good);
        }
        6 => {
            // A list shorter than its held count.
            if machine.held > 0 && random.chance(1, 2) {
                list.truncate(random.below(machine.held as usize));
            } else {
                list.truncate(MOST_HELD as usize - 1);
                let past = above(random, list.len() as u32);
                machine.held = past;
            }
        }
        7 => machine.head.value = above(random, steps),
        8 => machine.tail.value = above(random, steps),
        9 => {
            let number = random.below(8) + 1;
            machine.places[thread] = place(number, above(random, steps), weight(random));
        }
        10 => {
            let top = 2 * (steps + machine.slots) + 1;
            machine.status[slot].value = above(random, top);
        }
        11 => machine.views[thread][entry] = above(random, MOST_WEIGHT),
        12 => machine.flag[flag].view[entry] = above(random, MOST_WEIGHT),
        13 => {
            let ends = [&mut machine.head, &mut machine.tail];
            ends[random.below(2)].view[entry] = above(random, MOST_WEIGHT);
        }
        14 => machine.status[slot].view[entry] = above(random, MOST_WEIGHT),
        15 => {
            let cell = random.below(machine.plain as usize);
            machine.first[cell] = above(random, MOST_WEIGHT);
        }
        16 => machine.flag[flag].value = above(random, MOST_WEIGHT),
        17 => {
            let number = random.pick(&[1, 2, 3, 8]);
            machine.places[thread] =
                place(number, random.between(0, steps), above(random, MOST_WEIGHT));
        }
        18 => some_held(random, machine, list).stamp = above(random, MOST_WEIGHT),
        19 => some_held(random, machine, list).value = above(random, MOST_WEIGHT),
        _ => {
            let past = above(random, cells);
            some_held(random, machine, list).cell = random.pick(&[0, cells + 1, past]);
        }
    }
}

fn zero_or_above(random: &mut Random, most: usize) -> u32 {
    match random.below(3) {
        0 => 0,
        _ => above(random, most as u32),
    }
}

/// A held record, the last one often.
fn some_held<'a>(random: &mut Random, machine: &Machine, list: &'a mut [Write]) -> &'a mut Write {
    let held = machine.held as usize;
    let at = match random.below(3) {
        0 => held - 1,
        _ => random.below(held),
    };
    &mut list[at]
}

/// A step for this state: mostly one that fits the thread's place, with
/// operands on both sides of each edge.
pub fn any_step(random: &mut Random, machine: &Machine, list: &[Write]) -> Step {
    // The state need not stand: sizes may be anything.
    let threads = machine.threads.clamp(1, MOST_THREADS as u32);
    let thread = match random.below(16) {
        0 => random.pick(&[0, threads, machine.threads.wrapping_add(1), 8, 9, u32::MAX]),
        _ => random.between(1, threads),
    };
    let row = (thread.clamp(1, 8) - 1) as usize;
    let place = machine.places[row];
    // Begin, go, anything: mostly what is due.
    let shares = match place {
        Place::Idle => [80, 5, 8],
        _ => [6, 80, 8],
    };
    let form = match random.weighted(&shares) {
        0 => random.below(7),
        1 if place.stamp_due() => 8,
        1 => 7,
        _ => random.below(9),
    };

    let cell = edge_number(random, machine.plain, &[machine.cells_or_most(), 16, 17]);
    let flag = edge_number(random, machine.flags, &[8, 9]);
    let act = match form {
        0 => Act::Get { cell, stamp: read_stamp(random, machine, list, row, cell) },
        1 => Act::Set {
            cell,
            value: operand(random),
            stamp: write_stamp(random, machine, list, row, cell),
        },
        2 => Act::Load { flag },
        3 => Act::Store { flag, value: operand(random) },
        4 => {
            let now = machine.flag[(flag.clamp(1, 8) - 1) as usize].value;
            Act::Swap {
                flag,
                old: match random.below(3) {
                    0 => operand(random),
                    _ => now,
                },
                new: operand(random),
            }
        }
        5 => Act::Put { value: operand(random) },
        6 => Act::Take,
        7 => Act::Go,
        _ => {
            let slots = machine.slots.clamp(1, MOST_SLOTS as u32);
            let rank = place.rank().unwrap_or(0);
            let cell = machine.plain.min(16) + 1 + rank % slots;
            let stamp = if matches!(place, Place::PutFourth { .. }) {
                write_stamp(random, machine, list, row, cell)
            } else {
                read_stamp(random, machine, list, row, cell)
            };
            Act::GoStamp { stamp }
        }
    };
    Step { thread, act }
}

impl Machine {
    /// The greatest record number, also where the sizes are not in range.
    fn cells_or_most(&self) -> u32 {
        self.plain.saturating_add(self.slots)
    }
}

/// A number from 1 to `most`, or next to an edge.
fn edge_number(random: &mut Random, most: u32, others: &[u32]) -> u32 {
    if most > 0 && random.chance(7, 8) {
        return random.between(1, most.min(16));
    }
    match random.below(3) {
        0 => random.pick(&[0, most, u32::MAX]),
        1 => most.wrapping_add(1),
        _ => random.pick(others),
    }
}

fn operand(random: &mut Random) -> u32 {
    match random.below(24) {
        0 => MOST_WEIGHT + 1,
        1 => u32::MAX,
        _ => weight(random),
    }
}

/// A stamp of the cell's history, as a list not of our making may hold it.
fn history_stamp(random: &mut Random, machine: &Machine, list: &[Write], cell: u32) -> u32 {
    let held = (machine.held as usize).min(list.len());
    if held > 0 {
        // A search from anywhere finds one without counting them all.
        let from = random.below(held);
        let order = (from..held).chain(0..from);
        for at in order.take(64) {
            if list[at].cell == cell {
                return list[at].stamp;
            }
        }
    }
    0
}

/// One of the history's later stamps, which is seldom below a view.
fn greatest_of_three(random: &mut Random, machine: &Machine, list: &[Write], cell: u32) -> u32 {
    let stamps = [0; 3].map(|_| history_stamp(random, machine, list, cell));
    stamps.into_iter().max().unwrap_or(0)
}

fn seen(machine: &Machine, row: usize, cell: u32) -> u32 {
    machine.views[row][(cell.clamp(1, ROW as u32) - 1) as usize]
}

fn read_stamp(
    random: &mut Random,
    machine: &Machine,
    list: &[Write],
    row: usize,
    cell: u32,
) -> u32 {
    let seen = seen(machine, row, cell);
    match random.below(20) {
        0..=3 => seen,
        4 => seen.wrapping_sub(1),
        5..=6 => seen.wrapping_add(1),
        7..=15 => greatest_of_three(random, machine, list, cell),
        16..=17 => history_stamp(random, machine, list, cell),
        _ => edge_stamp(random),
    }
}

fn write_stamp(
    random: &mut Random,
    machine: &Machine,
    list: &[Write],
    row: usize,
    cell: u32,
) -> u32 {
    let seen = seen(machine, row, cell);
    match random.below(20) {
        0 => seen,
        1 => seen.wrapping_sub(1),
        2..=9 => seen.wrapping_add(1),
        10..=11 => seen.wrapping_add(random.between(2, 3_000)),
        12..=13 => greatest_of_three(random, machine, list, cell).wrapping_add(1),
        14..=17 => greatest_of_three(random, machine, list, cell),
        18 => history_stamp(random, machine, list, cell),
        _ => edge_stamp(random),
    }
}

fn edge_stamp(random: &mut Random) -> u32 {
    match random.below(8) {
        0 => 0,
        1..=2 => MOST_WEIGHT,
        3 => MOST_WEIGHT + 1,
        4 => u32::MAX,
        _ => random.between(0, MOST_WEIGHT),
    }
}

#[cfg(test)]
mod tests {
    use super::*;

    #[test]
    fn standing_states_stand() {
        for case in 0..2_000 {
            let (machine, list) = standing(&mut Random::of_case(3, case));
            assert!(machine.stands(&list), "case {case}");
        }
    }

    #[test]
    fn broken_states_do_not() {
        for case in 0..4_000 {
            let mut random = Random::of_case(4, case);
            let (mut machine, mut list) = standing(&mut random);
            break_rule(&mut random, &mut machine, &mut list);
            assert!(!machine.stands(&list), "case {case}");
        }
    }
}
