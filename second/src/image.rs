//! A state, a step and an answer as words, as the proved runner's library takes
//! and gives them.

use crate::machine::{
    Act, Answer, Atomic, Machine, Place, Step, MOST_FLAGS, MOST_PLAIN, MOST_SLOTS, MOST_THREADS,
    ROW,
};

const SIZES: usize = 6;
pub const THREAD: usize = 3 + ROW;
const ATOMIC: usize = 1 + ROW;
pub const THREADS: usize = SIZES + MOST_PLAIN;
pub const ATOMICS: usize = THREADS + MOST_THREADS * THREAD;

/// Length of a state's image: sizes, first values, threads, then head, tail,
/// flags and statuses.
pub const WORDS: usize = ATOMICS + (2 + MOST_FLAGS + MOST_SLOTS) * ATOMIC;

/// Place, rank and weight; 0 where the place notes none.
fn place_words(place: Place) -> [u32; 3] {
    let number = match place {
        Place::Idle => 0,
        Place::PutSecond { .. } => 1,
        Place::PutThird { .. } => 2,
        Place::PutFourth { .. } => 3,
        Place::PutFifth { .. } => 4,
        Place::TakeSecond { .. } => 5,
        Place::TakeThird { .. } => 6,
        Place::TakeFourth { .. } => 7,
        Place::TakeFifth { .. } => 8,
    };
    [number, place.rank().unwrap_or(0), place.weight().unwrap_or(0)]
}

/// Fills the image of a state.
pub fn state_words(machine: &Machine, words: &mut [u32; WORDS]) {
    let sizes =
        [machine.threads, machine.slots, machine.plain, machine.flags, machine.steps, machine.held];
    words[..SIZES].copy_from_slice(&sizes);
    words[SIZES..THREADS].copy_from_slice(&machine.first);
    let threads = words[THREADS..ATOMICS].chunks_exact_mut(THREAD);
    for ((room, &place), view) in threads.zip(&machine.places).zip(&machine.views) {
        room[..3].copy_from_slice(&place_words(place));
        room[3..].copy_from_slice(view);
    }
    let atomics = words[ATOMICS..].chunks_exact_mut(ATOMIC);
    for (room, Atomic { value, view }) in atomics.zip(atomic_cells(machine)) {
        room[0] = *value;
        room[1..].copy_from_slice(view);
    }
}

fn atomic_cells(machine: &Machine) -> impl Iterator<Item = &Atomic> {
    [&machine.head, &machine.tail].into_iter().chain(&machine.flag).chain(&machine.status)
}

/// What a word of the image is, for people.
pub fn word_name(index: usize) -> String {
    let entry = |at: usize, names: &[&str]| match names.get(at) {
        Some(name) => (*name).to_string(),
        None => format!("view[{}]", at - names.len()),
    };
    if index < SIZES {
        ["threads", "slots", "plain", "flags", "steps", "held"][index].into()
    } else if index < THREADS {
        format!("first value {}", index - SIZES + 1)
    } else if index < ATOMICS {
        let at = index - THREADS;
        let names = ["place", "rank", "weight"];
        format!("thread {} {}", at / THREAD + 1, entry(at % THREAD, &names))
    } else {
        let at = index - ATOMICS;
        let cell = match at / ATOMIC {
            0 => "head".into(),
            1 => "tail".into(),
            cell if cell < 2 + MOST_FLAGS => format!("flag {}", cell - 1),
            cell => format!("status {}", cell - 2 - MOST_FLAGS),
        };
        format!("{cell} {}", entry(at % ATOMIC, &["value"]))
    }
}

/// Thread, form and operands.
pub fn step_words(step: Step) -> [u32; 5] {
    let (form, [a, b, c]) = match step.act {
        Act::Get { cell, stamp } => (0, [cell, stamp, 0]),
        Act::Set { cell, value, stamp } => (1, [cell, value, stamp]),
        Act::Load { flag } => (2, [flag, 0, 0]),
        Act::Store { flag, value } => (3, [flag, value, 0]),
        Act::Swap { flag, old, new } => (4, [flag, old, new]),
        Act::Put { value } => (5, [value, 0, 0]),
        Act::Take => (6, [0; 3]),
        Act::Go => (7, [0; 3]),
        Act::GoStamp { stamp } => (8, [stamp, 0, 0]),
    };
    [step.thread, form, a, b, c]
}

/// Kind and value.
pub fn answer_words(answer: Answer) -> [u32; 2] {
    match answer {
        Answer::Dash => [0, 0],
        Answer::Ok => [1, 0],
        Answer::Value(value) => [2, value],
        Answer::Yes => [3, 0],
        Answer::No => [4, 0],
        Answer::Nothing => [5, 0],
        Answer::Got(weight) => [6, weight],
    }
}

/// The kinds of answer in the order of their numbers.
pub const KINDS: [&str; 7] = ["-", "ok", "value", "yes", "no", "none", "got"];

#[cfg(test)]
mod tests {
    use super::*;

    #[test]
    fn layout() {
        assert_eq!(WORDS, 1_160);
        let mut machine = Machine::open(2, 3, &[70], &[5]).unwrap();
        machine.places[1] = Place::TakeFifth { rank: 6, weight: 7 };
        machine.places[2] = Place::PutFifth { rank: 9 };
        machine.views[1][31] = 8;
        machine.tail.view[0] = 4;
        let mut words = [1; WORDS];
        state_words(&machine, &mut words);
        assert_eq!(words[..8], [2, 3, 1, 1, 0, 0, 70, 0]);
        assert_eq!(words[57..60], [8, 6, 7]);
        assert_eq!(words[91], 8);
        assert_eq!(words[92..95], [4, 9, 0]);
        assert_eq!(words[302], 0);
        assert_eq!(words[336], 4);
        assert_eq!(words[368], 5);
        // Statuses begin after head, tail and eight flags.
        assert_eq!(words[302 + 33 * 11], 2);
        assert_eq!(words[302 + 33 * 12], 4);
        assert_eq!(word_name(91), "thread 2 view[31]");
        assert_eq!(word_name(336), "tail view[0]");
        assert_eq!(word_name(368), "flag 1 value");
        assert_eq!(word_name(302 + 33 * 11), "status 1 value");
    }
}
