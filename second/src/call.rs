//! One call of the proved runner's library: what it is lent, the rules that
//! refuse it before its step is looked at, and draws of calls that break them.
//!
//! The rules are the call as `docs/DECISIONS.md` settles it. The answer needs
//! room for its two words, else 15. What is asked must be a line of the table:
//! five words, one of the nine forms, and 0 for each operand that the form
//! lacks, else 2. The state must be the image of
//! one: all its words, and of each of the eight threads, those above T among
//! them, the words of a place, else 14. Words past the image, past what is asked
//! and past the answer are nobody's: not looked at, not written.

use crate::image::{ATOMICS, THREAD, THREADS, WORDS};
use crate::machine::MOST_THREADS;
use crate::random::Random;

const ASKED: usize = 5;
/// How many operands each form has: get, set, load, store, swap, put, take, go,
/// go with a stamp.
const OPERANDS: [usize; 9] = [2, 3, 1, 2, 3, 1, 0, 0, 1];
const ANSWER: usize = 2;

/// What a call is lent besides the list.
#[derive(Clone, Debug, PartialEq, Eq)]
pub struct Words {
    pub state: Vec<u32>,
    pub asked: Vec<u32>,
    pub answer: Vec<u32>,
}

impl Words {
    /// The number that the call is refused by whatever its step is.
    pub fn refused(&self) -> Option<u32> {
        if self.answer.len() < ANSWER {
            Some(15)
        } else if self.asked.len() < ASKED || !form_kept(&self.asked) {
            Some(2)
        } else if self.state.len() < WORDS || !places_known(&self.state) {
            Some(14)
        } else {
            None
        }
    }
}

/// Whether the form is one of the nine and has as many operands as are given.
fn form_kept(asked: &[u32]) -> bool {
    OPERANDS
        .get(asked[1] as usize)
        .is_some_and(|&many| asked[2 + many..ASKED].iter().all(|&more| more == 0))
}

fn places_known(state: &[u32]) -> bool {
    state[THREADS..ATOMICS].chunks_exact(THREAD).all(|thread| {
        notes(thread[0])
            .is_some_and(|noted| (noted.rank || thread[1] == 0) && (noted.weight || thread[2] == 0))
    })
}

struct Noted {
    rank: bool,
    weight: bool,
}

/// What the place of a number notes, if there is such a place: a put the weight
/// up to its write, a take from its read on.
fn notes(place: u32) -> Option<Noted> {
    match place {
        0 => Some(Noted { rank: false, weight: false }),
        1..=3 | 8 => Some(Noted { rank: true, weight: true }),
        4..=7 => Some(Noted { rank: true, weight: false }),
        _ => None,
    }
}

/// The ways in which a call can be odd.
pub const ODD: [&str; 9] = [
    "image short",
    "place unknown",
    "place unknown above T",
    "word not noted",
    "form unknown",
    "operand not due",
    "asked short",
    "answer short",
    "longer than needed",
];

/// Places with a rank or weight that they do not note. The draws go by lists like
/// this one and not by the rules above, so that a wrong rule shows.
const NOT_NOTED: [[u32; 3]; 10] = [
    [0, 1, 0],
    [0, 0, 1],
    [0, u32::MAX, u32::MAX],
    [4, 0, 1],
    [5, 0, 1],
    [5, 1, u32::MAX],
    [6, 0, 1],
    [6, 2, 1_000],
    [7, 0, 1],
    [7, 1, u32::MAX],
];

/// Forms with a word of an operand that they lack.
const NOT_DUE: [(u32, usize); 14] = [
    (0, 4),
    (2, 3),
    (2, 4),
    (3, 4),
    (5, 3),
    (5, 4),
    (6, 2),
    (6, 3),
    (6, 4),
    (7, 2),
    (7, 3),
    (7, 4),
    (8, 3),
    (8, 4),
];

/// Makes a call odd, mostly in one way; says in which.
pub fn make_odd(random: &mut Random, words: &mut Words) -> Vec<usize> {
    let many = random.pick(&[1, 1, 1, 1, 2, 3]);
    // What is longer comes first, then what is cut, the state last.
    let mut ways: Vec<usize> = (0..many).map(|_| random.below(ODD.len())).collect();
    ways.sort_unstable_by(|a, b| b.cmp(a));
    ways.dedup();
    ways.retain(|&way| odd_in(random, words, way));
    ways
}

/// False where there is nothing to be made odd so.
fn odd_in(random: &mut Random, words: &mut Words, way: usize) -> bool {
    let Words { state, asked, answer } = words;
    let threads = (state[0] as usize).min(MOST_THREADS);
    match way {
        0 => {
            let any = random.below(WORDS);
            state.truncate(random.pick(&[0, 1, 6, 22, 302, WORDS - 2, WORDS - 1, WORDS - 1, any]));
        }
        1 | 2 => {
            let among = if way == 1 { 0..threads } else { threads..MOST_THREADS };
            if among.is_empty() {
                return false;
            }
            let thread = among.start + random.below(among.len());
            state[THREADS + THREAD * thread] = unknown(random);
        }
        3 => {
            let thread = THREADS + THREAD * random.below(MOST_THREADS);
            state[thread..][..3].copy_from_slice(&random.pick(&NOT_NOTED));
        }
        4 => match asked.get_mut(1) {
            Some(form) => *form = unknown(random),
            None => return false,
        },
        5 => {
            let (form, operand) = random.pick(&NOT_DUE);
            if asked.len() < ASKED {
                return false;
            }
            asked[1] = form;
            asked[2..ASKED].fill(0);
            asked[operand] = random.pick(&[1, 1_500, u32::MAX]);
        }
        6 => asked.truncate(random.pick(&[0, 1, 2, 3, 4, 4])),
        7 => answer.truncate(random.pick(&[0, 1])),
        _ => {
            for (room, least) in [(state, 0), (asked, 0), (answer, 1)] {
                let more = random.below(40) + least;
                room.extend((0..more).map(|_| random.draw() as u32));
            }
        }
    }
    true
}

/// No place and no form: both have numbers 0 to 8.
fn unknown(random: &mut Random) -> u32 {
    let any = random.between(9, u32::MAX);
    random.pick(&[9, 10, 15, 16, 256, 265, 1 << 31, u32::MAX, any])
}

#[cfg(test)]
mod tests {
    use super::*;

    fn good() -> Words {
        Words { state: vec![0; WORDS], asked: vec![1, 8, 0, 0, 0], answer: vec![9, 9] }
    }

    fn refused(change: impl FnOnce(&mut Words)) -> Option<u32> {
        let mut words = good();
        change(&mut words);
        words.refused()
    }

    #[test]
    fn both_sides_of_each_rule() {
        assert_eq!(good().refused(), None);
        assert_eq!(refused(|w| w.answer.truncate(1)), Some(15));
        assert_eq!(refused(|w| w.asked.truncate(4)), Some(2));
        assert_eq!(refused(|w| w.asked[1] = 9), Some(2));
        assert_eq!(refused(|w| w.asked[2] = 1_500), None);
        assert_eq!(refused(|w| w.asked[1..3].copy_from_slice(&[7, 1_500])), Some(2));
        assert_eq!(refused(|w| w.state.truncate(1_159)), Some(14));
        assert_eq!(refused(|w| w.state.push(7)), None);
        // The last thread, which no machine of one thread has.
        let last = 22 + 35 * 7;
        assert_eq!(refused(|w| w.state[last..][..3].copy_from_slice(&[8, 7, 6])), None);
        assert_eq!(refused(|w| w.state[last..][..3].copy_from_slice(&[4, 7, 0])), None);
        assert_eq!(refused(|w| w.state[last..][..3].copy_from_slice(&[4, 7, 6])), Some(14));
        assert_eq!(refused(|w| w.state[last + 1] = 7), Some(14));
        assert_eq!(refused(|w| w.state[last] = 9), Some(14));
    }

    #[test]
    fn first_of_several_faults() {
        let all = |w: &mut Words| {
            w.state.clear();
            w.asked.clear();
        };
        assert_eq!(refused(all), Some(2));
        assert_eq!(
            refused(|w| {
                all(w);
                w.answer.clear()
            }),
            Some(15)
        );
    }

    /// What is odd is refused, but for what is only longer.
    #[test]
    fn odd_calls_are_refused() {
        for case in 0..4_000 {
            let mut words = good();
            let ways = make_odd(&mut Random::of_case(5, case), &mut words);
            let fault = ways.iter().any(|&way| way != ODD.len() - 1);
            assert_eq!(words.refused().is_some(), fault, "case {case}");
        }
    }
}
