//! The edges and traps that document 01 names, and each rule of standing.

use super::*;

fn lent(length: usize) -> Vec<Write> {
    vec![Write::default(); length]
}

fn get(thread: u32, cell: u32, stamp: u32) -> Step {
    let act = Act::Get { cell, stamp };
    Step { thread, act }
}

fn set(thread: u32, cell: u32, value: u32, stamp: u32) -> Step {
    let act = Act::Set { cell, value, stamp };
    Step { thread, act }
}

fn load(thread: u32, flag: u32) -> Step {
    let act = Act::Load { flag };
    Step { thread, act }
}

fn store(thread: u32, flag: u32, value: u32) -> Step {
    let act = Act::Store { flag, value };
    Step { thread, act }
}

fn swap(thread: u32, flag: u32, old: u32, new: u32) -> Step {
    let act = Act::Swap { flag, old, new };
    Step { thread, act }
}

fn put(thread: u32, value: u32) -> Step {
    let act = Act::Put { value };
    Step { thread, act }
}

fn take(thread: u32) -> Step {
    let act = Act::Take;
    Step { thread, act }
}

fn go(thread: u32) -> Step {
    let act = Act::Go;
    Step { thread, act }
}

fn go_stamp(thread: u32, stamp: u32) -> Step {
    let act = Act::GoStamp { stamp };
    Step { thread, act }
}

/// Asks for steps in turn, each with its answer or refusal number.
fn run(machine: &mut Machine, list: &mut [Write], steps: &[(Step, Result<Answer, u8>)]) {
    for (at, &(step, due)) in steps.iter().enumerate() {
        let before = (machine.clone(), list.to_vec());
        let given = machine.step(list, step).map_err(Refusal::number);
        assert_eq!(given, due, "step {at}: {step:?}");
        if given.is_err() {
            assert_eq!((machine.clone(), list.to_vec()), before, "step {at}");
        } else {
            assert_eq!(machine.steps, before.0.steps + 1);
            assert!(machine.stands(list), "after step {at}");
        }
    }
}

const DASH: Result<Answer, u8> = Ok(Answer::Dash);
const OK: Result<Answer, u8> = Ok(Answer::Ok);

fn value(value: u32) -> Result<Answer, u8> {
    Ok(Answer::Value(value))
}

#[test]
fn opening() {
    let good = |t, c, n, f| Machine::open(t, c, &vec![0; n], &vec![0; f]);
    for (t, c, n, f) in [(1, 1, 0, 0), (8, 16, 16, 8)] {
        assert!(good(t, c, n, f).is_ok());
    }
    let bad = [
        (0, 1, 0, 0),
        (9, 1, 0, 0),
        (1, 0, 0, 0),
        (1, 17, 0, 0),
        (1, 1, 17, 0),
        (1, 1, 0, 9),
        (u32::MAX, u32::MAX, 0, 0),
    ];
    for (t, c, n, f) in bad {
        assert_eq!(good(t, c, n, f), Err(Refusal::Shape));
    }
    let most = MOST_WEIGHT;
    assert!(Machine::open(1, 1, &[most], &[most]).is_ok());
    let over = Err(Refusal::Weight);
    assert_eq!(Machine::open(1, 1, &[0, most + 1], &[]), over);
    assert_eq!(Machine::open(1, 1, &[], &[0, most + 1]), over);
    // 5 goes before 10.
    let both = Machine::open(0, 1, &[most + 1], &[]);
    assert_eq!(both, Err(Refusal::Shape));

    let machine = Machine::open(2, 3, &[7], &[9]).unwrap();
    let statuses: Vec<u32> = machine.status.iter().map(|cell| cell.value).collect();
    assert_eq!(statuses[..5], [0, 2, 4, 0, 0]);
    assert_eq!((machine.first[0], machine.flag[0].value), (7, 9));
    assert!(machine.stands(&[]));
}

/// 'Both sides of each edge', the third point.
#[test]
fn stamps_at_the_edge() {
    let mut machine = Machine::open(2, 1, &[0], &[]).unwrap();
    let mut list = lent(8);
    let steps = [
        (set(1, 1, 5, 2_000), OK),
        (set(2, 1, 6, 1_000), OK),
        (get(1, 1, 1_000), Err(12)),
        (get(2, 1, 2_000), value(5)),
        (get(2, 1, 1_000), value(6)),
        (set(2, 1, 7, 2_000), Err(13)),
        (set(2, 1, 7, 1_000), Err(12)),
    ];
    run(&mut machine, &mut list, &steps);
}

/// 'Both sides of each edge', the fourth point; the last steps are the trap
/// of deciding "full" by head less tail.
#[test]
fn full_is_decided_by_the_status() {
    let mut machine = Machine::open(2, 1, &[], &[]).unwrap();
    let mut list = lent(8);
    let steps = [
        (put(1, 5), DASH),
        (go(1), DASH),
        (go(1), DASH),
        (go_stamp(1, 1), DASH),
        (go(1), Ok(Answer::Yes)),
        (put(1, 6), DASH),
        (go(1), Ok(Answer::No)),
        (take(2), DASH),
        (go(2), DASH),
        (go(2), DASH),
        (put(1, 6), DASH),
        (go(1), Ok(Answer::No)),
        (go_stamp(2, 1), DASH),
        (put(1, 6), DASH),
        (go(1), Ok(Answer::No)),
    ];
    run(&mut machine, &mut list, &steps);
    assert_eq!(machine.head.value, machine.tail.value);
    let steps = [(go(2), Ok(Answer::Got(5))), (put(1, 6), DASH), (go(1), DASH)];
    run(&mut machine, &mut list, &steps);
}

/// 'Both sides of each edge', the fifth point.
#[test]
fn records_run_out() {
    let mut machine = Machine::open(1, 1, &[0], &[]).unwrap();
    run(&mut machine, &mut [], &[(set(1, 1, 1, 1), Err(11))]);
    for length in [1_024, 1_030] {
        let mut machine = Machine::open(1, 1, &[0], &[]).unwrap();
        let mut list = lent(length);
        for stamp in 1..=1_024 {
            run(&mut machine, &mut list, &[(set(1, 1, 1, stamp), OK)]);
        }
        let steps = [
            (set(1, 1, 1, 1_025), Err(11)),
            // 11 goes before 12 and 13.
            (set(1, 1, 1, 1_024), Err(11)),
            (get(1, 1, 1_024), value(1)),
            (put(1, 1), DASH),
            (go(1), DASH),
            (go(1), DASH),
            (go_stamp(1, 1), Err(11)),
        ];
        run(&mut machine, &mut list, &steps);
    }
}

#[test]
fn trap_a_plain_read_raises_no_view() {
    let mut machine = Machine::open(2, 1, &[4], &[]).unwrap();
    let mut list = lent(8);
    let steps = [
        (set(1, 1, 5, 1_000), OK),
        (get(2, 1, 1_000), value(5)),
        (get(2, 1, 0), value(4)),
        (set(2, 1, 6, 999), OK),
    ];
    run(&mut machine, &mut list, &steps);
    // A take's read raises none either; a reached state cannot show it.
    let mut machine = Machine::open(1, 1, &[], &[]).unwrap();
    machine.steps = 10;
    machine.held = 1;
    machine.places[0] = Place::TakeFourth { rank: 0 };
    list[0] = Write { cell: 1, stamp: 5, value: 9 };
    run(&mut machine, &mut list, &[(go_stamp(1, 5), DASH)]);
    assert_eq!(machine.views[0][0], 0);
    run(&mut machine, &mut list, &[(go(1), Ok(Answer::Got(9)))]);
}

#[test]
fn trap_a_lost_swap_joins() {
    let mut machine = Machine::open(3, 1, &[0], &[0]).unwrap();
    let mut list = lent(8);
    let steps = [
        (set(1, 1, 5, 1_000), OK),
        (store(1, 1, 1), OK),
        (swap(2, 1, 0, 2), Ok(Answer::No)),
        (get(2, 1, 0), Err(12)),
        (get(2, 1, 1_000), value(5)),
        (load(2, 1), value(1)),
        // It is a read: the cell learns nothing from the loser.
        (set(3, 1, 6, 500), OK),
        (swap(3, 1, 0, 2), Ok(Answer::No)),
    ];
    run(&mut machine, &mut list, &steps);
    assert_eq!(machine.flag[0].view[0], 1_000);

    // The same for head: both read 0, thread 1 wins.
    let mut machine = Machine::open(2, 1, &[0], &[]).unwrap();
    let steps = [
        (set(1, 1, 5, 1_000), OK),
        (put(2, 1), DASH),
        (go(2), DASH),
        (put(1, 1), DASH),
        (go(1), DASH),
        (go(1), DASH),
        (go(2), Ok(Answer::No)),
        (get(2, 1, 0), Err(12)),
    ];
    run(&mut machine, &mut list, &steps);
}

#[test]
fn trap_an_atomic_write_joins_both_ways() {
    let mut machine = Machine::open(3, 1, &[0, 0], &[0]).unwrap();
    let mut list = lent(8);
    let steps = [
        (set(1, 1, 5, 1_000), OK),
        (store(1, 1, 1), OK),
        (set(2, 2, 6, 1_000), OK),
        (store(2, 1, 2), OK),
        // Given back to the thread.
        (get(2, 1, 0), Err(12)),
        // Kept in the cell, with the writer's own.
        (load(3, 1), value(2)),
        (get(3, 1, 0), Err(12)),
        (get(3, 2, 0), Err(12)),
    ];
    run(&mut machine, &mut list, &steps);
    // A won swap is the same.
    let mut machine = Machine::open(3, 1, &[0, 0], &[0]).unwrap();
    let steps = [
        (set(1, 1, 5, 1_000), OK),
        (swap(1, 1, 0, 1), Ok(Answer::Yes)),
        (set(2, 2, 6, 1_000), OK),
        (swap(2, 1, 1, 2), Ok(Answer::Yes)),
        (get(2, 1, 0), Err(12)),
        (load(3, 1), value(2)),
        (get(3, 1, 0), Err(12)),
        (get(3, 2, 0), Err(12)),
    ];
    run(&mut machine, &mut list, &steps);
}

#[test]
fn joins_keep_to_the_machines_cells() {
    let mut machine = Machine::open(1, 1, &[0], &[0]).unwrap();
    machine.flag[0].view = [7; ROW];
    machine.views[0][3] = 3;
    let mut list = lent(1);
    run(&mut machine, &mut list, &[(load(1, 1), value(0))]);
    assert_eq!(machine.views[0][..5], [7, 7, 0, 3, 0]);
    machine.flag[0].view = [u32::MAX; ROW];
    machine.flag[0].view[..2].fill(8);
    run(&mut machine, &mut list, &[(store(1, 1, 1), OK)]);
    assert_eq!(machine.views[0][..5], [8, 8, 0, 3, 0]);
    assert_eq!(machine.flag[0].view[..3], [8, 8, u32::MAX]);
}

#[test]
fn refusals_in_their_order() {
    let over = MOST_WEIGHT + 1;
    let mut machine = Machine::open(2, 1, &[0], &[0]).unwrap();
    let mut list = lent(1);
    let steps = [
        (get(0, 9, over), Err(7)),
        (go(3), Err(7)),
        (go(1), Err(8)),
        (go_stamp(1, over), Err(8)),
        (get(1, 0, over), Err(9)),
        // Cell 2 is the slot's record number.
        (get(1, 2, 0), Err(9)),
        (set(1, 2, 0, 1), Err(9)),
        (load(1, 2), Err(9)),
        (store(1, 0, over), Err(9)),
        (swap(1, 2, over, 0), Err(9)),
        (get(1, 1, over), Err(10)),
        (set(1, 1, over, 0), Err(10)),
        (set(1, 1, 0, over), Err(10)),
        (store(1, 1, over), Err(10)),
        (swap(1, 1, over, 0), Err(10)),
        (swap(1, 1, 1, over), Err(10)),
        (put(1, over), Err(10)),
        (set(1, 1, 1, 0), Err(12)),
        (get(1, 1, 1), Err(13)),
        (set(1, 1, 1, 5), OK),
        // 12 goes before 13, 11 before 12.
        (get(1, 1, 4), Err(12)),
        (set(1, 1, 1, 5), Err(11)),
        (put(1, MOST_WEIGHT), DASH),
        (get(1, 9, over), Err(8)),
        (put(1, over), Err(8)),
        (take(1), Err(8)),
        (go_stamp(1, over), Err(8)),
        (go(1), DASH),
        (go(1), DASH),
        (go(1), Err(8)),
        (go_stamp(1, over), Err(10)),
        (go_stamp(1, 0), Err(11)),
    ];
    run(&mut machine, &mut list, &steps);

    machine.steps = MOST_STEPS;
    run(&mut machine, &mut list, &[(go(0), Err(6))]);
    machine.steps += 1;
    run(&mut machine, &mut list, &[(go(0), Err(14))]);
    machine.steps = MOST_STEPS - 1;
    run(&mut machine, &mut list, &[(load(2, 1), value(0))]);
    run(&mut machine, &mut list, &[(load(2, 1), Err(6))]);
}

#[test]
fn equal_stamps_of_a_foreign_list() {
    let mut machine = Machine::open(1, 1, &[4], &[]).unwrap();
    let records = [(1, 0, 5), (1, 3, 6), (2, 3, 7), (1, 3, 8), (2, 0, 9)];
    let mut list: Vec<Write> =
        records.into_iter().map(|(cell, stamp, value)| Write { cell, stamp, value }).collect();
    machine.held = 5;
    let steps = [(get(1, 1, 0), value(4)), (get(1, 1, 3), value(6))];
    run(&mut machine, &mut list, &steps);
    // Records behind the held ones are not in the history.
    machine.held = 1;
    run(&mut machine, &mut list, &[(get(1, 1, 3), Err(13))]);
}

#[test]
fn what_the_queue_holds() {
    let mut machine = Machine::open(1, 2, &[], &[]).unwrap();
    machine.steps = 10;
    machine.head.value = 3;
    machine.tail.value = 1;
    machine.status[1].value = 3;
    machine.status[0].value = 4;
    // The greatest stamp counts, of equal ones the earliest record.
    let records = [(2, 5, 1), (2, 9, 2), (2, 9, 3), (2, 7, 4), (1, 9, 5)];
    let list: Vec<Write> =
        records.into_iter().map(|(cell, stamp, value)| Write { cell, stamp, value }).collect();
    machine.held = 5;
    assert_eq!(machine.queue(&list), [(1, Some(2)), (2, None)]);
    // A record at 0 is hidden behind the first write.
    machine.held = 0;
    assert_eq!(machine.queue(&list), [(1, Some(0)), (2, None)]);
    machine.tail.value = 4;
    assert_eq!(machine.queue(&list), []);
}

/// Each rule of standing at its edge and one beyond.
#[test]
fn standing() {
    let mut good = Machine::open(2, 2, &[MOST_WEIGHT], &[MOST_WEIGHT]).unwrap();
    good.steps = 6;
    good.held = 1;
    good.head.value = 6;
    good.tail.value = 6;
    good.status[1].value = 17;
    good.views[1][2] = MOST_WEIGHT;
    let weight = MOST_WEIGHT;
    good.places[1] = Place::PutFourth { rank: 6, weight };
    let list = [Write { cell: 3, stamp: MOST_WEIGHT, value: MOST_WEIGHT }];
    assert!(good.stands(&list));
    assert!(!good.stands(&[]));
    let over = MOST_WEIGHT + 1;
    let breaks: [fn(&mut Machine, u32); 15] = [
        |m, _| m.threads = 9,
        |m, _| m.slots = 17,
        |m, _| m.plain = 17,
        |m, _| m.flags = 9,
        |m, _| m.steps = 4_097,
        |m, _| m.held = 2,
        |m, _| m.head.value = 7,
        |m, _| m.tail.value = 7,
        |m, _| m.status[1].value = 18,
        |m, over| m.first[0] = over,
        |m, over| m.flag[0].value = over,
        |m, over| m.views[1][2] = over,
        |m, over| m.status[1].view[2] = over,
        |m, _| m.places[0] = Place::TakeSecond { rank: 7 },
        |m, over| m.places[0] = Place::TakeFifth { rank: 0, weight: over },
    ];
    for (at, change) in breaks.into_iter().enumerate() {
        let mut machine = good.clone();
        change(&mut machine, over);
        assert!(!machine.stands(&list), "break {at}");
    }
    let room: [fn(&mut Machine, u32); 6] = [
        |m, over| m.first[1] = over,
        |m, over| m.flag[1].value = over,
        |m, over| m.views[1][3] = over,
        |m, over| m.views[2][0] = over,
        |m, over| m.status[2].value = over,
        |m, over| m.places[2] = Place::PutFifth { rank: over },
    ];
    for (at, change) in room.into_iter().enumerate() {
        let mut machine = good.clone();
        change(&mut machine, over);
        assert!(machine.stands(&list), "room {at}");
    }
    for record in [(0, 0, 0), (4, 0, 0), (1, over, 0), (1, 0, over)] {
        let (cell, stamp, value) = record;
        assert!(!good.stands(&[Write { cell, stamp, value }]));
        // Not judged where it is not held.
        let behind = [list[0], Write { cell, stamp, value }];
        assert!(good.stands(&behind));
    }
}
