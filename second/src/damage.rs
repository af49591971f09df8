//! Damaged texts: a good schedule text, most often with one or two faults. Now
//! and then a damage leaves a good text.

// A damage that keeps the length still has the type of the others.
#![allow(clippy::ptr_arg)]

use crate::random::Random;
use crate::schedules;
use crate::text::MOST_BYTES;
use std::ops::Range;

/// One way to damage a text; it must bear any bytes.
type Damage = fn(&mut Random, &mut Vec<u8>);

/// The damages and how often each is taken.
const DAMAGES: [(usize, Damage); 23] = [
    (5, comma),
    (4, carriage_return),
    (4, doubled_space),
    (4, trailing_space),
    (8, cut),
    (6, strange_byte),
    (6, flipped_bit),
    (8, count_off_by_one),
    (6, count_out_of_range),
    (4, leading_zero),
    (6, digit),
    (14, number_at_an_edge),
    (14, weight_at_an_edge),
    (8, fault_of_range),
    (5, swapped_lines),
    (5, dropped_line),
    (5, doubled_line),
    (8, bytes_behind),
    (4, missing_line_feed),
    (1, empty),
    (4, empty_line),
    (6, verb),
    (3, oversize),
];

/// The text of one case.
pub fn of_case(seed: u64, case: u64) -> Vec<u8> {
    let mut random = Random::of_case(seed, case);
    let random = &mut random;
    if case % 20 == 19 {
        return noise(random);
    }
    let mut text = if case % 33 == 32 { schedules::big(random) } else { schedules::small(random) };
    for _ in 0..random.between(1, 2) {
        once(random, &mut text);
    }
    text
}

/// One damage to any bytes.
pub fn once(random: &mut Random, text: &mut Vec<u8>) {
    let (_, damage) = DAMAGES[random.weighted(&DAMAGES.map(|(share, _)| share))];
    damage(random, text);
}

/// Bytes of no schedule's making: any, those of a text, or words of a text.
fn noise(random: &mut Random) -> Vec<u8> {
    let words: [&[u8]; 16] = [
        b"shape 2\n",
        b"threads 1\n",
        b"slots 1\n",
        b"plain 0\n",
        b"plain 1\n",
        b"flag 0\n",
        b"steps 0\n",
        b"steps 1\n",
        b"1 go\n",
        b"1 take\n",
        b"0.000\n",
        b"1.000",
        b" ",
        b"\n",
        b"2",
        b"get",
    ];
    let alphabet = b"0123456789. \nshapetreadslotsplainflagstepsgetsetloadstoreswapputtakego";
    let way = random.below(4);
    let mut text = Vec::new();
    // A good beginning lets the noise get further.
    if way > 0 && random.chance(1, 2) {
        let good = [&b"shape 2\n"[..], b"shape 2\nthreads 2\nslots 1\nplain 0\nflag 0\n"];
        text.extend_from_slice(random.pick(&good));
    }
    for _ in 0..random.below(60) {
        match way {
            0 | 1 => text.push(random.below(256) as u8),
            2 => text.push(random.pick(alphabet)),
            _ => text.extend_from_slice(random.pick(&words)),
        }
    }
    text
}

/// The lines' ranges, each with its LF.
fn lines(text: &[u8]) -> Vec<Range<usize>> {
    let mut start = 0;
    let line = |line: &[u8]| {
        let range = start..start + line.len();
        start = range.end;
        range
    };
    text.split_inclusive(|&byte| byte == b'\n').map(line).collect()
}

/// One line's range; a line of the head as often as one of the steps.
fn some_line(random: &mut Random, text: &[u8]) -> Option<Range<usize>> {
    let lines = lines(text);
    let among = if random.chance(1, 2) { lines.len().min(8) } else { lines.len() };
    (among > 0).then(|| lines[random.below(among)].clone())
}

/// The range of one number, with or without a point.
fn some_number(random: &mut Random, text: &[u8], point: bool) -> Option<Range<usize>> {
    for _ in 0..40 {
        let line = some_line(random, text)?;
        let numbers: Vec<Range<usize>> = fields(&text[line.clone()])
            .into_iter()
            .filter(|field| {
                let field = &text[line.start + field.start..line.start + field.end];
                field.first().is_some_and(u8::is_ascii_digit) && field.contains(&b'.') == point
            })
            .collect();
        if !numbers.is_empty() {
            let field = &numbers[random.below(numbers.len())];
            return Some(line.start + field.start..line.start + field.end);
        }
    }
    None
}

/// The ranges of a line's fields.
fn fields(line: &[u8]) -> Vec<Range<usize>> {
    let mut ranges = Vec::new();
    let mut start = 0;
    for (at, &byte) in line.iter().enumerate() {
        if byte == b' ' || byte == b'\n' {
            ranges.push(start..at);
            start = at + 1;
        }
    }
    if start < line.len() {
        ranges.push(start..line.len());
    }
    ranges
}

/// The offset of one byte with this content.
fn some_byte(random: &mut Random, text: &[u8], byte: u8) -> Option<usize> {
    let places: Vec<usize> = (0..text.len()).filter(|&at| text[at] == byte).collect();
    (!places.is_empty()).then(|| random.pick(&places))
}

fn replace(text: &mut Vec<u8>, range: Range<usize>, with: &[u8]) {
    text.splice(range, with.iter().copied());
}

fn comma(random: &mut Random, text: &mut Vec<u8>) {
    if let Some(at) = some_byte(random, text, b'.') {
        text[at] = random.pick(b",,;: 0");
    }
}

fn carriage_return(random: &mut Random, text: &mut Vec<u8>) {
    if random.chance(1, 4) {
        let all = text.split(|&byte| byte == b'\n').collect::<Vec<_>>();
        *text = all.join(&b"\r\n"[..]);
    } else if let Some(at) = some_byte(random, text, b'\n') {
        text.insert(at, b'\r');
    }
}

fn doubled_space(random: &mut Random, text: &mut Vec<u8>) {
    if let Some(at) = some_byte(random, text, b' ') {
        match random.below(4) {
            0 => text[at] = b'\t',
            _ => text.insert(at, b' '),
        }
    }
}

fn trailing_space(random: &mut Random, text: &mut Vec<u8>) {
    if let Some(line) = some_line(random, text) {
        let at = match random.below(4) {
            0 => line.start,
            _ => line.end - 1,
        };
        text.insert(at, b' ');
    }
}

fn cut(random: &mut Random, text: &mut Vec<u8>) {
    let kept = match random.below(4) {
        0 => random.below(text.len() + 1),
        1 => random.below(text.len().min(60) + 1),
        2 => text.len() - random.below(text.len().min(30) + 1),
        // Behind a whole line.
        _ => some_line(random, text).map_or(0, |line| line.end),
    };
    text.truncate(kept);
}

fn strange_byte(random: &mut Random, text: &mut Vec<u8>) {
    let byte = match random.below(3) {
        0 => 0,
        1 => random.between(128, 255) as u8,
        _ => random.pick(b"\r\t\x0b\x7f+-_/:AZaz0\xb2\xff"),
    };
    let at = random.below(text.len() + 1);
    if at < text.len() && random.chance(1, 2) {
        text[at] = byte;
    } else {
        text.insert(at, byte);
    }
}

fn flipped_bit(random: &mut Random, text: &mut Vec<u8>) {
    if !text.is_empty() {
        let at = random.below(text.len());
        text[at] ^= 1 << random.below(8);
    }
}

fn count_off_by_one(random: &mut Random, text: &mut Vec<u8>) {
    let words: [&[u8]; 6] = [b"plain", b"flag", b"steps", b"steps", b"threads", b"slots"];
    let word = random.pick(&words);
    for line in lines(text) {
        if text[line.clone()].starts_with(word) {
            let field = line.start + word.len() + 1..line.end.saturating_sub(1);
            let digits = text.get(field.clone()).unwrap_or_default();
            if let Ok(count) = String::from_utf8_lossy(digits).parse::<u32>() {
                let off = match random.below(2) {
                    0 => count + 1,
                    _ => count.saturating_sub(1),
                };
                replace(text, field, off.to_string().as_bytes());
            }
            return;
        }
    }
}

/// A head line with the number next to its range.
fn count_out_of_range(random: &mut Random, text: &mut Vec<u8>) {
    let heads = [
        "shape 1\n",
        "shape 3\n",
        "threads 0\n",
        "threads 9\n",
        "slots 0\n",
        "slots 17\n",
        "plain 17\n",
        "flag 9\n",
        "steps 4097\n",
    ];
    let head = random.pick(&heads).as_bytes();
    let word = head.split_inclusive(|&byte| byte == b' ').next();
    for line in lines(text) {
        if word.is_some_and(|word| text[line.clone()].starts_with(word)) {
            replace(text, line, head);
            return;
        }
    }
}

fn leading_zero(random: &mut Random, text: &mut Vec<u8>) {
    let point = random.chance(1, 2);
    if let Some(number) = some_number(random, text, point) {
        text.insert(number.start, b'0');
    }
}

fn digit(random: &mut Random, text: &mut Vec<u8>) {
    let point = random.chance(2, 3);
    if let Some(number) = some_number(random, text, point) {
        if random.chance(1, 2) {
            text.remove(number.start + random.below(number.len()));
        } else {
            let digit = random.pick(b"0123456789");
            text.insert(number.start + random.below(number.len() + 1), digit);
        }
    }
}

fn number_at_an_edge(random: &mut Random, text: &mut Vec<u8>) {
    if let Some(number) = some_number(random, text, false) {
        // Those next to an edge of a thread, a cell or a flag come twice.
        let edges: [&[u8]; 20] = [
            b"0", b"0", b"1", b"2", b"3", b"8", b"9", b"9", b"16", b"17", b"17", b"4095", b"4096",
            b"4097", b"9999", b"10000", b"65536", b"00", b"-1", b"",
        ];
        replace(text, number, random.pick(&edges));
    }
}

fn weight_at_an_edge(random: &mut Random, text: &mut Vec<u8>) {
    if let Some(number) = some_number(random, text, true) {
        let edges: [&[u8]; 16] = [
            b"1000000.000",
            b"1000000.001",
            b"1000001.000",
            b"9999999.999",
            b"10000000.000",
            b"4294967.296",
            b"4294968.296",
            b"0.000",
            b"00.000",
            b".500",
            b"1.",
            b"1",
            b"1.50",
            b"1.5000",
            b"1,500",
            b"01.500",
        ];
        replace(text, number, random.pick(&edges));
    }
}

/// A number out of range, alone or with a fault of form on the same line or the
/// next; form goes before range on a line only. A missing LF is one of form.
fn fault_of_range(random: &mut Random, text: &mut Vec<u8>) {
    // A line with a space that begins with a digit is a step's.
    let mut among = lines(text);
    if random.chance(3, 4) {
        among
            .retain(|line| text[line.start].is_ascii_digit() && text[line.clone()].contains(&b' '));
    }
    if among.is_empty() {
        return;
    }
    let line = among[random.below(among.len())].clone();
    let faults: [&[u8]; 14] = [
        b"9 get 17 1.00\n",
        b"9 go\n1 goo\n",
        b"0 take \n",
        b"1 set 17 1000000.001 1.0\n",
        b"1 swap 9 0.000\n",
        b"9 swap 9 1000000.001 9999999.999\n",
        b"1 put 1000000.001\n",
        b"1 load 0\n",
        b"1 load 9\n",
        b"1 get 17 0.000\n",
        b"1 get 0 0.000\n",
        b"0 go\n",
        b"1000000.001\n",
        b"threads 9\n",
    ];
    let fault = random.pick(&faults);
    let end = line.start + fault.len();
    replace(text, line, fault);
    if random.chance(1, 4) {
        text.truncate(end - 1);
    }
}

fn swapped_lines(random: &mut Random, text: &mut Vec<u8>) {
    let mut order = lines(text);
    if order.len() < 2 {
        return;
    }
    let at = match random.below(2) {
        0 => random.below(order.len().min(8) - 1),
        _ => random.below(order.len() - 1),
    };
    let with = match random.below(3) {
        0 => random.below(order.len()),
        _ => at + 1,
    };
    order.swap(at, with);
    *text = order.into_iter().flat_map(|line| text[line].to_vec()).collect();
}

fn dropped_line(random: &mut Random, text: &mut Vec<u8>) {
    if let Some(line) = some_line(random, text) {
        replace(text, line, b"");
    }
}

fn doubled_line(random: &mut Random, text: &mut Vec<u8>) {
    if let Some(line) = some_line(random, text) {
        let copy = text[line.clone()].to_vec();
        replace(text, line.end..line.end, &copy);
    }
}

fn bytes_behind(random: &mut Random, text: &mut Vec<u8>) {
    let bytes: [&[u8]; 8] =
        [b"\n", b" ", b"0", b"\0", b"1 go\n", b"1 go", b"shape 2\n", b"\xff\xfe"];
    text.extend_from_slice(random.pick(&bytes));
}

fn missing_line_feed(random: &mut Random, text: &mut Vec<u8>) {
    if random.chance(1, 2) {
        if text.last() == Some(&b'\n') {
            text.pop();
        }
    } else if let Some(line) = some_line(random, text) {
        text.remove(line.end - 1);
    }
}

fn empty(_: &mut Random, text: &mut Vec<u8>) {
    text.clear();
}

fn empty_line(random: &mut Random, text: &mut Vec<u8>) {
    if let Some(line) = some_line(random, text) {
        let at = random.pick(&[line.start, line.end]);
        text.insert(at, b'\n');
    }
}

/// Another verb, whose operands are others or fewer or more.
fn verb(random: &mut Random, text: &mut Vec<u8>) {
    for _ in 0..40 {
        let Some(line) = some_line(random, text) else {
            return;
        };
        let fields = fields(&text[line.clone()]);
        if fields.len() < 2 || !text[line.start].is_ascii_digit() {
            continue;
        }
        let verb = line.start + fields[1].start..line.start + fields[1].end;
        let verbs: [&[u8]; 20] = [
            b"get",
            b"set",
            b"load",
            b"store",
            b"swap",
            b"put",
            b"take",
            b"go",
            b"goo",
            b"g",
            b"Take",
            b"ticket",
            b"start",
            b"",
            b"take 1.000",
            b"go 1.000",
            b"go 1",
            b"get 1",
            b"load 1",
            b"put 1.000 ",
        ];
        replace(text, verb, random.pick(&verbs));
        return;
    }
}

/// Bytes behind the text until it is near or past the most that a text has;
/// past it, no other fault counts.
fn oversize(random: &mut Random, text: &mut Vec<u8>) {
    let most = MOST_BYTES as u32;
    let length = match random.below(4) {
        0 => MOST_BYTES,
        1 => MOST_BYTES + 1,
        2 => random.between(most - 3, most + 3) as usize,
        _ => random.between(most + 1, 3 * most) as usize,
    };
    let tail: [&[u8]; 3] = [b"1 go\n", b"\n", b"\0\xff"];
    let tail = random.pick(&tail);
    let more = length.saturating_sub(text.len());
    text.extend(tail.iter().cycle().take(more));
}

#[cfg(test)]
mod tests {
    use super::*;
    use crate::text;

    /// Every text refusal comes up, and every damage bears any text.
    #[test]
    fn damages_hit_every_number() {
        let mut counts = [0; 5];
        for case in 0..300 {
            let damaged = of_case(5, case);
            assert_eq!(damaged, of_case(5, case), "case {case}");
            let number = text::read(&damaged).err().map_or(0, |r| r.number);
            counts[usize::from(number)] += 1;
        }
        assert!(counts.iter().all(|&count| count > 5), "{counts:?}");
        for (_, damage) in DAMAGES {
            for text in [&b""[..], b"\n", b" ", b".", b"0", b"1.000 \n\n2"] {
                for case in 0..50 {
                    damage(&mut Random::of_case(6, case), &mut text.to_vec());
                }
            }
        }
    }
}
