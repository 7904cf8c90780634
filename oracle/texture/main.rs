// `texture` against the original. Both must give the same number, figure, position and values, with 17 in place of its 2 or 4 where the
// bits end inside a code. On a refusal the position and the numbers lent must stay as they were (the original's reader moves: that is
// not asked). Spellings, which the original does not tell, must be those that were written.
use crate::common::bits::{Bits, any_bytes, bytes_of, flip, push};
use crate::common::dice::Dice;
use crate::common::numbers::MOST_BYTES;
use crate::common::sentence::{self, MANY, Sentence, Spellings, UNTOLD, component, table};
use crate::common::symbol_call::{Answer, Call, due, lent};
use crate::common::test::{self, Test};
use crate::texture::{self, TcoefTable};

#[rustfmt::skip]
unsafe extern "C" {
    fn rt_intra_dc(data: *const u8, len: usize, at: usize, chroma: bool, figure: &mut u32, size: &mut u32, differential: &mut i32, position: &mut usize) -> u32;
    fn rt_ac_event(data: *const u8, len: usize, at: usize, inter: bool, figure: &mut u32, last: &mut bool, run: &mut u32, level: &mut i32, spelling: &mut u32, position: &mut usize) -> u32;
    fn rt_ac_event_rvlc(data: *const u8, len: usize, at: usize, inter: bool, figure: &mut u32, last: &mut bool, run: &mut u32, level: &mut i32, spelling: &mut u32, position: &mut usize) -> u32;
    fn rt_ac_events(data: *const u8, len: usize, at: usize, inter: bool, dc_coded: bool, qfs: &mut [i32; 64], figure: &mut u32, spellings: &mut Spellings, position: &mut usize) -> u32;
    fn rt_ac_events_rvlc(data: *const u8, len: usize, at: usize, inter: bool, dc_coded: bool, qfs: &mut [i32; 64], figure: &mut u32, spellings: &mut Spellings, position: &mut usize) -> u32;
}

#[rustfmt::skip]
fn ours(call: Call, data: &[u8], at: usize) -> (Answer, Spellings) {
    let (p, n) = (data.as_ptr(), data.len());
    let (mut a, mut spellings) = (lent(at), UNTOLD);
    let (figure, position) = (&mut a.figure, &mut a.position);
    match call {
        Call::Dc { chroma } => {
            let mut size = a.values[0] as u32;
            a.number = unsafe { rt_intra_dc(p, n, at, chroma, figure, &mut size, &mut a.values[1], position) };
            a.values[0] = size as i32;
        }
        Call::Event { reversible, inter } => {
            let read = if reversible { rt_ac_event_rvlc } else { rt_ac_event };
            let (mut last, mut run, mut spelling) = (true, a.values[1] as u32, UNTOLD[0]);
            a.number = unsafe { read(p, n, at, inter, figure, &mut last, &mut run, &mut a.values[2], &mut spelling, position) };
            a.values[0] = i32::from(last);
            a.values[1] = run as i32;
            if spelling != UNTOLD[0] {
                spellings = only(spelling as usize);
            }
        }
        Call::List { reversible, inter, dc_coded } => {
            let read = if reversible { rt_ac_events_rvlc } else { rt_ac_events };
            a.number = unsafe { read(p, n, at, inter, dc_coded, &mut a.values, figure, &mut spellings, position) };
        }
    }
    (a, spellings)
}

// Those of one event.
fn only(spelling: usize) -> Spellings {
    std::array::from_fn(|k| u32::from(k == spelling))
}

impl test::Call for Call {
    type Answer = Answer;

    fn ours(&self, data: &[u8], at: usize) -> (Answer, Spellings) {
        ours(*self, data, at)
    }

    fn due(&self, data: &[u8], at: usize) -> Answer {
        due(*self, data, at)
    }

    fn number(answer: &Answer) -> u32 {
        answer.number
    }

    fn simpler(&self) -> Vec<Call> {
        Vec::new()
    }

    fn told(&self, ours: &Answer, due: &Answer) -> String {
        let n = match self {
            Call::Dc { .. } => 2,
            Call::Event { .. } => 3,
            Call::List { .. } => 64,
        };
        let of = |a: &Answer| {
            format!(
                "number {} figure {} position {} values {:?}",
                a.number,
                a.figure,
                a.position,
                &a.values[..n]
            )
        };
        format!("  ours: {}\n  due:  {}", of(ours), of(due))
    }
}

// ---- parts

fn each(test: &mut Test, dice: &mut Dice, calls: &[Call], bits: &[bool]) {
    calls.iter().for_each(|call| {
        test.bits(dice, call, bits, first_event(call, bits));
    });
}

fn each_written(test: &mut Test, dice: &mut Dice, calls: &[Call], bits: &[bool], written: Spellings) {
    calls.iter().for_each(|call| {
        test.bits(dice, call, bits, Some(written));
    });
}

fn each_bytes(test: &mut Test, calls: &[Call], data: &[u8], at: usize) {
    calls.iter().for_each(|call| {
        test.bytes(call, data, at, None);
    });
}

// How a single event is spelled: by the escape that it starts with.
fn first_event(call: &Call, bits: &[bool]) -> Option<Spellings> {
    let Call::Event { reversible, .. } = call else {
        return None;
    };
    let starts = |escape: &str| bits.len() >= escape.len() && escape.bytes().zip(bits).all(|(c, bit)| *bit == (c == b'1'));
    let escapes: &[(&str, usize)] = if *reversible {
        &[("00001", 4)]
    } else {
        &[("00000110", 1), ("000001110", 2), ("000001111", 3)]
    };
    let found = escapes.iter().find(|(escape, _)| starts(escape));
    Some(only(found.map_or(0, |one| one.1)))
}

// Every string of so many bits after a prefix, and then the end of the data.
fn every(test: &mut Test, dice: &mut Dice, calls: &[Call], prefix: &str, lengths: std::ops::RangeInclusive<usize>) {
    let mut bits: Bits = prefix.chars().map(|c| c == '1').collect();
    let kept = bits.len();
    for n in lengths {
        for v in 0..1u64 << n {
            bits.truncate(kept);
            push(&mut bits, v, n);
            each(test, dice, calls, &bits);
        }
    }
}

// Every cut of these codes after a prefix, and then the end of the data: 17, and nothing else.
fn cuts(test: &mut Test, dice: &mut Dice, call: Call, prefix: &str, codes: impl Iterator<Item = (u32, u8)>) {
    let prefix: Bits = prefix.chars().map(|c| c == '1').collect();
    for (code, len) in codes {
        for n in 1..len {
            let mut bits = prefix.clone();
            push(&mut bits, u64::from(code >> (len - n)), n.into());
            assert_eq!(test.bits(dice, &call, &bits, None).number, 17);
        }
    }
}

// Of every table, at each place where its codes are sought.
fn every_cut(test: &mut Test, dice: &mut Dice) {
    for other in [false, true] {
        let codes = texture::dc_size_table(component(other)).iter().map(|r| (r.0.into(), r.1));
        cuts(test, dice, Call::Dc { chroma: other }, "", codes);
        let event = |reversible| Call::Event { reversible, inter: other };
        let codes = texture::tcoef_table(table(other)).iter().map(|r| (r.0, r.1));
        cuts(test, dice, event(false), "", codes.clone().chain([texture::ESCAPE]));
        for escape in ["00000110", "000001110"] {
            cuts(test, dice, event(false), escape, codes.clone());
        }
        let codes = texture::rvlc_tcoef_table().iter().map(|r| (r.0, r.1));
        cuts(test, dice, event(true), "", codes.chain([texture::RVLC_ESCAPE]));
    }
}

// Every 16 bits after a prefix, followed by random ones, and cut at random after that.
fn tails(test: &mut Test, dice: &mut Dice, calls: &[Call], prefix: &str, rounds: usize) {
    let mut bits: Bits = prefix.chars().map(|c| c == '1').collect();
    let kept = bits.len();
    for v in (0..1u64 << 16).flat_map(|v| std::iter::repeat_n(v, rounds)) {
        bits.truncate(kept);
        push(&mut bits, v, 16);
        push(&mut bits, dice.next(), dice.below(65));
        each(test, dice, calls, &bits);
    }
}

// Reversible escapes, whole: every last, run, magnitude and sign; and, cut by 0 to 4 bits, every marker, magnitude, delimiter and
// sign, with any last and run.
fn reversible_escapes(test: &mut Test, dice: &mut Dice, calls: &[Call]) {
    let mut one = |last_and_run: u64, rest: u64, n: usize| {
        let mut bits = Bits::new();
        push(&mut bits, 0b00001, 5);
        push(&mut bits, last_and_run, 7);
        push(&mut bits, rest, n);
        each(test, dice, calls, &bits);
    };
    for v in 0..1u64 << 19 {
        one(v >> 12, 1 << 17 | (v >> 1 & 2047) << 6 | 1 << 5 | v & 1, 18);
    }
    let mut other = Dice(2);
    for n in 14..=18 {
        (0..1u64 << n).for_each(|v| one(other.next(), v, n));
    }
}

// ---- lists

// Short ones first.
fn lists(test: &mut Test, dice: &mut Dice, reversible: bool, sentences: usize) {
    for k in 0..sentences {
        let (inter, first, fits) = (k & 1 == 1, k >> 1 & 1, k >> 2 & 3 != 0);
        let mut one = Sentence::default();
        sentence::list(dice, &mut one, &MANY, reversible, inter, first, fits, 1 + 70 * k / sentences);
        let (one, written) = (one.bits, one.spellings);
        let calls = [false, true].map(|dc_coded| Call::List {
            reversible,
            inter,
            dc_coded,
        });
        let call = calls[first];
        // whole, followed by the end, and by other bits
        each_written(test, dice, &calls, &one, written);
        let mut more = one.clone();
        push(&mut more, dice.next(), dice.below(65));
        each_written(test, dice, &calls, &more, written);
        // truncated: short ones everywhere
        if one.len() <= 64 {
            (0..one.len()).for_each(|n| each(test, dice, &[call], &one[..n]));
        } else {
            for _ in 0..4 {
                let n = dice.below(one.len());
                test.bits(dice, &call, &one[..n], None);
            }
        }
        // one to three bits flipped
        for _ in 0..6 {
            let mut bad = more.clone();
            flip(dice, &mut bad);
            test.bits(dice, &call, &bad, None);
        }
    }
}

// Random bytes, few and many, with many zeros and not.
fn random_bytes(test: &mut Test, dice: &mut Dice, calls: &[Call], cases: usize) {
    for k in 0..cases {
        let data = any_bytes(dice, if k % 8 == 0 { 300 } else { 12 });
        let at = dice.below(8 * data.len() + 1);
        each_bytes(test, calls, &data, at);
    }
}

// The longest data, full of one event and closed by a last one, by nothing, by zeros; and starts near its end.
fn longest(test: &mut Test) {
    for reversible in [false, true] {
        let (one, len, end, end_len) = if reversible {
            let rows = texture::rvlc_tcoef_table();
            let end = rows.iter().find(|r| r.2 == 1).unwrap();
            (rows[0].0, rows[0].1, end.0, end.1)
        } else {
            let rows = texture::tcoef_table(TcoefTable::Intra);
            let end = rows.iter().find(|r| r.2 == 1).unwrap();
            (rows[0].0, rows[0].1, end.0, end.1)
        };
        for close in 0..3 {
            let mut last = Bits::new();
            match close {
                0 => push(&mut last, u64::from(end) << 1, end_len as usize + 1),
                1 => (),
                _ => push(&mut last, 0, 16),
            }
            let mut bits = Bits::new();
            while bits.len() + len as usize + 1 + last.len() <= 8 * MOST_BYTES {
                push(&mut bits, u64::from(one) << 1, len as usize + 1);
            }
            bits.extend(last);
            let mut data = Vec::new();
            let at = bytes_of(&mut data, &bits, 8 * MOST_BYTES - bits.len(), 0);
            assert_eq!(data.len(), MOST_BYTES);
            for dc_coded in [false, true] {
                let call = Call::List {
                    reversible,
                    inter: false,
                    dc_coded,
                };
                (0..500).for_each(|left| each_bytes(test, &[call], &data, 8 * MOST_BYTES - left));
                test.bytes(&call, &data, at, None);
                assert_eq!(due(call, &data, at).number, [8, 1, 4][close]);
            }
        }
    }
}

// Data that is too long, or a start past the end.
fn out_of_range(test: &mut Test, calls: &[Call]) {
    for n in [0, 1, 2, 3, MOST_BYTES - 1, MOST_BYTES, MOST_BYTES + 1, 2 * MOST_BYTES] {
        let data = vec![0x6d; n];
        for at in (8 * n..8 * n + 20).chain([0, 7, usize::MAX - 7, usize::MAX]) {
            each_bytes(test, calls, &data, at);
        }
    }
}

fn says(test: &mut Test, name: &str) {
    test.counts.says(name, "cases");
}

pub fn main() {
    let sentences: usize = std::env::args().nth(1).map_or(200_000, |n| n.parse().expect("a number of lists"));
    let (mut test, dice) = (Test::default(), &mut Dice(1));
    let dc = [false, true].map(|chroma| Call::Dc { chroma });
    let plain = [false, true].map(|inter| Call::Event { reversible: false, inter });
    let rvlc = [false, true].map(|inter| Call::Event { reversible: true, inter });
    let lists_of = |reversible| {
        [0, 1, 2, 3].map(|k| Call::List {
            reversible,
            inter: k & 1 == 1,
            dc_coded: k & 2 == 2,
        })
    };
    let all = [&dc[..], &plain, &rvlc, &lists_of(false), &lists_of(true)].concat();

    every(&mut test, dice, &dc, "", 0..=19);
    says(&mut test, "DC: every 0 to 19 bits");
    every(&mut test, dice, &dc, "0000000", 13..=18);
    says(&mut test, "DC: 0000000, every 13 to 18 bits");
    tails(&mut test, dice, &dc, "", 4);
    says(&mut test, "DC: every 16 bits, random tails");

    every(&mut test, dice, &plain, "", 0..=17);
    says(&mut test, "event: every 0 to 17 bits");
    every(&mut test, dice, &plain, "0000011", 0..=16);
    says(&mut test, "event: escape, every 0 to 16 bits");
    every(&mut test, dice, &plain, "000001111", 15..=21);
    says(&mut test, "event: escape of type 3, every 15 to 21 bits");
    tails(&mut test, dice, &plain, "", 3);
    tails(&mut test, dice, &plain, "0000011", 3);
    says(&mut test, "event: (escape,) every 16 bits, random tails");

    every(&mut test, dice, &rvlc, "", 0..=18);
    says(&mut test, "RVLC event: every 0 to 18 bits");
    every(&mut test, dice, &rvlc, "00001", 0..=20);
    says(&mut test, "RVLC event: escape, every 0 to 20 bits");
    reversible_escapes(&mut test, dice, &rvlc);
    says(&mut test, "RVLC event: escape, whole and cut by 0 to 4");
    tails(&mut test, dice, &rvlc, "", 3);
    tails(&mut test, dice, &rvlc, "00001", 3);
    says(&mut test, "RVLC event: (escape,) 16 bits, random tails");

    every_cut(&mut test, &mut Dice(3));
    says(&mut test, "DC, both events: every cut of every code");

    lists(&mut test, dice, false, sentences);
    says(&mut test, "lists: whole, truncated, bits flipped");
    lists(&mut test, dice, true, sentences);
    says(&mut test, "RVLC lists: whole, truncated, bits flipped");
    every(&mut test, dice, &lists_of(false), "", 0..=14);
    every(&mut test, dice, &lists_of(true), "", 0..=14);
    says(&mut test, "both lists: every 0 to 14 bits");
    random_bytes(&mut test, dice, &all, 2 * sentences);
    says(&mut test, "all calls: random bytes");
    longest(&mut test);
    says(&mut test, "lists: longest data");
    out_of_range(&mut test, &all);
    says(&mut test, "all calls: 11, and few or no bits left");
    test.counts.end("cases");
}
