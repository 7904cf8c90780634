// Headers by themselves.
use crate::common::bits::{Bits, any_bytes, bytes_of, flip, push};
use crate::common::counts::Counts;
use crate::common::dice::Dice;
use crate::common::header::Header;
use crate::common::header_call::{Answer, Call};
use crate::common::heading::{Heading, STUFFING};
use crate::common::numbers::MOST_BYTES;
use crate::common::test::Test;
use crate::macroblock::{CBPY_4, MCBPC_I};

// At the ends of the quantiser's range, beside them and between.
const QUANTISERS: [u32; 5] = [1, 2, 8, 30, 31];

fn stuffing(n: usize) -> Bits {
    let mut bits = Bits::new();
    (0..n).for_each(|_| push(&mut bits, STUFFING.0, STUFFING.1));
    bits
}

fn any(dice: &mut Dice) -> Call {
    let quantiser_scale = if dice.flag() {
        dice.of(&QUANTISERS)
    } else {
        1 + dice.below(31) as u32
    };
    Call { quantiser_scale }
}

fn any_heading(dice: &mut Dice) -> Heading {
    let pattern = dice.below(64);
    let header = Header::intra(dice, pattern);
    Heading::drawn(dice, header)
}

// Every string of up to so many bits, and then the end of the data.
fn every(test: &mut Test, dice: &mut Dice, most: usize) {
    for before in (0..3).map(stuffing) {
        let mut bits = before.clone();
        for n in 0..=most {
            for v in 0..1u64 << n {
                bits.truncate(before.len());
                push(&mut bits, v, n);
                for quantiser_scale in QUANTISERS {
                    test.bits(dice, &Call { quantiser_scale }, &bits, None);
                }
            }
        }
    }
    says(test, "every 0 to 18 bits after 0 to 2 stuffing codes");
}

// As it was written, and then the end or other bits.
fn written(test: &mut Test, dice: &mut Dice, one: &Heading, quantiser_scale: u32) -> Answer {
    let mut bits = one.bits();
    let n = bits.len();
    if dice.flag() {
        push(&mut bits, dice.next(), dice.below(65));
    }
    let mut data = Vec::new();
    let at = bytes_of(&mut data, &bits, dice.below(20), dice.next());
    let a = test.bytes(&Call { quantiser_scale }, &data, at, None);
    if a.number == 0 {
        assert_eq!((a.position, a.fields), (at + n, one.fields(quantiser_scale)), "as it was written");
    }
    a
}

// Every header with every quantiser, good or not.
fn every_header(test: &mut Test, dice: &mut Dice) {
    for mut one in Heading::every() {
        for (stuffing, quantiser_scale) in (0..4).flat_map(|n| (0..34).chain([1 << 31, u32::MAX]).map(move |q| (n, q))) {
            one.stuffing = stuffing;
            let number = written(test, dice, &one, quantiser_scale).number;
            assert_eq!(number, if (1..=31).contains(&quantiser_scale) { 0 } else { 12 });
        }
    }
    says(test, "every header with every quantiser");
}

// Every cut of these codes behind others, and then the end of the data: 17, and nothing else.
fn cuts(test: &mut Test, dice: &mut Dice, before: &Bits, codes: impl Iterator<Item = (u64, u8)>) {
    for (code, len) in codes {
        for n in 1..len {
            let mut bits = before.clone();
            push(&mut bits, code >> (len - n), n.into());
            let call = any(dice);
            assert_eq!(test.bits(dice, &call, &bits, None).number, 17);
        }
    }
}

// Of mcbpc, stuffing with it, and of cbpy behind each mcbpc and flag.
fn every_cut(test: &mut Test, dice: &mut Dice) {
    for before in (0..4).map(stuffing) {
        cuts(test, dice, &before, MCBPC_I.iter().map(|r| (r.0.into(), r.1)));
        for row in MCBPC_I.iter().filter(|r| r.2 != 5) {
            for flag in 0..2 {
                let mut before = before.clone();
                push(&mut before, row.0.into(), row.1.into());
                push(&mut before, flag, 1);
                cuts(test, dice, &before, CBPY_4.iter().map(|r| (r.0.into(), r.1)));
            }
        }
    }
    says(test, "every cut of every code");
}

// Whole, cut and flipped; random bytes.
fn drawn(test: &mut Test, dice: &mut Dice, n: usize) {
    for _ in 0..n {
        let one = any_heading(dice);
        let call = any(dice);
        written(test, dice, &one, call.quantiser_scale);
        let mut bits = one.bits();
        (0..bits.len()).for_each(|kept| {
            let number = test.bits(dice, &call, &bits[..kept], None).number;
            assert!(matches!(number, 1 | 17), "a header that was cut");
        });
        push(&mut bits, dice.next(), dice.below(65));
        flip(dice, &mut bits);
        test.bits(dice, &call, &bits, None);
    }
    says(test, "whole, cut everywhere, bits flipped");
    for k in 0..4 * n {
        let data = any_bytes(dice, if k % 8 == 0 { 300 } else { 12 });
        let at = dice.below(8 * data.len() + 1);
        let call = any(dice);
        test.bytes(&call, &data, at, None);
    }
    says(test, "random bytes");
}

// Much stuffing, in the longest data too, closed by a header, by nothing, by zeros, by a cut code.
fn longest(test: &mut Test, dice: &mut Dice) {
    for n in (0..100).chain([8 * MOST_BYTES / STUFFING.1 - 10]) {
        for close in 0..4 {
            let mut bits = stuffing(n);
            match close {
                0 => any_heading(dice).put(&mut bits),
                1 => (),
                2 => push(&mut bits, 0, 9),
                _ => push(&mut bits, 0, 1 + dice.below(8)),
            }
            let call = any(dice);
            let number = test.bits(dice, &call, &bits, None).number;
            assert_eq!(number, [0, 1, 16, 17][close]);
        }
    }
    for n in [0, 1, 2, 3, MOST_BYTES - 1, MOST_BYTES, MOST_BYTES + 1, 2 * MOST_BYTES] {
        let data = vec![0x6d; n];
        for at in (0..20)
            .chain((8 * n).saturating_sub(20)..8 * n + 20)
            .chain([usize::MAX - 7, usize::MAX])
        {
            [0, 8, 32].map(|quantiser_scale| test.bytes(&Call { quantiser_scale }, &data, at, None));
        }
    }
    says(test, "much stuffing; the longest data; 11");
}

fn says(test: &mut Test, name: &str) {
    test.counts.says(name, "headers");
}

pub fn all(dice: &mut Dice, n: usize) -> Counts {
    let test = &mut Test::default();
    every(test, dice, 18);
    every_header(test, dice);
    every_cut(test, dice);
    drawn(test, dice, 100 * n);
    longest(test, dice);
    test.counts.all("headers");
    std::mem::take(&mut test.counts)
}
