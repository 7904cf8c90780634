// Pictures: openings, and macroblocks one after the other with refused calls in between.
use super::layer::{Layer, Step};
use super::lines::Record;
use super::style::{Style, put_bits, spoil};
use crate::common::bits::push;
use crate::common::dice::Dice;
use crate::common::sentence::{FEW, SOME};

fn openings(record: &mut Record) {
    for (width, height, depth) in [
        (0, 1, 8),
        (1, 0, 8),
        (46, 36, 8),
        (45, 37, 8),
        (1 << 31, 1, 8),
        (1, i32::MAX as u32, 8),
        (1, 1, 3),
        (1, 1, 13),
        (45, 36, 0),
        (45, 36, 1 << 31),
        (46, 1, 13),
        (0, 0, 0),
        (45, 36, 12),
        (1, 1, 4),
    ] {
        record.opening(width, height, depth, depth % 2 == 0);
    }
}

fn step(dice: &mut Dice, style: &Style, quantiser: &mut u32) -> Step {
    let (mut s, mut one) = style.step(dice, quantiser);
    if dice.flag() {
        push(&mut one.bits, dice.next(), dice.below(65));
    }
    put_bits(dice, &mut s, &one.bits);
    s
}

// A call most likely refused.
fn bad(dice: &mut Dice, style: &Style, quantiser: &mut u32, width: u32) -> Step {
    let mut s = step(dice, style, quantiser);
    spoil(dice, &mut s, width);
    s
}

// The first drawn that are refused by each number, with plain events and with reversible ones.
fn each_refusal(record: &mut Record, dice: &mut Dice, layer: &mut Layer) {
    let width = layer.picture.numbers[0];
    for number in (1..=12).chain([14, 17]) {
        for reversible in [false, true] {
            let mut style = Style::drawn(dice);
            style.reading = Some([true, reversible]);
            style.escapes = &SOME;
            let found = (0..20_000).map(|_| bad(dice, &style, &mut 1, width)).find(|s| {
                let stored = s.stored.min(192 * width as usize);
                layer.clone().call(s, stored).number == number
            });
            found.iter().for_each(|s| {
                record.step(layer, s);
            });
        }
    }
}

// Macroblock after macroblock, one in so many calls bad, and then calls after the last.
fn played(record: &mut Record, dice: &mut Dice, layer: &mut Layer, style: &Style, refusals: usize) {
    let [width, height, ..] = layer.picture.numbers;
    let mut quantiser = 1 + dice.below(31) as u32;
    // far more turns than it takes
    for _ in 0..8 * width * height {
        if layer.picture.numbers[3] == width * height {
            break;
        }
        let s = if dice.below(refusals) == 0 {
            bad(dice, style, &mut quantiser, width)
        } else {
            step(dice, style, &mut quantiser)
        };
        record.step(layer, &s);
        if (width, layer.picture.numbers[3]) == (3, 7) {
            each_refusal(record, dice, layer);
        }
    }
    for _ in 0..2 {
        record.step(layer, &step(dice, style, &mut quantiser));
        record.step(layer, &bad(dice, style, &mut quantiser, width));
    }
}

// Small ones: AC prediction set or any, quantisers that change, each method and reading.
fn small(record: &mut Record, dice: &mut Dice) {
    let sizes = [
        (1, 1),
        (2, 1),
        (1, 2),
        (2, 2),
        (3, 2),
        (2, 3),
        (3, 3),
        (4, 2),
        (2, 4),
        (4, 3),
        (3, 4),
        (5, 4),
    ];
    for (k, (width, height)) in sizes.into_iter().enumerate() {
        let mut style = Style::drawn(dice);
        style.ac_pred = 1 + k % 2;
        style.quantisers = [1, 2, 0][k % 3];
        style.coded = 3 + k % 2;
        style.sizes = [Some(4), Some(6), None][k % 3];
        style.longest = [3, 8, 63][k % 3];
        let depth = if k % 3 == 0 { 4 + dice.below(9) as u32 } else { 8 };
        let mut layer = record.opening(width, height, depth, k / 2 % 2 == 0).expect("a picture");
        played(record, dice, &mut layer, &style, 3);
        // one refused: the open picture goes on
        record.opening(46, height, depth, false);
        record.step(&mut layer, &step(dice, &style, &mut 1));
    }
}

// The widest row and the highest column, with few bits.
fn long(record: &mut Record, dice: &mut Dice, width: u32, height: u32, method: bool) {
    let mut style = Style::drawn(dice);
    style.ac_pred = 2;
    style.quantisers = 2;
    style.sizes = Some(4);
    style.longest = 3;
    style.escapes = &FEW;
    style.coded = 1;
    style.reading = Some([true, false]);
    style.matrix = Some(crate::block::DEFAULT_INTRA_QUANT_MATRIX);
    let mut layer = record.opening(width, height, 6, method).expect("a picture");
    played(record, dice, &mut layer, &style, 12);
}

pub fn all(record: &mut Record, dice: &mut Dice) {
    openings(record);
    small(record, dice);
    long(record, dice, 45, 1, false);
    long(record, dice, 1, 36, true);
}
