// Headers by themselves, and macroblocks alone and in a picture with their header in their bits.
use super::layer::{Layer, Step};
use super::lines::{Data, Record};
use super::style::{Style, put_bits, spoil};
use crate::common::bits::{Bits, any_bytes, bytes_of, flip, push};
use crate::common::dice::Dice;
use crate::common::header::Header;
use crate::common::header_call;
use crate::common::heading::{Heading, PLAIN, STUFFING};
use crate::common::macroblock_call::{self, READINGS};
use crate::common::sentence::SOME;
use crate::common::setting::Setting;
use crate::common::whole_call::Call;

// Both ends of the range, and one between.
const QUANTISERS: [u32; 5] = [1, 2, 8, 30, 31];

// ---- by themselves

fn read(record: &mut Record, dice: &mut Dice, quantiser_scale: u32, bits: &[bool]) {
    record.heading(header_call::Call { quantiser_scale }, &Data::of_bits(dice, bits));
}

// With any good quantiser.
fn any(record: &mut Record, dice: &mut Dice, bits: &[bool]) {
    let quantiser_scale = 1 + dice.below(31) as u32;
    read(record, dice, quantiser_scale, bits);
}

// Every type with every pattern, stuffing 0 to 3 codes, other bits after some; every change at every quantiser.
fn whole(record: &mut Record, dice: &mut Dice) {
    for (k, mut one) in Heading::every().into_iter().enumerate().step_by(3) {
        one.stuffing = if k % 2 == 0 { k / 2 % 4 } else { 0 };
        let mut bits = one.bits();
        if dice.flag() {
            push(&mut bits, dice.next(), dice.below(30));
        }
        read(record, dice, QUANTISERS[k / 3 % 5], &bits);
    }
    for (dquant, quantiser_scale) in (0..4).flat_map(|d| QUANTISERS.map(|q| (d, q))) {
        let header = Header {
            mb_type: 5,
            ..PLAIN.header
        };
        let one = Heading { header, dquant, ..PLAIN };
        read(record, dice, quantiser_scale, &one.bits());
    }
}

// Each type with stuffing, without its last bits, every number of them; and with bits flipped.
fn cut(record: &mut Record, dice: &mut Dice) {
    for k in 0..8 {
        let mut header = Header::intra(dice, 0);
        header.mb_type = 4 + k as u32 / 4;
        header.cbpc = k as u8 % 4;
        header.cbpy = [0, 6, 2, 9, 8, 15, 1, 4][k];
        let one = Heading {
            stuffing: [0, 0, 1, 0, 0, 2, 0, 3][k],
            header,
            dquant: k % 4,
        };
        let bits = one.bits();
        (0..bits.len()).for_each(|n| any(record, dice, &bits[..n]));
        for _ in 0..4 {
            let mut other = bits.clone();
            push(&mut other, dice.next(), dice.below(20));
            flip(dice, &mut other);
            any(record, dice, &other);
        }
    }
}

// Where a code is sought, small numbers in every number of bits: at mcbpc, after stuffing, at cbpy.
fn sought(record: &mut Record, dice: &mut Dice) {
    for (before, most) in [((0, 0), 11), (STUFFING, 10), ((0b10, 2), 8)] {
        for (n, v) in (0..=most).flat_map(|n| (0..4.min(1 << n)).map(move |v| (n, v))) {
            let mut bits = Bits::new();
            push(&mut bits, before.0, before.1);
            push(&mut bits, v, n);
            any(record, dice, &bits);
        }
    }
}

// Much stuffing, closed by a header, by nothing, by zeros, by a cut code; bad quantisers; past the end of the data, and at it.
fn ends(record: &mut Record, dice: &mut Dice) {
    for stuffing in [1, 2, 3, 30] {
        let mut bits = Bits::new();
        (0..stuffing).for_each(|_| push(&mut bits, STUFFING.0, STUFFING.1));
        for tail in [PLAIN.bits(), vec![], vec![false; 9], vec![false; 8]] {
            any(record, dice, &[&bits[..], &tail].concat());
        }
    }
    for quantiser_scale in [0, 32, 33, i32::MAX as u32, 1 << 31] {
        read(record, dice, quantiser_scale, &PLAIN.bits());
        read(record, dice, quantiser_scale, &[]);
    }
    for (n, at) in [(0, 0), (0, 1), (1, 8), (1, 9), (3, 24), (3, 25), (3, usize::MAX)] {
        for quantiser_scale in [8, 32] {
            record.heading(header_call::Call { quantiser_scale }, &Data::new(vec![0x6d; n], at));
        }
    }
}

// ---- macroblocks alone

fn headed(dice: &mut Dice, header: Header, blocks: &[bool]) -> Bits {
    [&Heading::drawn(dice, header).bits()[..], blocks].concat()
}

fn called(blocks: &macroblock_call::Call) -> Call {
    Call {
        reading: blocks.reading,
        setting: blocks.setting,
        room: blocks.room,
    }
}

// Every reading, with patterns of every kind and quantisers at the ends.
fn whole_alone(record: &mut Record, dice: &mut Dice) {
    for k in 0..40 {
        let pattern = if k < 8 { 63 } else { dice.below(64) };
        let mut blocks = macroblock_call::Call::drawn(dice, pattern, READINGS[k % 4]);
        let mut longest = dice.of(&[1, 2, 6, 20]);
        // samples inside their range
        if k % 8 < 5 {
            blocks.setting = Setting::grey(dice);
            longest = longest.min(4);
        }
        if k % 3 == 0 {
            blocks.setting.quantiser_scale = QUANTISERS[k / 3 % 5];
        }
        let one = blocks.sentence(dice, true, longest).bits;
        let mut one = headed(dice, blocks.header, &one);
        if dice.flag() {
            push(&mut one, dice.next(), dice.below(65));
        }
        record.whole(&called(&blocks), &Data::of_bits(dice, &one));
    }
}

// Most likely refused: cut, inside the header too, with bits flipped, too long, any bytes, a bad state.
fn bad(dice: &mut Dice, blocks: &mut macroblock_call::Call) -> Data {
    let (way, longest) = (dice.below(8), dice.of(&[1, 2, 6]));
    let one = blocks.sentence(dice, way != 2, longest).bits;
    let mut one = headed(dice, blocks.header, &one);
    match way {
        0 => one.truncate(dice.below(one.len() + 1)),
        1 => flip(dice, &mut one),
        3 => {
            let bytes = any_bytes(dice, 24);
            let at = dice.below(8 * bytes.len() + 1);
            return Data::new(bytes, at);
        }
        4 => blocks.setting.spoil(dice),
        5 => one.truncate(dice.below(16)),
        6 => blocks.room = dice.of(&[0, 1, 63, 64, 256, 320, 383]),
        7 => {
            let mut bytes = Vec::new();
            bytes_of(&mut bytes, &one, 0, 0);
            let at = dice.of(&[8 * bytes.len() + 1, usize::MAX]);
            return Data::new(bytes, at);
        }
        _ => (),
    }
    Data::of_bits(dice, &one)
}

// The first two drawn that are refused by each number, with each reading.
fn refused_alone(record: &mut Record, dice: &mut Dice) {
    for number in (1..=8).chain(11..=14).chain([16, 17]) {
        for reading in READINGS {
            for _ in 0..2 {
                let found = (0..20_000).find_map(|_| {
                    let pattern = dice.below(64);
                    let mut blocks = macroblock_call::Call::drawn(dice, pattern, reading);
                    let data = bad(dice, &mut blocks);
                    let c = called(&blocks);
                    (data.number(|bytes, at| c.due(bytes, at).number) == number).then_some((c, data))
                });
                found.iter().for_each(|(c, data)| record.whole(c, data));
            }
        }
    }
}

// ---- in a picture

// The quantiser goes on from header to header.
fn step(dice: &mut Dice, style: &Style, quantiser: &mut u32) -> Step {
    let (mut s, one) = style.step(dice, quantiser);
    let heading = Heading::drawn(dice, s.header);
    let mut bits = [heading.bits(), one.bits].concat();
    if dice.flag() {
        push(&mut bits, dice.next(), dice.below(65));
    }
    s.in_bits = true;
    *quantiser = heading.fields(s.quantiser_scale).quantiser_scale;
    put_bits(dice, &mut s, &bits);
    s
}

// The first drawn that are refused by each number.
fn each_refusal(record: &mut Record, dice: &mut Dice, layer: &mut Layer, style: &Style) {
    let width = layer.picture.numbers[0];
    for number in [1, 2, 4, 5, 8, 11, 12, 14, 16, 17] {
        let found = (0..20_000).find_map(|_| {
            let mut s = step(dice, style, &mut 1);
            spoil(dice, &mut s, width);
            let stored = s.stored.min(192 * width as usize);
            (layer.clone().call(&s, stored).number == number).then_some(s)
        });
        found.iter().for_each(|s| {
            record.step(layer, s);
        });
    }
}

// Macroblock after macroblock, one in three calls most likely refused, and then calls after the last.
fn played(record: &mut Record, dice: &mut Dice, layer: &mut Layer, style: &Style) {
    let [width, height, ..] = layer.picture.numbers;
    let mut quantiser = dice.of(&QUANTISERS);
    // far more turns than it takes
    for _ in 0..8 * width * height {
        if layer.picture.numbers[3] == width * height {
            break;
        }
        let mut s = step(dice, style, &mut quantiser);
        if dice.below(3) == 0 {
            spoil(dice, &mut s, width);
        }
        record.step(layer, &s);
        if (width, layer.picture.numbers[3]) == (3, 5) {
            each_refusal(record, dice, layer, style);
        }
    }
    for _ in 0..2 {
        record.step(layer, &step(dice, style, &mut quantiser));
    }
}

fn pictures(record: &mut Record, dice: &mut Dice) {
    for (k, (width, height)) in [(1, 1), (2, 2), (3, 3), (4, 2), (2, 4)].into_iter().enumerate() {
        let mut style = Style::drawn(dice);
        style.ac_pred = 1 + k % 2;
        style.quantisers = [0, 2][k % 2];
        style.coded = 3;
        style.sizes = [Some(4), Some(6), None][k % 3];
        style.longest = [3, 8, 20][k % 3];
        style.escapes = &SOME;
        let mut layer = record.opening(width, height, 8, k % 2 == 0).expect("a picture");
        played(record, dice, &mut layer, &style);
    }
}

pub fn all(record: &mut Record, dice: &mut Dice) {
    whole(record, dice);
    cut(record, dice);
    sought(record, dice);
    ends(record, dice);
    whole_alone(record, dice);
    refused_alone(record, dice);
    pictures(record, dice);
}
