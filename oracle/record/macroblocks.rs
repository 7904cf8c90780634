// Macroblocks alone.
use super::lines::{Data, Record};
use crate::common::bits::{any_bytes, bytes_of, flip, push};
use crate::common::dice::Dice;
use crate::common::macroblock_call::{Call, READINGS};
use crate::common::setting::Setting;

// Every reading, with patterns of every kind.
fn whole(record: &mut Record, dice: &mut Dice) {
    for k in 0..76 {
        let pattern = if k < 16 { 63 } else { dice.below(64) };
        let mut c = Call::drawn(dice, pattern, READINGS[k % 4]);
        let mut longest = dice.of(&[1, 2, 6, 20, 63]);
        // samples inside their range
        if k % 8 < 5 {
            c.setting = Setting::grey(dice);
            longest = longest.min(4);
        }
        let mut one = c.sentence(dice, true, longest).bits;
        if dice.flag() {
            push(&mut one, dice.next(), dice.below(65));
        }
        record.macroblock(&c, &Data::of_bits(dice, &one));
    }
}

// Most likely refused: cut, with bits flipped, too long, any bytes, a bad state.
fn bad(dice: &mut Dice, c: &mut Call) -> Data {
    let (way, longest) = (dice.below(8), dice.of(&[1, 2, 6]));
    let mut one = c.sentence(dice, way != 2, longest).bits;
    match way {
        0 => one.truncate(dice.below(one.len() + 1)),
        1 => flip(dice, &mut one),
        3 => {
            let bytes = any_bytes(dice, 24);
            let at = dice.below(8 * bytes.len() + 1);
            return Data::new(bytes, at);
        }
        4 => c.setting.spoil(dice),
        5 => c.header.spoil(dice),
        6 => c.room = dice.of(&[0, 1, 63, 64, 256, 320, 383]),
        7 => {
            let mut bytes = Vec::new();
            bytes_of(&mut bytes, &one, 0, 0);
            let at = dice.of(&[8 * bytes.len() + 1, usize::MAX]);
            return Data::new(bytes, at);
        }
        _ => (),
    }
    Data::of_bits(dice, &one)
}

// The first drawn that are refused by each number, with each reading.
fn refused(record: &mut Record, dice: &mut Dice) {
    for number in (1..=14).chain([17]) {
        for reading in READINGS {
            let found = (0..20_000).find_map(|_| {
                let pattern = dice.below(64);
                let mut c = Call::drawn(dice, pattern, reading);
                let data = bad(dice, &mut c);
                (data.number(|bytes, at| c.due(bytes, at).number) == number).then_some((c, data))
            });
            found.iter().for_each(|(c, data)| record.macroblock(c, data));
        }
    }
}

pub fn all(record: &mut Record, dice: &mut Dice) {
    whole(record, dice);
    refused(record, dice);
}
