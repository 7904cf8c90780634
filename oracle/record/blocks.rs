// Blocks by themselves.
use super::lines::{Data, Record};
use crate::common::bits::{any_bytes, bytes_of, flip, push};
use crate::common::block_call::Call;
use crate::common::dice::Dice;
use crate::common::setting::Setting;

// Every place, coded or not, with each reading.
fn whole(record: &mut Record, dice: &mut Dice) {
    for k in 0..168 {
        let mut c = Call::drawn(dice);
        c.i = k % 6;
        c.reading = [k % 7 != 0, k / 6 % 4 != 3, k / 24 % 2 == 1];
        let mut longest = dice.of(&[1, 2, 6, 20, 63]);
        // samples inside their range
        if k % 3 != 2 {
            c.setting = Setting::grey(dice);
            longest = longest.min(4);
        }
        let mut one = c.sentence(dice, true, longest).bits;
        if dice.flag() {
            push(&mut one, dice.next(), dice.below(65));
        }
        record.block(&c, &Data::of_bits(dice, &one));
    }
}

// Most likely refused: cut, with bits flipped, too long, any bytes, a bad state.
fn bad(dice: &mut Dice, c: &mut Call) -> Data {
    let (way, longest) = (dice.below(6), dice.of(&[1, 3, 20]));
    let mut one = c.sentence(dice, way != 2, longest).bits;
    match way {
        0 => one.truncate(dice.below(one.len() + 1)),
        1 => flip(dice, &mut one),
        3 => {
            let bytes = any_bytes(dice, 12);
            let at = dice.below(8 * bytes.len() + 1);
            return Data::new(bytes, at);
        }
        4 => c.setting.spoil(dice),
        5 => {
            let mut bytes = Vec::new();
            let at = bytes_of(&mut bytes, &one, 0, 0);
            match dice.flag() {
                true => c.i = dice.of(&[6, 7, usize::MAX]),
                false => return Data::new(bytes.clone(), dice.of(&[8 * bytes.len() + 1, usize::MAX])),
            }
            return Data::new(bytes, at);
        }
        _ => (),
    }
    Data::of_bits(dice, &one)
}

// The first drawn that are refused by each number, plain and reversible, with a DC part and without.
fn refused(record: &mut Record, dice: &mut Dice) {
    for number in (1..=8).chain(11..=13).chain([17]) {
        for reading in 0..4 {
            for _ in 0..2 {
                let found = (0..20_000).find_map(|_| {
                    let mut c = Call::drawn(dice);
                    c.reading = [c.reading[0], reading & 1 == 1, reading & 2 == 2];
                    let data = bad(dice, &mut c);
                    (data.number(|bytes, at| c.due(bytes, at).number) == number).then_some((c, data))
                });
                found.iter().for_each(|(c, data)| record.block(c, data));
            }
        }
    }
}

pub fn all(record: &mut Record, dice: &mut Dice) {
    whole(record, dice);
    refused(record, dice);
}
