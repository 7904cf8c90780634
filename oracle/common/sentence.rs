// Random sentences, out of the original's tables and without its readers.
use super::bits::{Bits, push};
use super::dice::Dice;
use crate::texture::{self, DcComponent, TcoefTable};

// How many events are spelled in each way: plain, escapes of type 1, 2 and 3, reversible escapes.
pub type Spellings = [u32; 5];

// Lent for them: what no call tells.
pub const UNTOLD: Spellings = [999_999; 5];

// Bits, and how the events in them are spelled.
#[derive(Clone, Debug, Default)]
pub struct Sentence {
    pub bits: Bits,
    pub spellings: Spellings,
}

pub fn component(chroma: bool) -> DcComponent {
    if chroma { DcComponent::Chrominance } else { DcComponent::Luminance }
}

pub fn table(inter: bool) -> TcoefTable {
    if inter { TcoefTable::Inter } else { TcoefTable::Intra }
}

// How often an event is an escape with its values whole, one out of so many (plain, reversible), and how great its magnitudes get.
pub struct Escapes {
    pub plain: usize,
    pub reversible: usize,
    pub tops: &'static [usize],
}

// Any magnitude.
pub const MANY: Escapes = Escapes {
    plain: 5,
    reversible: 2,
    tops: &[2047],
};

// Small ones as well.
pub const SOME: Escapes = Escapes {
    plain: 8,
    reversible: 4,
    tops: &[3, 30, 300, 2047],
};

// Few, and small.
pub const FEW: Escapes = Escapes {
    plain: 40,
    reversible: 40,
    tops: &[3, 30],
};

// A DC part of one of the first so many sizes; or of the first 7 or any.
pub fn dc_part(dice: &mut Dice, bits: &mut Bits, component: DcComponent, sizes: Option<usize>) {
    let rows = texture::dc_size_table(component);
    let sizes = sizes.unwrap_or_else(|| if dice.flag() { 7 } else { rows.len() });
    let (code, len, size) = rows[dice.below(sizes)];
    push(bits, code.into(), len.into());
    push(bits, dice.next(), size.into());
    if size > 8 {
        push(bits, 1, 1);
    }
}

// One event, with a run of at most `most`; its run. Plain: a code, escapes of type 1, 2 and 3.
pub fn event(dice: &mut Dice, one: &mut Sentence, escapes: &Escapes, reversible: bool, inter: bool, last: bool, most: usize) -> usize {
    let forms = if reversible { escapes.reversible } else { escapes.plain };
    for _ in 0..6 {
        let form = dice.below(forms);
        let (code, len, l, run, rise) = if reversible {
            let rows = texture::rvlc_tcoef_table();
            let r = rows[dice.below(rows.len())];
            let (l, run) = if inter { (r.5, r.6) } else { (r.2, r.3) };
            (r.0, r.1, l, run, 0)
        } else {
            let rows = texture::tcoef_table(table(inter));
            let r = rows[dice.below(rows.len())];
            let rise = if form == 2 {
                texture::rmax(table(inter), r.2 == 1, r.4.into()).unwrap() + 1
            } else {
                0
            };
            (r.0, r.1, r.2, r.3, rise)
        };
        let run = run as usize + rise as usize;
        if (l == 1) != last || form == forms - 1 || run > most {
            continue;
        }
        let spelling = if !reversible && matches!(form, 1 | 2) { form } else { 0 };
        match spelling {
            1 => push(&mut one.bits, 0b0000011_0, 8),
            2 => push(&mut one.bits, 0b0000011_10, 9),
            _ => (),
        }
        push(&mut one.bits, code.into(), len.into());
        push(&mut one.bits, dice.next(), 1);
        one.spellings[spelling] += 1;
        return run;
    }
    whole(dice, one, escapes, reversible, last, most)
}

// An escape with its values whole, and its run: of type 3, or a reversible one.
fn whole(dice: &mut Dice, one: &mut Sentence, escapes: &Escapes, reversible: bool, last: bool, most: usize) -> usize {
    let run = dice.below(most.min(63) + 1);
    let top = match escapes.tops {
        [one] => *one,
        many => dice.of(many),
    };
    let magnitude = 1 + dice.below(top) as u64;
    let bits = &mut one.bits;
    if reversible {
        push(bits, 0b00001, 5);
    } else {
        push(bits, 0b0000011_11, 9);
    }
    push(bits, last.into(), 1);
    push(bits, run as u64, 6);
    push(bits, 1, 1);
    if reversible {
        push(bits, magnitude, 11);
        push(bits, 0b10000, 5);
        push(bits, dice.next(), 1);
    } else {
        push(bits, if dice.flag() { 4096 - magnitude } else { magnitude }, 12);
        push(bits, 1, 1);
    }
    one.spellings[if reversible { 4 } else { 3 }] += 1;
    run
}

// 1 to `longest` events from a place on, the last with last 1; if they are to fit, every landing is below 64.
pub fn list(
    dice: &mut Dice,
    one: &mut Sentence,
    escapes: &Escapes,
    reversible: bool,
    inter: bool,
    mut place: usize,
    fits: bool,
    longest: usize,
) {
    let count = 1 + dice.below(longest);
    let usual = dice.of(&[0, 1, 3, 99]);
    for k in 1..=count {
        let last = k == count || (fits && place == 63);
        let most = if fits { usual.min(63 - place - usize::from(!last)) } else { usual };
        place += event(dice, one, escapes, reversible, inter, last, most) + 1;
        if last {
            break;
        }
    }
}

// A block's: a DC part where DC codes are in use, and a list where it is coded.
pub fn block(dice: &mut Dice, one: &mut Sentence, i: usize, coded: bool, dc_coded: bool, reversible: bool, fits: bool, longest: usize) {
    if dc_coded {
        dc_part(dice, &mut one.bits, component(i >= 4), None);
    }
    if coded {
        list(dice, one, &SOME, reversible, false, usize::from(dc_coded), fits, longest);
    }
}
