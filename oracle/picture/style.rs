// The calls of a picture, as they are drawn.
use super::layer::Step;
use crate::common::bits::{any_bytes, bits_from, bytes_of, flip};
use crate::common::dice::Dice;
use crate::common::header::Header;
use crate::common::sentence::{self, Escapes, FEW, SOME, Sentence, component};
use crate::common::setting::{self, Matrix};

// How a picture's macroblocks are drawn.
pub struct Style {
    // the same all over, any, or a little up and down
    pub quantisers: usize,
    // never, always, any
    pub ac_pred: usize,
    // of DC parts
    pub sizes: Option<usize>,
    pub longest: usize,
    pub escapes: &'static Escapes,
    // blocks that are coded, out of 4
    pub coded: usize,
    // use_intra_dc_vlc, reversible_vlc, or any
    pub reading: Option<[bool; 2]>,
    pub matrix: Option<Matrix>,
}

impl Style {
    pub fn drawn(dice: &mut Dice) -> Style {
        let fixed = dice.flag().then(|| setting::matrix(dice));
        Style {
            quantisers: dice.below(3),
            ac_pred: dice.below(3),
            sizes: dice.of(&[Some(2), Some(4), Some(6), None]),
            longest: dice.of(&[1, 3, 8, 63]),
            escapes: if dice.flag() { &FEW } else { &SOME },
            coded: dice.below(5),
            reading: dice.of(&[
                None,
                Some([true, false]),
                Some([true, true]),
                Some([false, false]),
                Some([false, true]),
            ]),
            matrix: fixed,
        }
    }

    // A call that is fine, with a sentence that fits.
    pub fn step(&self, dice: &mut Dice, quantiser: &mut u32) -> (Step, Sentence) {
        *quantiser = match self.quantisers {
            0 => *quantiser,
            1 => 1 + dice.below(31) as u32,
            _ => (*quantiser + dice.below(5) as u32).clamp(3, 33) - 2,
        };
        let pattern = (0..6).fold(0, |p, _| 2 * p + usize::from(dice.below(4) < self.coded));
        let [dc_coded, reversible] = self.reading.unwrap_or_else(|| [dice.flag(), dice.flag()]);
        let ac_pred = [false, true, dice.flag()][self.ac_pred];
        let s = Step {
            in_bits: false,
            header: Header::intra(dice, pattern),
            quantiser_scale: *quantiser,
            flags: [ac_pred, dice.rarely(), dice.flag(), dice.flag(), dc_coded, reversible],
            matrix: self.matrix.unwrap_or_else(|| setting::matrix(dice)),
            data: Vec::new(),
            at: 0,
            room: if dice.rarely() { 384 + dice.below(20) } else { 384 },
            stored: usize::MAX,
        };
        let mut one = Sentence::default();
        for i in 0..6 {
            if dc_coded {
                sentence::dc_part(dice, &mut one.bits, component(i >= 4), self.sizes);
            }
            if s.header.coded(i) {
                sentence::list(
                    dice,
                    &mut one,
                    self.escapes,
                    reversible,
                    false,
                    usize::from(dc_coded),
                    true,
                    self.longest,
                );
            }
        }
        (s, one)
    }
}

pub fn put_bits(dice: &mut Dice, s: &mut Step, bits: &[bool]) {
    s.at = bytes_of(&mut s.data, bits, dice.below(20), dice.next());
}

// One thing of a call bad, or most likely bad.
pub fn spoil(dice: &mut Dice, s: &mut Step, width: u32) {
    let mut bits = bits_from(&s.data, s.at);
    match dice.below(10) {
        0 | 1 => {
            bits.truncate(dice.below(bits.len() + 1));
            put_bits(dice, s, &bits);
        }
        2 | 3 => {
            flip(dice, &mut bits);
            put_bits(dice, s, &bits);
        }
        4 => {
            s.data = any_bytes(dice, 24);
            s.at = dice.below(8 * s.data.len() + 1);
        }
        5 => s.header.spoil(dice),
        6 => s.room = dice.of(&[0, 1, 63, 64, 256, 320, 383]),
        7 => s.stored = dice.below(192 * width as usize),
        8 => s.quantiser_scale = dice.outside(1, 31) as u32,
        _ => s.matrix[dice.below(8)][dice.below(8)] = 0,
    }
    if dice.below(20) == 0 {
        s.at = dice.of(&[8 * s.data.len() + 1, usize::MAX]);
    }
}
