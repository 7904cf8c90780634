// One block: the call, and what it must give.
use super::dice::Dice;
use super::numbers::data_fine;
use super::sentence::{self, Sentence};
use super::setting::{self, Block, Setting};
use super::stopped;
use crate::bitreader::BitReader;

#[derive(Clone, Copy, Debug)]
pub struct Call {
    pub i: usize,
    // coded, use_intra_dc_vlc, reversible_vlc
    pub reading: [bool; 3],
    pub setting: Setting,
}

// A number (0: accepted), its figure, the position after the call, and the rest.
#[derive(Clone, Copy, PartialEq, Debug)]
pub struct Answer {
    pub number: u32,
    pub figure: u32,
    pub position: usize,
    pub dc: i32,
    pub samples: Block,
    pub levels: Block,
}

// Before the call: numbers that no block gives.
pub fn lent(at: usize) -> Answer {
    let mut a = Answer {
        number: 0,
        figure: 0,
        position: at,
        dc: 999_999,
        samples: [[0; 8]; 8],
        levels: [[0; 8]; 8],
    };
    for k in 0..64 {
        a.samples[k / 8][k % 8] = 1_000_000 + k as i32;
        a.levels[k / 8][k % 8] = -1_000_000 - k as i32;
    }
    a
}

impl Call {
    // One that is fine.
    pub fn drawn(dice: &mut Dice) -> Call {
        Call {
            i: dice.below(6),
            reading: [dice.below(8) != 0, dice.below(3) != 0, dice.flag()],
            setting: Setting::drawn(dice),
        }
    }

    // A DC part and 1 to `longest` events, as the call reads them (none where it is not coded); if they are to fit, every landing is below 64.
    pub fn sentence(&self, dice: &mut Dice, fits: bool, longest: usize) -> Sentence {
        let mut one = Sentence::default();
        let [coded, dc_coded, reversible] = self.reading;
        sentence::block(dice, &mut one, self.i, coded, dc_coded, reversible, fits, longest);
        one
    }

    // 11, 12, 13, or what the original gives, with 17 where it is due.
    pub fn due(&self, data: &[u8], at: usize) -> Answer {
        let mut a = lent(at);
        a.number = if self.i > 5 || !data_fine(data, at) {
            11
        } else {
            self.setting.state()
        };
        if a.number != 0 {
            return a;
        }
        let mut br = BitReader::new(data);
        br.skip_bits(at).unwrap();
        let s = &self.setting;
        match setting::read(&mut br, self.i, self.reading, s.context(), s.predictors(), &s.matrix) {
            Ok(one) => {
                a.position = br.bit_position();
                a.dc = one.dc;
                a.samples = one.spatial;
                a.levels = one.qf;
            }
            Err(e) => (a.number, a.figure) = stopped::of_block(e, &br, self.i, self.reading[2]),
        }
        a
    }
}
