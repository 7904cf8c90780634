// One macroblock alone: the call, and what it must give.
use super::dice::Dice;
use super::header::{Header, lent, put, samples_told};
use super::header_call::{Fields, UNREAD};
use super::numbers::data_fine;
use super::sentence::{self, Sentence};
use super::setting::{self, Block, Setting};
use super::stopped;
use crate::bitreader::BitReader;
use crate::block::{self, BlockAssemblyError};

pub const READINGS: [[bool; 2]; 4] = [[true, false], [true, true], [false, false], [false, true]];

// Every pattern with every reading, so many times.
pub fn patterns(n: usize, mut each: impl FnMut(usize, usize, [bool; 2])) {
    for k in 0..n {
        for pattern in 0..64 {
            READINGS.iter().for_each(|&reading| each(k, pattern, reading));
        }
    }
}

#[derive(Clone, Copy, Debug)]
pub struct Call {
    pub header: Header,
    // use_intra_dc_vlc, reversible_vlc
    pub reading: [bool; 2],
    pub setting: Setting,
    // how many samples are lent
    pub room: usize,
}

// A number (0: accepted), its figure, the number of bits, the position after the call, the samples, and what is read of a header.
#[derive(Clone, PartialEq, Debug)]
pub struct Answer {
    pub number: u32,
    pub figure: u32,
    pub bits: usize,
    pub position: usize,
    pub samples: Vec<i32>,
    pub fields: Fields,
}

impl Answer {
    // Before a call that lends so many samples.
    pub fn before(at: usize, room: usize) -> Answer {
        Answer {
            number: 0,
            figure: 0,
            bits: 999_999,
            position: at,
            samples: lent(room),
            fields: UNREAD,
        }
    }

    // What differs between two.
    pub fn told(&self, due: &Answer) -> String {
        let of = |a: &Answer| {
            let fields = a.fields.told();
            format!(
                "number {} figure {} bits {} position {}{fields}",
                a.number, a.figure, a.bits, a.position
            )
        };
        let samples = samples_told(&self.samples, &due.samples);
        format!("  ours: {}\n  due:  {}\n{samples}", of(self), of(due))
    }
}

impl Call {
    // 11, 12, 13, 14, 9, 10, in this order.
    pub fn state(&self, data: &[u8], at: usize) -> u32 {
        if !data_fine(data, at) {
            return 11;
        }
        match self.setting.state() {
            0 if self.room < 384 => 14,
            0 => self.header.state(),
            number => number,
        }
    }

    // One block, or the refusal in it.
    fn block(&self, br: &mut BitReader, i: usize) -> Result<Block, (BlockAssemblyError, usize)> {
        let (s, [dc_coded, reversible]) = (&self.setting, self.reading);
        let reading = [self.header.coded(i), dc_coded, reversible];
        match setting::read(br, i, reading, s.context(), s.predictors(), &s.matrix) {
            Ok(one) => Ok(one.spatial),
            Err(e) => Err((e, i)),
        }
    }

    // The original does not tell in which block it refuses: its blocks, taken in turn, do. 9 and 10 are in none.
    fn refused_in(&self, mut br: BitReader) -> usize {
        (0..6).find(|&i| self.block(&mut br, i).is_err()).unwrap_or(0)
    }

    fn original(&self, br: &mut BitReader, samples: &mut [i32]) -> Result<(), (BlockAssemblyError, usize)> {
        let (s, before) = (&self.setting, br.clone());
        let mut made = [0; 384];
        if self.reading == [true, false] {
            let one = block::decode_intra_macroblock(br, &self.header.original(), s.context(), s.predictors(), &s.matrix)
                .map_err(|e| (e, self.refused_in(before)))?;
            let numbers = one
                .luma
                .iter()
                .flatten()
                .chain(one.cb.iter().flatten())
                .chain(one.cr.iter().flatten());
            made.iter_mut().zip(numbers).for_each(|(to, from)| *to = *from);
        } else {
            for i in 0..6 {
                put(&mut made, i, &self.block(br, i)?);
            }
        }
        samples[..384].copy_from_slice(&made);
        Ok(())
    }

    // With 17 where it is due.
    pub fn due(&self, data: &[u8], at: usize) -> Answer {
        let mut a = Answer::before(at, self.room);
        a.number = self.state(data, at);
        // 9 and 10 the original tells itself, where it is the reference
        if a.number != 0 && !(matches!(a.number, 9 | 10) && self.reading == [true, false]) {
            return a;
        }
        let mut br = BitReader::new(data);
        br.skip_bits(at).unwrap();
        match self.original(&mut br, &mut a.samples) {
            Ok(()) => {
                a.number = 0;
                a.position = br.bit_position();
                a.bits = a.position - at;
            }
            Err((e, i)) => (a.number, a.figure) = stopped::of_block(e, &br, i, self.reading[1]),
        }
        a
    }

    // One that is fine, with this pattern and reading.
    pub fn drawn(dice: &mut Dice, pattern: usize, reading: [bool; 2]) -> Call {
        Call {
            header: Header::intra(dice, pattern),
            reading,
            setting: if dice.below(3) == 0 {
                Setting::grey(dice)
            } else {
                Setting::drawn(dice)
            },
            room: if dice.rarely() { 384 + dice.below(20) } else { 384 },
        }
    }

    pub fn any(dice: &mut Dice) -> Call {
        let (pattern, reading) = (dice.below(64), dice.of(&READINGS));
        Call::drawn(dice, pattern, reading)
    }

    // As the call reads it, with 1 to `longest` events in a coded block; if they are to fit, every landing is below 64.
    pub fn sentence(&self, dice: &mut Dice, fits: bool, longest: usize) -> Sentence {
        let mut one = Sentence::default();
        let [dc_coded, reversible] = self.reading;
        // where they are not to fit, one block is the cause
        let wide = if fits { 6 } else { dice.below(6) };
        for i in 0..6 {
            sentence::block(dice, &mut one, i, self.header.coded(i), dc_coded, reversible, i != wide, longest);
        }
        one
    }
}
