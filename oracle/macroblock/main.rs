// `macroblock::decode_intra_macroblock` against the original's, which is for DC codes with plain events, and for the rest against the
// original's block reading taken six times. Where the state is fine both must give the same number and figure, with 17 in place of the
// original's 2 or 4 where the bits end inside a code, or the same number of bits, position and samples; elsewhere Rattle must refuse by
// document 01's first of 11, 12, 13, 14, 9 and 10. On a refusal the samples must stay as they were, and always those past 384.
// Spellings, which the original does not tell, must be those that were written.
use crate::common::bits::{Bits, any_bytes, bytes_of, flip, push};
use crate::common::counts;
use crate::common::dice::Dice;
use crate::common::macroblock_call::{Answer, Call, READINGS, patterns};
use crate::common::numbers::MOST_BYTES;
use crate::common::sentence::{Sentence, Spellings, UNTOLD};
use crate::common::setting::{Matrix, Seven};
use crate::common::test::{self, Test};

#[rustfmt::skip]
unsafe extern "C" {
    fn rt_macroblock(data: *const u8, len: usize, at: usize, header_flags: &[bool; 2], mb_type: u32, patterns: &[u8; 2], reading: &[bool; 2], quantiser_scale: u32, bits_per_pixel: u32, flags: &[bool; 5], dcs: &[i32; 3], qps: &[u32; 2], has: &[bool; 2], column: &Seven, row: &Seven, matrix: &Matrix, figure: &mut u32, bits: &mut usize, position: &mut usize, spellings: &mut Spellings, samples: *mut i32, room: usize) -> u32;
}

impl test::Call for Call {
    type Answer = Answer;

    #[rustfmt::skip]
    fn ours(&self, data: &[u8], at: usize) -> (Answer, Spellings) {
        let (mut a, mut spellings) = (Answer::before(at, self.room), UNTOLD);
        let (h, s) = (&self.header, &self.setting);
        a.number = unsafe {
            rt_macroblock(
                data.as_ptr(), data.len(), at, &[h.not_coded, h.ac_pred_flag], h.mb_type, &[h.cbpy, h.cbpc], &self.reading,
                s.quantiser_scale, s.bits_per_pixel, &s.flags, &s.dcs, &s.qps, &s.has, &s.column, &s.row, &s.matrix,
                &mut a.figure, &mut a.bits, &mut a.position, &mut spellings, a.samples.as_mut_ptr(), a.samples.len(),
            )
        };
        (a, spellings)
    }

    fn due(&self, data: &[u8], at: usize) -> Answer {
        Call::due(self, data, at)
    }

    fn number(answer: &Answer) -> u32 {
        answer.number
    }

    fn told(&self, ours: &Answer, due: &Answer) -> String {
        ours.told(due)
    }

    fn simpler(&self) -> Vec<Call> {
        let room = (self.room > 384).then_some(Call { room: 384, ..*self });
        let headers = self.header.simpler().into_iter().map(|header| Call { header, ..*self });
        let settings = self.setting.simpler().into_iter().map(|setting| Call { setting, ..*self });
        room.into_iter().chain(headers).chain(settings).collect()
    }
}

fn says(test: &mut Test, name: &str) {
    test.counts.says(name, "macroblocks");
}

// A sentence, and other bits after it or none.
fn spelled(test: &mut Test, dice: &mut Dice, c: &Call, one: &Sentence) {
    test.bits(dice, c, &one.bits, Some(one.spellings));
}

// Whole, followed by the end and by other bits.
fn whole(test: &mut Test, dice: &mut Dice, n: usize) {
    patterns(n, |k, pattern, reading| {
        let c = Call::drawn(dice, pattern, reading);
        let longest = dice.of(&[1, 2, 6, 20, 63]);
        let mut one = c.sentence(dice, k % 8 != 7, longest);
        spelled(test, dice, &c, &one);
        push(&mut one.bits, dice.next(), dice.below(65));
        let other = Call {
            header: c.header,
            ..Call::drawn(dice, pattern, reading)
        };
        spelled(test, dice, &other, &one);
    });
    says(test, "sentences, and with other bits after");
}

// Cut everywhere, and with each bit the other way round.
fn cut(test: &mut Test, dice: &mut Dice, n: usize) {
    let sentences = |dice: &mut Dice, pattern, reading| {
        let c = Call::drawn(dice, pattern, reading);
        let longest = dice.of(&[1, 2, 6, 20]);
        let one = c.sentence(dice, true, longest).bits;
        (c, one)
    };
    patterns(n, |_, pattern, reading| {
        let (c, one) = sentences(dice, pattern, reading);
        for kept in 0..one.len() {
            test.bits(dice, &c, &one[..kept], None);
        }
    });
    says(test, "every truncation of sentences");
    patterns(n, |_, pattern, reading| {
        let (c, mut one) = sentences(dice, pattern, reading);
        for i in 0..one.len() {
            one[i] = !one[i];
            test.bits(dice, &c, &one, None);
            one[i] = !one[i];
        }
    });
    says(test, "each bit of sentences flipped");
}

fn flipped(test: &mut Test, dice: &mut Dice, n: usize) {
    patterns(n, |_, pattern, reading| {
        let c = Call::drawn(dice, pattern, reading);
        let longest = dice.of(&[2, 6, 20, 63]);
        let mut bad = c.sentence(dice, true, longest).bits;
        push(&mut bad, dice.next(), dice.below(65));
        flip(dice, &mut bad);
        test.bits(dice, &c, &bad, None);
    });
    says(test, "one to three bits flipped");
    patterns(n, |k, pattern, reading| {
        let data = any_bytes(dice, if k % 4 == 0 { 300 } else { 24 });
        let c = Call::drawn(dice, pattern, reading);
        test.bytes(&c, &data, dice.below(8 * data.len() + 1), None);
    });
    says(test, "random bytes");
}

// Every short string of bits, and then the end of the data.
fn short(test: &mut Test, dice: &mut Dice) {
    let mut every = |pattern: usize, reading: [bool; 2], most: usize| {
        for n in 0..=most {
            for v in 0..1 << n {
                let mut bits = Bits::new();
                push(&mut bits, v, n);
                let c = Call::drawn(dice, pattern, reading);
                test.bits(dice, &c, &bits, None);
            }
        }
    };
    every(0, [true, false], 18);
    for block in 0..6 {
        every(1 << block, [false, false], 13);
        every(1 << block, [false, true], 13);
    }
    says(test, "DC parts: every 0 to 18 bits; one list: 0 to 13");
    // the other bits of cbpy and cbpc do not count
    for both in 0..=u16::MAX {
        let mut c = Call::drawn(dice, 0, READINGS[usize::from(both & 3)]);
        [c.header.cbpy, c.header.cbpc] = both.rotate_left(5).to_be_bytes();
        let one = c.sentence(dice, true, 1);
        spelled(test, dice, &c, &one);
    }
    says(test, "every cbpy and cbpc");
}

// One or two things of the state bad.
fn states(test: &mut Test, dice: &mut Dice, n: usize) {
    let mut data = Vec::new();
    for _ in 0..256 * n {
        let mut c = Call::any(dice);
        let one = c.sentence(dice, true, 6);
        let mut at = bytes_of(&mut data, &one.bits, dice.below(20), dice.next());
        for _ in 0..1 + dice.below(2) {
            match dice.below(6) {
                0 => at = dice.of(&[8 * data.len() + 1, usize::MAX]),
                1 => c.room = dice.of(&[0, 1, 63, 64, 256, 320, 383]),
                2 | 3 => c.header.spoil(dice),
                _ => c.setting.spoil(dice),
            }
        }
        test.bytes(&c, &data, at, Some(one.spellings));
    }
    for n in [MOST_BYTES, MOST_BYTES + 1] {
        let data = vec![0x6d; n];
        for at in (8 * n - 80..=8 * n).chain([0, 3]) {
            test.bytes(&Call::any(dice), &data, at, None);
        }
    }
    says(test, "a bad state, or the longest data");
}

pub fn main() {
    let n: usize = std::env::args().nth(1).map_or(1000, |n| n.parse().expect("a number of rounds"));
    let (mut test, mut dice) = (Test::default(), Dice(1));
    let test = &mut test;
    short(test, &mut dice);
    whole(test, &mut dice, n);
    cut(test, &mut dice, n.div_ceil(100));
    flipped(test, &mut dice, n.div_ceil(2));
    states(test, &mut dice, n.div_ceil(4));
    test.counts.end("macroblocks");
    counts::blocks(6 * test.counts.cases(), 6 * test.counts.accepted());
}
