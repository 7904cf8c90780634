// Macroblocks alone, each with its header in its bits.
use crate::common::bits::{Bits, any_bytes, bytes_of, flip, push};
use crate::common::counts::Counts;
use crate::common::dice::Dice;
use crate::common::header::Header;
use crate::common::heading::{Heading, Seen};
use crate::common::macroblock_call::{self, Answer, READINGS, patterns};
use crate::common::numbers::MOST_BYTES;
use crate::common::sentence::{Sentence, Spellings};
use crate::common::test::Test;
use crate::common::whole_call::Call;

// A header in front of a sentence.
pub fn headed(dice: &mut Dice, header: Header, one: Sentence) -> (Heading, Sentence) {
    let heading = Heading::drawn(dice, header);
    let bits = [heading.bits(), one.bits].concat();
    (heading, Sentence { bits, ..one })
}

// A call that is fine, a header with this pattern, and a sentence; if it is to fit, every landing is below 64. One quantiser in four is
// near an end of its range.
fn drawn(dice: &mut Dice, pattern: usize, reading: [bool; 2], fits: bool, longest: usize) -> (Call, Heading, Sentence) {
    let mut blocks = macroblock_call::Call::drawn(dice, pattern, reading);
    if dice.below(4) == 0 {
        blocks.setting.quantiser_scale = dice.of(&[1, 2, 30, 31]);
    }
    let one = blocks.sentence(dice, fits, longest);
    let (heading, one) = headed(dice, blocks.header, one);
    (called(&blocks), heading, one)
}

fn called(blocks: &macroblock_call::Call) -> Call {
    Call {
        reading: blocks.reading,
        setting: blocks.setting,
        room: blocks.room,
    }
}

fn any(dice: &mut Dice, reading: [bool; 2]) -> Call {
    called(&macroblock_call::Call::drawn(dice, 0, reading))
}

#[derive(Default)]
struct Macroblocks {
    test: Test,
    seen: Seen,
}

impl Macroblocks {
    fn bits(&mut self, dice: &mut Dice, c: &Call, bits: &[bool], written: Option<Spellings>) -> Answer {
        let mut data = Vec::new();
        let at = bytes_of(&mut data, bits, dice.below(20), dice.next());
        self.bytes(c, &data, at, written)
    }

    fn bytes(&mut self, c: &Call, data: &[u8], at: usize, written: Option<Spellings>) -> Answer {
        let a = self.test.bytes(c, data, at, written);
        if a.number == 0 {
            self.seen.took(&a.fields, c.setting.quantiser_scale, c.setting.flags[1], data, at);
        }
        a
    }

    fn says(&mut self, name: &str) {
        self.test.counts.says(name, "macroblocks");
    }
}

// Every short string of bits, and then the end of the data.
fn short(test: &mut Macroblocks, dice: &mut Dice) {
    for reading in READINGS {
        for n in 0..=16 {
            for v in 0..1 << n {
                let mut bits = Bits::new();
                push(&mut bits, v, n);
                let c = any(dice, reading);
                test.bits(dice, &c, &bits, None);
            }
        }
    }
    test.says("macroblocks: every 0 to 16 bits");
}

// Whole, followed by the end and by other bits.
fn whole(test: &mut Macroblocks, dice: &mut Dice, n: usize) {
    patterns(n, |k, pattern, reading| {
        let longest = dice.of(&[1, 2, 6, 20, 63]);
        let (c, heading, mut one) = drawn(dice, pattern, reading, k % 8 != 7, longest);
        for other in [c, any(dice, reading)] {
            let a = test.bits(dice, &other, &one.bits, Some(one.spellings));
            if a.number == 0 {
                assert_eq!(a.fields, heading.fields(other.setting.quantiser_scale), "as it was written");
            }
            push(&mut one.bits, dice.next(), dice.below(65));
        }
    });
    test.says("sentences, and with other bits after");
}

// Cut everywhere, and with each bit the other way round.
fn cut(test: &mut Macroblocks, dice: &mut Dice, n: usize) {
    patterns(n, |_, pattern, reading| {
        let longest = dice.of(&[1, 2, 6, 20]);
        let (c, _, one) = drawn(dice, pattern, reading, true, longest);
        for kept in 0..one.bits.len() {
            let number = test.bits(dice, &c, &one.bits[..kept], None).number;
            assert!(matches!(number, 1 | 17), "a sentence that was cut");
        }
    });
    test.says("every truncation of sentences");
    patterns(n, |_, pattern, reading| {
        let longest = dice.of(&[1, 2, 6, 20]);
        let (c, _, mut one) = drawn(dice, pattern, reading, true, longest);
        for i in 0..one.bits.len() {
            one.bits[i] = !one.bits[i];
            test.bits(dice, &c, &one.bits, None);
            one.bits[i] = !one.bits[i];
        }
    });
    test.says("each bit of sentences flipped");
}

fn flipped(test: &mut Macroblocks, dice: &mut Dice, n: usize) {
    patterns(n, |_, pattern, reading| {
        let longest = dice.of(&[2, 6, 20, 63]);
        let (c, _, mut bad) = drawn(dice, pattern, reading, true, longest);
        push(&mut bad.bits, dice.next(), dice.below(65));
        flip(dice, &mut bad.bits);
        test.bits(dice, &c, &bad.bits, None);
    });
    test.says("one to three bits flipped");
    patterns(n, |k, _, reading| {
        let data = any_bytes(dice, if k % 4 == 0 { 300 } else { 24 });
        let c = any(dice, reading);
        test.bytes(&c, &data, dice.below(8 * data.len() + 1), None);
    });
    test.says("random bytes");
}

// One or two things of the state bad, with bits that are good or not: the state is looked at first.
fn states(test: &mut Macroblocks, dice: &mut Dice, n: usize) {
    let mut data = Vec::new();
    for _ in 0..256 * n {
        let (pattern, reading) = (dice.below(64), dice.of(&READINGS));
        let (mut c, _, mut one) = drawn(dice, pattern, reading, true, 6);
        if dice.flag() {
            one.bits.truncate(dice.below(24));
        }
        let mut at = bytes_of(&mut data, &one.bits, dice.below(20), dice.next());
        for _ in 0..1 + dice.below(2) {
            match dice.below(6) {
                0 => at = dice.of(&[8 * data.len() + 1, usize::MAX]),
                1 | 2 => c.room = dice.of(&[0, 1, 63, 64, 256, 320, 383]),
                _ => c.setting.spoil(dice),
            }
        }
        test.bytes(&c, &data, at, None);
    }
    for n in [MOST_BYTES, MOST_BYTES + 1] {
        let data = vec![0x6d; n];
        for at in (8 * n - 80..=8 * n).chain([0, 3]) {
            let reading = dice.of(&READINGS);
            let c = any(dice, reading);
            test.bytes(&c, &data, at, None);
        }
    }
    test.says("a bad state, or the longest data");
}

pub fn all(dice: &mut Dice, n: usize) -> Counts {
    let mut all = Macroblocks::default();
    short(&mut all, dice);
    whole(&mut all, dice, n);
    cut(&mut all, dice, n.div_ceil(100));
    flipped(&mut all, dice, n.div_ceil(2));
    states(&mut all, dice, n.div_ceil(4));
    println!("of those accepted alone:");
    all.seen.says();
    all.test.counts.end("macroblocks");
    all.test.counts
}
