// `block::decode_intra_block_full` against the original, with `pattern_code` and the default matrix. Where the state is fine both must
// give the same number and figure, with 17 in place of the original's 2 or 4 where the bits end inside a code, or the same position, DC,
// samples and levels; elsewhere Rattle must refuse by 11, 12 or 13. On a refusal everything lent must stay as it was (the original's
// reader moves: that is not asked). Spellings, which the original does not tell, must be those that were written.
use crate::block;
use crate::common::bits::{any_bytes, bytes_of, flip, push};
use crate::common::block_call::{Answer, Call, lent};
use crate::common::counts;
use crate::common::dice::Dice;
use crate::common::numbers::MOST_BYTES;
use crate::common::sentence::{Sentence, Spellings, UNTOLD};
use crate::common::setting::{Block, Matrix, Setting, Seven};
use crate::common::tally::Tally;
use crate::common::test::{self, Test};

#[rustfmt::skip]
unsafe extern "C" {
    fn rt_pattern_code(cbpy: u8, cbpc: u8, out: &mut [bool; 6]);
    fn rt_default_matrix(out: &mut Matrix);
    fn rt_block(data: *const u8, len: usize, at: usize, i: usize, reading: &[bool; 3], quantiser_scale: u32, bits_per_pixel: u32, flags: &[bool; 5], dcs: &[i32; 3], qps: &[u32; 2], has: &[bool; 2], column: &Seven, row: &Seven, matrix: &Matrix, figure: &mut u32, position: &mut usize, spellings: &mut Spellings, dc: &mut i32, spatial: &mut Block, qf: &mut Block) -> u32;
}

impl test::Call for Call {
    type Answer = Answer;

    #[rustfmt::skip]
    fn ours(&self, data: &[u8], at: usize) -> (Answer, Spellings) {
        let (mut a, mut spellings) = (lent(at), UNTOLD);
        let s = &self.setting;
        a.number = unsafe {
            rt_block(
                data.as_ptr(), data.len(), at, self.i, &self.reading, s.quantiser_scale, s.bits_per_pixel, &s.flags, &s.dcs, &s.qps, &s.has, &s.column, &s.row, &s.matrix,
                &mut a.figure, &mut a.position, &mut spellings, &mut a.dc, &mut a.samples, &mut a.levels,
            )
        };
        (a, spellings)
    }

    fn due(&self, data: &[u8], at: usize) -> Answer {
        Call::due(self, data, at)
    }

    fn number(answer: &Answer) -> u32 {
        answer.number
    }

    fn simpler(&self) -> Vec<Call> {
        let settings = self.setting.simpler().into_iter().map(|setting| Call { setting, ..*self });
        let first = (self.i < 6 && self.i != 0).then_some(Call { i: 0, ..*self });
        first.into_iter().chain(settings).collect()
    }
}

// ---- what was among those accepted

const SEEN: [&str; 9] = [
    "method 1",
    "method 1 with mismatch control",
    "AC predicted from A",
    "AC predicted from C",
    "reversible",
    "without a DC part",
    "a level at its limit",
    "64 samples inside their range",
    "the other rule gives other samples",
];

#[derive(Default)]
struct Blocks {
    test: Test,
    seen: [u64; 9],
}

impl Blocks {
    // A sentence, and other bits after it or none.
    fn whole(&mut self, dice: &mut Dice, c: &Call, one: &Sentence) {
        self.bits(dice, c, &one.bits, Some(one.spellings));
    }

    fn bits(&mut self, dice: &mut Dice, c: &Call, bits: &[bool], written: Option<Spellings>) {
        let mut data = Vec::new();
        let at = bytes_of(&mut data, bits, dice.below(20), dice.next());
        self.bytes(c, &data, at, written);
    }

    fn bytes(&mut self, c: &Call, data: &[u8], at: usize, written: Option<Spellings>) {
        let b = self.test.bytes(c, data, at, written);
        if b.number == 0 {
            self.sees(c, data, at, &b);
        }
    }

    fn sees(&mut self, c: &Call, data: &[u8], at: usize, b: &Answer) {
        let s = &c.setting;
        let above = (s.dcs[0] - s.dcs[1]).abs() < (s.dcs[1] - s.dcs[2]).abs();
        let mut other = *c;
        other.setting.flags[4] = !s.flags[4];
        let what = [
            s.flags[0],
            s.flags[0] && !s.flags[3],
            s.flags[1] && !above && s.has[0],
            s.flags[1] && above && s.has[1],
            c.reading[2] && c.reading[0],
            !c.reading[1],
            b.levels.iter().flatten().any(|&z| z == -2048 || z == 2047),
            b.samples.iter().flatten().all(|&z| z > 0 && z < (1 << s.bits_per_pixel) - 1),
            other.due(data, at).samples != b.samples,
        ];
        for (n, x) in self.seen.iter_mut().zip(what) {
            *n += u64::from(x);
        }
    }

    fn says(&mut self, name: &str) {
        self.test.counts.says(name, "blocks");
    }
}

// ---- parts

// Whole, followed by the end and by other bits, cut, one to three bits flipped.
fn sentences(test: &mut Blocks, dice: &mut Dice, n: usize) {
    for k in 0..n {
        let c = Call::drawn(dice);
        let mut one = c.sentence(dice, k % 8 != 0, 20);
        test.whole(dice, &c, &one);
        push(&mut one.bits, dice.next(), dice.below(65));
        let other = Call {
            setting: Setting::drawn(dice),
            ..c
        };
        test.whole(dice, &other, &one);
    }
    test.says("sentences, and with other bits after");
    for _ in 0..n {
        let mut c = Call::drawn(dice);
        c.setting = Setting::grey(dice);
        c.reading[0] = dice.flag();
        let one = c.sentence(dice, true, 2);
        test.whole(dice, &c, &one);
    }
    test.says("short sentences, grey neighbours");
    for _ in 0..n {
        let c = Call::drawn(dice);
        let one = c.sentence(dice, true, 20).bits;
        let kept = dice.below(one.len() + 1);
        test.bits(dice, &c, &one[..kept], None);
    }
    test.says("cut sentences");
    for _ in 0..n {
        let c = Call::drawn(dice);
        let mut bad = c.sentence(dice, true, 20).bits;
        push(&mut bad, dice.next(), dice.below(65));
        flip(dice, &mut bad);
        test.bits(dice, &c, &bad, None);
    }
    test.says("one to three bits flipped");
    for k in 0..n {
        let data = any_bytes(dice, if k % 8 == 0 { 100 } else { 12 });
        test.bytes(&Call::drawn(dice), &data, dice.below(8 * data.len() + 1), None);
    }
    test.says("random bytes");
}

// Without bits: every pattern, and the default matrix.
fn constants() {
    let mut t = Tally::new("pattern_code");
    for both in 0..=u16::MAX {
        let ours = |&[cbpy, cbpc]: &[u8; 2]| {
            let mut out = [false; 6];
            unsafe { rt_pattern_code(cbpy, cbpc, &mut out) };
            out
        };
        t.equals(both.to_be_bytes(), ours, |&[cbpy, cbpc]| block::pattern_code(cbpy, cbpc));
    }
    t.says();
    let mut t = Tally::new("default_intra_quant_matrix");
    let ours = |_: &bool| {
        let mut out = [[0; 8]; 8];
        unsafe { rt_default_matrix(&mut out) };
        out
    };
    t.equals(false, ours, |_| block::DEFAULT_INTRA_QUANT_MATRIX);
    t.says();
}

// One or two things of the state bad.
fn states(test: &mut Blocks, dice: &mut Dice, n: usize) {
    let mut data = Vec::new();
    for _ in 0..n {
        let mut c = Call::drawn(dice);
        let one = c.sentence(dice, true, 20);
        let mut at = bytes_of(&mut data, &one.bits, dice.below(20), dice.next());
        for _ in 0..1 + dice.below(2) {
            match dice.below(9) {
                0 => c.i = dice.of(&[6, 7, usize::MAX]),
                1 => at = dice.of(&[8 * data.len() + 1, usize::MAX]),
                _ => c.setting.spoil(dice),
            }
        }
        test.bytes(&c, &data, at, Some(one.spellings));
    }
    for n in [MOST_BYTES, MOST_BYTES + 1] {
        let data = vec![0x6d; n];
        (8 * n - 40..=8 * n)
            .chain([0, 3])
            .for_each(|at| test.bytes(&Call::drawn(dice), &data, at, None));
    }
    test.says("a bad state, or the longest data");
}

pub fn main() {
    let n: usize = std::env::args()
        .nth(1)
        .map_or(300_000, |n| n.parse().expect("a number of sentences"));
    let (mut test, mut dice) = (Blocks::default(), Dice(1));
    constants();
    sentences(&mut test, &mut dice, n);
    states(&mut test, &mut dice, n / 3);
    println!("of those accepted:");
    for (what, n) in SEEN.iter().zip(test.seen) {
        println!("  {n:>9} {what}");
    }
    let counts = &test.test.counts;
    counts.end("blocks");
    counts::blocks(counts.cases(), counts.accepted());
}
