// Headers in bits: `headers::parse_macroblock_header` against the original's, for an I-VOP that is rectangular and not interlaced, and
// `macroblock::decode_intra_macroblock_with_header` and `picture::decode_macroblock_with_header` against that header and then the
// original's blocks, with the header's flag and the quantiser after it. The original does not work out that quantiser: it is the one
// before the header with the change added, limited to 1 to 31. Its `InvalidMcbpc` and `InvalidCbpy` are 16, or 17 where the bits end
// inside a code. Both must give the same number and figure, or the same fields, position, number of bits and samples, and in a picture
// the same picture; elsewhere Rattle must refuse by the first of 11, 12, 13, 14 (in a picture 11, 12, 14, 15, 13), before any bit. A
// refusal must leave all that is lent as it was. Spellings, which the original does not tell, must be those that were written.
use crate::common::counts::{self, Counts};
use crate::common::dice::Dice;
use crate::common::header::Header;
use crate::common::header_call::{self, Fields, UNREAD};
use crate::common::macroblock_call;
use crate::common::sentence::{Sentence, Spellings, UNTOLD};
use crate::common::setting::{Matrix, Seven};
use crate::common::test;
use crate::common::whole_call;
use layer::{Answer, Picture, Step, before};
use play::{Pictures, handed_in};
use style::Style;

#[path = "alone.rs"]
mod alone;
#[path = "../picture/elsewhere.rs"]
mod elsewhere;
#[path = "fields.rs"]
mod fields;
#[path = "../picture/layer.rs"]
mod layer;
#[path = "../picture/play.rs"]
mod play;
#[path = "../picture/scene.rs"]
mod scene;
#[path = "../picture/style.rs"]
mod style;

#[rustfmt::skip]
unsafe extern "C" {
    fn rt_header(data: *const u8, len: usize, at: usize, quantiser_scale: u32, figure: &mut u32, position: &mut usize, header_flags: &mut [bool; 2], patterns: &mut [u8; 2], scales: &mut [u32; 2], dquant_delta: &mut i32) -> u32;
    fn rt_whole(data: *const u8, len: usize, at: usize, reading: &[bool; 2], quantiser_scale: u32, bits_per_pixel: u32, flags: &[bool; 5], dcs: &[i32; 3], qps: &[u32; 2], has: &[bool; 2], column: &Seven, row: &Seven, matrix: &Matrix, figure: &mut u32, bits: &mut usize, position: &mut usize, spellings: &mut Spellings, samples: *mut i32, room: usize, header_flags: &mut [bool; 2], patterns: &mut [u8; 2], scales: &mut [u32; 2], dquant_delta: &mut i32) -> u32;
    fn rt_whole_in_picture(numbers: &mut [u32; 4], method: &mut bool, data: *const u8, len: usize, at: usize, quantiser_scale: u32, flags: &[bool; 6], matrix: &Matrix, figure: &mut u32, bits: &mut usize, position: &mut usize, spellings: &mut Spellings, samples: *mut i32, room: usize, store: *mut i32, stored: usize, header_flags: &mut [bool; 2], patterns: &mut [u8; 2], scales: &mut [u32; 2], dquant_delta: &mut i32) -> u32;
}

// The fields of a header as they are lent: not_coded and ac_pred_flag; cbpy and cbpc; the type and the quantiser; the change.
struct Lent {
    flags: [bool; 2],
    patterns: [u8; 2],
    scales: [u32; 2],
    dquant_delta: i32,
}

impl Lent {
    fn new() -> Lent {
        let h = UNREAD.header;
        Lent {
            flags: [h.not_coded, h.ac_pred_flag],
            patterns: [h.cbpy, h.cbpc],
            scales: [h.mb_type, UNREAD.quantiser_scale],
            dquant_delta: UNREAD.dquant_delta,
        }
    }

    fn fields(&self) -> Fields {
        Fields {
            header: Header {
                not_coded: self.flags[0],
                mb_type: self.scales[0],
                cbpc: self.patterns[1],
                ac_pred_flag: self.flags[1],
                cbpy: self.patterns[0],
            },
            dquant_delta: self.dquant_delta,
            quantiser_scale: self.scales[1],
        }
    }
}

impl test::Call for header_call::Call {
    type Answer = header_call::Answer;

    #[rustfmt::skip]
    fn ours(&self, data: &[u8], at: usize) -> (header_call::Answer, Spellings) {
        let (mut a, mut f) = (header_call::lent(at), Lent::new());
        a.number = unsafe {
            rt_header(
                data.as_ptr(), data.len(), at, self.quantiser_scale, &mut a.figure, &mut a.position,
                &mut f.flags, &mut f.patterns, &mut f.scales, &mut f.dquant_delta,
            )
        };
        a.fields = f.fields();
        (a, UNTOLD)
    }

    fn due(&self, data: &[u8], at: usize) -> header_call::Answer {
        header_call::Call::due(self, data, at)
    }

    fn number(answer: &header_call::Answer) -> u32 {
        answer.number
    }

    fn told(&self, ours: &header_call::Answer, due: &header_call::Answer) -> String {
        let of = |a: &header_call::Answer| format!("number {} figure {} position {}{}", a.number, a.figure, a.position, a.fields.told());
        format!("  ours: {}\n  due:  {}", of(ours), of(due))
    }

    fn simpler(&self) -> Vec<header_call::Call> {
        let mut fewer = Vec::new();
        if self.quantiser_scale > 1 {
            fewer.extend([1, self.quantiser_scale - 1].map(|quantiser_scale| header_call::Call { quantiser_scale }));
        }
        fewer
    }
}

impl test::Call for whole_call::Call {
    type Answer = macroblock_call::Answer;

    #[rustfmt::skip]
    fn ours(&self, data: &[u8], at: usize) -> (macroblock_call::Answer, Spellings) {
        let (mut a, mut spellings) = (macroblock_call::Answer::before(at, self.room), UNTOLD);
        let (s, mut f) = (&self.setting, Lent::new());
        a.number = unsafe {
            rt_whole(
                data.as_ptr(), data.len(), at, &self.reading, s.quantiser_scale, s.bits_per_pixel, &s.flags, &s.dcs, &s.qps, &s.has, &s.column, &s.row, &s.matrix,
                &mut a.figure, &mut a.bits, &mut a.position, &mut spellings, a.samples.as_mut_ptr(), a.samples.len(),
                &mut f.flags, &mut f.patterns, &mut f.scales, &mut f.dquant_delta,
            )
        };
        a.fields = f.fields();
        (a, spellings)
    }

    fn due(&self, data: &[u8], at: usize) -> macroblock_call::Answer {
        whole_call::Call::due(self, data, at)
    }

    fn number(answer: &macroblock_call::Answer) -> u32 {
        answer.number
    }

    fn told(&self, ours: &macroblock_call::Answer, due: &macroblock_call::Answer) -> String {
        ours.told(due)
    }

    fn simpler(&self) -> Vec<whole_call::Call> {
        let room = (self.room > 384).then_some(whole_call::Call { room: 384, ..*self });
        let settings = self.setting.simpler().into_iter();
        let settings = settings.map(|setting| whole_call::Call { setting, ..*self });
        room.into_iter().chain(settings).collect()
    }
}

// In a picture: with the header in the bits, or handed in.
#[rustfmt::skip]
fn ours(p: Picture, s: &Step, store: &mut [i32]) -> (Answer, Spellings) {
    if !s.in_bits {
        return handed_in(p, s, store);
    }
    let (mut a, mut spellings) = (before(p, s), UNTOLD);
    let mut f = Lent::new();
    a.number = unsafe {
        rt_whole_in_picture(
            &mut a.picture.numbers, &mut a.picture.method, s.data.as_ptr(), s.data.len(), s.at, s.quantiser_scale, &s.flags, &s.matrix,
            &mut a.figure, &mut a.bits, &mut a.position, &mut spellings, a.samples.as_mut_ptr(), a.samples.len(), store.as_mut_ptr(), store.len(),
            &mut f.flags, &mut f.patterns, &mut f.scales, &mut f.dquant_delta,
        )
    };
    a.fields = f.fields();
    (a, spellings)
}

// Most calls with the header in the bits, the others with it handed in.
fn step(style: &Style, dice: &mut Dice, quantiser: &mut u32) -> (Step, Sentence) {
    let (mut s, one) = style.step(dice, quantiser);
    if dice.rarely() {
        return (s, one);
    }
    // the style's flag is the header's
    let (heading, one) = alone::headed(
        dice,
        Header {
            ac_pred_flag: s.flags[0],
            ..s.header
        },
        one,
    );
    s.in_bits = true;
    s.flags[0] = dice.flag();
    *quantiser = heading.fields(s.quantiser_scale).quantiser_scale;
    (s, one)
}

fn pictures(dice: &mut Dice, n: usize) -> Counts {
    let mut all = Pictures::default();
    for k in 0..4 * n {
        let (width, height) = (1 + dice.below(6) as u32, 1 + dice.below(6) as u32);
        all.picture(dice, step, width, height, 2 + k % 3);
    }
    all.counts.says("pictures up to 6 by 6, many calls refused", "macroblocks");
    for k in 0..n {
        let size = k * 611 % 1620;
        all.picture(dice, step, 1 + (size % 45) as u32, 1 + (size / 45) as u32, 12);
    }
    all.counts.says("pictures of sizes up to 45 by 36", "macroblocks");
    for _ in 0..n {
        let style = Style::drawn(dice);
        (0..64).for_each(|_| elsewhere::call(&mut all.counts, dice, &style, step));
    }
    all.counts.says("a picture and a store from elsewhere", "macroblocks");
    all.says_seen();
    all.headers.says();
    all.counts.end("macroblocks");
    all.counts
}

pub fn main() {
    let n: usize = std::env::args().nth(1).map_or(400, |n| n.parse().expect("a number of rounds"));
    let read = fields::all(&mut Dice(1), n);
    let alone = alone::all(&mut Dice(2), n);
    let in_pictures = pictures(&mut Dice(3), n);
    counts::headers(read.cases(), read.accepted());
    counts::blocks(
        6 * (alone.cases() + in_pictures.cases()),
        6 * (alone.accepted() + in_pictures.accepted()),
    );
}
