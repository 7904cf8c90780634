// Pictures on both sides: macroblock after macroblock, with refused calls in between. What is called for one macroblock, `ours`, is
// the driver's.
use super::layer::{Answer, Layer, Picture, Step, before};
use super::ours;
use super::scene::{self, Scene};
use super::style::{Style, put_bits, spoil};
use crate::common::bits::push;
use crate::common::counts::Counts;
use crate::common::dice::Dice;
use crate::common::header::samples_told;
use crate::common::header_call::UNREAD;
use crate::common::heading;
use crate::common::sentence::{Sentence, Spellings, UNTOLD};
use crate::common::setting::{Matrix, matrix_told};
use crate::common::smallest::data_told;

#[rustfmt::skip]
unsafe extern "C" {
    fn rt_open(width: u32, height: u32, bits_per_pixel: u32, quant_type: bool, numbers: &mut [u32; 4], method: &mut bool) -> u32;
    fn rt_picture(numbers: &mut [u32; 4], method: &mut bool, data: *const u8, len: usize, at: usize, header_flags: &[bool; 2], mb_type: u32, patterns: &[u8; 2], quantiser_scale: u32, flags: &[bool; 6], matrix: &Matrix, figure: &mut u32, bits: &mut usize, position: &mut usize, spellings: &mut Spellings, samples: *mut i32, room: usize, store: *mut i32, stored: usize) -> u32;
}

// What is in `numbers` and `method` is written only where the opening is accepted.
pub fn open(width: u32, height: u32, depth: u32, method: bool, numbers: &mut [u32; 4], left: &mut bool) -> u32 {
    unsafe { rt_open(width, height, depth, method, numbers, left) }
}

// A call whose header is handed in.
#[rustfmt::skip]
pub fn handed_in(p: Picture, s: &Step, store: &mut [i32]) -> (Answer, Spellings) {
    let (mut a, mut spellings) = (before(p, s), UNTOLD);
    let (h, q) = (&s.header, s.quantiser_scale);
    a.number = unsafe {
        rt_picture(
            &mut a.picture.numbers, &mut a.picture.method, s.data.as_ptr(), s.data.len(), s.at, &[h.not_coded, h.ac_pred_flag], h.mb_type, &[h.cbpy, h.cbpc], q, &s.flags, &s.matrix,
            &mut a.figure, &mut a.bits, &mut a.position, &mut spellings, a.samples.as_mut_ptr(), a.samples.len(), store.as_mut_ptr(), store.len(),
        )
    };
    (a, spellings)
}

// A refusal tells no spellings.
pub fn same(ours: &Answer, spellings: Spellings, due: &Answer) -> bool {
    ours == due && (due.number == 0 || spellings == UNTOLD)
}

// What differs between two answers.
pub fn told(ours: &Answer, due: &Answer) -> String {
    let of = |a: &Answer| {
        let fields = a.fields.told();
        format!(
            "number {} figure {} bits {} position {} {:?}{fields}",
            a.number, a.figure, a.bits, a.position, a.picture
        )
    };
    format!(
        "  ours: {}\n  due:  {}\n{}",
        of(ours),
        of(due),
        samples_told(&ours.samples, &due.samples)
    )
}

pub fn step_told(s: &Step) {
    let header = if s.in_bits {
        "its header in its bits,".to_string()
    } else {
        format!("{:?}", s.header)
    };
    println!(
        "  {header} quantiser {} flags {:?} room {} stored {:x}",
        s.quantiser_scale, s.flags, s.room, s.stored
    );
    println!("    {}\n    {}", matrix_told(&s.matrix), data_told(&s.data, s.at));
}

pub fn miscounted(p: Picture, s: &Step) {
    println!("DIFFERS: in {p:?}");
    step_told(s);
}

pub struct Play {
    pub layer: Layer,
    picture: Picture,
    pub store: Vec<i32>,
}

impl Play {
    // The store is full of numbers that no macroblock leaves: nothing may be taken of them.
    pub fn opened(width: u32, height: u32, depth: u32, method: bool, beyond: usize) -> Play {
        let mut picture = Picture {
            numbers: [0; 4],
            method: false,
        };
        let number = open(width, height, depth, method, &mut picture.numbers, &mut picture.method);
        assert_eq!(
            (number, picture.numbers, picture.method),
            (0, [width, height, depth, 0], method),
            "opening"
        );
        Play {
            layer: Layer::new(picture),
            picture,
            store: vec![i32::MIN; 192 * width as usize + beyond],
        }
    }

    // What differs, or the answer and its spellings.
    pub fn step(&mut self, s: &Step) -> Result<(Answer, Spellings), String> {
        let stored = s.stored.min(self.store.len());
        let old = self.store.clone();
        let (a, spellings) = ours(self.picture, s, &mut self.store[..stored]);
        let b = self.layer.call(s, stored);
        self.picture = a.picture;
        if !same(&a, spellings, &b) {
            return Err(format!("{}\n  spellings: ours {spellings:?}, lent {UNTOLD:?}", told(&a, &b)));
        }
        let from = if a.number == 0 { 192 * a.picture.numbers[0] as usize } else { 0 };
        if self.store[from..] != old[from..] {
            return Err(format!("{}\n  the store was written to", told(&a, &b)));
        }
        Ok((a, spellings))
    }
}

const SEEN: [&str; 5] = [
    "all samples inside their range",
    "samples of 16 values or more",
    "AC prediction set",
    "another quantiser than the macroblock before",
    "after a refusal",
];

// How a call is drawn that is fine, with its sentence; after it the quantiser is the one before the next.
pub type Draw = fn(&Style, &mut Dice, &mut u32) -> (Step, Sentence);

#[derive(Default)]
pub struct Pictures {
    pub counts: Counts,
    // what was among those accepted
    seen: [u64; 5],
    pub headers: heading::Seen,
}

impl Pictures {
    // The last call of a picture, its spellings as it was written if that is known; the quantiser of the call before it, if there was
    // one; and whether that was refused.
    fn took(&mut self, (a, spellings): &(Answer, Spellings), last: &Step, written: Option<Spellings>, before: Option<u32>, refused: bool) {
        self.counts.took(a.number);
        if a.number != 0 {
            return;
        }
        let top = (1 << a.picture.numbers[2]) - 1;
        let mut values = a.samples[..384].to_vec();
        values.sort_unstable();
        values.dedup();
        if let Some(written) = written {
            self.counts.spells(*spellings, written, || miscounted(a.picture, last));
        }
        let what = [
            values[0] > 0 && values[values.len() - 1] < top,
            values.len() >= 16,
            if last.in_bits {
                a.fields.header.ac_pred_flag
            } else {
                last.flags[0]
            },
            before.is_some_and(|q| q != quantiser(a, last)),
            refused,
        ];
        for (n, x) in self.seen.iter_mut().zip(what) {
            *n += u64::from(x);
        }
        if last.in_bits {
            self.headers
                .took(&a.fields, last.quantiser_scale, last.flags[0], &last.data, last.at);
        }
    }

    // A whole picture, in between calls that are most likely refused (one in so many), and some calls after the last.
    pub fn picture(&mut self, dice: &mut Dice, draw: Draw, width: u32, height: u32, refusals: usize) {
        let (depth, method, beyond) = (
            4 + dice.below(9) as u32,
            dice.flag(),
            if dice.rarely() { dice.below(100) } else { 0 },
        );
        let style = Style::drawn(dice);
        let mut play = Play::opened(width, height, depth, method, beyond);
        let mut scene = Scene {
            width,
            height,
            depth,
            method,
            beyond,
            steps: Vec::new(),
        };
        let mut next = 1 + dice.below(31) as u32;
        let (mut after, mut before, mut refused) = (1 + dice.below(3), None, false);
        while after > 0 {
            if play.picture.numbers[3] == width * height {
                after -= 1;
            }
            let (s, written) = call(dice, &style, draw, &mut next, width, refusals);
            let answer = play.step(&s);
            scene.steps.push(s);
            let Ok(answer) = answer else { scene::smallest(scene) };
            let last = &scene.steps[scene.steps.len() - 1];
            self.took(&answer, last, written, before, refused);
            (before, refused) = (Some(quantiser(&answer.0, last)), answer.0.number != 0);
        }
    }

    pub fn says_seen(&self) {
        println!("of those accepted in pictures:");
        for (what, n) in SEEN.iter().zip(self.seen) {
            println!("  {n:>9} {what}");
        }
    }
}

// With which a call was read.
fn quantiser(a: &Answer, s: &Step) -> u32 {
    if a.fields == UNREAD {
        s.quantiser_scale
    } else {
        a.fields.quantiser_scale
    }
}

// A sentence with other bits after it or none, and how it is spelled; or, one in so many, a call that is spoiled.
fn call(dice: &mut Dice, style: &Style, draw: Draw, next: &mut u32, width: u32, refusals: usize) -> (Step, Option<Spellings>) {
    let (mut s, mut one) = draw(style, dice, next);
    if dice.flag() {
        push(&mut one.bits, dice.next(), dice.below(65));
    }
    put_bits(dice, &mut s, &one.bits);
    if dice.below(refusals) != 0 {
        return (s, Some(one.spellings));
    }
    (0..1 + dice.below(2)).for_each(|_| spoil(dice, &mut s, width));
    (s, None)
}
