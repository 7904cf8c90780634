// `picture` against a picture layer over the original's block reading (layer.rs), with 17 in place of its 2 or 4 where the bits end
// inside a code. Both must give the same number and figure, or the same number of bits, position, samples and picture. A refusal must
// leave samples, store and picture as they were, so that the same macroblock is due again; what is lent past 384 samples, or past 192
// numbers of store for each macroblock of width, must always stay. Spellings, which the original does not tell, must be those that were
// written, and stay on a refusal.
use crate::common::counts::{self, Counts};
use crate::common::dice::Dice;
use layer::opening;
use play::{Pictures, handed_in as ours};
use style::Style;

#[path = "elsewhere.rs"]
mod elsewhere;
#[path = "layer.rs"]
mod layer;
#[path = "play.rs"]
mod play;
#[path = "scene.rs"]
mod scene;
#[path = "style.rs"]
mod style;

fn openings(counts: &mut Counts) {
    let sizes: Vec<u32> = (0..=70).chain([u32::MAX - 1, u32::MAX]).collect();
    for (&width, &height) in sizes.iter().flat_map(|w| sizes.iter().map(move |h| (w, h))) {
        for depth in (0..=20).chain([u32::MAX]) {
            for method in [false, true] {
                let (mut numbers, mut left) = ([999; 4], !method);
                let number = play::open(width, height, depth, method, &mut numbers, &mut left);
                let due = match opening(width, height, depth) {
                    0 => (0, [width, height, depth, 0], method),
                    number => (number, [999; 4], !method),
                };
                if (number, numbers, left) != due {
                    println!("DIFFERS: opening {width} by {height} at depth {depth}, method 1 {method}");
                    println!("  ours: {:?}\n  due:  {due:?}", (number, numbers, left));
                    std::process::exit(1);
                }
                counts.took(number);
            }
        }
    }
}

pub fn main() {
    let n: usize = std::env::args().nth(1).map_or(1620, |n| n.parse().expect("a number of pictures"));
    let (mut opened, mut all, mut dice) = (Counts::default(), Pictures::default(), Dice(1));
    openings(&mut opened);
    opened.says("openings, every size and depth and around them", "pictures");
    for k in 0..4 * n {
        let (width, height) = (1 + dice.below(6) as u32, 1 + dice.below(6) as u32);
        all.picture(&mut dice, Style::step, width, height, 2 + k % 3);
    }
    all.counts.says("pictures up to 6 by 6, many calls refused", "macroblocks");
    for k in 0..n {
        // every size once in 1620
        let size = k * 611 % 1620;
        all.picture(&mut dice, Style::step, 1 + (size % 45) as u32, 1 + (size / 45) as u32, 12);
    }
    all.counts.says("pictures of every size up to 45 by 36", "macroblocks");
    for _ in 0..n {
        let style = Style::drawn(&mut dice);
        (0..64).for_each(|_| elsewhere::call(&mut all.counts, &mut dice, &style, Style::step));
    }
    all.counts.says("a picture and a store from elsewhere", "macroblocks");
    all.says_seen();
    all.counts.end("macroblocks");
    counts::blocks(6 * all.counts.cases(), 6 * all.counts.accepted());
}
