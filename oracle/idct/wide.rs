// The transform against the original on pseudo-random blocks of six kinds under both rules; outside the domain Rattle must refuse by 12
// or 13 and leave the lent block as it was. Then both are timed.
use crate::common::dice::Dice;
use crate::common::numbers::transform_state;
use crate::common::setting::{Block, rule};
use crate::common::tally::Tally;
use crate::idct::{HalfIntegerRounding, idct_8x8_rounded};
use std::hint::black_box;
use std::time::Instant;

unsafe extern "C" {
    fn rt_idct(coefficients: &Block, bits_per_pixel: u32, to_even: bool, out: &mut Block) -> u32;
}

// -limit..limit
fn value(dice: &mut Dice, limit: i32) -> i32 {
    dice.below(2 * limit as usize) as i32 - limit
}

// Any values; the least or the greatest; a few; a DC; multiples of 4 at multiples of pi / 4, which are
// often halves; a DC and small values at low places.
fn block(dice: &mut Dice, depth: u32, kind: usize) -> Block {
    let limit = 1i32 << (depth + 3);
    let mut b = [[0; 8]; 8];
    match kind {
        0 => b.iter_mut().flatten().for_each(|v| *v = value(dice, limit)),
        1 => b.iter_mut().flatten().for_each(|v| *v = dice.of(&[-limit, limit - 1])),
        2 => (0..=dice.below(6)).for_each(|_| b[dice.below(8)][dice.below(8)] = value(dice, limit)),
        3 => b[0][0] = value(dice, limit),
        4 => [(0, 0), (0, 4), (4, 0), (4, 4)]
            .iter()
            .for_each(|&(v, u)| b[v][u] = value(dice, limit / 4) * 4),
        _ => {
            (0..=dice.below(10)).for_each(|_| b[dice.below(4)][dice.below(4)] = value(dice, limit.min(64)));
            b[0][0] = value(dice, limit);
        }
    }
    b
}

fn compare(dice: &mut Dice, blocks: usize) {
    let mut tallies = ["idct_8x8_rounded, away from zero", "idct_8x8_rounded, to even"].map(Tally::new);
    for i in 0..blocks + blocks / 16 {
        let depth = 4 + (i % 9) as u32;
        let mut b = block(dice, depth, i / 9 % 6);
        let mut told = depth;
        // those past the number asked for are bad
        if i >= blocks {
            if dice.flag() {
                told = dice.outside(4, 12) as u32;
            }
            if told == depth || dice.flag() {
                b[dice.below(8)][dice.below(8)] = dice.outside(-8 << depth, (8 << depth) - 1);
            }
        }
        for (to_even, t) in tallies.iter_mut().enumerate() {
            t.took(
                (b, told),
                [[1_000_000; 8]; 8],
                |(b, depth), out| unsafe { rt_idct(b, *depth, to_even == 1, out) },
                |(b, depth)| transform_state(b, *depth),
                |(b, depth)| idct_8x8_rounded(b, *depth, rule(to_even == 1)),
            );
        }
    }
    tallies.iter().for_each(Tally::says);
}

fn time(dice: &mut Dice) {
    for (kind, name) in [(0, "any values"), (2, "a few values"), (3, "a DC"), (5, "low places")] {
        let many: Vec<Block> = (0..256).map(|_| block(dice, 8, kind)).collect();
        let mut best = [f64::MAX; 2];
        for _ in 0..20 {
            let start = Instant::now();
            for b in &many {
                black_box(idct_8x8_rounded(black_box(b), 8, HalfIntegerRounding::AwayFromZero));
            }
            best[0] = best[0].min(start.elapsed().as_nanos() as f64 / 256.0);
            let mut out = [[0; 8]; 8];
            let start = Instant::now();
            for b in &many {
                unsafe { rt_idct(black_box(b), 8, false, &mut out) };
                black_box(&out);
            }
            best[1] = best[1].min(start.elapsed().as_nanos() as f64 / 256.0);
        }
        println!("{name}: original {:.0} ns, library {:.0} ns a block", best[0], best[1]);
    }
}

pub fn main() {
    let blocks: usize = std::env::args()
        .nth(1)
        .map_or(1_000_000, |n| n.parse().expect("a number of blocks"));
    let dice = &mut Dice(1);
    compare(dice, blocks);
    time(dice);
}
