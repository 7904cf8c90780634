// `coefficients` and `inverse_quant` against the original. In the domain both must give the same; outside it Rattle must refuse by 12 or
// 13, the first that holds, and leave lent memory as it was.
use crate::block::BlockPredictors;
use crate::common::dice::Dice;
use crate::common::numbers::{dc_fine, depth_fine, level_fine, quantiser_fine};
use crate::common::sentence::component;
use crate::common::setting::{Block, Matrix, Seven};
use crate::common::tally::{Tally, first_bad};
use crate::inverse_quant::{self, InverseQuantContext};
use crate::levels;
use crate::predictor;
use crate::scan::{self, DcPredictionDirection, ScanType};

#[rustfmt::skip]
unsafe extern "C" {
    fn rt_select_scan_type(is_intra: bool, ac_pred_flag: bool, above: bool) -> u32;
    fn rt_inverse_scan(qfs: &[i32; 64], number: u32, out: &mut Block);
    fn rt_default_neighbour_dc(bits_per_pixel: u32, out: &mut i32) -> u32;
    fn rt_dc_scaler(chroma: bool, quantiser_scale: u32, out: &mut u32) -> u32;
    fn rt_select_dc_direction(fa: i32, fb: i32, fc: i32, above: &mut bool) -> u32;
    fn rt_predict_intra_dc(pqfx_dc: i32, above: bool, fa_dc: i32, fc_dc: i32, scaler: u32, out: &mut i32) -> u32;
    fn rt_predict_intra_ac_column(pqfx: &Seven, has: bool, qf: &Seven, qp: u32, qp_x: u32, out: &mut Seven) -> u32;
    fn rt_predict_intra_ac_row(pqfx: &Seven, has: bool, qf: &Seven, qp: u32, qp_x: u32, out: &mut Seven) -> u32;
    fn rt_saturate_qf(value: i32) -> i32;
    fn rt_saturate_block(block: &Block, out: &mut Block);
    fn rt_outside(bits_per_pixel: u32, quantiser_scale: u32, dcs: &mut [i32; 3], qps: &mut [u32; 2], has: &mut [bool; 2], column: &mut Seven, row: &mut Seven);
    fn rt_predictors_fine(dcs: &[i32; 3], qps: &[u32; 2], a_has_column: bool, column: &Seven, c_has_row: bool, row: &Seven) -> bool;
    fn rt_intra_levels(qfs: &[i32; 64], chroma: bool, quantiser_scale: u32, ac_pred_flag: bool, alternate_vertical_scan: bool, dcs: &[i32; 3], qps: &[u32; 2], a_has_column: bool, column: &Seven, c_has_row: bool, row: &Seven, qf: &mut Block) -> u32;
    fn rt_inverse_quant_intra_dc(qf00: i32, chroma: bool, quantiser_scale: u32, short: bool, out: &mut i32) -> u32;
    fn rt_inverse_quant_method1_coef(qf: i32, w: u8, quantiser_scale: u32, intra: bool, out: &mut i32) -> u32;
    fn rt_inverse_quant_method2_coef(qf: i32, quantiser_scale: u32, out: &mut i32) -> u32;
    fn rt_matrix_fine(w: &Matrix) -> bool;
    fn rt_inverse_quant_method1(qf: &Block, w: &Matrix, intra: bool, chroma: bool, q: u32, depth: u32, short: bool, out: &mut Block) -> u32;
    fn rt_inverse_quant_method1_no_mismatch(qf: &Block, w: &Matrix, intra: bool, chroma: bool, q: u32, depth: u32, short: bool, out: &mut Block) -> u32;
    fn rt_inverse_quant_method2(qf: &Block, intra: bool, chroma: bool, q: u32, depth: u32, short: bool, out: &mut Block) -> u32;
}

// ---- document 01's ranges

fn difference_fine(z: i32) -> bool {
    (-4095..=4095).contains(&z)
}

fn levels_fine(b: &Block) -> bool {
    b.iter().flatten().all(|&z| level_fine(z))
}

fn seven_fine(s: &Seven) -> bool {
    s.iter().all(|&z| level_fine(z))
}

fn matrix_fine(w: &Matrix) -> bool {
    w.iter().flatten().all(|&n| n != 0)
}

// ---- inputs: a range's ends and near 0 as often as anything else within it

fn natural(d: &mut Dice, lo: u32, hi: u32) -> u32 {
    d.within(lo as i32, hi as i32) as u32
}

// outside lo..=hi
fn no_natural(d: &mut Dice, lo: u32, hi: u32) -> u32 {
    match d.below(4) {
        0 => lo - 1,
        1 => hi + 1,
        2 => u32::MAX,
        _ => loop {
            let n = d.next() as u32;
            if n < lo || n > hi {
                break n;
            }
        },
    }
}

fn outside(d: &mut Dice, lo: i32, hi: i32) -> i32 {
    match d.below(4) {
        0 => lo - 1,
        1 => hi + 1,
        2 => d.of(&[i32::MIN, i32::MAX]),
        _ => loop {
            let z = d.next() as i32;
            if z < lo || z > hi {
                break z;
            }
        },
    }
}

// a quantiser; or, where it is not to be good, none
fn quantiser(d: &mut Dice, good: bool) -> u32 {
    if good { natural(d, 1, 31) } else { no_natural(d, 1, 31) }
}

fn depth(d: &mut Dice, good: bool) -> u32 {
    if good { natural(d, 4, 12) } else { no_natural(d, 4, 12) }
}

fn dc(d: &mut Dice, good: bool) -> i32 {
    if good { d.within(-65536, 65536) } else { outside(d, -65536, 65536) }
}

fn level(d: &mut Dice) -> i32 {
    d.within(-2048, 2047)
}

fn any_block(d: &mut Dice) -> Block {
    std::array::from_fn(|_| std::array::from_fn(|_| d.next() as i32))
}

fn any_seven(d: &mut Dice) -> Seven {
    std::array::from_fn(|_| d.next() as i32)
}

// levels; or all but one
fn seven(d: &mut Dice, good: bool) -> Seven {
    let mut s: Seven = std::array::from_fn(|_| level(d));
    if !good {
        s[d.below(7)] = outside(d, -2048, 2047);
    }
    s
}

// levels, more or fewer of them 0
fn levels_drawn(d: &mut Dice, into: &mut [i32]) {
    let full = 1 + d.below(4);
    for z in into {
        if d.below(4) < full {
            *z = level(d);
        }
    }
}

// 64 levels; or all but one
fn block(d: &mut Dice, good: bool) -> Block {
    let mut b = [[0; 8]; 8];
    levels_drawn(d, b.as_flattened_mut());
    if !good {
        b[d.below(8)][d.below(8)] = outside(d, -2048, 2047);
    }
    b
}

// a difference and 63 levels; or all but one
fn places(d: &mut Dice, good: bool) -> [i32; 64] {
    let mut p = [0; 64];
    levels_drawn(d, &mut p);
    p[0] = d.within(-4095, 4095);
    if !good {
        let k = if d.flag() { 0 } else { d.below(64) };
        p[k] = if k == 0 { outside(d, -4095, 4095) } else { outside(d, -2048, 2047) };
    }
    p
}

// no zero; or one
fn matrix(d: &mut Dice, good: bool) -> Matrix {
    let top = d.of(&[1, 16, 64, 255]);
    let mut w: Matrix = std::array::from_fn(|_| std::array::from_fn(|_| 1 + d.below(top) as u8));
    if !good {
        w[d.below(8)][d.below(8)] = 0;
    }
    w
}

// The DCs of A, B and C; quantiser, presence and AC values of A and C.
type Neighbours = ([i32; 3], [u32; 2], [bool; 2], [Seven; 2]);

fn neighbours(d: &mut Dice, good: bool) -> Neighbours {
    let bad = if good { 7 } else { d.below(7) };
    let mut dcs = [dc(d, bad != 0), dc(d, bad != 1), dc(d, bad != 2)];
    if good {
        // gradients that are equal, or nearly
        match d.below(6) {
            0 => dcs[2] = dcs[1],
            1 => dcs[0] = dcs[1],
            2 => dcs[0] = (2 * dcs[1] - dcs[2]).clamp(-65536, 65536),
            3 => dcs[2] = (dcs[0] + d.below(3) as i32 - 1).clamp(-65536, 65536),
            _ => (),
        }
    }
    let qps = [quantiser(d, bad != 3), quantiser(d, bad != 4)];
    let has = [bad == 5 || d.flag(), bad == 6 || d.flag()];
    // the values of a neighbour that is missing are not looked at
    let ac = [5, 6].map(|k| if has[k - 5] { seven(d, bad != k) } else { any_seven(d) });
    (dcs, qps, has, ac)
}

fn neighbours_fine((dcs, qps, has, ac): &Neighbours) -> bool {
    let side = |i: usize| !has[i] || seven_fine(&ac[i]);
    dcs.iter().all(|&z| dc_fine(z)) && qps.iter().all(|&q| quantiser_fine(q)) && side(0) && side(1)
}

fn original((dcs, qps, has, ac): &Neighbours) -> BlockPredictors {
    BlockPredictors {
        fa_dc: dcs[0],
        fb_dc: dcs[1],
        fc_dc: dcs[2],
        qp_a: qps[0],
        qp_c: qps[1],
        a_first_column: has[0].then_some(ac[0]),
        c_first_row: has[1].then_some(ac[1]),
    }
}

fn direction(above: bool) -> DcPredictionDirection {
    if above {
        DcPredictionDirection::FromAbove
    } else {
        DcPredictionDirection::FromLeft
    }
}

const SCANS: [ScanType; 3] = [ScanType::AlternateHorizontal, ScanType::AlternateVertical, ScanType::Zigzag];

// ---- parts

fn scans(d: &mut Dice, cases: usize) {
    let mut t = Tally::new("select_scan_type");
    for n in 0..8 {
        t.equals(
            (n & 1 == 1, n & 2 == 2, n & 4 == 4),
            |&(intra, pred, above)| SCANS[unsafe { rt_select_scan_type(intra, pred, above) } as usize],
            |&(intra, pred, above)| scan::select_scan_type(intra, pred, direction(above)),
        );
    }
    t.says();
    let mut t = Tally::new("inverse_scan");
    for n in 0..cases {
        let qfs: [i32; 64] = std::array::from_fn(|_| d.next() as i32);
        let ours = |(qfs, number): &([i32; 64], u32)| {
            let mut out = [[-1; 8]; 8];
            unsafe { rt_inverse_scan(qfs, *number, &mut out) };
            out
        };
        t.equals((qfs, (n % 3) as u32), ours, |(qfs, number)| {
            scan::inverse_scan(qfs, SCANS[*number as usize])
        });
    }
    t.says();
}

fn prediction(d: &mut Dice, cases: usize) {
    let mut t = Tally::new("default_neighbour_dc");
    for n in 0..1000 + cases / 20 {
        let depth = if n < 1000 { n as u32 } else { d.next() as u32 };
        t.took(
            depth,
            d.next() as i32,
            |&depth, out| unsafe { rt_default_neighbour_dc(depth, out) },
            |&depth| first_bad(depth_fine(depth), true),
            |&depth| predictor::default_neighbour_dc(depth),
        );
    }
    t.says();

    let mut t = Tally::new("dc_scaler");
    for n in 0..2000 + cases / 20 {
        let q = if n < 2000 { n as u32 / 2 } else { d.next() as u32 };
        t.took(
            (n & 1 == 1, q),
            d.next() as u32,
            |&(chroma, q), out| unsafe { rt_dc_scaler(chroma, q, out) },
            |&(_, q)| first_bad(quantiser_fine(q), true),
            |&(chroma, q)| predictor::dc_scaler(component(chroma), q),
        );
    }
    t.says();

    let mut t = Tally::new("select_dc_direction");
    for _ in 0..cases {
        let good = !d.rarely();
        t.took(
            neighbours(d, good).0,
            d.flag(),
            |&[a, b, c], above| unsafe { rt_select_dc_direction(a, b, c, above) },
            |dcs| first_bad(true, dcs.iter().all(|&z| dc_fine(z))),
            |&[a, b, c]| predictor::select_dc_direction(a, b, c) == DcPredictionDirection::FromAbove,
        );
    }
    t.says();

    let mut t = Tally::new("predict_intra_dc");
    for _ in 0..cases {
        let bad = if d.rarely() { d.below(3) } else { 3 };
        let z = if bad == 0 { outside(d, -4095, 4095) } else { d.within(-4095, 4095) };
        let (fa, fc, above) = (dc(d, bad != 1), dc(d, bad != 2), d.flag());
        // the scalers of Table 7-1, and rarely another that is not 0
        let scaler = if d.rarely() {
            natural(d, 1, i32::MAX as u32)
        } else {
            predictor::dc_scaler(component(d.flag()), natural(d, 1, 31))
        };
        t.took(
            (z, above, fa, fc, scaler),
            d.next() as i32,
            |&(z, above, fa, fc, scaler), out| unsafe { rt_predict_intra_dc(z, above, fa, fc, scaler, out) },
            |&(z, _, fa, fc, _)| first_bad(true, difference_fine(z) && dc_fine(fa) && dc_fine(fc)),
            |&(z, above, fa, fc, scaler)| predictor::predict_intra_dc(z, direction(above), fa, fc, scaler),
        );
    }
    t.says();

    for row in [false, true] {
        let mut t = Tally::new(if row { "predict_intra_ac_row" } else { "predict_intra_ac_column" });
        let ours = if row { rt_predict_intra_ac_row } else { rt_predict_intra_ac_column };
        let original = if row {
            predictor::predict_intra_ac_row
        } else {
            predictor::predict_intra_ac_column
        };
        for _ in 0..cases {
            let (a, b, c, e) = (!d.rarely(), !d.rarely(), !d.rarely(), !d.rarely());
            let (qp_x, pqfx, qp) = (quantiser(d, a), seven(d, b), quantiser(d, c));
            let has = !e || d.flag();
            let qf = if has { seven(d, e) } else { any_seven(d) };
            t.took(
                (pqfx, has, qf, qp, qp_x),
                any_seven(d),
                |(pqfx, has, qf, qp, qp_x), out| unsafe { ours(pqfx, *has, qf, *qp, *qp_x, out) },
                |(pqfx, has, qf, qp, qp_x)| {
                    let values = seven_fine(pqfx) && quantiser_fine(*qp) && (!has || seven_fine(qf));
                    first_bad(quantiser_fine(*qp_x), values)
                },
                |(pqfx, has, qf, qp, qp_x)| original(*pqfx, has.then_some(*qf), *qp, *qp_x),
            );
        }
        t.says();
    }

    let mut t = Tally::new("saturate_qf");
    for n in 0..20000 + cases {
        let z = if n < 20000 {
            n as i32 - 10000
        } else {
            d.next() as i32 >> d.below(20)
        };
        t.equals(z, |&z| unsafe { rt_saturate_qf(z) }, |&z| predictor::saturate_qf(z));
    }
    t.says();

    let mut t = Tally::new("saturate_block");
    for _ in 0..cases {
        let shift = d.below(20);
        let mut b = any_block(d);
        b.iter_mut().flatten().for_each(|z| *z >>= shift);
        let ours = |b: &Block| {
            let mut out = [[9999; 8]; 8];
            unsafe { rt_saturate_block(b, &mut out) };
            out
        };
        let original = |b: &Block| {
            let mut b = *b;
            predictor::saturate_block(&mut b);
            b
        };
        t.equals(b, ours, original);
    }
    t.says();
}

fn neighbourhoods(d: &mut Dice, cases: usize) {
    let mut t = Tally::new("BlockPredictors::outside");
    for (depth, q) in (4..=12).flat_map(|depth| (1..=31).map(move |q| (depth, q))) {
        let ours = |&(depth, q): &(u32, u32)| {
            let (mut dcs, mut qps, mut has, mut a, mut c) = ([1; 3], [0; 2], [true; 2], [1; 7], [1; 7]);
            unsafe { rt_outside(depth, q, &mut dcs, &mut qps, &mut has, &mut a, &mut c) };
            (dcs, qps, has, [a, c])
        };
        let original = |&(depth, q): &(u32, u32)| {
            let p = BlockPredictors::outside(depth, q);
            let has = [p.a_first_column.is_some(), p.c_first_row.is_some()];
            ([p.fa_dc, p.fb_dc, p.fc_dc], [p.qp_a, p.qp_c], has, [[0; 7]; 2])
        };
        t.equals((depth, q), ours, original);
    }
    t.says();

    let mut t = Tally::new("predictors_fine");
    for _ in 0..cases {
        let good = d.flag();
        t.equals(
            neighbours(d, good),
            |(dcs, qps, has, ac)| unsafe { rt_predictors_fine(dcs, qps, has[0], &ac[0], has[1], &ac[1]) },
            neighbours_fine,
        );
    }
    t.says();

    let mut t = Tally::new("intra_levels");
    for _ in 0..cases {
        let (a, b, c) = (!d.rarely(), !d.rarely(), !d.rarely());
        let (q, p, qfs) = (quantiser(d, a), neighbours(d, b), places(d, c));
        let flags = [d.flag(), d.flag(), d.rarely()];
        t.took(
            (qfs, q, flags, p),
            any_block(d),
            |(qfs, q, [chroma, pred, alternate], (dcs, qps, has, ac)), out| unsafe {
                rt_intra_levels(qfs, *chroma, *q, *pred, *alternate, dcs, qps, has[0], &ac[0], has[1], &ac[1], out)
            },
            |(qfs, q, _, p)| {
                let places = difference_fine(qfs[0]) && qfs[1..].iter().all(|&z| level_fine(z));
                first_bad(quantiser_fine(*q), neighbours_fine(p) && places)
            },
            |(qfs, q, [chroma, pred, alternate], p)| {
                let header = levels::Header {
                    quantiser_scale: *q,
                    ac_pred_flag: *pred,
                    alternate_vertical_scan: *alternate,
                };
                levels::levels(*qfs, component(*chroma), header, original(p))
            },
        );
    }
    t.says();
}

// Single values, each within the domain and some around it.
fn values(d: &mut Dice) {
    let mut t = Tally::new("inverse_quant_intra_dc");
    let mut u = Tally::new("inverse_quant_method2_coef");
    for (z, q) in (-2060..=2060).flat_map(|z| (0..=40).map(move |q| (z, q))) {
        for n in 0..4 {
            t.took(
                (z, n & 1 == 1, q, n & 2 == 2),
                d.next() as i32,
                |&(z, chroma, q, short), out| unsafe { rt_inverse_quant_intra_dc(z, chroma, q, short, out) },
                |&(z, _, q, _)| first_bad(quantiser_fine(q), level_fine(z)),
                |&(z, chroma, q, short)| inverse_quant::inverse_quant_intra_dc(z, component(chroma), q, short),
            );
        }
        u.took(
            (z, q),
            d.next() as i32,
            |&(z, q), out| unsafe { rt_inverse_quant_method2_coef(z, q, out) },
            |&(z, q)| first_bad(quantiser_fine(q), level_fine(z)),
            |&(z, q)| inverse_quant::inverse_quant_method2_coef(z, q),
        );
    }
    t.says();
    u.says();

    let mut t = Tally::new("inverse_quant_method1_coef");
    for (z, w) in (-2050..=2050).flat_map(|z| (0..=255).map(move |w| (z, w))) {
        for (q, intra) in (0..=32).flat_map(|q| [(q, false), (q, true)]) {
            t.took(
                (z, w, q, intra),
                z ^ q as i32,
                |&(z, w, q, intra), out| unsafe { rt_inverse_quant_method1_coef(z, w, q, intra, out) },
                |&(z, w, q, _)| first_bad(quantiser_fine(q) && w != 0, level_fine(z)),
                |&(z, w, q, intra)| inverse_quant::inverse_quant_method1_coef(z, w, q, intra),
            );
        }
    }
    t.says();
}

fn blocks(d: &mut Dice, cases: usize) {
    let mut t = Tally::new("matrix_fine");
    for _ in 0..cases {
        let good = d.flag();
        t.equals(matrix(d, good), |w| unsafe { rt_matrix_fine(w) }, matrix_fine);
    }
    t.says();

    let mut tallies = [
        "inverse_quant_method1",
        "inverse_quant_method1_no_mismatch",
        "inverse_quant_method2",
    ]
    .map(Tally::new);
    for _ in 0..cases {
        let (a, b, c, e) = (!d.rarely(), !d.rarely(), !d.rarely(), !d.rarely());
        let (q, depth, w, qf) = (quantiser(d, a), depth(d, b), matrix(d, c), block(d, e));
        let flags = [d.flag(), d.flag(), d.flag()];
        for (n, t) in tallies.iter_mut().enumerate() {
            t.took(
                (qf, w, flags, q, depth),
                any_block(d),
                |(qf, w, [intra, chroma, short], q, depth), out| unsafe {
                    match n {
                        0 => rt_inverse_quant_method1(qf, w, *intra, *chroma, *q, *depth, *short, out),
                        1 => rt_inverse_quant_method1_no_mismatch(qf, w, *intra, *chroma, *q, *depth, *short, out),
                        _ => rt_inverse_quant_method2(qf, *intra, *chroma, *q, *depth, *short, out),
                    }
                },
                |(qf, w, _, q, depth)| {
                    let context = quantiser_fine(*q) && depth_fine(*depth) && (n == 2 || matrix_fine(w));
                    first_bad(context, levels_fine(qf))
                },
                |(qf, w, [intra, chroma, short], q, depth)| {
                    let ctx = InverseQuantContext {
                        macroblock_intra: *intra,
                        component: component(*chroma),
                        quantiser_scale: *q,
                        bits_per_pixel: *depth,
                        short_video_header: *short,
                    };
                    match n {
                        0 => inverse_quant::inverse_quant_method1(qf, w, ctx),
                        1 => inverse_quant::inverse_quant_method1_no_mismatch(qf, w, ctx),
                        _ => inverse_quant::inverse_quant_method2(qf, ctx),
                    }
                },
            );
        }
    }
    tallies.iter().for_each(Tally::says);
}

pub fn main() {
    let cases: usize = std::env::args().nth(1).map_or(2_000_000, |n| n.parse().expect("a number of cases"));
    let d = &mut Dice(1);
    scans(d, cases);
    prediction(d, cases);
    neighbourhoods(d, cases);
    values(d);
    blocks(d, cases);
}
