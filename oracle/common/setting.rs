// What a block is decoded in: the context, the neighbours and the matrix; and the original's block reading.
use super::dice::Dice;
use super::numbers::{dc_fine, depth_fine, level_fine, quantiser_fine};
use crate::bitreader::BitReader;
use crate::block::{self, BlockAssemblyError, BlockPredictors, IntraBlockDecode, MacroblockTextureContext};
use crate::idct::HalfIntegerRounding;
use crate::texture;

pub type Seven = [i32; 7];
pub type Block = [[i32; 8]; 8];
pub type Matrix = [[u8; 8]; 8];

#[derive(Clone, Copy, PartialEq)]
pub struct Setting {
    pub quantiser_scale: u32,
    pub bits_per_pixel: u32,
    // quant_type, ac_pred_flag, alternate_vertical_scan, intra_mismatch_exempt, to even
    pub flags: [bool; 5],
    pub dcs: [i32; 3],
    pub qps: [u32; 2],
    pub has: [bool; 2],
    pub column: Seven,
    pub row: Seven,
    pub matrix: Matrix,
}

impl std::fmt::Debug for Setting {
    fn fmt(&self, f: &mut std::fmt::Formatter) -> std::fmt::Result {
        let (q, depth, flags) = (self.quantiser_scale, self.bits_per_pixel, self.flags);
        write!(
            f,
            "quantiser {q} depth {depth} flags {flags:?} DCs {:?} quantisers {:?} ",
            self.dcs, self.qps
        )?;
        write!(
            f,
            "present {:?} column {:?} row {:?} {}",
            self.has,
            self.column,
            self.row,
            matrix_told(&self.matrix)
        )
    }
}

pub fn matrix_told(w: &Matrix) -> String {
    match w {
        _ if w.iter().flatten().all(|n| *n == w[0][0]) => format!("matrix all {}", w[0][0]),
        _ if *w == block::DEFAULT_INTRA_QUANT_MATRIX => "matrix by default".to_string(),
        _ => format!("matrix {w:?}"),
    }
}

// Seven levels, small or any.
fn seven(dice: &mut Dice) -> Seven {
    let top = dice.of(&[0, 3, 40, 2047]);
    std::array::from_fn(|_| dice.within(-top - i32::from(top == 2047), top))
}

pub fn matrix(dice: &mut Dice) -> Matrix {
    if dice.below(3) == 0 {
        return block::DEFAULT_INTRA_QUANT_MATRIX;
    }
    let top = dice.of(&[1, 16, 64, 255]);
    std::array::from_fn(|_| std::array::from_fn(|_| 1 + dice.below(top) as u8))
}

impl Setting {
    // One that is fine.
    pub fn drawn(dice: &mut Dice) -> Setting {
        let depth = 4 + dice.below(9) as u32;
        let middle = 1i32 << (depth + 2);
        let span = dice.below(4);
        let dc = |dice: &mut Dice| match span {
            0 => middle,
            1 => (middle + dice.within(-64, 64)).clamp(0, 2 * middle - 1),
            2 => dice.within(0, 2 * middle),
            _ => dice.within(-65536, 65536),
        };
        let mut dcs = [dc(dice), dc(dice), dc(dice)];
        match dice.below(8) {
            // gradients that are equal, or differ by 1
            0 => {
                let step = dcs[0] - dcs[1];
                let near = dcs[1] + if dice.flag() { step } else { -step } + dice.within(-1, 1);
                dcs[2] = near.clamp(-65536, 65536);
            }
            1 => dcs[dice.below(3)] = middle,
            _ => (),
        }
        let quantiser_scale = 1 + dice.below(31) as u32;
        let qps = [0, 1].map(|_| match dice.below(4) {
            0 => quantiser_scale,
            _ => 1 + dice.below(31) as u32,
        });
        Setting {
            quantiser_scale,
            bits_per_pixel: depth,
            matrix: matrix(dice),
            flags: std::array::from_fn(|k| if k == 2 { dice.below(4) == 0 } else { dice.flag() }),
            dcs,
            qps,
            has: [dice.below(4) != 0, dice.below(4) != 0],
            column: seven(dice),
            row: seven(dice),
        }
    }

    // Neighbours near the middle: samples inside their range, and halves.
    pub fn grey(dice: &mut Dice) -> Setting {
        let mut s = Setting::drawn(dice);
        let middle = 4 << s.bits_per_pixel;
        s.flags[1] = s.flags[1] && dice.below(4) == 0;
        s.dcs.iter_mut().for_each(|z| *z = middle + dice.within(-middle / 2, middle / 2));
        s
    }

    // One thing of it bad.
    pub fn spoil(&mut self, dice: &mut Dice) {
        match dice.below(7) {
            0 => self.quantiser_scale = dice.outside(1, 31) as u32,
            1 => self.bits_per_pixel = dice.outside(4, 12) as u32,
            2 => self.matrix[dice.below(8)][dice.below(8)] = 0,
            3 => self.dcs[dice.below(3)] = dice.outside(-65536, 65536),
            4 => self.qps[dice.below(2)] = dice.outside(1, 31) as u32,
            5 => self.column[dice.below(7)] = dice.outside(-2048, 2047),
            _ => self.row[dice.below(7)] = dice.outside(-2048, 2047),
        }
    }

    // By document 01's ranges: 12, 13, or 0.
    pub fn state(&self) -> u32 {
        if !context_fine(self.quantiser_scale, self.bits_per_pixel, self.flags[0], &self.matrix) {
            return 12;
        }
        let column = !self.has[0] || self.column.iter().all(|&z| level_fine(z));
        let row = !self.has[1] || self.row.iter().all(|&z| level_fine(z));
        if !self.dcs.iter().all(|&z| dc_fine(z)) || !self.qps.iter().all(|&q| quantiser_fine(q)) || !column || !row {
            return 13;
        }
        0
    }

    pub fn context(&self) -> MacroblockTextureContext {
        MacroblockTextureContext {
            quantiser_scale: self.quantiser_scale,
            bits_per_pixel: self.bits_per_pixel,
            quant_type: self.flags[0],
            ac_pred_flag: self.flags[1],
            alternate_vertical_scan: self.flags[2],
            intra_mismatch_exempt: self.flags[3],
            idct_rounding: rule(self.flags[4]),
        }
    }

    pub fn predictors(&self) -> BlockPredictors {
        BlockPredictors {
            fa_dc: self.dcs[0],
            fb_dc: self.dcs[1],
            fc_dc: self.dcs[2],
            qp_a: self.qps[0],
            qp_c: self.qps[1],
            a_first_column: self.has[0].then_some(self.column),
            c_first_row: self.has[1].then_some(self.row),
        }
    }

    // Each with one thing made plain.
    pub fn simpler(&self) -> Vec<Setting> {
        let mut all = Vec::new();
        let mut with = |change: &dyn Fn(&mut Setting)| {
            let mut s = *self;
            change(&mut s);
            if s != *self {
                all.push(s);
            }
        };
        simpler_matrices(&self.matrix).iter().for_each(|w| with(&|s| s.matrix = *w));
        with(&|s| s.quantiser_scale = 1);
        with(&|s| s.bits_per_pixel = 8);
        (0..5).for_each(|k| with(&|s| s.flags[k] = false));
        with(&|s| s.dcs = [1024; 3]);
        (0..3).for_each(|k| with(&|s| s.dcs[k] = 1024));
        (0..2).for_each(|k| with(&|s| s.qps[k] = 1));
        (0..2).for_each(|k| with(&|s| s.has[k] = false));
        with(&|s| s.column = [0; 7]);
        with(&|s| s.row = [0; 7]);
        (0..7).for_each(|k| with(&|s| s.column[k] = 0));
        (0..7).for_each(|k| with(&|s| s.row[k] = 0));
        (0..7).for_each(|k| with(&|s| s.column[k] /= 2));
        (0..7).for_each(|k| with(&|s| s.row[k] /= 2));
        all
    }
}

// All 16, or one all over, or the default one.
pub fn simpler_matrices(w: &Matrix) -> Vec<Matrix> {
    let (even, default) = ([[16; 8]; 8], block::DEFAULT_INTRA_QUANT_MATRIX);
    match *w {
        w if w == even => vec![],
        w if w == [[w[0][0]; 8]; 8] => vec![even],
        w if w == default => vec![even, [[w[1][0]; 8]; 8]],
        w => vec![even, [[w[0][0]; 8]; 8], [[w[1][0]; 8]; 8], default],
    }
}

pub fn context_fine(quantiser_scale: u32, bits_per_pixel: u32, quant_type: bool, matrix: &Matrix) -> bool {
    quantiser_fine(quantiser_scale) && depth_fine(bits_per_pixel) && !(quant_type && matrix.iter().flatten().any(|&w| w == 0))
}

pub fn rule(to_even: bool) -> HalfIntegerRounding {
    if to_even {
        HalfIntegerRounding::ToEven
    } else {
        HalfIntegerRounding::AwayFromZero
    }
}

// The original's block reading: `decode_intra_block_full`, or, for reversible events, its own two steps.
pub fn read(
    br: &mut BitReader,
    i: usize,
    [coded, use_intra_dc_vlc, reversible]: [bool; 3],
    context: MacroblockTextureContext,
    predictors: BlockPredictors,
    matrix: &Matrix,
) -> Result<IntraBlockDecode, BlockAssemblyError> {
    if !reversible {
        return block::decode_intra_block_full(br, i, coded, use_intra_dc_vlc, context, predictors, matrix);
    }
    let dc = if use_intra_dc_vlc {
        Some(texture::decode_intra_dc(br, block::block_component(i))?.differential)
    } else {
        None
    };
    block::decode_intra_block_tail(br, coded, dc, true, i, context, predictors, matrix)
}
