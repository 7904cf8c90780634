// A lean picture layer over the original's block reading: what later blocks take of each block, in three grids with a border.
use crate::bitreader::BitReader;
use crate::block::{self, BlockPredictors, MacroblockTextureContext};
use crate::common::header::Header;

#[derive(Clone, Copy)]
struct Kept {
    dc: i32,
    quantiser: u32,
    // the first row and the first column of its levels; none in the border
    row: Option<[i32; 7]>,
    column: Option<[i32; 7]>,
}

pub struct Layer {
    width: usize,
    // luma, Cb, Cr: the row of blocks above and the present one; of luma two rows are present
    grids: [Vec<Kept>; 3],
}

impl Layer {
    pub fn new(width: usize, depth: u32) -> Layer {
        let outside = Kept {
            dc: 4 << depth,
            quantiser: 0,
            row: None,
            column: None,
        };
        Layer {
            width,
            grids: [3 * (2 * width + 1), 2 * (width + 1), 2 * (width + 1)].map(|n| vec![outside; n]),
        }
    }

    // Macroblock n of the picture, row by row.
    pub fn decode(&mut self, br: &mut BitReader, n: usize, header: &Header, context: MacroblockTextureContext, samples: &mut [i32; 384]) {
        let column = n % self.width;
        if column == 0 && n > 0 {
            self.next_row();
        }
        for i in 0..6 {
            let (grid, across, x, y) = match i {
                0..4 => (0, 2 * self.width + 1, 2 * column + i % 2, i / 2),
                _ => (i - 3, self.width + 1, column, 0),
            };
            let grid = &mut self.grids[grid];
            let at = across * (y + 1) + x + 1;
            let around = predictors(&grid[at - 1], &grid[at - across - 1], &grid[at - across], context.quantiser_scale);
            let matrix = &block::DEFAULT_INTRA_QUANT_MATRIX;
            let one = block::decode_intra_block_full(br, i, header.coded(i), true, context, around, matrix).expect("a block");
            grid[at] = Kept {
                dc: one.dc,
                quantiser: context.quantiser_scale,
                row: Some(std::array::from_fn(|u| one.qf[0][u + 1])),
                column: Some(std::array::from_fn(|v| one.qf[v + 1][0])),
            };
            put(samples, i, &one.spatial);
        }
    }

    // The last row of each grid becomes the row above.
    fn next_row(&mut self) {
        for grid in &mut self.grids {
            let across = if grid.len() == 3 * (2 * self.width + 1) {
                2 * self.width + 1
            } else {
                self.width + 1
            };
            let last = grid.len() - across;
            grid.copy_within(last.., 0);
        }
    }
}

fn predictors(a: &Kept, b: &Kept, c: &Kept, quantiser: u32) -> BlockPredictors {
    let scale = |k: &Kept| if k.quantiser == 0 { quantiser } else { k.quantiser };
    BlockPredictors {
        fa_dc: a.dc,
        fb_dc: b.dc,
        fc_dc: c.dc,
        qp_a: scale(a),
        qp_c: scale(c),
        a_first_column: a.column,
        c_first_row: c.row,
    }
}

// Block i's samples in their places.
fn put(samples: &mut [i32; 384], i: usize, spatial: &[[i32; 8]; 8]) {
    let (from, across) = if i < 4 {
        (128 * (i / 2) + 8 * (i % 2), 16)
    } else {
        (256 + 64 * (i - 4), 8)
    };
    for (y, row) in spatial.iter().enumerate() {
        samples[from + across * y..from + across * y + 8].copy_from_slice(row);
    }
}
