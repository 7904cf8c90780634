// A picture layer from document 01 over the original's block reading. It knows blocks by their place on three grids, luma, Cb and Cr,
// and keeps every block of the picture.
use crate::bitreader::BitReader;
use crate::block::{BlockAssemblyError, BlockPredictors, MacroblockTextureContext};
use crate::common::header::{Header, lent, put};
use crate::common::header_call::{self, Fields, UNREAD};
use crate::common::numbers::{data_fine, dc_fine, depth_fine, level_fine};
use crate::common::setting::{self, Block, Matrix, Seven, context_fine, rule};
use crate::common::stopped;

// What one call brings.
#[derive(Clone, Debug, PartialEq)]
pub struct Step {
    // its header stands in its bits, before its blocks: then `header` and ac_pred_flag are not looked at, and the quantiser is the one
    // before the header
    pub in_bits: bool,
    pub header: Header,
    pub quantiser_scale: u32,
    // ac_pred_flag, alternate_vertical_scan, intra_mismatch_exempt, to even, use_intra_dc_vlc, reversible_vlc
    pub flags: [bool; 6],
    pub matrix: Matrix,
    pub data: Vec<u8>,
    pub at: usize,
    // how many samples are lent, and how many numbers of the store at most
    pub room: usize,
    pub stored: usize,
}

// A picture: width, height, depth and number accepted, and its method.
#[derive(Clone, Copy, Debug, PartialEq)]
pub struct Picture {
    pub numbers: [u32; 4],
    pub method: bool,
}

// A number (0: accepted), its figure, the number of bits, the position after the call, the picture after it, the samples, and what is
// read of a header in the bits.
#[derive(Clone, Debug, PartialEq)]
pub struct Answer {
    pub number: u32,
    pub figure: u32,
    pub bits: usize,
    pub position: usize,
    pub picture: Picture,
    pub samples: Vec<i32>,
    pub fields: Fields,
}

// 11, 12 or 0.
pub fn opening(width: u32, height: u32, depth: u32) -> u32 {
    match () {
        _ if !(1..=45).contains(&width) || !(1..=36).contains(&height) => 11,
        _ if !depth_fine(depth) => 12,
        _ => 0,
    }
}

// Before the call.
pub fn before(picture: Picture, s: &Step) -> Answer {
    Answer {
        number: 0,
        figure: 0,
        bits: 999_999,
        position: s.at,
        picture,
        samples: lent(s.room),
        fields: UNREAD,
    }
}

// What later blocks take of a block.
#[derive(Clone, Copy, Debug, PartialEq)]
pub struct Kept {
    pub dc: i32,
    pub row: Seven,
    pub column: Seven,
    pub quantiser: i32,
}

impl Kept {
    fn of(dc: i32, qf: &Block, quantiser: u32) -> Kept {
        Kept {
            dc,
            row: std::array::from_fn(|u| qf[0][u + 1]),
            column: std::array::from_fn(|v| qf[v + 1][0]),
            quantiser: quantiser as i32,
        }
    }
}

// A grid (0 luma, 1 Cb, 2 Cr), column and row.
pub type Place = (usize, usize, usize);

// Of block i of the macroblock in this column and row.
pub fn place(i: usize, column: usize, row: usize) -> Place {
    match i {
        0..4 => (0, 2 * column + i % 2, 2 * row + i / 2),
        _ => (i - 3, column, row),
    }
}

// The place so far to the left and above; outside the picture there is none.
fn beside((grid, x, y): Place, left: usize, above: usize) -> Option<Place> {
    (x >= left && y >= above).then(|| (grid, x - left, y - above))
}

fn predictors(a: Option<Kept>, b: Option<Kept>, c: Option<Kept>, depth: u32, quantiser: u32) -> BlockPredictors {
    let dc = |k: Option<Kept>| k.map_or(1 << (depth + 2), |k| k.dc);
    let scale = |k: Option<Kept>| k.map_or(quantiser, |k| k.quantiser as u32);
    BlockPredictors {
        fa_dc: dc(a),
        fb_dc: dc(b),
        fc_dc: dc(c),
        qp_a: scale(a),
        qp_c: scale(c),
        a_first_column: a.map(|k| k.column),
        c_first_row: c.map(|k| k.row),
    }
}

// 11, 12, 14, 15, 13, 9, 10, in this order; 9 and 10 only of a header that is handed in. `kept` gives an earlier macroblock's block.
fn state(p: Picture, s: &Step, stored: usize, kept: &dyn Fn(Place) -> Kept) -> u32 {
    let [width, height, depth, accepted] = p.numbers;
    if !(1..=45).contains(&width) || !(1..=36).contains(&height) || !data_fine(&s.data, s.at) {
        return 11;
    }
    if !context_fine(s.quantiser_scale, depth, p.method, &s.matrix) {
        return 12;
    }
    if s.room < 384 || stored < 192 * width as usize {
        return 14;
    }
    if accepted >= width * height {
        return 15;
    }
    let (column, row) = ((accepted % width) as usize, (accepted / width) as usize);
    let own: Vec<Place> = (0..6).map(|i| place(i, column, row)).collect();
    for here in &own {
        let of = |left, above| beside(*here, left, above).filter(|p| !own.contains(p)).map(kept);
        let (a, b, c) = (of(1, 0), of(1, 1), of(0, 1));
        let dcs = [a, b, c].iter().flatten().all(|k| dc_fine(k.dc));
        let scales = [a, c].iter().flatten().all(|k| (1..=31).contains(&k.quantiser));
        let column = a.is_none_or(|k| k.column.iter().all(|&z| level_fine(z)));
        let row = c.is_none_or(|k| k.row.iter().all(|&z| level_fine(z)));
        if !(dcs && scales && column && row) {
            return 13;
        }
    }
    if s.in_bits { 0 } else { s.header.state() }
}

// The macroblock that is due: what the call must give, and if it is accepted what is kept of its six blocks.
pub fn due(p: Picture, s: &Step, stored: usize, kept: &dyn Fn(Place) -> Kept) -> (Answer, Option<[(Place, Kept); 6]>) {
    let mut a = before(p, s);
    a.number = state(p, s, stored, kept);
    if a.number != 0 {
        return (a, None);
    }
    let mut br = BitReader::new(&s.data);
    br.skip_bits(s.at).unwrap();
    let mut blocks = s.clone();
    let mut fields = UNREAD;
    if s.in_bits {
        match header_call::read(&mut br, s.quantiser_scale) {
            Ok(read) => fields = read,
            Err(e) => {
                (a.number, a.figure) = stopped::of_header(e, &br);
                return (a, None);
            }
        }
        blocks.header = fields.header;
        fields.put(&mut blocks.quantiser_scale, &mut blocks.flags[0]);
    }
    match six(p, &blocks, &mut br, kept) {
        Ok(six) => {
            a.fields = fields;
            six.iter().enumerate().for_each(|(i, one)| put(&mut a.samples, i, &one.1));
            a.position = br.bit_position();
            a.bits = a.position - s.at;
            a.picture.numbers[3] += 1;
            (a, Some(std::array::from_fn(|i| six[i].0)))
        }
        Err((e, i)) => {
            (a.number, a.figure) = stopped::of_block(e, &br, i, s.flags[5]);
            (a, None)
        }
    }
}

// Six blocks, or the refusal in one.
type Six = Result<Vec<((Place, Kept), Block)>, (BlockAssemblyError, usize)>;

// Block after block, each with its own neighbours.
fn six(p: Picture, s: &Step, br: &mut BitReader, kept: &dyn Fn(Place) -> Kept) -> Six {
    let [width, _, depth, accepted] = p.numbers;
    let (column, row) = ((accepted % width) as usize, (accepted / width) as usize);
    let [
        ac_pred_flag,
        alternate_vertical_scan,
        intra_mismatch_exempt,
        to_even,
        dc_coded,
        reversible,
    ] = s.flags;
    let context = MacroblockTextureContext {
        quantiser_scale: s.quantiser_scale,
        bits_per_pixel: depth,
        quant_type: p.method,
        ac_pred_flag,
        alternate_vertical_scan,
        intra_mismatch_exempt,
        idct_rounding: rule(to_even),
    };
    let mut made: Vec<((Place, Kept), Block)> = Vec::new();
    for i in 0..6 {
        let here = place(i, column, row);
        let of = |left, above| {
            let there = beside(here, left, above)?;
            let own = made.iter().find(|one| one.0.0 == there).map(|one| one.0.1);
            Some(own.unwrap_or_else(|| kept(there)))
        };
        let around = predictors(of(1, 0), of(1, 1), of(0, 1), depth, s.quantiser_scale);
        let reading = [s.header.coded(i), dc_coded, reversible];
        let one = setting::read(br, i, reading, context, around, &s.matrix).map_err(|e| (e, i))?;
        made.push(((here, Kept::of(one.dc, &one.qf, s.quantiser_scale)), one.spatial));
    }
    Ok(made)
}

// A picture with all of its blocks.
#[derive(Clone)]
pub struct Layer {
    pub picture: Picture,
    grids: [Vec<Option<Kept>>; 3],
}

impl Layer {
    // of a picture just opened
    pub fn new(picture: Picture) -> Layer {
        let macroblocks = (picture.numbers[0] * picture.numbers[1]) as usize;
        Layer {
            picture,
            grids: [4, 1, 1].map(|n| vec![None; n * macroblocks]),
        }
    }

    fn index(&self, (grid, x, y): Place) -> usize {
        let width = self.picture.numbers[0] as usize;
        if grid == 0 { 2 * width * y + x } else { width * y + x }
    }

    pub fn call(&mut self, s: &Step, stored: usize) -> Answer {
        let kept = |p: Place| self.grids[p.0][self.index(p)].expect("a block that was decoded");
        let (answer, six) = due(self.picture, s, stored, &kept);
        for (place, block) in six.into_iter().flatten() {
            let index = self.index(place);
            self.grids[place.0][index] = Some(block);
        }
        self.picture = answer.picture;
        answer
    }
}
