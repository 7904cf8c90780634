// The header record of a macroblock, and the lent samples.
use super::dice::Dice;
use super::setting::Block;
use crate::macroblock::{DerivedMbType, MacroblockHeader};

#[derive(Clone, Copy, Debug, PartialEq)]
pub struct Header {
    pub not_coded: bool,
    // by its place in Table B.1, the missing one first
    pub mb_type: u32,
    pub cbpc: u8,
    pub ac_pred_flag: bool,
    pub cbpy: u8,
}

impl Header {
    // An intra one with this pattern, blocks 0 to 5 from the top bit of six down. The other bits are any.
    pub fn intra(dice: &mut Dice, pattern: usize) -> Header {
        Header {
            not_coded: false,
            mb_type: 4 + dice.below(2) as u32,
            cbpc: (dice.next() as u8) << 2 | (pattern & 3) as u8,
            ac_pred_flag: dice.flag(),
            cbpy: (dice.next() as u8) << 4 | (pattern >> 2) as u8,
        }
    }

    // 9 or 10.
    pub fn spoil(&mut self, dice: &mut Dice) {
        match dice.below(3) {
            0 => self.not_coded = true,
            1 => self.mb_type = dice.below(4) as u32,
            _ => {
                self.not_coded = dice.flag();
                self.mb_type = dice.below(6) as u32;
            }
        }
    }

    pub fn state(&self) -> u32 {
        match (self.not_coded, self.mb_type) {
            (true, _) => 9,
            (false, 4 | 5) => 0,
            (false, _) => 10,
        }
    }

    pub fn coded(&self, i: usize) -> bool {
        let pattern = (self.cbpy & 15) << 2 | self.cbpc & 3;
        pattern >> (5 - i) & 1 == 1
    }

    pub fn original(&self) -> MacroblockHeader {
        let kinds = [
            None,
            Some(DerivedMbType::Inter),
            Some(DerivedMbType::InterQ),
            Some(DerivedMbType::Inter4V),
            Some(DerivedMbType::Intra),
            Some(DerivedMbType::IntraQ),
        ];
        MacroblockHeader {
            not_coded: self.not_coded,
            mb_type: kinds[self.mb_type as usize],
            cbpc: self.cbpc,
            ac_pred_flag: self.ac_pred_flag,
            cbpy: self.cbpy,
            dquant_delta: None,
            interlaced_info: None,
            mcsel: None,
        }
    }

    pub fn of(h: &MacroblockHeader) -> Header {
        Header {
            not_coded: h.not_coded,
            mb_type: h.mb_type.map_or(0, |t| u32::from(t.as_u8()) + 1),
            cbpc: h.cbpc,
            ac_pred_flag: h.ac_pred_flag,
            cbpy: h.cbpy,
        }
    }

    pub fn simpler(&self) -> Vec<Header> {
        let mut all = Vec::new();
        let mut with = |h: Header| {
            if h != *self {
                all.push(h);
            }
        };
        with(Header { not_coded: false, ..*self });
        with(Header { mb_type: 4, ..*self });
        with(Header {
            ac_pred_flag: false,
            ..*self
        });
        (0..8).for_each(|k| {
            with(Header {
                cbpy: self.cbpy & !(128 >> k),
                ..*self
            })
        });
        (0..8).for_each(|k| {
            with(Header {
                cbpc: self.cbpc & !(128 >> k),
                ..*self
            })
        });
        all
    }
}

// Before a call: numbers that no macroblock gives.
pub fn lent(room: usize) -> Vec<i32> {
    (0..room as i32).map(|k| 1_000_000 + k).collect()
}

// What differs between them.
pub fn samples_told(ours: &[i32], due: &[i32]) -> String {
    let all: Vec<String> = (0..ours.len())
        .filter(|&k| ours[k] != due[k])
        .map(|k| format!("{k}: {} for {}", ours[k], due[k]))
        .collect();
    format!("  {} samples differ {:?}", all.len(), &all[..all.len().min(8)])
}

// Where sample (x, y) of block i lies among 384.
pub fn place(i: usize, x: usize, y: usize) -> usize {
    match i {
        0..4 => 16 * (8 * (i / 2) + y) + 8 * (i % 2) + x,
        _ => 256 + 64 * (i - 4) + 8 * y + x,
    }
}

pub fn put(samples: &mut [i32], i: usize, block: &Block) {
    for y in 0..8 {
        for x in 0..8 {
            samples[place(i, x, y)] = block[y][x];
        }
    }
}
