// A header out of bits: the call, and what it must give.
use super::header::Header;
use super::numbers::{data_fine, quantiser_fine};
use super::stopped;
use crate::bitreader::BitReader;
use crate::macroblock::{self, MacroblockParseError};
use crate::vol::{SpriteEnable, VolHeader};
use crate::vop::VopCodingType;

// What is read of a header: its record, what dquant changes the quantiser by (0 where there is none), and the quantiser after it.
#[derive(Clone, Copy, Debug, PartialEq)]
pub struct Fields {
    pub header: Header,
    pub dquant_delta: i32,
    pub quantiser_scale: u32,
}

// Lent for it: what no header says.
pub const UNREAD: Fields = Fields {
    header: Header {
        not_coded: true,
        mb_type: 999_999,
        cbpc: 0xee,
        ac_pred_flag: true,
        cbpy: 0xee,
    },
    dquant_delta: 999_999,
    quantiser_scale: 999_999,
};

// With the quantiser before the header.
#[derive(Clone, Copy, Debug)]
pub struct Call {
    pub quantiser_scale: u32,
}

// A number (0: accepted), its figure, the position after the call, and what is read.
#[derive(Clone, Copy, Debug, PartialEq)]
pub struct Answer {
    pub number: u32,
    pub figure: u32,
    pub position: usize,
    pub fields: Fields,
}

// Before the call.
pub fn lent(at: usize) -> Answer {
    Answer {
        number: 0,
        figure: 0,
        position: at,
        fields: UNREAD,
    }
}

// After so much of a change.
pub fn limited(quantiser_scale: u32, dquant_delta: i32) -> u32 {
    (quantiser_scale as i32 + dquant_delta).clamp(1, 31) as u32
}

// The original's reading, for an I-VOP that is rectangular and not interlaced; it does not work out the quantiser.
pub fn read(br: &mut BitReader, quantiser_scale: u32) -> Result<Fields, MacroblockParseError> {
    let vol = VolHeader {
        video_object_layer_shape: 0,
        sprite_enable: SpriteEnable::NotUsed,
        interlaced: false,
        intra_quant_mat: None,
        nonintra_quant_mat: None,
    };
    let h = macroblock::parse_macroblock_header(br, VopCodingType::I, &vol)?;
    let dquant_delta = h.dquant_delta.map_or(0, i32::from);
    Ok(Fields {
        header: Header::of(&h),
        dquant_delta,
        quantiser_scale: limited(quantiser_scale, dquant_delta),
    })
}

impl Fields {
    // In a message, if it was read.
    pub fn told(&self) -> String {
        if *self == UNREAD { String::new() } else { format!(" {self:?}") }
    }

    // What the blocks are read with: the quantiser after the header, and its flag.
    pub fn put(&self, quantiser_scale: &mut u32, ac_pred_flag: &mut bool) {
        *quantiser_scale = self.quantiser_scale;
        *ac_pred_flag = self.header.ac_pred_flag;
    }
}

impl Call {
    // 11, 12, or what the original gives, with 17 where it is due.
    pub fn due(&self, data: &[u8], at: usize) -> Answer {
        let mut a = lent(at);
        if !data_fine(data, at) {
            a.number = 11;
            return a;
        }
        if !quantiser_fine(self.quantiser_scale) {
            a.number = 12;
            return a;
        }
        let mut br = BitReader::new(data);
        br.skip_bits(at).unwrap();
        match read(&mut br, self.quantiser_scale) {
            Ok(fields) => {
                a.position = br.bit_position();
                a.fields = fields;
            }
            Err(e) => (a.number, a.figure) = stopped::of_header(e, &br),
        }
        a
    }
}
