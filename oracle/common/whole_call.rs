// One macroblock alone with its header in its bits: the call, and what it must give.
use super::header_call;
use super::heading::PLAIN;
use super::macroblock_call::{self, Answer};
use super::setting::Setting;
use super::stopped;
use crate::bitreader::BitReader;

#[derive(Clone, Copy, Debug)]
pub struct Call {
    // use_intra_dc_vlc, reversible_vlc
    pub reading: [bool; 2],
    // its quantiser is the one before the header, and its ac_pred_flag is not looked at
    pub setting: Setting,
    // how many samples are lent
    pub room: usize,
}

impl Call {
    // The call of its blocks, once the header is read.
    fn after(&self, fields: &header_call::Fields) -> macroblock_call::Call {
        let mut setting = self.setting;
        fields.put(&mut setting.quantiser_scale, &mut setting.flags[1]);
        macroblock_call::Call {
            header: fields.header,
            reading: self.reading,
            setting,
            room: self.room,
        }
    }

    // 11, 12, 13, 14, in this order.
    fn state(&self, data: &[u8], at: usize) -> u32 {
        let one = macroblock_call::Call {
            header: PLAIN.header,
            reading: self.reading,
            setting: self.setting,
            room: self.room,
        };
        one.state(data, at)
    }

    // The header, then the blocks, with 17 where it is due.
    pub fn due(&self, data: &[u8], at: usize) -> Answer {
        let mut a = Answer::before(at, self.room);
        a.number = self.state(data, at);
        if a.number != 0 {
            return a;
        }
        let mut br = BitReader::new(data);
        br.skip_bits(at).unwrap();
        let fields = match header_call::read(&mut br, self.setting.quantiser_scale) {
            Ok(fields) => fields,
            Err(e) => {
                (a.number, a.figure) = stopped::of_header(e, &br);
                return a;
            }
        };
        let blocks = self.after(&fields).due(data, br.bit_position());
        if blocks.number != 0 {
            (a.number, a.figure) = (blocks.number, blocks.figure);
            return a;
        }
        Answer {
            bits: blocks.position - at,
            fields,
            ..blocks
        }
    }
}
