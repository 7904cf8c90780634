// Headers, written out of the tables of the standard for an I-VOP.
use crate::common::bits::Bits;
use crate::common::dice::Dice;

// Type, cbpc, ac_pred_flag, cbpy, what dquant changes the quantiser by, and the quantiser after it.
pub type Fields = [i32; 6];

pub const STUFFING: &str = "000000001";

// mcbpc of types 4 and 5, by cbpc; cbpy by its value; dquant, and what it changes the quantiser by.
const MCBPC: [[&str; 4]; 2] = [["1", "001", "010", "011"], ["0001", "000001", "000010", "000011"]];
const CBPY: [&str; 16] = [
    "0011", "00101", "00100", "1001", "00011", "0111", "000010", "1011", "00010", "000011", "0101", "1010", "0100", "1000", "0110", "11",
];
const DQUANT: [(&str, i32); 4] = [("00", -1), ("01", -2), ("10", 1), ("11", 2)];

// Bits written out; blanks part them.
pub fn bits_of(text: &str) -> Bits {
    text.bytes().filter(|b| *b != b' ').map(|b| b == b'1').collect()
}

// Bits, what they say, and how long each part is: a code, or a field of fixed length.
#[derive(Default)]
pub struct Header {
    pub bits: Bits,
    pub fields: Fields,
    parts: Vec<(usize, bool)>,
}

impl Header {
    // Of this type and pattern, with the quantiser before it; stuffing before it in one out of four.
    pub fn new(dice: &mut Dice, mb_type: u32, cbpc: u8, cbpy: u8, quantiser: u32) -> Header {
        let mut one = Header::default();
        let (changes, chroma, luma) = (mb_type == 5, usize::from(cbpc & 3), usize::from(cbpy & 15));
        let stuffing = dice.below(4);
        for _ in 0..dice.of(&[0, 0, 0, 1 + stuffing]) {
            one.code(STUFFING);
        }
        let flag = dice.below(2);
        one.code(MCBPC[usize::from(changes)][chroma]);
        one.field(["0", "1"][flag]);
        one.code(CBPY[luma]);
        let (code, change) = if changes { dice.of(&DQUANT) } else { ("", 0) };
        one.field(code);
        let after = (quantiser as i32 + change).clamp(1, 31);
        one.fields = [mb_type as i32, chroma as i32, flag as i32, luma as i32, change, after];
        one
    }

    fn code(&mut self, text: &str) {
        self.put(text, true);
    }

    fn field(&mut self, text: &str) {
        self.put(text, false);
    }

    fn put(&mut self, text: &str, code: bool) {
        self.bits.extend(bits_of(text));
        self.parts.push((text.len(), code));
    }

    // The number that refuses the first so many of its bits: 17 inside a code, else 1.
    pub fn cut_due(&self, mut n: usize) -> u32 {
        for &(len, code) in &self.parts {
            if n < len {
                return if code && n > 0 { 17 } else { 1 };
            }
            n -= len;
        }
        0
    }
}
