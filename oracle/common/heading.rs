// A header as it is written in front of a macroblock, out of the original's tables and without its reader; and what was among those read.
use super::bits::{Bits, bits_from, push};
use super::dice::Dice;
use super::header::Header;
use super::header_call::{Fields, limited};
use crate::macroblock::{CBPY_4, MCBPC_I};

pub const STUFFING: (u64, usize) = (0b000000001, 9);

// Table 6-32.
const DELTAS: [i32; 4] = [-1, -2, 1, 2];

#[derive(Clone, Copy, Debug)]
pub struct Heading {
    // how many stuffing codes stand before it
    pub stuffing: usize,
    pub header: Header,
    // its two bits, where the type has them
    pub dquant: usize,
}

// No block coded, no flag and no change.
pub const PLAIN: Heading = Heading {
    stuffing: 0,
    header: Header {
        not_coded: false,
        mb_type: 4,
        cbpc: 0,
        ac_pred_flag: false,
        cbpy: 0,
    },
    dquant: 0,
};

impl Heading {
    // With this intra header, of whose patterns only the last four and two bits are written.
    pub fn of(header: Header) -> Heading {
        let (cbpy, cbpc) = (header.cbpy & 15, header.cbpc & 3);
        Heading {
            stuffing: 0,
            header: Header { cbpy, cbpc, ..header },
            dquant: 0,
        }
    }

    // The same with up to three stuffing codes, and any change where the type has one.
    pub fn drawn(dice: &mut Dice, header: Header) -> Heading {
        Heading {
            stuffing: if dice.below(3) == 0 { dice.below(4) } else { 0 },
            dquant: dice.below(4),
            ..Heading::of(header)
        }
    }

    // Every one without stuffing.
    pub fn every() -> Vec<Heading> {
        let mut all = Vec::new();
        for (pattern, ac_pred_flag) in (0..64).flat_map(|pattern| [(pattern, false), (pattern, true)]) {
            let of = |mb_type, dquant| Heading {
                stuffing: 0,
                header: Header {
                    not_coded: false,
                    mb_type,
                    cbpc: pattern & 3,
                    ac_pred_flag,
                    cbpy: pattern >> 2,
                },
                dquant,
            };
            all.push(of(4, 0));
            all.extend((0..4).map(|dquant| of(5, dquant)));
        }
        all
    }

    pub fn put(&self, bits: &mut Bits) {
        (0..self.stuffing).for_each(|_| push(bits, STUFFING.0, STUFFING.1));
        let h = &self.header;
        let row = MCBPC_I.iter().find(|r| u32::from(r.2) + 1 == h.mb_type && r.3 == h.cbpc).unwrap();
        push(bits, row.0.into(), row.1.into());
        push(bits, h.ac_pred_flag.into(), 1);
        let row = CBPY_4.iter().find(|r| r.2 == h.cbpy).unwrap();
        push(bits, row.0.into(), row.1.into());
        if h.mb_type == 5 {
            push(bits, self.dquant as u64, 2);
        }
    }

    pub fn bits(&self) -> Bits {
        let mut bits = Bits::new();
        self.put(&mut bits);
        bits
    }

    // What must be read of it, with the quantiser before it.
    pub fn fields(&self, quantiser_scale: u32) -> Fields {
        let dquant_delta = if self.header.mb_type == 5 { DELTAS[self.dquant] } else { 0 };
        Fields {
            header: self.header,
            dquant_delta,
            quantiser_scale: limited(quantiser_scale, dquant_delta),
        }
    }
}

// How many stuffing codes stand at a position.
pub fn stuffing(data: &[u8], at: usize) -> usize {
    let mut code = Bits::new();
    push(&mut code, STUFFING.0, STUFFING.1);
    let bits = bits_from(data, at);
    bits.chunks(code.len()).take_while(|&one| one == code).count()
}

const SEEN: [&str; 6] = [
    "stuffing before the header",
    "a quantiser that goes down",
    "a quantiser that goes up",
    "a quantiser at its limit",
    "AC prediction by the header alone",
    "AC prediction by the context alone",
];

// What was among those accepted.
#[derive(Default)]
pub struct Seen([u64; 6]);

impl Seen {
    // With the quantiser and the flag of the call.
    pub fn took(&mut self, fields: &Fields, quantiser_scale: u32, ac_pred_flag: bool, data: &[u8], at: usize) {
        let after = quantiser_scale as i32 + fields.dquant_delta;
        let what = [
            stuffing(data, at) > 0,
            fields.quantiser_scale < quantiser_scale,
            fields.quantiser_scale > quantiser_scale,
            after != fields.quantiser_scale as i32,
            fields.header.ac_pred_flag && !ac_pred_flag,
            ac_pred_flag && !fields.header.ac_pred_flag,
        ];
        self.0.iter_mut().zip(what).for_each(|(n, x)| *n += u64::from(x));
    }

    pub fn says(&self) {
        for (what, n) in SEEN.iter().zip(self.0) {
            println!("  {n:>9} {what}");
        }
    }
}
