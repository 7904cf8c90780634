// The lines of `replay`: what is asked and what is due (its head comment has the fields).
use super::layer::{self, Layer, Picture, Step};
use crate::block::DEFAULT_INTRA_QUANT_MATRIX;
use crate::common::bits::bytes_of;
use crate::common::counts::NUMBERS;
use crate::common::dice::Dice;
use crate::common::header::Header;
use crate::common::header_call::{self, Fields};
use crate::common::numbers::transform_state;
use crate::common::setting::{Block, Matrix, Setting, rule};
use crate::common::symbol_call::{self, Call};
use crate::common::{block_call, macroblock_call, whole_call};
use crate::idct::idct_8x8_rounded;

// What the program puts into lent memory before a call; the harness has numbers from a million on there.
const LENT: i64 = 9999;

const KINDS: [&str; 12] = [
    "",
    "DC parts",
    "events",
    "lists",
    "blocks",
    "macroblocks alone",
    "openings",
    "macroblocks in a picture",
    "transforms",
    "headers",
    "whole macroblocks alone",
    "whole ones in a picture",
];

#[derive(Default)]
pub struct Record {
    pub asked: String,
    pub due: String,
    counts: [[u64; NUMBERS]; 12],
}

// Bits and then the end of the data, or bytes and a start.
pub struct Data {
    bytes: Vec<u8>,
    at: usize,
}

impl Data {
    pub fn of_bits(dice: &mut Dice, bits: &[bool]) -> Data {
        let mut bytes = Vec::new();
        let at = bytes_of(&mut bytes, bits, dice.below(8), dice.next());
        Data { bytes, at }
    }

    // a start that no line can say becomes one that it can
    pub fn new(bytes: Vec<u8>, at: usize) -> Data {
        Data {
            bytes,
            at: at.min(i32::MAX as usize),
        }
    }

    // What a call answers to it.
    pub fn number(&self, call: impl Fn(&[u8], usize) -> u32) -> u32 {
        call(&self.bytes, self.at)
    }

    fn numbers(&self) -> impl Iterator<Item = i64> {
        std::iter::once(self.at as i64).chain(self.bytes.iter().map(|&b| b.into()))
    }
}

// The program takes magnitudes: the greatest is that of the least number.
fn unsigned(n: u32) -> i64 {
    assert!(n <= 1 << 31);
    if n == 1 << 31 { -i64::from(n) } else { n.into() }
}

fn flags(these: &[bool]) -> impl Iterator<Item = i64> {
    these.iter().map(|&f| f.into())
}

fn matrix(w: &Matrix) -> Vec<i64> {
    if *w == DEFAULT_INTRA_QUANT_MATRIX {
        return vec![0];
    }
    std::iter::once(1).chain(w.iter().flatten().map(|&n| n.into())).collect()
}

fn setting(s: &Setting) -> Vec<i64> {
    let mut all = vec![unsigned(s.quantiser_scale), unsigned(s.bits_per_pixel)];
    all.extend(flags(&s.flags));
    all.extend(s.dcs.map(i64::from));
    all.extend(s.qps.map(unsigned));
    all.extend(flags(&s.has));
    all.extend(s.column.map(i64::from));
    all.extend(s.row.map(i64::from));
    all.extend(matrix(&s.matrix));
    all
}

fn header(h: &Header) -> [i64; 5] {
    [
        h.not_coded.into(),
        h.mb_type.into(),
        h.cbpc.into(),
        h.ac_pred_flag.into(),
        h.cbpy.into(),
    ]
}

// What is read of a header in bits.
fn fields(f: &Fields) -> impl Iterator<Item = i64> {
    header(&f.header)
        .into_iter()
        .chain([f.dquant_delta.into(), f.quantiser_scale.into()])
}

fn block(b: &Block) -> impl Iterator<Item = i64> {
    b.iter().flatten().map(|&z| z.into())
}

fn samples(all: &[i32]) -> impl Iterator<Item = i64> {
    all.iter().map(|&z| if z < 1_000_000 { z.into() } else { LENT })
}

fn line(text: &mut String, numbers: impl Iterator<Item = i64>) {
    let words: Vec<String> = numbers.map(|n| n.to_string()).collect();
    *text += &words.join(" ");
    text.push('\n');
}

impl Record {
    fn ask(&mut self, kind: usize, numbers: impl IntoIterator<Item = i64>) {
        line(&mut self.asked, std::iter::once(kind as i64).chain(numbers));
    }

    fn accepted(&mut self, kind: usize, numbers: impl IntoIterator<Item = i64>) {
        self.counts[kind][0] += 1;
        line(&mut self.due, std::iter::once(0).chain(numbers));
    }

    // Lent memory, where there is some, must be as before.
    fn refused(&mut self, kind: usize, number: u32, figure: u32) {
        self.counts[kind][number as usize] += 1;
        let kept = if matches!(kind, 3 | 4 | 5 | 7 | 8 | 10 | 11) {
            Some(1)
        } else {
            None
        };
        line(&mut self.due, [number.into(), figure.into()].into_iter().chain(kept));
    }

    pub fn symbol(&mut self, c: Call, data: &Data) -> u32 {
        let (kind, fields, values) = match c {
            Call::Dc { chroma } => (1, vec![chroma], 2),
            Call::Event { reversible, inter } => (2, vec![reversible, inter], 3),
            Call::List {
                reversible,
                inter,
                dc_coded,
            } => (3, vec![reversible, inter, dc_coded], 64),
        };
        self.ask(kind, flags(&fields).chain(data.numbers()));
        let a = symbol_call::due(c, &data.bytes, data.at);
        let (position, values) = (a.position as i64, a.values[..values].iter().map(|&z| i64::from(z)));
        match (a.number, kind) {
            (0, 3) => self.accepted(kind, std::iter::once(position).chain(values)),
            (0, _) => self.accepted(kind, values.chain([position])),
            _ => self.refused(kind, a.number, a.figure),
        }
        a.number
    }

    pub fn block(&mut self, c: &block_call::Call, data: &Data) {
        let i = c.i.min(i32::MAX as usize) as i64;
        let fields = std::iter::once(i).chain(flags(&c.reading)).chain(setting(&c.setting));
        self.ask(4, fields.chain(data.numbers()));
        let a = c.due(&data.bytes, data.at);
        if a.number != 0 {
            return self.refused(4, a.number, a.figure);
        }
        let first = [a.dc.into(), a.position as i64];
        self.accepted(4, first.into_iter().chain(block(&a.levels)).chain(block(&a.samples)));
    }

    pub fn macroblock(&mut self, c: &macroblock_call::Call, data: &Data) {
        let fields = header(&c.header).into_iter().chain(flags(&c.reading)).chain([c.room as i64]);
        self.ask(5, fields.chain(setting(&c.setting)).chain(data.numbers()));
        let a = c.due(&data.bytes, data.at);
        if a.number != 0 {
            return self.refused(5, a.number, a.figure);
        }
        self.accepted(5, [a.bits as i64, a.position as i64].into_iter().chain(samples(&a.samples)));
    }

    pub fn heading(&mut self, c: header_call::Call, data: &Data) {
        self.ask(9, std::iter::once(unsigned(c.quantiser_scale)).chain(data.numbers()));
        let a = c.due(&data.bytes, data.at);
        if a.number != 0 {
            return self.refused(9, a.number, a.figure);
        }
        self.accepted(9, std::iter::once(a.position as i64).chain(fields(&a.fields)));
    }

    pub fn whole(&mut self, c: &whole_call::Call, data: &Data) {
        let first = flags(&c.reading).chain([c.room as i64]);
        self.ask(10, first.chain(setting(&c.setting)).chain(data.numbers()));
        let a = c.due(&data.bytes, data.at);
        if a.number != 0 {
            return self.refused(10, a.number, a.figure);
        }
        let first = [a.bits as i64, a.position as i64].into_iter().chain(fields(&a.fields));
        self.accepted(10, first.chain(samples(&a.samples)));
    }

    // The picture with its blocks, if it is opened.
    pub fn opening(&mut self, width: u32, height: u32, depth: u32, method: bool) -> Option<Layer> {
        let fields = [width, height, depth].map(unsigned);
        self.ask(6, fields.into_iter().chain([method.into()]));
        let number = layer::opening(width, height, depth);
        if number != 0 {
            self.refused(6, number, 0);
            return None;
        }
        self.accepted(6, fields.into_iter().chain([method.into(), 0]));
        Some(Layer::new(Picture {
            numbers: [width, height, depth, 0],
            method,
        }))
    }

    pub fn step(&mut self, layer: &mut Layer, s: &Step) -> u32 {
        let (context, reading) = s.flags.split_at(4);
        let stored = s.stored.min(192 * layer.picture.numbers[0] as usize);
        let data = Data::new(s.data.clone(), s.at);
        let lent = [s.room as i64, stored as i64, unsigned(s.quantiser_scale)];
        let kind = if s.in_bits { 11 } else { 7 };
        let handed = header(&s.header).into_iter().filter(|_| !s.in_bits);
        let all = handed.chain(flags(reading)).chain(lent);
        self.ask(kind, all.chain(flags(context)).chain(matrix(&s.matrix)).chain(data.numbers()));
        let a = layer.call(s, stored);
        if a.number != 0 {
            self.refused(kind, a.number, a.figure);
            return a.number;
        }
        let first = [a.bits as i64, a.position as i64, a.picture.numbers[3].into()];
        let read = fields(&a.fields).filter(|_| s.in_bits);
        self.accepted(kind, first.into_iter().chain(read).chain(samples(&a.samples)));
        0
    }

    // Zeros at the end are not written.
    pub fn transform(&mut self, values: &Block, depth: u32, to_even: bool) {
        let last = block(values).enumerate().filter(|(_, z)| *z != 0).last().map_or(0, |(k, _)| k + 1);
        self.ask(8, [depth.into(), to_even.into()].into_iter().chain(block(values).take(last)));
        match transform_state(values, depth) {
            0 => self.accepted(8, block(&idct_8x8_rounded(values, depth, rule(to_even)))),
            number => self.refused(8, number, 0),
        }
    }

    // How many lines of each kind, and how they are answered.
    pub fn says(&self) {
        for (kind, counts) in KINDS.iter().zip(&self.counts).skip(1) {
            let mut text = format!("{kind:26} {:>5} lines: {:>4} accepted", counts.iter().sum::<u64>(), counts[0]);
            for (number, n) in counts.iter().enumerate().skip(1).filter(|(_, n)| **n > 0) {
                text += &format!(", {n} by {number}");
            }
            println!("{text}");
        }
        println!("{} bytes asked, {} bytes due", self.asked.len(), self.due.len());
    }
}
